primaries 1
session s1 on 1
# a transaction that is rolled back leaves nothing, and one that only reads draws no timestamp
s1 begin
s1 put 1 a
s1 rollback
s1 begin
s1 get 1
s1 commit
s1 begin
s1 put 1 b
s1 commit
s1 begin
s1 get 1
s1 commit
