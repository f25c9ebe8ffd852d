primaries 1
session s1 on 1
s1 begin
s1 put 7 a
s1 get 7
s1 commit
