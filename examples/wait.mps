primaries 2
session s1 on 1
session s2 on 2
# s1's transaction is the older one, so its write waits for the younger one that holds the row, until that is rolled back
s1 begin
s2 begin
s2 put 5 a
s1 put 5 b
s2 rollback
s1 commit
