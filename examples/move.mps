primaries 1
session s1 on 1
# a transaction that moves a value from key 1 to key 2
s1 begin
s1 put 1 apple
s1 copy 1 2
s1 del 1
s1 scan 0 10
s1 commit
