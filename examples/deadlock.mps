primaries 2
session s1 on 1
session s2 on 2
# each writes a row and then the other's; s2's transaction is the younger one, so it is refused and never waits for s1's
s1 begin
s2 begin
s1 put 1 a
s2 put 2 b
s1 put 2 c
s2 put 1 d
s1 commit
s2 commit
