primaries 2
session s1 on 1
session s2 on 2
# for `mp run`: each primary on a thread of its own. Either session may commit first, and the other one's transaction may begin before or after that
s1 begin
s1 put 1 a
s1 commit
s2 begin
s2 put 2 b
s2 commit
