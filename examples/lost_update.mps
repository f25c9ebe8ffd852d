primaries 2
session s1 on 1
session s2 on 2
s1 begin
s1 put 1 10
s1 commit
# both read the counter, and each would write it one higher; the second writer is refused, and no update is lost
s1 begin
s2 begin
s1 get 1
s2 get 1
s1 put 1 11
s1 commit
s2 put 1 11
s2 commit
