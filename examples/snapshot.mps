primaries 2
session s1 on 1
session s2 on 2
s2 begin
s2 put 5 old
s2 commit
# s1 sees the commits up to its begin, and none that comes later
s1 begin
s1 get 5
s2 begin
s2 put 5 new
s2 commit
s1 get 5
s1 commit
