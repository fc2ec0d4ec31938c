# 300 threads come and go, so that few lines are read at once. Then T0 takes 4,100 locks and keeps them: the window
# begins there, so nothing before it is refused.
awk 'BEGIN {
    for (i = 1; i <= 300; i++) print "T0|fork(T" i ")|a.c:1\nT" i "|w(x)|a.c:2\nT0|join(T" i ")|a.c:3"
    for (i = 0; i < 4100; i++) print "T0|acq(l" i ")|a.c:4"
    for (i = 0; i < 10; i++) print "T0|w(x)|a.c:5"
}'
