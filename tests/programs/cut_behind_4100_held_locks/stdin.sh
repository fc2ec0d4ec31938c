# T0 takes 4,100 locks and keeps them. Then 400 threads come and go, so that few lines are read at once.
awk 'BEGIN {
    for (i = 0; i < 4100; i++) print "T0|acq(l" i ")|a.c:1"
    for (i = 1; i <= 400; i++) print "T0|fork(T" i ")|a.c:2\nT" i "|w(x)|a.c:3\nT0|join(T" i ")|a.c:4"
}'
