# 4,097 acquires that nothing releases, and then 1,400 reads by another thread.
awk 'BEGIN {
    for (i = 0; i < 4097; i++) print "T0|acq(l" i ")|a.c:1"
    for (i = 0; i < 1400; i++) print "T1|r(x)|a.c:2"
}'
