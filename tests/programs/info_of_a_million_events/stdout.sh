# 199,993 blocks of five events, in turn by 15 workers, and two accesses with no lock; the main thread begins and joins these, and accesses two variables
awk 'BEGIN {
    blocks = 199993
    print "events 1000000\nthreads 16\nvariables 33\nlocks 16\nthread 0 T0 33"
    for (t = 1; t <= 15; t++) print "thread " t " T" t " " 5 * (int(blocks / 15) + (t <= blocks % 15)) + (t == 1 + 100000 % 15) + (t == 1 + 100003 % 15)
    print "candidates 1\ncandidate 500021 500037 statistics"
}'
