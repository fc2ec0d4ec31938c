# What a recording of a program with a pool of workers looks like: the main thread begins 15 workers, who take work from 16 queues, each
# under its lock, and note it in their own stacks; block by block, 199,993 of them, five events each. In the middle one worker writes the
# statistics with no lock, and three blocks later another reads them. The main thread waits for all, and reads the first queue.
awk 'BEGIN {
    print "T0|w(begun)|main.c:10"
    for (t = 1; t <= 15; t++) print "T0|fork(T" t ")|main.c:12"
    for (i = 0; i < 199993; i++) {
        t = 1 + i % 15; q = int(i * 11 / 7) % 16
        print "T" t "|acq(queues#1+" q * 64 ")|queue.c:20 < worker.c:8"
        print "T" t "|r(queues#1+" q * 64 + 40 ")|queue.c:21 < worker.c:8"
        print "T" t "|w(queues#1+" q * 64 + 40 ")|queue.c:22 < worker.c:8"
        print "T" t "|rel(queues#1+" q * 64 ")|queue.c:23 < worker.c:8"
        print "T" t "|w(stack:T" t "+16)|worker.c:9"
        if (i == 100000) print "T" t "|w(statistics)|worker.c:30"
        if (i == 100003) print "T" t "|r(statistics)|worker.c:31"
    }
    for (t = 1; t <= 15; t++) print "T0|join(T" t ")|main.c:18"
    print "T0|r(queues#1+40)|main.c:19"
    print "T0|r(begun)|main.c:20"
}'
