# Of one queue each two blocks of different workers have three conflicting pairs, a write and a read or two writes. Each block reads what the one
# before it wrote, so what stands before that write comes before all that follows the read. A write and a later read are kept apart by the lock alone where the
# reader had not learned of the write by its blocks before; all other pairs are forced, and so are those with the main thread, which has waited. How many events
# have to come before the two that race is counted from the last block back: a block that reads needs the one before it at its queue, up to where that
# lets the lock go.
awk 'BEGIN {
    blocks = 199993
    for (i = 0; i < blocks; i++) {
        t = 1 + i % 15; q = int(i * 11 / 7) % 16
        thread[i] = t; before[i] = (q in last) ? last[q] : -1; last[q] = i
        start[i] = 16 + 5 * i + (i > 100000) + (i > 100003)
        all[q]++; own[q, t]++
        for (j = before[i]; j >= 0 && j > learned[t, thread[j]] - 1; j = before[j]) guarded++
        for (u = 1; u <= 15; u++) {
            if (written[q, u] > learned[t, u]) learned[t, u] = written[q, u]
            if (u == t) learned[t, u] = i + 1
            written[q, u] = learned[t, u]
            if (i == 100000) statistics[u] = learned[t, u]
            if (i == 100003 && statistics[u] > learned[t, u]) learned[t, u] = statistics[u]
        }
    }
    for (q = 0; q < 16; q++) {
        same = 0
        for (t = 1; t <= 15; t++) same += own[q, t] * own[q, t]
        pairs += 3 * (all[q] * all[q] - same) / 2
    }
    pairs += all[0]
    first = start[100000] + 5; second = start[100003] + 5
    for (t = 1; t <= 15; t++) need[t] = -1
    need[thread[100000]] = first - 1; need[thread[100003]] = second - 1
    for (i = 100003; i >= 0; i--) {
        t = thread[i]; b = before[i]
        if (need[t] < start[i]) continue
        size[t] += (need[t] < start[i] + 5) ? need[t] - start[i] + 1 : 5
        if (need[t] > start[i] && b >= 0 && need[thread[b]] < start[b] + 3) need[thread[b]] = start[b] + 3
    }
    for (t = 1; t <= 15; t++) if (size[t]) { events += size[t]; threads++; forks = t }
    print "events " 16 + 5 * blocks + 2 + 17
    print "threads 16"
    printf "pairs %.0f\n", pairs + 1
    print "candidates 1\nopen 0"
    printf "guarded %.0f\nforced %.0f\n", guarded, pairs - guarded
    print "places 4\nraces 1\nundecided 0\napart 3"
    print "race " first " " second " candidate pairs 1 variables 1 events " events + 1 + forks " threads " threads + 1
    print "  T" thread[100000] "|w(statistics)|worker.c:30"
    print "  T" thread[100003] "|r(statistics)|worker.c:31"
}'
