# T1's section on l has to come before T0's, so the race is in no list in the order of the trace. The search takes each
# of T0's 1,500 reads as a step.
seq 1500 | sed 's/.*/T0|r(y)|a.c:1/'
printf 'T0|acq(l)|a.c:2\nT0|w(x)|a.c:3\nT0|rel(l)|a.c:4\n'
printf 'T1|acq(l)|b.c:1\nT1|rel(l)|b.c:2\nT1|w(x)|b.c:3\n'
