# a thread writes one variable as often as 16 bits count, then another one, which the other thread reads
seq 1 65535 | awk '{ print "T1|w(y)|1" }'
printf 'T1|w(x)|2\nT2|r(x)|3\n'
