# the read sees the last of as many writes as 16 bits count and one more
seq 1 65536 | awk '{ print "T1|w(x)|1" }'
printf 'T2|r(x)|2\n---\n1 new A\n1 add A 0\n1 add A 65536\n'
