# a thread writes a variable as often as 16 bits count and once more, and another one reads it
seq 1 65536 | awk '{ print "T1|w(x)|1" }'
echo 'T2|r(x)|2'
