# the lock orders all writes: no candidate
printf 'events 65535\nthreads 64\nvariables 1\nlocks 1\n'
seq 0 63 | awk '{ print "thread " $1 " T" $1 " " ($1 < 21 ? 1026 : 1023) }'
echo "candidates 0"
