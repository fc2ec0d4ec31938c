# the first 1,000 candidates are those of event 0 with the events of other threads
printf 'events 65536\nthreads 64\nvariables 1\nlocks 0\n'
seq 0 63 | awk '{ print "thread " $1 " T" $1 " 1024" }'
echo "candidates 1000"
seq 1 1015 | awk '$1 % 64 { print "candidate 0 " $1 " x" }'
