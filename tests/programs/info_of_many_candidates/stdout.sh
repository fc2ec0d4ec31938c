# of 1,600 pairs the first 1,000
printf 'events 80\nthreads 2\nvariables 1\nlocks 0\nthread 0 T1 40\nthread 1 T2 40\ncandidates 1000\n'
for first in $(seq 0 24); do for second in $(seq 40 79); do echo "candidate $first $second x"; done; done
