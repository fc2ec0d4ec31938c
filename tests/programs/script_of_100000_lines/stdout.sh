seq 0 49999 | sed "s/$/: done/"; yes shown | head -n 50000
