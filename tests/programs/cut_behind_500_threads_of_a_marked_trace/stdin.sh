# The mark is before event 0.
printf '\357\273\277'
for i in $(seq 600); do echo "main|fork(T$i)|1"; echo "T$i|w(x)|2"; echo "main|join(T$i)|3"; done
