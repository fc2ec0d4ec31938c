# 600 threads, one after another, and then 4,000 events of one. The first window of that one has all its events.
for i in $(seq 600); do echo "main|fork(T$i)|1"; echo "T$i|w(x)|2"; echo "main|join(T$i)|3"; done
for i in $(seq 4000); do echo "main|w(y)|4"; done
