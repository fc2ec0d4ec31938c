# Events 0 to 1299, a line without an event, and the rest.
for i in $(seq 600); do echo "main|fork(T$i)|1"; echo "T$i|w(x)|2"; echo "main|join(T$i)|3"; done | sed "1300a a line"
