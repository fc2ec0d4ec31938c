for i in $(seq 3000); do echo "main|fork(T$i)|1"; echo "T$i|w(x)|2"; echo "main|join(T$i)|3"; done
echo "T7|w(x)|4"
