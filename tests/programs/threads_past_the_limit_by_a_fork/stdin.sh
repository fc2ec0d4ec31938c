for i in $(seq 255); do echo "T$i|w(x)|$i"; done; echo "T256|fork(T257)|256"
