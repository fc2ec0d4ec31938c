for i in $(seq 257); do echo "T$i|w(x)|$i"; done
