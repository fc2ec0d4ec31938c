for i in $(seq 256); do echo "T$i|acq(l$i)|$i"; done; echo; echo "T1|w(x)|257"; echo "T257|w(x)|258"
