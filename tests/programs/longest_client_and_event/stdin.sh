printf "T1|w(x)|1\n---\n"; printf "%040d new A\n" 1; printf "1 add A %0200d\n" 0
