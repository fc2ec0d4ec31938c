printf "T1|w(x)|1\n---\n"; seq 50000 | sed "s/.*/1 new S&/"; seq 50000 | sed "s/.*/1 show S&/"
