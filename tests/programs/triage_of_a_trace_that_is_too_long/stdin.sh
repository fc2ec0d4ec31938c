yes 'T1|w(x)|1' | head -n 1048577
