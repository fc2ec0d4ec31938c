printf "T1|w(x)|1\n---\n1 new A\n"; head -c 65536 /dev/zero | tr "\0" x; echo
