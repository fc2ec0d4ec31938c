yes "T1|w(x)|1" | head -n 1048576; printf -- "---\n1 new A\n1 add A 0\n1 add A 2\n1 add A 1048576\n"
