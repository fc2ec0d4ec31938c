# a script of one command more than the log holds, and then two calls that log nothing
printf 'T1|w(x)|1\n---\n'
seq -f '1 new A%.0f' 0 1000000
printf '1 add A0 0\n1 show A0\n'
