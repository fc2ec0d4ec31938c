# a line of 65,536 bytes between its blanks: a client, 65,531 blanks, a word
printf 'T1|w(x)|1\n---\n'
printf '  1%65531slist  \n' ''
