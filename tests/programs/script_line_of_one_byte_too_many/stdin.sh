# a line of 65,537 bytes between its blanks: a client, 65,532 blanks, a word
printf 'T1|w(x)|1\n---\n'
printf '  1%65532slist  \n' ''
