# a batch of 64 commands and one of 65, which make one name and drop it in turn
turns=$(printf 'new A ; drop A ; %.0s' {1..32})
printf 'T1|w(x)|1\n---\n1 batch %s\n1 batch %snew A\n1 list\n1 undo\n' "${turns% ; }" "$turns"
