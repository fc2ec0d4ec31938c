# `new` and `undo` in turn until the log is full, and then three calls more and a look
printf 'T1|w(x)|1\nT1|acq(l)|2\nT1|rel(l)|3\nT2|acq(l)|4\nT2|rel(l)|5\nT2|w(x)|6\n---\n'
awk 'BEGIN { for (i = 0; i < 500000; i++) printf "1 new A\n1 undo\n" }'
printf '1 new A\n1 undo\n1 undo 0\n1 list\n'
