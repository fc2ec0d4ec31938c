# A million events whose lines have 300 bytes: more than a window holds, which has 268,435,456 bytes at most.
yes "T0|w(y)|$(printf '%0291d' 0)" | head -n 1000098
echo 'T1|w(x)|a'
echo 'T2|w(x)|b'
