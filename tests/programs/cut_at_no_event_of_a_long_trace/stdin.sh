echo 'T1|acq(l)|0'
yes 'T1|w(x)|1' | head -n 1048578
echo 'T1|rel(l)|2'
