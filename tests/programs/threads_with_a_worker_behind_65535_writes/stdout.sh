# the slice of the write and the read has all writes before
printf 'client 1\nlog 1\n0 2 propose 65535 65536'
seq 0 65534 | awk '{ printf " %s", $1 }'
echo
