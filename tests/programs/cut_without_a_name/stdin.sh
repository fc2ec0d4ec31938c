# all names from `window` to the longest
for count in $(seq 0 249); do
    printf 'T1|w(window%s)|\n' "$(head -c "$count" /dev/zero | tr '\0' _)"
done
