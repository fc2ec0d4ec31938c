# to each of eight clients 25 times: nothing to undo, and no names
for client in 1 2 3 4 5 6 7 8; do
    echo "client $client"
    for _ in $(seq 25); do printf 'refused 51 nothing to undo\nnames\n'; done
done
echo 'log 0'
