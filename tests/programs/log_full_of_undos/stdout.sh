awk 'BEGIN { for (i = 0; i < 1000000; i += 2) printf "%d: done\n%d: undone %d\n", i, i + 1, i }'
printf 'refused 55 log full\nrefused 55 log full\nrefused 55 log full\nnames\n'
