seq -f '%.0f: done' 0 999999
printf 'refused 55 log full\nrefused 55 log full\nshown\n'
