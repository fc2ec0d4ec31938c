# the line `---` is past the bytes that are kept for notes, and is seen
yes 'T1|begin|a trace of skipped lines, longer than a mebibyte' | head -n 30000
printf -- '\t --- \r'
