# the line is past the bytes that are kept for notes, so that its word is not shown
yes 'T1|begin|a trace of skipped lines, longer than a mebibyte' | head -n 30000
printf -- '---\n1 ad A\n'
