# A line of 65,536 bytes, and one of 65,537
line() { printf '{"ended":"stands","events":[0,1],"locations":["%s","b"]}\n' "$(head -c "$1" /dev/zero | tr '\0' a)"; }
line 65482
line 65483
