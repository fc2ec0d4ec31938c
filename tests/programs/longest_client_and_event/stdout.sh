printf "0: done\n1: done\n"
