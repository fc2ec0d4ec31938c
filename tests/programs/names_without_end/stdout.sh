printf "0: done\n1: done\n2: done\nrefused 46 22 not next\n"
