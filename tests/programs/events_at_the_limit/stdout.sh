printf "0: done\n1: done\nrefused 46 22 not next\nrefused 46 21 no such event\n"
