printf "0: done\n1: done\nshown 255\n"
