for i in $(seq 256); do echo "T$i|w(x)|$i"; done; printf -- "---\n1 new A\n1 add A 255\n1 show A\n"
