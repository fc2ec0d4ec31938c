for i in $(seq 0 65535); do echo "T$((i % 64))|w(variable_$i)|location $i"; done; printf -- "---\n1 new A\n1 add A 63\n1 add A 127\n1 add A 65535\n"
