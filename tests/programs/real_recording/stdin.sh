# a real recording, and a script that shows a pair of its accesses
examples=$(dirname "$0")/../../../examples
cat "$examples/pdsh.std"
printf -- '---\n'
cat "$examples/pdsh_script.txt"
