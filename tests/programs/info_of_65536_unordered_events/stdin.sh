# 64 threads in turn write the variable, and nothing orders them
seq 0 65535 | awk '{ print "T" $1 % 64 "|w(x)|" $1 }'
