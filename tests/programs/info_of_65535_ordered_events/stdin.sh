# 64 threads in turn: take a lock, write the variable, let the lock go
seq 0 21844 | awk '{ t = $1 % 64; print "T" t "|acq(L)|1"; print "T" t "|w(x)|2"; print "T" t "|rel(L)|3" }'
