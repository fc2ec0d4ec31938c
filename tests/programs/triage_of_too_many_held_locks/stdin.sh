# T1 takes each lock once. Then T2 takes all, with a write after each: its sets have 142 million locks together.
seq 16880 | sed 's/.*/T1|acq(l&)|1\nT1|rel(l&)|1/'
seq 16880 | sed 's/.*/T2|acq(l&)|2\nT2|w(x)|2/'
