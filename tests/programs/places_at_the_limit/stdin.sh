# Two threads that nothing orders write one variable, each at 1,024 places: 1,048,576 pairs of places, which is the most.
for thread in 1 2; do
    seq -f "T$thread|w(x)|place %.0f of $thread" 1024
done
