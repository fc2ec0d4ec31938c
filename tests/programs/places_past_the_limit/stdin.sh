# Two threads that nothing orders write one variable, each at 1,025 places: 1,050,625 pairs of places.
for thread in 1 2; do
    seq -f "T$thread|w(x)|place %.0f of $thread" 1025
done
