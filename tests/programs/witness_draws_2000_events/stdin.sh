for ((event = 0; event < 2000; event++)); do echo 'A|w(own)|1'; done
echo 'A|w(x)|1'
echo 'B|w(x)|2'
