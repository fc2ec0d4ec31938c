yes "" | head -n 70000000; echo "T1"
