yes "" | head -c 200000000
