yes "" | head -c 268435456
