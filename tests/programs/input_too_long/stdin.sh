yes "" | head -c 268435457
