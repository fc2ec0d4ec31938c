# 16,385 lines: one more than there may be
yes '{"ended": "stands", "events": [0, 1], "locations": ["a.c:1", "b.c:2"]}' | head -n 16385
