/* What a thread opens late. */
int plugged;
void touch(void);
void touch(void) { plugged++; /* RACE */ }
