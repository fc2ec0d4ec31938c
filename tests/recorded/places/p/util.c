int p_count; void p_work(void) { p_count++; }
