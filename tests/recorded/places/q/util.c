int q_count; void q_work(void) { q_count++; }
