// The lock inside of std::atomic<std::shared_ptr> is let go by a relaxed access, which orders nothing: what its sections
// do would seem to race. Here it has the order that it needs. What is included first keeps the name as it is.
#pragma GCC system_header
#include <bits/atomic_base.h>
#pragma push_macro("memory_order_relaxed")
#define memory_order_relaxed memory_order_acquire
#include_next <bits/shared_ptr_atomic.h>
#pragma pop_macro("memory_order_relaxed")
