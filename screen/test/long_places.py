"""A trace whose locations have no room in a narrow window."""

FOLDER = "/build/product-1.22.4/src/modules/scheduler/internal"
CALLS = " < third_party/library/src/crypto/montgomery_inverse.cc:34 < main.cpp:7"
PLACES = (
    "".join(
        f"worker-{name}|w(shared_counter_of_all_the_workers)|{FOLDER}/work_queue.cpp:120{line}{CALLS}\n"
        for line, name in enumerate(("alpha", "beta"))
    )
    + "worker-beta|acq(l)|b:1\nworker-beta|w(x)|b:2\nworker-beta|rel(l)|b:3\n"
    "worker-alpha|acq(l)|a:1\nworker-alpha|w(x)|a:2\nworker-alpha|rel(l)|a:3\n"
)
