"""Judges record/ on programs of C++20 made by chance, whose races are known: some are planted, and some orders too.

A scenario has its own threads. Its first thread writes a datum, and the last one reads it. What passes from each
thread to the next orders the two, or the datum is also accessed before or after that: that is a race, and a label
names it. So each race of the recording has to have its label, and each label a race, within some seeds.

    recorded_planted.py PROGRAM FIRST COUNT [CC CXX]     this many programs from a seed on, in its own process
"""

import os
import random
import re
import sys
import tempfile
from collections.abc import Iterator

from judging import Case, Wrong
from recorded_strangers import judge_stranger, labels_of

# The seeds of the programs that are always tried, how many races they have at least, and how many scenarios each has.
FEW, LEAST_RACES, SCENARIOS = (8, 15, 20), 11, 6

HEAD = """#include <any>
#include <array>
#include <atomic>
#include <barrier>
#include <bitset>
#include <chrono>
#include <condition_variable>
#include <cstdio>
#include <cstring>
#include <deque>
#include <exception>
#include <forward_list>
#include <functional>
#include <future>
#include <latch>
#include <list>
#include <map>
#include <memory>
#include <mutex>
#include <optional>
#include <queue>
#include <semaphore>
#include <set>
#include <shared_mutex>
#include <sstream>
#include <stdexcept>
#include <stop_token>
#include <string>
#include <thread>
#include <unordered_map>
#include <variant>
#include <vector>
#include <pthread.h>
#include <semaphore.h>
#include <sys/eventfd.h>
#include <sys/socket.h>
#include <unistd.h>
using namespace std::chrono_literals;
static thread_local volatile long seen;
static thread_local std::string own = "a text of the thread's own, in a block";
struct Big { long part[12]; };
struct Ends {
    int of[2];
    Ends(int socket) { if (socket ? socketpair(AF_UNIX, SOCK_STREAM, 0, of) : pipe(of)) std::abort(); }
};
struct Sem { sem_t is; Sem(int n = 0) { sem_init(&is, 0, n); } };
struct Both { pthread_barrier_t is; Both() { pthread_barrier_init(&is, nullptr, 2); } };
template <class T> struct Queue {
    std::mutex m; std::condition_variable c; std::deque<T> all;
    void put(T t) { std::lock_guard<std::mutex> l(m); all.push_back(std::move(t)); c.notify_one(); }
    T take() {
        std::unique_lock<std::mutex> l(m);
        c.wait(l, [this] { return !all.empty(); });
        T t = std::move(all.front());
        all.pop_front();
        return t;
    }
};
static void put(int f) { uint64_t n = 1; if (write(f, &n, sizeof n) != sizeof n) std::abort(); }
static void take(int f) { uint64_t n; if (read(f, &n, sizeof n) != sizeof n) std::abort(); }
static void *runs(void *f) { (*(void (**)())f)(); return nullptr; }
"""

# A datum: its declaration, what writes it, and what reads it.
DATA = [
    ("int D;", "D = 1;", "seen = D;"),
    ("int D;", "D++;", "seen = D;"),
    ("char D;", "D |= 4;", "seen = D;"),
    ("double D;", "D = 2.5;", "seen = D > 2;"),
    ("float D;", "D = 2.5;", "seen = D > 2;"),
    ("__int128 D;", "D = 5;", "seen = (long)D;"),
    ("struct { int a : 3, b : 5; } D;", "D.a = 1;", "seen = D.b;"),
    ("Big D, oD;", "D = oD;", "seen = D.part[11];"),
    ("Big D;", "std::memset(&D, 1, sizeof D);", "seen = D.part[7];"),
    ("char D[40];", 'std::snprintf(D, sizeof D, "%d words", 5);', "seen = D[6];"),
    ("std::array<int, 5> D;", "D.fill(3);", "seen = D[4];"),
    ("std::bitset<100> D;", "D.set(70);", "seen = D.test(71);"),
    ("std::string D;", 'D.assign("a text that is longer than sixteen bytes");', "seen = D.size();"),
    ('std::string D = "text";', 'D += "s";', "seen = D[4];"),
    ("std::vector<int> D;", "D.push_back(1);", "seen = D.size();"),
    ("std::vector<int> D(5);", "D[3] = 1;", "seen = D[3];"),
    ("std::vector<bool> D(50);", "D[3] = true;", "seen = D[4];"),
    ("std::deque<int> D;", "D.push_front(1);", "seen = D.size();"),
    ("std::list<int> D{1};", "D.push_back(1);", "seen = D.back();"),
    ("std::forward_list<int> D{1};", "D.push_front(1);", "seen = D.front();"),
    ("std::map<int, int> D;", "D[5] = 1;", "seen = D.size();"),
    ("std::set<std::string> D;", 'D.insert("one");', "seen = D.empty();"),
    ("std::unordered_map<int, int> D;", "D[5] = 1;", "seen = D.size();"),
    ("std::priority_queue<int> D;", "D.push(3);", "seen = D.size();"),
    ("std::unique_ptr<int> D;", "D = std::make_unique<int>(1);", "seen = D != nullptr;"),
    ("auto D = std::make_unique<int>(1);", "*D = 2;", "seen = *D;"),
    ("std::shared_ptr<int> D;", "D = std::make_shared<int>(1);", "seen = D != nullptr;"),
    ("auto D = std::make_shared<Big>();", "D->part[3] = 2;", "seen = D->part[3];"),
    ("std::optional<int> D;", "D = 1;", "seen = D.has_value();"),
    ("std::variant<int, std::string> D;", 'D = "text";', "seen = D.index();"),
    ("std::any D;", "D = 5;", "seen = D.has_value();"),
    ("std::function<int()> D;", "D = [] { return 1; };", "seen = (bool)D;"),
    ("std::pair<int, long> D;", "D = {1, 2};", "seen = D.second;"),
    ("volatile int D;", "D = 1;", "seen = D;"),
]  # fmt: skip

# What passes from one thread to the next: what it needs, what the first does, and what the next does.
ORDER = "std::memory_order_"
LINKS = [
    ("std::mutex mL; std::condition_variable cL; bool fL;",
     "{ std::lock_guard<std::mutex> l(mL); fL = true; cL.notify_all(); }",
     "{ std::unique_lock<std::mutex> l(mL); cL.wait(l, [] { return fL; }); }"),
    ("std::mutex mL; std::condition_variable cL; bool fL;",
     "mL.lock(); fL = true; mL.unlock(); cL.notify_one();",
     "{ std::unique_lock<std::mutex> l(mL); while (!fL) cL.wait_for(l, 20ms); }"),
    ("std::shared_mutex mL; std::condition_variable_any cL; bool fL;",
     "{ std::unique_lock<std::shared_mutex> l(mL); fL = true; cL.notify_all(); }",
     "{ std::shared_lock<std::shared_mutex> l(mL); cL.wait(l, [] { return fL; }); }"),
    ("std::mutex mL; bool fL;", "{ std::scoped_lock l(mL); fL = true; }",
     "for (bool there = false; !there; std::this_thread::yield()) { std::scoped_lock l(mL); there = fL; }"),
    ("std::atomic<int> aL;", "aL = 1;", "while (!aL) std::this_thread::yield();"),
    ("std::atomic<int> aL;", "aL.store(1, ORDERrelease);", "while (aL.load(ORDERacquire) != 1) {}"),
    ("std::atomic<long> aL;", "aL.fetch_add(2, ORDERrelease);", "while (aL.fetch_sub(0, ORDERacquire) != 2) {}"),
    ("std::atomic<short> aL;", "aL.exchange(1, ORDERacq_rel);",
     "for (short one = 1; !aL.compare_exchange_weak(one, 2, ORDERacquire, ORDERrelaxed); one = 1) {}"),
    ("std::atomic<bool> aL;", "std::atomic_thread_fence(ORDERrelease); aL.store(true, ORDERrelaxed);",
     "while (!aL.load(ORDERrelaxed)) {} std::atomic_thread_fence(ORDERacquire);"),
    ("std::atomic<char> aL;", "std::atomic_thread_fence(ORDERseq_cst); aL.store(1, ORDERrelaxed);",
     "while (!aL.load(ORDERacquire)) {}"),
    ("std::atomic<int> aL;", "aL.store(1, ORDERrelease); aL.notify_one();", "aL.wait(0, ORDERacquire);"),
    ("std::atomic_flag aL;", "aL.test_and_set(ORDERrelease); aL.notify_all();", "aL.wait(false, ORDERacquire);"),
    ("std::atomic_flag aL = ATOMIC_FLAG_INIT;", "aL.test_and_set();", "while (!aL.test()) std::this_thread::yield();"),
    ("std::atomic<Big *> aL; Big bL;", "aL.store(&bL, ORDERrelease);", "while (!aL.load(ORDERacquire)) {}"),
    ("int aL;", "std::atomic_ref<int>(aL).store(1, ORDERrelease);",
     "while (!std::atomic_ref<int>(aL).load(ORDERacquire)) {}"),
    ("std::atomic<std::shared_ptr<int>> aL;", "aL.store(std::make_shared<int>(1));",
     "while (!aL.load()) std::this_thread::yield();"),
    ("std::shared_ptr<int> aL;", "std::atomic_store(&aL, std::make_shared<int>(1));",
     "while (!std::atomic_load(&aL)) std::this_thread::yield();"),
    ("std::promise<int> pL;", "pL.set_value(5);", "seen = pL.get_future().get();"),
    ("std::promise<void> pL;", "pL.set_value();",
     "{ auto f = pL.get_future(); while (f.wait_for(10ms) != std::future_status::ready) {} f.get(); }"),
    ("std::promise<std::string> pL; auto fL = pL.get_future().share();", 'pL.set_value("a text that is long enough");',
     "seen = fL.get().size();"),
    ("std::promise<int> pL;",
     'try { throw std::runtime_error("thrown"); } catch (...) { pL.set_exception(std::current_exception()); }',
     "try { pL.get_future().get(); } catch (std::exception &e) { seen = e.what()[0]; }"),
    ("std::packaged_task<int(int)> pL([](int n) { return n + 1; });", "pL(3);", "seen = pL.get_future().get();"),
    ("std::latch lL(1);", "lL.count_down();", "lL.wait();"),
    ("std::latch lL(2);", "lL.count_down();", "lL.arrive_and_wait();"),
    ("std::barrier<> bL(2);", "bL.arrive_and_wait();", "bL.arrive_and_wait();"),
    ("std::barrier<> bL(2);", "bL.arrive_and_drop();", "bL.arrive_and_wait();"),
    ("std::barrier<> bL(2);", "(void)bL.arrive();", "bL.arrive_and_wait();"),
    ("std::binary_semaphore sL(0);", "sL.release();", "sL.acquire();"),
    ("std::counting_semaphore<9> sL(0);", "sL.release(2);", "while (!sL.try_acquire()) std::this_thread::yield();"),
    ("std::counting_semaphore<9> sL(0);", "sL.release();", "while (!sL.try_acquire_for(10ms)) {}"),
    ("std::stop_source sL;", "sL.request_stop();",
     "for (auto t = sL.get_token(); !t.stop_requested(); std::this_thread::yield()) {}"),
    ("std::stop_source sL; std::atomic<int> aL;", "sL.request_stop();",
     "{ std::stop_callback c(sL.get_token(), [] { aL.store(1, ORDERrelease); }); while (!aL.load(ORDERacquire)) {} }"),
    ("std::stop_source sL; std::mutex mL; std::condition_variable_any cL;", "sL.request_stop();",
     "{ std::unique_lock<std::mutex> l(mL); cL.wait(l, sL.get_token(), [] { return false; }); }"),
    ("Sem sL;", "sem_post(&sL.is);", "while (sem_wait(&sL.is)) {}"),
    ("Both bL;", "pthread_barrier_wait(&bL.is);", "pthread_barrier_wait(&bL.is);"),
    ("Ends eL(0);", "put(eL.of[1]);", "take(eL.of[0]);"),
    ("Ends eL(1);", "put(eL.of[1]);", "take(eL.of[0]);"),
    ("int eL = eventfd(0, 0);", "put(eL);", "take(eL);"),
    ("Queue<std::unique_ptr<int>> qL;", "qL.put(std::make_unique<int>(4));", "seen = *qL.take();"),
    ("Queue<std::function<void()>> qL;", "qL.put([text = own] { seen = text.size(); });", "qL.take()();"),
    ("Queue<std::exception_ptr> qL;", 'qL.put(std::make_exception_ptr(std::logic_error("one")));',
     "try { std::rethrow_exception(qL.take()); } catch (std::logic_error &e) { seen = e.what()[1]; }"),
]  # fmt: skip
# What orders nothing, although the second thread waits for the first.
NO_ORDER = [
    ("std::atomic<int> aL;", "aL.store(1, ORDERrelaxed);", "while (!aL.load(ORDERrelaxed)) {}"),
    ("std::atomic<int> aL;", "aL.fetch_add(1, ORDERrelaxed);", "while (!aL.load(ORDERacquire)) {}"),
    ("std::atomic<int> aL;", "aL.store(1, ORDERrelease);", "while (!aL.load(ORDERrelaxed)) {}"),
    ("std::atomic_flag aL = ATOMIC_FLAG_INIT;", "aL.test_and_set(ORDERrelaxed);", "while (!aL.test(ORDERacquire)) {}"),
]  # fmt: skip
# The next thread is made by the one before, or it makes that one and waits for its end.
STARTS = [
    ("std::thread yN(NEXT);", "yN.join();"),
    ("std::jthread yN(NEXT);", ""),
    ("auto yN = std::async(std::launch::async, NEXT);", "yN.get();"),
    ("pthread_t yN; void (*zN)() = NEXT; pthread_create(&yN, nullptr, runs, &zN);", "pthread_join(yN, nullptr);"),
]
ENDS = STARTS[:1] + STARTS[2:]

# Locks: what they need, and how a thread has them; the second of a pair is for who reads alone.
LOCKS = [
    ("std::mutex mL;", "{ std::lock_guard<std::mutex> l(mL);", "}"),
    ("std::mutex mL, nL;", "{ std::scoped_lock l(mL, nL);", "}"),
    ("std::mutex mL;", "{ std::unique_lock<std::mutex> l(mL, std::defer_lock); while (!l.try_lock()) {}", "}"),
    ("std::recursive_mutex mL;", "mL.lock(); mL.lock(); mL.unlock();", "mL.unlock();"),
    ("std::timed_mutex mL;", "while (!mL.try_lock_for(5ms)) {}", "mL.unlock();"),
    ("std::shared_mutex mL;", "{ std::unique_lock<std::shared_mutex> l(mL);", "}"),
    ("std::shared_timed_mutex mL;", "while (!mL.try_lock_for(5ms)) {}", "mL.unlock();"),
    ("std::atomic_flag mL;", "while (mL.test_and_set(ORDERacquire)) {}", "mL.clear(ORDERrelease);"),
    ("std::atomic<int> mL;", "for (int no = 0; !mL.compare_exchange_weak(no, 1, ORDERacquire); no = 0) {}",
     "mL.store(0, ORDERrelease);"),
    ("std::atomic<unsigned> mL, nL;",
     "for (unsigned n = mL.fetch_add(1, ORDERrelaxed); nL.load(ORDERacquire) != n;) std::this_thread::yield();",
     "nL.fetch_add(1, ORDERrelease);"),
    ("std::binary_semaphore mL(1);", "mL.acquire();", "mL.release();"),
    ("Sem mL(1);", "sem_wait(&mL.is);", "sem_post(&mL.is);"),
    ("pthread_rwlock_t mL = PTHREAD_RWLOCK_INITIALIZER;", "pthread_rwlock_wrlock(&mL);", "pthread_rwlock_unlock(&mL);"),
    ("pthread_mutex_t mL = PTHREAD_MUTEX_INITIALIZER;", "pthread_mutex_lock(&mL);", "pthread_mutex_unlock(&mL);"),
]  # fmt: skip
SHARED = {
    "std::shared_mutex mL;": ("{ std::shared_lock<std::shared_mutex> l(mL);", "}"),
    "std::shared_timed_mutex mL;": ("mL.lock_shared();", "mL.unlock_shared();"),
    "pthread_rwlock_t mL = PTHREAD_RWLOCK_INITIALIZER;": (
        "pthread_rwlock_rdlock(&mL);",
        "pthread_rwlock_unlock(&mL);",
    ),
}
# What is made once: what it needs, and how each thread comes to it, with what it does then.
ONCE = [
    ("std::once_flag oL;", "std::call_once(oL, [] { WRITES });"),
    ("std::once_flag oL; int wL;",
     "try { std::call_once(oL, [] { if (!wL++) throw 1; WRITES }); } "
     "catch (int) { std::call_once(oL, [] { WRITES }); }"),
    ("pthread_once_t oL = PTHREAD_ONCE_INIT;", "pthread_once(&oL, [] { WRITES });"),
    ("", "{ static const int made = [] { WRITES return 1; }(); seen = made; }"),
]  # fmt: skip
# What a thread does for itself.
ASIDE = [
    "", "", "",
    'try { throw std::out_of_range("aside"); } catch (std::exception &e) { seen = e.what()[0]; }',
    'own += "x"; seen = own.size();',
    "{ std::map<int, std::string> all; for (int k = 0; k < 3; k++) all[k] = own; seen = all.size(); }",
    "{ auto p = std::make_shared<int>(1); auto q = p; seen = q.use_count(); }",
    "{ std::ostringstream text; text << seen << own; seen = text.str().size(); }",
    "std::this_thread::sleep_for(1us);",
    "std::this_thread::yield();",
]  # fmt: skip


class Scenario:
    """The declarations of a scenario, the bodies of its threads, and the threads that main starts."""

    def __init__(self, chance: random.Random, number: int) -> None:
        self.chance, self.number = chance, number
        declared, self.write, self.read = chance.choice(DATA)
        self.lines = [self.named(declared)]
        self.bodies: list[list[str]] = []
        self.first: list[int] = []
        self.is_race = chance.random() < 0.5
        kinds = [self.chain, self.chain, self.chain, self.guarded, self.once]
        chance.choice(kinds + [self.unordered] if self.is_race else kinds)()

    def named(self, code: str, link: int = 0) -> str:
        """The code with the names of this scenario, and of a link of it."""
        code = re.sub(r"\b([a-z])L\b", rf"\g<1>{self.number}_{link}", code.replace("ORDER", "std::memory_order_"))
        return re.sub(r"\b(o?)D\b", rf"\g<1>d{self.number}", code)

    def access(self, write: bool, races: bool = False) -> str:
        return self.named(self.write if write else self.read) + (f" // RACE r{self.number}" if races else "")

    def declare(self, code: str, link: int = 0) -> None:
        """Each object has its own line."""
        self.lines += ["static " + self.named(code, link)] if code else []

    def aside(self) -> str:
        return self.chance.choice(ASIDE)

    def chain(self) -> None:
        """From thread to thread; the first one writes, and the last one reads, or writes too."""
        chance, count = self.chance, self.chance.randint(2, 4)
        where = chance.choice(["behind", "before"]) if self.is_race else ""
        bodies = [[self.aside()] for _ in range(count)]
        last = chance.random() < 0.3
        self.first = list(range(count))
        if where == "before":
            bodies[-1].append(self.access(last, True))
        bodies[0].append(self.access(True, where == "before"))
        for link in range(count - 1):
            # The last thread can't come before the one that makes it.
            makes = not (where == "before" and link == count - 2)
            self.link(link, bodies, where == "behind" and link == 0, makes)
        bodies[-1].append(self.access(last, where == "behind"))
        for number, body in enumerate(bodies):
            body.append(self.aside())
            joins = [line for line in body if line.startswith("JOIN ")]
            self.bodies.append([line for line in body if line not in joins] + [line[5:] for line in joins])

    def unordered(self) -> None:
        """The second thread waits for the first one, and nothing orders the two."""
        declared, sends, receives = self.chance.choice(NO_ORDER)
        self.declare(declared)
        self.first = [0, 1]
        self.bodies.append([self.aside(), self.access(True, True), self.named(sends), self.aside()])
        self.bodies.append([self.aside(), self.named(receives), self.access(False, True), self.aside()])

    def link(self, link: int, bodies: list[list[str]], races: bool, makes: bool) -> None:
        chance, kind = self.chance, self.chance.random()
        late = [self.access(True, True)] if races else []
        if kind < 0.1 and makes and link + 1 in self.first:
            start, end = chance.choice(STARTS)
            bodies[link] += [self.start(start, link + 1), *late, "JOIN " + end.replace("N", self.name(link + 1))]
            self.first.remove(link + 1)
        elif kind < 0.2 and not races and link in self.first:
            start, end = chance.choice(ENDS)
            bodies[link + 1].insert(0, self.start(start, link))
            bodies[link + 1].append(end.replace("N", self.name(link)))
            self.first.remove(link)
        else:
            declared, sends, receives = chance.choice(LINKS)
            for one in re.findall(r"[^;]+;", declared) if "{" not in declared else [declared]:
                self.declare(one.strip(), link)
            bodies[link] += [self.named(sends, link), *late]
            bodies[link + 1].append(self.named(receives, link))

    def name(self, thread: int) -> str:
        return f"{self.number}_{thread}"

    def start(self, start: str, thread: int) -> str:
        return start.replace("NEXT", f"t{self.name(thread)}").replace("N", self.name(thread))

    def guarded(self) -> None:
        """Threads that have a lock as they access; one of them may have none, or not the whole of one."""
        chance = self.chance
        declared, lock, unlock = chance.choice(LOCKS)
        count, without = chance.randint(2, 3), -1
        for one in re.findall(r"[^;]+;", declared):
            self.declare(one.strip())
        self.first = list(range(count))
        if self.is_race:
            without = chance.randrange(count)
        for thread in range(count):
            taken = lock, unlock
            write = thread == 0 or chance.random() < 0.5
            if not write and declared in SHARED:
                taken = SHARED[declared]
            inside = [self.access(write, self.is_race)]
            lines = inside if thread == without else [self.named(taken[0]), *inside, self.named(taken[1])]
            self.bodies.append([self.aside(), *lines, self.aside()])

    def once(self) -> None:
        """Threads that come to what is done once, and read what it wrote; one may read before, or write after."""
        chance = self.chance
        declared, comes = chance.choice(ONCE)
        for one in re.findall(r"[^;]+;", declared):
            self.declare(one.strip())
        body = self.named(comes).replace("WRITES", f"fill{self.number}();")
        self.lines.append(f"static void fill{self.number}() {{")
        early = self.is_race and chance.random() < 0.5
        self.lines += ["    " + self.access(True, early), "}"]
        self.lines += [f"static void get{self.number}() {{", "    " + body, "}"]
        self.first = [0, 1]
        late = self.is_race and not early
        self.bodies.append([self.aside(), f"get{self.number}();", *([self.access(True, True)] if late else [])])
        other = [self.access(False, True)] if early else []
        self.bodies.append([*other, f"get{self.number}();", self.access(False, late), self.aside()])

    def functions(self) -> Iterator[str]:
        for thread in range(len(self.bodies)):
            yield f"static void t{self.name(thread)}();"
        for thread, body in enumerate(self.bodies):
            yield f"static void t{self.name(thread)}() {{"
            yield from ("    " + line for line in body if line)
            yield "}"


def program(chance: random.Random) -> str:
    """A program of some scenarios whose threads all run at once."""
    lines, starts, ends = [HEAD], [], []
    for number in range(SCENARIOS):
        scenario = Scenario(chance, number)
        lines += [*scenario.lines, *scenario.functions()]
        for thread in scenario.first:
            start, end = chance.choice(ENDS)
            starts.append("    " + scenario.start(start, thread))
            ends.append("    " + end.replace("N", scenario.name(thread)))
    return "\n".join([*lines, "int main() {", *starts, *ends, '    std::puts("done");', "}", ""])


def judge(racebench: str, seed: int, c: str, cxx: str) -> int:
    """The races of a program are those that its lines say; how many there are."""
    with open("planted.cpp", "w", encoding="ascii") as file:
        file.write(program(random.Random(seed)))
    judge_stranger(racebench, "planted.cpp", c, cxx, os.getcwd())
    return len(labels_of(["planted.cpp"]))


def judge_few(racebench: str, c: str, cxx: str) -> None:
    """Some programs, the same in each run of the tests."""
    races = 0
    for seed in FEW:
        try:
            races += judge(racebench, seed, c, cxx)
        except Wrong as wrong:
            raise Wrong(f"planted program {seed}: {wrong}") from wrong
    if races < LEAST_RACES:
        raise Wrong(f"the planted programs have {races} races alone")


def cases(racebench: str, c: str, cxx: str | None) -> list[Case]:
    return [(f"planted races of C++, {c}", judge_few, (racebench, c, cxx))] if cxx else []


def soak(racebench: str, first: int, programs: int, c: str = "gcc", cxx: str = "g++") -> int:
    """This many programs; how many have other races than those that were planted."""
    wrong, races, top = 0, 0, os.getcwd()
    for seed in range(first, first + programs):
        with tempfile.TemporaryDirectory() as folder:
            os.chdir(folder)
            try:
                races += judge(racebench, seed, c, cxx)
            except Wrong as why:
                wrong += 1
                print(f"planted program {seed}: {why}", flush=True)
            os.chdir(top)
    print(f"soak: {programs} planted programs with {cxx}, {races} races were met; {wrong} programs have others")
    return 1 if wrong or not races else 0


if __name__ == "__main__":
    sys.exit(soak(os.path.abspath(sys.argv[1]), int(sys.argv[2]), int(sys.argv[3]), *sys.argv[4:]))
