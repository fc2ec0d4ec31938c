"""Judges record/ on Rust programs made by chance, whose races are known: some are planted, and some orders too.

A scenario has its own threads. The first one writes a datum, and the last one reads it. What passes from one to the
next orders the two, or the datum is also accessed after the first pass or before the last one: that is a race, and a
label names it. So each race of a recording has its label, and each label has a race in each recording.

A scope counts its threads: one that ends lowers the number, and the main thread raises it at each spawn. If a thread
ends before the next one is spawned, the number orders the two, and their race is apart in that run. So a scenario with
a race spawns its last thread first. Each waits for the one before it, so none can end before all are there.

    recorded_rust_planted.py PROGRAM FIRST COUNT     this many programs from a seed on, in its own process
"""
from __future__ import annotations

import os
import random
import re
import subprocess
import sys
import tempfile
from collections.abc import Callable

from judging import Wrong

TOP = os.path.dirname(os.path.dirname(os.path.abspath(__file__)))
RECORD = os.path.join(TOP, "record")
PATIENCE = 900
# The seeds of the programs that are always tried, how many scenarios each has, and the fewest races of all.
FEW, SCENARIOS, LEAST_RACES = (8,), 8, 3
# How many runs a program has.
RUNS = 2

HEAD = """use std::cell::UnsafeCell;
use std::collections::BTreeMap;
use std::sync::atomic::{fence, AtomicBool, AtomicU32, Ordering};
use std::sync::{mpsc, Arc, Barrier, Condvar, Mutex, Once, OnceLock, RwLock};
use std::thread;
use std::time::Duration;

struct Cell<T>(UnsafeCell<T>);

unsafe impl<T> Sync for Cell<T> {}

impl<T> Cell<T> {
    const fn new(value: T) -> Self {
        Cell(UnsafeCell::new(value))
    }

    fn at(&self) -> *mut T {
        self.0.get()
    }
}

fn wait(mut until: impl FnMut() -> bool) {
    while !until() {
        thread::yield_now();
    }
}

fn see(value: u64) {
    std::hint::black_box(value);
}
"""
MINUTE = "Duration::from_secs(60)"
# How one thread passes on to the next: what is declared, what the first does, and what the second does.
PASSES = {
    "channel": ("let (t%, r%) = mpsc::channel();", "t%.send(1).unwrap();", "let r = r%;\nr.recv().unwrap();"),
    "bounded": ("let (t%, r%) = mpsc::sync_channel(1);", "t%.send(1).unwrap();", "let r = r%;\nr.recv().unwrap();"),
    "meeting": ("let (t%, r%) = mpsc::sync_channel(0);", "t%.send(1).unwrap();", "let r = r%;\nr.recv().unwrap();"),
    "boxed": (
        "let (t%, r%) = mpsc::channel::<Box<i32>>();",
        "t%.send(Box::new(1)).unwrap();",
        "let r = r%;\n*r.recv().unwrap() += 1;",
    ),
    "closed": (
        "let (t%, r%) = mpsc::channel::<u8>();",
        "let t = t%;\ndrop(t);",
        "let r = r%;\nassert!(r.recv().is_err());",
    ),
    "polled": (
        "let (t%, r%) = mpsc::channel();",
        "t%.send(1).unwrap();",
        "let r = r%;\nwait(|| r.try_recv().is_ok());",
    ),
    "mutex": ("let m% = Mutex::new(false);", "*m%.lock().unwrap() = true;", "wait(|| *m%.lock().unwrap());"),
    "tried": (
        "let m% = Mutex::new(false);",
        "*m%.lock().unwrap() = true;",
        "wait(|| m%.try_lock().is_ok_and(|held| *held));",
    ),
    "reader": ("let m% = RwLock::new(false);", "*m%.write().unwrap() = true;", "wait(|| *m%.read().unwrap());"),
    "writer": ("let m% = RwLock::new(false);", "*m%.write().unwrap() = true;", "wait(|| *m%.write().unwrap());"),
    "tried_reader": (
        "let m% = RwLock::new(false);",
        "*m%.write().unwrap() = true;",
        "wait(|| m%.try_read().is_ok_and(|held| *held));",
    ),
    "condvar": (
        "let (m%, c%) = (Mutex::new(false), Condvar::new());",
        "*m%.lock().unwrap() = true;\nc%.notify_one();",
        "drop(c%.wait_while(m%.lock().unwrap(), |ready| !*ready).unwrap());",
    ),
    "timed": (
        "let (m%, c%) = (Mutex::new(false), Condvar::new());",
        "*m%.lock().unwrap() = true;\nc%.notify_all();",
        f"drop(c%.wait_timeout_while(m%.lock().unwrap(), {MINUTE}, |ready| !*ready).unwrap());",
    ),
    "atomic": (
        "let a% = AtomicBool::new(false);",
        "a%.store(true, Ordering::Release);",
        "wait(|| a%.load(Ordering::Acquire));",
    ),
    "swapped": (
        "let a% = AtomicU32::new(0);",
        "a%.fetch_add(1, Ordering::Release);",
        "wait(|| a%.compare_exchange(1, 2, Ordering::Acquire, Ordering::Relaxed).is_ok());",
    ),
    "fence": (
        "let a% = AtomicBool::new(false);",
        "fence(Ordering::Release);\na%.store(true, Ordering::Relaxed);",
        "wait(|| a%.load(Ordering::Relaxed));\nfence(Ordering::Acquire);",
    ),
    "once": ("let o% = Once::new();", "o%.call_once(|| ());", "wait(|| o%.is_completed());\no%.call_once(|| ());"),
    "made": ("let o% = OnceLock::new();", "o%.set(1).unwrap();", "wait(|| o%.get().is_some());"),
    "barrier": ("let b% = Barrier::new(2);", "b%.wait();", "b%.wait();"),
    "owner": (
        "let own% = Arc::new(1);\nlet other% = own%.clone();",
        "let other = other%;\ndrop(other);",
        "let mut own = own%;\nwait(|| Arc::get_mut(&mut own).is_some());",
    ),
    "parked": (
        "let (t%, r%) = mpsc::channel::<thread::Thread>();\nlet a% = AtomicBool::new(false);",
        "let r = r%;\nlet other = r.recv().unwrap();\na%.store(true, Ordering::Relaxed);\nother.unpark();",
        "t%.send(thread::current()).unwrap();\nwhile !a%.load(Ordering::Relaxed) {\nthread::park();\n}",
    ),
    "joined": (
        "let h% = Mutex::new(None::<thread::JoinHandle<i32>>);",
        "*h%.lock().unwrap() = Some(thread::spawn(|| 1));",
        "wait(|| h%.lock().unwrap().is_some());\nh%.lock().unwrap().take().unwrap().join().unwrap();",
    ),
}
# The datum: how it is declared, written and read.
DATA = (
    ("let d% = Cell::new(0u64);", "unsafe { *d%.at() += 1 };", "see(unsafe { *d%.at() });"),
    ("static D%: Cell<u64> = Cell::new(0);", "unsafe { *D%.at() = 1 };", "see(unsafe { *D%.at() });"),
    ("let d% = Box::new(Cell::new([0; 4]));", "unsafe { (*d%.at())[2] = 3 };", "see(unsafe { (*d%.at())[2] });"),
    (
        "let d% = Cell::new(vec![0; 3]);",
        "unsafe { (&mut *d%.at())[1] = 2 };",
        "see(unsafe { (&*d%.at())[1] });",
    ),
    (
        "let d% = Cell::new(BTreeMap::new());",
        "unsafe { let map = &mut *d%.at(); map.insert(map.len(), 2) };",
        "see(unsafe { (&*d%.at()).len() } as u64);",
    ),
    (
        "let d% = Cell::new(String::new());",
        "unsafe { (&mut *d%.at()).push('x') };",
        "see(unsafe { (&*d%.at()).len() } as u64);",
    ),
)


def scenario(chance: random.Random, number: int) -> tuple[str, bool]:
    """The function of a scenario, and whether it has a race."""
    declared, write, read = (text.replace("%", f"{number}") for text in chance.choice(DATA))
    passes = [chance.choice(sorted(PASSES)) for _ in range(chance.choice((1, 1, 2, 3)))]
    where = chance.choice(("", "", "late", "early"))
    mark = f" // RACE s{number}" if where else ""
    names = [f"{number}_{k}" for k in range(len(passes))]
    parts = [[text.replace("%", name) for text in PASSES[kind]] for kind, name in zip(passes, names)]
    threads = []
    for k in range(len(passes) + 1):
        body = [] if k == 0 else [parts[k - 1][2]]
        if k == len(passes):
            body = ([read + mark] if where == "early" else []) + body + [read + (mark if where == "late" else "")]
        else:
            first = [write + (mark if where == "early" else "")] if k == 0 else []
            body = first + body + [parts[k][1]] + ([write + mark] if k == 0 and where == "late" else [])
        threads.append(["scope.spawn(|| {", *body, "});"])
    spawned = [line for thread in (threads[::-1] if where else threads) for line in thread]
    text = "\n".join([declared, *(part[0] for part in parts), "thread::scope(|scope| {", *spawned, "});"])
    return f"\n// {' '.join(passes)} {where}\nfn s{number}() {{\n{text}\n}}\n", bool(where)


def program_of(seed: int) -> tuple[str, set[str]]:
    """The source of a program, and the labels of its races."""
    chance = random.Random(seed)
    text, labels = HEAD, set()
    for number in range(SCENARIOS):
        function, races = scenario(chance, number)
        text += function
        labels |= {f"s{number}"} if races else set()
    calls = "\n".join(f"    s{number}();" for number in range(SCENARIOS))
    return f"{text}\nfn main() {{\n{calls}\n}}\n", labels


def done(command: list[str]) -> str:
    ran = subprocess.run(command, capture_output=True, timeout=PATIENCE, check=False)
    if ran.returncode:
        raise Wrong(f"{' '.join(command)}: status {ran.returncode}: {ran.stderr.decode(errors='replace')[-600:]}")
    return ran.stdout.decode(errors="replace")


def judge_planted(racebench: str, seed: int) -> int:
    """Each race of the program has its label, and each label a race; how many there are."""
    text, labels = program_of(seed)
    with open("planted.rs", "w", encoding="utf-8") as file:
        file.write(text)
    rustc = [os.path.join(RECORD, "rustc"), "--edition", "2021", "-Awarnings", "-Copt-level=1"]
    done([*rustc, "planted.rs", "-o", "planted"])
    label_of = {
        f"planted.rs:{number}": re.findall(r"// RACE (\w+)", line)
        for number, line in enumerate(text.splitlines(), start=1)
    }
    for run in range(1, RUNS + 1):
        found: set[str] = set()
        with open("trace.std", "w", encoding="utf-8") as trace:
            trace.write(done([os.path.join(RECORD, "run"), "--seed", str(run), "./planted"]))
        printed = done([racebench, "triage", "trace.std"])
        places = re.findall(r"^  T\d+\|[^|]*\|(\S+)", printed, re.MULTILINE)
        for first, second in zip(places[::2], places[1::2]):
            shared = set(label_of.get(first, [])) & set(label_of.get(second, []))
            if not shared:
                raise Wrong(f"program {seed}, seed {run}: a race without a label: {first} and {second}\n{text}")
            found |= shared
        if labels - found:
            raise Wrong(f"program {seed}, seed {run}: the races {sorted(labels - found)} are not there\n{text}")
    return len(labels)


def judge_few(racebench: str) -> None:
    races = sum(judge_planted(racebench, seed) for seed in FEW)
    if races < LEAST_RACES:
        raise Wrong(f"the programs have {races} races; by chance there are more")


def cases(racebench: str) -> list[tuple[str, Callable[..., None], tuple[object, ...]]]:
    return [("Rust: planted races", judge_few, (racebench,))]


def main() -> int:
    racebench, first, count = os.path.abspath(sys.argv[1]), int(sys.argv[2]), int(sys.argv[3])
    failed = 0
    for seed in range(first, first + count):
        with tempfile.TemporaryDirectory() as folder:
            os.chdir(folder)
            try:
                print(f"program {seed}: {judge_planted(racebench, seed)} races", flush=True)
            except Wrong as wrong:
                failed += 1
                print(wrong, flush=True)
            os.chdir("/")
    print(f"{count - failed} passed, {failed} failed")
    return 1 if failed else 0


if __name__ == "__main__":
    sys.exit(main())
