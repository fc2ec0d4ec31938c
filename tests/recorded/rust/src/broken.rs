// Programs that end badly or never, each with a race of its own, and those with many threads and with one.
use std::sync::{Barrier, Mutex, RwLock};
use std::thread;
use std::time::Duration;

static mut LOST: u32 = 0;

fn race() {
    let other = thread::spawn(|| unsafe { LOST += 1 }); // RACE broken
    unsafe { LOST += 1 }; // RACE broken
    other.join().unwrap();
}

// A thread panics, and so does the thread that joins it.
pub fn panicked() {
    race();
    let other = thread::spawn(|| {
        let list = vec![1, 2, 3];
        list[std::hint::black_box(7)]
    });
    println!("{}", other.join().unwrap());
}

// A panic while another one goes on ends the program by a signal.
pub fn aborted() {
    race();
    struct Again;
    impl Drop for Again {
        fn drop(&mut self) {
            panic!("again");
        }
    }
    let _again = Again;
    panic!("once");
}

pub fn exits() {
    race();
    let other = thread::spawn(|| std::process::exit(3));
    other.join().unwrap();
}

extern "C" {
    fn getpid() -> i32;
    fn kill(process: i32, signal: i32) -> i32;
}

pub fn killed() {
    race();
    unsafe { kill(getpid(), 9) };
    thread::sleep(Duration::from_secs(60));
}

static SUM: Mutex<u32> = Mutex::new(0);

// 200 threads that live at once.
pub fn many() {
    race();
    let threads: Vec<_> = (0..200).map(|k| thread::spawn(move || *SUM.lock().unwrap() += k)).collect();
    for one in threads {
        one.join().unwrap();
    }
    println!("{}", SUM.lock().unwrap());
}

pub fn alone() {
    println!("{}", SUM.lock().unwrap());
}

static FIRST: Mutex<u32> = Mutex::new(0);
static SECOND: Mutex<u32> = Mutex::new(0);

// Each thread has a lock and waits for that of the other.
pub fn deadlock() {
    race();
    let _first = FIRST.lock().unwrap(); // HOLDS deadlock
    let other = thread::spawn(|| {
        let _second = SECOND.lock().unwrap(); // HOLDS deadlock
        let _first = FIRST.lock().unwrap(); // WAITS deadlock
    });
    while SECOND.try_lock().is_ok() {
        thread::yield_now();
    }
    let _second = SECOND.lock().unwrap(); // WAITS deadlock
    other.join().unwrap();
}

static TABLE: RwLock<u32> = RwLock::new(0);

// The same with a reader, while the first thread waits for the end of a scope.
pub fn scoped_deadlock() {
    race();
    let both = Barrier::new(2);
    thread::scope(|scope| {
        scope.spawn(|| {
            let _first = FIRST.lock().unwrap(); // HOLDS scoped_deadlock
            both.wait();
            *TABLE.write().unwrap() += 1; // WAITS scoped_deadlock
        });
        scope.spawn(|| {
            let _table = TABLE.read().unwrap(); // HOLDS scoped_deadlock
            both.wait();
            *FIRST.lock().unwrap() += 1; // WAITS scoped_deadlock
        });
    });
}

// A thread waits for an `unpark` that never comes: this is no deadlock of locks.
pub fn hangs() {
    race();
    eprintln!("no thread will go on");
    thread::spawn(thread::park).join().unwrap();
}

const THOUSANDS: usize = 2000;

// Many threads, one after another.
pub fn in_turns() {
    race();
    for _ in 0..THOUSANDS {
        thread::spawn(|| *SUM.lock().unwrap() += 1).join().unwrap();
    }
    println!("{}", SUM.lock().unwrap());
}

// Many threads that live at once.
pub fn at_once() {
    race();
    let work = || {
        thread::park();
        *SUM.lock().unwrap() += 1;
    };
    let spawned = |_| thread::Builder::new().stack_size(1 << 16).spawn(work).unwrap();
    let threads: Vec<_> = (0..THOUSANDS).map(spawned).collect();
    for one in &threads {
        one.thread().unpark();
    }
    for one in threads {
        one.join().unwrap();
    }
    println!("{}", SUM.lock().unwrap());
}
