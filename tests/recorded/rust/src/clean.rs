// Programs without races.
use std::cell::RefCell;
use std::collections::VecDeque;
use std::sync::atomic::{AtomicBool, AtomicU32, Ordering};
use std::sync::{mpsc, Arc, Barrier, Condvar, LazyLock, Mutex, Once, OnceLock, RwLock, RwLockWriteGuard};
use std::thread;
use std::time::Duration;

// A Mutex and a Condvar around a queue.
pub fn mutex() {
    let queue = Arc::new((Mutex::new(VecDeque::new()), Condvar::new()));
    let makers = [0, 100, 200].map(|first| {
        let queue = queue.clone();
        thread::spawn(move || {
            for k in first..first + 5 {
                queue.0.lock().unwrap().push_back(Box::new(k));
                queue.1.notify_one();
            }
        })
    });
    let mut sum = 0;
    for _ in 0..15 {
        let mut inside = queue.0.lock().unwrap();
        while inside.is_empty() {
            inside = queue.1.wait(inside).unwrap();
        }
        sum += *inside.pop_front().unwrap();
    }
    for one in makers {
        one.join().unwrap();
    }
    println!("{sum}");
}

// Messages that own memory, through a channel without a bound and one with a bound.
pub fn channel() {
    let (to, from) = mpsc::channel::<Vec<u64>>();
    let (back, answers) = mpsc::sync_channel::<u64>(1);
    let worker = thread::spawn(move || {
        for mut one in from {
            one.push(1);
            back.send(one.iter().sum()).unwrap();
        }
    });
    let second = to.clone();
    let other = thread::spawn(move || {
        for i in 0..4 {
            second.send(vec![i; 3]).unwrap();
        }
    });
    for i in 0..4 {
        to.send(vec![10 * i; 2]).unwrap();
    }
    drop(to);
    let sum: u64 = answers.iter().sum();
    other.join().unwrap();
    worker.join().unwrap();
    println!("{sum}");
}

struct Slot {
    parts: [AtomicU32; 4],
    text: String,
}

impl Drop for Slot {
    fn drop(&mut self) {
        let sum: u32 = self.parts.iter_mut().map(|one| *one.get_mut()).sum();
        self.text.push('!');
        println!("{} {}", self.text, sum);
    }
}

// The last owner drops what the others wrote. Nobody joins the threads.
pub fn arc() {
    let slot = Arc::new(Slot { parts: Default::default(), text: String::from("gone") });
    for k in 0..4 {
        let mine = slot.clone();
        thread::spawn(move || {
            mine.parts[k].store(k as u32 + 1, Ordering::Relaxed);
            drop(mine);
        });
    }
    let weak = Arc::downgrade(&slot);
    drop(slot);
    while weak.upgrade().is_some() {
        thread::yield_now();
    }
}

static TABLE: LazyLock<Vec<u32>> = LazyLock::new(|| (0..10).collect());
static NAME: OnceLock<String> = OnceLock::new();
static ONCE: Once = Once::new();
static mut MADE: u32 = 0;
static GO: AtomicBool = AtomicBool::new(false);
static mut PASSED: u32 = 0;
static BAD: Mutex<u32> = Mutex::new(1);
thread_local!(static OWN: RefCell<Vec<u32>> = const { RefCell::new(Vec::new()) });

// RwLock, OnceLock, LazyLock, Once, Barrier, a scope, and a thread_local with a destructor.
fn scope_of_three() {
    let (rows, meet, sums) = (RwLock::new(vec![1u32, 2, 3]), Barrier::new(3), Mutex::new(vec![]));
    let mut parts = [0u32; 3];
    thread::scope(|scope| {
        for (k, part) in parts.iter_mut().enumerate() {
            let (rows, meet, sums) = (&rows, &meet, &sums);
            scope.spawn(move || {
                ONCE.call_once(|| unsafe { MADE = 7 });
                OWN.with(|own| own.borrow_mut().push(k as u32));
                let name = NAME.get_or_init(|| String::from("name"));
                *part = rows.read().unwrap().iter().sum::<u32>() + TABLE[k] + unsafe { MADE };
                meet.wait();
                rows.write().unwrap().push(k as u32);
                sums.lock().unwrap().push(name.len());
            });
        }
    });
    println!("{parts:?} {} {}", rows.read().unwrap().len(), sums.lock().unwrap().len());
}

// A thread that is parked, and a Mutex that a panic poisoned.
pub fn others() {
    scope_of_three();
    let sleeper = thread::spawn(|| {
        while !GO.load(Ordering::Acquire) {
            thread::park_timeout(Duration::from_secs(5));
        }
        unsafe { PASSED }
    });
    unsafe { PASSED = 3 };
    GO.store(true, Ordering::Release);
    sleeper.thread().unpark();
    let passed = sleeper.join().unwrap();
    let broken = thread::spawn(|| {
        let _held = BAD.lock().unwrap();
        panic!("on purpose");
    });
    let _ = broken.join();
    println!("{passed} {}", BAD.is_poisoned());
}

// A writer becomes a reader and still sees what it wrote.
pub fn downgraded() {
    let table = RwLock::new(vec![0u32]);
    thread::scope(|scope| {
        for k in 0..3 {
            let table = &table;
            scope.spawn(move || {
                let mut held = table.write().unwrap();
                held.push(k);
                let held = RwLockWriteGuard::downgrade(held);
                assert!(held.len() > 1);
            });
        }
    });
    println!("{}", table.read().unwrap().len());
}

// Locks that are tried until they are free.
pub fn polled() {
    let (sum, table) = (Mutex::new(0), RwLock::new(0));
    thread::scope(|scope| {
        for k in 0..3 {
            let (sum, table) = (&sum, &table);
            scope.spawn(move || {
                loop {
                    if let Ok(mut held) = sum.try_lock() {
                        *held += k;
                        break;
                    }
                    thread::yield_now();
                }
                loop {
                    if let Ok(mut held) = table.try_write() {
                        *held += k;
                        break;
                    }
                    thread::yield_now();
                }
                while table.try_read().is_err() {
                    thread::yield_now();
                }
            });
        }
    });
    println!("{} {}", sum.lock().unwrap(), table.read().unwrap());
}

// Waits that end by a signal and by time.
pub fn timed() {
    let ready = Arc::new((Mutex::new(false), Condvar::new()));
    let other = ready.clone();
    let waiter = thread::spawn(move || {
        let held = other.0.lock().unwrap();
        let (held, late) = other.1.wait_timeout_while(held, Duration::from_secs(60), |ready| !*ready).unwrap();
        (*held, late.timed_out())
    });
    *ready.0.lock().unwrap() = true;
    ready.1.notify_all();
    println!("{:?}", waiter.join().unwrap());
    let held = ready.0.lock().unwrap();
    let (_held, late) = ready.1.wait_timeout(held, Duration::from_millis(2)).unwrap();
    println!("{}", late.timed_out());
}

// Threads that print through one stream.
pub fn printed() {
    thread::scope(|scope| {
        for k in 0..3 {
            scope.spawn(move || println!("thread {k}: {}", "x".repeat(k)));
        }
    });
}
