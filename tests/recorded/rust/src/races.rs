// Programs with races. A line that races has the label of its program.
use std::cell::UnsafeCell;
use std::sync::atomic::{AtomicBool, Ordering};
use std::sync::{Arc, Mutex, RwLock};
use std::thread;

static mut HITS: u32 = 0;

fn raise() {
    unsafe { HITS += 1 }; // RACE counter
}

pub fn counter() {
    let threads = [thread::spawn(raise), thread::spawn(raise)];
    for one in threads {
        one.join().unwrap();
    }
    println!("{}", unsafe { HITS });
}

// The write comes before a section, and the read after one.
struct Guarded {
    value: UnsafeCell<u64>,
    lock: Mutex<[u32; 2]>,
    table: RwLock<u64>,
}

unsafe impl Sync for Guarded {}

fn guarded() -> Arc<Guarded> {
    Arc::new(Guarded { value: UnsafeCell::new(0), lock: Mutex::new([0; 2]), table: RwLock::new(0) })
}

impl Guarded {
    fn set(&self, to: u64) {
        unsafe { *self.value.get() = to }; // RACE cell
        self.lock.lock().unwrap()[0] += 1;
    }

    fn get(&self) -> u64 {
        self.lock.lock().unwrap()[1] += 1;
        unsafe { *self.value.get() } // RACE cell
    }

    fn write(&self) {
        unsafe { *self.value.get() = 1 }; // RACE reader
        drop(self.table.write().unwrap());
    }

    fn read(&self) -> u64 {
        let _held = self.table.read().unwrap();
        unsafe { *self.value.get() } // RACE reader
    }
}

pub fn cell() {
    let shared = guarded();
    let (one, other) = (shared.clone(), shared.clone());
    let writer = thread::spawn(move || one.set(42));
    let reader = thread::spawn(move || other.get());
    writer.join().unwrap();
    println!("{} {:?}", reader.join().unwrap(), shared.lock.lock().unwrap());
}

pub fn reader() {
    let shared = guarded();
    let (one, other) = (shared.clone(), shared.clone());
    let writer = thread::spawn(move || one.write());
    let reader = thread::spawn(move || other.read());
    writer.join().unwrap();
    println!("{}", reader.join().unwrap());
}

static mut DATA: u64 = 0;
static mut SAFE: u64 = 0;
static READY: AtomicBool = AtomicBool::new(false);
static DONE: AtomicBool = AtomicBool::new(false);

// A relaxed store publishes DATA, and a release store publishes SAFE.
pub fn relaxed() {
    let writer = thread::spawn(|| {
        unsafe { DATA = 1 }; // RACE relaxed
        READY.store(true, Ordering::Relaxed);
        unsafe { SAFE = 2 };
        DONE.store(true, Ordering::Release);
    });
    while !READY.load(Ordering::Relaxed) {
        thread::yield_now();
    }
    let racy = unsafe { DATA }; // RACE relaxed
    while !DONE.load(Ordering::Acquire) {
        thread::yield_now();
    }
    println!("{racy} {}", unsafe { SAFE });
    writer.join().unwrap();
}

struct Pointer(*mut u32);

unsafe impl Send for Pointer {}

impl Pointer {
    fn raise(&self) {
        unsafe { *self.0 += 1 }; // RACE element
    }
}

// Two threads have the second element, and each has one of its own.
pub fn element() {
    let mut all = vec![0u32; 3];
    let at = all.as_mut_ptr();
    let places = [[0, 1], [1, 2]];
    let threads = places.map(|own| {
        let pointers = own.map(|k| Pointer(unsafe { at.add(k) }));
        thread::spawn(move || pointers.iter().for_each(Pointer::raise))
    });
    for one in threads {
        one.join().unwrap();
    }
    println!("{all:?}");
}

struct Shared(*const u64);

unsafe impl Send for Shared {}

impl Shared {
    fn read(&self) -> u64 {
        unsafe { *self.0 } // RACE dropped
    }
}

// A thread reads a block while its owner drops it.
pub fn dropped() {
    let block = Box::new(7);
    let shared = Shared(&*block);
    let reader = thread::spawn(move || shared.read());
    drop(block); // RACE dropped
    println!("{}", reader.join().unwrap() > 0);
}

// Threads of a scope change a local variable of the function around them.
pub fn scoped() {
    let mut sum = 0u64;
    let at = &raw mut sum as usize;
    thread::scope(|scope| {
        for k in 1..3 {
            scope.spawn(move || unsafe { *(at as *mut u64) += k }); // RACE scoped
        }
    });
    println!("{sum}");
}

static TRIED: Mutex<()> = Mutex::new(());
static mut SKIPPED: u32 = 0;

// Who is refused goes on without the lock.
fn try_it() {
    let held = TRIED.try_lock();
    unsafe { SKIPPED += 1 }; // RACE tried
    drop(held);
}

pub fn tried() {
    let other = thread::spawn(try_it);
    let held = TRIED.lock().unwrap();
    unsafe { SKIPPED += 1 }; // RACE tried
    drop(held);
    other.join().unwrap();
    println!("{}", unsafe { SKIPPED });
}
