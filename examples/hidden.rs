// A race that the lock hides in most runs: record/rustc compiles this program, and docs/RUST.md leads through it.
use std::cell::UnsafeCell;
use std::sync::{Arc, Mutex};
use std::thread;

struct Account {
    audit: UnsafeCell<u32>,
    balance: Mutex<u32>,
}

unsafe impl Sync for Account {}

impl Account {
    fn deposit(&self, n: u32) {
        unsafe { *self.audit.get() += 1 }; // before the lock
        *self.balance.lock().unwrap() += n;
    }

    fn close(&self) {
        drop(self.balance.lock().unwrap());
        unsafe { *self.audit.get() *= 2 }; // after the lock: ordered in this run alone
    }
}

fn main() {
    let account = Arc::new(Account { audit: UnsafeCell::new(1), balance: Mutex::new(0) });
    let (one, other) = (account.clone(), account.clone());
    let deposit = thread::spawn(move || one.deposit(5));
    let close = thread::spawn(move || other.close());
    deposit.join().unwrap();
    close.join().unwrap();
    println!("{} {}", account.balance.lock().unwrap(), unsafe { *account.audit.get() });
}
