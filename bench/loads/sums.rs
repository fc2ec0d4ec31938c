// Two threads each sort and sum N numbers, and add what they have to a sum under a lock every hundred numbers.
use std::sync::Mutex;
use std::thread;

fn main() {
    let n: u64 = std::env::args().nth(1).map_or(1000, |text| text.parse().unwrap());
    let sum = Mutex::new(0u64);
    thread::scope(|scope| {
        for k in 0..2 {
            let sum = &sum;
            scope.spawn(move || {
                let mut numbers: Vec<u64> = (0..n).map(|x| (x * 7919 + k) % 10007).collect();
                numbers.sort_unstable();
                let mut own = 0;
                for (i, x) in numbers.iter().enumerate() {
                    own += x;
                    if i % 100 == 0 {
                        *sum.lock().unwrap() += own;
                    }
                }
            });
        }
    });
    println!("{}", sum.lock().unwrap());
}
