//! Threads that take turns in a plain program: turns THREADS CALLS lets so many threads add 1 to a number so many times
//! each, under a mutex, and count the calls, and prints the number.

use std::hint::black_box;
use std::sync::Mutex;
use std::{env, thread};

fn main() {
    let words: Vec<u64> = env::args().skip(1).map(|word| word.parse().expect("a number")).collect();
    let [threads, calls] = words[..] else { panic!("turns THREADS CALLS") };
    let shared = Mutex::new((0u64, 0u64));
    thread::scope(|scope| {
        for _ in 0..threads {
            scope.spawn(|| {
                for _ in 0..calls {
                    let mut held = shared.lock().unwrap();
                    held.0 = held.0.saturating_add(black_box(1));
                    held.1 += 1;
                    black_box(*held);
                }
            });
        }
    });
    println!("{}", shared.into_inner().unwrap().0);
}
