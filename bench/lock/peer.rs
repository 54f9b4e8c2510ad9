//! The turns of crates/lock_bench in plain Rust: a std Mutex round the same value.
use std::sync::Mutex;
use std::{env, thread};

struct Echo;

impl Echo {
    fn step(&mut self, event: u64) -> Option<u64> {
        Some(event)
    }
}

fn make(lock: &Mutex<Echo>, turns: u32) -> u64 {
    let mut sum = 0u64;
    for k in 0..turns {
        let answer = lock.lock().unwrap().step(u64::from(k));
        sum = sum.wrapping_add(answer.unwrap());
    }
    sum
}

fn main() {
    let words: Vec<String> = env::args().collect();
    let (threads, turns) = (words[1].parse::<u64>().unwrap(), words[2].parse::<u32>().unwrap());
    let lock = Mutex::new(Echo);
    if threads == 1 {
        println!("{}", make(&lock, turns));
        return;
    }
    let sum = thread::scope(|scope| {
        let all: Vec<_> = (0..threads).map(|_| scope.spawn(|| make(&lock, turns))).collect();
        all.into_iter().fold(0u64, |sum, one| sum.wrapping_add(one.join().unwrap()))
    });
    println!("{sum}");
}
