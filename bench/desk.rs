// The calls of crates/desk_speed in Rust: threads that send and receive by turns, each call under the lock of a queue.
use std::collections::VecDeque;
use std::sync::{Condvar, Mutex};
use std::time::Instant;

#[derive(Default)]
struct Desk {
    gate: Mutex<VecDeque<u64>>,
    grown: Condvar,
}

fn work(desk: &Desk, calls: u64, notifies: bool) -> u64 {
    let mut made = 0;
    for call in 0..calls {
        let mut items = desk.gate.lock().unwrap();
        if call % 2 == 0 {
            items.push_back(call);
            made += 1;
        } else if items.pop_front().is_some() {
            made += 1;
        }
        if notifies {
            desk.grown.notify_all();
        }
    }
    made
}

fn timed(threads: u64, calls: u64, notifies: bool, desks: &[Desk]) -> u128 {
    let start = Instant::now();
    std::thread::scope(|scope| {
        for n in 0..threads {
            let desk = &desks[n as usize % desks.len()];
            scope.spawn(move || assert_eq!(work(desk, calls, notifies), calls));
        }
    });
    start.elapsed().as_nanos()
}

fn main() {
    let words: Vec<String> = std::env::args().collect();
    let threads: u64 = words[1].parse().unwrap();
    let calls: u64 = words[2].parse().unwrap();
    let notifies = words.len() > 3;
    let one = timed(threads, calls, notifies, &[Desk::default()]);
    let desks: Vec<Desk> = (0..threads).map(|_| Desk::default()).collect();
    println!("{one} {}", timed(threads, calls, notifies, &desks));
}
