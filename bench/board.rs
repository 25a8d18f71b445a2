// What crates/board_speed does at least: one fetch_add on an atomic word for each look, sequentially consistent.
use std::sync::atomic::{AtomicU64, Ordering};

static WORD: AtomicU64 = AtomicU64::new(0);

fn main() {
    let looks: u64 = std::env::args().nth(1).expect("LOOKS").parse().expect("a number");
    let mut same = 0;
    for _ in 0..looks {
        if WORD.fetch_add(256, Ordering::SeqCst) % 256 == 0 {
            same += 1;
        }
    }
    println!("{same}");
}
