//! Swaps each of some words for what is left of it, one atomic operation a word, and prints the nanoseconds that the
//! loop takes: the least that the steps of a strip can take which swaps every word.

use std::sync::atomic::{AtomicU64, Ordering};
use std::time::Instant;

const HELD: u64 = 0x1_0000_0507;
const LEFT: u64 = 0x1_0000_0505;

fn main() {
    let nodes = std::env::args().nth(1).and_then(|word| word.parse().ok()).unwrap_or(1_000_000);
    let words: Vec<AtomicU64> = (0..nodes).map(|_| AtomicU64::new(HELD)).collect();
    let start = Instant::now();
    let mut status = 0;
    for word in &words {
        status |= word.swap(LEFT, Ordering::SeqCst) & 0x38;
    }
    println!("{} {status}", start.elapsed().as_nanos());
}
