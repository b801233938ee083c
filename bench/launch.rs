//! Runs a program, and tells what it took: its status, microseconds of processor time (the user's and the system's),
//! microseconds by the clock, and the peak memory in KiB.
//!
//!     launch INPUT OUTPUT PROGRAM [ARGUMENT..]
//!
//! The system counts what the process that starts a program holds itself as memory of that program. So a large process
//! starts programs through this small one. For Linux of 64 bits.

use std::fs::File;
use std::process::Command;
use std::time::Instant;

/// The system's `struct rusage`: seconds and microseconds of the user, the same of the system, the peak memory, and 13
/// numbers more.
type Usage = [i64; 18];

const CHILDREN: i32 = -1;

extern "C" {
    fn getrusage(who: i32, usage: *mut Usage) -> i32;
}

/// What the programs that were started and have ended took.
fn usage_of_children() -> Usage {
    let mut usage = [0; 18];
    // SAFETY: `usage` has the length and the alignment of a `struct rusage`.
    let status = unsafe { getrusage(CHILDREN, &mut usage) };
    assert_eq!(status, 0, "getrusage failed");
    usage
}

fn main() {
    let words: Vec<String> = std::env::args().collect();
    let [_, input, output, program, arguments @ ..] = &words[..] else {
        panic!("usage: launch INPUT OUTPUT PROGRAM [ARGUMENT..]");
    };
    let source = File::open(input).expect("the input can be read");
    let sink = File::create(output).expect("the output can be written");
    let start = Instant::now();
    let status = Command::new(program).args(arguments).stdin(source).stdout(sink).status().expect("the program starts");
    let taken = start.elapsed().as_micros();
    let [user, more_of_user, system, more_of_system, peak, ..] = usage_of_children();
    let processor = (user + system) * 1_000_000 + more_of_user + more_of_system;
    println!("{} {processor} {taken} {peak}", status.code().unwrap_or(-1));
}
