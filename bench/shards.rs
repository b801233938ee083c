//! A million entry words set and got over 512 spaces of 4,096 pages, in one plain vector: what bench/shards.py compares
//! the shards of `space` with.

const MILLION: u32 = 1_000_000;
const SPACES: u32 = 512;
const PAGES: u32 = 4096;
const HELD: u64 = 1 << 32;
const ALL_RIGHTS: u64 = 7;

/// The index of the nth place, each in the next space.
fn nth_index(n: u32) -> usize {
    ((n % SPACES) * PAGES + n / SPACES % PAGES) as usize
}

fn main() {
    let mut words = vec![0u64; (SPACES * PAGES) as usize];
    for n in 0..MILLION {
        words[nth_index(n)] = HELD | u64::from(n) << 8 | ALL_RIGHTS;
    }
    let mut frames = 0u64;
    for n in 0..MILLION {
        let word = words[nth_index(n)];
        if word != 0 {
            frames = frames.wrapping_add(word >> 8 & 0xff_ffff);
        }
    }
    assert_eq!(frames, 499_999_500_000);
}
