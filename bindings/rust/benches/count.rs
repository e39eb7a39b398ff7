//! Times the count of a word's erasures, on the 1,764 bytes of source 004's example 2 and on the largest word, beside the loop over
//! bytes that stood in the library before it, written in Rust, and beside a plain loop by the C compiler at -O3.
mod common;

use common::timed;
use qcldpc::raw::{qcldpc_count_erasures, OUT};
use std::hint::black_box;
use std::time::Duration;

#[link(name = "plain_count", kind = "static")]
extern "C" {
    fn plain_count(word: *const u8, length: usize) -> usize;
}

// How many bytes are counted in one timing.
const BYTES: usize = 1 << 22;

// The library's count. `out` is lent once, so that a call does nothing but count.
fn proved(word: &[u8], out: &mut [u64; OUT]) -> usize {
    // SAFETY: each pointer goes with its length.
    let code = unsafe { qcldpc_count_erasures(word.as_ptr(), word.len(), out.as_mut_ptr(), OUT) };
    assert_eq!(code, 0);
    out[0] as usize
}

// The loop that the library had, as it stood there.
#[inline(never)]
fn by_bytes(word: &[u8]) -> usize {
    let mut n = 0;
    let mut place = 0;
    while place < word.len() {
        if word[place] == 2 {
            n += 1;
        }
        place += 1;
    }
    n
}

fn by_c(word: &[u8]) -> usize {
    // SAFETY: the pointer goes with its length.
    unsafe { plain_count(word.as_ptr(), word.len()) }
}

// Counts so often that `BYTES` bytes are counted.
fn count_all(best: &mut Duration, word: &[u8], mut count: impl FnMut(&[u8]) -> usize) {
    timed(best, || {
        for _ in 0..BYTES / word.len() {
            black_box(count(black_box(word)));
        }
    });
}

fn main() {
    let mut out = [0; OUT];
    for length in [1764, 65536] {
        // erasures among known bits, and now and then a byte above 2
        let byte = |k: usize| [2, 0, 1, 1, 0, 130, 0, 2, 1, 0, 255, 1, 3][k % 13];
        let word: Vec<u8> = (0..length).map(byte).collect();
        assert_eq!(proved(&word, &mut out), by_bytes(&word));
        assert_eq!(by_c(&word), by_bytes(&word));
        let (mut ours, mut bytes, mut c) = (Duration::MAX, Duration::MAX, Duration::MAX);
        for _ in 0..150 {
            count_all(&mut ours, &word, |word| proved(word, &mut out));
            count_all(&mut bytes, &word, by_bytes);
            count_all(&mut c, &word, by_c);
        }
        let each = |d: Duration| d.as_secs_f64() * 1e9 / (BYTES / length) as f64;
        println!("{length} bytes: qcldpc_count_erasures {:.0} ns a word", each(ours));
        for (name, theirs) in [("the byte loop before it", bytes), ("a C loop at -O3", c)] {
            let ratio = ours.as_secs_f64() / theirs.as_secs_f64();
            println!("{length} bytes: {name} {:.0} ns a word, ratio {ratio:.2}", each(theirs));
        }
    }
}
