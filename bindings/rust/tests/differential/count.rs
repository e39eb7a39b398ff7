//! The count of erasures, of lists of any bytes: every length about a few eights, every pair of neighbours at every place of an
//! eight, every alignment, and long lists.
use crate::door::{agree, left, lend_bytes, no_room, reply, with_room};
use crate::random::Random;
use crate::reference::word::lost;
use crate::seen::Seen;
use qcldpc::raw::qcldpc_count_erasures;

// Through the raw function, with all lent memory compared, and through the safe one.
fn compare(word: &[u8], seen: &mut Seen) {
    let wanted = Ok(lost(word));
    let mut lent = lend_bytes(word);
    let mut call = |out, places| unsafe { qcldpc_count_erasures(lent.pointer(), lent.len(), out, places) };
    no_room(&mut call);
    agree(&word, with_room(&mut call), reply(&wanted.clone().map(|count| vec![count])));
    left(&word, &lent, word);
    agree(&word, Ok(qcldpc::count_erasures(word)), wanted.clone());
    seen.note(&wanted);
}

// A byte of a list: known, lost, or one that differs from 2 in a few bits; or any.
fn some_byte(random: &Random) -> u8 {
    match random.below(4) {
        0 => random.below(2) as u8,
        1 => 2,
        2 => 2 ^ 1 << random.below(8),
        _ => random.below(256) as u8,
    }
}

fn some_list(random: &Random, length: usize) -> Vec<u8> {
    (0..length).map(|_| some_byte(random)).collect()
}

// Two neighbours of any value, at each place of three eights, among bytes that a carry from them would change.
fn neighbours(around: u8) {
    for place in 0..23 {
        let mut word = [around; 24];
        for a in 0..=255 {
            for b in 0..=255 {
                word[place] = a;
                word[place + 1] = b;
                agree(&word, qcldpc::count_erasures(&word), lost(&word));
            }
        }
    }
}

pub fn compare_all() -> Seen {
    let (random, mut seen) = (Random::new(9), Seen::default());
    for length in 0..80 {
        for _ in 0..100 {
            compare(&some_list(&random, length), &mut seen);
        }
    }
    let memory = some_list(&random, 200);
    for from in 0..32 {
        for to in from..memory.len() {
            compare(&memory[from..to], &mut seen);
        }
    }
    for _ in 0..300 {
        let length = random.choice(&[1764, 65535, 65536, 65537, 100_003]);
        compare(&some_list(&random, length), &mut seen);
    }
    [0, 2, 3].into_iter().for_each(neighbours);
    seen
}
