//! The library beside an independent implementation, on a fixed sequence of many inputs.
mod alist;
mod applied;
mod bidiagonal;
mod cages;
mod changes;
mod count;
mod door;
mod encode;
mod encode_faults;
mod encode_shapes;
mod encoded;
mod errors;
mod faults;
mod fill;
mod flip;
mod flip_faults;
mod flip_rules;
mod flip_weights;
mod flipped;
mod girth;
mod inputs;
mod join;
mod join_faults;
mod joined;
mod judged;
mod lent;
mod owned;
mod pairs;
mod passing;
mod plans;
mod promise;
mod random;
mod reference;
mod seen;
mod steiner;
mod table_vi;
mod tables;
mod texts;
mod walk;
mod weights;
mod words;

use seen::{Seen, LAST};
use std::sync::LazyLock;

static PLANS: LazyLock<Seen> = LazyLock::new(plans::compare_all);
static GIRTH: LazyLock<Seen> = LazyLock::new(girth::compare_all);
static PAIRS: LazyLock<Seen> = LazyLock::new(pairs::compare_all);
static TABLES: LazyLock<Seen> = LazyLock::new(tables::compare_all);
static STEINER: LazyLock<Seen> = LazyLock::new(steiner::compare_all);
static CHANGES: LazyLock<Seen> = LazyLock::new(changes::compare_all);
static JOIN: LazyLock<Seen> = LazyLock::new(join::compare_all);
static ENCODE: LazyLock<Seen> = LazyLock::new(encode::compare_all);
static WORDS: LazyLock<Seen> = LazyLock::new(words::compare_all);
static FILL: LazyLock<Seen> = LazyLock::new(fill::compare_all);
static FLIP: LazyLock<Seen> = LazyLock::new(flip::compare_all);
static FLIPPED: LazyLock<Seen> = LazyLock::new(flipped::compare_all);
static COUNT: LazyLock<Seen> = LazyLock::new(count::compare_all);
static ALIST: LazyLock<Seen> = LazyLock::new(alist::compare_all);
static PROMISE: LazyLock<Seen> = LazyLock::new(promise::compare_all);
static ERRORS: LazyLock<Seen> = LazyLock::new(errors::compare_all);

#[test]
fn plan_check() {
    println!("plan check: {}", *PLANS);
}

#[test]
fn girth_test() {
    println!("girth test: {}", *GIRTH);
}

#[test]
fn girth_test_by_sorted_pairs() {
    println!("girth test by sorted pairs: {}", *PAIRS);
    assert_eq!(PAIRS.met(), [1, 2, 3, 4, 5, 6, 14, 26]);
}

#[test]
fn table_plans() {
    println!("tables: {}", *TABLES);
    assert_eq!(TABLES.met(), [3, 7, 8, 9, 10, 11, 12, 13, 15, 25]);
}

#[test]
fn steiner_plans() {
    println!("steiner: {}", *STEINER);
    assert_eq!(STEINER.met(), [3, 4, 6, 22, 23, 25]);
}

#[test]
fn changed_blocks() {
    println!("changed blocks: {}", *CHANGES);
    assert_eq!(CHANGES.met(), [1, 2, 3, 4, 5, 6, 24, 25]);
}

#[test]
fn joined_plans() {
    println!("joined plans: {}", *JOIN);
    assert_eq!(JOIN.met(), [1, 2, 3, 4, 5, 6, 27, 28, 29]);
}

#[test]
fn encoded_data() {
    println!("encoded data: {}", *ENCODE);
    assert_eq!(ENCODE.met(), [1, 2, 3, 4, 5, 6, 16, 30, 31]);
}

#[test]
fn syndrome_check() {
    println!("syndrome check: {}", *WORDS);
}

#[test]
fn decoder_and_preview() {
    println!("decoder and preview: {}", *FILL);
    assert_eq!(FILL.met(), [1, 2, 3, 4, 5, 6, 16, 18, 20]);
}

#[test]
fn turned_bits() {
    println!("turned bits: {}", *FLIP);
    assert_eq!(FLIP.met(), [1, 2, 3, 4, 5, 6, 16, 18, 19, 32]);
}

#[test]
fn one_wrong_bit() {
    println!("one wrong bit: {}", *FLIPPED);
    assert!(FLIPPED.met().is_empty());
}

#[test]
fn erasure_count() {
    println!("erasure count: {}", *COUNT);
    assert!(COUNT.met().is_empty());
}

#[test]
fn alist_text() {
    println!("alist: {}", *ALIST);
    assert_eq!(ALIST.met(), [1, 2, 3, 4, 5, 6, 17, 21, 25]);
}

#[test]
fn promise_3() {
    println!("promise 3: {}", *PROMISE);
    assert!(PROMISE.met().is_empty());
}

#[test]
fn lost_and_wrong_bits() {
    println!("lost and wrong bits: {}", *ERRORS);
    assert_eq!(ERRORS.met(), [20]);
}

// The subjects above are run once each, whichever test asks first.
#[test]
fn every_refusal_was_met() {
    let subjects = [&PLANS, &GIRTH, &PAIRS, &TABLES, &STEINER, &CHANGES, &JOIN, &ENCODE, &WORDS, &FILL, &FLIP, &ALIST];
    for number in 1..=LAST {
        let times: usize = subjects.iter().map(|seen| seen.refusals(number)).sum();
        assert!(times > 0, "no input met refusal {number}");
    }
}

// Every subject that is given voltages meets many at or above the lift.
#[test]
fn printed_voltages_were_met() {
    let plans = [&PLANS, &GIRTH, &PAIRS, &CHANGES, &JOIN, &ENCODE, &WORDS, &FILL, &FLIP, &ALIST].map(|seen| (seen, 10000));
    for (seen, least) in plans.into_iter().chain([(&STEINER, 1000), (&PROMISE, 500), (&ERRORS, 500), (&FLIPPED, 500)]) {
        assert!(seen.printed > least, "only {} results with a voltage at or above the lift", seen.printed);
    }
}
