//! Rounds by other rules than the one asked for. Each answers otherwise on some of the words that are tried.
use crate::reference::flip::odd_checks;
use crate::reference::graph::Graph;

/// A word after a round by some rule.
type Rule = fn(&Graph, &[u8]) -> Vec<u8>;

/// The other rules.
pub const RULES: [(&str, Rule); 5] = [
    ("one odd check or more", |graph, word| round(graph, word, |odd, _| odd >= 1)),
    ("three odd checks", |graph, word| round(graph, word, |odd, _| odd >= 3)),
    ("exactly two odd checks", |graph, word| round(graph, word, |odd, _| odd == 2)),
    ("only ones are turned", |graph, word| round(graph, word, |odd, bit| odd >= 2 && bit == 1)),
    ("judged on the word as it changes", in_turn),
];

// All bits judged on the word before the round, by their odd checks and by themselves.
fn round(graph: &Graph, word: &[u8], turns: fn(usize, u8) -> bool) -> Vec<u8> {
    odd_checks(graph, word).into_iter().zip(word).map(|(odd, &bit)| bit ^ turns(odd, bit) as u8).collect()
}

// One bit after the other, each judged with those before it already turned.
fn in_turn(graph: &Graph, word: &[u8]) -> Vec<u8> {
    let mut word = word.to_vec();
    let mut odd: Vec<u8> = graph.bits_of.iter().map(|bits| bits.iter().fold(0, |sum, &bit| sum ^ word[bit])).collect();
    for (bit, checks) in graph.checks_of.iter().enumerate() {
        if checks.iter().filter(|&&check| odd[check] == 1).count() >= 2 {
            word[bit] ^= 1;
            checks.iter().for_each(|&check| odd[check] ^= 1);
        }
    }
    word
}
