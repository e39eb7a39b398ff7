//! Every function of the C interface returns, with the right answer, in a thread that has 1 MiB of stack.
mod calls;
mod common;

use calls::{Function, FUNCTIONS};
use std::thread::{Builder, JoinHandle};

const STACK: usize = 1 << 20;

// Makes all calls of a function in a thread that has its name.
fn start(function: &Function) -> JoinHandle<()> {
    let mut calls = (function.largest)();
    calls.extend((function.refused)());
    let thread = Builder::new().name(function.name.into()).stack_size(STACK);
    thread.spawn(move || calls.into_iter().for_each(|call| call())).expect("a thread")
}

// The threads run at once: the library keeps no state.
#[test]
fn every_call_returns_in_a_thread_of_1_mib() {
    let threads: Vec<_> = FUNCTIONS.iter().map(start).collect();
    for (function, thread) in FUNCTIONS.iter().zip(threads) {
        assert!(thread.join().is_ok(), "{} does not give its answers", function.name);
    }
}

#[test]
fn every_function_of_the_header_is_called() {
    let declared: Vec<String> = common::header_functions().into_iter().map(|(name, _)| name).collect();
    let called: Vec<&str> = FUNCTIONS.iter().map(|function| function.name).collect();
    let uncalled = declared.iter().find(|name| !called.contains(&name.as_str()));
    assert_eq!(uncalled, None, "a function of include/qcldpc.h is not in the list of tests/calls/mod.rs");
    assert_eq!(called.len(), declared.len());
}
