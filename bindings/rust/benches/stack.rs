//! Measures, to 1 KiB, how much stack each function needs below its caller, at the largest sizes and refused. In a thread of
//! 1 MiB some stack is used up before the calls; the figure is how much less of it may be used up than where nothing is
//! called. Each trial is a process of its own, since too little stack ends it.
#[path = "../tests/calls/mod.rs"]
mod calls;

use calls::{Call, FUNCTIONS};
use std::hint::black_box;
use std::process::{exit, Command, Stdio};
use std::thread::Builder;

const KIB: usize = 1024;

// The calls of a trial: those that a function of the list makes, or one that does nothing.
fn calls_of(name: &str, kind: &str) -> Vec<Call> {
    match (FUNCTIONS.iter().find(|function| function.name == name), kind) {
        (Some(function), "largest") => (function.largest)(),
        (Some(function), _) => (function.refused)(),
        (None, _) => vec![Box::new(|| ())],
    }
}

// Makes calls once so many bytes of the stack are in use.
#[inline(never)]
fn deeper(top: usize, used: usize, calls: Vec<Call>) {
    let here = black_box([0u8; 64]);
    if top - here.as_ptr() as usize >= used {
        calls.into_iter().for_each(|call| call());
    } else {
        deeper(top, used, calls);
    }
    black_box(here);
}

// A trial ends with 0 where the calls gave their answers, with 1 where one was wrong, by a signal where they needed more stack.
fn trial(name: &str, kind: &str, used: usize) -> ! {
    let calls = calls_of(name, kind);
    let run = move || {
        let top = black_box([0u8; 64]);
        deeper(top.as_ptr() as usize, used, calls);
    };
    let thread = Builder::new().stack_size(KIB * KIB).spawn(run).expect("a thread");
    exit(thread.join().is_err() as i32)
}

// Whether a trial's calls return.
fn returns(name: &str, kind: &str, used: usize) -> bool {
    let mut program = Command::new(std::env::current_exe().expect("this program"));
    let status = program.args([name, kind, &(used * KIB).to_string()]).stderr(Stdio::null()).status().expect("a trial");
    assert!(status.code().is_none_or(|code| code == 0), "{name}, {kind}: a wrong answer");
    status.success()
}

// How many KiB may be in use before the calls.
fn most(name: &str, kind: &str) -> usize {
    assert!(returns(name, kind, 0), "{name}, {kind}: 1 MiB is not enough");
    let (mut enough, mut too_many) = (0, KIB);
    while too_many - enough > 1 {
        let middle = (enough + too_many) / 2;
        match returns(name, kind, middle) {
            true => enough = middle,
            false => too_many = middle,
        }
    }
    enough
}

fn table() {
    let all = most("nothing", "");
    println!("{:22} {:>12} {:>12}", "stack in KiB", "largest", "refused");
    for function in FUNCTIONS {
        let [largest, refused] = ["largest", "refused"].map(|kind| all - most(function.name, kind));
        println!("{:22} {largest:>12} {refused:>12}", function.name);
    }
}

fn main() {
    let arguments: Vec<String> = std::env::args().skip(1).collect();
    match &arguments[..] {
        [name, kind, used] => trial(name, kind, used.parse().expect("a number of bytes")),
        _ => table(),
    }
}
