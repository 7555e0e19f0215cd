//! What plain Rust takes for the work of `crates/bench_machine`: rings and takes of an `AtomicU32`, and commits of one Step by
//! threads through a `std::sync::Mutex` round the machine of `peer.rs`. A commit also counts its Step in a book under the
//! lock and in a share of the thread, and returns the registers, the pc and 16 words of code, as the measured one does. It
//! reads the same line and writes the same text. It proves nothing.
//!
//!     rustc --edition 2021 -O -o bells bells.rs && echo 'commit 2 1000' | ./bells

#[allow(dead_code)]
#[path = "peer.rs"]
mod peer;

use peer::{Hart, Machine, BASE};
use std::hint::black_box;
use std::io;
use std::sync::atomic::{AtomicU32, Ordering};
use std::sync::Mutex;
use std::thread;

const CAPACITY: u64 = 1_048_576;

/// What a commit returns.
struct Committed {
    steps: u32,
    next: Hart,
    code: [u32; 16],
}

/// What lies under the lock.
struct Locked {
    machine: Machine,
    book: u64,
}

fn looping() -> Machine {
    let mut machine = Machine::boot([1, 65_536, CAPACITY]);
    machine.write(BASE, &0x0000_006fu32.to_le_bytes()).expect("bytes in RAM");
    machine
}

impl Locked {
    fn commit(&mut self, share: &mut u64) -> Option<Committed> {
        self.machine.steps(0, 1)?;
        self.book += 1;
        *share += 1;
        let next = self.machine.harts[0].clone();
        let mut code = [0; 16];
        for (i, word) in code.iter_mut().enumerate() {
            *word = self.machine.word(next.pc + 4 * i as u64)?;
        }
        Some(Committed { steps: 1, next, code })
    }
}

/// Has so many threads do the same.
fn by_threads(threads: u32, work: impl Fn() + Sync) {
    thread::scope(|scope| {
        for _ in 0..threads {
            scope.spawn(&work);
        }
    });
}

fn ring(threads: u32, count: u32) -> u32 {
    let word = AtomicU32::new(0);
    let each = count / threads;
    by_threads(threads, || {
        for i in 0..each {
            black_box(word.fetch_or(1 << (i % 32), Ordering::SeqCst));
        }
    });
    each * threads
}

fn take(threads: u32, count: u32) -> u32 {
    let word = AtomicU32::new(0);
    let each = count / threads;
    by_threads(threads, || {
        for _ in 0..each {
            black_box(word.swap(0, Ordering::SeqCst));
        }
    });
    each * threads
}

fn commit(threads: u32, count: u32) -> u32 {
    let locked = Mutex::new(Locked { machine: looping(), book: 0 });
    let each = count / threads;
    by_threads(threads, || {
        let mut share = 0;
        for _ in 0..each {
            let done = locked.lock().expect("no panic").commit(&mut share).expect("a Step");
            black_box((done.steps, done.next.pc, done.code[0]));
        }
    });
    locked.into_inner().expect("no panic").book as u32
}

fn step(count: u32) -> u32 {
    let mut machine = looping();
    for _ in 0..count {
        black_box(&mut machine).steps(0, 1).expect("a Step");
    }
    count
}

fn number(word: &str) -> u32 {
    word.parse().expect("a decimal number")
}

fn main() -> io::Result<()> {
    let mut line = String::new();
    io::stdin().read_line(&mut line)?;
    let done = match *line.trim_end().split(' ').collect::<Vec<_>>() {
        ["ring", threads, count] => ring(number(threads), number(count)),
        ["take", threads, count] => take(number(threads), number(count)),
        ["commit", threads, count] => commit(number(threads), number(count)),
        ["step", count] => step(number(count)),
        _ => panic!("no such work: {line}"),
    };
    println!("done {done}");
    Ok(())
}
