//! What a call of a counter costs bare, recorded by a caller that stays with the thread and without one, where it is
//! published for monitors, and where it checks itself, with 1, 2 and 4 threads, and what a verdict costs:
//! `cargo run --release --example cost BOOK..`.

use selfcheck::{Counter, CounterObject, Enforced, Monitored, Recorder, verify};
use std::error::Error;
use std::hint::{black_box, spin_loop};
use std::sync::atomic::{AtomicU32, AtomicUsize, Ordering::SeqCst};
use std::time::Instant;
use std::{env, fs, thread};

#[derive(Default)]
struct Word(AtomicU32);

impl CounterObject for Word {
    fn inc(&self) -> u32 {
        self.0.fetch_add(1, SeqCst)
    }
}

/// Nanoseconds a call, where each thread is given a caller, and all begin at once.
fn timed<C: Send>(
    threads: usize,
    calls: u32,
    caller: impl Fn() -> C,
    call: impl Fn(&mut C) -> u32 + Sync,
) -> f64 {
    let ready = AtomicUsize::new(0);
    let spent: Vec<f64> = thread::scope(|scope| {
        let running: Vec<_> = (0..threads)
            .map(|_| {
                let (ready, call, mut me) = (&ready, &call, caller());
                scope.spawn(move || {
                    ready.fetch_add(1, SeqCst);
                    while ready.load(SeqCst) < threads {
                        spin_loop();
                    }
                    let begun = Instant::now();
                    for _ in 0..calls {
                        black_box(call(&mut me));
                    }
                    begun.elapsed().as_secs_f64()
                })
            })
            .collect();
        running.into_iter().map(|it| it.join().unwrap()).collect()
    });
    spent.iter().sum::<f64>() / threads as f64 / f64::from(calls) * 1e9
}

fn bare(threads: usize, calls: u32) -> f64 {
    let word = Word::default();
    timed(threads, calls, || (), |()| word.inc())
}

fn recorded(threads: usize, calls: u32) -> f64 {
    let word = Word::default();
    let recorder = Recorder::<Counter>::new();
    timed(
        threads,
        calls,
        || recorder.caller(),
        |me| me.inc(|| word.inc()),
    )
}

// By calls that any thread may make.
fn recorded_by_any(threads: usize, calls: u32) -> f64 {
    let word = Word::default();
    let recorder = Recorder::<Counter>::new();
    timed(
        threads,
        calls,
        || recorder.clone(),
        |me| me.inc(|| word.inc()),
    )
}

// With no monitor at work beside the callers.
fn published(threads: usize, calls: u32) -> f64 {
    let counter =
        Monitored::<Counter, _>::new(Word::default(), threads, 0, calls as usize).unwrap();
    timed(
        threads,
        calls,
        || counter.caller().unwrap(),
        |me| me.inc().unwrap(),
    )
}

fn enforced(threads: usize, calls: u32) -> f64 {
    let counter = Enforced::<Counter, _>::new(Word::default(), threads, calls as usize).unwrap();
    timed(
        threads,
        calls,
        || counter.caller().unwrap(),
        |me| me.inc().unwrap(),
    )
}

/// Nanoseconds a call at best.
fn write_cost(what: &str, threads: usize, calls: u32, run: fn(usize, u32) -> f64) -> f64 {
    let mut runs: Vec<_> = (0..200).map(|_| run(threads, calls)).collect();
    runs.sort_by(f64::total_cmp);
    println!(
        "{what}, {threads} threads, {calls} calls each: {:.0} ns a call at best, {:.0} ns in the median of 200 runs",
        runs[0], runs[100]
    );
    runs[0]
}

fn main() -> Result<(), Box<dyn Error>> {
    for threads in [1, 2, 4] {
        write_cost("bare", threads, 256, bare);
        let by_caller = write_cost("recorded", threads, 256, recorded);
        let by_any = write_cost("recorded by any thread", threads, 256, recorded_by_any);
        println!("  {:.1} times as much without a caller", by_any / by_caller);
        for calls in [16, 64, 256] {
            write_cost("published", threads, calls, published);
            write_cost("checking itself", threads, calls, enforced);
        }
    }
    for path in env::args().skip(1) {
        let text = fs::read(&path)?;
        let mut runs = Vec::new();
        let all = Instant::now();
        while runs.len() < 200 && (runs.len() < 5 || all.elapsed().as_secs() < 2) {
            let begun = Instant::now();
            let _ = black_box(verify(&text));
            runs.push(begun.elapsed().as_secs_f64());
        }
        runs.sort_by(f64::total_cmp);
        println!(
            "{path}: {:.1} us at best, {:.1} us in the median",
            runs[0] * 1e6,
            runs[runs.len() / 2] * 1e6
        );
    }
    Ok(())
}
