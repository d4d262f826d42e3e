//! Judges many books in threads, each of which takes the next file that none has:
//! `cargo run --release --example many_books THREADS FILE..`. There is a line for each file, with its verdict or why it has
//! none. Ends with 0 where all are legal, and else with 1.

use selfcheck::{Verdict, verify};
use std::error::Error;
use std::io::{self, BufWriter, Write};
use std::num::NonZero;
use std::process::ExitCode;
use std::sync::Mutex;
use std::{env, fs, iter, thread};

/// What is said of one book.
type Judged = Result<Verdict, Box<dyn Error + Send + Sync>>;

fn judge(file: &str) -> Judged {
    Ok(verify(fs::read(file)?)?)
}

/// What is said of each book, in their order. An error of one is its own.
fn judge_all(files: &[String], threads: usize) -> Vec<Judged> {
    let next = Mutex::new(files.iter().enumerate());
    let take = || next.lock().unwrap().next();
    let told = |(index, file): (usize, &String)| (index, judge(file));
    let judge_on = || -> Vec<_> { iter::from_fn(take).map(told).collect() };
    let mut judged: Vec<_> = thread::scope(|scope| {
        let running: Vec<_> = (0..threads).map(|_| scope.spawn(judge_on)).collect();
        let ended = running.into_iter().map(|it| it.join().unwrap());
        ended.flatten().collect()
    });
    judged.sort_unstable_by_key(|(index, _)| *index);
    judged.into_iter().map(|(_, judged)| judged).collect()
}

fn main() -> Result<ExitCode, Box<dyn Error>> {
    let words: Vec<String> = env::args().skip(1).collect();
    let [threads, files @ ..] = &words[..] else {
        return Err("the words are THREADS and FILE..".into());
    };
    let judged = judge_all(files, threads.parse::<NonZero<usize>>()?.get());
    let mut out = BufWriter::new(io::stdout());
    for (file, judged) in files.iter().zip(&judged) {
        match judged {
            Ok(verdict) => writeln!(out, "{file} {verdict}")?,
            Err(error) => writeln!(out, "{file} {error}")?,
        }
    }
    out.flush()?;
    let is_legal = |it: &Judged| matches!(it, Ok(Verdict::Legal));
    Ok(ExitCode::from(u8::from(!judged.iter().all(is_legal))))
}
