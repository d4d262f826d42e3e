//! A queue with two places that refuses when it is full, which checks itself by a model: four threads call a right one,
//! and then one that reads the first item and removes it in two steps, with the processor given away between them. Two
//! threads take one item, and the call that shows it is an error, with its calls.

use selfcheck::Model;
use selfcheck::model::{CallError, CallErrorOf, Enforced, verify};
use std::error::Error;
use std::sync::Mutex;
use std::thread;

const PLACES: usize = 2;

struct Bounded;

#[derive(Clone, Debug, PartialEq, Eq, Hash)]
enum Op {
    Put(String),
    Take,
}

#[derive(Clone, Debug, PartialEq, Eq, Hash)]
enum Reply {
    IsPut(bool),
    Taken(Option<String>),
}

impl Model for Bounded {
    type State = Vec<String>;
    type Op = Op;
    type Reply = Reply;

    fn initial(&self) -> Vec<String> {
        Vec::new()
    }

    fn step(&self, items: &Vec<String>, op: &Op) -> (Vec<String>, Reply) {
        let mut items = items.clone();
        let reply = match op {
            Op::Put(item) => put(&mut items, item),
            Op::Take => {
                let first = items.first().cloned();
                remove_first(&mut items);
                Reply::Taken(first)
            }
        };
        (items, reply)
    }

    fn leaves(&self, _: &Op, reply: &Reply) -> bool {
        matches!(reply, Reply::IsPut(false) | Reply::Taken(None))
    }
}

fn put(items: &mut Vec<String>, item: &str) -> Reply {
    let has_place = items.len() < PLACES;
    if has_place {
        items.push(item.to_owned());
    }
    Reply::IsPut(has_place)
}

fn remove_first(items: &mut Vec<String>) {
    if !items.is_empty() {
        items.remove(0);
    }
}

/// The queue that threads call.
struct Shared {
    items: Mutex<Vec<String>>,
    is_hasty: bool,
}

impl Shared {
    fn make(&self, op: &Op) -> Reply {
        let mut items = self.items.lock().unwrap();
        match op {
            Op::Put(item) => put(&mut items, item),
            Op::Take => {
                let first = items.first().cloned();
                if self.is_hasty {
                    drop(items);
                    thread::yield_now();
                    items = self.items.lock().unwrap();
                }
                remove_first(&mut items);
                Reply::Taken(first)
            }
        }
    }
}

/// How many calls were delivered, and the errors of the others.
type Outcome = (usize, Vec<CallErrorOf<Bounded>>);

/// How many calls are delivered, and the errors.
fn run(is_hasty: bool) -> Result<Outcome, Box<dyn Error>> {
    let items = Mutex::default();
    let queue = Enforced::new(Bounded, Shared { items, is_hasty }, 4, 64)?;
    let mut callers = (0..4)
        .map(|_| queue.caller())
        .collect::<Result<Vec<_>, _>>()?;
    let (mut delivered, mut errors) = (0, Vec::new());
    thread::scope(|scope| {
        let threads = callers.iter_mut().enumerate().map(|(thread, me)| {
            scope.spawn(move || {
                for at in 0..64 {
                    let op = match at % 2 {
                        0 => Op::Put(format!("{at} of {thread}")),
                        _ => Op::Take,
                    };
                    if let Err(error) = me.call(op.clone(), |queue| queue.make(&op)) {
                        return (at, Some(error));
                    }
                }
                (64, None)
            })
        });
        for thread in threads.collect::<Vec<_>>() {
            let (made, error) = thread.join().expect("a thread without a panic");
            delivered += made;
            errors.extend(error);
        }
    });
    Ok((delivered, errors))
}

fn main() -> Result<(), Box<dyn Error>> {
    let (delivered, errors) = run(false)?;
    println!(
        "right: {delivered} calls are delivered, and {} are errors",
        errors.len()
    );
    for _ in 0..100 {
        if let Some(CallError::Illegal(calls)) = run(true)?.1.first() {
            println!("hasty: an error, with its calls");
            println!("judged again: {}", verify(&Bounded, calls.history())?);
            // with a word the calls are shown too
            if std::env::args().count() > 1 {
                print!("{calls}\n{}", calls.text());
            }
            return Ok(());
        }
    }
    Err("a hasty queue wasn't caught".into())
}
