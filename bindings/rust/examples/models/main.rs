//! Histories that models judge: of queues with two and three places, and of a hunt for what is wrong
//! with a lock that knows its owner.

#[allow(dead_code)]
mod ready;

use ready::bounded_queue::{BoundedQueue, Op, Reply};
use ready::lock::{self, Lock};
use selfcheck::Recorder;
use selfcheck::model::{Runs, hunt, verify};
use selfcheck::schedule::sync::atomic::{AtomicU32, Ordering::SeqCst};
use std::collections::VecDeque;
use std::error::Error;
use std::sync::Mutex;
use std::thread;

// Three puts, and then three threads that put and take, of a queue with so many places.
fn judge(places: usize) -> Result<(), Box<dyn Error>> {
    let queue = Mutex::new(VecDeque::new());
    let recorder = Recorder::<BoundedQueue>::new();
    let put = |item| {
        recorder.call(Op::Put(item), || {
            let mut queue = queue.lock().unwrap();
            let has_place = queue.len() < places;
            if has_place {
                queue.push_back(item);
            }
            Reply::IsPut(has_place)
        });
    };
    (1..=3).for_each(put);
    thread::scope(|scope| {
        for item in 4..=6 {
            let (queue, recorder, put) = (&queue, &recorder, &put);
            scope.spawn(move || {
                recorder.call(Op::Take, || Reply::Taken(queue.lock().unwrap().pop_front()));
                put(item);
            });
        }
    });
    let verdict = verify(&BoundedQueue { places: 2 }, &recorder.history()?)?;
    println!("a queue with {places} places, by the model of one with 2: {verdict}");
    Ok(())
}

// Wrong: another thread may become the owner between the two steps.
fn call(owner: &AtomicU32, op: &lock::Op) -> lock::Reply {
    let known = Some(owner.load(SeqCst)).filter(|it| *it > 0);
    let next = match op {
        lock::Op::TryAcquire { by } => known.is_none().then_some(*by),
        lock::Op::Release { by } => (known == Some(*by)).then_some(0),
        lock::Op::Owner => return lock::Reply::Owner(known),
    };
    if let Some(next) = next {
        owner.store(next, SeqCst);
    }
    lock::Reply::IsDone(next.is_some())
}

fn main() -> Result<(), Box<dyn Error>> {
    judge(2)?;
    judge(3)?;
    let runs = Runs {
        calls: 3,
        seed: 5,
        ..Runs::default()
    };
    let finding = hunt(
        &Lock,
        &runs,
        |draw| {
            let by = 1 + draw.below(2) as u32;
            [
                lock::Op::TryAcquire { by },
                lock::Op::Release { by },
                lock::Op::Owner,
            ][draw.place(3)]
            .clone()
        },
        || AtomicU32::new(0),
        call,
    )?;
    match finding {
        Some(finding) => print!("{finding}"),
        None => println!("nothing was found"),
    }
    Ok(())
}
