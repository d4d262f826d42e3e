//! Objects whose calls are judged by a model as they are made: right ones, wrong ones, and callers at the end of what they
//! may do.

#[path = "../examples/models/ready/bounded_queue.rs"]
mod bounded_queue;
#[path = "../examples/models/ready/lock.rs"]
mod lock;

use bounded_queue::{BoundedQueue, Op, Reply};
use lock::Lock;
use selfcheck::model::{CallError, Enforced, EnforcedCaller, ModelError, recheck, verify};
use selfcheck::{CallerError, Model, OpenError};
use std::collections::VecDeque;
use std::panic::{AssertUnwindSafe, catch_unwind};
use std::sync::{Barrier, Mutex};
use std::thread;

const MODEL: BoundedQueue = BoundedQueue { places: 2 };

/// A queue with two places. A hasty one reads the first item, and removes it later.
#[derive(Default)]
struct Queue {
    items: Mutex<VecDeque<u32>>,
    is_hasty: bool,
}

impl Queue {
    fn put(&self, item: u32) -> Reply {
        let mut items = self.items.lock().unwrap();
        let has_place = items.len() < 2;
        if has_place {
            items.push_back(item);
        }
        Reply::IsPut(has_place)
    }

    fn take(&self) -> Reply {
        if !self.is_hasty {
            return Reply::Taken(self.items.lock().unwrap().pop_front());
        }
        let first = self.items.lock().unwrap().front().copied();
        thread::yield_now();
        self.items.lock().unwrap().pop_front();
        Reply::Taken(first)
    }

    fn make(&self, op: &Op) -> Reply {
        match op {
            Op::Put(item) => self.put(*item),
            Op::Take => self.take(),
        }
    }
}

fn checked(callers: usize, calls: usize) -> Enforced<BoundedQueue, Queue> {
    Enforced::new(MODEL, Queue::default(), callers, calls).unwrap()
}

fn put(me: &mut EnforcedCaller<BoundedQueue, Queue>, item: u32) -> Reply {
    me.call(Op::Put(item), |queue| queue.put(item)).unwrap()
}

/// Four threads, each of which puts and takes in turn; the error of one of them, if there is one.
fn by_threads(queue: Queue, calls: usize) -> Option<CallError<Op, Reply>> {
    let queue = Enforced::new(MODEL, queue, 4, calls).unwrap();
    let start = Barrier::new(4);
    let ended = thread::scope(|scope| {
        let threads = [0, 1, 2, 3].map(|thread| {
            let (mut me, start) = (queue.caller().unwrap(), &start);
            scope.spawn(move || {
                start.wait();
                (0..calls as u32).try_for_each(|at| {
                    let item = 1000 * thread + at;
                    let op = [Op::Put(item), Op::Take][at as usize % 2].clone();
                    me.call(op.clone(), |queue| queue.make(&op)).map(drop)
                })
            })
        });
        threads.map(|thread| thread.join().unwrap())
    });
    ended.into_iter().find_map(Result::err)
}

#[test]
fn right_objects_are_delivered() {
    for _ in 0..4 {
        assert!(by_threads(Queue::default(), 32).is_none());
    }
    let lock = Enforced::new(Lock, Mutex::new(None), 3, 32).unwrap();
    thread::scope(|scope| {
        for by in 0..3 {
            let mut me = lock.caller().unwrap();
            scope.spawn(move || {
                for _ in 0..10 {
                    let got = me.call(lock::Op::TryAcquire { by }, |lock| {
                        let mut owner = lock.lock().unwrap();
                        let is_free = owner.is_none();
                        if is_free {
                            *owner = Some(by);
                        }
                        lock::Reply::IsDone(is_free)
                    });
                    me.call(lock::Op::Owner, |lock| {
                        lock::Reply::Owner(*lock.lock().unwrap())
                    })
                    .unwrap();
                    if got.unwrap() == lock::Reply::IsDone(true) {
                        me.call(lock::Op::Release { by }, |lock| {
                            lock::Reply::IsDone(lock.lock().unwrap().take() == Some(by))
                        })
                        .unwrap();
                    }
                }
            });
        }
    });
}

/// Two threads take one item, and the call that shows it is an error.
#[test]
fn a_race_is_caught() {
    let found = (0..200).find_map(|_| {
        let is_hasty = true;
        by_threads(
            Queue {
                is_hasty,
                ..Queue::default()
            },
            32,
        )
    });
    let Some(CallError::Illegal(calls)) = found else {
        panic!("no error of a hasty queue: {found:?}");
    };
    assert!(
        verify(&MODEL, calls.history()).unwrap().is_illegal(),
        "{calls}"
    );
    assert!(recheck(&MODEL, calls.history()).unwrap().is_illegal());
}

/// Worked by hand: the operations are numbered as they come, put 5 as 0, put 6 as 1, put 7 as 2, and take as 3; the
/// replies are that a put is done, 0, that it is refused, 1, and that 6 is taken, 2. What the model says besides has the
/// next number: that 5 is taken.
#[test]
fn an_error_has_its_calls_and_halts_its_caller() {
    let queue = checked(2, 8);
    let (mut first, mut second) = (queue.caller().unwrap(), queue.caller().unwrap());
    assert_eq!(put(&mut first, 5), Reply::IsPut(true));
    assert_eq!(put(&mut first, 6), Reply::IsPut(true));
    assert_eq!(put(&mut first, 7), Reply::IsPut(false));
    let taken = second.call(Op::Take, |queue| {
        queue.items.lock().unwrap().clear();
        Reply::Taken(Some(6))
    });
    let Err(CallError::Illegal(calls)) = &taken else {
        panic!("{taken:?}");
    };
    let text = "book 2\nobject model\ncallers 2\ncalls 3 1\n\
        0 0 op 0 =0 view 0:1\n0 1 op 1 =0 view 0:2\n0 2 op 2 =1 view 0:3\n\
        1 0 op 3 =2 view 0:3 1:1\nend\n";
    let steps = calls.text().strip_prefix(text).unwrap();
    // the second caller's own states: put 5 leads to state 1, and put 6 to state 2
    assert_eq!(
        steps,
        "steps 2\nleaves op 2 =1\n0 op 0 1 =0\n1 op 1 2 =0\n2 op 2 2 =1\n2 op 3 3 =3\nend\n"
    );
    assert_eq!(
        calls.to_string(),
        "0: Put(5) replied IsPut(true), 0 to 1\n1: Put(6) replied IsPut(true), 2 to 3\n\
         2: Put(7) replied IsPut(false), 4 to 5\n3: Take replied Taken(Some(6)), 6 to 7\n"
    );
    assert!(verify(&MODEL, calls.history()).unwrap().is_illegal());
    let again = second.call(Op::Take, Queue::take);
    assert!(matches!(again, Err(CallError::Halted)), "{again:?}");
    // an error is final: whoever has seen these calls finds it too
    let found = first.call(Op::Take, Queue::take);
    assert!(matches!(found, Err(CallError::Illegal(_))), "{found:?}");
}

#[test]
fn overlapping_calls_stand_in_either_order() {
    let queue = checked(2, 8);
    let (mut first, mut second) = (queue.caller().unwrap(), queue.caller().unwrap());
    // the second caller's call lies inside the first one's, which then found nothing
    let taken = first.call(Op::Take, |inner| {
        let taken = inner.take();
        put(&mut second, 5);
        taken
    });
    assert_eq!(taken.unwrap(), Reply::Taken(None));
    let taken = first.call(Op::Take, Queue::take);
    assert_eq!(taken.unwrap(), Reply::Taken(Some(5)));
}

/// A reply that the model gave to one caller, before anybody handed it in, has one number for all.
#[test]
fn numbers_are_those_of_all_callers() {
    let queue = checked(2, 8);
    let (mut first, mut second) = (queue.caller().unwrap(), queue.caller().unwrap());
    // what the first caller's judgement asks of the open take gives a reply that nobody has had
    let taken = second.call(Op::Take, |inner| {
        put(&mut first, 8);
        put(&mut first, 9);
        inner.take()
    });
    assert_eq!(taken.unwrap(), Reply::Taken(Some(8)));
    let taken = first.call(Op::Take, Queue::take);
    assert_eq!(taken.unwrap(), Reply::Taken(Some(9)));
    let refused = second.call(Op::Take, Queue::take);
    assert_eq!(refused.unwrap(), Reply::Taken(None));
}

/// A call that is lost keeps its caller, and so does one that panics; the thread goes on as another.
#[test]
fn lost_calls_keep_their_callers() {
    for panics in [false, true] {
        let queue = checked(2, 3);
        if panics {
            let lost = catch_unwind(AssertUnwindSafe(|| {
                queue.call(Op::Put(7), |inner| {
                    let reply = inner.put(7);
                    assert_eq!(reply, Reply::IsPut(false), "after the item is in");
                    reply
                })
            }));
            assert!(lost.is_err());
            // the panic is within no lock of the queue
        } else {
            let lost = queue.try_call(Op::Put(7), |inner| {
                inner.put(7);
                Err::<Reply, _>("timeout")
            });
            assert_eq!(lost.unwrap(), Err("timeout"));
        }
        let take = || queue.call(Op::Take, Queue::take);
        assert_eq!(take().unwrap(), Reply::Taken(Some(7)));
        assert_eq!(take().unwrap(), Reply::Taken(None));
        assert_eq!(take().unwrap(), Reply::Taken(None));
        assert!(matches!(take(), Err(CallError::NoCallLeft)));
    }
}

/// A counter whose model promises that adding changes nothing.
struct Promising;

impl Model for Promising {
    type State = u32;
    type Op = ();
    type Reply = ();

    fn initial(&self) -> u32 {
        0
    }

    fn step(&self, state: &u32, (): &()) -> (u32, ()) {
        (state + 1, ())
    }

    fn leaves(&self, (): &(), (): &()) -> bool {
        true
    }
}

#[test]
fn a_broken_promise_is_told() {
    let counter = Enforced::new(Promising, (), 1, 2).unwrap();
    let mut me = counter.caller().unwrap();
    let ended = me.call((), |()| ());
    let Err(CallError::OfModel((), ModelError::LeavesNot { state, next, .. })) = ended else {
        panic!("{ended:?}");
    };
    assert_eq!((state.as_str(), next.as_str()), ("0", "1"));
    assert!(matches!(me.call((), |()| ()), Err(CallError::Halted)));
}

#[test]
fn a_table_has_its_callers_and_calls() {
    for (callers, calls) in [(0, 1), (17, 1), (1, 0), (1, 257), (usize::MAX, 1)] {
        let ended = Enforced::new(MODEL, Queue::default(), callers, calls);
        assert_eq!(ended.unwrap_err(), OpenError::NoSuchTable);
    }
    let queue = checked(2, 3);
    for _ in 0..2 {
        let mut me = queue.caller().unwrap();
        for at in 0..3 {
            let op = [Op::Put(at), Op::Take][at as usize % 2].clone();
            me.call(op.clone(), |queue| queue.make(&op)).unwrap();
        }
        let ended = me.call(Op::Take, Queue::take);
        assert!(matches!(ended, Err(CallError::NoCallLeft)));
    }
    assert_eq!(queue.caller().unwrap_err(), CallerError::NoneLeft);
}

#[test]
fn any_thread_calls() {
    let queue = checked(4, 32);
    thread::scope(|scope| {
        for item in 0..8 {
            let queue = &queue;
            scope.spawn(move || {
                queue.call(Op::Put(item), |queue| queue.put(item)).unwrap();
                queue.call(Op::Take, Queue::take).unwrap();
            });
        }
    });
}
