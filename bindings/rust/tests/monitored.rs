//! Objects that monitors judge: right ones beside monitors on threads, wrong ones, and callers and monitors at the end of
//! what they may do.

use selfcheck::{
    CallerError, Counter, CounterObject, JudgeError, Map, MapObject, Monitored, MonitoredCaller,
    NotMade, OpenError, Queue, QueueObject, QueueOp, Reply, Verdict,
};
use std::collections::{HashMap, VecDeque};
use std::panic::{AssertUnwindSafe, catch_unwind};
use std::sync::atomic::{AtomicU32, AtomicUsize, Ordering::SeqCst};
use std::sync::{Barrier, Mutex, RwLock};
use std::thread;

#[derive(Default)]
struct Right<T>(T);

impl QueueObject for Right<Mutex<VecDeque<u32>>> {
    fn enq(&self, value: u32) {
        self.0.lock().unwrap().push_back(value);
    }

    fn deq(&self) -> Option<u32> {
        self.0.lock().unwrap().pop_front()
    }
}

impl CounterObject for Right<AtomicU32> {
    fn inc(&self) -> u32 {
        self.0.fetch_add(1, SeqCst)
    }
}

impl MapObject for Right<RwLock<HashMap<u32, u32>>> {
    fn put(&self, key: u32, value: u32) -> Option<u32> {
        self.0.write().unwrap().insert(key, value)
    }

    fn get(&self, key: u32) -> Option<u32> {
        self.0.read().unwrap().get(&key).copied()
    }

    fn del(&self, key: u32) -> Option<u32> {
        self.0.write().unwrap().remove(&key)
    }
}

/// A queue that forgets each value that isn't the first.
#[derive(Default)]
struct Forgetful(Mutex<Option<u32>>);

impl QueueObject for Forgetful {
    fn enq(&self, value: u32) {
        self.0.lock().unwrap().get_or_insert(value);
    }

    fn deq(&self) -> Option<u32> {
        self.0.lock().unwrap().take()
    }
}

/// Threads that begin at once make these calls, while monitors make rounds until all calls have ended, and one more: no
/// round finds an error.
fn by_threads<K: selfcheck::Kind, O: Default + Send + Sync>(
    threads: usize,
    monitors: usize,
    calls: u32,
    step: impl Fn(&mut MonitoredCaller<K, O>, u32) -> Result<(), NotMade> + Sync,
) {
    let object =
        Monitored::<K, O>::new(O::default(), threads, monitors, 2 * calls as usize).unwrap();
    let start = Barrier::new(threads);
    let working = AtomicUsize::new(threads);
    thread::scope(|scope| {
        for t in 0..threads as u32 {
            let (step, start, working) = (&step, &start, &working);
            let mut me = object.caller().unwrap();
            scope.spawn(move || {
                start.wait();
                for i in 0..calls {
                    step(&mut me, t * calls + i).unwrap();
                }
                working.fetch_sub(1, SeqCst);
            });
        }
        for _ in 0..monitors {
            let (working, mut monitor) = (&working, object.monitor().unwrap());
            scope.spawn(move || {
                loop {
                    let is_last = working.load(SeqCst) == 0;
                    monitor.judge().unwrap();
                    if is_last {
                        break;
                    }
                    thread::yield_now();
                }
            });
        }
    });
}

#[test]
fn monitors_find_no_error_of_right_objects() {
    for (threads, monitors) in [(1, 1), (2, 2), (4, 1), (14, 2)] {
        let calls = 32 / threads as u32;
        by_threads::<Queue, Right<Mutex<VecDeque<u32>>>>(threads, monitors, calls, |me, n| {
            me.enq(n)?;
            me.deq().map(drop)
        });
        by_threads::<Counter, Right<AtomicU32>>(threads, monitors, calls, |me, _| {
            me.inc().map(drop)
        });
        by_threads::<Map, Right<RwLock<HashMap<u32, u32>>>>(threads, monitors, calls, |me, n| {
            match n % 3 {
                0 => me.put(n % 4, n).map(drop),
                1 => me.get(n % 4).map(drop),
                _ => me.del(n % 4).map(drop),
            }
        });
    }
}

#[test]
fn replies_are_delivered_at_once_and_an_error_stays() {
    let queue = Monitored::<Queue, _>::new(Forgetful::default(), 2, 2, 8).unwrap();
    let (mut first, mut second) = (queue.caller().unwrap(), queue.caller().unwrap());
    let (mut one, mut other) = (queue.monitor().unwrap(), queue.monitor().unwrap());
    assert_eq!(one.judge(), Ok(()));
    first.enq(5).unwrap();
    first.enq(6).unwrap();
    assert_eq!(one.judge(), Ok(()));
    assert_eq!(second.deq(), Ok(Some(5)));
    assert_eq!(second.deq(), Ok(None));
    let text = "book 2\nobject queue\ncallers 4\ncalls 2 2 0 0\n\
        0 0 enq 5 done view 0:1\n0 1 enq 6 done view 0:2\n\
        1 0 deq =5 view 0:2 1:1\n1 1 deq none view 0:2 1:2\nend\n";
    let Err(JudgeError::Illegal(book)) = one.judge() else {
        panic!("6 is lost");
    };
    assert_eq!(book.as_str(), text);
    assert_eq!(book.verify(), Ok(Verdict::Illegal));
    // callers go on, and a monitor tells again what it has found
    first.enq(7).unwrap();
    assert_eq!(second.deq(), Ok(Some(7)));
    assert_eq!(one.judge(), Err(JudgeError::Illegal(book.clone())));
    // an error is final, so that a round over more calls finds it too
    drop(queue);
    let error = other.judge().unwrap_err();
    assert!(
        error
            .to_string()
            .starts_with("these calls have no legal order:\nbook 2\n")
    );
    let JudgeError::Illegal(later) = error else {
        panic!("an error with its book");
    };
    assert_eq!(later.calls(), book.calls() + 2);
}

#[test]
fn a_book_is_made_small_and_drawn() {
    let queue = Monitored::<Queue, _>::new(Forgetful::default(), 1, 1, 8).unwrap();
    let (mut me, mut monitor) = (queue.caller().unwrap(), queue.monitor().unwrap());
    for value in 1..=3 {
        me.enq(value).unwrap();
    }
    me.deq().unwrap();
    me.deq().unwrap();
    let Err(JudgeError::Illegal(book)) = monitor.judge() else {
        panic!("2 is lost");
    };
    let small = book.smaller().unwrap().expect("the book is illegal");
    assert!(small.calls() < book.calls());
    assert_eq!(small.verify(), Ok(Verdict::Illegal));
    let smallest = small.smaller().unwrap().expect("so is the smaller one");
    assert!(smallest.calls() <= small.calls());
    let picture = small.picture().unwrap();
    assert!(picture.starts_with("<svg ") && picture.ends_with("</svg>\n"));
    assert_eq!(picture.matches("<g id=\"call-").count(), small.calls());
}

#[test]
fn a_wrong_reply_is_delivered_and_found() {
    for reply in [Reply::Bad, Reply::Yes, Reply::None, Reply::Value(1)] {
        let queue = Monitored::<Queue, ()>::new((), 1, 1, 1).unwrap();
        let mut monitor = queue.monitor().unwrap();
        let ended = queue.caller().unwrap().call(QueueOp::Enq(1), |()| reply);
        assert_eq!(ended, Ok(reply));
        assert!(matches!(monitor.judge(), Err(JudgeError::Illegal(_))));
    }
}

fn fails() {
    panic!("after the value is in");
}

#[test]
fn a_call_that_panics_stays_unanswered() {
    let queue =
        Monitored::<Queue, _>::new(Right::<Mutex<VecDeque<u32>>>::default(), 2, 1, 8).unwrap();
    let (mut first, mut second) = (queue.caller().unwrap(), queue.caller().unwrap());
    let panics = catch_unwind(AssertUnwindSafe(|| {
        first.call(QueueOp::Enq(7), |inner| {
            inner.enq(7);
            fails();
        })
    }));
    assert!(panics.is_err());
    assert_eq!(first.enq(8), Err(NotMade::Halted));
    // the unanswered call may have put its value in
    assert_eq!(second.deq(), Ok(Some(7)));
    assert_eq!(second.deq(), Ok(None));
    assert_eq!(queue.monitor().unwrap().judge(), Ok(()));
}

#[test]
fn a_table_has_its_callers_its_monitors_and_its_calls() {
    let open = |callers, monitors, calls| {
        Monitored::<Counter, _>::new(Right::<AtomicU32>::default(), callers, monitors, calls)
    };
    for (callers, monitors, calls) in [
        (0, 0, 1),
        (16, 1, 1),
        (1, 16, 1),
        (1, 1, 0),
        (1, 1, 257),
        (usize::MAX, 1, 1),
    ] {
        assert_eq!(
            open(callers, monitors, calls).unwrap_err(),
            OpenError::NoSuchTable
        );
    }
    let counter = open(1, 2, 3).unwrap();
    let mut caller = counter.caller().unwrap();
    assert_eq!(counter.caller().unwrap_err(), CallerError::NoneLeft);
    for number in 0..3 {
        assert_eq!(caller.inc(), Ok(number));
    }
    assert_eq!(caller.inc(), Err(NotMade::NoCallLeft));
    let mut monitors = [counter.monitor().unwrap(), counter.monitor().unwrap()];
    assert_eq!(counter.monitor().unwrap_err(), CallerError::NoneLeft);
    drop(caller);
    drop(counter);
    for monitor in &mut monitors {
        assert_eq!(monitor.judge(), Ok(()));
        assert_eq!(monitor.judge(), Ok(()));
    }
}

#[test]
fn callers_and_monitors_go_to_other_threads() {
    fn is_sent<T: Send>(_: &T) {}
    fn is_shared<T: Sync>(_: &T) {}
    let counter = Monitored::<Counter, _>::new(Right::<AtomicU32>::default(), 1, 1, 2).unwrap();
    is_shared(&counter);
    let (mut caller, mut monitor) = (counter.caller().unwrap(), counter.monitor().unwrap());
    is_sent(&caller);
    is_sent(&monitor);
    thread::spawn(move || caller.inc().unwrap()).join().unwrap();
    thread::spawn(move || monitor.judge().unwrap())
        .join()
        .unwrap();
}

/// Calls on the object itself take any caller that is free; one that is lost keeps its caller.
#[test]
fn any_thread_calls() {
    let queue =
        Monitored::<Queue, _>::new(Right::<Mutex<VecDeque<u32>>>::default(), 5, 1, 16).unwrap();
    let mut monitor = queue.monitor().unwrap();
    let lost = queue.try_call(QueueOp::Enq(7), |_| Err::<(), _>("timeout"));
    assert_eq!(lost, Ok(Err("timeout")));
    for _ in 0..4 {
        thread::scope(|scope| {
            for t in 0..8 {
                let queue = &queue;
                scope.spawn(move || {
                    queue.enq(t).unwrap();
                    queue.deq().unwrap();
                });
            }
        });
        assert_eq!(monitor.judge(), Ok(()));
    }
    assert_eq!(queue.deq(), Err(NotMade::NoCallLeft));

    let queue = Monitored::<Queue, _>::new(Forgetful::default(), 1, 1, 4).unwrap();
    queue.enq(5).unwrap();
    queue.enq(6).unwrap();
    assert_eq!(queue.deq(), Ok(Some(5)));
    assert_eq!(queue.deq(), Ok(None));
    assert!(matches!(
        queue.monitor().unwrap().judge(),
        Err(JudgeError::Illegal(_))
    ));
}

/// A table of 16 callers has a monitor too, once one of them has made its calls.
#[test]
fn a_caller_becomes_a_monitor() {
    fn tried<O: QueueObject>(object: O, last: Option<u32>) -> Monitored<Queue, O> {
        let queue = Monitored::<Queue, _>::new(object, 16, 0, 2).unwrap();
        let mut callers: Vec<_> = (0..16).map(|_| queue.caller().unwrap()).collect();
        assert_eq!(queue.monitor().unwrap_err(), CallerError::NoneLeft);
        for (value, caller) in callers.iter_mut().enumerate() {
            caller.enq(value as u32).unwrap();
        }
        let mut monitor = callers.pop().unwrap().into_monitor().unwrap();
        assert_eq!(monitor.judge(), Ok(()));
        assert_eq!(callers[0].deq(), Ok(Some(0)));
        assert_eq!(callers[1].deq(), Ok(last));
        assert_eq!(
            monitor.judge().is_ok(),
            last.is_some(),
            "the monitor sees all 16 callers"
        );
        queue
    }
    tried(Right::<Mutex<VecDeque<u32>>>::default(), Some(1));
    let queue = tried(Forgetful::default(), None);
    assert_eq!(queue.caller().unwrap_err(), CallerError::NoneLeft);

    // a call that stays unanswered leaves no monitor
    let queue = Monitored::<Queue, _>::new(Forgetful::default(), 1, 0, 2).unwrap();
    let mut caller = queue.caller().unwrap();
    let panics = catch_unwind(AssertUnwindSafe(|| {
        caller.call(QueueOp::Enq(7), |_| fails())
    }));
    assert!(panics.is_err());
    assert!(caller.into_monitor().is_none());
}
