//! Objects whose calls check themselves: right ones of each kind, wrong ones, and callers at the end of what they may do.

use selfcheck::{
    CallError, CallerError, CasRegister, CasRegisterObject, Counter, CounterObject, CounterOp,
    Enforced, EnforcedCaller, Map, MapObject, OpenError, PriorityQueue, PriorityQueueObject, Queue,
    QueueObject, QueueOp, Register, RegisterObject, Reply, Set, SetObject, Stack, StackObject,
    Verdict,
};
use std::cmp::Reverse;
use std::collections::{BinaryHeap, HashMap, HashSet, VecDeque};
use std::panic::{AssertUnwindSafe, catch_unwind};
use std::sync::atomic::{AtomicU32, Ordering::SeqCst};
use std::sync::{Barrier, Mutex, RwLock};
use std::thread;
use std::time::Duration;

/// A right object of each kind.
#[derive(Default)]
struct Right<T>(T);

impl QueueObject for Right<Mutex<VecDeque<u32>>> {
    fn enq(&self, value: u32) {
        self.0.lock().unwrap().push_back(value);
    }

    fn deq(&self) -> Option<u32> {
        self.0.lock().unwrap().pop_front()
    }
}

impl StackObject for Right<Mutex<Vec<u32>>> {
    fn push(&self, value: u32) {
        self.0.lock().unwrap().push(value);
    }

    fn pop(&self) -> Option<u32> {
        self.0.lock().unwrap().pop()
    }
}

impl RegisterObject for Right<AtomicU32> {
    fn write(&self, value: u32) {
        self.0.store(value, SeqCst);
    }

    fn read(&self) -> u32 {
        self.0.load(SeqCst)
    }
}

impl CounterObject for Right<AtomicU32> {
    fn inc(&self) -> u32 {
        self.0.fetch_add(1, SeqCst)
    }
}

impl SetObject for Right<Mutex<HashSet<u32>>> {
    fn add(&self, value: u32) -> bool {
        self.0.lock().unwrap().insert(value)
    }

    fn remove(&self, value: u32) -> bool {
        self.0.lock().unwrap().remove(&value)
    }

    fn has(&self, value: u32) -> bool {
        self.0.lock().unwrap().contains(&value)
    }
}

impl PriorityQueueObject for Right<Mutex<BinaryHeap<Reverse<u32>>>> {
    fn insert(&self, value: u32) {
        self.0.lock().unwrap().push(Reverse(value));
    }

    fn min(&self) -> Option<u32> {
        self.0.lock().unwrap().pop().map(|least| least.0)
    }
}

impl CasRegisterObject for Right<AtomicU32> {
    fn write(&self, value: u32) {
        self.0.store(value, SeqCst);
    }

    fn read(&self) -> u32 {
        self.0.load(SeqCst)
    }

    fn cas(&self, from: u32, to: u32) -> bool {
        (self.0.compare_exchange(from, to, SeqCst, SeqCst)).is_ok()
    }
}

impl MapObject for Right<RwLock<HashMap<u32, u32>>> {
    fn put(&self, key: u32, value: u32) -> Option<u32> {
        self.0.write().unwrap().insert(key, value)
    }

    fn get(&self, key: u32) -> Option<u32> {
        self.0.read().unwrap().get(&key).copied()
    }

    fn del(&self, key: u32) -> Option<u32> {
        self.0.write().unwrap().remove(&key)
    }
}

/// A queue that forgets each value that isn't the first.
#[derive(Default)]
struct Forgetful(Mutex<Option<u32>>);

impl QueueObject for Forgetful {
    fn enq(&self, value: u32) {
        self.0.lock().unwrap().get_or_insert(value);
    }

    fn deq(&self) -> Option<u32> {
        self.0.lock().unwrap().take()
    }
}

/// Threads that begin at once, each with a caller of its own, make these calls, of which none may be an error.
fn by_threads<K: selfcheck::Kind, O: Default + Send + Sync>(
    threads: usize,
    calls: u32,
    step: impl Fn(&mut EnforcedCaller<K, O>, u32) -> Result<(), CallError<K>> + Sync,
) {
    let object = Enforced::<K, O>::new(O::default(), threads, 2 * calls as usize).unwrap();
    let start = Barrier::new(threads);
    thread::scope(|scope| {
        for t in 0..threads as u32 {
            let (step, start, mut me) = (&step, &start, object.caller().unwrap());
            scope.spawn(move || {
                start.wait();
                for i in 0..calls {
                    step(&mut me, t * calls + i).unwrap();
                }
            });
        }
    });
}

#[test]
fn right_objects_of_all_kinds_are_delivered() {
    for threads in [1, 2, 4, 16] {
        let calls = 64 / threads as u32;
        by_threads::<Queue, Right<Mutex<VecDeque<u32>>>>(threads, calls, |me, n| {
            me.enq(n)?;
            me.deq().map(drop)
        });
        by_threads::<Stack, Right<Mutex<Vec<u32>>>>(threads, calls, |me, n| {
            me.push(n)?;
            me.pop().map(drop)
        });
        by_threads::<Register, Right<AtomicU32>>(threads, calls, |me, n| {
            me.write(n)?;
            me.read().map(drop)
        });
        by_threads::<Counter, Right<AtomicU32>>(threads, calls, |me, _| me.inc().map(drop));
        by_threads::<Set, Right<Mutex<HashSet<u32>>>>(threads, calls, |me, n| match n % 3 {
            0 => me.add(n % 5).map(drop),
            1 => me.has(n % 5).map(drop),
            _ => me.remove(n % 5).map(drop),
        });
        by_threads::<PriorityQueue, Right<Mutex<BinaryHeap<Reverse<u32>>>>>(
            threads,
            calls,
            |me, n| {
                me.insert(n)?;
                me.min().map(drop)
            },
        );
        by_threads::<CasRegister, Right<AtomicU32>>(threads, calls, |me, n| match n % 3 {
            0 => me.write(n),
            1 => me.read().map(drop),
            _ => me.cas(n - 2, n).map(drop),
        });
        by_threads::<Map, Right<RwLock<HashMap<u32, u32>>>>(threads, calls, |me, n| match n % 3 {
            0 => me.put(n % 4, n).map(drop),
            1 => me.get(n % 4).map(drop),
            _ => me.del(n % 4).map(drop),
        });
    }
}

/// One operation of each name, with replies that are worked by hand: the object gives them, and they are delivered. With
/// the last one wrong, by 1 or the other of two, the call is an error whose book ends with it.
#[test]
fn each_kind_has_its_operations() {
    macro_rules! try_kind {
        ($kind:ty, $($op:literal $reply:expr),+; $wrong:expr, |$me:ident| $calls:expr) => {
            let replies: Vec<Reply> = vec![$($reply.into()),+];
            let mut wrong = replies.clone();
            *wrong.last_mut().unwrap() = $wrong.into();
            for (given, is_right) in [(&replies, true), (&wrong, false)] {
                let object = Enforced::<$kind, _>::new(Told::of(given), 1, 8).unwrap();
                let mut $me = object.caller().unwrap();
                let ended: Result<(), CallError<$kind>> = (|| $calls)();
                let calls = [$($op),+];
                match ended {
                    Ok(()) => assert!(is_right, "{wrong:?}"),
                    Err(CallError::Illegal(book)) => {
                        assert!(!is_right, "{book}");
                        let lines: Vec<_> = (calls.iter().zip(given).enumerate())
                            .map(|(k, (op, reply))| format!("0 {k} {op} {reply} view 0:{}\n", k + 1))
                            .collect();
                        let head = format!(
                            "book 2\nobject {}\ncallers 1\ncalls {}\n",
                            <$kind as selfcheck::Kind>::NAME,
                            calls.len()
                        );
                        assert_eq!(book.to_string(), format!("{head}{}end\n", lines.concat()));
                        assert_eq!(book.calls(), calls.len());
                        assert_eq!(book.verify(), Ok(Verdict::Illegal));
                        assert_eq!(book.certify(), Ok(None));
                    }
                    Err(other) => panic!("{other}"),
                }
            }
        };
    }
    try_kind!(Queue, "enq 1" (), "enq 2" (), "deq" Some(1); Some(2), |me| {
        me.enq(1)?;
        me.enq(2)?;
        me.deq().map(drop)
    });
    try_kind!(Stack, "push 1" (), "push 4294967295" (), "pop" Some(u32::MAX); Some(1), |me| {
        me.push(1)?;
        me.push(u32::MAX)?;
        me.pop().map(drop)
    });
    try_kind!(Register, "write 7" (), "read" 7; 8, |me| {
        me.write(7)?;
        me.read().map(drop)
    });
    try_kind!(Counter, "inc" 0, "inc" 1; 2, |me| {
        me.inc()?;
        me.inc().map(drop)
    });
    try_kind!(Set, "add 3" true, "add 3" false, "remove 4" false, "remove 3" true, "has 3" false; true, |me| {
        me.add(3)?;
        me.add(3)?;
        me.remove(4)?;
        me.remove(3)?;
        me.has(3).map(drop)
    });
    try_kind!(PriorityQueue, "insert 5" (), "insert 4" (), "min" Some(4); None::<u32>, |me| {
        me.insert(5)?;
        me.insert(4)?;
        me.min().map(drop)
    });
    try_kind!(CasRegister, "cas 0 9" true, "cas 0 8" false, "write 6" (), "read" 6; 9, |me| {
        me.cas(0, 9)?;
        me.cas(0, 8)?;
        me.write(6)?;
        me.read().map(drop)
    });
    try_kind!(
        Map,
        "put 1 10" None::<u32>, "put 1 11" Some(10), "get 2" None::<u32>, "del 1" Some(11), "get 1" None::<u32>;
        Some(11),
        |me| {
            me.put(1, 10)?;
            me.put(1, 11)?;
            me.get(2)?;
            me.del(1)?;
            me.get(1).map(drop)
        }
    );
}

/// Gives these replies one by one, whatever is asked.
struct Told(Mutex<VecDeque<Reply>>);

impl Told {
    fn of(replies: &[Reply]) -> Told {
        Told(Mutex::new(replies.iter().copied().collect()))
    }

    fn next(&self) -> Reply {
        self.0.lock().unwrap().pop_front().unwrap()
    }

    fn done(&self) {
        assert_eq!(self.next(), Reply::Done);
    }

    fn value(&self) -> u32 {
        self.some().unwrap()
    }

    fn some(&self) -> Option<u32> {
        match self.next() {
            Reply::Value(value) => Some(value),
            Reply::None => None,
            other => panic!("{other} is no value"),
        }
    }

    fn is_so(&self) -> bool {
        match self.next() {
            Reply::Yes => true,
            Reply::No => false,
            other => panic!("{other} is neither yes nor no"),
        }
    }
}

macro_rules! told {
    ($($object:ident { $($call:ident($($argument:ident),*) $(-> $reply:ty)? = $gives:ident;)+ })+) => {$(
        impl $object for Told {$(
            fn $call(&self, $($argument: u32),*) $(-> $reply)? {
                let _ = ($($argument,)*);
                self.$gives()
            }
        )+}
    )+};
}

told! {
    QueueObject { enq(a) = done; deq() -> Option<u32> = some; }
    StackObject { push(a) = done; pop() -> Option<u32> = some; }
    RegisterObject { write(a) = done; read() -> u32 = value; }
    CounterObject { inc() -> u32 = value; }
    SetObject { add(a) -> bool = is_so; remove(a) -> bool = is_so; has(a) -> bool = is_so; }
    PriorityQueueObject { insert(a) = done; min() -> Option<u32> = some; }
    CasRegisterObject { write(a) = done; read() -> u32 = value; cas(a, b) -> bool = is_so; }
    MapObject { put(a, b) -> Option<u32> = some; get(a) -> Option<u32> = some; del(a) -> Option<u32> = some; }
}

#[test]
fn an_error_has_a_book_and_halts_its_caller() {
    let queue = Enforced::<Queue, _>::new(Forgetful::default(), 3, 8).unwrap();
    let mut first = queue.caller().unwrap();
    let mut second = queue.caller().unwrap();
    let mut third = queue.caller().unwrap();
    first.enq(5).unwrap();
    first.enq(6).unwrap();
    assert_eq!(second.deq(), Ok(Some(5)));
    let Err(error) = second.deq() else {
        panic!("6 is lost");
    };
    let text = "book 2\nobject queue\ncallers 3\ncalls 2 2 0\n\
        0 0 enq 5 done view 0:1\n0 1 enq 6 done view 0:2\n\
        1 0 deq =5 view 0:2 1:1\n1 1 deq none view 0:2 1:2\nend\n";
    assert_eq!(
        error.to_string(),
        format!("these calls have no legal order:\n{text}")
    );
    let CallError::Illegal(book) = error else {
        panic!("an error with its book");
    };
    assert_eq!(book.as_str(), text);
    assert_eq!(book.calls(), 4);
    assert_eq!(book.verify(), Ok(Verdict::Illegal));
    assert_eq!(second.deq(), Err(CallError::Halted));
    // an error is final: whoever has seen these calls finds it too
    assert!(matches!(third.deq(), Err(CallError::Illegal(_))));
    drop(queue);
    assert!(matches!(first.enq(7), Err(CallError::Illegal(_))));
    assert_eq!(first.enq(8), Err(CallError::Halted));
}

#[test]
fn a_reply_that_no_object_of_the_kind_gives_is_an_error() {
    for reply in [Reply::Bad, Reply::Yes, Reply::None, Reply::Value(1)] {
        let queue = Enforced::<Queue, ()>::new((), 1, 1).unwrap();
        let ended = queue.caller().unwrap().call(QueueOp::Enq(1), |()| reply);
        assert!(matches!(ended, Err(CallError::Illegal(_))), "{ended:?}");
    }
}

#[test]
fn overlapping_calls_stand_in_either_order() {
    let queue = Enforced::<Queue, _>::new(Right::<Mutex<VecDeque<u32>>>::default(), 2, 8).unwrap();
    let (mut first, mut second) = (queue.caller().unwrap(), queue.caller().unwrap());
    // the second caller's call lies inside the first one's, which then found nothing
    let taken = first.call(QueueOp::Deq, |inner| {
        let taken = inner.deq();
        second.enq(5).unwrap();
        taken
    });
    assert_eq!(taken, Ok(None));
    assert_eq!(first.deq(), Ok(Some(5)));
}

fn fails() {
    panic!("after the value is in");
}

#[test]
fn a_call_that_panics_stays_unanswered() {
    let queue = Enforced::<Queue, _>::new(Right::<Mutex<VecDeque<u32>>>::default(), 2, 8).unwrap();
    let (mut first, mut second) = (queue.caller().unwrap(), queue.caller().unwrap());
    let panics = catch_unwind(AssertUnwindSafe(|| {
        first.call(QueueOp::Enq(7), |inner| {
            inner.enq(7);
            fails();
        })
    }));
    assert!(panics.is_err());
    assert_eq!(first.enq(8), Err(CallError::Halted));
    // the unanswered call may have put its value in
    assert_eq!(second.deq(), Ok(Some(7)));
    assert_eq!(second.deq(), Ok(None));
}

#[test]
fn a_table_has_its_callers_and_calls() {
    let open =
        |callers, calls| Enforced::<Counter, _>::new(Right::<AtomicU32>::default(), callers, calls);
    for (callers, calls) in [(0, 1), (17, 1), (1, 0), (1, 257), (usize::MAX, 1)] {
        assert_eq!(open(callers, calls).unwrap_err(), OpenError::NoSuchTable);
    }
    let counter = open(2, 3).unwrap();
    for start in [0, 3] {
        let mut caller = counter.caller().unwrap();
        for number in 0..3 {
            assert_eq!(caller.inc(), Ok(start + number));
        }
        assert_eq!(caller.inc(), Err(CallError::NoCallLeft));
        assert_eq!(caller.inc(), Err(CallError::NoCallLeft));
    }
    assert_eq!(counter.caller().unwrap_err(), CallerError::NoneLeft);
    assert_eq!(counter.caller().unwrap_err(), CallerError::NoneLeft);

    let largest = open(16, 256).unwrap();
    let mut callers: Vec<_> = (0..16).map(|_| largest.caller().unwrap()).collect();
    assert_eq!(largest.caller().unwrap_err(), CallerError::NoneLeft);
    drop(largest);
    for number in 0..256 {
        assert_eq!(callers[number as usize % 16].inc(), Ok(number));
    }
    for number in 0..256 - 16 {
        assert_eq!(callers[0].inc(), Ok(256 + number));
    }
    assert_eq!(callers[0].inc(), Err(CallError::NoCallLeft));
    assert_eq!(callers[1].inc(), Ok(496));
}

#[test]
fn callers_go_to_other_threads() {
    fn is_sent<T: Send>(_: &T) {}
    fn is_shared<T: Sync>(_: &T) {}
    let counter = Enforced::<Counter, _>::new(Right::<AtomicU32>::default(), 1, 2).unwrap();
    is_shared(&counter);
    let mut caller = counter.caller().unwrap();
    is_sent(&caller);
    caller.inc().unwrap();
    // the object and its table go on while a caller is left
    drop(counter);
    let last = thread::spawn(move || caller.inc()).join().unwrap();
    assert_eq!(last, Ok(1));
}

/// Calls on the object itself take any caller that is free, and another where its calls are made.
#[test]
fn any_thread_calls() {
    let queue = Enforced::<Queue, _>::new(Right::<Mutex<VecDeque<u32>>>::default(), 4, 32).unwrap();
    for _ in 0..4 {
        thread::scope(|scope| {
            for t in 0..8 {
                let queue = &queue;
                scope.spawn(move || {
                    queue.enq(t).unwrap();
                    queue.deq().unwrap();
                });
            }
        });
    }
    let counter = Enforced::<Counter, _>::new(Right::<AtomicU32>::default(), 3, 2).unwrap();
    let mut stays = counter.caller().unwrap();
    for number in 0..4 {
        assert_eq!(counter.inc(), Ok(number));
    }
    for _ in 0..2 {
        assert_eq!(counter.inc(), Err(CallError::NoCallLeft));
    }
    assert_eq!(counter.caller().unwrap_err(), CallerError::NoneLeft);
    assert_eq!(stays.inc(), Ok(4));
}

/// A call waits while the only caller is in another one.
#[test]
fn a_call_waits_for_a_caller() {
    let counter = Enforced::<Counter, _>::new(Right::<AtomicU32>::default(), 1, 2).unwrap();
    let (begun, has_ended) = (Barrier::new(2), AtomicU32::new(0));
    thread::scope(|scope| {
        scope.spawn(|| {
            let first = counter.call(CounterOp::Inc, |inner| {
                begun.wait();
                thread::sleep(Duration::from_millis(20));
                has_ended.store(1, SeqCst);
                inner.inc()
            });
            assert_eq!(first, Ok(0));
        });
        begun.wait();
        let second = counter.call(CounterOp::Inc, |inner| {
            assert_eq!(has_ended.load(SeqCst), 1);
            inner.inc()
        });
        assert_eq!(second, Ok(1));
    });
}

/// A call that is lost keeps its caller, and so does one that panics; the thread goes on as another.
#[test]
fn lost_calls_keep_their_callers() {
    for panics in [false, true] {
        let queue =
            Enforced::<Queue, _>::new(Right::<Mutex<VecDeque<u32>>>::default(), 2, 3).unwrap();
        if panics {
            let lost = catch_unwind(AssertUnwindSafe(|| {
                queue.call(QueueOp::Enq(7), |inner| {
                    inner.enq(7);
                    fails();
                })
            }));
            assert!(lost.is_err());
        } else {
            let lost = queue.try_call(QueueOp::Enq(7), |inner| {
                inner.enq(7);
                Err::<(), _>("timeout")
            });
            assert_eq!(lost, Ok(Err("timeout")));
        }
        assert_eq!(queue.deq(), Ok(Some(7)));
        assert_eq!(queue.deq(), Ok(None));
        assert_eq!(queue.deq(), Ok(None));
        assert_eq!(queue.deq(), Err(CallError::NoCallLeft));
    }
}

/// An error halts the caller that made the call, and the next call finds it again as another.
#[test]
fn an_error_is_found_by_each_caller() {
    let queue = Enforced::<Queue, _>::new(Forgetful::default(), 2, 8).unwrap();
    queue.enq(5).unwrap();
    queue.enq(6).unwrap();
    queue.deq().unwrap();
    for calls in [4, 5] {
        let Err(CallError::Illegal(book)) = queue.deq() else {
            panic!("6 is lost");
        };
        assert_eq!(book.calls(), calls);
    }
    assert_eq!(queue.deq(), Err(CallError::NoCallLeft));
}
