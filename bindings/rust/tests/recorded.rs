//! What is recorded of objects on threads, right and wrong, and how it is judged.

use selfcheck::{
    Book, CallError, CasRegister, Counter, Incomplete, JudgeError, Kind, Map, PriorityQueue, Queue,
    QueueOp, Recorder, Register, Reply, Set, Stack, Verdict, order,
};
use std::cmp::Reverse;
use std::collections::{BinaryHeap, HashMap, HashSet, VecDeque};
use std::panic::{AssertUnwindSafe, catch_unwind};
use std::sync::atomic::{AtomicU32, Ordering::SeqCst};
use std::sync::{Barrier, Mutex, RwLock};
use std::thread;

/// Two callers, of whom the second begins after the first has returned: `enq 5`, and a `deq` from another queue.
#[test]
fn a_lost_value_has_this_book() {
    let mut twins = [VecDeque::new(), VecDeque::new()];
    let recorder = Recorder::<Queue>::new();
    let mut first = recorder.caller();
    let mut second = recorder.caller();
    first.enq(5, || twins[0].push_back(5));
    assert_eq!(second.deq(|| twins[1].pop_front()), None);
    drop((first, second));
    let book = recorder.book().unwrap();
    let lines = [
        "book 2",
        "object queue",
        "callers 2",
        "calls 1 1",
        "0 0 enq 5 done view 0:1",
        "1 0 deq none view 0:1 1:1",
        "end",
        "",
    ];
    assert_eq!(book.to_string(), lines.join("\n"));
    assert_eq!(book.calls(), 2);
    assert_eq!(book.verify(), Ok(Verdict::Illegal));
    assert_eq!(book.certify(), Ok(None));
}

/// The same two calls where the second is invoked before the first returns.
#[test]
fn calls_that_overlap_may_stand_in_either_order() {
    let recorder = Recorder::<Queue>::new();
    let mut first = recorder.caller();
    let mut second = recorder.caller();
    let enq = first.invoke(QueueOp::Enq(5));
    let deq = second.invoke(QueueOp::Deq);
    enq.ret(());
    deq.ret(None);
    drop((first, second));
    let book = recorder.book().unwrap();
    assert!(book.to_string().contains("\n0 0 enq 5 done view 0:1 1:1\n"));
    assert_eq!(book.verify(), Ok(Verdict::Legal));
}

#[test]
fn a_certificate_is_accepted() {
    let queue = Mutex::new(VecDeque::new());
    let recorder = Recorder::<Queue>::new();
    thread::scope(|scope| {
        for t in 0..4 {
            let (queue, mut me) = (&queue, recorder.caller());
            scope.spawn(move || {
                for i in 0..60 {
                    me.enq(100 * t + i, || queue.lock().unwrap().push_back(100 * t + i));
                    me.deq(|| queue.lock().unwrap().pop_front());
                }
            });
        }
    });
    let book = recorder.book().unwrap();
    assert_eq!(book.calls(), 480);
    let certificate = book.certify().unwrap().expect("a locked deque is a queue");
    assert!(certificate.starts_with(&book.to_string()));
    assert_eq!(order(&certificate), Ok(Verdict::Legal));
    // the order's last place but one is taken away
    let mut lines: Vec<_> = certificate.lines().collect();
    lines.remove(lines.len() - 3);
    assert_eq!(order(lines.join("\n") + "\n"), Ok(Verdict::Illegal));
}

#[test]
fn a_torn_counter_is_illegal() {
    let counter = AtomicU32::new(0);
    let between = Barrier::new(2);
    let recorder = Recorder::<Counter>::new();
    thread::scope(|scope| {
        for _ in 0..2 {
            let (counter, between, mut me) = (&counter, &between, recorder.caller());
            scope.spawn(move || {
                me.inc(|| {
                    let number = counter.load(SeqCst);
                    between.wait();
                    counter.store(number + 1, SeqCst);
                    number
                });
            });
        }
    });
    assert_eq!(recorder.book().unwrap().verify(), Ok(Verdict::Illegal));
}

/// One operation of each name, with replies that are worked by hand; the last reply of each kind is then one more than
/// it is to be, or the other of two.
#[test]
fn each_kind_has_its_operations() {
    macro_rules! try_kind {
        ($kind:ty, |$me:ident, $is:ident| $calls:expr) => {
            for (right, verdict) in [(true, Verdict::Legal), (false, Verdict::Illegal)] {
                let recorder = Recorder::<$kind>::new();
                let mut $me = recorder.caller();
                let $is = |value: u32| if right { value } else { value + 1 };
                $calls;
                drop($me);
                let book = recorder.book().unwrap();
                assert_eq!(book.verify(), Ok(verdict), "{book}");
            }
        };
    }
    try_kind!(Queue, |me, is| {
        me.enq(1, || ());
        me.enq(2, || ());
        me.deq(|| Some(is(1)));
    });
    try_kind!(Stack, |me, is| {
        me.push(1, || ());
        me.push(2, || ());
        me.pop(|| Some(is(2)));
    });
    try_kind!(Register, |me, is| {
        me.write(7, || ());
        me.read(|| is(7));
    });
    try_kind!(Counter, |me, is| {
        me.inc(|| 0);
        me.inc(|| is(1));
    });
    try_kind!(Set, |me, is| {
        me.add(3, || true);
        me.add(3, || false);
        me.remove(4, || false);
        me.remove(3, || true);
        me.has(3, || is(0) == 1);
    });
    try_kind!(PriorityQueue, |me, is| {
        me.insert(5, || ());
        me.insert(4, || ());
        me.min(|| Some(is(4)));
    });
    try_kind!(CasRegister, |me, is| {
        me.cas(0, 9, || true);
        me.cas(0, 8, || false);
        me.write(6, || ());
        me.read(|| is(6));
    });
    try_kind!(Map, |me, is| {
        me.put(1, 10, || None);
        me.put(1, 11, || Some(10));
        me.get(2, || None);
        me.del(1, || Some(11));
        me.get(1, || (is(0) == 1).then_some(11));
    });
}

#[test]
fn right_objects_of_all_kinds_are_legal() {
    let queue = Mutex::new(VecDeque::new());
    let stack = Mutex::new(Vec::new());
    let register = AtomicU32::new(0);
    let counter = AtomicU32::new(0);
    let set = Mutex::new(HashSet::new());
    let heap = Mutex::new(BinaryHeap::new());
    let word = AtomicU32::new(0);
    let map = RwLock::new(HashMap::new());
    let queues = Recorder::<Queue>::new();
    let stacks = Recorder::<Stack>::new();
    let registers = Recorder::<Register>::new();
    let counters = Recorder::<Counter>::new();
    let sets = Recorder::<Set>::new();
    let heaps = Recorder::<PriorityQueue>::new();
    let words = Recorder::<CasRegister>::new();
    let maps = Recorder::<Map>::new();
    thread::scope(|scope| {
        for t in 0..3 {
            let mut q = queues.caller();
            let mut s = stacks.caller();
            let mut r = registers.caller();
            let mut c = counters.caller();
            let mut e = sets.caller();
            let mut h = heaps.caller();
            let mut w = words.caller();
            let mut m = maps.caller();
            let (queue, stack, register, counter) = (&queue, &stack, &register, &counter);
            let (set, heap, word, map) = (&set, &heap, &word, &map);
            scope.spawn(move || {
                for i in 0..20 {
                    let v = 100 * t + i;
                    q.enq(v, || queue.lock().unwrap().push_back(v));
                    q.deq(|| queue.lock().unwrap().pop_front());
                    s.push(v, || stack.lock().unwrap().push(v));
                    s.pop(|| stack.lock().unwrap().pop());
                    r.write(v, || register.store(v, SeqCst));
                    r.read(|| register.load(SeqCst));
                    c.inc(|| counter.fetch_add(1, SeqCst));
                    e.add(i % 5, || set.lock().unwrap().insert(i % 5));
                    e.has(i % 3, || set.lock().unwrap().contains(&(i % 3)));
                    e.remove(i % 4, || set.lock().unwrap().remove(&(i % 4)));
                    h.insert(v, || heap.lock().unwrap().push(Reverse(v)));
                    h.min(|| {
                        heap.lock()
                            .unwrap()
                            .pop()
                            .map(|least: Reverse<u32>| least.0)
                    });
                    let seen = w.read(|| word.load(SeqCst));
                    w.cas(seen, v, || {
                        word.compare_exchange(seen, v, SeqCst, SeqCst).is_ok()
                    });
                    w.write(t, || word.store(t, SeqCst));
                    m.put(i % 4, v, || map.write().unwrap().insert(i % 4, v));
                    m.get(i % 3, || map.read().unwrap().get(&(i % 3)).copied());
                    m.del(i % 5, || map.write().unwrap().remove(&(i % 5)));
                }
            });
        }
    });
    assert_eq!(queues.book().unwrap().verify(), Ok(Verdict::Legal));
    assert_eq!(stacks.book().unwrap().verify(), Ok(Verdict::Legal));
    assert_eq!(registers.book().unwrap().verify(), Ok(Verdict::Legal));
    assert_eq!(counters.book().unwrap().verify(), Ok(Verdict::Legal));
    assert_eq!(sets.book().unwrap().verify(), Ok(Verdict::Legal));
    assert_eq!(heaps.book().unwrap().verify(), Ok(Verdict::Legal));
    assert_eq!(words.book().unwrap().verify(), Ok(Verdict::Legal));
    assert_eq!(maps.book().unwrap().verify(), Ok(Verdict::Legal));
}

#[test]
fn an_object_with_contents_is_filled_before() {
    let mut queue = VecDeque::from([7]);
    let recorder = Recorder::<Queue>::new();
    recorder.caller().enq(7, || ());
    recorder.caller().deq(|| queue.pop_front());
    assert_eq!(recorder.book().unwrap().verify(), Ok(Verdict::Legal));
}

#[test]
fn an_unanswered_call_may_stand_or_not() {
    for reply in [Some(7), None] {
        let recorder = Recorder::<Queue>::new();
        let mut first = recorder.caller();
        drop(first.invoke(QueueOp::Enq(7)));
        drop(first);
        recorder.caller().deq(|| reply);
        let book = recorder.book().unwrap();
        assert!(book.to_string().contains("\n0 0 enq 7\n"));
        assert_eq!(book.verify(), Ok(Verdict::Legal));
    }
}

#[test]
fn a_call_that_panics_stays_unanswered() {
    let recorder = Recorder::<Queue>::new();
    let mut me = recorder.caller();
    let panics = catch_unwind(AssertUnwindSafe(|| {
        me.enq(7, || panic!("the object fails"))
    }));
    assert!(panics.is_err());
    drop(me);
    assert!(
        recorder
            .book()
            .unwrap()
            .to_string()
            .contains("\n0 0 enq 7\n")
    );
}

#[test]
fn a_caller_in_use_is_told() {
    let recorder = Recorder::<Counter>::new();
    let mut me = recorder.caller();
    assert_eq!(
        recorder.book().unwrap_err(),
        Incomplete::InUse { caller: 0 }
    );
    for number in 0..256 {
        me.inc(|| number);
    }
    drop(me);
    assert_eq!(recorder.book().unwrap().verify(), Ok(Verdict::Legal));
}

#[test]
fn a_book_has_one_to_sixteen_callers() {
    let recorder = Recorder::<Map>::new();
    let book = recorder.book().unwrap();
    assert_eq!(
        book.to_string(),
        "book 2\nobject map\ncallers 1\ncalls 0\nend\n"
    );
    assert_eq!(book.verify(), Ok(Verdict::Legal));
    for (callers, shown) in [(16, 16), (17, 1)] {
        let recorder = Recorder::<Map>::new();
        (0..callers).for_each(|_| drop(recorder.caller()));
        let book = recorder.book().unwrap();
        assert!(book.as_str().contains(&format!("\ncallers {shown}\n")));
        assert_eq!(book.verify(), Ok(Verdict::Legal));
    }
}

#[test]
fn a_reply_that_no_object_of_the_kind_gives_is_illegal() {
    for reply in [Reply::Bad, Reply::Yes, Reply::None] {
        let recorder = Recorder::<Queue>::new();
        let mut me = recorder.caller();
        me.invoke(QueueOp::Enq(1)).ret(reply);
        drop(me);
        assert_eq!(recorder.book().unwrap().verify(), Ok(Verdict::Illegal));
    }
}

/// What books and errors of any kind at all are compared by: it compiles where they compare
/// whatever the kind.
fn are_equal<K: Kind>(one: &Book<K>, other: &Book<K>) -> bool {
    let illegal = |book: &Book<K>| CallError::Illegal(book.clone());
    let found = |book: &Book<K>| JudgeError::Illegal(book.clone());
    let equal = one == other;
    assert_eq!(illegal(one) == illegal(other), equal);
    assert_eq!(found(one) == found(other), equal);
    assert!(illegal(one) != CallError::IllegalUntold && found(one) != JudgeError::NoMemory);
    equal
}

#[test]
fn books_and_errors_compare() {
    let book_of = |value| {
        let recorder = Recorder::<Queue>::new();
        recorder.caller().enq(value, || ());
        recorder.book().unwrap()
    };
    assert!(are_equal(&book_of(1), &book_of(1)));
    assert!(!are_equal(&book_of(1), &book_of(2)));
    let unjudged = CallError::<Queue>::Unjudged;
    assert_eq!(unjudged(Reply::Done), unjudged(Reply::Done));
    assert_ne!(unjudged(Reply::Done), unjudged(Reply::None));
    assert_ne!(CallError::<Queue>::Halted, CallError::NoCallLeft);
}
