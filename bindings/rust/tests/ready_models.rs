//! The models of the examples: by hand, and of right objects on threads.

#[path = "../examples/models/ready/mod.rs"]
mod ready;

use ready::bank::{self, Bank};
use ready::bounded_queue::{self, BoundedQueue};
use ready::counter::{self, Counter};
use ready::deque::{self, Deque};
use ready::lock::{self, Lock};
use ready::semaphore::{self, Semaphore};
use ready::store::{self, Store};
use selfcheck::model::{HistoryOf, ModelVerdict, recheck, verify};
use selfcheck::{Model, Recorder};
use std::collections::{HashMap, VecDeque};
use std::iter::once;
use std::sync::Mutex;
use std::sync::atomic::{AtomicI64, AtomicU32, Ordering::SeqCst};
use std::thread;

/// Numbers that look random (xorshift, Marsaglia 2003).
struct Random(u64);

impl Random {
    fn below(&mut self, bound: u64) -> u64 {
        self.0 ^= self.0 << 13;
        self.0 ^= self.0 >> 7;
        self.0 ^= self.0 << 17;
        self.0 % bound
    }

    fn one_of<T: Clone>(&mut self, values: &[T]) -> T {
        values[self.below(values.len() as u64) as usize].clone()
    }
}

/// Calls one after another.
fn in_turn<M: Model>(calls: impl IntoIterator<Item = (M::Op, M::Reply)>) -> HistoryOf<M> {
    let recorder = Recorder::<M>::new();
    for (op, reply) in calls {
        recorder.call(op, || reply);
    }
    recorder.history().unwrap()
}

/// These calls one after another are legal, and with the other reply to the last one they aren't.
fn try_by_hand<M: Model>(model: &M, calls: &[(M::Op, M::Reply)], other: M::Reply) {
    let history = in_turn::<M>(calls.iter().cloned());
    let ModelVerdict::Legal(order) = recheck(model, &history).unwrap() else {
        panic!("{history}")
    };
    assert!(order.iter().map(|it| it.call).eq(0..calls.len()));
    let (last, first) = calls.split_last().unwrap();
    let history = in_turn::<M>(first.iter().cloned().chain(once((last.0.clone(), other))));
    assert!(verify(model, &history).unwrap().is_illegal(), "{history}");
}

/// Four threads with forty random calls each of a right object are legal.
fn try_on_threads<M: Model<Op: Send, Reply: Send>>(
    model: &M,
    ops: impl Fn(&mut Random) -> M::Op + Sync,
    call: impl Fn(M::Op) -> M::Reply + Sync,
) {
    let recorder = Recorder::<M>::new();
    thread::scope(|scope| {
        for thread in 1..=4 {
            let (ops, call, mut me) = (&ops, &call, recorder.caller());
            scope.spawn(move || {
                let mut random = Random(thread);
                for _ in 0..40 {
                    let op = ops(&mut random);
                    me.call(op.clone(), || call(op));
                }
            });
        }
    });
    let history = recorder.history().unwrap();
    assert_eq!(history.len(), 160);
    assert!(verify(model, &history).unwrap().is_legal(), "{history}");
}

#[test]
fn the_model_of_a_deque() {
    use deque::Op::{PopBack, PopFront, PushBack, PushFront};
    use deque::Reply::{Popped, Pushed};
    let calls = [
        (PopBack, Popped(None)),
        (PushBack(2), Pushed),
        (PushFront(1), Pushed),
        (PushBack(3), Pushed),
        (PopBack, Popped(Some(3))),
        (PopFront, Popped(Some(1))),
        (PopFront, Popped(Some(2))),
    ];
    try_by_hand(&Deque, &calls, Popped(Some(3)));
    let items = Mutex::new(VecDeque::new());
    let ops = |random: &mut Random| {
        let item = random.below(3) as u32;
        random.one_of(&[PushFront(item), PushBack(item), PopFront, PopBack])
    };
    try_on_threads(&Deque, ops, |op| {
        let mut items = items.lock().unwrap();
        match op {
            PushFront(item) => items.push_front(item),
            PushBack(item) => items.push_back(item),
            PopFront => return Popped(items.pop_front()),
            PopBack => return Popped(items.pop_back()),
        }
        Pushed
    });
}

#[test]
fn the_model_of_a_bounded_queue() {
    use bounded_queue::Op::{Put, Take};
    use bounded_queue::Reply::{IsPut, Taken};
    let calls = [
        (Put(1), IsPut(true)),
        (Put(2), IsPut(true)),
        (Put(3), IsPut(false)),
        (Take, Taken(Some(1))),
        (Put(4), IsPut(true)),
        (Take, Taken(Some(2))),
        (Take, Taken(Some(4))),
    ];
    let queue = BoundedQueue { places: 2 };
    try_by_hand(&queue, &calls, Taken(None));
    let items = Mutex::new(VecDeque::new());
    let ops = |random: &mut Random| {
        let put = Put(random.below(5) as u32);
        random.one_of(&[put, Take])
    };
    try_on_threads(&queue, ops, |op| {
        let mut items = items.lock().unwrap();
        match op {
            Put(_) if items.len() == 2 => IsPut(false),
            Put(item) => {
                items.push_back(item);
                IsPut(true)
            }
            Take => Taken(items.pop_front()),
        }
    });
}

#[test]
fn the_model_of_a_lock() {
    use lock::Op::{Owner, Release, TryAcquire};
    use lock::Reply::{self, IsDone};
    let calls = [
        (Release { by: 1 }, IsDone(false)),
        (TryAcquire { by: 1 }, IsDone(true)),
        (TryAcquire { by: 2 }, IsDone(false)),
        (Release { by: 2 }, IsDone(false)),
        (Owner, Reply::Owner(Some(1))),
        (Release { by: 1 }, IsDone(true)),
        (Owner, Reply::Owner(None)),
    ];
    try_by_hand(&Lock, &calls, Reply::Owner(Some(1)));
    let owner = AtomicU32::new(0);
    let ops = |random: &mut Random| {
        let by = 1 + random.below(4) as u32;
        random.one_of(&[TryAcquire { by }, Release { by }, Owner])
    };
    let exchange = |from, to| owner.compare_exchange(from, to, SeqCst, SeqCst).is_ok();
    try_on_threads(&Lock, ops, |op| match op {
        TryAcquire { by } => IsDone(exchange(0, by)),
        Release { by } => IsDone(exchange(by, 0)),
        Owner => Reply::Owner(Some(owner.load(SeqCst)).filter(|it| *it > 0)),
    });
}

#[test]
fn the_model_of_a_semaphore() {
    use semaphore::Op::{Release, TryAcquire};
    let calls = [
        (Release, false),
        (TryAcquire, true),
        (TryAcquire, true),
        (TryAcquire, false),
        (Release, true),
        (TryAcquire, true),
    ];
    let semaphore = Semaphore { permits: 2 };
    try_by_hand(&semaphore, &calls, false);
    let free = AtomicU32::new(2);
    let ops = |random: &mut Random| random.one_of(&[TryAcquire, Release]);
    try_on_threads(&semaphore, ops, |op| {
        let next = |free: u32| match op {
            TryAcquire => free.checked_sub(1),
            Release => Some(free + 1).filter(|it| *it <= 2),
        };
        free.fetch_update(SeqCst, SeqCst, next).is_ok()
    });
}

#[test]
fn the_model_of_a_counter() {
    use counter::Op::{Add, Read};
    use counter::Reply::{Added, Number};
    let calls = [(Add(5), Added), (Add(-7), Added), (Read, Number(-2))];
    try_by_hand(&Counter, &calls, Number(5));
    let number = AtomicI64::new(0);
    let ops = |random: &mut Random| {
        let add = Add(random.below(5) as i64 - 2);
        random.one_of(&[add, Read])
    };
    try_on_threads(&Counter, ops, |op| match op {
        Add(more) => {
            number.fetch_add(more, SeqCst);
            Added
        }
        Read => Number(number.load(SeqCst)),
    });
}

#[test]
fn the_model_of_a_bank() {
    use bank::Op::{Balance, Transfer};
    use bank::Reply::{self, IsDone};
    let transfer = |from, to, sum| Transfer { from, to, sum };
    let calls = [
        (transfer(0, 1, 6), IsDone(true)),
        (transfer(0, 1, 6), IsDone(false)),
        (Balance(1), Reply::Balance(6)),
        (transfer(1, 0, 6), IsDone(true)),
        (Balance(0), Reply::Balance(10)),
    ];
    let accounts = vec![10, 0];
    try_by_hand(&Bank { accounts }, &calls, Reply::Balance(4));
    let accounts = Mutex::new([20, 20, 20]);
    let ops = |random: &mut Random| {
        let (from, to) = random.one_of(&[(0, 1), (1, 2), (2, 0), (1, 1)]);
        let transfer = transfer(from, to, random.below(30));
        random.one_of(&[transfer, Balance(from)])
    };
    let bank = Bank {
        accounts: vec![20, 20, 20],
    };
    try_on_threads(&bank, ops, |op| {
        let mut accounts = accounts.lock().unwrap();
        match op {
            Balance(account) => Reply::Balance(accounts[account]),
            Transfer { from, sum, .. } if accounts[from] < sum => IsDone(false),
            Transfer { from, to, sum } => {
                accounts[from] -= sum;
                accounts[to] += sum;
                IsDone(true)
            }
        }
    });
}

#[test]
fn the_model_of_a_store() {
    use store::Op::{Get, Put, PutAt};
    use store::Reply::{self, Got, Refused};
    let text = |it: &str| it.to_owned();
    let key = || text("k");
    let put_at = |version, value| PutAt {
        key: key(),
        version,
        value: text(value),
    };
    let put = |key: &str, value| Put {
        key: text(key),
        value: text(value),
    };
    let calls = [
        (Get { key: key() }, Got(None)),
        (put("k", "one"), Reply::Put(1)),
        (put_at(0, "two"), Refused),
        (Get { key: key() }, Got(Some((text("one"), 1)))),
        (put("other", "one"), Reply::Put(1)),
        (put_at(1, "three"), Reply::Put(2)),
        (Get { key: key() }, Got(Some((text("three"), 2)))),
    ];
    try_by_hand(&Store, &calls, Got(Some((text("two"), 2))));
    let values = Mutex::new(HashMap::<String, (String, u64)>::new());
    let ops = |random: &mut Random| {
        let put = put(random.one_of(&["k", "other"]), "v");
        let put_at = put_at(random.below(40), "w");
        random.one_of(&[put, put_at, Get { key: key() }])
    };
    try_on_threads(&Store, ops, |op| {
        let mut values = values.lock().unwrap();
        let (key, at, value) = match op {
            Get { key } => return Got(values.get(&key).cloned()),
            Put { key, value } => (key, None, value),
            PutAt {
                key,
                version,
                value,
            } => (key, Some(version), value),
        };
        let version = values.get(&key).map_or(0, |it| it.1);
        if at.is_some_and(|at| at != version) {
            return Refused;
        }
        values.insert(key, (value, version + 1));
        Reply::Put(version + 1)
    });
}
