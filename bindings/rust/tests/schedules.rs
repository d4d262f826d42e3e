//! Runs under schedules: what comes again by its seed, how runs end, and that the types do as the
//! standard library's.

use selfcheck::schedule::sync::atomic::{
    AtomicBool, AtomicPtr, AtomicU32, AtomicUsize, Ordering::SeqCst,
};
use selfcheck::schedule::sync::{
    Arc, Barrier, Condvar, LazyLock, Mutex, Once, OnceLock, RwLock, TryLockError, mpsc,
};
use selfcheck::schedule::{self, Ending, Ran, hint, thread};
use std::collections::BTreeSet;
use std::time::Duration;

// What a body writes down under each of so many seeds.
fn seen<T: Ord + Send + 'static>(
    seeds: u64,
    body: fn(&Arc<std::sync::Mutex<Vec<T>>>),
) -> BTreeSet<Vec<T>> {
    let mut all = BTreeSet::new();
    for seed in 0..seeds {
        let log = Arc::new(std::sync::Mutex::new(Vec::new()));
        let own = Arc::clone(&log);
        let ran = schedule::run(seed, move || body(&own));
        assert_eq!(*ran.ending(), Ending::Finished, "seed {seed}");
        all.insert(std::mem::take(&mut *log.lock().unwrap()));
    }
    all
}

fn endings(seeds: u64, body: fn()) -> Vec<Ran> {
    (0..seeds).map(|seed| schedule::run(seed, body)).collect()
}

// Two threads that each load and store.
fn torn() {
    let number = Arc::new(AtomicUsize::new(0));
    let threads: Vec<_> = (0..2)
        .map(|_| {
            let number = Arc::clone(&number);
            thread::spawn(move || {
                let old = number.load(SeqCst);
                number.store(old + 1, SeqCst);
            })
        })
        .collect();
    threads.into_iter().for_each(|it| it.join().unwrap());
    assert_eq!(number.load(SeqCst), 2, "an addition is lost");
}

#[test]
fn a_seed_has_one_run() {
    let text = |ran: &Ran| {
        let steps: String = ran.steps().iter().map(|it| format!("{it}\n")).collect();
        format!("{steps}{}", ran.ending())
    };
    let first: Vec<_> = endings(200, torn).iter().map(text).collect();
    let again: Vec<_> = endings(200, torn).iter().map(text).collect();
    assert_eq!(first, again);
    assert!(first.iter().collect::<BTreeSet<_>>().len() > 10);
}

#[test]
fn a_panic_has_its_place() {
    let all = endings(200, torn);
    let panics: Vec<_> = (all.iter())
        .filter_map(|ran| match ran.ending() {
            Ending::Panicked(panic) => Some(panic.to_string()),
            _ => None,
        })
        .collect();
    assert!(panics.len() > 10 && panics.len() < 190, "{}", panics.len());
    for panic in panics {
        assert!(
            panic.starts_with("main panicked at tests/schedules.rs:"),
            "{panic}"
        );
        assert!(panic.contains("an addition is lost"), "{panic}");
    }
}

#[test]
fn locks_in_both_orders_are_a_deadlock() {
    let all = endings(200, || {
        let locks = Arc::new((Mutex::new(0), RwLock::new(0)));
        let other = Arc::clone(&locks);
        let thread = thread::spawn(move || {
            let _second = other.1.write().unwrap();
            let _first = other.0.lock().unwrap();
        });
        let first = locks.0.lock().unwrap();
        drop(locks.1.read().unwrap());
        drop(first);
        thread.join().unwrap();
    });
    let dead: Vec<_> = (all.iter().map(|it| it.ending().to_string()))
        .filter(|it| it != "finished")
        .collect();
    assert!(!dead.is_empty() && dead.len() < 190, "{}", dead.len());
    for text in dead {
        let lines: Vec<_> = text.lines().collect();
        assert_eq!(lines[0], "deadlock: each thread waits, and none can go on");
        assert!(
            lines[1].starts_with("main waits for reading of the lock #"),
            "{text}"
        );
        assert!(
            lines[1].contains(", held by thread 1 since tests/schedules.rs:"),
            "{text}"
        );
        assert!(lines[2].starts_with("thread 1 waits for mutex #"), "{text}");
        assert!(
            lines[2].contains(", held by main since tests/schedules.rs:"),
            "{text}"
        );
    }
}

#[test]
fn a_notification_may_be_missed() {
    let all = endings(200, || {
        let shared = Arc::new((Mutex::new(false), Condvar::new()));
        let other = Arc::clone(&shared);
        let thread = thread::spawn(move || {
            *other.0.lock().unwrap() = true;
            other.1.notify_one();
        });
        // wrong: the flag may be set between the look and the wait
        let is_set = *shared.0.lock().unwrap();
        if !is_set {
            drop(shared.1.wait(shared.0.lock().unwrap()));
        }
        thread.join().unwrap();
    });
    let dead = (all.iter()).filter(|it| matches!(it.ending(), Ending::Deadlock(_)));
    let texts: Vec<_> = dead.map(|it| it.ending().to_string()).collect();
    assert!(texts.len() > 5 && texts.len() < 195, "{}", texts.len());
    assert!(
        texts[0].contains("main waits for a notification of condvar #"),
        "{}",
        texts[0]
    );
}

#[test]
fn spinning_on_nothing_is_a_livelock() {
    for ran in endings(10, || {
        let flag = Arc::new(AtomicU32::new(0));
        while flag.load(SeqCst) == 0 {
            hint::spin_loop();
        }
    }) {
        assert!(
            matches!(ran.ending(), Ending::Livelock(_)),
            "{}",
            ran.ending()
        );
    }
    for ran in endings(10, || {
        let number = AtomicU32::new(0);
        while number.fetch_add(1, SeqCst) < u32::MAX {}
    }) {
        assert!(
            matches!(ran.ending(), Ending::StepLimit(_)),
            "{}",
            ran.ending()
        );
    }
}

#[test]
fn spinning_on_another_thread_ends() {
    for ran in endings(100, || {
        let flag = Arc::new(AtomicU32::new(0));
        let threads: Vec<_> = (0..2)
            .map(|it| {
                let flag = Arc::clone(&flag);
                thread::spawn(move || {
                    while flag.load(SeqCst) == 0 {
                        // one of them doesn't say that it waits
                        if it == 0 {
                            thread::yield_now();
                        }
                    }
                })
            })
            .collect();
        thread::sleep(Duration::from_secs(3600));
        flag.store(1, SeqCst);
        threads.into_iter().for_each(|it| it.join().unwrap());
    }) {
        assert_eq!(*ran.ending(), Ending::Finished);
    }
}

#[test]
fn what_waits_outside_is_stuck() {
    let lock = Arc::new(std::sync::Mutex::new(()));
    let held = lock.lock().unwrap();
    let own = Arc::clone(&lock);
    let ran = schedule::run(0, move || {
        schedule::point();
        drop(own.lock());
        schedule::point();
    });
    let Ending::Stuck(waiter) = ran.ending() else {
        panic!("{}", ran.ending())
    };
    assert!(
        waiter
            .to_string()
            .starts_with("main is at point at tests/schedules.rs:"),
        "{waiter}"
    );
    drop(held);
}

#[test]
fn messages_arrive_in_order() {
    let all = seen(200, |log| {
        let (sender, receiver) = mpsc::sync_channel(1);
        let senders: Vec<_> = (0..2)
            .map(|it| {
                let sender = sender.clone();
                thread::spawn(move || (0..2).for_each(|number| sender.send((it, number)).unwrap()))
            })
            .collect();
        drop(sender);
        log.lock().unwrap().extend(receiver);
        senders.into_iter().for_each(|it| it.join().unwrap());
    });
    for log in &all {
        for it in 0..2 {
            let own: Vec<_> = log.iter().filter(|(from, _)| *from == it).collect();
            assert_eq!(own, [&(it, 0), &(it, 1)]);
        }
    }
    // all merges of two pairs
    assert_eq!(all.len(), 6);
}

#[test]
fn a_message_is_handed_over() {
    seen::<()>(100, |_| {
        let (sender, receiver) = mpsc::sync_channel(0);
        let received = Arc::new(AtomicU32::new(0));
        let own = Arc::clone(&received);
        let thread = thread::spawn(move || {
            own.store(1, SeqCst);
            receiver.recv().unwrap();
            drop(receiver);
        });
        sender.send(5).unwrap();
        assert_eq!(received.load(SeqCst), 1);
        assert_eq!(sender.send(6), Err(mpsc::SendError(6)));
        thread.join().unwrap();
    });
    let (sender, receiver) = mpsc::channel::<u32>();
    assert_eq!(receiver.try_recv(), Err(mpsc::TryRecvError::Empty));
    assert_eq!(
        receiver.recv_timeout(Duration::from_millis(1)),
        Err(mpsc::RecvTimeoutError::Timeout)
    );
    drop(sender);
    assert_eq!(receiver.recv(), Err(mpsc::RecvError));
}

#[test]
fn a_time_is_over_where_nobody_moves() {
    let all = seen(50, |log| {
        let shared = Arc::new((Mutex::new(false), Condvar::new()));
        let other = Arc::clone(&shared);
        let thread = thread::spawn(move || {
            thread::sleep(Duration::from_secs(10));
            *other.0.lock().unwrap() = true;
            other.1.notify_all();
        });
        let guard = shared.0.lock().unwrap();
        let (guard, short) = shared
            .1
            .wait_timeout(guard, Duration::from_secs(1))
            .unwrap();
        let left = Duration::from_secs(1000);
        let (guard, long) = shared.1.wait_timeout_while(guard, left, |it| !*it).unwrap();
        log.lock()
            .unwrap()
            .push((short.timed_out(), long.timed_out(), *guard));
        drop(guard);
        thread.join().unwrap();
    });
    assert!(all.iter().all(|it| !it[0].1 && it[0].2), "{all:?}");
}

#[test]
fn what_is_made_once_is_made_once() {
    seen::<()>(200, |_| {
        static NEVER: OnceLock<u32> = OnceLock::new();
        let made = Arc::new(AtomicU32::new(0));
        let all = Arc::new((OnceLock::new(), Once::new()));
        thread::scope(|scope| {
            for _ in 0..3 {
                scope.spawn(|| {
                    all.0.get_or_init(|| made.fetch_add(1, SeqCst));
                    all.1.call_once(|| {
                        made.fetch_add(1, SeqCst);
                    });
                    assert_eq!(made.load(SeqCst), 2);
                });
            }
        });
        assert_eq!((all.0.get(), NEVER.get()), (Some(&0), None));
        let lazy = LazyLock::new(|| 5);
        assert_eq!(*lazy, 5);
    });
}

#[test]
fn a_barrier_has_one_leader_each_time() {
    seen::<()>(100, |_| {
        let barrier = Barrier::new(3);
        let leaders = AtomicU32::new(0);
        thread::scope(|scope| {
            for _ in 0..3 {
                scope.spawn(|| {
                    for round in 1..=2 {
                        if barrier.wait().is_leader() {
                            leaders.fetch_add(1, SeqCst);
                        }
                        barrier.wait();
                        assert_eq!(leaders.load(SeqCst), round);
                        barrier.wait();
                    }
                });
            }
        });
    });
}

#[test]
fn a_permit_lets_one_park_pass() {
    seen::<()>(100, |_| {
        let main = thread::current();
        let thread = thread::Builder::new()
            .name("other".to_owned())
            .spawn(move || {
                main.unpark();
                thread::park();
            });
        let thread = thread.unwrap();
        thread::park();
        thread.thread().unpark();
        assert_eq!(thread.thread().name(), Some("other"));
        assert_ne!(thread.thread().id(), thread::current().id());
        thread.join().unwrap();
    });
}

#[test]
fn a_panic_poisons() {
    seen::<()>(50, |_| {
        let lock = Arc::new(Mutex::new(0));
        let own = Arc::clone(&lock);
        let thread = thread::spawn(move || {
            let _guard = own.lock().unwrap();
            panic!("on purpose");
        });
        let payload = thread.join().unwrap_err();
        assert_eq!(payload.downcast_ref(), Some(&"on purpose"));
        assert!(lock.is_poisoned());
        assert!(matches!(lock.try_lock(), Err(TryLockError::Poisoned(_))));
        lock.clear_poison();
        assert_eq!(*lock.lock().unwrap(), 0);
    });
}

#[test]
fn detached_threads_are_given_up() {
    for ran in endings(20, || {
        let (sender, receiver) = mpsc::channel::<()>();
        thread::spawn(move || receiver.iter().count());
        thread::spawn(|| {
            loop {
                thread::yield_now();
            }
        });
        std::mem::forget(sender);
    }) {
        assert_eq!(*ran.ending(), Ending::Finished);
    }
}

#[test]
fn outside_of_a_schedule_all_is_as_in_std() {
    torn_free();
    let barrier = Barrier::new(2);
    let (sender, receiver) = mpsc::sync_channel(0);
    let shared = (Mutex::new(0), Condvar::new());
    thread::scope(|scope| {
        scope.spawn(|| {
            barrier.wait();
            sender.send(7).unwrap();
            *shared.0.lock().unwrap() = 1;
            shared.1.notify_all();
        });
        barrier.wait();
        assert_eq!(receiver.recv(), Ok(7));
        let guard = shared.0.lock().unwrap();
        assert_eq!(*shared.1.wait_while(guard, |it| *it == 0).unwrap(), 1);
    });
    let main = thread::current();
    thread::spawn(move || main.unpark()).join().unwrap();
    thread::park();
}

fn torn_free() {
    let number = AtomicUsize::new(0);
    thread::scope(|scope| {
        for _ in 0..2 {
            scope.spawn(|| number.fetch_add(1, SeqCst));
        }
    });
    assert_eq!(number.into_inner(), 2);
}

// The same operations on a type of the schedule and on the standard library's.
macro_rules! as_in_std {
    ($($name:ident $value:ty),+) => {$(
        as_in_std! { @each $name $value: fetch_add fetch_sub fetch_and fetch_nand fetch_or fetch_xor
            fetch_max fetch_min }
    )+};
    (@each $name:ident $value:ty: $($fetch:ident)+) => {{
        use selfcheck::schedule::sync::atomic::$name as Own;
        use std::sync::atomic::$name as Plain;
        let values: [$value; 4] = [0 as $value, 3 as $value, <$value>::MAX, <$value>::MIN];
        for first in values {
            for second in values {
                let (own, plain) = (Own::new(first), Plain::new(first));
                $(
                    assert_eq!(own.$fetch(second, SeqCst), plain.$fetch(second, SeqCst));
                    assert_eq!(own.load(SeqCst), plain.load(SeqCst));
                )+
                assert_eq!(own.swap(second, SeqCst), plain.swap(second, SeqCst));
                own.store(first, SeqCst);
                plain.store(first, SeqCst);
                assert_eq!(
                    own.compare_exchange(second, first, SeqCst, SeqCst),
                    plain.compare_exchange(second, first, SeqCst, SeqCst)
                );
                let update = |it: $value| it.checked_add(second);
                assert_eq!(
                    own.fetch_update(SeqCst, SeqCst, update),
                    plain.fetch_update(SeqCst, SeqCst, update)
                );
                assert_eq!(own.into_inner(), plain.into_inner());
            }
        }
    }};
}

fn numbers_are_as_in_std() {
    as_in_std! {
        AtomicI8 i8, AtomicI16 i16, AtomicI32 i32, AtomicI64 i64, AtomicIsize isize,
        AtomicU8 u8, AtomicU16 u16, AtomicU32 u32, AtomicU64 u64, AtomicUsize usize
    }
    for (first, second) in [(false, false), (false, true), (true, false), (true, true)] {
        let own = AtomicBool::new(first);
        assert_eq!(own.fetch_and(second, SeqCst), first);
        assert_eq!(own.swap(first, SeqCst), first & second);
        assert_eq!(own.fetch_nand(second, SeqCst), first);
        assert_eq!(own.swap(first, SeqCst), !(first & second));
        assert_eq!(own.fetch_not(SeqCst), first);
        assert_eq!(own.into_inner(), !first);
    }
    let mut values = [1, 2];
    let [one, two] = values.each_mut().map(|it| it as *mut i32);
    let pointer = AtomicPtr::new(one);
    assert_eq!(pointer.compare_exchange(one, two, SeqCst, SeqCst), Ok(one));
    assert_eq!(pointer.compare_exchange(one, two, SeqCst, SeqCst), Err(two));
    assert_eq!(pointer.load(SeqCst), two);
}

#[test]
fn atomics_are_as_in_std() {
    numbers_are_as_in_std();
    let ran = schedule::run(0, numbers_are_as_in_std);
    assert_eq!(*ran.ending(), Ending::Finished);
}

#[test]
fn readers_share_and_writers_do_not() {
    let all = seen(200, |log| {
        let shared = Arc::new((RwLock::new(0), AtomicUsize::new(0)));
        let most = Arc::new(AtomicUsize::new(0));
        let readers: Vec<_> = (0..2)
            .map(|_| {
                let (shared, most) = (Arc::clone(&shared), Arc::clone(&most));
                thread::spawn(move || {
                    let guard = shared.0.read().unwrap();
                    let readers = shared.1.fetch_add(1, SeqCst) + 1;
                    most.fetch_max(readers, SeqCst);
                    assert!(matches!(
                        shared.0.try_write(),
                        Err(TryLockError::WouldBlock)
                    ));
                    shared.1.fetch_sub(1, SeqCst);
                    drop(guard);
                })
            })
            .collect();
        let mut guard = shared.0.write().unwrap();
        assert_eq!(shared.1.load(SeqCst), 0);
        assert!(matches!(shared.0.try_read(), Err(TryLockError::WouldBlock)));
        *guard += 1;
        drop(guard);
        readers.into_iter().for_each(|it| it.join().unwrap());
        assert_eq!(*shared.0.try_read().unwrap(), 1);
        log.lock().unwrap().push(most.load(SeqCst));
    });
    assert_eq!(all, BTreeSet::from([vec![1], vec![2]]));
}
