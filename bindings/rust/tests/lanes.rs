//! Calls of threads and tasks that come and go, and histories that don't fit a book.

use selfcheck::{
    CasRegister, CasRegisterOp, Counter, CounterOp, Incomplete, Kind, MAX_CALLERS, MAX_CALLS, Map,
    MapOp, PendingCall, PriorityQueue, PriorityQueueOp, Queue, QueueOp, Recorder, Register,
    RegisterOp, Set, SetOp, Stack, StackOp, Verdict,
};
use std::collections::VecDeque;
use std::future::{Future, pending};
use std::num::NonZero;
use std::panic::{AssertUnwindSafe, catch_unwind};
use std::pin::{Pin, pin};
use std::sync::atomic::{AtomicU32, AtomicUsize, Ordering::SeqCst};
use std::sync::{Arc, Barrier, Mutex};
use std::task::{Context, Poll, Wake, Waker};
use std::thread;

/// As many threads in turn, some at once, with these calls each.
fn by_short_threads(threads: usize, at_once: usize, work: impl Fn() + Sync) {
    for _ in 0..threads / at_once {
        thread::scope(|scope| {
            for _ in 0..at_once {
                scope.spawn(&work);
            }
        });
    }
}

#[test]
fn a_thousand_threads_come_and_go() {
    for (threads, at_once, calls) in [(1000, 1, 4), (1000, 10, 4), (300, 15, 10)] {
        let (shared, stays) = (Recorder::<Counter>::new(), Recorder::<Counter>::new());
        for (recorder, by_caller) in [(&shared, false), (&stays, true)] {
            let word = AtomicU32::new(0);
            let inc = || word.fetch_add(1, SeqCst);
            by_short_threads(threads, at_once, || {
                if by_caller {
                    let mut me = recorder.caller();
                    for _ in 0..calls {
                        me.inc(inc);
                    }
                } else {
                    for _ in 0..calls {
                        recorder.inc(inc);
                    }
                }
            });
            let book = recorder.book().unwrap();
            assert_eq!(book.calls(), threads * calls);
            assert_eq!(book.verify(), Ok(Verdict::Legal));
        }
    }
}

/// Is ready when it is polled once more.
#[derive(Default)]
struct Yield(bool);

impl Future for Yield {
    type Output = ();

    fn poll(mut self: Pin<&mut Self>, context: &mut Context) -> Poll<()> {
        if self.0 {
            return Poll::Ready(());
        }
        self.0 = true;
        context.waker().wake_by_ref();
        Poll::Pending
    }
}

type Life = Pin<Box<dyn Future<Output = ()> + Send>>;
type Ready = Mutex<VecDeque<Arc<Task>>>;

/// A task with the queue in which it waits for a thread.
struct Task {
    life: Mutex<Option<Life>>,
    ready: Arc<Ready>,
}

impl Wake for Task {
    fn wake(self: Arc<Self>) {
        let ready = Arc::clone(&self.ready);
        ready.lock().unwrap().push_back(self);
    }
}

/// Runs tasks on so many threads until all have ended: a task goes on with whichever is free.
fn run_tasks(threads: usize, lives: Vec<Life>) {
    let (ready, left) = (Arc::new(Ready::default()), AtomicUsize::new(lives.len()));
    for life in lives {
        let life = Mutex::new(Some(life));
        let ready_again = Arc::clone(&ready);
        ready.lock().unwrap().push_back(Arc::new(Task {
            life,
            ready: ready_again,
        }));
    }
    thread::scope(|scope| {
        for _ in 0..threads {
            scope.spawn(|| {
                while left.load(SeqCst) > 0 {
                    let Some(task) = ready.lock().unwrap().pop_front() else {
                        thread::yield_now();
                        continue;
                    };
                    // a task that is woken amid its step waits here for the end of it
                    let mut place = task.life.lock().unwrap();
                    let Some(mut life) = place.take() else {
                        continue;
                    };
                    let waker = Waker::from(Arc::clone(&task));
                    match life.as_mut().poll(&mut Context::from_waker(&waker)) {
                        Poll::Pending => *place = Some(life),
                        Poll::Ready(()) => drop(left.fetch_sub(1, SeqCst)),
                    }
                }
            });
        }
    });
}

/// Increments by a load and a store with a yield between them, or by one addition.
async fn inc(word: &AtomicU32, is_torn: bool) -> u32 {
    if !is_torn {
        Yield::default().await;
        return word.fetch_add(1, SeqCst);
    }
    let number = word.load(SeqCst);
    Yield::default().await;
    word.store(number + 1, SeqCst);
    number
}

#[test]
fn tasks_move_between_threads() {
    for (is_torn, verdict) in [(false, Verdict::Legal), (true, Verdict::Illegal)] {
        for _ in 0..10 {
            let (recorder, word) = (Recorder::<Counter>::new(), Arc::new(AtomicU32::new(0)));
            let life = |_| -> Life {
                let (recorder, word) = (recorder.clone(), Arc::clone(&word));
                Box::pin(async move {
                    for _ in 0..20 {
                        recorder
                            .call_async(CounterOp::Inc, inc(&word, is_torn))
                            .await;
                    }
                })
            };
            run_tasks(4, (0..12).map(life).collect());
            let book = recorder.book().unwrap();
            assert_eq!(book.calls(), 240);
            assert_eq!(book.verify(), Ok(verdict));
        }
    }
}

#[test]
fn a_call_may_end_in_another_thread() {
    fn is_sent<T: Send + Sync>(_: &T) {}
    let recorder = Recorder::<Queue>::new();
    let enq = recorder.invoke(QueueOp::Enq(5));
    is_sent(&enq);
    thread::spawn(|| enq.ret(())).join().unwrap();
    recorder.deq(|| Some(5));
    let text = "book 2\nobject queue\ncallers 1\ncalls 2\n\
        0 0 enq 5 done view 0:1\n0 1 deq =5 view 0:2\nend\n";
    assert_eq!(recorder.book().unwrap().as_str(), text);
}

/// Callers of threads keep their numbers, and other calls come after them; a book that is made amid
/// a call has it without its reply.
#[test]
fn a_book_shows_who_called() {
    let recorder = Recorder::<Queue>::new();
    let (mut first, mut second) = (recorder.caller(), recorder.caller());
    second.enq(6, || ());
    first.enq(5, || ());
    drop((first, second));
    let third = recorder.invoke(QueueOp::Deq);
    let begun = "book 2\nobject queue\ncallers 3\ncalls 1 1 1\n\
        0 0 enq 5 done view 0:1 1:1\n1 0 enq 6 done view 1:1\n2 0 deq";
    let text = |end| format!("{begun}{end}end\n");
    assert_eq!(recorder.book().unwrap().as_str(), text("\n"));
    third.ret(Some(6));
    let whole = recorder.book().unwrap();
    assert_eq!(whole.as_str(), text(" =6 view 0:1 1:1 2:1\n"));
    assert_eq!(whole.verify(), Ok(Verdict::Legal));
}

/// Books that are made while threads call a right queue, and the last one after that.
#[test]
fn a_book_that_is_made_amid_calls_is_legal() {
    let (queue, recorder) = (Mutex::new(VecDeque::new()), Recorder::<Queue>::new());
    let (begun, working) = (Barrier::new(5), AtomicUsize::new(4));
    let mut counts = Vec::new();
    thread::scope(|scope| {
        for t in 0..4 {
            let (queue, recorder, begun, working) = (&queue, &recorder, &begun, &working);
            scope.spawn(move || {
                begun.wait();
                for value in 100 * t..100 * t + 50 {
                    recorder.enq(value, || queue.lock().unwrap().push_back(value));
                    thread::yield_now();
                    recorder.deq(|| queue.lock().unwrap().pop_front());
                }
                working.fetch_sub(1, SeqCst);
            });
        }
        begun.wait();
        loop {
            let is_last = working.load(SeqCst) == 0;
            let book = recorder.book().unwrap();
            assert_eq!(book.verify(), Ok(Verdict::Legal), "{book}");
            counts.push(book.calls());
            if is_last {
                break;
            }
        }
    });
    assert!(counts.is_sorted());
    assert_eq!(counts.last(), Some(&400));
}

/// A call whose end is unknown stays open, and its thread goes on.
#[test]
fn lost_calls_stay_open() {
    let lose: [fn(&Recorder<Queue>); 4] = [
        |it| assert_eq!(it.try_call(QueueOp::Enq(7), || Err::<(), _>(5)), Err(5)),
        |it| drop(it.invoke(QueueOp::Enq(7))),
        |it| {
            let mut call = pin!(it.call_async(QueueOp::Enq(7), pending::<()>()));
            let polled = call.as_mut().poll(&mut Context::from_waker(Waker::noop()));
            assert!(polled.is_pending());
        },
        |it| {
            let panics = catch_unwind(AssertUnwindSafe(|| {
                it.enq(7, || panic!("the object fails"))
            }));
            assert!(panics.is_err());
        },
    ];
    for lose in lose {
        for (reply, verdict) in [
            (None, Verdict::Legal),
            (Some(7), Verdict::Legal),
            (Some(8), Verdict::Illegal),
        ] {
            let recorder = Recorder::<Queue>::new();
            lose(&recorder);
            recorder.deq(|| reply);
            let book = recorder.book().unwrap();
            assert!(
                book.as_str()
                    .contains("\ncallers 2\ncalls 1 1\n0 0 enq 7\n1 0 deq ")
            );
            assert_eq!(book.verify(), Ok(verdict));
        }
    }
    // as many as fit beside one that is answered
    let recorder = Recorder::<Queue>::new();
    for _ in 0..MAX_CALLERS {
        recorder.enq(1, || ());
        lose[0](&recorder);
    }
    let all = recorder.book().unwrap();
    assert_eq!(all.calls(), 2 * MAX_CALLERS);
    recorder.enq(1, || ());
    let cut = Incomplete::TooLong {
        kept: 2 * MAX_CALLERS,
        left_out: 1,
    };
    assert_eq!(recorder.book().unwrap_err(), cut);
    assert_eq!(recorder.prefix().unwrap().book, all);
}

#[test]
fn a_caller_of_a_thread_goes_on_after_a_lost_call() {
    let recorder = Recorder::<Queue>::new();
    let mut me = recorder.caller();
    me.enq(1, || ());
    assert_eq!(
        me.try_call(QueueOp::Deq, || Err::<Option<u32>, _>(())),
        Err(())
    );
    me.deq(|| Some(1));
    me.deq(|| None);
    drop(me);
    let text = "book 2\nobject queue\ncallers 2\ncalls 2 2\n0 0 enq 1 done view 0:1\n0 1 deq\n\
        1 0 deq =1 view 0:2 1:1\n1 1 deq none view 0:2 1:2\nend\n";
    assert_eq!(recorder.book().unwrap().as_str(), text);
}

/// Of calls with these operations that never return, these are in the book.
fn lose_all<K: Kind>(ops: &[K::Op], kept: &[&str]) {
    let recorder = Recorder::<K>::new();
    for op in ops {
        drop(recorder.invoke(*op));
    }
    let line = |(caller, op)| format!("{caller} 0 {op}\n");
    let lines: String = kept.iter().enumerate().map(line).collect();
    let book = recorder.book().unwrap();
    assert!(
        book.as_str().ends_with(&format!("\n{lines}end\n")),
        "{book}"
    );
    assert_eq!(book.calls(), kept.len());
}

#[test]
fn lost_reads_are_left_out() {
    use {CasRegisterOp as C, MapOp as M, PriorityQueueOp as P, RegisterOp as R, SetOp as S};
    lose_all::<Queue>(&[QueueOp::Enq(1), QueueOp::Deq], &["enq 1", "deq"]);
    lose_all::<Stack>(&[StackOp::Push(1), StackOp::Pop], &["push 1", "pop"]);
    lose_all::<Register>(&[R::Read, R::Write(1)], &["write 1"]);
    lose_all::<Counter>(&[CounterOp::Inc], &["inc"]);
    lose_all::<Set>(
        &[S::Has(1), S::Add(1), S::Remove(1)],
        &["add 1", "remove 1"],
    );
    lose_all::<PriorityQueue>(&[P::Insert(1), P::Min], &["insert 1", "min"]);
    lose_all::<CasRegister>(
        &[C::Read, C::Write(1), C::Cas(1, 2)],
        &["write 1", "cas 1 2"],
    );
    lose_all::<Map>(&[M::Get(1), M::Put(1, 2), M::Del(1)], &["put 1 2", "del 1"]);
    // any number of them fits, also where they are open at the cut
    let recorder = Recorder::<Register>::new();
    let reads: Vec<_> = (0..16).map(|_| recorder.invoke(RegisterOp::Read)).collect();
    (0..20).for_each(|_| drop(recorder.invoke(RegisterOp::Read)));
    let write = recorder.invoke(RegisterOp::Write(1));
    reads.into_iter().for_each(|read| read.ret(0));
    write.ret(());
    let first = recorder.prefix().unwrap();
    assert_eq!((first.book.calls(), first.left_out), (0, 17));
}

/// Seventeen calls at once: the book ends where the last one is invoked, before any has returned.
#[test]
fn a_book_has_sixteen_calls_open() {
    let recorder = Recorder::<Counter>::new();
    let open: Vec<PendingCall<_>> = (0..17).map(|_| recorder.invoke(CounterOp::Inc)).collect();
    for (number, call) in open.into_iter().enumerate() {
        call.ret(number as u32);
    }
    let told = recorder.book().unwrap_err();
    let (kept, left_out) = (16, 1);
    assert_eq!(told, Incomplete::TooLong { kept, left_out });
    let first = recorder.prefix().unwrap();
    assert_eq!(first.left_out, 1);
    let lines: String = (0..16).map(|caller| format!("{caller} 0 inc\n")).collect();
    let calls = " 1".repeat(16);
    let text = format!("book 2\nobject counter\ncallers 16\ncalls{calls}\n{lines}end\n");
    assert_eq!(first.book.as_str(), text);
}

fn count_to(recorder: &Recorder<Counter>, end: u32) {
    for number in 0..end {
        recorder.inc(|| number);
    }
}

/// The book of a history that is too long ends at its last quiet moment, if half of what fits comes
/// before it, and else where the first call finds no caller.
#[test]
fn a_long_history_is_cut() {
    let all = (MAX_CALLERS * MAX_CALLS) as u32;
    // how many calls come one after another, before two that overlap, and how many fit
    for (before, kept) in [(all, all), (all - 1, all - 1), (all - 2, all)] {
        let recorder = Recorder::<Counter>::new();
        count_to(&recorder, before);
        let pair = [(); 2].map(|()| recorder.invoke(CounterOp::Inc));
        for (call, number) in pair.into_iter().zip(before..) {
            call.ret(number);
        }
        let first = recorder.prefix().unwrap();
        assert_eq!(
            (first.book.calls(), first.left_out),
            (kept as usize, (before + 2 - kept) as usize)
        );
        assert!(!first.book.as_str().contains(" inc\n"));
        assert_eq!(first.book.verify(), Ok(Verdict::Legal));
    }
    // more calls than the recorder keeps
    let recorder = Recorder::<Counter>::new();
    count_to(&recorder, 1_100_000);
    let first = recorder.prefix().unwrap();
    assert_eq!(first.book.calls() + first.left_out, 1_100_000);
    assert_eq!(first.book.calls(), all as usize);
    // one that is open all the time takes a caller for itself
    let recorder = Recorder::<Counter>::new();
    let long = recorder.invoke(CounterOp::Inc);
    count_to(&recorder, all);
    long.ret(all);
    let kept = 1 + (MAX_CALLERS - 1) * MAX_CALLS;
    let left_out = all as usize + 1 - kept;
    let told = recorder.book().unwrap_err();
    assert_eq!(told, Incomplete::TooLong { kept, left_out });
    let text = format!(
        "a book has 16 callers with 256 calls each: the first {kept} calls fit, whose book `prefix` gives, and \
         {left_out} don't; of a set or a map `by_key` gives a book for each key"
    );
    assert_eq!(told.to_string(), text);
    assert_eq!(recorder.prefix().unwrap().book.verify(), Ok(Verdict::Legal));
}

/// Calls wait for those that are open, and each that ends, by whatever end, lets the next one in.
#[test]
fn calls_wait_where_they_are_told_to() {
    let recorder = Recorder::<Counter>::with_open_calls(NonZero::new(3).unwrap());
    let (word, open) = (AtomicU32::new(0), AtomicUsize::new(0));
    by_short_threads(40, 40, || {
        for round in 0..5 {
            let ended = recorder.try_call(CounterOp::Inc, || {
                assert!(open.fetch_add(1, SeqCst) < 3);
                thread::yield_now();
                let number = word.fetch_add(1, SeqCst);
                open.fetch_sub(1, SeqCst);
                if number % 20 == 19 {
                    Err(round)
                } else {
                    Ok(number)
                }
            });
            assert!(ended.is_ok() || ended == Err(round));
        }
    });
    let book = recorder.book().unwrap();
    assert_eq!(book.calls(), 200);
    assert_eq!(book.verify(), Ok(Verdict::Legal));
}
