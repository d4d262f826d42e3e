//! What models say of histories, also beside a plain search for an order; and what they can't say.

#[path = "../examples/models/ready/mod.rs"]
mod ready;

use ready::bank::{self, Bank};
use ready::bounded_queue::{self, BoundedQueue};
use ready::counter::{self, Counter};
use ready::deque::{self, Deque};
use ready::lock::{self, Lock};
use ready::semaphore::{self, Semaphore};
use ready::store::{self, Store};
use selfcheck::hunt::Found;
use selfcheck::model::{
    ByReply, Draw, HistoryOf, ModelError, ModelVerdict, Placed, Relation, Runs, evidence, hunt,
    recheck, replay, verify, verify_within,
};
use selfcheck::schedule::{Ending, sync::Mutex as TurnMutex};
use selfcheck::{Model, Queue, QueueOp, Recorded, Recorder, Reply, Verdict};
use std::cell::Cell;
use std::collections::{HashMap, VecDeque};
use std::iter::repeat_n;
use std::sync::Barrier;
use std::sync::atomic::{AtomicI64, Ordering::SeqCst};
use std::thread;

/// Numbers that look random (xorshift, Marsaglia 2003).
struct Random(u64);

impl Random {
    fn below(&mut self, bound: u64) -> u64 {
        self.0 ^= self.0 << 13;
        self.0 ^= self.0 >> 7;
        self.0 ^= self.0 << 17;
        self.0 % bound
    }

    fn is_one_in(&mut self, count: u64) -> bool {
        self.below(count) == 0
    }

    fn one_of<T: Clone>(&mut self, values: &[T]) -> T {
        values[self.below(values.len() as u64) as usize].clone()
    }
}

/// Calls one after another.
fn in_turn<M: Model>(calls: impl IntoIterator<Item = (M::Op, M::Reply)>) -> HistoryOf<M> {
    let recorder = Recorder::<M>::new();
    for (op, reply) in calls {
        recorder.call(op, || reply);
    }
    recorder.history().unwrap()
}

/// Two threads add 1 by a load and a store, with a meeting between them.
#[test]
fn a_torn_counter_is_illegal() {
    let (number, between) = (AtomicI64::new(0), Barrier::new(2));
    let recorder = Recorder::<Counter>::new();
    thread::scope(|scope| {
        for _ in 0..2 {
            scope.spawn(|| {
                recorder.call(counter::Op::Add(1), || {
                    let new = number.load(SeqCst) + 1;
                    between.wait();
                    number.store(new, SeqCst);
                    counter::Reply::Added
                })
            });
        }
    });
    recorder.call(counter::Op::Read, || {
        counter::Reply::Number(number.load(SeqCst))
    });
    let history = recorder.history().unwrap();
    assert!(verify(&Counter, &history).unwrap().is_illegal());
    let text = history.to_string();
    assert!(
        text.ends_with("2: Read replied Number(1), 4 to 5\n"),
        "{text}"
    );
}

/// A queue with one place: both of two puts that overlap are accepted, which is so only where a
/// take overlaps both.
#[test]
fn precedence_is_that_of_moments() {
    use bounded_queue::{Op, Reply};
    for (overlaps, is_legal) in [(true, true), (false, false)] {
        let recorder = Recorder::<BoundedQueue>::new();
        let puts = [1, 2].map(|item| recorder.invoke(Op::Put(item)));
        let early = overlaps.then(|| recorder.invoke(Op::Take));
        puts.into_iter().for_each(|it| it.ret(Reply::IsPut(true)));
        let take = early.unwrap_or_else(|| recorder.invoke(Op::Take));
        take.ret(Reply::Taken(Some(2)));
        let history = recorder.history().unwrap();
        let verdict = verify(&BoundedQueue { places: 1 }, &history).unwrap();
        assert_eq!(verdict.is_legal(), is_legal, "{history}");
        if let ModelVerdict::Legal(order) = verdict {
            let calls: Vec<_> = order.iter().map(|it| it.call).collect();
            assert_eq!(calls, [1, 2, 0]);
        }
    }
}

/// A call that never returned has its effect, or not, but doesn't lose it.
#[test]
fn a_lost_call_may_have_its_effect() {
    let add = || (counter::Op::Add(3), counter::Reply::Added);
    let reads = |numbers: &[i64]| {
        let recorder = Recorder::<Counter>::new();
        drop(recorder.invoke(add().0));
        for number in numbers {
            recorder.call(counter::Op::Read, || counter::Reply::Number(*number));
        }
        verify(&Counter, &recorder.history().unwrap()).unwrap()
    };
    assert!(reads(&[0, 0]).is_legal());
    let ModelVerdict::Legal(order) = reads(&[0, 3]) else {
        panic!("the call had its effect late")
    };
    let placed = |call, (op, reply)| Placed { call, op, reply };
    let read = |number| (counter::Op::Read, counter::Reply::Number(number));
    assert_eq!(
        order,
        [placed(1, read(0)), placed(0, add()), placed(2, read(3))]
    );
    assert!(reads(&[3, 0]).is_illegal());
}

#[test]
fn sixteen_calls_may_be_open() {
    for (open, read, is_legal) in [(16, 16, true), (16, 15, false)] {
        let recorder = Recorder::<Counter>::new();
        let calls: Vec<_> = repeat_n(counter::Op::Add(1), open)
            .map(|op| recorder.invoke(op))
            .collect();
        calls
            .into_iter()
            .for_each(|it| it.ret(counter::Reply::Added));
        recorder.call(counter::Op::Read, || counter::Reply::Number(read));
        let history = recorder.history().unwrap();
        let verdict = verify(&Counter, &history).unwrap();
        assert_eq!(verdict.is_legal(), is_legal, "{read}");
    }
}

/// Where 17 calls are open, those before the last of them are judged.
#[test]
fn what_does_not_fit_is_said() {
    for (read, verdict) in [(0, None), (1, Some(()))] {
        let recorder = Recorder::<Counter>::new();
        recorder.call(counter::Op::Read, || counter::Reply::Number(read));
        let calls: Vec<_> = repeat_n(counter::Op::Add(1), 17)
            .map(|op| recorder.invoke(op))
            .collect();
        calls
            .into_iter()
            .for_each(|it| it.ret(counter::Reply::Added));
        let said = verify(&Counter, &recorder.history().unwrap());
        match verdict {
            Some(()) => assert_eq!(said, Ok(ModelVerdict::Illegal { key: None })),
            None => assert_eq!(
                said,
                Err(ModelError::TooLong {
                    key: None,
                    kept: 17,
                    left_out: 1
                })
            ),
        }
    }
    let turns = [semaphore::Op::TryAcquire, semaphore::Op::Release];
    let calls = |count| {
        turns
            .iter()
            .cloned()
            .cycle()
            .take(count)
            .zip(repeat_n(true, count))
    };
    let semaphore = Semaphore { permits: 1 };
    let fits = in_turn::<Semaphore>(calls(4096));
    assert!(verify(&semaphore, &fits).unwrap().is_legal());
    let error = verify(&semaphore, &in_turn::<Semaphore>(calls(4097))).unwrap_err();
    assert_eq!(
        error.to_string(),
        "a check has 16 callers with 256 calls each: the first 4096 calls fit, and are legal, and 1 \
         don't fit"
    );
}

/// More calls than a check has, of twenty keys: each of them fits, and the one that forgets what is
/// put is named. The order of all of them is a legal one of the whole store.
#[test]
fn each_key_is_judged_by_itself() {
    for forgotten in [None, Some("key 3")] {
        let recorder = Recorder::<Store>::new();
        let mut versions = HashMap::new();
        for number in 0..6000 {
            let (key, value) = (format!("key {}", number % 20), number.to_string());
            let version = versions.entry(key.clone()).or_insert(0);
            if *version == 0 || Some(key.as_str()) != forgotten {
                *version += 1;
            }
            let reply = store::Reply::Put(*version);
            recorder.call(store::Op::Put { key, value }, || reply);
        }
        let history = recorder.history().unwrap();
        let verdict = verify(&Store, &history).unwrap();
        match forgotten {
            Some(key) => {
                let key = Some(key.to_owned());
                assert_eq!(verdict, ModelVerdict::Illegal { key });
                assert_eq!(verdict.to_string(), "illegal, of the key key 3");
            }
            None => {
                let ModelVerdict::Legal(order) = verdict else {
                    panic!("{verdict}")
                };
                let numbers: Vec<_> = order.iter().map(|it| it.call).collect();
                assert_eq!(numbers, (0..6000).collect::<Vec<_>>());
            }
        }
    }
}

/// A register of numbers, with what it promises.
struct Register {
    leaves: fn(&Option<u32>, &u32) -> bool,
    keeps_count: Option<Cell<u32>>,
}

impl Model for Register {
    type State = u32;
    /// Writes a number, or reads.
    type Op = Option<u32>;
    type Reply = u32;

    fn initial(&self) -> u32 {
        0
    }

    fn step(&self, number: &u32, op: &Option<u32>) -> (u32, u32) {
        let drift = self
            .keeps_count
            .as_ref()
            .map_or(0, |it| it.replace(it.get() + 1) / 2);
        let next = op.unwrap_or(*number);
        (next + drift, next)
    }

    fn leaves(&self, op: &Option<u32>, reply: &u32) -> bool {
        (self.leaves)(op, reply)
    }
}

#[test]
fn a_broken_promise_is_named() {
    let history = in_turn::<Register>([(Some(4), 4), (None, 4)]);
    let promises = |leaves| Register {
        leaves,
        keeps_count: None,
    };
    let right = promises(|op, _| op.is_none());
    assert!(verify(&right, &history).unwrap().is_legal());
    let error = verify(&promises(|_, reply| *reply == 4), &history).unwrap_err();
    let text = |it: &str| it.to_owned();
    assert_eq!(
        error,
        ModelError::LeavesNot {
            state: text("0"),
            op: text("Some(4)"),
            reply: text("4"),
            next: text("4"),
        }
    );
    assert_eq!(
        error.to_string(),
        "the model promises that Some(4) with the reply 4 changes no state, and 0 becomes 4"
    );
    // also of a reply that isn't recorded, but told
    let history = in_turn::<Register>([(Some(4), 5)]);
    assert!(verify(&promises(|_, reply| *reply == 4), &history).is_err());
}

#[test]
fn a_model_that_is_no_function_is_named() {
    let drifts = || Register {
        leaves: |_, _| false,
        keeps_count: Some(Cell::new(0)),
    };
    let history = in_turn::<Register>([(Some(4), 4), (None, 4)]);
    assert!(verify(&drifts(), &history).unwrap().is_legal());
    let error = recheck(&drifts(), &history).unwrap_err();
    assert_eq!(
        error.to_string(),
        "the model is no function: at 0, Some(4) gives (4, 4), and then (5, 4)"
    );
}

#[test]
fn a_recorder_is_shared_whatever_its_model_is() {
    fn is_shared<T: Clone + Send + Sync>(it: &T) -> T {
        it.clone()
    }
    let recorder = Recorder::<Register>::new();
    is_shared(&recorder).call(None, || 0_u32);
    let history = recorder.history().unwrap();
    assert!(!history.is_empty());
}

#[test]
fn steps_may_be_few() {
    let history = in_turn::<Counter>([
        (counter::Op::Add(2), counter::Reply::Added),
        (counter::Op::Read, counter::Reply::Number(2)),
    ]);
    let unknown = ModelVerdict::Unknown { key: None };
    assert_eq!(verify_within(&Counter, &history, 0), Ok(unknown.clone()));
    assert_eq!(verify_within(&Counter, &history, 1), Ok(unknown));
    let all = verify_within(&Counter, &history, 1000);
    assert_eq!(all, verify(&Counter, &history));
    assert!(all.unwrap().is_legal());
}

/// A call: its operation, the moment at which it began, and the one at which it ended, with its
/// reply.
struct Call<M: Model> {
    op: M::Op,
    began: usize,
    answer: Option<(usize, M::Reply)>,
}

impl<M: Model> Call<M> {
    fn precedes(&self, other: &Call<M>) -> bool {
        self.answer.as_ref().is_some_and(|it| it.0 < other.began)
    }
}

/// Whether the calls without those that are placed have an order that is legal from this state on.
fn has_order<M: Model>(model: &M, calls: &[Call<M>], placed: u32, state: &M::State) -> bool {
    let left = || (0..calls.len()).filter(|it| placed >> it & 1 == 0);
    left().all(|it| calls[it].answer.is_none())
        || left().any(|it| {
            let (call, (next, reply)) = (&calls[it], model.step(state, &calls[it].op));
            left().all(|other| !calls[other].precedes(call))
                && call.answer.as_ref().is_none_or(|(_, its)| *its == reply)
                && has_order(model, calls, placed | 1 << it, &next)
        })
}

fn assert_order<M: Model>(model: &M, calls: &[Call<M>], order: &[Placed<M::Op, M::Reply>]) {
    let (mut placed, mut state) = (Vec::new(), model.initial());
    for Placed { call, op, reply } in order {
        let its = &calls[*call];
        assert!(!placed.contains(call) && its.op == *op);
        assert!(
            placed
                .iter()
                .all(|before: &usize| !its.precedes(&calls[*before]))
        );
        let step = model.step(&state, op);
        assert_eq!(step.1, *reply);
        assert!(its.answer.as_ref().is_none_or(|(_, its)| its == reply));
        state = step.0;
        placed.push(*call);
    }
    let is_placed = |it: usize| calls[it].answer.is_none() || placed.contains(&it);
    assert!((0..calls.len()).all(is_placed));
}

/// A history of seven calls that begin, end and stay open at random. A reply is mostly that of the
/// model where the call has its effect when it ends, and else one of the others.
fn random_history<M: Model>(
    model: &M,
    random: &mut Random,
    draw: impl Fn(&mut Random) -> (M::Op, M::Reply),
) -> (Vec<Call<M>>, HistoryOf<M>) {
    let recorder = Recorder::<M>::new();
    let (mut calls, mut open, mut state) = (Vec::new(), Vec::new(), model.initial());
    for moment in (0..70).step_by(10) {
        let (op, other) = draw(random);
        open.push((calls.len(), recorder.invoke(op.clone()), other));
        calls.push(Call {
            op,
            began: moment,
            answer: None,
        });
        for later in 1..9 {
            if open.is_empty() || random.is_one_in(2) {
                break;
            }
            let (number, call, other) = open.swap_remove(random.below(open.len() as u64) as usize);
            if random.is_one_in(8) {
                continue;
            }
            let (next, reply) = model.step(&state, &calls[number].op);
            state = next;
            let reply = if random.is_one_in(6) { other } else { reply };
            calls[number].answer = Some((moment + later, reply.clone()));
            call.ret(reply);
        }
    }
    drop(open);
    (calls, recorder.history().unwrap())
}

/// A model as a relation.
struct Related<'a, M>(&'a M);

impl<M: Model> Recorded for Related<'_, M> {
    type Op = M::Op;
    type Reply = M::Reply;
}

impl<M: Model<State: Ord>> Relation for Related<'_, M> {
    type State = M::State;

    fn initial(&self) -> M::State {
        self.0.initial()
    }

    fn step(
        &self,
        state: &M::State,
        op: &M::Op,
        reply: Option<&M::Reply>,
    ) -> impl IntoIterator<Item = M::State> {
        let (next, its) = self.0.step(state, op);
        reply.is_none_or(|reply| *reply == its).then_some(next)
    }

    fn leaves(&self, op: &M::Op, reply: &M::Reply) -> bool {
        self.0.leaves(op, reply)
    }
}

/// The verdicts on random histories are those of a plain search, also where the model is a relation.
fn try_at_random<M: Model<State: Ord>>(model: &M, draw: impl Fn(&mut Random) -> (M::Op, M::Reply)) {
    let (mut random, mut legal) = (Random(11), 0);
    for _ in 0..1000 {
        let (calls, history) = random_history(model, &mut random, &draw);
        let verdict = recheck(model, &history).unwrap();
        let is_legal = has_order(model, &calls, 0, &model.initial());
        assert_eq!(verdict.is_legal(), is_legal, "{history}");
        assert_eq!(verdict.is_illegal(), !is_legal, "{history}");
        if let ModelVerdict::Legal(order) = verdict {
            assert_order(model, &calls, &order);
            legal += 1;
        }
        let verdict = verify(&ByReply(Related(model)), &history.with_replies()).unwrap();
        assert_eq!(verdict.is_legal(), is_legal, "{history}");
    }
    assert!((100..=900).contains(&legal), "{legal}");
}

#[test]
fn verdicts_are_those_of_a_plain_search() {
    try_at_random(&BoundedQueue { places: 1 }, |random| {
        let item = random.below(2) as u32;
        let reply = random.is_one_in(2);
        match random.below(2) {
            0 => (
                bounded_queue::Op::Put(item),
                bounded_queue::Reply::IsPut(reply),
            ),
            _ => {
                let taken = reply.then_some(item);
                (bounded_queue::Op::Take, bounded_queue::Reply::Taken(taken))
            }
        }
    });
    try_at_random(&Deque, |random| {
        let item = random.below(2) as u32;
        let popped = deque::Reply::Popped(Some(item).filter(|_| random.is_one_in(2)));
        random.one_of(&[
            (deque::Op::PushBack(item), deque::Reply::Pushed),
            (deque::Op::PushFront(item), deque::Reply::Pushed),
            (deque::Op::PopBack, popped.clone()),
            (deque::Op::PopFront, popped),
        ])
    });
    try_at_random(&Lock, |random| {
        let by = random.below(2) as u32;
        let is_done = lock::Reply::IsDone(random.is_one_in(2));
        random.one_of(&[
            (lock::Op::TryAcquire { by }, is_done.clone()),
            (lock::Op::Release { by }, is_done),
            (lock::Op::Owner, lock::Reply::Owner(Some(by))),
        ])
    });
    let accounts = vec![2, 1];
    try_at_random(&Bank { accounts }, |random| {
        let (from, to) = random.one_of(&[(0, 1), (1, 0)]);
        let sum = 1 + random.below(2);
        let is_done = bank::Reply::IsDone(random.is_one_in(2));
        random.one_of(&[
            (bank::Op::Transfer { from, to, sum }, is_done),
            (bank::Op::Balance(from), bank::Reply::Balance(sum)),
        ])
    });
    // by key, and the plain search isn't
    try_at_random(&Store, |random| {
        let (key, value) = (random.one_of(&["a", "b"]).to_owned(), "v".to_owned());
        let version = random.below(3);
        let got = store::Reply::Got((version > 0).then(|| (value.clone(), version)));
        match random.below(3) {
            0 => (store::Op::Put { key, value }, store::Reply::Put(version)),
            1 => {
                let op = store::Op::PutAt {
                    key,
                    version,
                    value,
                };
                (
                    op,
                    random.one_of(&[store::Reply::Put(1), store::Reply::Refused]),
                )
            }
            _ => (store::Op::Get { key }, got),
        }
    });
}

/// The kind `queue`, as a model.
struct QueueModel;

impl Model for QueueModel {
    type State = VecDeque<u32>;
    type Op = QueueOp;
    type Reply = Reply;

    fn initial(&self) -> VecDeque<u32> {
        VecDeque::new()
    }

    fn step(&self, items: &VecDeque<u32>, op: &QueueOp) -> (VecDeque<u32>, Reply) {
        let mut items = items.clone();
        let reply = match op {
            QueueOp::Enq(item) => {
                items.push_back(*item);
                Reply::Done
            }
            QueueOp::Deq => items.pop_front().into(),
        };
        (items, reply)
    }
}

#[test]
fn a_kind_and_its_model_agree() {
    let mut random = Random(5);
    for _ in 0..500 {
        let recorder = Recorder::<Queue>::new();
        let mut open = Vec::new();
        for _ in 0..8 {
            let value = random.below(3) as u32;
            let taken = Some(value).filter(|_| !random.is_one_in(3)).into();
            let (op, reply) =
                random.one_of(&[(QueueOp::Enq(value), Reply::Done), (QueueOp::Deq, taken)]);
            open.push((recorder.invoke(op), reply));
            while !open.is_empty() && random.is_one_in(2) {
                let (call, reply) = open.swap_remove(random.below(open.len() as u64) as usize);
                call.ret(reply);
            }
        }
        drop(open);
        let verdict = verify(&QueueModel, &recorder.history().unwrap()).unwrap();
        let book = recorder.book().unwrap();
        let is_legal = book.verify() == Ok(Verdict::Legal);
        assert_eq!(verdict.is_legal(), is_legal, "{book}");
    }
}

fn put_or_take(draw: &mut Draw) -> bounded_queue::Op {
    match draw.below(2) {
        0 => bounded_queue::Op::Put(draw.below(5) as u32),
        _ => bounded_queue::Op::Take,
    }
}

type Ring = TurnMutex<VecDeque<u32>>;

// Where `looks` is said, a put looks for a place, and puts its item into it by a second lock.
fn ring_call(looks: bool) -> impl Fn(&Ring, &bounded_queue::Op) -> bounded_queue::Reply {
    move |ring, op| {
        let mut items = ring.lock().unwrap();
        match op {
            bounded_queue::Op::Take => bounded_queue::Reply::Taken(items.pop_front()),
            bounded_queue::Op::Put(_) if items.len() == 1 => bounded_queue::Reply::IsPut(false),
            bounded_queue::Op::Put(item) => {
                if looks {
                    drop(items);
                    items = ring.lock().unwrap();
                }
                items.push_back(*item);
                bounded_queue::Reply::IsPut(true)
            }
        }
    }
}

#[test]
fn a_hunt_finds_what_is_wrong_by_its_seed() {
    let queue = BoundedQueue { places: 1 };
    let runs = Runs {
        seed: 3,
        runs: 2000,
        ..Runs::default()
    };
    let found = || hunt(&queue, &runs, put_or_take, Ring::default, ring_call(true)).unwrap();
    let finding = found().expect("the ring is wrong");
    assert_eq!(*finding.found(), Found::Illegal);
    assert!(finding.repeats());
    assert_eq!(found().unwrap().to_string(), finding.to_string());
    let history = finding.history().unwrap();
    assert_eq!(history.len(), 18);
    assert!(verify(&queue, history).unwrap().is_illegal());
    let run = finding.run();
    let again = replay(
        &queue,
        &runs,
        run,
        put_or_take,
        Ring::default,
        ring_call(true),
    )
    .unwrap();
    assert_eq!(again.unwrap().ran(), finding.ran());
    // a right one
    let runs = Runs { runs: 300, ..runs };
    let right = hunt(&queue, &runs, put_or_take, Ring::default, ring_call(false));
    assert!(right.unwrap().is_none());
    // one that panics
    let panics = |_: &(), _: &bounded_queue::Op| panic!("no such place");
    let finding = hunt(&queue, &runs, put_or_take, || (), panics)
        .unwrap()
        .unwrap();
    let Found::Ended(Ending::Panicked(panic)) = finding.found() else {
        panic!("{finding}")
    };
    assert_eq!(panic.message(), "no such place");
}

/// A queue with one place gives what it never held. Its evidence is worked by hand.
#[test]
fn evidence_has_the_calls_and_the_steps() {
    use bounded_queue::{Op, Reply};
    let model = BoundedQueue { places: 1 };
    let calls = |taken| {
        in_turn::<BoundedQueue>([
            (Op::Put(7), Reply::IsPut(true)),
            (Op::Take, Reply::Taken(Some(taken))),
        ])
    };
    let shown = evidence(&model, &calls(8), None).unwrap();
    let [found] = &shown[..] else {
        panic!("{shown:?}")
    };
    assert_eq!((&found.key, found.is_legal), (&None, false));
    assert_eq!(
        found.text,
        "book 2\nobject model\ncallers 1\ncalls 2\n0 0 op 0 =0 view 0:1\n0 1 op 1 =1 view 0:2\nend\n\
         steps 2\n0 op 0 1 =0\n1 op 1 0 =2\nend\n"
    );
    assert_eq!(
        found.names,
        "op 0 Put(7)\nop 1 Take\nreply 0 IsPut(true)\nreply 1 Taken(Some(8))\n\
         reply 2 Taken(Some(7))\nstate 0 []\nstate 1 [7]\n"
    );
    let legal = evidence(&model, &calls(7), None).unwrap();
    assert!(legal.iter().all(|it| it.is_legal) && legal.len() == 1);
    assert!(evidence(&model, &calls(7), Some(0)).unwrap().is_empty());
}
