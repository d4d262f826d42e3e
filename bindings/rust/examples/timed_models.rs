//! How often models are asked, and what processor time checks by them take, beside a plain search
//! that calls them: `cargo run --release --example timed_models CALLS [MODEL ..]`, on Linux with 64
//! bits. `scripts/time-models` runs it.

#[path = "models/plain_search.rs"]
mod plain_search;
#[allow(dead_code)]
#[path = "models/ready/mod.rs"]
mod ready;

use plain_search::{Call, has_order};
use ready::bank::{self, Bank};
use ready::bounded_queue::{self, BoundedQueue};
use ready::counter::{self, Counter};
use ready::deque::{self, Deque};
use ready::lock::{self, Lock};
use ready::semaphore::{self, Semaphore};
use ready::store::{self, Store};
use selfcheck::model::{HistoryOf, verify_within};
use selfcheck::{Model, Recorder};
use std::cell::Cell;
use std::future::{Future, poll_fn};
use std::mem::{discriminant, replace, swap};
use std::task::{Context, Poll, Waker};
use std::time::Duration;
use std::{env, process};

const CALLERS: usize = 16;
const SEEDS: u64 = 3;
/// How many steps a check makes at the most.
const STEPS: u64 = 3_000_000;
/// What processor time the plain search takes at the most.
const LIMIT: Duration = Duration::from_secs(5);

/// Numbers that look random (xorshift, Marsaglia 2003).
struct Random(u64);

impl Random {
    fn of_seed(seed: u64) -> Random {
        let mut random = Random(seed.wrapping_mul(0x9e37_79b9_7f4a_7c15));
        for _ in 0..8 {
            random.below(2);
        }
        random
    }

    fn below(&mut self, bound: u64) -> u64 {
        self.0 ^= self.0 << 13;
        self.0 ^= self.0 >> 7;
        self.0 ^= self.0 << 17;
        (self.0 >> 11) % bound
    }

    fn place(&mut self, length: usize) -> usize {
        self.below(length as u64) as usize
    }
}

/// A register of numbers, 0 at first.
struct Register;

#[derive(Clone, Debug, PartialEq, Eq, Hash)]
enum RegisterOp {
    Write(u32),
    Read,
}

impl Model for Register {
    type State = u32;
    type Op = RegisterOp;
    /// What is read.
    type Reply = Option<u32>;

    fn initial(&self) -> u32 {
        0
    }

    fn step(&self, value: &u32, op: &RegisterOp) -> (u32, Option<u32>) {
        match op {
            RegisterOp::Write(value) => (*value, None),
            RegisterOp::Read => (*value, Some(*value)),
        }
    }

    fn leaves(&self, op: &RegisterOp, _: &Option<u32>) -> bool {
        *op == RegisterOp::Read
    }
}

/// A model that counts how often it is asked.
struct Counted<'a, M> {
    model: &'a M,
    is_split: bool,
    asked: Cell<u64>,
}

impl<M: Model> Model for Counted<'_, M> {
    type State = M::State;
    type Op = M::Op;
    type Reply = M::Reply;

    fn initial(&self) -> M::State {
        self.model.initial()
    }

    fn step(&self, state: &M::State, op: &M::Op) -> (M::State, M::Reply) {
        self.asked.set(self.asked.get() + 1);
        self.model.step(state, op)
    }

    fn leaves(&self, op: &M::Op, reply: &M::Reply) -> bool {
        self.model.leaves(op, reply)
    }

    fn key(&self, op: &M::Op) -> Option<String> {
        self.model.key(op).filter(|_| self.is_split)
    }
}

/// The calls of a run, with the caller of each.
type Run<M> = Vec<(usize, Call<<M as Model>::Op, <M as Model>::Reply>)>;

/// Where a call begins.
struct Begin<'a, S> {
    random: &'a mut Random,
    caller: u32,
    /// Of the call, among all.
    number: u32,
    state: &'a S,
}

/// A run of a lawful object, in which callers take random turns. A call has three: it is invoked,
/// has its effect, and returns.
fn lawful_run<M: Model>(
    model: &M,
    calls: usize,
    seed: u64,
    draw: impl Fn(Begin<M::State>) -> M::Op,
) -> Run<M> {
    let mut random = Random::of_seed(seed);
    let (mut run, mut state) = (Run::<M>::new(), model.initial());
    let (mut turns, mut last) = ([0; CALLERS], [0; CALLERS]);
    let mut live: Vec<usize> = (0..CALLERS).collect();
    for moment in 0..3 * CALLERS * calls {
        let at = random.place(live.len());
        let caller = live[at];
        let turn = turns[caller] % 3;
        turns[caller] += 1;
        if turn == 0 {
            last[caller] = run.len();
            let op = draw(Begin {
                random: &mut random,
                caller: caller as u32,
                number: run.len() as u32,
                state: &state,
            });
            let (invoked, answer) = (moment, None);
            run.push((
                caller,
                Call {
                    op,
                    invoked,
                    answer,
                },
            ));
            continue;
        }
        let call = &mut run[last[caller]].1;
        if turn == 1 {
            let (next, reply) = model.step(&state, &call.op);
            state = next;
            call.answer = Some((moment, reply));
        } else if let Some((returned, _)) = &mut call.answer {
            *returned = moment;
        }
        if turns[caller] == 3 * calls {
            live.swap_remove(at);
        }
    }
    run
}

/// Exchanges the replies of two calls of one operation, whatever its arguments are.
fn exchange<M: Model>(run: &mut Run<M>, seed: u64) {
    let mut random = Random::of_seed(!seed);
    loop {
        let at = random.place(run.len());
        let (before, rest) = run.split_at_mut(at);
        let [first, ..] = rest else { continue };
        if before.is_empty() {
            continue;
        }
        let second = &mut before[random.place(at)];
        let is_same = discriminant(&first.1.op) == discriminant(&second.1.op);
        let replies = first.1.answer.as_mut().zip(second.1.answer.as_mut());
        if let Some(((_, reply), (_, other))) = replies.filter(|it| is_same && it.0.1 != it.1.1) {
            return swap(reply, other);
        }
    }
}

/// Ends a turn.
fn turn() -> impl Future<Output = ()> {
    let mut is_next = false;
    poll_fn(move |_| match replace(&mut is_next, true) {
        true => Poll::Ready(()),
        false => Poll::Pending,
    })
}

/// The run as a recorder has it. Each caller is a future, which is polled where it has a turn.
fn recorded<M: Model>(run: &Run<M>) -> HistoryOf<M> {
    let recorder = Recorder::<M>::new();
    let mut callers: Vec<_> = (0..CALLERS)
        .map(|number| {
            let mut caller = recorder.caller();
            Box::pin(async move {
                for (_, call) in run.iter().filter(|(by, _)| *by == number) {
                    let pending = caller.invoke(call.op.clone());
                    turn().await;
                    if let Some((_, reply)) = &call.answer {
                        pending.ret(reply.clone());
                    }
                    turn().await;
                }
            })
        })
        .collect();
    let mut turns: Vec<_> = run
        .iter()
        .flat_map(|(caller, call)| {
            let returned = call.answer.as_ref().map(|(returned, _)| *returned);
            [Some(call.invoked), returned]
                .into_iter()
                .flatten()
                .map(|at| (at, *caller))
        })
        .collect();
    turns.sort_unstable();
    let mut context = Context::from_waker(Waker::noop());
    for (_, caller) in turns {
        let _ = callers[caller].as_mut().poll(&mut context);
    }
    drop(callers);
    recorder.history().expect("each call has its own caller")
}

/// The processor time of this thread.
fn processor_time() -> Duration {
    #[repr(C)]
    struct Timespec {
        seconds: u64,
        nanoseconds: u64,
    }
    unsafe extern "C" {
        fn clock_gettime(clock: i32, time: *mut Timespec) -> i32;
    }
    const CLOCK_THREAD_CPUTIME_ID: i32 = 3;
    let mut time = Timespec {
        seconds: 0,
        nanoseconds: 0,
    };
    // SAFETY: the time is written to a place for one, as the system's header has it.
    let status = unsafe { clock_gettime(CLOCK_THREAD_CPUTIME_ID, &raw mut time) };
    assert_eq!(status, 0, "the thread's clock can't be read");
    Duration::from_secs(time.seconds) + Duration::from_nanos(time.nanoseconds)
}

/// What a check of a history says, how often it asked the model, and what time it took.
#[derive(Clone, Copy)]
struct Measured {
    is_legal: Option<bool>,
    asked: u64,
    time: Duration,
}

fn measure<M: Model>(
    model: &M,
    is_split: bool,
    check: impl FnOnce(&Counted<M>) -> Option<bool>,
) -> Measured {
    let asked = Cell::new(0);
    let counted = Counted {
        model,
        is_split,
        asked,
    };
    let began = processor_time();
    let is_legal = check(&counted);
    Measured {
        is_legal,
        asked: counted.asked.get(),
        time: processor_time() - began,
    }
}

fn by_the_check<M: Model>(model: &M, is_split: bool, run: &Run<M>) -> Measured {
    let history = recorded::<M>(run);
    measure(model, is_split, |model| {
        let verdict = verify_within(model, &history, STEPS).expect("the model keeps its promises");
        (verdict.is_legal() || verdict.is_illegal()).then_some(verdict.is_legal())
    })
}

fn by_the_plain_search<M: Model>(model: &M, run: Run<M>) -> Measured {
    let calls: Vec<_> = run.into_iter().map(|(_, call)| call).collect();
    measure(model, false, |model| {
        let (began, mut tries) = (processor_time(), 0_u32);
        has_order(model, &calls, || {
            tries = tries.wrapping_add(1);
            tries % 1024 == 0 && processor_time() - began > LIMIT
        })
    })
}

/// A number with its thousands apart.
fn grouped(number: u64) -> String {
    match number {
        0..1000 => number.to_string(),
        _ => format!("{},{:03}", grouped(number / 1000), number % 1000),
    }
}

fn is_away(it: &Measured) -> bool {
    it.is_legal.is_none()
}

// That the median is away is known before all seeds are tried.
fn is_known_away(all: &[Measured]) -> bool {
    all.iter().filter(|it| is_away(it)).count() > SEEDS as usize / 2
}

/// The medians, with what isn't decided as more than all others.
fn cell(mut all: Vec<Measured>) -> String {
    if all.is_empty() {
        return "-".to_owned();
    }
    if is_known_away(&all) {
        return "away".to_owned();
    }
    let middle = all.len() / 2;
    all.sort_by_key(|it| (is_away(it), it.asked));
    let asked = grouped(all[middle].asked);
    all.sort_by_key(|it| (is_away(it), it.time));
    let ms = all[middle].time.as_secs_f64() * 1e3;
    let digits = if ms < 10.0 { 1 } else { 0 };
    let also = if all.iter().any(is_away) {
        " (1 away)"
    } else {
        ""
    };
    format!("{asked}; {ms:.digits$}{also}")
}

/// The table of the models whose names are asked for.
struct Table {
    calls: usize,
    names: Vec<String>,
}

impl Table {
    fn row<M: Model>(
        &self,
        name: &str,
        model: &M,
        is_split: bool,
        draw: impl Fn(Begin<M::State>) -> M::Op,
    ) {
        if !self.names.is_empty() && !self.names.iter().any(|it| it == name) {
            return;
        }
        print!("| {name} |");
        for is_exchanged in [false, true] {
            let (mut checks, mut plain) = (Vec::new(), Vec::new());
            for seed in 1..=SEEDS {
                let mut run = lawful_run(model, self.calls, seed, &draw);
                if is_exchanged {
                    exchange::<M>(&mut run, seed);
                }
                let check = (!is_known_away(&checks)).then(|| by_the_check(model, is_split, &run));
                // it knows nothing of keys
                let search = !is_split && !is_known_away(&plain);
                let search = search.then(|| by_the_plain_search(model, run));
                expect(is_exchanged, check, search);
                checks.extend(check);
                plain.extend(search);
            }
            print!(" {} | {} |", cell(checks), cell(plain));
        }
        println!();
    }
}

/// A verdict that can't be right ends all.
fn expect(is_exchanged: bool, check: Option<Measured>, plain: Option<Measured>) {
    let legal = [check, plain].map(|it| it.and_then(|it| it.is_legal));
    let differ = matches!(legal, [Some(one), Some(other)] if one != other);
    if differ || (!is_exchanged && legal.contains(&Some(false))) {
        eprintln!(
            "the check says {:?}, and the plain search {:?}",
            legal[0], legal[1]
        );
        process::exit(1);
    }
}

fn main() {
    let mut words = env::args().skip(1);
    let calls = words.next().and_then(|it| it.parse().ok());
    let Some(calls) = calls.filter(|it| (1..=selfcheck::MAX_CALLS).contains(it)) else {
        eprintln!(
            "the words are CALLS, up to {}, and names of models",
            selfcheck::MAX_CALLS
        );
        process::exit(2);
    };
    let names = words.collect();
    let table = Table { calls, names };
    println!("| Model, {CALLERS}x{calls} | legal | plain search | exchanged | plain search |");
    println!("|---|---|---|---|---|");
    table.row("lock", &Lock, false, |it| match it.random.below(2) {
        0 => lock::Op::TryAcquire { by: it.caller },
        _ => lock::Op::Release { by: it.caller },
    });
    table.row(
        "semaphore",
        &Semaphore { permits: 3 },
        false,
        |it| match it.random.below(2) {
            0 => semaphore::Op::TryAcquire,
            _ => semaphore::Op::Release,
        },
    );
    table.row("counter", &Counter, false, |it| match it.random.below(2) {
        0 => counter::Op::Add(1 + it.random.below(5) as i64),
        _ => counter::Op::Read,
    });
    let accounts = vec![20; 4];
    table.row("bank", &Bank { accounts }, false, |it| {
        let account = it.random.place(4);
        match it.random.below(2) {
            0 => bank::Op::Transfer {
                from: account,
                to: (account + 1 + it.random.place(3)) % 4,
                sum: 1 + it.random.below(8),
            },
            _ => bank::Op::Balance(account),
        }
    });
    table.row("store", &Store, false, store_op);
    table.row("store-by-key", &Store, true, store_op);
    table.row("register-of-4-values", &Register, false, |it| {
        match it.random.below(2) {
            0 => RegisterOp::Write(1 + it.random.below(4) as u32),
            _ => RegisterOp::Read,
        }
    });
    table.row("register", &Register, false, |it| {
        match it.random.below(2) {
            0 => RegisterOp::Write(1 + it.number),
            _ => RegisterOp::Read,
        }
    });
    table.row(
        "bounded-queue",
        &BoundedQueue { places: 8 },
        false,
        |it| match it.random.below(2) {
            0 => bounded_queue::Op::Put(it.number),
            _ => bounded_queue::Op::Take,
        },
    );
    table.row("deque", &Deque, false, |it| match it.random.below(4) {
        0 => deque::Op::PushFront(it.number),
        1 => deque::Op::PushBack(it.number),
        2 => deque::Op::PopFront,
        _ => deque::Op::PopBack,
    });
}

/// One of eight keys. Where a version has to be there, it is the one that is now.
fn store_op(it: Begin<<Store as Model>::State>) -> store::Op {
    let key = format!("key-{}", it.random.below(8));
    let value = format!("value-{}", it.number);
    let version = it.state.get(&key).map_or(0, |(_, version)| *version);
    match it.random.below(3) {
        0 => store::Op::Put { key, value },
        1 => store::Op::PutAt {
            key,
            version,
            value,
        },
        _ => store::Op::Get { key },
    }
}
