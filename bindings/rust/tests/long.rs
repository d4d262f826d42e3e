//! Long trials, run by `cargo test --release -- --ignored`: many recordings over right objects, and many texts beside the
//! program `selfcheck`.

use selfcheck::{
    Book, Caller, CasRegister, Counter, Fault, Kind, Map, PriorityQueue, Queue, Recorder, Register,
    Set, Stack, Verdict, certify, order, verify,
};
use std::cmp::Reverse;
use std::collections::{BTreeMap, BinaryHeap, HashMap, HashSet, VecDeque};
use std::env;
use std::fs;
use std::io::Write;
use std::path::Path;
use std::process::{Command, Stdio};
use std::sync::atomic::{AtomicU32, Ordering::SeqCst};
use std::sync::{Barrier, Mutex, RwLock, mpsc};
use std::thread;

/// Numbers that look random (xorshift, Marsaglia 2003).
struct Random(u64);

impl Random {
    fn below(&mut self, bound: usize) -> usize {
        self.0 ^= self.0 << 13;
        self.0 ^= self.0 >> 7;
        self.0 ^= self.0 << 17;
        (self.0 % bound as u64) as usize
    }
}

fn count_of(variable: &str, otherwise: usize) -> usize {
    env::var(variable).map_or(otherwise, |text| text.parse().expect("a number"))
}

/// Some 64 calls to an object by threads that begin at once. `step` makes one call, by a number.
fn record<K: Kind, O: Sync>(
    threads: usize,
    object: O,
    step: impl Fn(&mut Caller<K>, &O, u32) + Sync,
) -> Book<K> {
    let recorder = Recorder::<K>::new();
    let start = Barrier::new(threads);
    thread::scope(|scope| {
        for t in 0..threads {
            let (object, step, start) = (&object, &step, &start);
            let mut me = recorder.caller();
            scope.spawn(move || {
                start.wait();
                for i in 0..64 / threads {
                    step(&mut me, object, (t * 64 + i) as u32);
                }
            });
        }
    });
    recorder.book().unwrap()
}

fn verdict_on_right_object(kind: usize, threads: usize) -> Result<Verdict, Fault> {
    match kind {
        0 => record::<Queue, _>(threads, Mutex::new(VecDeque::new()), |me, queue, n| {
            if n % 2 == 0 {
                me.enq(n, || queue.lock().unwrap().push_back(n));
            } else {
                me.deq(|| queue.lock().unwrap().pop_front());
            }
        })
        .verify(),
        1 => {
            let (sender, receiver) = mpsc::channel();
            record::<Queue, _>(threads, (sender, Mutex::new(receiver)), |me, queue, n| {
                if n % 2 == 0 {
                    me.enq(n, || queue.0.send(n).unwrap());
                } else {
                    me.deq(|| queue.1.lock().unwrap().try_recv().ok());
                }
            })
            .verify()
        }
        2 => record::<Stack, _>(threads, Mutex::new(Vec::new()), |me, stack, n| {
            if n % 2 == 0 {
                me.push(n, || stack.lock().unwrap().push(n));
            } else {
                me.pop(|| stack.lock().unwrap().pop());
            }
        })
        .verify(),
        3 => record::<Register, _>(threads, AtomicU32::new(0), |me, word, n| {
            if n % 2 == 0 {
                me.write(n, || word.store(n, SeqCst));
            } else {
                me.read(|| word.load(SeqCst));
            }
        })
        .verify(),
        4 => record::<Counter, _>(threads, AtomicU32::new(0), |me, word, _| {
            me.inc(|| word.fetch_add(1, SeqCst));
        })
        .verify(),
        5 => record::<Set, _>(threads, Mutex::new(HashSet::new()), |me, set, n| {
            let v = n % 5;
            match n % 3 {
                0 => me.add(v, || set.lock().unwrap().insert(v)),
                1 => me.has(v, || set.lock().unwrap().contains(&v)),
                _ => me.remove(v, || set.lock().unwrap().remove(&v)),
            };
        })
        .verify(),
        6 => record::<PriorityQueue, _>(threads, Mutex::new(BinaryHeap::new()), |me, heap, n| {
            if n % 2 == 0 {
                me.insert(n, || heap.lock().unwrap().push(Reverse(n)));
            } else {
                me.min(|| heap.lock().unwrap().pop().map(|least| least.0));
            }
        })
        .verify(),
        7 => record::<CasRegister, _>(threads, AtomicU32::new(0), |me, word, n| {
            let seen = me.read(|| word.load(SeqCst));
            match n % 3 {
                0 => me.write(n, || word.store(n, SeqCst)),
                _ => {
                    me.cas(seen, n, || {
                        word.compare_exchange(seen, n, SeqCst, SeqCst).is_ok()
                    });
                }
            }
        })
        .verify(),
        8 => record::<Map, _>(threads, RwLock::new(HashMap::new()), |me, map, n| {
            let key = n % 4;
            match n % 3 {
                0 => me.put(key, n, || map.write().unwrap().insert(key, n)),
                1 => me.get(key, || map.read().unwrap().get(&key).copied()),
                _ => me.del(key, || map.write().unwrap().remove(&key)),
            };
        })
        .verify(),
        _ => {
            let (recorder, stack) = (Recorder::<Stack>::new(), Mutex::new(Vec::new()));
            thread::scope(|scope| {
                for t in 0..threads as u32 {
                    let (recorder, stack) = (&recorder, &stack);
                    scope.spawn(move || {
                        for n in 100 * t..100 * t + 32 / threads as u32 {
                            recorder.push(n, || stack.lock().unwrap().push(n));
                            recorder.pop(|| stack.lock().unwrap().pop());
                        }
                    });
                }
            });
            recorder.book().unwrap().verify()
        }
    }
}

/// SELFCHECK_RECORDINGS recordings, by 1 to 16 threads: each book is a book's text, and legal.
#[test]
#[ignore = "takes a minute"]
fn right_objects_are_never_refused_and_never_illegal() {
    let mut said = BTreeMap::new();
    for number in 0..count_of("SELFCHECK_RECORDINGS", 10_000) {
        let answer = verdict_on_right_object(number % 10, 1 + number / 10 % 16);
        *said.entry(format!("{answer:?}")).or_insert(0) += 1;
    }
    println!("recordings: {said:?}");
    assert_eq!(said.keys().collect::<Vec<_>>(), ["Ok(Legal)"]);
}

/// A text with a few changes: of bytes, of words and of lines.
fn changed(random: &mut Random, text: &[u8]) -> Vec<u8> {
    let mut text = text.to_vec();
    for _ in 0..=random.below(3) {
        if text.is_empty() {
            break;
        }
        let at = random.below(text.len());
        let byte = b"0123456789 :=\nabcdenoq#"[random.below(23)];
        match random.below(6) {
            0 | 1 => text[at] = byte,
            2 => text.insert(at, byte),
            3 => drop(text.remove(at)),
            4 => text.truncate(at),
            _ => {
                let mut lines: Vec<_> = text.split_inclusive(|byte| *byte == b'\n').collect();
                let (a, b) = (random.below(lines.len()), random.below(lines.len()));
                lines.swap(a, b);
                text = lines.concat();
            }
        }
    }
    text
}

/// What the program writes of a text, up to what only a command line says: the words behind `fault`.
fn said_by_program(program: &str, command: &str, text: &[u8]) -> (i32, String) {
    let mut child = Command::new(program)
        .arg(command)
        .stdin(Stdio::piped())
        .stdout(Stdio::piped())
        .spawn()
        .expect("SELFCHECK_PROGRAM can be run");
    child.stdin.take().unwrap().write_all(text).unwrap();
    let output = child.wait_with_output().unwrap();
    let said = String::from_utf8(output.stdout).unwrap();
    let said = if said.starts_with("fault ") {
        "illegal\n".into()
    } else {
        said
    };
    (output.status.code().unwrap(), said)
}

fn said(answer: Result<Verdict, Fault>) -> (i32, String) {
    match answer {
        Ok(Verdict::Legal) => (0, "legal\n".into()),
        Ok(Verdict::Illegal) => (1, "illegal\n".into()),
        Ok(Verdict::Unknown) => panic!("there is no limit"),
        Err(fault @ Fault::Refused { .. }) => (3, format!("{fault}\n")),
        Err(fault) => panic!("{fault}"),
    }
}

/// All books of `examples/`, their certificates, and SELFCHECK_TEXTS texts made of them by changes: what is said of each
/// is what the program SELFCHECK_PROGRAM says.
#[test]
#[ignore = "wants a program `selfcheck`"]
fn the_program_says_the_same() {
    let program =
        env::var("SELFCHECK_PROGRAM").expect("SELFCHECK_PROGRAM is the path of the program");
    let folder = Path::new(env!("CARGO_MANIFEST_DIR")).join("../../examples");
    let mut paths: Vec<_> = fs::read_dir(folder)
        .unwrap()
        .map(|it| it.unwrap().path())
        .collect();
    paths.sort();
    paths.retain(|path| path.extension().is_some_and(|it| it == "book"));
    let books: Vec<_> = paths.iter().map(|path| fs::read(path).unwrap()).collect();
    let certificates: Vec<_> = (books.iter())
        .filter_map(|book| certify(book).ok().flatten())
        .map(String::into_bytes)
        .collect();
    assert!(books.len() >= 14 && certificates.len() >= 10);

    let mut counts = BTreeMap::new();
    let mut compare = |command: &str, text: &[u8]| {
        let answer = if command == "verify" {
            verify(text)
        } else {
            order(text)
        };
        assert_eq!(
            said(answer),
            said_by_program(&program, command, text),
            "{command}: {text:?}"
        );
        if command == "verify" {
            let has = certify(text).map(|it| {
                if it.is_some() {
                    Verdict::Legal
                } else {
                    Verdict::Illegal
                }
            });
            assert_eq!(has, answer, "certify: {text:?}");
        }
        let name = match answer {
            Err(Fault::Refused { what, .. }) => format!("{command} {what}"),
            _ => format!("{command} {}", answer.unwrap()),
        };
        *counts.entry(name).or_insert(0) += 1;
    };
    for book in &books {
        compare("verify", book);
        compare("order", book);
    }
    for certificate in &certificates {
        compare("order", certificate);
        compare("verify", certificate);
    }
    let mut random = Random(0x9e37_79b9_7f4a_7c15);
    for _ in 0..count_of("SELFCHECK_TEXTS", 10_000) {
        let (command, texts) = match random.below(2) {
            0 => ("verify", &books),
            _ => ("order", &certificates),
        };
        // the one long book is taken seldom
        let mut from = &texts[random.below(texts.len())];
        if from.len() > 10_000 && random.below(20) > 0 {
            from = &texts[0];
        }
        compare(command, &changed(&mut random, from));
    }
    println!("texts: {counts:?}");
}
