//! Books by key, and with other callers: they say of the calls what their book says. Those by key hold more of them.

use selfcheck::{Keyed, Map, MapOp, Recorder, Reply, Set, SetOp, Verdict};
use std::collections::{BTreeMap, HashMap};
use std::sync::Mutex;
use std::thread;

/// Numbers that look random (xorshift, Marsaglia 2003).
struct Random(u64);

impl Random {
    fn below(&mut self, bound: u32) -> u32 {
        self.0 ^= self.0 << 13;
        self.0 ^= self.0 >> 7;
        self.0 ^= self.0 << 17;
        (self.0 % u64::from(bound)) as u32
    }
}

fn verdicts<K: Keyed>(recorder: &Recorder<K>) -> BTreeMap<u32, Verdict> {
    let parts = recorder.by_key().unwrap().into_iter();
    let verdict = |(key, part): (_, selfcheck::Prefix<K>)| {
        assert_eq!(part.left_out, 0);
        (key, part.book.verify().unwrap())
    };
    parts.map(verdict).collect()
}

/// Histories of calls that begin, end and stay open at random, with random replies: the whole book
/// is legal exactly where the book of each key is, and where each call has a caller of its own. The
/// count of each verdict.
fn try_at_random<K: Keyed>(
    seed: u64,
    histories: usize,
    draw: impl Fn(&mut Random) -> (K::Op, Reply),
) -> [usize; 2] {
    let (mut random, mut counts) = (Random(seed), [0, 0]);
    for _ in 0..histories {
        let (recorder, apart) = (Recorder::<K>::new(), Recorder::<K>::new());
        let (mut callers, mut open) = ([(); 5].map(|()| apart.caller()), Vec::new());
        for caller in &mut callers {
            let (op, reply) = draw(&mut random);
            open.push((recorder.invoke(op), caller.invoke(op), reply));
            while !open.is_empty() && random.below(2) == 0 {
                let at = random.below(open.len() as u32) as usize;
                let (call, same, reply) = open.swap_remove(at);
                if random.below(8) > 0 {
                    call.ret(reply);
                    same.ret(reply);
                }
            }
        }
        drop(open);
        drop(callers);
        let whole = recorder.book().unwrap();
        let verdict = whole.verify();
        assert_eq!(apart.book().unwrap().verify(), verdict, "{whole}");
        let is_legal = verdict == Ok(Verdict::Legal);
        let parts = verdicts(&recorder);
        let are_legal = parts.values().all(|it| *it == Verdict::Legal);
        assert_eq!(are_legal, is_legal, "{whole}");
        counts[usize::from(is_legal)] += 1;
    }
    counts
}

#[test]
fn the_whole_is_legal_where_each_key_is() {
    let sets = try_at_random::<Set>(7, 2000, |random| {
        let value = random.below(2);
        let op =
            [SetOp::Add(value), SetOp::Remove(value), SetOp::Has(value)][random.below(3) as usize];
        (op, [Reply::Yes, Reply::No][random.below(2) as usize])
    });
    let maps = try_at_random::<Map>(8, 2000, |random| {
        let (key, value) = (random.below(2), random.below(2));
        let op =
            [MapOp::Put(key, value), MapOp::Get(key), MapOp::Del(key)][random.below(3) as usize];
        (
            op,
            [Reply::None, Reply::Value(0), Reply::Value(1)][random.below(3) as usize],
        )
    });
    for [illegal, legal] in [sets, maps] {
        assert!(illegal >= 100 && legal >= 100, "{illegal} {legal}");
    }
}

/// Twenty threads, whose calls are open at once, and more calls than a book has: those of each key
/// fit. Of a map that forgets what is put at one key, the book of this key is illegal alone.
#[test]
fn each_key_has_the_limits_of_a_book() {
    for forgotten in [None, Some(3)] {
        let (map, recorder) = (Mutex::new(HashMap::new()), Recorder::<Map>::new());
        thread::scope(|scope| {
            for t in 0..20 {
                let (map, recorder) = (&map, &recorder);
                scope.spawn(move || {
                    for i in 0..300 {
                        let key = 2 * (i % 10) + t % 2;
                        recorder.put(key, i, || {
                            let mut map = map.lock().unwrap();
                            let old = map.get(&key).copied();
                            if Some(key) != forgotten {
                                map.insert(key, i);
                            }
                            old
                        });
                    }
                });
            }
        });
        assert!(recorder.book().is_err());
        let found = verdicts(&recorder);
        assert_eq!(found.len(), 20);
        for (key, verdict) in found {
            let is_wrong = Some(key) == forgotten;
            assert_eq!(verdict == Verdict::Illegal, is_wrong, "{key}");
        }
    }
}
