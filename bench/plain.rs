//! A plain checker of books, to compare with: the search of Wing and Gong (1993) with the memo of
//! Lowe (2017), as well-known tools have it, and without a proof. It reads a book of version 2 on
//! standard input and writes `legal` or `illegal`. It takes for granted that the text is a book: it
//! is made for times and for a second verdict, and not to refuse.

use std::collections::HashSet;
use std::io::Read;

struct Call {
    name: String,
    arguments: Vec<u64>,
    reply: Option<String>,
    view: Vec<usize>,
    /// The place of the caller's previous call among all calls.
    previous: Option<usize>,
}

struct Book {
    kind: String,
    calls: Vec<Call>,
    /// The place of each caller's first call, and the number of its calls.
    callers: Vec<(usize, usize)>,
}

fn arguments_of(name: &str) -> usize {
    match name {
        "deq" | "pop" | "min" | "inc" | "read" => 0,
        "cas" | "put" => 2,
        _ if name.starts_with('#') => 0,
        _ => 1,
    }
}

fn read_book(text: &str) -> Book {
    let mut lines = text.lines().skip(1).map(|line| line.split(' ').collect::<Vec<_>>());
    let kind = lines.next().unwrap()[1].to_string();
    let n: usize = lines.next().unwrap()[1].parse().unwrap();
    let counts: Vec<usize> =
        lines.next().unwrap()[1..].iter().map(|word| word.parse().unwrap()).collect();
    let (mut calls, mut callers) = (Vec::new(), Vec::new());
    for count in counts {
        callers.push((calls.len(), count));
        for k in 0..count {
            let line = lines.next().unwrap();
            let rest = 3 + arguments_of(line[2]);
            let mut view = vec![0; n];
            for pair in line.iter().skip(rest + 2) {
                let (j, c) = pair.split_once(':').unwrap();
                view[j.parse::<usize>().unwrap()] = c.parse().unwrap();
            }
            calls.push(Call {
                name: line[2].to_string(),
                arguments: line[3..rest].iter().map(|word| word.parse().unwrap()).collect(),
                reply: line.get(rest).map(|word| word.to_string()),
                view,
                previous: if k > 0 { Some(calls.len() - 1) } else { None },
            });
        }
    }
    Book { kind, calls, callers }
}

fn value(found: Option<u64>) -> String {
    found.map_or("none".to_string(), |v| format!("={v}"))
}

fn yes(is_so: bool) -> String {
    if is_so { "yes" } else { "no" }.to_string()
}

/// What a call does to a state, a list of numbers, and its reply.
fn step(kind: &str, state: &[u64], call: &Call) -> (Vec<u64>, String) {
    let mut after = state.to_vec();
    let word = |k: usize| call.arguments[k];
    let reply = match (kind, call.name.as_str()) {
        (_, name) if name.starts_with('#') => "bad".to_string(),
        ("queue" | "stack", "enq" | "push") => {
            after.push(word(0));
            "done".to_string()
        }
        (_, "deq") => value(if after.is_empty() { None } else { Some(after.remove(0)) }),
        (_, "pop") => value(after.pop()),
        (_, "insert") => {
            after.insert(after.partition_point(|&v| v <= word(0)), word(0));
            "done".to_string()
        }
        (_, "min") => value(if after.is_empty() { None } else { Some(after.remove(0)) }),
        (_, "inc") => {
            let before = after.first().copied().unwrap_or(0);
            after = vec![(before + 1) % (1 << 32)];
            value(Some(before))
        }
        (_, "write") => {
            after = vec![word(0)];
            "done".to_string()
        }
        (_, "read") => value(Some(after.first().copied().unwrap_or(0))),
        (_, "cas") => {
            let is_so = after.first().copied().unwrap_or(0) == word(0);
            if is_so {
                after = vec![word(1)];
            }
            yes(is_so)
        }
        ("set", name) => {
            let found = after.binary_search(&word(0));
            match (name, found) {
                ("add", Err(place)) => after.insert(place, word(0)),
                ("remove", Ok(place)) => {
                    after.remove(place);
                }
                _ => (),
            }
            yes(found.is_ok() != (name == "add"))
        }
        ("map", name) => {
            let place = after.partition_point(|&pair| pair >> 32 < word(0));
            let old = after.get(place).copied().filter(|pair| pair >> 32 == word(0));
            if name != "get" && old.is_some() {
                after.remove(place);
            }
            if name == "put" {
                after.insert(place, word(0) << 32 | word(1));
            }
            value(old.map(|pair| pair & 0xffff_ffff))
        }
        (kind, name) => panic!("a {kind} has no {name}"),
    };
    (after, reply)
}

/// The invocations and returns that the views tell, as (call, whether it is a return).
fn events_of(book: &Book) -> Vec<(usize, bool)> {
    let mut returns: Vec<usize> =
        (0..book.calls.len()).filter(|&o| book.calls[o].reply.is_some()).collect();
    returns.sort_by_key(|&o| book.calls[o].view.iter().sum::<usize>());
    let (mut events, mut seen) = (Vec::new(), vec![0; book.callers.len()]);
    for part in returns.chunk_by(|&a, &b| book.calls[a].view == book.calls[b].view) {
        for (i, &(first, _)) in book.callers.iter().enumerate() {
            let count = book.calls[part[0]].view[i];
            events.extend((seen[i]..count).map(|k| (first + k, false)));
            seen[i] = count.max(seen[i]);
        }
        events.extend(part.iter().map(|&o| (o, true)));
    }
    for (i, &(first, count)) in book.callers.iter().enumerate() {
        events.extend((seen[i]..count).map(|k| (first + k, false)));
    }
    events
}

/// A list of the events that are left, doubly linked, with place 0 before the first and the last
/// place after the last.
struct Left {
    next: Vec<usize>,
    before: Vec<usize>,
}

impl Left {
    fn new(events: usize) -> Left {
        Left {
            next: (1..events + 3).collect(),
            before: (0..events + 2).map(|place| place.saturating_sub(1)).collect(),
        }
    }

    fn take(&mut self, place: usize) {
        let (before, next) = (self.before[place], self.next[place]);
        self.next[before] = next;
        self.before[next] = before;
    }

    fn put_back(&mut self, place: usize) {
        let (before, next) = (self.before[place], self.next[place]);
        self.next[before] = place;
        self.before[next] = place;
    }
}

fn has_order(book: &Book) -> bool {
    let events = events_of(book);
    let end = events.len() + 1;
    let mut left = Left::new(events.len());
    let mut return_of = vec![0; book.calls.len()];
    for (place, &(o, is_return)) in events.iter().enumerate() {
        if is_return {
            return_of[o] = place + 1;
        }
    }
    let mut answers = book.calls.iter().filter(|call| call.reply.is_some()).count();
    let mut taken = vec![0u64; book.calls.len().div_ceil(64)];
    let is_taken = |taken: &[u64], o: usize| taken[o / 64] >> (o % 64) & 1 == 1;
    let mut state = if matches!(book.kind.as_str(), "register" | "casreg" | "counter") {
        vec![0]
    } else {
        vec![]
    };
    let mut seen = HashSet::new();
    let mut way: Vec<(usize, Vec<u64>)> = Vec::new();
    let mut place = left.next[0];
    while answers > 0 {
        let tried =
            if place == end || events[place - 1].1 { None } else { Some(events[place - 1].0) };
        let Some(o) = tried else {
            // a return, or the end, before which no call can be taken: the last one taken is given
            // back
            let Some((back, before)) = way.pop() else { return false };
            let o = events[back - 1].0;
            state = before;
            taken[o / 64] &= !(1 << (o % 64));
            if book.calls[o].reply.is_some() {
                left.put_back(return_of[o]);
                answers += 1;
            }
            left.put_back(back);
            place = left.next[back];
            continue;
        };
        let call = &book.calls[o];
        if call.previous.is_none_or(|p| is_taken(&taken, p)) {
            let (after, reply) = step(&book.kind, &state, call);
            if call.reply.as_ref().is_none_or(|recorded| *recorded == reply) {
                taken[o / 64] |= 1 << (o % 64);
                if seen.insert((taken.clone(), after.clone())) {
                    way.push((place, std::mem::replace(&mut state, after)));
                    left.take(place);
                    if call.reply.is_some() {
                        left.take(return_of[o]);
                        answers -= 1;
                    }
                    place = left.next[0];
                    continue;
                }
                taken[o / 64] &= !(1 << (o % 64));
            }
        }
        place = left.next[place];
    }
    true
}

fn main() {
    let mut text = String::new();
    std::io::stdin().read_to_string(&mut text).unwrap();
    println!("{}", if has_order(&read_book(&text)) { "legal" } else { "illegal" });
}
