//! Logs of other tools: Jepsen's histories, JSON lines, and CSV of calls with times become books, one for each key.
//!
//! ```
//! use selfcheck::{Queue, Verdict, logs::{Format, Reader}};
//!
//! let log = r#"
//! {:process 0, :type :invoke, :f :enqueue, :value "tea"}
//! {:process 0, :type :ok, :f :enqueue, :value "tea"}
//! {:process 1, :type :invoke, :f :dequeue, :value nil}
//! {:process 1, :type :ok, :f :dequeue, :value nil}
//! "#;
//! let parts = Reader::<Queue>::new(Format::Jepsen).read(log)?;
//! let book = parts[0].book()?;
//! assert_eq!(book.verify()?, Verdict::Illegal);
//! let small = book.smaller()?.expect("the book is illegal");
//! assert_eq!(
//!     parts[0].in_words(&small),
//!     "caller 0: enq \"tea\" done\ncaller 1: deq none\n"
//! );
//! # Ok::<_, Box<dyn std::error::Error>>(())
//! ```
//!
//! `docs/FORMATS.md`, "Logs of other tools", has what is read: the fields of a line and their names, which calls are left
//! out, which are lost, and which operations of a log are which of a kind.

use crate::book::Book;
use crate::kind::Kind;
use crate::library::{Imported, import};
use std::error::Error;
use std::fmt;
use std::marker::PhantomData;

/// How the lines of a log are written.
#[derive(Clone, Copy, Debug, PartialEq, Eq, Hash)]
pub enum Format {
    /// A map of EDN on each line, as Jepsen writes `history.edn`.
    Jepsen,
    /// An object of JSON on each line.
    JsonLines,
    /// A header that names the columns, and a row of cells on each line after it.
    Csv,
}

/// What a field says of its line.
#[derive(Clone, Copy, Debug, PartialEq, Eq, Hash)]
pub enum Role {
    /// The process that makes the call.
    Process,
    /// Whether the line is an invocation, or which sort of answer.
    Type,
    /// The name of the operation.
    Operation,
    /// The argument, and in an answer the reply.
    Value,
    /// The list of the arguments.
    Arguments,
    /// The key that the call is about.
    Key,
    /// The moment of an event.
    Time,
    /// The moment of a whole call's invocation.
    Start,
    /// The moment of a whole call's return.
    End,
    /// The reply of a whole call.
    Reply,
}

impl Format {
    fn word(self) -> &'static str {
        match self {
            Format::Jepsen => "jepsen",
            Format::JsonLines => "jsonl",
            Format::Csv => "csv",
        }
    }
}

impl Role {
    fn word(self) -> &'static str {
        match self {
            Role::Process => "process",
            Role::Type => "type",
            Role::Operation => "operation",
            Role::Value => "value",
            Role::Arguments => "arguments",
            Role::Key => "key",
            Role::Time => "time",
            Role::Start => "start",
            Role::End => "end",
            Role::Reply => "reply",
        }
    }
}

/// How logs are read as calls to an object of a kind.
#[derive(Clone, Debug)]
pub struct Reader<K: Kind> {
    words: Vec<String>,
    kind: PhantomData<K>,
}

impl<K: Kind> Reader<K> {
    /// Reads this format, with the names of fields and operations that logs mostly have. Events are ordered by their lines,
    /// and whole calls by their moments.
    #[must_use]
    pub fn new(format: Format) -> Reader<K> {
        let reader = Reader {
            words: Vec::new(),
            kind: PhantomData,
        };
        reader.with(["--format", format.word(), "--kind", K::NAME])
    }

    fn with<const N: usize>(mut self, words: [&str; N]) -> Reader<K> {
        self.words.extend(words.map(String::from));
        self
    }

    /// Values are pairs of a key and the value proper, as those of Jepsen's independent tests.
    #[must_use]
    pub fn keyed(self) -> Reader<K> {
        self.with(["--keyed"])
    }

    /// Orders events by their times too, and takes each moment as wrong by up to this much, in the unit of the log.
    #[must_use]
    pub fn error(self, error: u64) -> Reader<K> {
        self.with(["--error", &error.to_string()])
    }

    /// What a register has at first, as the log writes it; else it is `nil`, `null` or the empty cell.
    #[must_use]
    pub fn initial(self, value: &str) -> Reader<K> {
        self.with(["--initial", value])
    }

    /// The field with this name has the role, in place of those that mostly have it.
    #[must_use]
    pub fn field(self, role: Role, name: &str) -> Reader<K> {
        self.with(["--field", &format!("{}={name}", role.word())])
    }

    /// The log's operation with this name is that of the kind which a book names so, as `enq` of a queue.
    #[must_use]
    pub fn operation(self, name: &str, operation: &str) -> Reader<K> {
        self.with(["--op", &format!("{name}={operation}")])
    }

    /// What the log has of each key, in the order of their first calls. A log without keys has one part.
    ///
    /// # Errors
    ///
    /// Where a line of the log is wrong, the first such line; where the kind has no operation of a given name, or a given
    /// word has a line feed; and for want of memory.
    pub fn read(&self, log: impl AsRef<[u8]>) -> Result<Vec<KeyLog<K>>, LogError> {
        if self.words.iter().any(|word| word.contains('\n')) {
            return Err(LogError::Unfit);
        }
        let words: String = self.words.iter().flat_map(|word| [word, "\n"]).collect();
        match import(words.as_bytes(), log.as_ref()) {
            Imported::Text(text) => Ok(parts_of(&text)),
            Imported::Refused { line, what } => Err(LogError::Refused(LogFault {
                line,
                what: LogWhat::ALL[what as usize],
            })),
            Imported::Unfit => Err(LogError::Unfit),
            Imported::NoMemory => Err(LogError::NoMemory),
        }
    }
}

/// What a log has of one key. What stands in the log is shown as it is written there; bytes that are no UTF-8 are replaced.
#[derive(Clone, Debug)]
pub struct KeyLog<K: Kind> {
    key: Option<String>,
    names: Vec<String>,
    calls: Vec<LoggedCall>,
    book: Result<Book<K>, LogFault>,
}

/// Where a call of a book stands in its log.
#[derive(Clone, Copy, Debug, PartialEq, Eq, Hash)]
pub struct LoggedCall {
    /// Its caller in the book.
    pub caller: u32,
    /// Its number among the caller's calls, from 0.
    pub number: u32,
    /// The line of its invocation, counted from 1.
    pub line: u64,
    /// The line of its answer, where it has one.
    pub end: Option<u64>,
}

impl<K: Kind> KeyLog<K> {
    /// The key; `None` where the log has none.
    #[must_use]
    pub fn key(&self) -> Option<&str> {
        self.key.as_deref()
    }

    /// The values, by their numbers in the book; none where the values of the kind are numbers.
    #[must_use]
    pub fn names(&self) -> &[String] {
        &self.names
    }

    /// The calls of the book, with their lines.
    #[must_use]
    pub fn calls(&self) -> &[LoggedCall] {
        &self.calls
    }

    /// The book of the calls.
    ///
    /// # Errors
    ///
    /// Where the calls don't fit one, with the line of the first that has no place: `TooMany` or `Long`.
    pub fn book(&self) -> Result<&Book<K>, LogFault> {
        self.book.as_ref().map_err(|fault| *fault)
    }

    /// The calls of this book or of a smaller one, a line for each, with the log's own words for the values.
    #[must_use]
    pub fn in_words(&self, book: &Book<K>) -> String {
        let lines = book.as_str().lines().skip(4);
        (lines.filter(|line| *line != "end"))
            .map(|line| self.line_in_words(line))
            .collect()
    }

    // A call's line, up to its view. A reply that is a value begins with an equals sign.
    fn line_in_words(&self, line: &str) -> String {
        let (said, answered) = match line.split_once(" view ") {
            Some((said, _)) => (said, ""),
            None => (line, " (no answer)"),
        };
        let mut words = said.split(' ');
        let caller = words.next().unwrap_or("");
        let mut told = format!("caller {caller}:");
        for (place, word) in words.skip(1).enumerate() {
            told += " ";
            told += &match word.strip_prefix('=') {
                Some(number) => self.name(number).map(|name| format!("= {name}")),
                None if place > 0 => self.name(word).map(String::from),
                None => None,
            }
            .unwrap_or_else(|| word.into());
        }
        told + answered + "\n"
    }

    fn name(&self, number: &str) -> Option<&str> {
        let number: usize = number.parse().ok()?;
        self.names.get(number).map(String::as_str)
    }
}

// The parts of what the library writes of a log, which begin with their keys. No other line of a part begins so.
fn parts_of<K: Kind>(text: &[u8]) -> Vec<KeyLog<K>> {
    let mut parts: Vec<Vec<String>> = Vec::new();
    for line in text.split_inclusive(|byte| *byte == b'\n') {
        let line = String::from_utf8_lossy(line).into_owned();
        if line.starts_with("key") {
            parts.push(Vec::new());
        }
        parts.last_mut().expect("a key stands first").push(line);
    }
    parts.iter().map(|lines| part_of(lines)).collect()
}

fn part_of<K: Kind>(lines: &[String]) -> KeyLog<K> {
    let (mut key, mut names, mut calls, mut refused) = (None, Vec::new(), Vec::new(), None);
    let mut book = String::new();
    for line in lines {
        let (word, rest) = line
            .trim_end_matches('\n')
            .split_once(' ')
            .map_or((line.trim_end_matches('\n'), None), |(word, rest)| {
                (word, Some(rest))
            });
        match (word, rest) {
            _ if !book.is_empty() => book += line,
            ("key", rest) => key = rest.map(String::from),
            ("name", Some(rest)) => {
                names.push(rest.split_once(' ').map_or("", |(_, name)| name).into());
            }
            ("call", Some(rest)) => calls.push(logged(rest)),
            ("refused", Some(rest)) => refused = Some(LogFault::of_words(rest)),
            _ => book += line,
        }
    }
    KeyLog {
        key,
        names,
        calls,
        book: refused.map_or_else(|| Ok(Book::of_text(book)), Err),
    }
}

fn logged(words: &str) -> LoggedCall {
    let numbers: Vec<u64> = words
        .split(' ')
        .map(|word| word.parse().expect("a number"))
        .collect();
    LoggedCall {
        caller: numbers[0] as u32,
        number: numbers[1] as u32,
        line: numbers[2],
        end: numbers.get(3).copied(),
    }
}

/// A fault of a log. Displayed as `selfcheck-import` writes it.
#[derive(Clone, Copy, Debug, PartialEq, Eq, Hash)]
pub struct LogFault {
    /// The line, counted from 1.
    pub line: u64,
    /// What is wrong there.
    pub what: LogWhat,
}

impl LogFault {
    fn of_words(words: &str) -> LogFault {
        let (line, what) = words.split_once(' ').expect("a line and what is wrong");
        LogFault {
            line: line.parse().expect("a line's number"),
            what: *(LogWhat::ALL.iter())
                .find(|it| it.to_string() == what)
                .expect("a fault of a log"),
        }
    }
}

impl fmt::Display for LogFault {
    fn fmt(&self, f: &mut fmt::Formatter<'_>) -> fmt::Result {
        write!(f, "refused {} {}", self.line, self.what)
    }
}

impl Error for LogFault {}

/// Why a log isn't read.
#[derive(Clone, Copy, Debug, PartialEq, Eq, Hash)]
#[non_exhaustive]
pub enum LogError {
    /// The first line that is wrong.
    Refused(LogFault),
    /// The kind has no operation of a name that the reader was given, or a word that it was given has a line feed.
    Unfit,
    /// Want of memory.
    NoMemory,
}

impl fmt::Display for LogError {
    fn fmt(&self, f: &mut fmt::Formatter<'_>) -> fmt::Result {
        match self {
            LogError::Refused(fault) => fault.fmt(f),
            LogError::Unfit => f.write_str("a word that says how the log is read isn't right"),
            LogError::NoMemory => f.write_str("out of memory"),
        }
    }
}

impl Error for LogError {}

// What may be wrong with a log, in the order of the library's numbers, from 0.
macro_rules! whats {
    ($($(#[$doc:meta])* $what:ident,)+) => {
        /// What is wrong with a line of a log, by the name that `selfcheck-import` writes.
        #[derive(Clone, Copy, Debug, PartialEq, Eq, Hash)]
        #[non_exhaustive]
        pub enum LogWhat {
            $($(#[$doc])* $what,)+
        }

        impl LogWhat {
            const ALL: &[LogWhat] = &[$(LogWhat::$what),+];
        }

        impl fmt::Display for LogWhat {
            fn fmt(&self, f: &mut fmt::Formatter<'_>) -> fmt::Result {
                f.write_str(match self {
                    $(LogWhat::$what => stringify!($what),)+
                })
            }
        }
    };
}

whats! {
    /// The line is no map of fields, or no row of as many cells as the header.
    Line,
    /// The header of a CSV is missing, or names a column twice.
    Header,
    /// An event names no process.
    Process,
    /// The type is none of invoke, ok, fail and info.
    Type,
    /// The operation is missing, isn't one of the kind, or is another one than was invoked.
    Operation,
    /// A moment is missing, is no number, or is before the invocation.
    Time,
    /// The process has a call that is pending.
    Pending,
    /// The process has no pending call that could be answered.
    Unasked,
    /// The value isn't one that the operation takes.
    Value,
    /// The reply isn't one that the operation gives.
    Reply,
    /// More calls are pending than a book may have callers.
    TooMany,
    /// Each caller without a pending call has as many calls as a caller may have.
    Long,
}
