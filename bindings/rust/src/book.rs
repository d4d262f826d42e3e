//! Books: what callers did, as a value and as a text.

use crate::fault::{Fault, Verdict};
use crate::kind::Kind;
use crate::library::{certify, explain, picture, smaller, verify, verify_within};
use crate::record::Call;
use crate::reply::Reply;
use std::fmt;
use std::marker::PhantomData;

/// What the callers of an object did. Its text is a book of version 2, which `selfcheck verify` reads too.
#[derive(Clone, Debug)]
pub struct Book<K: Kind> {
    text: String,
    calls: usize,
    kind: PhantomData<K>,
}

impl<K: Kind> Book<K> {
    // The calls of each of its callers, at least one; the moments of all are different, and the
    // calls of a caller are one after another.
    pub(crate) fn of_calls(callers: &[Vec<Call<K::Op, Reply>>]) -> Book<K> {
        Book::of_text(Pages::<K> { callers }.to_string())
    }

    // The text is that of a book of this kind.
    pub(crate) fn of_text(text: String) -> Book<K> {
        // four lines before the calls, and the end behind them
        let calls = text.lines().count() - 5;
        Book {
            text,
            calls,
            kind: PhantomData,
        }
    }

    /// How many calls the callers made.
    #[must_use]
    pub fn calls(&self) -> usize {
        self.calls
    }

    /// Its text.
    #[must_use]
    pub fn as_str(&self) -> &str {
        &self.text
    }

    /// Whether the calls have a legal order.
    ///
    /// # Errors
    ///
    /// For want of memory. The text of a book is never refused.
    pub fn verify(&self) -> Result<Verdict, Fault> {
        verify(&self.text)
    }

    /// As [`verify`](Book::verify), but [`Verdict::Unknown`] where a search for a legal order takes more steps, which
    /// [`verify_within`](crate::verify_within) counts.
    ///
    /// # Errors
    ///
    /// For want of memory. The text of a book is never refused.
    pub fn verify_within(&self, steps: u64) -> Result<Verdict, Fault> {
        verify_within(&self.text, steps)
    }

    /// The book's text with a legal order of its calls, which [`order`](crate::order) judges without a search; `None`
    /// where the calls have none.
    ///
    /// # Errors
    ///
    /// For want of memory. The text of a book is never refused.
    pub fn certify(&self) -> Result<Option<String>, Fault> {
        certify(&self.text)
    }

    /// A smaller book of the same kind, which is a part of this one: it has no legal order and shows that this one has none,
    /// and no rule makes it smaller. `None` where the calls have a legal order.
    ///
    /// # Errors
    ///
    /// For want of memory. The text of a book is never refused.
    pub fn smaller(&self) -> Result<Option<Book<K>>, Fault> {
        Ok(smaller(&self.text)?.map(Book::of_text))
    }

    /// Why the book has no legal order: which rule of its kind it breaks, and by which calls, in one line; or, where it
    /// breaks none, its longest legal prefixes, at most eight: of each a line for each of its calls, and the calls that may
    /// come next after it, with the reply that the object gives each. `None` where no rule is broken and the book has a legal order, or has too many
    /// legal prefixes to try. All pairs of calls are tried, so that this is made for small books.
    ///
    /// # Errors
    ///
    /// For want of memory. The text of a book is never refused.
    pub fn explanation(&self) -> Result<Option<String>, Fault> {
        explain(&self.text)
    }

    /// The picture of the book, as SVG: a lane for each caller, a bar for each call, and the numbers of a legal order, where
    /// the calls have one.
    ///
    /// # Errors
    ///
    /// For want of memory. The text of a book is never refused.
    pub fn picture(&self) -> Result<String, Fault> {
        picture(&self.text)
    }
}

// Written out, since what is derived would compare only where the kind does.
impl<K: Kind> PartialEq for Book<K> {
    fn eq(&self, other: &Book<K>) -> bool {
        self.text == other.text
    }
}

impl<K: Kind> Eq for Book<K> {}

/// The text of version 2.
impl<K: Kind> fmt::Display for Book<K> {
    fn fmt(&self, f: &mut fmt::Formatter<'_>) -> fmt::Result {
        f.write_str(&self.text)
    }
}

struct Pages<'a, K: Kind> {
    callers: &'a [Vec<Call<K::Op, Reply>>],
}

impl<K: Kind> Pages<'_, K> {
    // The view of a call that returned at a moment: for each caller, how many of its calls were invoked before.
    //
    // Any two views are comparable, since one of the moments is first. That of call k of a caller counts k + 1 of this
    // caller's own calls, since the next one is invoked after the return.
    fn view(&self, returned: u64) -> impl Iterator<Item = (usize, usize)> {
        (self.callers.iter())
            .map(move |calls| calls.partition_point(|call| call.invoked < returned))
            .enumerate()
            .filter(|(_, count)| *count > 0)
    }
}

impl<K: Kind> fmt::Display for Pages<'_, K> {
    fn fmt(&self, f: &mut fmt::Formatter<'_>) -> fmt::Result {
        writeln!(f, "book 2")?;
        writeln!(f, "object {}", K::NAME)?;
        writeln!(f, "callers {}", self.callers.len())?;
        write!(f, "calls")?;
        for calls in self.callers {
            write!(f, " {}", calls.len())?;
        }
        writeln!(f)?;
        for (caller, calls) in self.callers.iter().enumerate() {
            for (number, call) in calls.iter().enumerate() {
                write!(f, "{caller} {number} {}", call.op)?;
                if let Some((returned, reply)) = call.answer {
                    write!(f, " {reply} view")?;
                    for (other, count) in self.view(returned) {
                        write!(f, " {other}:{count}")?;
                    }
                }
                writeln!(f)?;
            }
        }
        writeln!(f, "end")
    }
}
