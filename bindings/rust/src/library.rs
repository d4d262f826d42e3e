//! The proved library `selfcheck_c`. Here alone code is unsafe.

use crate::fault::{Fault, Verdict, What};
use crate::schedule::seat;
use std::ffi::{CStr, c_char, c_int, c_void};
use std::ptr;
use std::sync::atomic::{AtomicPtr, Ordering};
use std::sync::{Mutex, Once, PoisonError};

/// Why a text was refused, as the library tells it.
#[repr(C)]
#[derive(Default)]
struct Refusal {
    line: u64,
    what: u32,
}

/// A place for one handle of the library: of a table, of one of its callers or monitors, or of a check by a model. It has one where
/// `in_use` is 1, and then a pointer to what it owns. The library alone writes to it.
#[repr(C)]
#[derive(Debug)]
pub(crate) struct Slot {
    in_use: u32,
    at: *mut c_void,
}

/// What a check asks of a model: what this operation does at this state.
#[repr(C)]
#[derive(Default)]
struct ModelQuestion {
    state: u32,
    op: u32,
}

/// A call in an order: its caller, and its number among the caller's calls, from 0.
#[repr(C)]
#[derive(Clone, Copy, Default)]
pub(crate) struct PlacedCall {
    pub(crate) caller: u32,
    pub(crate) number: u32,
}

// The exports of `crates/selfcheck_c`: a `&[u8]` crosses as a pointer, not null, and a length, and a `Global` as
// nothing. They require nothing but what the types say, and keep no pointer to what they are given. Many threads may
// call at once, with a slot in one call at a time.
unsafe extern "C" {
    fn selfcheck_version() -> u32;
    fn selfcheck_verify(text: *const u8, length: usize, refusal: &mut Refusal) -> u32;
    fn selfcheck_verify_within(
        text: *const u8,
        length: usize,
        steps: u64,
        refusal: &mut Refusal,
    ) -> u32;
    fn selfcheck_order(text: *const u8, length: usize, refusal: &mut Refusal) -> u32;
    fn selfcheck_certify(
        text: *const u8,
        length: usize,
        buffer: *mut u8,
        room: usize,
        written: &mut usize,
        refusal: &mut Refusal,
    ) -> u32;
    fn selfcheck_smaller(
        text: *const u8,
        length: usize,
        buffer: *mut u8,
        room: usize,
        written: &mut usize,
        refusal: &mut Refusal,
    ) -> u32;
    fn selfcheck_explain(
        text: *const u8,
        length: usize,
        buffer: *mut u8,
        room: usize,
        written: &mut usize,
        refusal: &mut Refusal,
    ) -> u32;
    fn selfcheck_picture(
        text: *const u8,
        length: usize,
        buffer: *mut u8,
        room: usize,
        written: &mut usize,
        refusal: &mut Refusal,
    ) -> u32;
    fn selfcheck_import(
        words: *const u8,
        words_length: usize,
        log: *const u8,
        length: usize,
        buffer: *mut u8,
        room: usize,
        written: &mut usize,
        refusal: &mut Refusal,
    ) -> u32;
    fn selfcheck_open(
        kind: *const u8,
        length: usize,
        callers: u32,
        calls: u64,
        slot: &mut Slot,
    ) -> u32;
    fn selfcheck_caller(table: &mut Slot, slot: &mut Slot) -> u32;
    fn selfcheck_monitor(table: &mut Slot, slot: &mut Slot) -> u32;
    fn selfcheck_watch(slot: &mut Slot) -> u32;
    fn selfcheck_announce(slot: &mut Slot, low: u64, high: u64) -> u32;
    fn selfcheck_answered(slot: &mut Slot, reply: u64) -> u32;
    fn selfcheck_publish(slot: &mut Slot, reply: u64) -> u32;
    fn selfcheck_judge(slot: &mut Slot) -> u32;
    fn selfcheck_witness(slot: &mut Slot, buffer: *mut u8, room: usize, written: &mut usize)
    -> u32;
    fn selfcheck_drop(slot: &mut Slot) -> u32;
    fn selfcheck_model_open(callers: u32, slot: &mut Slot) -> u32;
    fn selfcheck_model_begin(slot: &mut Slot, caller: u32, op: u32) -> u32;
    fn selfcheck_model_end(slot: &mut Slot, caller: u32, reply: u32) -> u32;
    fn selfcheck_model_leaves(slot: &mut Slot, op: u32, reply: u32) -> u32;
    fn selfcheck_model_next(slot: &mut Slot, steps: u64, question: &mut ModelQuestion) -> u32;
    fn selfcheck_model_tell(slot: &mut Slot, state: u32, op: u32, next: u32, reply: u32) -> u32;
    fn selfcheck_model_order(
        slot: &mut Slot,
        order: *mut PlacedCall,
        room: usize,
        written: &mut usize,
    ) -> u32;
    fn selfcheck_model_evidence(
        slot: &mut Slot,
        buffer: *mut u8,
        room: usize,
        written: &mut usize,
    ) -> u32;
    fn selfcheck_model_table(callers: u32, calls: u64, slot: &mut Slot) -> u32;
    fn selfcheck_model_caller(table: &mut Slot, slot: &mut Slot) -> u32;
    fn selfcheck_model_announce(slot: &mut Slot, op: u32) -> u32;
    fn selfcheck_model_answered(slot: &mut Slot, reply: u32) -> u32;
}

const LEGAL: u32 = 0;
const DONE: u32 = 0;
const ILLEGAL: u32 = 1;
const REFUSED: u32 = 3;
const NO_MEMORY: u32 = 6;
const NO_ROOM: u32 = 8;
const UNFIT: u32 = 9;
const ASK: u32 = 10;
const UNKNOWN: u32 = 11;
const PAUSED: u32 = 11;
const CONTRADICTS: u32 = 12;
const LEAVES_NOT: u32 = 13;

const fn number(text: &str) -> u32 {
    match u32::from_str_radix(text, 10) {
        Ok(number) => number,
        Err(_) => panic!("a version has three numbers"),
    }
}

// The version of this crate, as the library tells its own.
const VERSION: u32 = (number(env!("CARGO_PKG_VERSION_MAJOR")) << 16)
    | (number(env!("CARGO_PKG_VERSION_MINOR")) << 8)
    | number(env!("CARGO_PKG_VERSION_PATCH"));

// Compares the versions once in a process: the functions that need no slot begin with it.
fn check_version() {
    static CHECKED: Once = Once::new();
    CHECKED.call_once(|| {
        // SAFETY: the export takes nothing, and touches no memory.
        let found = unsafe { selfcheck_version() };
        assert!(
            found == VERSION,
            "the linked library has the version {}.{}.{}, and the crate selfcheck {}",
            found >> 16,
            (found >> 8) & 255,
            found & 255,
            env!("CARGO_PKG_VERSION")
        );
    });
}

fn no_such_status(status: u32) -> ! {
    unreachable!("the library has no status {status} here")
}

fn fault(status: u32, refusal: &Refusal) -> Fault {
    match status {
        REFUSED => Fault::Refused {
            line: refusal.line,
            what: What::from_number(refusal.what),
        },
        NO_MEMORY => Fault::NoMemory,
        status => no_such_status(status),
    }
}

fn verdict(status: u32, refusal: &Refusal) -> Result<Verdict, Fault> {
    match status {
        LEGAL => Ok(Verdict::Legal),
        ILLEGAL => Ok(Verdict::Illegal),
        status => Err(fault(status, refusal)),
    }
}

/// Whether the book with this text has a legal order.
///
/// ```
/// use selfcheck::{Fault, Verdict, What, verify};
///
/// let lost = "book 2\nobject queue\ncallers 2\ncalls 1 1\n\
///     0 0 enq 5 done view 0:1\n1 0 deq none view 0:1 1:1\nend\n";
/// assert_eq!(verify(lost), Ok(Verdict::Illegal));
/// assert_eq!(verify("book 3\n"), Err(Fault::Refused { line: 1, what: What::Head }));
/// ```
///
/// # Errors
///
/// Where the bytes are no book's text of version 2, and for want of memory.
pub fn verify(text: impl AsRef<[u8]>) -> Result<Verdict, Fault> {
    check_version();
    let text = text.as_ref();
    let mut refusal = Refusal::default();
    // SAFETY: the pointer and the length are those of a slice that is borrowed for the call, and the refusal is this
    // function's own.
    let status = unsafe { selfcheck_verify(text.as_ptr(), text.len(), &mut refusal) };
    verdict(status, &refusal)
}

/// As [`verify`], but [`Verdict::Unknown`] where a search for a legal order takes more steps. A step tries a call next or
/// goes back by one; with 0 steps nothing is searched.
///
/// Only the search has this limit: reading the text, and deciding a queue's or a stack's book without a search, take what
/// they take.
///
/// ```
/// use selfcheck::{Verdict, verify, verify_within};
///
/// // two calls, one after the other
/// let book = "book 2\nobject register\ncallers 1\ncalls 2\n\
///     0 0 write 5 done view 0:1\n0 1 read =5 view 0:2\nend\n";
/// assert_eq!(verify_within(book, 1), Ok(Verdict::Unknown));
/// assert_eq!(verify_within(book, 2), Ok(Verdict::Legal));
/// assert_eq!(verify(book), Ok(Verdict::Legal));
/// ```
///
/// # Errors
///
/// As [`verify`].
pub fn verify_within(text: impl AsRef<[u8]>, steps: u64) -> Result<Verdict, Fault> {
    check_version();
    let text = text.as_ref();
    let mut refusal = Refusal::default();
    // SAFETY: as in `verify`.
    let status = unsafe { selfcheck_verify_within(text.as_ptr(), text.len(), steps, &mut refusal) };
    match status {
        UNKNOWN => Ok(Verdict::Unknown),
        status => verdict(status, &refusal),
    }
}

/// Whether the list of the certificate with this text is a legal order of its book.
///
/// # Errors
///
/// Where the bytes are no certificate's text, and for want of memory.
pub fn order(text: impl AsRef<[u8]>) -> Result<Verdict, Fault> {
    check_version();
    let text = text.as_ref();
    let mut refusal = Refusal::default();
    // SAFETY: as in `verify`.
    let status = unsafe { selfcheck_order(text.as_ptr(), text.len(), &mut refusal) };
    verdict(status, &refusal)
}

/// An export that writes of a text into a buffer.
type Writer = unsafe extern "C" fn(
    text: *const u8,
    length: usize,
    buffer: *mut u8,
    room: usize,
    written: &mut usize,
    refusal: &mut Refusal,
) -> u32;

// What an export writes of a text, with its status. The buffer has so many bytes at first, and then as many as are wanted.
fn written_by(writer: Writer, text: &[u8], room: usize) -> (u32, Refusal, String) {
    check_version();
    let mut buffer = vec![0; room];
    loop {
        let (mut written, mut refusal) = (0, Refusal::default());
        // SAFETY: as in `verify`; the buffer and the count are this function's own too, and none overlaps another.
        let status = unsafe {
            writer(
                text.as_ptr(),
                text.len(),
                buffer.as_mut_ptr(),
                buffer.len(),
                &mut written,
                &mut refusal,
            )
        };
        if status != NO_ROOM {
            buffer.truncate(written);
            let text = String::from_utf8(buffer).expect("what is written is UTF-8");
            return (status, refusal, text);
        }
        buffer.resize(written, 0);
    }
}

/// The certificate of the book with this text: the text, with a legal order of its calls, which [`order`] judges
/// without a search. `None` where the book has no legal order.
///
/// ```
/// use selfcheck::{Verdict, certify, order};
///
/// let book = "book 2\nobject queue\ncallers 1\ncalls 2\n\
///     0 0 enq 5 done view 0:1\n0 1 deq =5 view 0:2\nend\n";
/// let certificate = certify(book)?.expect("the book is legal");
/// assert_eq!(certificate, format!("{book}order 2\n0 0 done\n0 1 =5\nend\n"));
/// assert_eq!(order(&certificate)?, Verdict::Legal);
/// # Ok::<_, selfcheck::Fault>(())
/// ```
///
/// # Errors
///
/// Where the bytes are no book's text of version 2, and for want of memory.
pub fn certify(text: impl AsRef<[u8]>) -> Result<Option<String>, Fault> {
    let text = text.as_ref();
    // mostly enough, since a place has a line as its call has, and a shorter one
    let (status, refusal, certificate) = written_by(selfcheck_certify, text, 2 * text.len() + 64);
    Ok((verdict(status, &refusal)? == Verdict::Legal).then_some(certificate))
}

/// The text of a smaller book, which is a part of the book with this text: it has no legal order and shows that the
/// whole book has none, and no rule makes it smaller. `None` where the book has a legal order.
///
/// The text may be that of a book in either version too, or all that a run or monitors have written with their witness.
///
/// ```
/// use selfcheck::{Verdict, smaller, verify};
///
/// let book = "book 2\nobject queue\ncallers 2\ncalls 3 1\n0 0 enq 5 done view 0:1\n\
///     0 1 enq 6 done view 0:2\n0 2 deq =5 view 0:3\n1 0 deq none view 0:3 1:1\nend\n";
/// let small = smaller(book)?.expect("the book is illegal");
/// assert!(small.len() < book.len());
/// assert_eq!(verify(&small)?, Verdict::Illegal);
/// # Ok::<_, selfcheck::Fault>(())
/// ```
///
/// # Errors
///
/// Where the text gives no book, with the line counted from the book's title, and for want of memory.
pub fn smaller(text: impl AsRef<[u8]>) -> Result<Option<String>, Fault> {
    let text = text.as_ref();
    let (status, refusal, small) = written_by(selfcheck_smaller, text, text.len());
    Ok((verdict(status, &refusal)? == Verdict::Illegal).then_some(small))
}

/// Why the book has no legal order that the text gives: which rule of its kind it breaks, and by which calls, in one line;
/// or, where it breaks none, its longest legal prefixes, at most eight: of each a line for each of its calls, and the calls
/// that may come next after it, with the reply that the object gives each. `None` where no rule is broken and the book has a legal order, or has too
/// many legal prefixes to try. The text is read as [`smaller`] reads it. All pairs of calls are tried, so that this is made
/// for small books.
///
/// ```
/// use selfcheck::explain;
///
/// let begun = "book 2\nobject queue\ncallers 1\ncalls 3\n\
///     0 0 enq 1 done view 0:1\n0 1 enq 2 done view 0:2\n";
/// let line = explain(format!("{begun}0 2 deq =2 view 0:3\nend\n"))?.expect("a queue passed 1 over");
/// assert_eq!(line, "call 0 0 put 1 in first, yet call 0 2 took 2 while it was there\n");
/// assert_eq!(explain(format!("{begun}0 2 deq =1 view 0:3\nend\n"))?, None);
/// # Ok::<_, selfcheck::Fault>(())
/// ```
///
/// # Errors
///
/// Where the text gives no book, with the line counted from the book's title, and for want of memory.
pub fn explain(text: impl AsRef<[u8]>) -> Result<Option<String>, Fault> {
    let text = text.as_ref();
    let (status, refusal, line) = written_by(selfcheck_explain, text, 256);
    match status {
        ILLEGAL => Ok(Some(line)),
        DONE => Ok(None),
        status => Err(fault(status, &refusal)),
    }
}

/// The picture, as SVG, of the book that the text gives, as [`smaller`] reads it: a lane for each caller, a bar for each
/// call, and the numbers of a legal order, where there is one.
///
/// # Errors
///
/// Where the text gives no book, with the line counted from the book's title, and for want of memory.
pub fn picture(text: impl AsRef<[u8]>) -> Result<String, Fault> {
    let text = text.as_ref();
    let (status, refusal, picture) = written_by(selfcheck_picture, text, 8 * text.len() + 4096);
    match status {
        DONE => Ok(picture),
        status => Err(fault(status, &refusal)),
    }
}

/// What the library says of a log.
pub(crate) enum Imported {
    /// What it writes of it.
    Text(Vec<u8>),
    /// The line of the first fault, and the number of what is wrong there.
    Refused { line: u64, what: u32 },
    /// The words that say how the log is read aren't right.
    Unfit,
    /// Want of memory.
    NoMemory,
}

/// What the library says of a log, which is read as the words say, each with a line feed after it.
pub(crate) fn import(words: &[u8], log: &[u8]) -> Imported {
    check_version();
    // mostly enough
    let mut buffer = vec![0; 2 * log.len() + 4096];
    loop {
        let (mut written, mut refusal) = (0, Refusal::default());
        // SAFETY: as in `written_by`.
        let status = unsafe {
            selfcheck_import(
                words.as_ptr(),
                words.len(),
                log.as_ptr(),
                log.len(),
                buffer.as_mut_ptr(),
                buffer.len(),
                &mut written,
                &mut refusal,
            )
        };
        match status {
            DONE => {
                buffer.truncate(written);
                return Imported::Text(buffer);
            }
            NO_ROOM => buffer.resize(written, 0),
            REFUSED => {
                let Refusal { line, what } = refusal;
                return Imported::Refused { line, what };
            }
            UNFIT => return Imported::Unfit,
            NO_MEMORY => return Imported::NoMemory,
            status => no_such_status(status),
        }
    }
}

// SAFETY: what a slot owns may be used by any thread, which the library proves of its handles
// (`crossing.rt` of `selfcheck_c`), and one call at a time has the slot: the exports take it by
// `&mut`, and there is no second one of it.
unsafe impl Send for Slot {}

// What the safety rests on, for each export that is given a slot whose handle goes from thread to
// thread.
const _: [unsafe extern "C" fn(&mut Slot) -> u32; 3] =
    [selfcheck_watch, selfcheck_judge, selfcheck_drop];
const _: [unsafe extern "C" fn(&mut Slot, &mut Slot) -> u32; 3] =
    [selfcheck_caller, selfcheck_monitor, selfcheck_model_caller];
const _: unsafe extern "C" fn(u32, u64, &mut Slot) -> u32 = selfcheck_model_table;
const _: [unsafe extern "C" fn(&mut Slot, u32) -> u32; 2] =
    [selfcheck_model_announce, selfcheck_model_answered];
const _: unsafe extern "C" fn(&mut Slot, u64, u64) -> u32 = selfcheck_announce;
const _: [unsafe extern "C" fn(&mut Slot, u64) -> u32; 2] = [selfcheck_answered, selfcheck_publish];
const _: [WritesText; 2] = [selfcheck_witness, selfcheck_model_evidence];

const _: unsafe extern "C" fn(u32, &mut Slot) -> u32 = selfcheck_model_open;
const _: [unsafe extern "C" fn(&mut Slot, u32, u32) -> u32; 3] = [
    selfcheck_model_begin,
    selfcheck_model_end,
    selfcheck_model_leaves,
];
const _: unsafe extern "C" fn(&mut Slot, u64, &mut ModelQuestion) -> u32 = selfcheck_model_next;
const _: unsafe extern "C" fn(&mut Slot, u32, u32, u32, u32) -> u32 = selfcheck_model_tell;
const _: unsafe extern "C" fn(&mut Slot, *mut PlacedCall, usize, &mut usize) -> u32 =
    selfcheck_model_order;

// Compiles only where a type lacks a trait: else the path below might mean either of two impls.
macro_rules! lacks {
    ($($type:ty: $($trait:path),+;)+) => {$($(
        const _: fn() = || {
            trait Lacks<By> {
                fn it() {}
            }

            struct ByAll;

            struct ByTrait;

            impl<T: ?Sized> Lacks<ByAll> for T {}

            impl<T: ?Sized + $trait> Lacks<ByTrait> for T {}

            <$type as Lacks<_>>::it();
        };
    )+)+};
}

// A slot, and what has one, is neither copied nor shared by threads.
lacks! {
    Slot: Sync, Clone, Copy;
    Table: Sync, Clone, Copy;
    Idle: Sync, Clone, Copy;
    Announced: Sync, Clone, Copy;
    Wrong: Sync, Clone, Copy;
    Watching: Sync, Clone, Copy;
    ModelCheck: Sync, Clone, Copy;
    ModelIdle: Sync, Clone, Copy;
    ModelAnnounced: Sync, Clone, Copy;
    Judging: Sync, Clone, Copy;
}

impl Slot {
    fn empty() -> Slot {
        Slot {
            in_use: 0,
            at: ptr::null_mut(),
        }
    }
}

impl Drop for Slot {
    fn drop(&mut self) {
        // SAFETY: the slot is this value's own, and the library alone has written to it; where it has no handle, nothing
        // is done.
        unsafe { selfcheck_drop(self) };
    }
}

/// A table, which gives its callers one by one.
#[derive(Debug)]
pub(crate) struct Table(Slot);

/// A caller of a table, between two calls.
#[derive(Debug)]
pub(crate) struct Idle(Slot);

/// A caller whose call is announced.
#[derive(Debug)]
pub(crate) struct Announced(Slot);

/// A caller whose last call was an error, or a monitor that has found one.
#[derive(Debug)]
pub(crate) struct Wrong(Slot);

/// A monitor of a table, which has found no error.
#[derive(Debug)]
pub(crate) struct Watching(Slot);

/// What became of a call whose reply was handed in.
#[derive(Debug)]
pub(crate) enum Answer {
    Delivered(Idle),
    Illegal(Wrong),
    /// For want of memory nobody has checked the reply.
    Unjudged,
}

/// What a round of a monitor found.
#[derive(Debug)]
pub(crate) enum Judged {
    Legal(Watching),
    Illegal(Wrong),
    /// For want of memory nothing is judged.
    Unjudged(Watching),
}

/// Why there is no table, and no caller.
#[derive(Debug)]
pub(crate) enum Lack {
    /// There is no such table, or it has given all its callers.
    Unfit,
    Memory,
}

// The slot that a call has filled, by its status.
fn filled(status: u32, slot: Slot) -> Result<Slot, Lack> {
    match status {
        DONE => Ok(slot),
        UNFIT => Err(Lack::Unfit),
        NO_MEMORY => Err(Lack::Memory),
        status => no_such_status(status),
    }
}

impl Table {
    pub(crate) fn open(kind: &str, callers: u32, calls: u64) -> Result<Table, Lack> {
        check_version();
        let mut slot = Slot::empty();
        // SAFETY: the pointer and the length are those of a string that is borrowed for the call; the slot is this
        // function's own, and new.
        let status =
            unsafe { selfcheck_open(kind.as_ptr(), kind.len(), callers, calls, &mut slot) };
        Ok(Table(filled(status, slot)?))
    }

    /// A table for callers whose calls a model judges.
    pub(crate) fn of_model(callers: u32, calls: u64) -> Result<Table, Lack> {
        check_version();
        let mut slot = Slot::empty();
        // SAFETY: the slot is this function's own, and new.
        let status = unsafe { selfcheck_model_table(callers, calls, &mut slot) };
        Ok(Table(filled(status, slot)?))
    }

    pub(crate) fn model_caller(&mut self) -> Result<ModelIdle, Lack> {
        let mut slot = Slot::empty();
        // SAFETY: as in `caller`.
        let status = unsafe { selfcheck_model_caller(&mut self.0, &mut slot) };
        Ok(ModelIdle(filled(status, slot)?))
    }

    pub(crate) fn caller(&mut self) -> Result<Idle, Lack> {
        let mut slot = Slot::empty();
        // SAFETY: the table's slot is borrowed for the call; the other one is this function's own, and new.
        let status = unsafe { selfcheck_caller(&mut self.0, &mut slot) };
        Ok(Idle(filled(status, slot)?))
    }

    pub(crate) fn monitor(&mut self) -> Result<Watching, Lack> {
        let mut slot = Slot::empty();
        // SAFETY: as in `caller`.
        let status = unsafe { selfcheck_monitor(&mut self.0, &mut slot) };
        Ok(Watching(filled(status, slot)?))
    }
}

impl Idle {
    /// The caller as it is where it has no call left.
    pub(crate) fn announce(mut self, op: u128) -> Result<Announced, Idle> {
        let (low, high) = (op as u64, (op >> 64) as u64);
        // SAFETY: the slot is this caller's own.
        match unsafe { selfcheck_announce(&mut self.0, low, high) } {
            DONE => Ok(Announced(self.0)),
            UNFIT => Err(self),
            status => no_such_status(status),
        }
    }

    pub(crate) fn watch(mut self) -> Watching {
        // SAFETY: the slot is this caller's own.
        match unsafe { selfcheck_watch(&mut self.0) } {
            DONE => Watching(self.0),
            status => no_such_status(status),
        }
    }
}

impl Announced {
    pub(crate) fn answered(mut self, reply: u64) -> Answer {
        // SAFETY: the slot is this caller's own.
        match unsafe { selfcheck_answered(&mut self.0, reply) } {
            DONE => Answer::Delivered(Idle(self.0)),
            ILLEGAL => Answer::Illegal(Wrong(self.0)),
            NO_MEMORY => Answer::Unjudged,
            status => no_such_status(status),
        }
    }

    pub(crate) fn publish(mut self, reply: u64) -> Idle {
        // SAFETY: the slot is this caller's own.
        match unsafe { selfcheck_publish(&mut self.0, reply) } {
            DONE => Idle(self.0),
            status => no_such_status(status),
        }
    }
}

impl Watching {
    pub(crate) fn judge(mut self) -> Judged {
        // SAFETY: the slot is this monitor's own.
        match unsafe { selfcheck_judge(&mut self.0) } {
            LEGAL => Judged::Legal(self),
            ILLEGAL => Judged::Illegal(Wrong(self.0)),
            NO_MEMORY => Judged::Unjudged(self),
            status => no_such_status(status),
        }
    }
}

// An export that writes a text of what a slot has.
type WritesText = unsafe extern "C" fn(&mut Slot, *mut u8, usize, &mut usize) -> u32;

// The text that is written of the slot; none for want of memory.
fn text_of(slot: &mut Slot, export: WritesText) -> Option<String> {
    let mut buffer = vec![0; 1024];
    loop {
        let mut written = 0;
        // SAFETY: nothing else has the slot; the pointer and the length are those of a buffer of this function's own, as
        // the count is, and none overlaps another.
        match unsafe { export(slot, buffer.as_mut_ptr(), buffer.len(), &mut written) } {
            DONE => {
                buffer.truncate(written);
                return Some(String::from_utf8(buffer).expect("a text is ASCII"));
            }
            NO_ROOM => buffer.resize(written, 0),
            NO_MEMORY => return None,
            status => no_such_status(status),
        }
    }
}

impl Wrong {
    /// The text of the book of the error; none for want of memory.
    pub(crate) fn witness(&mut self) -> Option<String> {
        text_of(&mut self.0, selfcheck_witness)
    }
}

/// A caller whose calls a model judges, between two calls.
#[derive(Debug)]
pub(crate) struct ModelIdle(Slot);

/// Such a caller whose call is announced.
#[derive(Debug)]
pub(crate) struct ModelAnnounced(Slot);

/// Such a caller whose call is published, and whose judgement hasn't ended.
#[derive(Debug)]
pub(crate) struct Judging(Slot);

/// What came of a judgement that went on.
#[derive(Debug)]
pub(crate) enum Judgement {
    Delivered(ModelIdle),
    Illegal(Wrong),
    Asks {
        judging: Judging,
        state: u32,
        op: u32,
    },
    Paused(Judging),
    /// For want of memory nobody has judged the call.
    Unjudged,
}

impl ModelIdle {
    /// The caller as it is where it has no call left.
    pub(crate) fn announce(mut self, op: u32) -> Result<ModelAnnounced, ModelIdle> {
        // SAFETY: the slot is this caller's own.
        match unsafe { selfcheck_model_announce(&mut self.0, op) } {
            DONE => Ok(ModelAnnounced(self.0)),
            UNFIT => Err(self),
            status => no_such_status(status),
        }
    }
}

impl ModelAnnounced {
    /// `None` where memory is lacking, and nobody judges the call.
    pub(crate) fn answered(mut self, reply: u32) -> Option<Judging> {
        // SAFETY: the slot is this caller's own.
        match unsafe { selfcheck_model_answered(&mut self.0, reply) } {
            DONE => Some(Judging(self.0)),
            NO_MEMORY => None,
            status => no_such_status(status),
        }
    }
}

impl Judging {
    pub(crate) fn next(mut self, steps: u64) -> Judgement {
        match said(&mut self.0, steps) {
            Ok(ModelAnswer::Legal) => Judgement::Delivered(ModelIdle(self.0)),
            Ok(ModelAnswer::Illegal) => Judgement::Illegal(Wrong(self.0)),
            Ok(ModelAnswer::Asks { state, op }) => Judgement::Asks {
                judging: self,
                state,
                op,
            },
            Ok(ModelAnswer::Paused) => Judgement::Paused(self),
            Err(_) => Judgement::Unjudged,
        }
    }
}

/// What is told of a model: a check, or a caller whose calls it judges.
pub(crate) trait Told {
    fn slot(&mut self) -> &mut Slot;

    /// Promises that the operation changes no state at which it has this reply.
    fn leaves(&mut self, op: u32, reply: u32) -> Result<(), ModelFault> {
        // SAFETY: the slot is this value's own.
        taken(unsafe { selfcheck_model_leaves(self.slot(), op, reply) })
    }

    fn tell(&mut self, state: u32, op: u32, next: u32, reply: u32) -> Result<(), ModelFault> {
        // SAFETY: the slot is this value's own.
        taken(unsafe { selfcheck_model_tell(self.slot(), state, op, next, reply) })
    }
}

impl Told for ModelCheck {
    fn slot(&mut self) -> &mut Slot {
        &mut self.0
    }
}

impl Told for Judging {
    fn slot(&mut self) -> &mut Slot {
        &mut self.0
    }
}

/// A check of a history by a model whose steps are asked for. States, operations and replies are
/// numbers, of which 0 is that of the initial state.
#[derive(Debug)]
pub(crate) struct ModelCheck(Slot);

/// What a check of a model says.
#[derive(Clone, Copy, Debug)]
pub(crate) enum ModelAnswer {
    Legal,
    Illegal,
    Asks { state: u32, op: u32 },
    Paused,
}

/// Why a check of a model takes no more.
#[derive(Clone, Copy, Debug)]
pub(crate) enum ModelFault {
    /// Another step was told there.
    Contradicts,
    /// A step breaks a promise.
    LeavesNot,
    NoMemory,
}

fn taken(status: u32) -> Result<(), ModelFault> {
    match status {
        DONE => Ok(()),
        NO_MEMORY => Err(ModelFault::NoMemory),
        CONTRADICTS => Err(ModelFault::Contradicts),
        LEAVES_NOT => Err(ModelFault::LeavesNot),
        status => no_such_status(status),
    }
}

// What is said where a check or a judgement goes on by so many steps.
fn said(slot: &mut Slot, steps: u64) -> Result<ModelAnswer, ModelFault> {
    let mut question = ModelQuestion::default();
    // SAFETY: the caller has the slot by `&mut`, and the question is this function's own.
    match unsafe { selfcheck_model_next(slot, steps, &mut question) } {
        LEGAL => Ok(ModelAnswer::Legal),
        ILLEGAL => Ok(ModelAnswer::Illegal),
        ASK => Ok(ModelAnswer::Asks {
            state: question.state,
            op: question.op,
        }),
        PAUSED => Ok(ModelAnswer::Paused),
        NO_MEMORY => Err(ModelFault::NoMemory),
        status => no_such_status(status),
    }
}

impl ModelCheck {
    /// The check of a history of 1 to 16 callers.
    pub(crate) fn open(callers: u32) -> Result<ModelCheck, ModelFault> {
        check_version();
        let mut slot = Slot::empty();
        // SAFETY: the slot is this function's own, and new.
        taken(unsafe { selfcheck_model_open(callers, &mut slot) })?;
        Ok(ModelCheck(slot))
    }

    /// The caller's next call, of at most 256, begins. Its last one has ended.
    pub(crate) fn begin(&mut self, caller: u32, op: u32) -> Result<(), ModelFault> {
        // SAFETY: the slot is this check's own.
        taken(unsafe { selfcheck_model_begin(&mut self.0, caller, op) })
    }

    /// The caller's call ends.
    pub(crate) fn end(&mut self, caller: u32, reply: u32) -> Result<(), ModelFault> {
        // SAFETY: the slot is this check's own.
        taken(unsafe { selfcheck_model_end(&mut self.0, caller, reply) })
    }

    pub(crate) fn next(&mut self, steps: u64) -> Result<ModelAnswer, ModelFault> {
        said(&mut self.0, steps)
    }

    /// The order of a history with so many calls, which is legal.
    pub(crate) fn order(&mut self, calls: usize) -> Result<Vec<PlacedCall>, ModelFault> {
        let (mut order, mut written) = (vec![PlacedCall::default(); calls], 0);
        // SAFETY: the slot is this check's own; the pointer and the length are those of a buffer of this function's own,
        // as the count is, and none overlaps another.
        taken(unsafe {
            selfcheck_model_order(&mut self.0, order.as_mut_ptr(), order.len(), &mut written)
        })?;
        order.truncate(written);
        Ok(order)
    }

    /// The text of the history's book and of what was told of the model.
    pub(crate) fn evidence(&mut self) -> Result<String, ModelFault> {
        text_of(&mut self.0, selfcheck_model_evidence).ok_or(ModelFault::NoMemory)
    }
}

/// What C code calls at its points, by `bindings/c/selfcheck.h`, which has it null where no program in Rust has it.
#[unsafe(no_mangle)]
#[allow(non_upper_case_globals)]
static selfcheck_at_point: AtomicPtr<c_void> = AtomicPtr::new(ptr::null_mut());

static RUNS_WITH_POINTS: Mutex<usize> = Mutex::new(0);

extern "C" fn at_point(file: *const c_char, line: c_int) {
    // SAFETY: the header gives the name of a file, a literal.
    let file = unsafe { CStr::from_ptr::<'static>(file) };
    seat::point_of_c(file, line);
}

/// While there is one the points of C code are steps.
#[derive(Debug)]
pub(crate) struct Points;

impl Points {
    pub(crate) fn of_run() -> Points {
        let mut runs = RUNS_WITH_POINTS
            .lock()
            .unwrap_or_else(PoisonError::into_inner);
        *runs += 1;
        selfcheck_at_point.store(at_point as *mut c_void, Ordering::SeqCst);
        Points
    }
}

impl Drop for Points {
    fn drop(&mut self) {
        let mut runs = RUNS_WITH_POINTS
            .lock()
            .unwrap_or_else(PoisonError::into_inner);
        *runs -= 1;
        if *runs == 0 {
            selfcheck_at_point.store(ptr::null_mut(), Ordering::SeqCst);
        }
    }
}
