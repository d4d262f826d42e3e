//! [`std::sync::mpsc`], whose operations are steps of a schedule.

use super::ending::Awaited;
use super::run::{Key, Woken};
use super::seat::{Seat, Tag};
use super::step::{At, Operated};
use std::cell::Cell;
use std::collections::VecDeque;
use std::fmt;
use std::marker::PhantomData;
use std::panic::Location;
use std::sync::{Arc, Condvar, Mutex, MutexGuard, PoisonError};
use std::time::{Duration, Instant};

pub use std::sync::mpsc::{RecvError, RecvTimeoutError, SendError, TryRecvError, TrySendError};

struct Shared<T> {
    tag: Tag,
    state: Mutex<State<T>>,
    changed: Condvar,
}

struct State<T> {
    messages: VecDeque<T>,
    room: Option<usize>,
    senders: usize,
    has_receiver: bool,
    receiver_waits: bool,
    put: u64,
    taken: u64,
}

/// [`std::sync::mpsc::Sender`].
pub struct Sender<T>(Arc<Shared<T>>);

/// [`std::sync::mpsc::SyncSender`].
pub struct SyncSender<T>(Arc<Shared<T>>);

/// [`std::sync::mpsc::Receiver`].
pub struct Receiver<T> {
    shared: Arc<Shared<T>>,
    // one thread at a time receives
    alone: PhantomData<Cell<()>>,
}

/// [`std::sync::mpsc::channel`].
#[must_use]
pub fn channel<T>() -> (Sender<T>, Receiver<T>) {
    let shared = Shared::new(None);
    (Sender(Arc::clone(&shared)), Receiver::new(shared))
}

/// [`std::sync::mpsc::sync_channel`].
#[must_use]
pub fn sync_channel<T>(bound: usize) -> (SyncSender<T>, Receiver<T>) {
    let shared = Shared::new(Some(bound));
    (SyncSender(Arc::clone(&shared)), Receiver::new(shared))
}

// How long a call waits: not at all, until it can go on, or until then at the most.
#[derive(Clone, Copy)]
enum Waits {
    Never,
    Always,
    For(Duration),
}

impl<T> Shared<T> {
    fn new(room: Option<usize>) -> Arc<Shared<T>> {
        Arc::new(Shared {
            tag: Tag::new(),
            state: Mutex::new(State {
                messages: VecDeque::new(),
                room,
                senders: 1,
                has_receiver: true,
                receiver_waits: false,
                put: 0,
                taken: 0,
            }),
            changed: Condvar::new(),
        })
    }

    fn state(&self) -> MutexGuard<'_, State<T>> {
        self.state.lock().unwrap_or_else(PoisonError::into_inner)
    }

    fn key(&self) -> Key {
        Key::Object((&raw const self.tag).addr())
    }

    fn begin(&self, name: &'static str, at: At) -> Option<Seat> {
        let seat = Seat::current()?;
        seat.step(Operated::on(name, seat.number_of(&self.tag)), at);
        Some(seat)
    }

    fn tell_all(&self, seat: Option<&Seat>) {
        if let Some(seat) = seat {
            seat.wake_all(self.key());
            seat.changes();
        }
        self.changed.notify_all();
    }

    // Waits for a change; false where the time is over.
    fn wait<'a>(
        &'a self,
        state: MutexGuard<'a, State<T>>,
        seat: Option<&Seat>,
        awaited: fn(u32) -> Awaited,
        (at, time): (At, Option<Duration>),
    ) -> (MutexGuard<'a, State<T>>, bool) {
        if let Some(seat) = seat {
            drop(state);
            let number = seat.number_of(&self.tag);
            match seat.wait(self.key(), awaited(number), at, time) {
                Woken::Again => return (self.state(), true),
                Woken::TimedOut => return (self.state(), false),
                Woken::Over => return (self.state(), time.is_none()),
            }
        }
        match time {
            None => {
                let state = self.changed.wait(state);
                (state.unwrap_or_else(PoisonError::into_inner), true)
            }
            Some(time) => {
                let waited = self.changed.wait_timeout(state, time);
                let (state, result) = waited.unwrap_or_else(PoisonError::into_inner);
                (state, !result.timed_out())
            }
        }
    }

    fn put(
        &self,
        value: T,
        waits: bool,
        name: &'static str,
        at: At,
    ) -> Result<(), TrySendError<T>> {
        let seat = self.begin(name, at);
        let seat = seat.as_ref();
        let mut state = self.state();
        loop {
            if !state.has_receiver {
                return Err(TrySendError::Disconnected(value));
            }
            let free = match state.room {
                None => true,
                Some(0) => state.messages.is_empty() && (waits || state.receiver_waits),
                Some(room) => state.messages.len() < room,
            };
            if free {
                break;
            }
            if !waits {
                return Err(TrySendError::Full(value));
            }
            state = self.wait(state, seat, Awaited::Room, (at, None)).0;
        }
        state.messages.push_back(value);
        state.put += 1;
        let number = state.put;
        self.tell_all(seat);
        // with no room in the channel the message is handed over, or comes back
        while waits && state.room == Some(0) && state.taken < number {
            if !state.has_receiver {
                let value = state.messages.pop_back();
                return value.map_or(Ok(()), |it| Err(TrySendError::Disconnected(it)));
            }
            state = self.wait(state, seat, Awaited::Room, (at, None)).0;
        }
        Ok(())
    }

    fn take(&self, waits: Waits, name: &'static str, at: At) -> Result<T, RecvTimeoutError> {
        let seat = self.begin(name, at);
        let seat = seat.as_ref();
        let began = Instant::now();
        let mut state = self.state();
        loop {
            if let Some(value) = state.messages.pop_front() {
                state.taken += 1;
                self.tell_all(seat);
                return Ok(value);
            }
            if state.senders == 0 {
                return Err(RecvTimeoutError::Disconnected);
            }
            let time = match waits {
                Waits::Never => return Err(RecvTimeoutError::Timeout),
                Waits::Always => None,
                Waits::For(time) if seat.is_some() => Some(time),
                Waits::For(time) => Some(time.saturating_sub(began.elapsed())),
            };
            if !state.receiver_waits {
                state.receiver_waits = true;
                self.tell_all(seat);
            }
            let (again, woken) = self.wait(state, seat, Awaited::Message, (at, time));
            state = again;
            state.receiver_waits = false;
            if !woken && state.messages.is_empty() {
                return Err(RecvTimeoutError::Timeout);
            }
        }
    }

    #[track_caller]
    fn add_sender(&self) {
        self.state().senders += 1;
    }

    fn drop_sender(&self, name: &'static str, at: At) {
        let seat = self.begin(name, at);
        let mut state = self.state();
        state.senders -= 1;
        let was_last = state.senders == 0;
        drop(state);
        if was_last {
            self.tell_all(seat.as_ref());
        }
    }
}

impl<T> Sender<T> {
    /// Sends a message.
    ///
    /// # Errors
    ///
    /// The message, where there is no receiver.
    #[track_caller]
    pub fn send(&self, message: T) -> Result<(), SendError<T>> {
        sent((self.0).put(message, true, "Sender::send", Location::caller()))
    }
}

fn sent<T>(result: Result<(), TrySendError<T>>) -> Result<(), SendError<T>> {
    result.map_err(|error| match error {
        TrySendError::Full(message) | TrySendError::Disconnected(message) => SendError(message),
    })
}

impl<T> SyncSender<T> {
    /// Waits for room, and sends a message.
    ///
    /// # Errors
    ///
    /// The message, where there is no receiver.
    #[track_caller]
    pub fn send(&self, message: T) -> Result<(), SendError<T>> {
        sent((self.0).put(message, true, "SyncSender::send", Location::caller()))
    }

    /// Sends a message where there is room.
    ///
    /// # Errors
    ///
    /// The message, where there is no room or no receiver.
    #[track_caller]
    pub fn try_send(&self, message: T) -> Result<(), TrySendError<T>> {
        (self.0).put(message, false, "SyncSender::try_send", Location::caller())
    }
}

impl<T> Receiver<T> {
    fn new(shared: Arc<Shared<T>>) -> Receiver<T> {
        Receiver {
            shared,
            alone: PhantomData,
        }
    }

    /// Waits for a message.
    ///
    /// # Errors
    ///
    /// Where there is no message and no sender.
    #[track_caller]
    pub fn recv(&self) -> Result<T, RecvError> {
        let taken = (self.shared).take(Waits::Always, "Receiver::recv", Location::caller());
        taken.map_err(|_| RecvError)
    }

    /// Takes a message where there is one.
    ///
    /// # Errors
    ///
    /// Where there is no message, and whether there is a sender.
    #[track_caller]
    pub fn try_recv(&self) -> Result<T, TryRecvError> {
        let taken = (self.shared).take(Waits::Never, "Receiver::try_recv", Location::caller());
        taken.map_err(|error| match error {
            RecvTimeoutError::Timeout => TryRecvError::Empty,
            RecvTimeoutError::Disconnected => TryRecvError::Disconnected,
        })
    }

    /// Waits for a message, and no longer than the time.
    ///
    /// # Errors
    ///
    /// Where the time is over, or there is no message and no sender.
    #[track_caller]
    pub fn recv_timeout(&self, time: Duration) -> Result<T, RecvTimeoutError> {
        (self.shared).take(
            Waits::For(time),
            "Receiver::recv_timeout",
            Location::caller(),
        )
    }

    /// The messages, each waited for, until there is no sender.
    pub fn iter(&self) -> Iter<'_, T> {
        Iter(self)
    }

    /// The messages that are there.
    pub fn try_iter(&self) -> TryIter<'_, T> {
        TryIter(self)
    }
}

/// [`std::sync::mpsc::Iter`].
#[derive(Debug)]
pub struct Iter<'a, T>(&'a Receiver<T>);

/// [`std::sync::mpsc::TryIter`].
#[derive(Debug)]
pub struct TryIter<'a, T>(&'a Receiver<T>);

/// [`std::sync::mpsc::IntoIter`].
#[derive(Debug)]
pub struct IntoIter<T>(Receiver<T>);

impl<T> Iterator for Iter<'_, T> {
    type Item = T;

    #[track_caller]
    fn next(&mut self) -> Option<T> {
        self.0.recv().ok()
    }
}

impl<T> Iterator for TryIter<'_, T> {
    type Item = T;

    #[track_caller]
    fn next(&mut self) -> Option<T> {
        self.0.try_recv().ok()
    }
}

impl<T> Iterator for IntoIter<T> {
    type Item = T;

    #[track_caller]
    fn next(&mut self) -> Option<T> {
        self.0.recv().ok()
    }
}

impl<'a, T> IntoIterator for &'a Receiver<T> {
    type Item = T;
    type IntoIter = Iter<'a, T>;

    fn into_iter(self) -> Iter<'a, T> {
        self.iter()
    }
}

impl<T> IntoIterator for Receiver<T> {
    type Item = T;
    type IntoIter = IntoIter<T>;

    fn into_iter(self) -> IntoIter<T> {
        IntoIter(self)
    }
}

impl<T> Clone for Sender<T> {
    fn clone(&self) -> Sender<T> {
        self.0.add_sender();
        Sender(Arc::clone(&self.0))
    }
}

impl<T> Clone for SyncSender<T> {
    fn clone(&self) -> SyncSender<T> {
        self.0.add_sender();
        SyncSender(Arc::clone(&self.0))
    }
}

impl<T> Drop for Sender<T> {
    #[track_caller]
    fn drop(&mut self) {
        self.0.drop_sender("drop of Sender", Location::caller());
    }
}

impl<T> Drop for SyncSender<T> {
    #[track_caller]
    fn drop(&mut self) {
        self.0.drop_sender("drop of SyncSender", Location::caller());
    }
}

impl<T> Drop for Receiver<T> {
    #[track_caller]
    fn drop(&mut self) {
        let seat = (self.shared).begin("drop of Receiver", Location::caller());
        let mut state = self.shared.state();
        state.has_receiver = false;
        let left = if state.room == Some(0) {
            VecDeque::new()
        } else {
            std::mem::take(&mut state.messages)
        };
        drop(state);
        self.shared.tell_all(seat.as_ref());
        drop(left);
    }
}

impl<T> fmt::Debug for Sender<T> {
    fn fmt(&self, f: &mut fmt::Formatter<'_>) -> fmt::Result {
        f.debug_struct("Sender").finish_non_exhaustive()
    }
}

impl<T> fmt::Debug for SyncSender<T> {
    fn fmt(&self, f: &mut fmt::Formatter<'_>) -> fmt::Result {
        f.debug_struct("SyncSender").finish_non_exhaustive()
    }
}

impl<T> fmt::Debug for Receiver<T> {
    fn fmt(&self, f: &mut fmt::Formatter<'_>) -> fmt::Result {
        f.debug_struct("Receiver").finish_non_exhaustive()
    }
}
