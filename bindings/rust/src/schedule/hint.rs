//! [`std::hint`], as far as threads wait by it.

use super::seat::Seat;
use super::step::Operated;
use std::panic::Location;

pub use std::hint::{assert_unchecked, black_box, unreachable_unchecked};

/// [`std::hint::spin_loop`], which gives way under a schedule, as
/// [`yield_now`](super::thread::yield_now) does.
#[track_caller]
pub fn spin_loop() {
    match Seat::current() {
        Some(seat) => {
            seat.give_way(Operated::on_none("spin_loop"), Location::caller(), None);
        }
        None => std::hint::spin_loop(),
    }
}
