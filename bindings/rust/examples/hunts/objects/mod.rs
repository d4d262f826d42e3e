//! Objects that are wrong as people make them wrong, with their right forms.

pub mod case;
mod hasty_take;
mod lazy_counter;
mod list_set;
mod loaded_cas;
mod lock_order;
mod missed_notification;
mod reused_nodes;
mod seen_least;
mod sharded_counter;
mod striped_map;
mod two_locks;
mod wrapped_ring;

pub use case::Case;

use case::case;
use hasty_take::HastyTake;
use lazy_counter::LazyCounter;
use list_set::ListSet;
use loaded_cas::LoadedCas;
use lock_order::LockOrder;
use missed_notification::MissedNotification;
use reused_nodes::ReusedNodes;
use seen_least::SeenLeast;
use selfcheck::hunt::Settings;
use selfcheck::{CasRegister, Counter, Map, PriorityQueue, Queue, Register, Set, Stack};
use sharded_counter::{OneNumber, ShardedCounter};
use striped_map::StripedMap;
use two_locks::TwoLocks;
use wrapped_ring::WrappedRing;

/// All of them.
pub fn cases() -> Vec<Case> {
    vec![
        case! {
            reused_nodes illegal,
            Settings::<Queue>::new(),
            ReusedNodes::<false>::new,
            ReusedNodes::<true>::new
        },
        case! {
            list_set illegal,
            Settings::<Set>::new(),
            ListSet::<false>::new,
            ListSet::<true>::new
        },
        case! {
            striped_map illegal,
            Settings::<Map>::new(),
            StripedMap::<false>::new,
            StripedMap::<true>::new
        },
        case! {
            sharded_counter illegal,
            Settings::<Counter>::new(),
            ShardedCounter::default,
            OneNumber::default
        },
        case! {
            wrapped_ring illegal | livelock,
            Settings::<Queue>::new().at_most_more_puts(1),
            WrappedRing::<false>::new,
            WrappedRing::<true>::new
        },
        case! {
            lazy_counter illegal,
            Settings::<Counter>::new(),
            LazyCounter::<false>::default,
            LazyCounter::<true>::default
        },
        case! {
            loaded_cas illegal,
            Settings::<CasRegister>::new(),
            LoadedCas::<false>::default,
            LoadedCas::<true>::default
        },
        case! {
            two_locks illegal,
            Settings::<Stack>::new(),
            TwoLocks::<false>::default,
            TwoLocks::<true>::default
        },
        case! {
            seen_least illegal,
            Settings::<PriorityQueue>::new(),
            SeenLeast::<false>::default,
            SeenLeast::<true>::default
        },
        case! {
            lock_order deadlock,
            Settings::<Register>::new(),
            LockOrder::<false>::default,
            LockOrder::<true>::default
        },
        case! {
            missed_notification deadlock,
            Settings::<Queue>::new().producers_and_consumers(),
            MissedNotification::<false>::default,
            MissedNotification::<true>::default
        },
        case! {
            hasty_take panic,
            Settings::<Queue>::new(),
            HastyTake::<false>::default,
            HastyTake::<true>::default
        },
    ]
}
