//! Hunts of the counters of `points.c`, which is linked into this program.

use selfcheck::hunt::{Found, Settings, hunt, replay};
use selfcheck::schedule::Ending;
use selfcheck::{Counter, CounterOp, Reply};
use std::cell::UnsafeCell;

#[repr(C)]
#[derive(Default)]
struct InC {
    number: u32,
    locked: u32,
}

#[derive(Default)]
struct Shared(UnsafeCell<InC>);

// SAFETY: C code alone looks at it, by atomic accesses.
unsafe impl Sync for Shared {}
unsafe impl Send for Shared {}

unsafe extern "C" {
    fn torn_inc(counter: *mut InC) -> u32;
    fn locked_inc(counter: *mut InC) -> u32;
    fn endless_inc(counter: *mut InC) -> u32;
}

fn torn(counter: &Shared, _: CounterOp) -> Reply {
    // SAFETY: the pointer is that of a counter.
    Reply::Value(unsafe { torn_inc(counter.0.get()) })
}

fn locked(counter: &Shared, _: CounterOp) -> Reply {
    // SAFETY: as in `torn`.
    Reply::Value(unsafe { locked_inc(counter.0.get()) })
}

fn endless(counter: &Shared, _: CounterOp) -> Reply {
    // SAFETY: as in `torn`.
    Reply::Value(unsafe { endless_inc(counter.0.get()) })
}

fn main() {
    let settings = Settings::<Counter>::new().seed(5).runs(1000);
    let hunted = hunt(&settings, Shared::default, torn).unwrap();
    let finding = hunted.finding().expect("the counter is wrong");
    assert_eq!(finding.found(), &Found::Illegal);
    assert!(finding.repeats());
    let again = finding.again().to_string();
    let again = replay(&settings, &again, Shared::default, torn).unwrap();
    assert_eq!(again.ran(), finding.small().ran());
    assert_eq!(again.ran().switches(), 1);
    let told = finding.to_string();
    assert!(told.contains(": selfcheck_point of ") && told.contains("points.c:"), "{told}");
    let quiet = hunt(&settings, Shared::default, locked).unwrap();
    assert!(quiet.finding().is_none(), "{quiet}");
    let settings = settings.callers(2);
    let stays = hunt(&settings, Shared::default, endless).unwrap();
    let found = stays.finding().expect("it has no end").found();
    assert!(matches!(found, Found::Ended(Ending::StepLimit(_))), "{found}");
    let counter = Shared(UnsafeCell::new(InC { number: 7, locked: 0 }));
    assert_eq!(torn(&counter, CounterOp::Inc), Reply::Value(7));
    println!("{told}");
}
