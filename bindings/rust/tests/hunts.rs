//! Hunts for what is wrong with objects that are wrong on purpose, and what they say where they
//! can't hunt.

#[path = "../examples/hunts/objects/mod.rs"]
mod objects;

use objects::cases;
use selfcheck::hunt::{Found, HuntError, Settings, Strategy, hunt, replay};
use selfcheck::schedule::Ending;
use selfcheck::schedule::sync::Mutex;
use selfcheck::schedule::sync::atomic::{AtomicU32, Ordering::SeqCst};
use selfcheck::{Counter, CounterOp, Queue, QueueOp, Register, Reply, Verdict};
use std::collections::VecDeque;
use std::fs;
use std::path::PathBuf;
use std::time::Duration;

// Adds by a load and a store.
fn torn(number: &AtomicU32, _: CounterOp) -> Reply {
    let old = number.load(SeqCst);
    number.store(old + 1, SeqCst);
    Reply::Value(old)
}

fn folder(name: &str) -> PathBuf {
    let folder = std::env::temp_dir().join(format!("selfcheck-{}-{name}", std::process::id()));
    let _ = fs::remove_dir_all(&folder);
    folder
}

#[test]
fn wrong_objects_are_found_and_come_again() {
    for case in cases() {
        for seed in 0..3 {
            let outcome = (case.wrong)(seed, u64::MAX, Duration::from_secs(20));
            assert!(
                case.is_found(&outcome),
                "{} {seed}\n{}",
                case.name,
                outcome.told
            );
            assert!(outcome.repeats, "{} {seed}\n{}", case.name, outcome.told);
        }
    }
}

#[test]
fn right_objects_are_not_blamed() {
    for case in cases() {
        let outcome = (case.right)(5, 300, Duration::from_secs(20));
        assert_eq!(outcome.found, None, "{}\n{}", case.name, outcome.told);
    }
}

#[test]
fn a_seed_has_one_hunt() {
    let told = || {
        let settings = Settings::<Counter>::new().seed(7).calls(3);
        let hunted = hunt(&settings, || AtomicU32::new(0), torn).unwrap();
        let finding = hunted.finding().unwrap();
        assert!(finding.repeats());
        let book = finding.trial().book().unwrap();
        assert_eq!(book.verify(), Ok(Verdict::Illegal));
        format!("{hunted}{book}{:?}", finding.trial().ran())
    };
    assert_eq!(told(), told());
}

#[test]
fn each_strategy_finds() {
    for strategy in [Strategy::Walk, Strategy::Priorities] {
        let settings = Settings::<Counter>::new().strategy(strategy);
        let hunted = hunt(&settings, || AtomicU32::new(0), torn).unwrap();
        assert_eq!(
            hunted.finding().map(|it| it.found().clone()),
            Some(Found::Illegal)
        );
    }
}

#[test]
fn a_finding_has_a_folder() {
    let folder = folder("finding");
    let settings = Settings::<Counter>::new().seed(3).folder(&folder);
    let hunted = hunt(&settings, || AtomicU32::new(0), torn).unwrap();
    let finding = hunted.finding().unwrap();
    let own = finding.folder().unwrap();
    assert_eq!(own, folder.join(format!("counter-3-{}", finding.run())));
    let read = |file| fs::read_to_string(own.join(file)).unwrap();
    assert_eq!(selfcheck::verify(read("book.txt")), Ok(Verdict::Illegal));
    assert_eq!(
        selfcheck::verify(read("small-book.txt")),
        Ok(Verdict::Illegal)
    );
    assert!(read("small-steps.txt").contains("AtomicU32::store at tests/hunts.rs:"));
    assert!(read("finding.txt").contains(&finding.line()));
    let explanation = finding.explanation().unwrap();
    assert!(explanation.contains(" counted "), "{explanation}");
    assert_eq!(read("explanation.txt"), explanation);
    assert!(read("finding.txt").contains(&format!("\n\n{explanation}\nbook 2\n")));
    assert!(read("picture.svg").starts_with("<svg") || read("picture.svg").starts_with("<?xml"));
    assert!(read("settings.txt").contains(".seed(3)"));
    assert!(read("script.txt").contains("caller 2: inc, inc, inc, inc, inc, inc"));
    assert!(read("steps.txt").len() >= read("small-steps.txt").len());
    let small = replay(
        &settings,
        &finding.again().to_string(),
        || AtomicU32::new(0),
        torn,
    )
    .unwrap();
    assert_eq!(small.found(), Some(&Found::Illegal));
    // what was said of runs that had begun is gone
    assert_eq!(fs::read_dir(&folder).unwrap().count(), 1);
    fs::remove_dir_all(folder).unwrap();
}

#[test]
#[cfg(target_os = "linux")]
fn what_is_lost_is_said() {
    let folder = folder("lost");
    let own = folder.join("counter-3-0");
    fs::create_dir_all(&own).unwrap();
    let lost_files = ["steps.txt", "picture.svg"];
    for file in lost_files {
        // a disk that is full
        std::os::unix::fs::symlink("/dev/full", own.join(file)).unwrap();
    }
    let settings = Settings::<Counter>::new().seed(3).folder(&folder);
    let error = hunt(&settings, || AtomicU32::new(0), torn).unwrap_err();
    let text = error.to_string();
    let HuntError::Unwritten { lost, hunted, .. } = error else {
        panic!("{text}")
    };
    assert_eq!(lost, lost_files);
    assert!(
        text.starts_with("steps.txt, picture.svg of the finding in "),
        "{text}"
    );
    assert!(
        text.contains("couldn't be written: No space left on device"),
        "{text}"
    );
    assert_eq!(hunted.finding().unwrap().found(), &Found::Illegal);
    assert!(
        fs::read_to_string(own.join("book.txt"))
            .unwrap()
            .ends_with("end\n")
    );
    fs::remove_dir_all(folder).unwrap();
}

#[test]
#[cfg(unix)]
fn a_run_that_ends_the_process_is_on_disk() {
    let name = "SELFCHECK_ABORTS_IN";
    if let Some(folder) = std::env::var_os(name) {
        let settings = Settings::<Counter>::new().seed(4).folder(folder);
        let call = |number: &AtomicU32, _| match number.fetch_add(1, SeqCst) {
            9 => std::process::abort(),
            old => Reply::Value(old),
        };
        let _ = hunt(&settings, || AtomicU32::new(0), call);
        return;
    }
    let folder = folder("aborts");
    let status = std::process::Command::new(std::env::current_exe().unwrap())
        .args(["--exact", "a_run_that_ends_the_process_is_on_disk"])
        .env(name, &folder)
        .output()
        .unwrap()
        .status;
    assert!(!status.success());
    let text = fs::read_to_string(folder.join("counter-4-begun.txt")).unwrap();
    let settings = "Settings::<Counter>::new().callers(3).calls(6).seed(4)";
    let wanted = format!(
        "run 0 has begun, and hasn't ended:\n    replay(&{settings}, \"0\", make, call)\n\n\
         caller 0: inc, inc, inc, inc, inc, inc\n"
    );
    assert!(text.starts_with(&wanted), "{text}");
    fs::remove_dir_all(folder).unwrap();
}

#[test]
#[cfg(target_os = "linux")]
fn a_run_that_cannot_be_named_on_disk_does_not_begin() {
    let folder = folder("full");
    fs::create_dir_all(&folder).unwrap();
    let file = folder.join("counter-0-begun.txt");
    std::os::unix::fs::symlink("/dev/full", &file).unwrap();
    let settings = Settings::<Counter>::new().folder(&folder);
    let never = || -> () { unreachable!("nothing runs") };
    let error = hunt(&settings, never, |(), _| Reply::Done).unwrap_err();
    let text = format!(
        "run 0 didn't begin, since {} couldn't be written: No space left on device",
        file.display()
    );
    assert!(error.to_string().starts_with(&text), "{error}");
    fs::remove_dir_all(folder).unwrap();
}

#[test]
fn settings_out_of_bounds_are_refused_by_name() {
    fn refused<K: selfcheck::hunt::Scripted>(settings: Settings<K>) -> String {
        let never = || -> () { unreachable!("nothing runs") };
        hunt(&settings, never, |_, _| Reply::Done)
            .unwrap_err()
            .to_string()
    }
    let queue = Settings::<Queue>::new;
    let texts = [
        refused(queue().callers(0)),
        refused(queue().callers(17)),
        refused(queue().calls(257)),
        refused(queue().weights(&[1, 1, 1])),
        refused(queue().weights(&[0, 0])),
        refused(queue().values(0)),
        refused(queue().runs(0)),
        refused(queue().time(Duration::ZERO)),
        refused(queue().change_points(0)),
        refused(queue().at_most_more_puts(0)),
        refused(queue().weights(&[1, 0]).at_most_more_puts(1)),
        refused(queue().callers(1).producers_and_consumers()),
        refused(Settings::<Register>::new().at_most_more_puts(1)),
    ];
    assert_eq!(
        texts.map(|it| it.strip_prefix("the setting ").unwrap().to_owned()),
        [
            "callers is 0, and has to be 1 to 16",
            "callers is 17, and has to be 1 to 16",
            "calls is 257, and has to be 1 to 256",
            "weights is [1, 1, 1], and has to be 2 numbers, not all 0",
            "weights is [0, 0], and has to be 2 numbers, not all 0",
            "values is 0, and has to be at least 1",
            "runs is 0, and has to be at least 1",
            "time is 0, and has to be more than 0",
            "change_points is 0, and has to be 1 to 1000",
            "at_most_more_puts is 0, and has to be at least 1",
            "weights is [1, 0], and has to be more than 0 for puts and for takes",
            "callers is 1, and has to be 2 to 16",
            "at_most_more_puts is said, and has to be unsaid for a kind without puts and takes",
        ]
    );
    let text = "no run is named by '3 calls 0.x turns', \
                as '412' or '412 calls 0.1 2.0 turns 1*1 2*5' does";
    let error = replay(&queue(), "3 calls 0.x turns", || (), |(), _| Reply::Done).unwrap_err();
    assert_eq!(error.to_string(), text);
}

#[test]
fn a_hunt_goes_on_after_a_panic() {
    // panics where the value is 1, and is torn otherwise
    let call = |number: &AtomicU32, op| {
        assert_ne!(number.load(SeqCst), 1, "never one");
        torn(number, op)
    };
    let settings = Settings::<Counter>::new().calls(1).runs(500);
    let stops = hunt(&settings, || AtomicU32::new(0), call).unwrap();
    let Some(Found::Ended(Ending::Panicked(panic))) = stops.finding().map(|it| it.found().clone())
    else {
        panic!("{stops}")
    };
    assert!(panic.place().starts_with("tests/hunts.rs:"), "{panic}");
    assert!(panic.message().contains("never one"), "{panic}");
    let goes_on = hunt(&settings.after_panics(), || AtomicU32::new(0), call).unwrap();
    assert_eq!(goes_on.panics().len(), 1);
    assert_eq!(
        goes_on.finding().map(|it| it.found().clone()),
        Some(Found::Illegal)
    );
}

#[test]
fn a_panic_of_what_makes_the_object_is_told() {
    let settings = Settings::<Counter>::new();
    let hunted = hunt(
        &settings,
        || -> () { panic!("none today") },
        |_, _| Reply::Done,
    )
    .unwrap();
    let text = hunted.to_string();
    assert!(
        text.starts_with("panic\nmain panicked at tests/hunts.rs:"),
        "{text}"
    );
    assert!(text.contains(": none today\n"), "{text}");
}

#[test]
fn a_thread_that_waits_elsewhere_is_told() {
    let lock = std::sync::Arc::new(std::sync::Mutex::new(()));
    let own = std::sync::Arc::clone(&lock);
    let held = lock.lock().unwrap();
    for settings in [Settings::<Register>::new(), Settings::new().real_threads()] {
        let settings = settings
            .callers(1)
            .weights(&[0, 1])
            .patience(Duration::from_millis(300));
        let own = own.clone();
        let hunted = hunt(
            &settings,
            move || own.clone(),
            |own, _| {
                drop(own.lock());
                Reply::Value(0)
            },
        );
        let hunted = hunted.unwrap();
        let finding = hunted.finding().unwrap();
        let Found::Ended(Ending::Stuck(waiter)) = finding.found() else {
            panic!("{hunted}")
        };
        assert_eq!(waiter.call(), Some(0));
    }
    drop(held);
}

#[test]
fn real_threads_hunt_too() {
    // what is wrong shows under any schedule
    let settings = Settings::<Queue>::new().real_threads().runs(1000).seed(9);
    let make = || std::sync::Mutex::new(Vec::new());
    let call = |values: &std::sync::Mutex<Vec<u32>>, op| match op {
        QueueOp::Enq(value) => {
            values.lock().unwrap().push(value);
            Reply::Done
        }
        QueueOp::Deq => Reply::from(values.lock().unwrap().pop()),
    };
    let hunted = hunt(&settings, make, call).unwrap();
    let finding = hunted.finding().unwrap();
    assert_eq!(finding.found(), &Found::Illegal);
    assert!(!finding.repeats());
    assert!(finding.small_book().unwrap().calls() <= finding.trial().book().unwrap().calls());
    let right = |values: &std::sync::Mutex<VecDeque<u32>>, op| match op {
        QueueOp::Enq(value) => {
            values.lock().unwrap().push_back(value);
            Reply::Done
        }
        QueueOp::Deq => Reply::from(values.lock().unwrap().pop_front()),
    };
    let quiet = hunt(&settings, std::sync::Mutex::default, right).unwrap();
    assert!(quiet.finding().is_none(), "{quiet}");
    assert_eq!(quiet.runs(), 1000);
}

#[test]
fn values_are_different_where_nothing_is_said() {
    let settings = Settings::<Queue>::new()
        .callers(4)
        .calls(20)
        .weights(&[1, 0]);
    let trial = replay(
        &settings,
        "3",
        Mutex::default,
        |values: &Mutex<Vec<u32>>, op| {
            if let QueueOp::Enq(value) = op {
                values.lock().unwrap().push(value);
            }
            Reply::Done
        },
    );
    let trial = trial.unwrap();
    let values: std::collections::BTreeSet<_> = (trial.script().callers().flatten())
        .map(|op| match op {
            QueueOp::Enq(value) => value,
            QueueOp::Deq => panic!("its weight is 0"),
        })
        .collect();
    assert_eq!(values.len(), 80);
}

#[test]
fn scripts_keep_their_rules() {
    for run in 0..50 {
        let settings = Settings::<Queue>::new().calls(9).at_most_more_puts(2);
        let nothing = |_: &(), _| Reply::None;
        let trial = replay(&settings, &run.to_string(), || (), nothing).unwrap();
        for calls in trial.script().callers() {
            let mut inside = 0_i32;
            for op in calls {
                inside += if matches!(op, QueueOp::Deq) { -1 } else { 1 };
                assert!((0..=2).contains(&inside));
            }
        }
        let settings = Settings::<Queue>::new()
            .callers(5)
            .producers_and_consumers();
        let trial = replay(&settings, &run.to_string(), || (), nothing).unwrap();
        let ops: Vec<_> = trial.script().callers().flatten().collect();
        assert_eq!(
            ops.iter().filter(|it| matches!(it, QueueOp::Deq)).count(),
            12
        );
        assert_eq!(ops.len(), 24);
    }
}

#[test]
fn new_threads_have_new_locals() {
    thread_local! {
        static CALLS: std::cell::Cell<u32> = const { std::cell::Cell::new(0) };
    }
    // right only where the thread has made no calls before
    let call = |number: &AtomicU32, _| {
        let calls = CALLS.replace(CALLS.get() + 1);
        Reply::Value(number.fetch_add(1, SeqCst) + calls)
    };
    let settings = Settings::<Counter>::new().calls(1).runs(20);
    let kept = hunt(&settings, || AtomicU32::new(0), call).unwrap();
    assert_eq!(
        kept.finding().map(|it| it.found().clone()),
        Some(Found::Illegal)
    );
    let new = hunt(&settings.new_threads(), || AtomicU32::new(0), call).unwrap();
    assert!(new.finding().is_none(), "{new}");
}
