//! The texts of verdicts, replies and errors. No two numbers of an error are equal.

use selfcheck::{
    CallError, CallerError, Fault, Incomplete, JudgeError, NotMade, OpenError, Queue, Reply,
    Verdict, What,
};

const NONE_LEFT: &str = "the table has no further call: open it for more callers, up to 16, or for more calls, up to 256 each";

type Call = CallError<Queue>;
type Judge = JudgeError<Queue>;

#[test]
fn what_a_text_is_told() {
    assert_eq!(Verdict::Legal.to_string(), "legal");
    assert_eq!(Verdict::Illegal.to_string(), "illegal");
    let refused = Fault::Refused {
        line: 12,
        what: What::Gap,
    };
    assert_eq!(refused.to_string(), "refused 12 Gap");
    assert_eq!(Fault::NoMemory.to_string(), "out of memory");
}

#[test]
fn what_the_owner_of_a_table_is_told() {
    for (error, text) in [
        (
            OpenError::NoSuchTable,
            "a table has 1 to 16 callers, with 1 to 256 calls each",
        ),
        (OpenError::NoMemory, "out of memory"),
    ] {
        assert_eq!(error.to_string(), text);
    }
    for (error, text) in [
        (
            CallerError::NoneLeft,
            "the table has given all its callers: open it for more, up to 16",
        ),
        (CallerError::NoMemory, "out of memory"),
    ] {
        assert_eq!(error.to_string(), text);
    }
}

#[test]
fn what_a_caller_is_told() {
    for (error, text) in [
        (Call::IllegalUntold, "the calls have no legal order"),
        (
            Call::Unjudged(Reply::Value(5)),
            "out of memory: =5 isn't checked",
        ),
    ] {
        assert_eq!(error.to_string(), text);
    }
    for (error, text) in [
        (NotMade::NoCallLeft, NONE_LEFT),
        (NotMade::Halted, "the caller is halted"),
        (NotMade::NoMemory, "out of memory: no call is made"),
    ] {
        assert_eq!(error.to_string(), text);
        assert_eq!(Call::from(error).to_string(), text);
    }
}

#[test]
fn what_the_owner_of_a_monitor_is_told() {
    assert_eq!(
        Judge::IllegalUntold.to_string(),
        "the calls have no legal order"
    );
    assert_eq!(
        Judge::NoMemory.to_string(),
        "out of memory: nothing is judged"
    );
}

#[test]
fn what_the_owner_of_a_recorder_is_told() {
    for (incomplete, text) in [
        (Incomplete::InUse { caller: 3 }, "caller 3 is still in use"),
        (
            Incomplete::TooLong {
                kept: 4000,
                left_out: 7,
            },
            "a book has 16 callers with 256 calls each: the first 4000 calls fit, whose book `prefix` gives, and 7 don't; \
             of a set or a map `by_key` gives a book for each key",
        ),
    ] {
        assert_eq!(incomplete.to_string(), text);
    }
}
