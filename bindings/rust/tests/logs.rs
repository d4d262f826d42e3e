//! Logs of other tools: one of each format, logs with faults, and words that aren't right.

use selfcheck::logs::{Format, KeyLog, LogError, LogFault, LogWhat, LoggedCall, Reader, Role};
use selfcheck::{CasRegister, Counter, Kind, Map, Queue, Register, Verdict};

fn only<K: Kind>(mut parts: Vec<KeyLog<K>>) -> KeyLog<K> {
    assert_eq!(parts.len(), 1);
    parts.remove(0)
}

fn call(caller: u32, number: u32, line: u64, end: Option<u64>) -> LoggedCall {
    LoggedCall {
        caller,
        number,
        line,
        end,
    }
}

fn refused(line: u64, what: LogWhat) -> LogError {
    LogError::Refused(LogFault { line, what })
}

/// A lost write, whose process goes on as another caller; a failed compare-and-set; two keys.
#[test]
fn a_log_of_jepsen_has_a_book_for_each_key() {
    let log = r#"
{:process 0, :type :invoke, :f :write, :value ["x" 1]}
{:process 1, :type :invoke, :f :read, :value ["x" nil]}
{:process :nemesis, :type :info, :f :start, :value nil}
{:process 1, :type :ok, :f :read, :value ["x" 1]}
{:process 0, :type :info, :f :write, :value ["x" 1]}
{:process 2, :type :invoke, :f :cas, :value ["y" [nil 3]]}
{:process 2, :type :ok, :f :cas, :value ["y" [nil 3]]}
{:process 1, :type :invoke, :f :cas, :value ["x" [1 2]]}
{:process 1, :type :fail, :f :cas, :value ["x" [1 2]]}
{:process 0, :type :invoke, :f :read, :value ["x" nil]}
{:process 0, :type :ok, :f :read, :value ["x" 1]}
"#;
    let parts = Reader::<CasRegister>::new(Format::Jepsen)
        .keyed()
        .read(log)
        .unwrap();
    let [x, y] = &parts[..] else {
        panic!("{parts:?}")
    };
    assert_eq!((x.key(), y.key()), (Some("\"x\""), Some("\"y\"")));
    assert_eq!(x.names(), ["nil", "1"]);
    assert_eq!(y.names(), ["nil", "3"]);
    assert_eq!(
        x.calls(),
        [
            call(0, 0, 2, None),
            call(1, 0, 3, Some(5)),
            call(2, 0, 11, Some(12))
        ]
    );
    let book = x.book().unwrap();
    assert_eq!(
        book.as_str(),
        "book 2\nobject casreg\ncallers 3\ncalls 1 1 1\n0 0 write 1\n\
        1 0 read =1 view 0:1 1:1\n2 0 read =1 view 0:1 1:1 2:1\nend\n"
    );
    assert_eq!(book.verify(), Ok(Verdict::Legal));
    assert_eq!(
        x.in_words(book),
        "caller 0: write 1 (no answer)\ncaller 1: read = 1\ncaller 2: read = 1\n"
    );
    assert_eq!(y.in_words(y.book().unwrap()), "caller 0: cas nil 3 yes\n");
}

/// A queue that loses a value: the witness has the log's words.
#[test]
fn a_witness_of_json_lines_has_their_words() {
    let log = r#"{"process": "a", "type": "invoke", "f": "enqueue", "value": "x, \"y\""}
{"process": "a", "type": "ok", "f": "enqueue", "value": "x, \"y\""}
{"process": "b", "type": "invoke", "f": "enqueue", "value": 7}
{"process": "b", "type": "ok", "f": "enqueue", "value": 7}
{"process": "a", "type": "invoke", "f": "dequeue", "value": null}
{"process": "a", "type": "ok", "f": "dequeue", "value": 7}"#;
    let part = only(Reader::<Queue>::new(Format::JsonLines).read(log).unwrap());
    assert_eq!(part.key(), None);
    let book = part.book().unwrap();
    assert_eq!(book.verify(), Ok(Verdict::Illegal));
    assert_eq!(
        part.in_words(&book.smaller().unwrap().unwrap()),
        "caller 0: enq \"x, \\\"y\\\"\" done\ncaller 0: deq = 7\ncaller 1: enq 7 (no answer)\n"
    );
}

/// Calls with times, by columns and operations with names of their own; and by a clock that may be wrong.
#[test]
fn a_table_of_calls_is_ordered_by_their_times() {
    let log = "begin,done,client,op,value,reply\n10,20,p,put_it,5,\n21,30,q,read,,\n";
    let reader = Reader::<Register>::new(Format::Csv)
        .field(Role::Start, "begin")
        .field(Role::End, "done")
        .operation("put_it", "write");
    let verdict = |reader: &Reader<Register>| {
        only(reader.read(log).unwrap())
            .book()
            .unwrap()
            .verify()
            .unwrap()
    };
    assert_eq!(verdict(&reader), Verdict::Illegal);
    assert_eq!(verdict(&reader.clone().error(1)), Verdict::Legal);
    // with the value 5 at first no order is wrong
    let began = "start,end,op,value,reply\n1,2,read,,5\n";
    let part = only(
        Reader::<Register>::new(Format::Csv)
            .initial("5")
            .read(began)
            .unwrap(),
    );
    assert_eq!(part.names(), ["5"]);
    assert_eq!(part.book().unwrap().verify(), Ok(Verdict::Legal));
}

#[test]
fn a_log_is_refused_for_its_first_fault() {
    let reader = Reader::<Register>::new(Format::Jepsen);
    let invoked = "{:process 0, :type :invoke, :f :write, :value 5}\n";
    for (rest, line, what) in [
        ("{:process 0", 2, LogWhat::Line),
        ("{:type :ok, :f :write, :value 5}", 2, LogWhat::Process),
        ("{:process 0, :type :went, :f :write}", 2, LogWhat::Type),
        ("{:process 0, :type :ok, :value 5}", 2, LogWhat::Operation),
        (invoked, 2, LogWhat::Pending),
        ("{:process 1, :type :ok, :f :read}", 2, LogWhat::Unasked),
        (
            "{:process 1, :type :invoke, :f :enq}",
            2,
            LogWhat::Operation,
        ),
        ("{:process 1, :type :invoke, :f :write}", 2, LogWhat::Value),
    ] {
        let said = reader.read(format!("{invoked}{rest}"));
        assert_eq!(said.err(), Some(refused(line, what)), "{rest}");
    }
    assert_eq!(
        refused(2, LogWhat::Unasked).to_string(),
        "refused 2 Unasked"
    );
    let rows = Reader::<Map>::new(Format::Csv);
    assert_eq!(rows.read("").err(), Some(refused(1, LogWhat::Header)));
    assert_eq!(
        rows.read("start,end,op,key,reply\n5,4,get,k,\n").err(),
        Some(refused(2, LogWhat::Time))
    );
    assert_eq!(
        Reader::<Counter>::new(Format::Csv)
            .read("start,end,op,reply\n1,2,inc,none\n")
            .err(),
        Some(refused(2, LogWhat::Reply))
    );
}

/// More calls that are pending at once than a book has callers: the other key has its book all the same.
#[test]
fn a_key_without_a_book_leaves_the_others_theirs() {
    let mut log = String::from("start,end,process,op,key,value,reply\n");
    for process in 0..17 {
        log += &format!("1,9,{process},write,a,{process},\n");
    }
    log += "1,2,0,read,b,,\n";
    let parts = Reader::<Register>::new(Format::Csv).read(log).unwrap();
    let fault = LogFault {
        line: 18,
        what: LogWhat::TooMany,
    };
    assert_eq!(parts[0].book().err(), Some(fault));
    assert_eq!(parts[1].key(), Some("b"));
    assert_eq!(parts[1].book().unwrap().verify(), Ok(Verdict::Legal));
}

#[test]
fn words_that_are_not_right_are_told() {
    let reader = Reader::<Queue>::new(Format::Csv);
    let log = "start,end,op,value,reply\n";
    assert!(reader.read(log).is_ok());
    for wrong in [
        reader.clone().operation("offer", "push"),
        reader.clone().initial("a\n--keyed"),
    ] {
        assert_eq!(wrong.read(log).err(), Some(LogError::Unfit));
    }
}

/// The text is many times as long as the log, which has no more than numbers.
#[test]
fn a_long_text_has_its_room() {
    let mut log = String::from("start,end,process,op,reply\n");
    for call in 0..16 * 256 {
        log += &format!("{},{},{},inc,{call}\n", 2 * call, 2 * call + 1, call % 16);
    }
    let part = only(Reader::<Counter>::new(Format::Csv).read(&log).unwrap());
    let book = part.book().unwrap();
    assert_eq!((book.calls(), part.calls().len()), (4096, 4096));
    assert!(book.as_str().len() > 2 * log.len());
    assert_eq!(book.verify(), Ok(Verdict::Legal));
}
