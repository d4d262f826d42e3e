//! Texts of any origin: the books of `examples/`, texts with faults, and texts that end early.

use selfcheck::{Fault, Verdict, What, certify, explain, order, verify, verify_within};
use std::fmt::Write;
use std::fs;
use std::path::Path;

/// The verdicts that `docs/FORMATS.md` and `README.md` tell of these books.
#[test]
fn the_examples_have_their_verdicts() {
    let folder = Path::new(env!("CARGO_MANIFEST_DIR")).join("../../examples");
    for (name, verdict) in [
        ("lost-value", Verdict::Illegal),
        ("lost-increment", Verdict::Illegal),
        ("overlapping-calls", Verdict::Legal),
        ("one-caller-legal", Verdict::Legal),
    ] {
        let book = fs::read(folder.join(name).with_extension("book")).unwrap();
        assert_eq!(verify(&book), Ok(verdict), "{name}");
        let certificate = certify(&book).unwrap();
        assert_eq!(certificate.is_some(), verdict == Verdict::Legal, "{name}");
        if let Some(certificate) = certificate {
            assert_eq!(order(certificate), Ok(Verdict::Legal), "{name}");
        }
    }
}

/// The worked books that are explained in `crates/witness_tool/cases`, each with its line.
#[test]
fn books_are_explained_as_their_cases_say() {
    let file = Path::new(env!("CARGO_MANIFEST_DIR")).join("../../crates/witness_tool/cases");
    let cases = fs::read_to_string(file).unwrap();
    let explained = cases
        .split("\nargs ")
        .find(|group| group.starts_with("explain\n"))
        .unwrap();
    let lines_of = |case: &str, word: &str| {
        case.lines()
            .filter_map(|line| line.strip_prefix(word))
            .fold(String::new(), |text, line| text + line + "\n")
    };
    let mut tried = 0;
    for case in explained.split("\ncase ").skip(1) {
        let (book, line) = (lines_of(case, "in "), lines_of(case, "out "));
        let line = (line != "no rule of these is broken\n").then_some(line);
        assert_eq!(explain(&book), Ok(line), "{case}");
        tried += 1;
    }
    assert!(tried > 20, "{tried}");
}

fn refused(line: u64, what: What) -> Fault {
    Fault::Refused { line, what }
}

#[test]
fn a_text_is_refused_for_its_first_fault() {
    let begun = "book 2\nobject queue\ncallers 2\ncalls 1 2\n";
    for (text, line, what) in [
        (String::new(), 1, What::Cut),
        ("book 2".into(), 1, What::Cut),
        ("book 3\n".into(), 1, What::Head),
        ("book 2\nobject heap\n".into(), 2, What::Object),
        (
            "book 2\nobject queue\ncallers 17\n".into(),
            3,
            What::Callers,
        ),
        (
            "book 2\nobject queue\ncallers 1\ncalls 257\n".into(),
            4,
            What::Calls,
        ),
        (format!("{begun}1 0 deq\n"), 5, What::Place),
        (format!("{begun}0 0 pop\n"), 5, What::Op),
        (format!("{begun}0 0 deq gone view 0:1\n"), 5, What::Reply),
        (format!("{begun}0 0 deq none view 1:0\n"), 5, What::View),
        (
            format!("{begun}0 0 deq none view 0:2\n"),
            5,
            What::ViewOutside,
        ),
        (
            format!("{begun}0 0 deq none view 1:1\n"),
            5,
            What::ViewLacksOwn,
        ),
        (
            format!("{begun}0 0 deq\n1 0 deq none view 1:2\n"),
            6,
            What::ViewHasLater,
        ),
        (
            format!("{begun}0 0 deq\n1 0 deq\n1 1 deq none view 1:2\n"),
            7,
            What::Gap,
        ),
        (
            format!("{begun}0 0 deq none view 0:1\n1 0 deq none view 1:1\n"),
            6,
            What::ViewsCross,
        ),
        (
            format!("{begun}0 0 deq\n1 0 deq\n1 1 deq\nends\n"),
            8,
            What::End,
        ),
        (
            format!("{begun}0 0 deq\n1 0 deq\n1 1 deq\nend\nend\n"),
            9,
            What::Rest,
        ),
    ] {
        assert_eq!(verify(&text), Err(refused(line, what)), "{text}");
        assert_eq!(certify(&text), Err(refused(line, what)), "{text}");
    }
    assert_eq!(
        refused(5, What::ViewOutside).to_string(),
        "refused 5 ViewOutside"
    );
}

#[test]
fn a_certificate_is_refused_for_its_first_fault() {
    let book = "book 2\nobject queue\ncallers 1\ncalls 1\n0 0 deq none view 0:1\nend\n";
    assert_eq!(
        order(format!("{book}order 2\n0 0 none\nend\n")),
        Ok(Verdict::Legal)
    );
    assert_eq!(order(format!("{book}order 2\nend\n")), Ok(Verdict::Illegal));
    assert_eq!(order(book), Err(refused(7, What::Cut)));
    assert_eq!(
        order(format!("{book}order 1\n")),
        Err(refused(7, What::Head))
    );
    assert_eq!(
        order(format!("{book}order 2\nnone\n")),
        Err(refused(8, What::Place))
    );
    assert_eq!(
        order(format!("{book}order 2\n0 0 gone\n")),
        Err(refused(8, What::Reply))
    );
}

/// Each text that begins a book's is refused, and where it ends between two lines for the line that is due.
#[test]
fn what_ends_early_is_cut() {
    let book = "book 2\nobject queue\ncallers 1\ncalls 1\n0 0 deq none view 0:1\nend\n";
    for length in 0..book.len() {
        let lines = book[..length].matches('\n').count() as u64;
        assert_eq!(verify(&book[..length]), Err(refused(lines + 1, What::Cut)));
    }
}

/// Eight callers write to a register, each another value, and a ninth one reads this value, all at once.
fn written_and_read(value: u32) -> String {
    let view: String = (0..9).map(|caller| format!(" {caller}:1")).collect();
    let mut book = format!(
        "book 2\nobject casreg\ncallers 9\ncalls{}\n",
        " 1".repeat(9)
    );
    for caller in 0..8 {
        writeln!(book, "{caller} 0 write {caller} done view{view}").unwrap();
    }
    book + &format!("8 0 read ={value} view{view}\nend\n")
}

/// An order of nine calls takes nine steps, and before it is known that nobody wrote what is read, each of the 256 sets of
/// writes is tried.
#[test]
fn a_search_with_a_limit_says_what_one_without_says_or_nothing() {
    for (value, verdict, few) in [(7, Verdict::Legal, 8), (8, Verdict::Illegal, 255)] {
        let book = written_and_read(value);
        for steps in [0, few] {
            assert_eq!(verify_within(&book, steps), Ok(Verdict::Unknown), "{steps}");
        }
        for steps in [1_000_000, u64::MAX] {
            assert_eq!(verify_within(&book, steps), Ok(verdict), "{steps}");
        }
        assert_eq!(verify(&book), Ok(verdict));
    }
    assert_eq!(verify_within("", 0), Err(refused(1, What::Cut)));
}
