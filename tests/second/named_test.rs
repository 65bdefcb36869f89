//! That named cases can fail: a wrong expectation, a wrong byte anywhere in a result, and a slip in the text are told.
//! Run from the repository's root, as the program itself.

use super::text::Fault;
use super::{cases_of, compared, show, text};
use crate::dictionary::Dictionary;
use crate::protocol::{write_outcome, Outcome};
use crate::registry::judge;

fn dictionary() -> Dictionary {
    Dictionary::load().expect("the dictionary is there")
}

/// The files of named cases.
fn files() -> Vec<String> {
    let entries = std::fs::read_dir("tests/cases").expect("the folder is there");
    let paths = entries.map(|entry| entry.expect("a file of it").path().to_string_lossy().into_owned());
    paths.filter(|path| path.ends_with(".txt")).collect()
}

/// How many cases of a text the second program's own results differ from.
fn differing(body: &str) -> Result<usize, Fault> {
    let dictionary = dictionary();
    let mut lines = text::load("tests/cases/usual.inc")?;
    lines.extend(text::parse("here", body)?);
    let cases = cases_of(&dictionary, &lines)?;
    let mut results = Vec::new();
    for named in &cases {
        write_outcome(&mut results, &judge(&dictionary, &named.case).outcome).expect("memory takes all bytes");
    }
    Ok(compared(&dictionary, &cases, &mut results.as_slice()).1)
}

/// A displaced MME, with these lines as what is expected.
fn displaced(expected: &[&str]) -> Result<usize, Fault> {
    let mut body = "case here\n  01: said\n  record 262011234567890 mme=\"a\"\n  request ULR\n    usual\n".to_string();
    for line in expected {
        body += &format!("  {line}\n");
    }
    differing(&body)
}

const ANSWER: &str = "expect answer ULA";
const ENTRY: &str = "expect entry 1 0 \"a\"";
const RECORD: &str = "expect record 262011234567890 mme=\"mme.visited\"";

#[test]
fn a_right_expectation_passes() {
    assert_eq!(displaced(&[ANSWER, ENTRY, RECORD]).ok(), Some(0));
}

#[test]
fn a_wrong_expectation_is_told() {
    let wrong: [&[&str]; 13] = [
        &["expect number 1"],
        &["expect answer ULA flags=00", ENTRY, RECORD],
        &["expect answer ULA hop=1", ENTRY, RECORD],
        &["expect answer ULA command=321", ENTRY, RECORD],
        &["expect answer ULA-restricted 1", ENTRY, RECORD],
        &["expect answer refused 2001", ENTRY, RECORD],
        &["expect answer experimental 5001", ENTRY, RECORD],
        &[ANSWER, RECORD],
        &[ANSWER, ENTRY],
        &[ANSWER, "expect entry 2 0 \"a\"", RECORD],
        &[ANSWER, "expect entry 1 1 \"a\"", RECORD],
        &[ANSWER, "expect entry 1 0 \"b\"", RECORD],
        &[ANSWER, ENTRY, "expect record 262011234567890 mme=\"mme.visited\" purged=1"],
    ];
    for lines in wrong {
        assert_eq!(displaced(lines).ok(), Some(1), "{lines:?}");
    }
}

#[test]
fn a_wrong_number_of_a_correction_is_told() {
    let case = "case here\n  01: said\n  record 262011\n  correction kind=1 imsi=262011 seen=7 x01\n";
    let right = "  expect number 0\n  expect record 262011 subscription=1 change=8\n";
    assert_eq!(differing(&format!("{case}{right}")).ok(), Some(0));
    assert_eq!(differing(&format!("{case}  expect number 17\n")).ok(), Some(1));
    assert_eq!(differing(&format!("{case}  expect number 0\n")).ok(), Some(1));
}

#[test]
fn a_slip_in_the_text_is_told() {
    let slips: [&[&str]; 12] = [
        &[],
        &[ENTRY, RECORD],
        &["expects number 0"],
        &["expect nothing"],
        &["expect number 1", ENTRY],
        &["expect number 1", "expect number 1"],
        &["expect answer ULB"],
        &["expect answer ULA flag=40"],
        &["expect answer refused"],
        &[ANSWER, "expect length 181"],
        &[ANSWER, "expect answer ULA-restricted 1"],
        &[ANSWER, "expect record 262011234567891 mme=\"b\""],
    ];
    for lines in slips {
        assert!(displaced(lines).is_err(), "{lines:?}");
    }
    assert!(differing("case here\n  request ULR\n    usual\n  expect number 1\n").is_err(), "nothing said in words");
    assert!(differing("case here\n  01: said\n  expect number 1\n").is_err(), "no call");
    assert!(differing("cases here\n").is_err(), "no such line");
}

fn flipped(outcome: &Outcome, place: usize) -> Option<Outcome> {
    let mut changed = outcome.clone();
    let parts: Vec<&mut Vec<u8>> = match &mut changed {
        Outcome::Request { table, answer, cancel, .. } => vec![table, answer, cancel],
        Outcome::Correction { table, .. } => vec![table],
    };
    let mut left = place;
    for part in parts {
        if left < part.len() {
            part[left] ^= 1;
            return Some(changed);
        }
        left -= part.len();
    }
    None
}

/// Every case of every file says its whole result: another byte at any place is told. Tried at every 29th.
#[test]
fn no_byte_of_a_result_is_passed_over() {
    let dictionary = dictionary();
    for file in files() {
        let lines = text::load(&file).unwrap_or_else(|fault| panic!("{fault}"));
        let cases = cases_of(&dictionary, &lines).unwrap_or_else(|fault| panic!("{fault}"));
        assert!(!cases.is_empty());
        for (start, named) in cases.iter().enumerate() {
            assert!(show::differences(&dictionary, &named.expected, &named.expected).is_empty());
            let mut place = start % 29;
            while let Some(changed) = flipped(&named.expected, place) {
                assert!(
                    !show::differences(&dictionary, &named.expected, &changed).is_empty(),
                    "{} {place}",
                    named.name
                );
                place += 29;
            }
        }
    }
}

#[test]
fn missing_and_surplus_results_are_told() {
    let dictionary = dictionary();
    let lines = text::load("tests/cases/corrections.txt").unwrap_or_else(|fault| panic!("{fault}"));
    let cases = cases_of(&dictionary, &lines).unwrap_or_else(|fault| panic!("{fault}"));
    let mut results = Vec::new();
    for named in &cases {
        write_outcome(&mut results, &named.expected).expect("memory takes all bytes");
    }
    assert_eq!(compared(&dictionary, &cases, &mut results.as_slice()).1, 0);
    assert_eq!(compared(&dictionary, &cases, &mut &results[..results.len() - 1]).1, 1);
    results.push(0);
    assert_eq!(compared(&dictionary, &cases, &mut results.as_slice()).1, 1);
}
