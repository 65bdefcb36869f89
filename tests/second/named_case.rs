//! A named case: what document 01 says in words, the call, and the whole result that 01 gives it.
//! The result is complete: what a case does not speak of stays as it came (table, later bytes of the buffers)
//! or is zero (the cancel list). So a case cannot pass by leaving something out.

use super::bytes::{bytes, hex, hex_byte, joined, number, only, Words};
use super::table::Table;
use super::text::{Fault, Line};
use crate::build;
use crate::protocol::{Case, Outcome};
use std::collections::{HashMap, HashSet};

pub struct Named {
    pub name: String,
    pub case: Case,
    pub expected: Outcome,
}

/// The application identifier of S6a and S6d.
const S6A: u32 = 16_777_251;
/// Identifiers of a request that does not give its own.
const HOP: u32 = 0x0102_0304;
const END: u32 = 0x0A0B_0C0D;
/// Buffers are longer than 01 asks, so that "later bytes stay" is seen.
const ANSWER_BUFFER: u32 = 4_400;
const CANCEL_BUFFER: u32 = 150;
const ENTRY: usize = 68;

/// What the lines of one case say, the table before the call and what is expected of it apart.
struct Draft<'l> {
    said: bool,
    table: Table,
    host: Vec<u8>,
    realm: Vec<u8>,
    answer: Vec<u8>,
    cancel: Vec<u8>,
    calls: Vec<&'l Line>,
    expects: Vec<&'l Line>,
}

/// Bytes that no call writes by chance: each differs from its neighbours.
fn buffer(size: u32) -> Vec<u8> {
    (0..size).map(|i| (i % 251) as u8 ^ 0xA5).collect()
}

/// All cases of a file, in its order.
pub fn read<'a>(words: &mut Words<'a>, lines: &[Line]) -> Result<Vec<Named>, Fault> {
    let mut names = HashSet::new();
    let mut cases = Vec::new();
    for line in lines {
        let name = match line.words.as_slice() {
            [_, name] => name.clone(),
            _ => return line.fault("`usual COMMAND`, `answer NAME` or `case NAME`"),
        };
        match line.first() {
            "usual" => drop(words.usual.insert(name, line.below.clone())),
            "answer" => drop(words.answers.insert(name, line.below.clone())),
            "case" if !names.insert(name.clone()) => return line.fault("a second case of this name"),
            "case" => cases.push(named(words, name, line).map_err(|fault| fault.at(line))?),
            _ => return line.fault("`usual COMMAND`, `answer NAME` or `case NAME`"),
        }
    }
    Ok(cases)
}

fn named(words: &Words, name: String, line: &Line) -> Result<Named, Fault> {
    let mut draft = Draft {
        said: false,
        table: Table::default(),
        host: b"hss.example".to_vec(),
        realm: b"example".to_vec(),
        answer: buffer(ANSWER_BUFFER),
        cancel: buffer(CANCEL_BUFFER),
        calls: Vec::new(),
        expects: Vec::new(),
    };
    for part in &line.below {
        take(&mut draft, part).map_err(|fault| fault.at(part))?;
    }
    let call = match draft.calls.as_slice() {
        [call] if draft.said => *call,
        [_] => return line.fault("the case does not say in words what 01 says"),
        _ => return line.fault("a case is one request or one correction"),
    };
    let (case, expected) = match call.first() {
        "request" => request(words, &draft, call)?,
        _ => correction(&draft, call)?,
    };
    Ok(Named { name, case, expected })
}

fn take<'l>(draft: &mut Draft<'l>, line: &'l Line) -> Result<(), Fault> {
    let given = line.options(1).1;
    let size = || number(given.first().copied().unwrap_or(""));
    match line.first() {
        "01:" | "TS:" | "RFC:" | "reading" => draft.said = true,
        "record" | "records" | "set" | "table" => draft.table.take(line)?,
        "host" => draft.host = joined(&given)?,
        "realm" => draft.realm = joined(&given)?,
        "answer-buffer" => draft.answer = buffer(size()?),
        "cancel-buffer" => draft.cancel = buffer(size()?),
        "request" | "correction" => draft.calls.push(line),
        "expect" => draft.expects.push(line),
        _ => return line.fault("this means nothing in a case"),
    }
    Ok(())
}

/// The code of a command by its name or number.
fn command(word: &str) -> Result<u32, Fault> {
    match word {
        "ULR" => Ok(316),
        "PUR" => Ok(321),
        "NOR" => Ok(323),
        _ => number(word),
    }
}

/// An option as a number, or what it is without being given.
fn option(options: &HashMap<&str, &str>, key: &str, usual: u32) -> Result<u32, Fault> {
    options.get(key).map_or(Ok(usual), |text| number(text))
}

/// `cut=N` keeps the first N bytes, `add=xHEX` puts more after them.
fn ends(options: &HashMap<&str, &str>, message: &mut Vec<u8>) -> Result<(), Fault> {
    message.truncate(option(options, "cut", u32::MAX)? as usize);
    if let Some(more) = options.get("add") {
        message.extend(bytes(more)?);
    }
    Ok(())
}

/// `request COMMAND [flags=HH hop=N end=N application=N version=N length=N cut=N add=xHEX]`, the AVPs below it;
/// `request raw` has only bytes below it.
fn message(words: &Words, call: &Line) -> Result<Vec<u8>, Fault> {
    let (options, given) = call.options(1);
    only(call, &options, &["flags", "hop", "end", "application", "version", "length", "cut", "add"])?;
    let name = match given.as_slice() {
        [name] => *name,
        _ => return call.fault("`request COMMAND ..`"),
    };
    if name == "raw" {
        return words.list(&call.below);
    }
    let flags = options.get("flags").map_or(Ok(0xC0), |text| hex_byte(text))?;
    let avps = words.request_list(name, &call.below)?;
    let application = option(&options, "application", S6A)?;
    let (hop, end) = (option(&options, "hop", HOP)?, option(&options, "end", END)?);
    let mut message = build::message(flags, command(name)?, application, hop, end, &avps);
    message[0] = option(&options, "version", 1)? as u8;
    let length = option(&options, "length", message.len() as u32)?;
    message[1..4].copy_from_slice(&length.to_be_bytes()[1..]);
    ends(&options, &mut message)?;
    Ok(message)
}

fn request(words: &Words, draft: &Draft, call: &Line) -> Result<(Case, Outcome), Fault> {
    let table = draft.table.bytes()?;
    let case = Case::Request {
        table: table.clone(),
        request: message(words, call)?,
        host: draft.host.clone(),
        realm: draft.realm.clone(),
        answer: draft.answer.clone(),
        cancel: draft.cancel.clone(),
    };
    let number = refusal(draft)?;
    if number != 0 {
        let (answer, cancel) = (draft.answer.clone(), draft.cancel.clone());
        return Ok((case, Outcome::Request { number, length: 0, table, answer, cancel }));
    }
    let bytes = answer(words, draft, call)?;
    if bytes.len() > draft.answer.len() || draft.cancel.len() < 2 * ENTRY {
        return call.fault("an answer is expected in a buffer that cannot hold it");
    }
    let mut answer = draft.answer.clone();
    answer[..bytes.len()].copy_from_slice(&bytes);
    let mut cancel = draft.cancel.clone();
    cancel[..2 * ENTRY].copy_from_slice(&entries(draft)?);
    let table = after(draft)?.bytes()?;
    Ok((case, Outcome::Request { number, length: bytes.len() as u32, table, answer, cancel }))
}

/// The lines `expect WHAT ..`.
fn expected<'l>(draft: &Draft<'l>, what: &str) -> Vec<&'l Line> {
    let is = |line: &&&Line| line.words.get(1).map_or(false, |word| word == what);
    draft.expects.iter().filter(is).copied().collect()
}

/// `expect number N`, alone if N is not 0: then everything stays as it came. Without it the number is 0.
fn refusal(draft: &Draft) -> Result<u32, Fault> {
    const KNOWN: [&str; 6] = ["number", "answer", "bytes", "length", "entry", "record"];
    for line in &draft.expects {
        if !KNOWN.contains(&line.words.get(1).map_or("", |word| word.as_str())) {
            return line.fault("nothing of this kind can be expected");
        }
    }
    let line = match expected(draft, "number").as_slice() {
        [] => return Ok(0),
        [line] => *line,
        [_, second, ..] => return second.fault("a second number"),
    };
    let number = number(line.words.get(2).map_or("", |word| word.as_str()))?;
    if number != 0 && draft.expects.len() != 1 {
        return line.fault("after a refusal there is nothing more to expect");
    }
    Ok(number)
}

/// The answer's bytes from `expect answer ..`, from `expect bytes`, or from both, which must agree.
fn answer(words: &Words, draft: &Draft, call: &Line) -> Result<Vec<u8>, Fault> {
    let mut forms = Vec::new();
    for line in expected(draft, "answer") {
        forms.push(described(words, call, line).map_err(|fault| fault.at(line))?);
    }
    for line in expected(draft, "bytes") {
        forms.push(line.below.iter().map(|row| hex(&row.words.concat())).collect::<Result<Vec<_>, _>>()?.concat());
    }
    let bytes = match forms.as_slice() {
        [] => return call.fault("the case expects no answer and no number"),
        [first, others @ ..] if others.iter().all(|other| other == first) => first.clone(),
        _ => return call.fault("the answers expected here differ from each other"),
    };
    for line in expected(draft, "length") {
        if number(line.words.get(2).map_or("", |word| word.as_str()))? as usize != bytes.len() {
            return line.fault(&format!("the answer expected here has {} bytes", bytes.len()));
        }
    }
    Ok(bytes)
}

/// `expect answer [NAME WORD ..] [flags=HH command=N application=N hop=N end=N]`: the named beginning, its `$1`, `$2`
/// replaced by the words, then the AVPs below the line. Header fields are those of the request line, the flags P.
fn described(words: &Words, call: &Line, line: &Line) -> Result<Vec<u8>, Fault> {
    let (options, given) = line.options(2);
    only(line, &options, &["flags", "command", "application", "hop", "end"])?;
    let mut lines = Vec::new();
    if let [name, fills @ ..] = given.as_slice() {
        match words.answers.get(*name) {
            Some(beginning) => lines = beginning.iter().map(|row| row.filled(fills)).collect::<Result<_, _>>()?,
            None => return line.fault("no beginning of an answer has this name"),
        }
    }
    lines.extend(line.below.iter().cloned());
    let (asked, of) = call.options(1);
    let header = |key: &str, usual: u32| option(&options, key, option(&asked, key, usual)?);
    let flags = options.get("flags").map_or(Ok(0x40), |text| hex_byte(text))?;
    let command = match options.get("command") {
        Some(text) => number(text)?,
        None => command(of.first().copied().unwrap_or(""))?,
    };
    let avps = words.list(&lines)?;
    Ok(build::message(flags, command, header("application", S6A)?, header("hop", HOP)?, header("end", END)?, &avps))
}

/// The 136 bytes of the cancel list: `expect entry KIND TYPE "name"` in order, the rest zero.
fn entries(draft: &Draft) -> Result<Vec<u8>, Fault> {
    let mut list = Vec::new();
    for line in expected(draft, "entry") {
        let (kind, class, name) = match line.options(2).1.as_slice() {
            [kind, class, name] => (number(kind)?, number(class)?, bytes(name)?),
            _ => return line.fault("`expect entry KIND TYPE \"name\"`"),
        };
        list.extend([kind as u8, class as u8, name.len() as u8, 0]);
        list.extend(&name);
        list.resize((list.len() + ENTRY - 1) / ENTRY * ENTRY, 0);
    }
    list.resize(2 * ENTRY, 0);
    Ok(list)
}

fn after(draft: &Draft) -> Result<Table, Fault> {
    let mut table = draft.table.clone();
    for line in expected(draft, "record") {
        table.changed(line, 2).map_err(|fault| fault.at(line))?;
    }
    Ok(table)
}

/// `correction kind=K imsi=DIGITS seen=N [field=xHEX] [version=N length=N cut=N add=xHEX] VALUE`, `field=` in the
/// place of the IMSI's 16 bytes; `correction raw xHEX`. What is expected is a number and records.
fn correction(draft: &Draft, call: &Line) -> Result<(Case, Outcome), Fault> {
    let table = draft.table.bytes()?;
    let number = refusal(draft)?;
    let spoken = draft.expects.iter().map(|line| line.words[1].as_str());
    if expected(draft, "number").is_empty() || spoken.into_iter().any(|what| what != "number" && what != "record") {
        return call.fault("of a correction a number is expected, and records");
    }
    let case = Case::Correction { table, frame: frame(call)? };
    Ok((case, Outcome::Correction { number, table: after(draft)?.bytes()? }))
}

fn frame(call: &Line) -> Result<Vec<u8>, Fault> {
    let (options, given) = call.options(1);
    only(call, &options, &["kind", "imsi", "field", "seen", "version", "length", "cut", "add"])?;
    if let ["raw", rest @ ..] = given.as_slice() {
        return joined(rest);
    }
    let mut imsi = build::imsi_field(options.get("imsi").copied().unwrap_or(""));
    if let Some(field) = options.get("field") {
        match <[u8; 16]>::try_from(bytes(field)?) {
            Ok(field) => imsi = field,
            Err(_) => return call.fault("`field=` takes 16 bytes"),
        }
    }
    let (kind, seen) = (option(&options, "kind", 0)? as u8, option(&options, "seen", 0)?);
    let mut frame = build::correction(kind, &imsi, seen, &joined(&given)?);
    frame[2] = option(&options, "version", 1)? as u8;
    let length = option(&options, "length", frame.len() as u32)?;
    frame[0..2].copy_from_slice(&length.to_be_bytes()[2..]);
    ends(&options, &mut frame)?;
    Ok(frame)
}
