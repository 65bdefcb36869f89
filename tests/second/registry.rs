//! The registry's two calls as document 01 states them: "Refusals without an answer", then the answer, the table and
//! the list that every other request leaves; and corrections.

use crate::answer::{self, Answer, Code};
use crate::correction;
use crate::dictionary::Dictionary;
use crate::procedures::{self, Done};
use crate::protocol::{Case, Outcome};
use crate::reader::{Header, R};
use crate::request::{self, Accepted, Command, Echo};
use crate::table;
use std::ops::RangeInclusive;

// "Sizes": "Request 20 to 4,096 bytes. Answer buffer at least 4,352 bytes .. Cancel buffer at least 136."
const REQUEST: RangeInclusive<usize> = 20..=4096;
const ANSWER: usize = 4352;
const CANCEL: usize = 136;
// "Own host and realm 1 to 64 bytes each."
const OWN_NAME: RangeInclusive<usize> = 1..=64;

pub struct Judged {
    pub outcome: Outcome,
    /// Rows of the tally.
    pub notes: Vec<String>,
}

/// What is lent to one request call.
pub struct Call<'a> {
    pub table: &'a mut [u8],
    pub request: &'a [u8],
    pub host: &'a [u8],
    pub realm: &'a [u8],
    pub answer: &'a mut [u8],
    pub cancel: &'a mut [u8],
}

/// What a request comes to, beside the bytes left in the buffers.
#[derive(Clone, Copy, PartialEq, Eq, Debug)]
pub enum Reply {
    Refused(u32),
    Answered { code: Code, length: usize, entries: usize },
}

/// The outcome of a case, and the rows of the tally that it belongs to.
pub fn judge(dictionary: &Dictionary, case: &Case) -> Judged {
    let mut notes = Vec::new();
    let outcome = match case {
        Case::Request { table, request, host, realm, answer, cancel } => {
            let (mut table, mut answer, mut cancel) = (table.clone(), answer.clone(), cancel.clone());
            let call = Call { table: &mut table, request, host, realm, answer: &mut answer, cancel: &mut cancel };
            let (number, length) = match answer_request(dictionary, call, &mut notes) {
                Reply::Refused(number) => (number, 0),
                Reply::Answered { length, .. } => (0, length as u32),
            };
            Outcome::Request { number, length, table, answer, cancel }
        }
        Case::Correction { table, frame } => {
            let mut table = table.clone();
            let number = correction::correct(&mut table, frame, &mut notes);
            Outcome::Correction { number, table }
        }
    };
    Judged { outcome, notes }
}

/// One request. "the answer length is 0 and all buffers stay as they came" where it is refused without an answer.
pub fn answer_request(dictionary: &Dictionary, call: Call, notes: &mut Vec<String>) -> Reply {
    match refusal_without_answer(&call) {
        Some((number, note)) => {
            if number == 4 {
                notes.extend(table::broken_rule(call.table).map(|rule| format!("table {rule}")));
            }
            notes.push(note.to_string());
            Reply::Refused(number)
        }
        None => answered(dictionary, call, notes),
    }
}

/// "Tested in this order"
fn refusal_without_answer(call: &Call) -> Option<(u32, &'static str)> {
    if call.answer.len() < ANSWER {
        // "3 | answer or cancel buffer too short"
        Some((3, "refused 3 answer"))
    } else if call.cancel.len() < CANCEL {
        Some((3, "refused 3 cancel"))
    } else if !OWN_NAME.contains(&call.host.len()) {
        // "5 | own host or realm: size or a byte that is no name byte"
        Some((5, "refused 5 host size"))
    } else if !call.host.iter().all(table::name_byte) {
        Some((5, "refused 5 host byte"))
    } else if !OWN_NAME.contains(&call.realm.len()) {
        Some((5, "refused 5 realm size"))
    } else if !call.realm.iter().all(table::name_byte) {
        Some((5, "refused 5 realm byte"))
    } else if table::broken_rule(call.table).is_some() {
        // "4 | table not valid"
        Some((4, "refused 4"))
    } else if call.request.len() < *REQUEST.start() {
        // "1 | request under 20 or over 4,096 bytes"
        Some((1, "refused 1 short"))
    } else if call.request.len() > *REQUEST.end() {
        Some((1, "refused 1 long"))
    } else if Header::read(call.request).flags & R == 0 {
        // "2 | R bit clear"
        Some((2, "refused 2"))
    } else {
        None
    }
}

/// What follows from a request that is answered.
struct Verdict {
    code: Code,
    failed: Option<Vec<u8>>,
    success: Vec<u8>,
    done: Done,
}

impl Verdict {
    fn refused(code: Code, failed: Option<Vec<u8>>) -> Verdict {
        Verdict { code, failed, success: Vec::new(), done: Done::default() }
    }
}

fn answered(dictionary: &Dictionary, call: Call, notes: &mut Vec<String>) -> Reply {
    let (echo, read) = request::read(dictionary, call.request);
    let verdict = match read {
        Ok(accepted) => carried_out(dictionary, call.table, &accepted, notes),
        // "Refusals with an answer .. The table is unchanged."
        Err(refusal) => {
            notes.push(refusal.note);
            Verdict::refused(Code::Result(refusal.code), refusal.failed)
        }
    };
    note_echo(&echo, notes);
    let header = Header::read(call.request);
    let Verdict { code, failed, success, done } = verdict;
    let bytes = Answer { dictionary, header, echo, code, host: call.host, realm: call.realm, failed, success }.bytes();
    // "Later bytes of the buffer stay."
    call.answer[..bytes.len()].copy_from_slice(&bytes);
    // "Every answered request writes all 136 bytes; later bytes stay."
    call.cancel[..CANCEL].copy_from_slice(&procedures::cancel_entries(&done.entries));
    Reply::Answered { code, length: bytes.len(), entries: done.entries.len() }
}

fn note_echo(echo: &Echo, notes: &mut Vec<String>) {
    if !echo.proxy_infos.is_empty() {
        notes.push("Proxy-Info copied".to_string());
    }
}

/// An accepted request meets its record: an Experimental-Result, or success and its effects.
fn carried_out(dictionary: &Dictionary, table: &mut [u8], request: &Accepted, notes: &mut Vec<String>) -> Verdict {
    let place = table::find(table, &request.imsi);
    if let Some(refused) = procedures::refused(request, place.clone().map(|place| &table[place])) {
        notes.push(refused.note);
        return Verdict::refused(Code::Experimental(refused.code), None);
    }
    // Without a place the request was refused above.
    let record = &mut table[place.unwrap_or(0..0)];
    let done = procedures::carry_out(request, record);
    notes.extend(done.notes.iter().cloned());
    let success = success_avps(dictionary, request, record, &done, notes);
    Verdict { code: Code::Result(2001), failed: None, success, done }
}

/// "on success ULA-Flags 1, and Subscription-Data unless skipped, or PUA-Flags"
fn success_avps(
    dictionary: &Dictionary,
    request: &Accepted,
    record: &[u8],
    done: &Done,
    notes: &mut Vec<String>,
) -> Vec<u8> {
    match request.command {
        Command::Ulr if request.skips_subscriber_data() => {
            notes.push("subscription data skipped".to_string());
            answer::ula_flags(dictionary)
        }
        Command::Ulr => {
            let with = if answer::has_restriction(record) { "with" } else { "without" };
            notes.push(format!("subscription data {with} restriction"));
            [answer::ula_flags(dictionary), answer::subscription_data(dictionary, record)].concat()
        }
        Command::Pur => answer::pua_flags(dictionary, done.purged),
        Command::Nor => Vec::new(),
    }
}
