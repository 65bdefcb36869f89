//! Lines of a named case as bytes: values, AVPs, groups, messages. An AVP is a line
//! `NAME [KEY=VALUE ..] VALUE ..`; the lines below it are the AVPs that the group holds.
//! Values: `"text"`, `xHEX` (both may end in `*N`, said N times), a number for a 4- or 8-byte type.
//! Keys: `flags=HH` (usually M, and V with a vendor), `vendor=N`, `length=N` (the length field alone),
//! `pad=HH` (the padding's byte), `padding=no`. `avp=CODE` stands for a NAME that the dictionary lacks.

use super::text::{Fault, Line};
use crate::build;
use crate::dictionary::{Dictionary, Kind};
use std::collections::HashMap;

/// The AVPs that stand for `usual` in a request of each command, and the named beginnings of answers.
pub struct Words<'a> {
    pub dictionary: &'a Dictionary,
    pub usual: HashMap<String, Vec<Line>>,
    pub answers: HashMap<String, Vec<Line>>,
}

/// Class: a known AVP that no command uses, so `fill` changes the size of a request and nothing else.
const CLASS: u32 = 25;

/// A number, decimal or `0x` with hexadecimal digits.
pub fn number(text: &str) -> Result<u32, Fault> {
    let read = match text.strip_prefix("0x") {
        Some(digits) => u32::from_str_radix(digits, 16),
        None => text.parse::<u32>(),
    };
    read.map_err(|_| Fault::from(format!("`{text}` is not a number")))
}

pub fn hex(text: &str) -> Result<Vec<u8>, Fault> {
    let wrong = || Fault::from(format!("`{text}` is not a row of hexadecimal bytes"));
    if text.is_empty() || text.len() % 2 != 0 || !text.bytes().all(|byte| byte.is_ascii_hexdigit()) {
        return Err(wrong());
    }
    (0..text.len() / 2).map(|i| u8::from_str_radix(&text[2 * i..2 * i + 2], 16).map_err(|_| wrong())).collect()
}

pub fn hex_byte(text: &str) -> Result<u8, Fault> {
    match hex(text)?.as_slice() {
        [byte] => Ok(*byte),
        _ => Err(Fault::from(format!("`{text}` is not one hexadecimal byte"))),
    }
}

/// `"text"` or `xHEX`, said once or `*N` times; nothing for a word of another form.
fn stretch(word: &str) -> Result<Option<Vec<u8>>, Fault> {
    let (once, times) = match word.rfind('*') {
        Some(star) if !word.ends_with('"') => (&word[..star], number(&word[star + 1..])?),
        _ => (word, 1),
    };
    let quoted = once.strip_prefix('"').and_then(|rest| rest.strip_suffix('"'));
    let bytes = match (quoted, once.strip_prefix('x')) {
        (Some(text), _) => text.as_bytes().to_vec(),
        (None, Some(digits)) => hex(digits)?,
        (None, None) => return Ok(None),
    };
    Ok(Some(bytes.repeat(times as usize)))
}

/// Text or hexadecimal bytes, and no number.
pub fn bytes(word: &str) -> Result<Vec<u8>, Fault> {
    stretch(word)?.ok_or_else(|| Fault::from(format!("`{word}` is neither \"text\" nor xHEX")))
}

/// The same of several words, one after the other.
pub fn joined(given: &[&str]) -> Result<Vec<u8>, Fault> {
    let parts: Result<Vec<Vec<u8>>, Fault> = given.iter().map(|word| bytes(word)).collect();
    Ok(parts?.concat())
}

fn value(word: &str, kind: Option<Kind>) -> Result<Vec<u8>, Fault> {
    if let Some(bytes) = stretch(word)? {
        return Ok(bytes);
    }
    let number = number(word)?;
    match kind {
        Some(Kind::Eight) => Ok(u64::from(number).to_be_bytes().to_vec()),
        Some(Kind::Four) | None => Ok(number.to_be_bytes().to_vec()),
        _ => Err(Fault::from(format!("`{word}`: this AVP does not carry a number"))),
    }
}

/// Refuses a key that is not one of those listed, so that a slip of the pen is not passed over.
pub fn only(line: &Line, options: &HashMap<&str, &str>, known: &[&str]) -> Result<(), Fault> {
    match options.keys().find(|key| !known.contains(key)) {
        Some(key) => line.fault(&format!("`{key}=` means nothing here")),
        None => Ok(()),
    }
}

impl<'a> Words<'a> {
    /// Code, vendor and type of the AVP that a line names.
    fn key(&self, line: &Line, options: &HashMap<&str, &str>) -> Result<(u32, u32, Option<Kind>), Fault> {
        if let Some(code) = options.get("avp") {
            let vendor = options.get("vendor").map_or(Ok(0), |text| number(text))?;
            return Ok((number(code)?, vendor, self.dictionary.kind(vendor, number(code)?)));
        }
        let (vendor, code) = self.dictionary.key(line.first());
        let kind = self.dictionary.kind(vendor, code);
        let vendor = options.get("vendor").map_or(Ok(vendor), |text| number(text))?;
        Ok((code, vendor, kind))
    }

    fn avp(&self, line: &Line) -> Result<Vec<u8>, Fault> {
        let from = if line.first().contains('=') { 0 } else { 1 };
        let (options, given) = line.options(from);
        only(line, &options, &["avp", "vendor", "flags", "length", "pad", "padding"])?;
        let (code, vendor, kind) = self.key(line, &options)?;
        let usual = if vendor == 0 { build::M } else { build::V | build::M };
        let flags = options.get("flags").map_or(Ok(usual), |text| hex_byte(text))?;
        let mut data = Vec::new();
        for word in given {
            data.extend(value(word, kind)?);
        }
        data.extend(self.list(&line.below)?);
        let mut bytes = build::avp(code, flags, vendor, &data);
        let header = if flags & build::V != 0 { 12 } else { 8 };
        let end = header + data.len();
        if let Some(length) = options.get("length") {
            bytes[5..8].copy_from_slice(&number(length)?.to_be_bytes()[1..]);
        }
        if let Some(pad) = options.get("pad") {
            let pad = hex_byte(pad)?;
            bytes[end..].fill(pad);
        }
        match options.get("padding") {
            Some(&"no") => bytes.truncate(end),
            Some(_) => return line.fault("padding is `no` or not spoken of"),
            None => {}
        }
        Ok(bytes)
    }

    /// The AVPs of these lines one after the other; `bytes xHEX ..` stands for itself.
    pub fn list(&self, lines: &[Line]) -> Result<Vec<u8>, Fault> {
        let mut all = Vec::new();
        for line in lines {
            let part = if line.first() == "bytes" { joined(&line.options(1).1) } else { self.avp(line) };
            all.extend(part.map_err(|fault| fault.at(line))?);
        }
        Ok(all)
    }

    /// The AVPs of a request: as `list`, with `usual ..` and `fill N` beside them.
    pub fn request_list(&self, command: &str, lines: &[Line]) -> Result<Vec<u8>, Fault> {
        let mut all = Vec::new();
        for line in lines {
            let part = match line.first() {
                "usual" => self.usual(command, line),
                "fill" => fill(line, all.len()),
                _ => self.list(std::slice::from_ref(line)),
            };
            all.extend(part?);
        }
        Ok(all)
    }

    /// `usual, NAME VALUE, without NAME ..`: the command's usual AVPs, some with another value or left out.
    fn usual(&self, command: &str, line: &Line) -> Result<Vec<u8>, Fault> {
        let mut lines = match self.usual.get(command) {
            Some(lines) => lines.clone(),
            None => return line.fault("nothing is usual for this command"),
        };
        for change in line.words[1..].split(|word| word == ",").filter(|change| !change.is_empty()) {
            let without = change[0] == "without";
            let name = change.get(usize::from(without)).map_or("", |word| word.as_str());
            let place = match lines.iter().position(|usual| usual.first() == name) {
                Some(place) => place,
                None => return line.fault(&format!("`{name}` is not among the usual AVPs")),
            };
            if without {
                lines.remove(place);
            } else {
                lines[place] = Line { words: change.to_vec(), ..line.clone() };
            }
        }
        self.list(&lines)
    }
}

/// An AVP of no effect after `before` bytes of AVPs, such that the whole message has the bytes said.
fn fill(line: &Line, before: usize) -> Result<Vec<u8>, Fault> {
    let whole = number(line.words.get(1).map_or("", |word| word.as_str())).map_err(|fault| fault.at(line))?;
    match (whole as usize).checked_sub(20 + before + 8) {
        Some(data) => Ok(build::avp(CLASS, build::M, 0, &vec![b'f'; data])),
        None => line.fault("the message is longer than that"),
    }
}
