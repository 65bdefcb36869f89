//! Lines of a named case about the table, before a call and after it.
//! `record IMSI KEY=VALUE ..` is a record (fields not spoken of: RECORD below), `records N from=IMSI` are N of them;
//! `set IMSI OFFSET xHEX` and `set header OFFSET xHEX` change bytes in place; `table cut=N`, `table add=xHEX`
//! change its end; `table raw xHEX ..` is the whole table.

use super::bytes::{bytes, hex, joined, number, only};
use super::text::{Fault, Line};
use crate::build::{self, Record};

/// The table as the case's lines describe it.
#[derive(Clone, Default)]
pub struct Table {
    records: Vec<Record>,
    edits: Vec<Line>,
}

fn small(text: &str) -> Result<u8, Fault> {
    text.parse::<u8>().map_err(|_| Fault::from(format!("`{text}` does not fit a byte")))
}

fn digits(word: &str) -> Result<String, Fault> {
    Ok(String::from_utf8_lossy(&bytes(word)?).into_owned())
}

/// `00F110/62F210`: PLMNs of three bytes each.
fn plmns(text: &str) -> Result<Vec<[u8; 3]>, Fault> {
    let mut list = Vec::new();
    for part in text.split('/').filter(|part| !part.is_empty()) {
        match hex(part)?.as_slice() {
            [a, b, c] => list.push([*a, *b, *c]),
            _ => return Err(Fault::from(format!("`{part}` is not a PLMN of three bytes"))),
        }
    }
    Ok(list)
}

fn change(record: &mut Record, key: &str, value: &str) -> Result<(), Fault> {
    match key {
        "change" => record.change = number(value)?,
        "subscription" => record.subscription = small(value)?,
        "restriction" => record.restriction = number(value)?,
        "plmns" => record.plmns = plmns(value)?,
        "purged" => record.purged = small(value)?,
        "mme" => record.mme = bytes(value)?,
        "sgsn" => record.sgsn = bytes(value)?,
        "uplink" => record.uplink = number(value)?,
        "downlink" => record.downlink = number(value)?,
        "imei" => record.imei = digits(value)?,
        _ => return Err(Fault::from(format!("a record has no `{key}`"))),
    }
    Ok(())
}

impl Table {
    /// Takes in `record ..`, `records ..`, `set ..` or `table ..`.
    pub fn take(&mut self, line: &Line) -> Result<(), Fault> {
        let (options, given) = line.options(1);
        match (line.first(), given.as_slice()) {
            ("record", [imsi]) => {
                let mut one = Record::plain(imsi);
                for (key, value) in options {
                    change(&mut one, key, value)?;
                }
                self.records.push(one);
            }
            ("records", [count]) => {
                only(line, &options, &["from"])?;
                let from = options.get("from").and_then(|imsi| imsi.parse::<u64>().ok());
                let from = from.ok_or_else(|| Fault::from("`records N from=IMSI`".to_string()))?;
                self.records.extend((0..u64::from(number(count)?)).map(|i| Record::plain(&(from + i).to_string())));
            }
            ("set", [_, _, ..]) | ("table", _) => self.edits.push(line.clone()),
            _ => return line.fault("not a line about the table"),
        }
        Ok(())
    }

    /// `record IMSI KEY=VALUE ..` of what is expected: the record with these fields changed.
    pub fn changed(&mut self, line: &Line, from: usize) -> Result<(), Fault> {
        let (options, given) = line.options(from);
        let imsi = given.first().copied().unwrap_or("");
        let place = match self.records.iter().position(|record| record.imsi == imsi) {
            Some(place) if given.len() == 1 => place,
            _ => return line.fault("no such record"),
        };
        for (key, value) in options {
            change(&mut self.records[place], key, value)?;
        }
        Ok(())
    }

    pub fn bytes(&self) -> Result<Vec<u8>, Fault> {
        let mut table = build::table(&self.records);
        for line in &self.edits {
            self.edit(&mut table, line).map_err(|fault| fault.at(line))?;
        }
        Ok(table)
    }

    fn edit(&self, table: &mut Vec<u8>, line: &Line) -> Result<(), Fault> {
        let (options, given) = line.options(1);
        only(line, &options, &["cut", "add"])?;
        match (line.first(), given.as_slice()) {
            ("set", [whose, offset, value @ ..]) => {
                let from = self.place(whose)? + number(offset)? as usize;
                let value = joined(value)?;
                match table.get_mut(from..from + value.len()) {
                    Some(part) => part.copy_from_slice(&value),
                    None => return line.fault("past the end of the table"),
                }
            }
            ("table", ["raw", value @ ..]) => *table = joined(value)?,
            ("table", []) => {
                if let Some(keep) = options.get("cut") {
                    table.truncate(number(keep)? as usize);
                }
                if let Some(more) = options.get("add") {
                    table.extend(bytes(more)?);
                }
            }
            _ => return line.fault("not a change of the table"),
        }
        Ok(())
    }

    /// Where the header or a record starts: records stand in the order of their bytes 0-15.
    fn place(&self, whose: &str) -> Result<usize, Fault> {
        let field = build::imsi_field(whose);
        let before = self.records.iter().filter(|record| build::imsi_field(&record.imsi) < field).count();
        if whose == "header" {
            Ok(0)
        } else if self.records.iter().any(|record| record.imsi == whose) {
            Ok(8 + build::RECORD * before)
        } else {
            Err(Fault::from(format!("no record `{whose}`")))
        }
    }
}
