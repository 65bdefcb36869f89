//! The dictionary of document 01, "The reader": every row of docs/DICTIONARY.md, one a key, with its type.
//! Nothing is known here that the frozen list does not say.

use std::collections::HashMap;

/// What a row's type means to the reader.
#[derive(Clone, Copy, PartialEq, Eq, Debug)]
pub enum Kind {
    /// "Unsigned32, Integer32, Enumerated and Time carry 4 bytes"
    Four,
    /// "64-bit types 8"
    Eight,
    /// "others any number"
    Any,
    /// "Groups of the dictionary are entered, except .."
    Group,
    /// ".. Proxy-Info (284) and Failed-AVP (279)"
    Closed,
}

struct Row {
    key: (u32, u32),
    name: String,
    kind: Kind,
}

pub struct Dictionary {
    rows: Vec<Row>,
    keys: HashMap<String, (u32, u32)>,
}

const HEADING: [&str; 6] = ["vendor", "code", "name", "type", "from", "doubt"];

impl Dictionary {
    /// The list at the path in DYMOSAW_DICTIONARY, or docs/DICTIONARY.md.
    pub fn load() -> Result<Dictionary, String> {
        let path = std::env::var("DYMOSAW_DICTIONARY").unwrap_or_else(|_| "docs/DICTIONARY.md".to_string());
        let text = std::fs::read_to_string(&path).map_err(|e| format!("{path}: {e}"))?;
        Dictionary::from_text(&text).map_err(|e| format!("{path}: {e}"))
    }

    /// The table that stands under the heading row, up to the first line that is no row.
    pub fn from_text(text: &str) -> Result<Dictionary, String> {
        let mut lines = text.lines().skip_while(|line| cells(line) != HEADING);
        lines.next().ok_or("no table of rows")?;
        lines.next().ok_or("no line under the heading")?;
        let rows = lines
            .take_while(|line| line.trim_start().starts_with('|'))
            .map(row)
            .collect::<Result<Vec<Row>, String>>()?;
        Dictionary::from_rows(rows)
    }

    /// "one a key, with its type; its keys ascend strictly"
    fn from_rows(rows: Vec<Row>) -> Result<Dictionary, String> {
        if let Some(pair) = rows.windows(2).find(|pair| pair[0].key >= pair[1].key) {
            return Err(format!("{} does not come after {}", pair[1].name, pair[0].name));
        }
        let keys: HashMap<_, _> = rows.iter().map(|row| (row.name.clone(), row.key)).collect();
        if keys.len() != rows.len() {
            return Err("a name stands twice".to_string());
        }
        Ok(Dictionary { rows, keys })
    }

    fn row(&self, vendor: u32, code: u32) -> Option<&Row> {
        let place = self.rows.binary_search_by_key(&(vendor, code), |row| row.key);
        place.ok().map(|place| &self.rows[place])
    }

    pub fn kind(&self, vendor: u32, code: u32) -> Option<Kind> {
        self.row(vendor, code).map(|row| row.kind)
    }

    pub fn name(&self, vendor: u32, code: u32) -> Option<&str> {
        self.row(vendor, code).map(|row| row.name.as_str())
    }

    /// (vendor, code) of a name; a name without a row is a mistake in this program.
    pub fn key(&self, name: &str) -> (u32, u32) {
        match self.keys.get(name) {
            Some(key) => *key,
            None => panic!("the dictionary has no {name}"),
        }
    }
}

fn cells(line: &str) -> Vec<&str> {
    let line = line.trim();
    let line = line.strip_prefix('|').unwrap_or(line);
    line.strip_suffix('|').unwrap_or(line).split('|').map(str::trim).collect()
}

fn row(line: &str) -> Result<Row, String> {
    let cells = cells(line);
    if cells.len() < HEADING.len() {
        return Err(format!("a row of {} cells: {line}", cells.len()));
    }
    let vendor = cells[0].parse::<u32>().map_err(|e| format!("vendor {}: {e}", cells[0]))?;
    let code = cells[1].parse::<u32>().map_err(|e| format!("code {}: {e}", cells[1]))?;
    let kind = kind(vendor, code, cells[3]).ok_or_else(|| format!("{}: no type {}", cells[2], cells[3]))?;
    Ok(Row { key: (vendor, code), name: cells[2].to_string(), kind })
}

fn kind(vendor: u32, code: u32, name_of_type: &str) -> Option<Kind> {
    match name_of_type {
        "Unsigned32" | "Integer32" | "Enumerated" | "Time" => Some(Kind::Four),
        "Unsigned64" | "Integer64" | "Float64" => Some(Kind::Eight),
        "Grouped" if vendor == 0 && (code == 284 || code == 279) => Some(Kind::Closed),
        "Grouped" => Some(Kind::Group),
        "OctetString" | "UTF8String" | "DiameterIdentity" | "DiameterURI" | "Address" => Some(Kind::Any),
        "IPFilterRule" | "QoSFilterRule" | "Float32" => Some(Kind::Any),
        _ => None,
    }
}
