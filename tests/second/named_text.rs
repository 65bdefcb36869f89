//! The text of a file of named cases: lines with words, nested by indentation.
//! `#` starts a comment, `"` encloses text, a comma is a word by itself; `include FILE` stands for that file's lines.
//! What the words mean is said in named_case.rs and named_bytes.rs.

use std::collections::HashMap;
use std::path::Path;

/// What is wrong with the text. Its place is that of the innermost line that was being read.
#[derive(Debug)]
pub struct Fault {
    place: Option<String>,
    what: String,
}

impl From<String> for Fault {
    fn from(what: String) -> Fault {
        Fault { place: None, what }
    }
}

impl std::fmt::Display for Fault {
    fn fmt(&self, out: &mut std::fmt::Formatter) -> std::fmt::Result {
        match &self.place {
            Some(place) => write!(out, "{place}: {}", self.what),
            None => write!(out, "{}", self.what),
        }
    }
}

impl Fault {
    /// The fault with this line as its place, unless it has one.
    pub fn at(self, line: &Line) -> Fault {
        match self.place {
            Some(_) => self,
            None => Fault { place: Some(line.at.clone()), what: format!("{}: {}", self.what, line.text) },
        }
    }
}

/// A line, the words on it, and the lines that stand deeper below it.
#[derive(Clone)]
pub struct Line {
    pub at: String,
    pub text: String,
    pub words: Vec<String>,
    pub below: Vec<Line>,
}

struct Row {
    at: String,
    indent: usize,
    text: String,
}

impl Line {
    pub fn first(&self) -> &str {
        self.words.first().map_or("", |word| word.as_str())
    }

    pub fn fault<T>(&self, what: &str) -> Result<T, Fault> {
        Err(Fault::from(what.to_string()).at(self))
    }

    /// The words after the first: `KEY=VALUE` by key, the others in order.
    pub fn options(&self, from: usize) -> (HashMap<&str, &str>, Vec<&str>) {
        let mut by_key = HashMap::new();
        let mut others = Vec::new();
        for word in self.words.iter().skip(from) {
            match word.split_once('=') {
                Some((key, value)) if !key.contains('"') => {
                    by_key.insert(key, value);
                }
                _ => others.push(word.as_str()),
            }
        }
        (by_key, others)
    }

    /// The line with `$1`, `$2` .. replaced by the words given.
    pub fn filled(&self, given: &[&str]) -> Result<Line, Fault> {
        let mut words = Vec::new();
        for word in &self.words {
            match word.strip_prefix('$').and_then(|n| n.parse::<usize>().ok()) {
                Some(n) if n >= 1 && n <= given.len() => words.push(given[n - 1].to_string()),
                Some(_) => return self.fault("no word is given for this place"),
                None => words.push(word.clone()),
            }
        }
        let below: Result<Vec<Line>, Fault> = self.below.iter().map(|line| line.filled(given)).collect();
        Ok(Line { at: self.at.clone(), text: self.text.clone(), words, below: below? })
    }
}

/// The lines of a file, those of the files it includes in their place.
pub fn load(path: &str) -> Result<Vec<Line>, Fault> {
    let text = std::fs::read_to_string(path).map_err(|error| Fault::from(format!("{path}: {error}")))?;
    let mut lines = Vec::new();
    for line in parse(path, &text)? {
        if line.first() != "include" {
            lines.push(line);
            continue;
        }
        let name = line.words.get(1).map_or("", |word| word.as_str());
        let beside = Path::new(path).with_file_name(name);
        lines.extend(load(&beside.to_string_lossy())?);
    }
    Ok(lines)
}

/// The lines of a text; `path` is only named in faults.
pub fn parse(path: &str, text: &str) -> Result<Vec<Line>, Fault> {
    let mut rows = Vec::new();
    for (number, line) in text.lines().enumerate() {
        let line = without_comment(line).trim_end();
        let indent = line.len() - line.trim_start().len();
        if !line.is_empty() {
            rows.push(Row { at: format!("{path}:{}", number + 1), indent, text: line.trim_start().to_string() });
        }
    }
    let mut next = 0;
    let lines = nested(&rows, &mut next, 0)?;
    match rows.get(next) {
        Some(row) => Err(Fault::from(format!("{}: indented like no line above it", row.at))),
        None => Ok(lines),
    }
}

fn without_comment(line: &str) -> &str {
    let mut quoted = false;
    for (place, letter) in line.char_indices() {
        match letter {
            '"' => quoted = !quoted,
            '#' if !quoted => return &line[..place],
            _ => {}
        }
    }
    line
}

/// The run of rows at one indentation from `next` on, each with the deeper rows that follow it.
fn nested(rows: &[Row], next: &mut usize, indent: usize) -> Result<Vec<Line>, Fault> {
    let mut lines = Vec::new();
    while *next < rows.len() && rows[*next].indent == indent {
        let row = &rows[*next];
        *next += 1;
        let below = match rows.get(*next) {
            Some(deeper) if deeper.indent > indent => nested(rows, next, deeper.indent)?,
            _ => Vec::new(),
        };
        lines.push(Line { at: row.at.clone(), text: row.text.clone(), words: words(row)?, below });
    }
    Ok(lines)
}

fn words(row: &Row) -> Result<Vec<String>, Fault> {
    let mut words = Vec::new();
    let mut word = String::new();
    let mut quoted = false;
    for letter in row.text.chars() {
        if letter == '"' {
            quoted = !quoted;
        }
        let ends = !quoted && (letter.is_whitespace() || letter == ',');
        if !ends {
            word.push(letter);
            continue;
        }
        if !word.is_empty() {
            words.push(std::mem::take(&mut word));
        }
        if letter == ',' {
            words.push(",".to_string());
        }
    }
    if !word.is_empty() {
        words.push(word);
    }
    if quoted {
        return Err(Fault::from(format!("{}: a quotation mark without its second", row.at)));
    }
    Ok(words)
}
