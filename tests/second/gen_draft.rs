// A request while it is widened: its AVPs with the place of each, which of them the command uses there, and ways to change
// one, to put one in and to take one out.

use super::avp::{all_bytes, at, Body, Piece};
use super::keys::{Key, Keys};
use crate::build::message;
use crate::protocol::Case;
use crate::random::Random;
use crate::reader::{Header, HEADER};
use crate::request::Command;

/// "inside eight others"
const DEEPEST: usize = 8;

/// Where an AVP stands, as far as it matters to its use.
#[derive(Clone, Copy, PartialEq, Eq)]
pub enum Level {
    Top,
    Terminal,
    Elsewhere,
}

/// The way to an AVP, or to the group that holds a list; the level of that AVP, or of what the list holds.
struct Spot {
    path: Vec<usize>,
    level: Level,
}

#[derive(Clone)]
pub struct Draft {
    pub kind: Command,
    pub flags: u8,
    pub avps: Vec<Piece>,
}

impl Draft {
    pub fn size(&self) -> usize {
        HEADER + all_bytes(&self.avps).len()
    }

    /// The case `first` with this request in place of its own.
    pub fn case(&self, first: &Case) -> Case {
        match first {
            Case::Request { table, request, host, realm, answer, cancel } => {
                let Header { command, application, hop, end, .. } = Header::read(request);
                let request = message(self.flags, command, application, hop, end, &all_bytes(&self.avps));
                let (table, host, realm) = (table.clone(), host.clone(), realm.clone());
                Case::Request { table, request, host, realm, answer: answer.clone(), cancel: cancel.clone() }
            }
            Case::Correction { .. } => panic!("a request is widened"),
        }
    }

    /// Every list: the top level, and what each group holds.
    fn lists(&self, terminal_information: Key) -> Vec<Spot> {
        let mut found = vec![Spot { path: Vec::new(), level: Level::Top }];
        let mut next = 0;
        while next < found.len() {
            let Spot { path, level } = &found[next];
            let mut below = Vec::new();
            for (place, piece) in self.list(path).iter().enumerate() {
                if let Body::Group(_) = piece.body {
                    let terminal = *level == Level::Top && piece.has(terminal_information);
                    let level = if terminal { Level::Terminal } else { Level::Elsewhere };
                    below.push(Spot { path: [&path[..], &[place]].concat(), level });
                }
            }
            found.extend(below);
            next += 1;
        }
        found
    }

    fn list(&self, path: &[usize]) -> &[Piece] {
        path.iter().fold(&self.avps[..], |list, place| inside(&list[*place]))
    }

    fn list_mut(&mut self, path: &[usize]) -> &mut Vec<Piece> {
        if path.is_empty() {
            return &mut self.avps;
        }
        match &mut at(&mut self.avps, path).body {
            Body::Group(inner) => inner,
            Body::Data(_) => panic!("a list is a group's"),
        }
    }

    /// The ways to the AVPs, at any depth, for which `wanted` holds.
    pub fn found(&self, keys: &Keys, wanted: impl Fn(Level, &Piece) -> bool) -> Vec<Vec<usize>> {
        let mut found = Vec::new();
        for Spot { path, level } in self.lists(keys.named("Terminal-Information")) {
            for (place, piece) in self.list(&path).iter().enumerate() {
                if wanted(level, piece) {
                    found.push([&path[..], &[place]].concat());
                }
            }
        }
        found
    }

    /// Changes one of the AVPs for which `wanted` holds.
    pub fn change(
        &mut self,
        random: &mut Random,
        keys: &Keys,
        wanted: impl Fn(Level, &Piece) -> bool,
        how: impl FnOnce(&mut Random, &mut Piece),
    ) {
        let found = self.found(keys, wanted);
        if !found.is_empty() {
            let path = &found[random.below(found.len())];
            how(random, at(&mut self.avps, path));
        }
    }

    /// Takes out an AVP that the command does not use where it stands.
    pub fn take(&mut self, random: &mut Random, keys: &Keys) {
        let unused = self.found(keys, |level, piece| !uses(self.kind, keys, level, piece));
        if !unused.is_empty() {
            let path = &unused[random.below(unused.len())];
            self.list_mut(&path[..path.len() - 1]).remove(path[path.len() - 1]);
        }
    }

    /// Puts an AVP in where the command does not use it and no group comes to stand too deep: before the first of a list, after the
    /// last, or between.
    pub fn put(&mut self, random: &mut Random, keys: &Keys, piece: Piece) {
        let mut lists = self.lists(keys.named("Terminal-Information"));
        lists.retain(|list| !uses(self.kind, keys, list.level, &piece) && list.path.len() + height(&piece) <= DEEPEST);
        if random.chance(1, 3) && lists.iter().any(|list| list.level == Level::Top) {
            lists.retain(|list| list.level == Level::Top);
        }
        if lists.is_empty() {
            return;
        }
        let path = &lists[random.below(lists.len())].path;
        let last = self.list(path).len();
        let between = random.below(last + 1);
        let place = random.pick(&[0, last, between, between]);
        self.list_mut(path).insert(place, piece);
    }
}

/// "Used AVPs, Session-Id and Proxy-Info are looked for at the top level only, IMEI directly in Terminal-Information."
pub fn uses(kind: Command, keys: &Keys, level: Level, piece: &Piece) -> bool {
    let is = |name: &str| piece.has(keys.named(name));
    match level {
        Level::Top => is("Proxy-Info") || [kind.required(), kind.used_when_there()].concat().into_iter().any(is),
        Level::Terminal => kind != Command::Pur && is("IMEI"),
        Level::Elsewhere => false,
    }
}

/// What a group holds.
fn inside(piece: &Piece) -> &[Piece] {
    match &piece.body {
        Body::Group(inner) => inner,
        Body::Data(_) => &[],
    }
}

/// How many groups deep an AVP goes, itself counted.
fn height(piece: &Piece) -> usize {
    match &piece.body {
        Body::Group(inner) => 1 + inner.iter().map(height).max().unwrap_or(0),
        Body::Data(_) => 0,
    }
}
