//! Document 01's Experimental-Results and "What an accepted request does", on one record.

use crate::request::{Accepted, Command};
use crate::table::{self, number, Node, EPS, GPRS, MME, SGSN};

// ULR-Flags, clause 7.3.7.
const SINGLE_REGISTRATION: u32 = 1 << 0;
const S6A_S6D_INDICATOR: u32 = 1 << 1;
const SKIP_SUBSCRIBER_DATA: u32 = 1 << 2;
const INITIAL_ATTACH: u32 = 1 << 5;
// NOR-Flags, clause 7.3.49.
const NOR_SINGLE_REGISTRATION: u32 = 1 << 0;
// PUR-Flags, clause 7.3.149, are the purge bits of the two nodes.

// Cancellation-Type.
const MME_UPDATE: u8 = 0;
const SGSN_UPDATE: u8 = 1;
const INITIAL_ATTACH_PROCEDURE: u8 = 4;

/// An Experimental-Result-Code, and the row of the tally.
pub struct Refused {
    pub code: u32,
    pub note: String,
}

/// A node listed in the cancel buffer.
#[derive(Clone, PartialEq, Eq, Debug)]
pub struct Entry {
    pub node: u8,
    pub cancellation_type: u8,
    pub name: Vec<u8>,
}

/// What an accepted request leaves beside the record.
#[derive(Default)]
pub struct Done {
    pub entries: Vec<Entry>,
    /// "PUA-Flags (.. the purge bits this request sets, set before or not)"
    pub purged: u8,
    pub notes: Vec<String>,
}

impl Accepted {
    fn flag(&self, bit: u32) -> bool {
        self.flags.unwrap_or(0) & bit != 0
    }

    /// "S6a/S6d-Indicator (set means S6a)"
    pub fn on_s6a(&self) -> bool {
        self.flag(S6A_S6D_INDICATOR)
    }

    pub fn skips_subscriber_data(&self) -> bool {
        self.flag(SKIP_SUBSCRIBER_DATA)
    }

    /// "Names are equal when their bytes are."
    fn sent_by(&self, name: &[u8]) -> bool {
        self.origin_host == name
    }
}

/// "Then Experimental-Result, vendor 10415, first that applies"; `None`: no such IMSI in the table.
pub fn refused(request: &Accepted, record: Option<&[u8]>) -> Option<Refused> {
    let refused = |code: u32, note: &str| Some(Refused { code, note: format!("E{code} {note}") });
    let record = match record {
        // "5001 no such IMSI"
        None => return refused(5001, request.command.name()),
        Some(record) => record,
    };
    match request.command {
        Command::Ulr => ulr_refused(request, record).and_then(|(code, note)| refused(code, note)),
        Command::Pur => None,
        // "5423 (NOR) sender is neither registered node"
        Command::Nor if request.sent_by(MME.name(record)) || request.sent_by(SGSN.name(record)) => None,
        Command::Nor => refused(5423, "NOR"),
    }
}

fn ulr_refused(request: &Accepted, record: &[u8]) -> Option<(u32, &'static str)> {
    let subscription = record[table::SUBSCRIPTION];
    if request.on_s6a() && subscription & EPS == 0 {
        // "5420 (ULR) S6a without EPS subscription .."
        Some((5420, "S6a"))
    } else if !request.on_s6a() && subscription & (EPS | GPRS) == 0 {
        // ".. or S6d with neither"
        Some((5420, "S6d"))
    } else if restriction_bit(request.rat_type).is_none() {
        // "Any other RAT-Type: refused."
        Some((5421, "other RAT"))
    } else if rat_refused(request.rat_type, number(&record[table::RESTRICTION])) {
        // "5421 (ULR) RAT refused"
        Some((5421, "bit"))
    } else if !plmn_allowed(&request.visited_plmn_id, record) {
        // "5004 (ULR) PLMN list not empty and lacks the visited one"
        Some((5004, "ULR"))
    } else {
        None
    }
}

/// "RAT-Type to Access-Restriction-Data bit: 1000→0, 1001→1, 1002→2, 1003→3, 1004→4, 1005→4."
fn restriction_bit(rat_type: u32) -> Option<u32> {
    match rat_type {
        1000 => Some(0),
        1001 => Some(1),
        1002 => Some(2),
        1003 => Some(3),
        1004 => Some(4),
        1005 => Some(4),
        _ => None,
    }
}

/// "Bit set: refused. Any other RAT-Type: refused."
pub fn rat_refused(rat_type: u32, restriction: u32) -> bool {
    restriction_bit(rat_type).map_or(true, |bit| restriction & (1 << bit) != 0)
}

fn plmn_allowed(visited: &[u8], record: &[u8]) -> bool {
    let count = usize::from(record[table::PLMN_COUNT]);
    let mut plmns = record[table::PLMNS].chunks_exact(3).take(count);
    count == 0 || plmns.any(|plmn| plmn == visited)
}

/// Carries out a request that nothing refuses.
pub fn carry_out(request: &Accepted, record: &mut [u8]) -> Done {
    let mut done = Done::default();
    match request.command {
        Command::Ulr => update_location(request, record, &mut done),
        Command::Pur => purge(request, record, &mut done),
        Command::Nor => notify(request, record, &mut done),
    }
    // "IMEI, if there, is stored."
    if let Some(imei) = &request.imei {
        table::store_imei(record, imei);
        done.note("IMEI stored");
    }
    done.note_entries();
    done
}

fn update_location(request: &Accepted, record: &mut [u8], done: &mut Done) {
    if request.on_s6a() {
        done.note("2001 ULR S6a");
        // "a stored MME name that differs from Origin-Host is listed with Cancellation-Type 0; the name becomes
        // Origin-Host; its purge bit is cleared"
        register(request, record, &MME, MME_UPDATE, done);
        // "Then, with a registered SGSN: Single-Registration lists it with type 1, else Initial-Attach lists it with
        // type 4; either way name and purge bit are cleared."
        if request.flag(SINGLE_REGISTRATION) {
            clear(request, record, &SGSN, SGSN_UPDATE, done);
        } else if request.flag(INITIAL_ATTACH) {
            clear(request, record, &SGSN, INITIAL_ATTACH_PROCEDURE, done);
        }
    } else {
        done.note("2001 ULR S6d");
        // "On S6d, for the SGSN: type 1, then Initial-Attach lists the MME with type 4 and clears it;
        // Single-Registration has no effect."
        register(request, record, &SGSN, SGSN_UPDATE, done);
        if request.flag(INITIAL_ATTACH) {
            clear(request, record, &MME, INITIAL_ATTACH_PROCEDURE, done);
        }
    }
}

fn purge(request: &Accepted, record: &mut [u8], done: &mut Done) {
    done.note("2001 PUR");
    for node in [&MME, &SGSN] {
        // "without PUR-Flags each registered name equal to Origin-Host gets its purge bit; with PUR-Flags only where
        // its bit is set too"
        let asked = request.flags.map_or(true, |flags| flags & u32::from(node.purge) != 0);
        if asked && request.sent_by(node.name(record)) {
            if !node.purged(record) {
                done.note("purge bit set");
            }
            node.set_purge_bit(record);
            done.purged |= node.purge;
        }
    }
    done.note(&format!("PUA-Flags {}", done.purged));
}

fn notify(request: &Accepted, record: &mut [u8], done: &mut Done) {
    done.note("2001 NOR");
    // "Single-Registration lists a registered SGSN with type 1 (unless it is the sender) and clears it"
    if request.flag(NOR_SINGLE_REGISTRATION) {
        clear(request, record, &SGSN, SGSN_UPDATE, done);
    }
}

/// The sender becomes the node; a displaced one is listed.
fn register(request: &Accepted, record: &mut [u8], node: &Node, cancellation_type: u8, done: &mut Done) {
    if node.registered(record) && !request.sent_by(node.name(record)) {
        done.list(node, cancellation_type, node.name(record));
    }
    node.store(record, &request.origin_host);
    done.clear_purge_bit(node, record);
}

/// A registered node loses name and purge bit. "A name equal to the sender's is never listed, though it may be
/// cleared. A purged node is listed like another."
fn clear(request: &Accepted, record: &mut [u8], node: &Node, cancellation_type: u8, done: &mut Done) {
    if !node.registered(record) {
        return;
    }
    if request.sent_by(node.name(record)) {
        done.note("cleared but not listed");
    } else {
        done.list(node, cancellation_type, node.name(record));
    }
    node.store(record, &[]);
    done.clear_purge_bit(node, record);
}

impl Done {
    fn note(&mut self, text: &str) {
        self.notes.push(text.to_string());
    }

    fn list(&mut self, node: &Node, cancellation_type: u8, name: &[u8]) {
        self.entries.push(Entry { node: node.number, cancellation_type, name: name.to_vec() });
    }

    fn clear_purge_bit(&mut self, node: &Node, record: &mut [u8]) {
        if node.purged(record) {
            self.note("purge bit cleared");
        }
        node.clear_purge_bit(record);
    }

    fn note_entries(&mut self) {
        for entry in &self.entries {
            self.notes.push(format!("entry ({},{})", entry.node, entry.cancellation_type));
        }
        if self.entries.len() == 2 {
            self.note("two entries");
        }
    }
}

/// "Cancel buffer: two entries of 68 bytes, filled from the first: 1 MME or 2 SGSN, type, name length, zero, name
/// zero-filled. .. Unused entries are zero."
pub fn cancel_entries(entries: &[Entry]) -> [u8; 136] {
    let mut bytes = [0; 136];
    for (place, entry) in bytes.chunks_exact_mut(68).zip(entries) {
        place[0] = entry.node;
        place[1] = entry.cancellation_type;
        place[2] = entry.name.len() as u8;
        place[4..4 + entry.name.len()].copy_from_slice(&entry.name);
    }
    bytes
}
