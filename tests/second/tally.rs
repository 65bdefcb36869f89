// `second tally`: judges each case on standard input, counts the notes, and prints a row a note.
// A row under 20 (or DYMOSAW_TALLY_LEAST), or a note that the list below lacks, is a failure:
// the cases then leave something of document 01 untried, or this list is not complete.

use crate::dictionary::Dictionary;
use crate::protocol::read_case;
use crate::registry::judge;
use std::collections::BTreeMap;
use std::io::{Read, Write};

/// Every note, by theme and in the order of document 01.
const ROWS: [&[&str]; 8] = [
    &[
        "refused 3 answer",
        "refused 3 cancel",
        "refused 5 host size",
        "refused 5 host byte",
        "refused 5 realm size",
        "refused 5 realm byte",
        "refused 4",
        "refused 1 short",
        "refused 1 long",
        "refused 2",
    ],
    &[
        "5011",
        "5015 length",
        "5015 multiple of 4",
        "3008",
        "5014 length",
        "5014 size",
        "5014 stump",
        "5004 depth",
        "3007",
        "3001",
        "5001 top",
        "5001 in a group",
    ],
    &[
        "5009 Session-Id",
        "5009 Auth-Session-State",
        "5009 Origin-Host",
        "5009 Origin-Realm",
        "5009 Destination-Realm",
        "5009 User-Name",
        "5009 RAT-Type",
        "5009 ULR-Flags",
        "5009 Visited-PLMN-Id",
        "5009 PUR-Flags",
        "5009 NOR-Flags",
        "5009 Terminal-Information",
        "5009 IMEI",
    ],
    &[
        "5005 Session-Id",
        "5005 Auth-Session-State",
        "5005 Origin-Host",
        "5005 Origin-Realm",
        "5005 Destination-Realm",
        "5005 User-Name",
        "5005 RAT-Type",
        "5005 ULR-Flags",
        "5005 Visited-PLMN-Id",
        "5004 User-Name",
        "5004 Origin-Host",
        "5004 Visited-PLMN-Id",
        "5004 IMEI",
    ],
    &[
        "E5001 ULR",
        "E5001 PUR",
        "E5001 NOR",
        "E5420 S6a",
        "E5420 S6d",
        "E5421 bit",
        "E5421 other RAT",
        "E5004 ULR",
        "E5423 NOR",
    ],
    &[
        "2001 ULR S6a",
        "2001 ULR S6d",
        "2001 PUR",
        "2001 NOR",
        "entry (1,0)",
        "entry (1,4)",
        "entry (2,1)",
        "entry (2,4)",
        "two entries",
        "cleared but not listed",
        "purge bit cleared",
        "purge bit set",
        "IMEI stored",
        "subscription data skipped",
        "subscription data with restriction",
        "subscription data without restriction",
        "Proxy-Info copied",
        "PUA-Flags 0",
        "PUA-Flags 1",
        "PUA-Flags 2",
        "PUA-Flags 3",
    ],
    &[
        "table length short",
        "table length field",
        "table version",
        "table zero byte",
        "table count",
        "table size",
        "table order",
        "table IMSI count",
        "table IMSI digit",
        "table IMSI end",
        "table subscription bits",
        "table unlisted byte",
        "table PLMN count",
        "table PLMN end",
        "table purge bits",
        "table MME length",
        "table MME byte",
        "table MME end",
        "table SGSN length",
        "table SGSN byte",
        "table SGSN end",
        "table IMEI count",
        "table IMEI digit",
        "table IMEI end",
        "table purge without name",
    ],
    &[
        "correction 0 kind 1",
        "correction 0 kind 2",
        "correction 0 kind 3",
        "correction 0 kind 4",
        "correction 0 wrapped",
        "correction 4",
        "correction 11 short",
        "correction 11 length",
        "correction 12",
        "correction 13",
        "correction 14",
        "correction 15 kind 1",
        "correction 15 kind 3 count",
        "correction 15 kind 3 end",
        "correction 16",
        "correction 17",
    ],
];

/// The least count of a row.
fn least() -> u64 {
    std::env::var("DYMOSAW_TALLY_LEAST").ok().and_then(|text| text.parse().ok()).unwrap_or(20)
}

/// Counts the notes of all cases on `input` and prints them. 0 if every row has enough, else 1.
pub fn run(dictionary: &Dictionary, input: &mut impl Read) -> i32 {
    let counts = match count(dictionary, input) {
        Ok(counts) => counts,
        Err(error) => {
            eprintln!("tally: {error}");
            return 1;
        }
    };
    let (lines, complaints) = report(counts, least());
    // A closed output is the reader's choice; the complaints still decide the status.
    let _ = std::io::stdout().write_all(lines.as_bytes());
    for complaint in &complaints {
        eprintln!("tally: {complaint}");
    }
    i32::from(!complaints.is_empty())
}

fn count(dictionary: &Dictionary, input: &mut impl Read) -> std::io::Result<BTreeMap<String, u64>> {
    let mut counts = BTreeMap::new();
    while let Some(case) = read_case(input)? {
        for note in judge(dictionary, &case).notes {
            *counts.entry(note).or_insert(0) += 1;
        }
    }
    Ok(counts)
}

/// The rows in their order, and what is wrong with them.
fn report(mut counts: BTreeMap<String, u64>, least: u64) -> (String, Vec<String>) {
    let mut lines = String::new();
    let mut complaints = Vec::new();
    for row in ROWS.concat() {
        let count = counts.remove(row).unwrap_or(0);
        lines.push_str(&format!("{count}\t{row}\n"));
        if count < least {
            complaints.push(format!("{row}: {count}, under {least}"));
        }
    }
    for (note, count) in counts {
        complaints.push(format!("{note}: {count}, a note that is not in the list"));
    }
    (lines, complaints)
}
