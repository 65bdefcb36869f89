//! Document 01's worked examples and the points where it is easily misread, each worked out by hand.

use crate::answer;
use crate::build::{self, Record, M, V};
use crate::correction::correct;
use crate::desk;
use crate::dictionary::{Dictionary, Kind};
use crate::procedures::rat_refused;
use crate::protocol::{self, Case, Outcome};
use crate::reader::{self, Avp};
use crate::registry::judge;
use crate::table::{broken_rule, find};

const ULR: u32 = 316;
const PUR: u32 = 321;
const NOR: u32 = 323;
const APPLICATION: u32 = 16777251;
const IMSI: &str = "001010000000001";
// ULR-Flags.
const SINGLE: u32 = 1;
const S6A: u32 = 2;
const SKIP: u32 = 4;
const ATTACH: u32 = 32;

thread_local! {
    static DICTIONARY: &'static Dictionary = Box::leak(Box::new(Dictionary::load().expect("the dictionary")));
}

fn dictionary() -> &'static Dictionary {
    DICTIONARY.with(|dictionary| *dictionary)
}

fn hex(text: &str) -> Vec<u8> {
    let digits: String = text.chars().filter(|c| !c.is_whitespace()).collect();
    (0..digits.len()).step_by(2).map(|i| u8::from_str_radix(&digits[i..i + 2], 16).unwrap()).collect()
}

fn record() -> Record {
    Record { uplink: 0x01020304, downlink: 0x05060708, ..Record::plain(IMSI) }
}

fn nodes(mme: &str, sgsn: &str, purged: u8) -> Record {
    Record { mme: mme.as_bytes().to_vec(), sgsn: sgsn.as_bytes().to_vec(), purged, ..record() }
}

/// An AVP by its name, with M, and V for vendor 10415.
fn avp(name: &str, data: &[u8]) -> Vec<u8> {
    let (vendor, code) = dictionary().key(name);
    build::avp(code, if vendor == 0 { M } else { M | V }, vendor, data)
}

fn common(host: &str) -> Vec<Vec<u8>> {
    vec![
        avp("Session-Id", b"s;1"),
        avp("Auth-Session-State", &[0, 0, 0, 1]),
        avp("Origin-Host", host.as_bytes()),
        avp("Origin-Realm", b"visited"),
        avp("Destination-Realm", b"example"),
        avp("User-Name", IMSI.as_bytes()),
    ]
}

fn ulr(host: &str, flags: u32, rat_type: u32) -> Vec<Vec<u8>> {
    let mut avps = common(host);
    avps.push(avp("RAT-Type", &rat_type.to_be_bytes()));
    avps.push(avp("ULR-Flags", &flags.to_be_bytes()));
    avps.push(avp("Visited-PLMN-Id", &[0x00, 0xF1, 0x10]));
    avps
}

fn with(mut avps: Vec<Vec<u8>>, more: Vec<u8>) -> Vec<Vec<u8>> {
    avps.push(more);
    avps
}

/// R and P set, hop-by-hop 1, end-to-end 2.
fn message(command: u32, avps: &[Vec<u8>]) -> Vec<u8> {
    build::message(0xC0, command, APPLICATION, 1, 2, &avps.concat())
}

struct Asked {
    number: u32,
    before: Vec<u8>,
    after: Vec<u8>,
    /// The answer, without the buffer's later bytes.
    answer: Vec<u8>,
    cancel: Vec<u8>,
    notes: Vec<String>,
}

fn ask(records: &[Record], request: Vec<u8>) -> Asked {
    let before = build::table(records);
    let case = Case::Request {
        table: before.clone(),
        request,
        host: b"hss.example".to_vec(),
        realm: b"example".to_vec(),
        answer: vec![0xAA; 4400],
        cancel: vec![0xBB; 140],
    };
    let judged = judge(dictionary(), &case);
    match judged.outcome {
        Outcome::Request { number, length, table, answer, cancel } => {
            let (answer, later) = answer.split_at(length as usize);
            assert!(later.iter().all(|byte| *byte == 0xAA));
            assert_eq!(cancel[136..], [0xBB; 4]);
            Asked { number, before, after: table, answer: answer.to_vec(), cancel, notes: judged.notes }
        }
        Outcome::Correction { .. } => unreachable!(),
    }
}

fn ask_ulr(record: Record, host: &str, flags: u32) -> Asked {
    ask(&[record], message(ULR, &ulr(host, flags, 1004)))
}

impl Asked {
    fn avps(&self) -> Vec<(u32, Vec<u8>)> {
        let avps = reader::list(&self.answer, 20, self.answer.len());
        avps.iter().map(|avp| (avp.code, avp.data(&self.answer).to_vec())).collect()
    }

    fn codes(&self) -> Vec<u32> {
        self.avps().iter().map(|(code, _)| *code).collect()
    }

    fn data(&self, code: u32) -> Option<Vec<u8>> {
        self.avps().into_iter().find(|(found, _)| *found == code).map(|(_, data)| data)
    }

    /// The code as the desk writes it.
    fn code(&self) -> String {
        match (self.data(268), self.data(297)) {
            (Some(data), None) => crate::table::number(&data).to_string(),
            (None, Some(data)) => format!("E{}", crate::table::number(&data[20..24])),
            _ => "both or none".to_string(),
        }
    }

    fn entries(&self) -> Vec<(u8, u8, String)> {
        let entries = self.cancel[..136].chunks(68).filter(|entry| entry[0] != 0);
        let name = |entry: &[u8]| String::from_utf8(entry[4..4 + usize::from(entry[2])].to_vec()).unwrap();
        entries.map(|entry| (entry[0], entry[1], name(entry))).collect()
    }

    fn unchanged(&self) -> bool {
        self.before == self.after
    }

    fn leaves(&self, record: Record) -> bool {
        self.after == build::table(&[record])
    }

    fn noted(&self, note: &str) -> bool {
        self.notes.iter().any(|found| found == note)
    }
}

fn entry(node: u8, cancellation_type: u8, name: &str) -> (u8, u8, String) {
    (node, cancellation_type, name.to_string())
}

// The dictionary.

#[test]
fn the_dictionary_has_its_rows() {
    let d = dictionary();
    assert_eq!(d.kind(0, 277), Some(Kind::Four));
    assert_eq!(d.kind(10415, 1494), Some(Kind::Four));
    assert_eq!(d.kind(0, 287), Some(Kind::Eight));
    assert_eq!(d.kind(0, 1), Some(Kind::Any));
    assert_eq!(d.kind(10415, 1401), Some(Kind::Group));
    assert_eq!(d.kind(0, 279), Some(Kind::Closed));
    assert_eq!(d.kind(0, 284), Some(Kind::Closed));
    assert_eq!(d.kind(0, 1401), None);
    assert_eq!(d.kind(10415, 1), None);
    assert_eq!(d.name(10415, 1402), Some("IMEI"));
    assert_eq!(d.key("User-Name"), (0, 1));
}

#[test]
fn a_dictionary_out_of_order_is_refused() {
    let head = "| vendor | code | name | type | from | doubt |\n|---|---|---|---|---|---|\n";
    let one = "| 0 | 1 | User-Name | UTF8String | RFC |  |\n";
    let two = "| 0 | 25 | Class | OctetString | RFC |  |\n";
    assert!(Dictionary::from_text(&[head, one, two].concat()).is_ok());
    assert!(Dictionary::from_text(&[head, two, one].concat()).is_err());
    assert!(Dictionary::from_text(&[head, one, one].concat()).is_err());
    assert!(Dictionary::from_text(&[head, "| 0 | 1 | User-Name | String | RFC |  |\n"].concat()).is_err());
    assert!(Dictionary::from_text("no table").is_err());
}

// "Worked by hand".

#[test]
fn an_avp_of_length_23_takes_24_bytes() {
    let bytes = build::avp(1, M, 0, &[0x31; 15]);
    assert_eq!(bytes.len(), 24);
    let avp = Avp::read(&bytes, 0, 24);
    assert_eq!((avp.length, avp.padded()), (23, 24));
}

#[test]
fn subscription_data_takes_88_bytes_with_restrictions_and_72_without() {
    let d = dictionary();
    let restricted = Record { restriction: 16, ..record() };
    assert_eq!(answer::subscription_data(d, &restricted.bytes()).len(), 88);
    assert_eq!(answer::subscription_data(d, &record().bytes()).len(), 72);
}

#[test]
fn restriction_16_refuses_1004_and_passes_1003() {
    assert!(rat_refused(1004, 16));
    assert!(rat_refused(1005, 16));
    assert!(!rat_refused(1003, 16));
    assert!(rat_refused(1006, 16));
    assert!(rat_refused(999, 0) && rat_refused(1006, 0) && rat_refused(u32::MAX, 0));
    for (rat_type, bit) in [(1000, 1), (1001, 2), (1002, 4), (1003, 8), (1004, 16), (1005, 16)] {
        assert!(rat_refused(rat_type, bit) && !rat_refused(rat_type, !bit));
    }
    let restricted = || Record { restriction: 16, ..record() };
    let code = |rat_type| ask(&[restricted()], message(ULR, &ulr("a", S6A, rat_type))).code();
    assert_eq!([code(1004), code(1003), code(1006)], ["E5421", "2001", "E5421"]);
}

/// Table 7.3.9/1: MCC digits 2 and 1; MNC digit 3 (1111 if there is none), MCC digit 3; MNC digits 2 and 1.
#[test]
fn mcc_001_mnc_01_is_00_f1_10() {
    let (mcc, mnc) = ([0, 0, 1], [0, 1, 0xF]);
    let coded = [mcc[1] << 4 | mcc[0], mnc[2] << 4 | mcc[2], mnc[1] << 4 | mnc[0]];
    assert_eq!(coded, [0x00, 0xF1, 0x10]);
    let closed = |plmns: Vec<[u8; 3]>| ask_ulr(Record { plmns, ..record() }, "a", S6A).code();
    assert_eq!(closed(vec![coded]), "2001");
    assert_eq!(closed(vec![[0x00, 0xF1, 0x20]]), "E5004");
    assert_eq!(closed(vec![[0x00, 0xF1, 0x20], coded]), "2001");
    assert_eq!(closed(Vec::new()), "2001");
}

#[test]
fn an_experimental_result_takes_32_bytes() {
    let asked = ask(&[], message(ULR, &ulr("a", S6A, 1004)));
    assert_eq!(asked.code(), "E5001");
    let result = &asked.answer[32..64];
    let expected = hex("00000129 40000020  0000010A 4000000C 000028AF  0000012A 4000000C 00001389");
    assert_eq!(result, expected);
    assert_eq!(asked.codes(), [263, 297, 277, 264, 296]);
    assert!(asked.unchanged() && asked.entries().is_empty());
}

#[test]
fn mme_a_is_displaced_by_b_and_not_by_itself() {
    let from_b = ask_ulr(nodes("a", "", 1), "b", S6A);
    assert_eq!(from_b.entries(), [entry(1, 0, "a")]);
    assert!(from_b.leaves(nodes("b", "", 0)));
    let from_a = ask_ulr(nodes("a", "", 1), "a", S6A);
    assert!(from_a.entries().is_empty());
    assert!(from_a.leaves(nodes("a", "", 0)));
}

#[test]
fn single_registration_goes_before_initial_attach() {
    let both = ask_ulr(nodes("", "s", 2), "b", S6A | SINGLE | ATTACH);
    assert_eq!(both.entries(), [entry(2, 1, "s")]);
    assert!(both.leaves(nodes("b", "", 0)));
    let attach = ask_ulr(nodes("a", "s", 2), "b", S6A | ATTACH);
    assert_eq!(attach.entries(), [entry(1, 0, "a"), entry(2, 4, "s")]);
    assert!(attach.leaves(nodes("b", "", 0)));
    let neither = ask_ulr(nodes("", "s", 2), "b", S6A);
    assert!(neither.entries().is_empty() && neither.leaves(nodes("b", "s", 2)));
}

/// The whole answer, written by hand.
#[test]
fn a_pur_from_a_stranger_is_success_with_flags_0() {
    let asked = ask(&[nodes("a", "s", 0)], message(PUR, &common("x")));
    assert!(asked.unchanged() && asked.entries().is_empty());
    let expected = hex("0100006C 40000141 01000023 00000001 00000002
         00000107 4000000B 733B3100
         0000010C 4000000C 000007D1
         00000115 4000000C 00000001
         00000108 40000013 6873732E 6578616D 706C6500
         00000128 4000000F 6578616D 706C6500
         000005A2 C0000010 000028AF 00000000");
    assert_eq!(asked.answer, expected);
}

#[test]
fn imsis_of_5_and_16_digits_are_refused_6_and_15_are_looked_for() {
    let code = |digits: &str| {
        let mut avps = common("a");
        avps[5] = avp("User-Name", digits.as_bytes());
        ask(&[record()], message(PUR, &avps)).code()
    };
    assert_eq!(code("12345"), "5004");
    assert_eq!(code("123456"), "E5001");
    assert_eq!(code("123456789012345"), "E5001");
    assert_eq!(code("1234567890123456"), "5004");
    assert_eq!(code("00101000000000a"), "5004");
    assert_eq!(code(IMSI), "2001");
}

#[test]
fn names_of_64_bytes_are_taken_and_of_65_refused() {
    let code = |host: &str| ask(&[record()], message(PUR, &common(host))).code();
    assert_eq!(code(&"a".repeat(64)), "2001");
    assert_eq!(code(&"a".repeat(65)), "5004");
    assert_eq!(code(""), "5004");
    assert_eq!([code("a b"), code("a\u{7f}"), code("!~")], ["5004", "5004", "2001"]);
    let long = "m".repeat(64);
    let stored = ask_ulr(nodes("", &long, 0), &"b".repeat(64), S6A | SINGLE);
    assert_eq!(stored.entries(), [entry(2, 1, &long)]);
    assert!(stored.leaves(nodes(&"b".repeat(64), "", 0)));
}

#[test]
fn requests_of_4096_bytes_are_answered_and_of_4100_refused() {
    let filled = |size: usize| {
        let avps = common("a");
        let room = size - 20 - avps.concat().len() - 8;
        message(PUR, &with(avps, build::avp(284, M, 0, &vec![0x55; room])))
    };
    let longest = ask(&[record()], filled(4096));
    assert_eq!((longest.number, longest.code()), (0, "2001".to_string()));
    assert!(longest.answer.len() <= 4292);
    assert_eq!(ask(&[record()], filled(4100)).number, 1);
}

/// A Session-Id that fills the request, own names of 64 bytes: 20 + 4,076 + 12 + 12 + 72 + 72 + 20.
#[test]
fn the_longest_answer_found_has_4284_bytes() {
    let case = Case::Request {
        table: build::table(&[]),
        request: message(ULR, &[avp("Session-Id", &[0; 4068])]),
        host: vec![b'h'; 64],
        realm: vec![b'r'; 64],
        answer: vec![0; 4352],
        cancel: vec![0; 136],
    };
    match judge(dictionary(), &case).outcome {
        Outcome::Request { number, length, .. } => assert_eq!((number, length), (0, 4284)),
        Outcome::Correction { .. } => unreachable!(),
    }
}

// "What an accepted request does".

#[test]
fn s6d_mirrors_s6a() {
    let displaced = ask_ulr(nodes("m", "s", 3), "b", ATTACH);
    assert_eq!(displaced.entries(), [entry(2, 1, "s"), entry(1, 4, "m")]);
    assert!(displaced.leaves(nodes("", "b", 0)));
    let single = ask_ulr(nodes("m", "s", 3), "b", SINGLE);
    assert_eq!(single.entries(), [entry(2, 1, "s")]);
    assert!(single.leaves(nodes("m", "b", 1)));
    let again = ask_ulr(nodes("m", "s", 3), "s", 0);
    assert!(again.entries().is_empty() && again.leaves(nodes("m", "s", 1)));
}

#[test]
fn the_sender_is_never_listed_though_it_may_be_cleared() {
    let s6a = ask_ulr(nodes("a", "b", 2), "b", S6A | SINGLE);
    assert_eq!(s6a.entries(), [entry(1, 0, "a")]);
    assert!(s6a.leaves(nodes("b", "", 0)) && s6a.noted("cleared but not listed"));
    let s6d = ask_ulr(nodes("b", "", 1), "b", ATTACH);
    assert!(s6d.entries().is_empty() && s6d.leaves(nodes("", "b", 0)));
    let nor = |host: &str| {
        let flags = avp("NOR-Flags", &[0, 0, 0, 1]);
        ask(&[nodes("m", "s", 2)], message(NOR, &with(common(host), flags)))
    };
    assert!(nor("s").entries().is_empty() && nor("s").leaves(nodes("m", "", 0)));
    assert_eq!(nor("m").entries(), [entry(2, 1, "s")]);
    assert!(nor("m").leaves(nodes("m", "", 0)));
}

#[test]
fn one_name_in_both_places_gives_two_entries() {
    let asked = ask_ulr(nodes("x", "x", 3), "b", S6A | ATTACH);
    assert_eq!(asked.entries(), [entry(1, 0, "x"), entry(2, 4, "x")]);
    assert!(asked.noted("two entries"));
    assert_eq!(asked.cancel[..6], [1, 0, 1, 0, b'x', 0]);
    assert_eq!(asked.cancel[68..74], [2, 4, 1, 0, b'x', 0]);
}

#[test]
fn names_are_equal_when_their_bytes_are() {
    assert_eq!(ask_ulr(nodes("A", "", 0), "a", S6A).entries(), [entry(1, 0, "A")]);
    assert_eq!(ask_ulr(nodes("ab", "", 0), "a", S6A).entries(), [entry(1, 0, "ab")]);
}

#[test]
fn subscriptions_are_asked_for_by_interface() {
    let code = |subscription, flags| ask_ulr(Record { subscription, ..record() }, "a", flags).code();
    assert_eq!([code(0, S6A), code(1, S6A), code(2, S6A), code(3, S6A)], ["E5420", "2001", "E5420", "2001"]);
    assert_eq!([code(0, 0), code(1, 0), code(2, 0), code(3, 0)], ["E5420", "2001", "2001", "2001"]);
}

#[test]
fn experimental_results_come_in_their_order() {
    let ask_with = |record: Record, rat_type| ask(&[record], message(ULR, &ulr("a", S6A, rat_type))).code();
    let closed = Record { plmns: vec![[9, 9, 9]], restriction: 16, ..record() };
    assert_eq!(ask_with(Record { subscription: 0, ..closed.clone() }, 1004), "E5420");
    assert_eq!(ask_with(closed.clone(), 1004), "E5421");
    assert_eq!(ask_with(closed, 1000), "E5004");
}

#[test]
fn a_pur_sets_the_bits_asked_for() {
    let pur = |purged, host: &str, flags: Option<u8>| {
        let mut avps = common(host);
        avps.extend(flags.map(|flags| avp("PUR-Flags", &[0xFF, 0xFF, 0xFF, flags])));
        ask(&[nodes("a", "a", purged)], message(PUR, &avps))
    };
    let shown = |asked: &Asked| asked.data(1442).map(|data| crate::table::number(&data));
    for (flags, set) in [(None, 3), (Some(3), 3), (Some(1), 1), (Some(2), 2), (Some(0), 0), (Some(0xFC), 0)] {
        let asked = pur(0, "a", flags);
        assert_eq!(shown(&asked), Some(set));
        assert!(asked.leaves(nodes("a", "a", set as u8)));
    }
    let again = pur(3, "a", Some(1));
    assert_eq!(shown(&again), Some(1));
    assert!(again.unchanged() && !again.noted("purge bit set"));
}

#[test]
fn a_nor_comes_from_a_registered_node() {
    let code = |host: &str| ask(&[nodes("m", "s", 3)], message(NOR, &common(host))).code();
    assert_eq!([code("m"), code("s"), code("x")], ["2001", "2001", "E5423"]);
    let answered = ask(&[nodes("m", "s", 3)], message(NOR, &common("m")));
    assert_eq!(answered.codes(), [263, 268, 277, 264, 296]);
    assert!(answered.unchanged());
}

#[test]
fn an_imei_is_stored_by_ulr_and_nor_alone() {
    let terminal = |imei: &str| avp("Terminal-Information", &avp("IMEI", imei.as_bytes()));
    let held = Record { imei: "123456789012345".to_string(), ..nodes("a", "", 0) };
    let shorter = Record { imei: "98765432109876".to_string(), ..nodes("a", "", 0) };
    let ulr_asked = ask(&[held.clone()], message(ULR, &with(ulr("a", S6A, 1004), terminal("98765432109876"))));
    assert!(ulr_asked.leaves(shorter.clone()) && ulr_asked.noted("IMEI stored"));
    let nor = |imei| ask(&[held.clone()], message(NOR, &with(common("a"), terminal(imei))));
    assert!(nor("98765432109876").leaves(shorter));
    assert_eq!([nor("1234567890123").code(), nor("1234567890123456").code()], ["5004", "5004"]);
    let pur = ask(&[nodes("b", "", 0)], message(PUR, &with(common("a"), terminal("x"))));
    assert_eq!(pur.code(), "2001");
    assert!(pur.unchanged());
    let absent = ask(&[held.clone()], message(NOR, &with(common("a"), avp("Terminal-Information", &[]))));
    assert!(absent.unchanged() && absent.code() == "2001");
}

// "The answer".

/// The whole answer to a ULR with restrictions, written by hand.
#[test]
fn a_ula_byte_by_byte() {
    let asked = ask_ulr(Record { restriction: 1, ..record() }, "a", S6A);
    let expected = hex("010000C4 4000013C 01000023 00000001 00000002
         00000107 4000000B 733B3100
         0000010C 4000000C 000007D1
         00000115 4000000C 00000001
         00000108 40000013 6873732E 6578616D 706C6500
         00000128 4000000F 6578616D 706C6500
         0000057E C0000010 000028AF 00000001
         00000578 C0000058 000028AF
         00000590 C0000010 000028AF 00000000
         00000592 C0000010 000028AF 00000001
         0000059B C000002C 000028AF
         00000204 C0000010 000028AF 01020304
         00000203 C0000010 000028AF 05060708");
    assert_eq!(asked.answer, expected);
    let skipped = ask_ulr(record(), "a", S6A | SKIP);
    assert_eq!(skipped.codes(), [263, 268, 277, 264, 296, 1406]);
}

#[test]
fn header_flags_of_an_answer() {
    let flags = |flags: u8, application: u32| {
        let request = build::message(flags, PUR, application, 1, 2, &common("a").concat());
        ask(&[record()], request).answer[4]
    };
    // R alone; R and P; R, T and the reserved bits; everything but E.
    assert_eq!(flags(0x80, APPLICATION), 0x00);
    assert_eq!(flags(0xC0, APPLICATION), 0x40);
    assert_eq!(flags(0x9F, APPLICATION), 0x00);
    assert_eq!(flags(0xDF, APPLICATION), 0x40);
    // 3007 and 3008.
    assert_eq!(flags(0xDF, 0), 0x60);
    assert_eq!(flags(0x80, 0), 0x20);
    assert_eq!(flags(0xA0, APPLICATION), 0x20);
}

#[test]
fn session_id_and_proxy_info_are_taken_over_with_m_alone() {
    let mut avps = common("a");
    avps[0] = build::avp(263, V | 0x3F, 0, b"odd");
    avps.push(build::avp(284, 0x2F, 0, &[1, 2, 3, 4, 5]));
    avps.push(build::avp(284, V, 0, &[6]));
    let mut request = message(PUR, &avps);
    let last = request.len() - 1;
    request[last] = 0xEE;
    let asked = ask(&[record()], request);
    assert_eq!(asked.answer[20..32], hex("00000107 4000000B 6F646400")[..]);
    let end = hex("0000011C 4000000D 01020304 05000000  0000011C 40000009 06000000");
    assert!(asked.answer.ends_with(&end) && asked.noted("Proxy-Info copied"));
    assert_eq!(asked.codes(), [263, 268, 277, 264, 296, 1442, 284, 284]);
}

#[test]
fn after_header_refusals_and_faults_nothing_is_taken_over() {
    let avps = || with(common("a"), build::avp(284, M, 0, &[1]));
    let codes = |request: Vec<u8>| ask(&[record()], request).codes();
    let edited = |at: usize, byte: u8| {
        let mut request = message(PUR, &avps());
        request[at] = byte;
        request
    };
    assert_eq!(codes(edited(0, 2)), [268, 277, 264, 296]);
    assert_eq!(codes(edited(3, 1)), [268, 277, 264, 296]);
    assert_eq!(codes(edited(4, 0xA0)), [268, 277, 264, 296]);
    let fault = message(PUR, &with(avps(), build::avp(277, M, 0, &[1])));
    assert_eq!(codes(fault), [268, 277, 264, 296, 279]);
    assert_eq!(codes(edited(8, 0)), [263, 268, 277, 264, 296, 284]);
    let strange = build::message(0x80, 999, APPLICATION, 1, 2, &avps().concat());
    assert_eq!(codes(strange), [263, 268, 277, 264, 296, 284]);
}

// Failed-AVP's three kinds.

fn failed(command: u32, avps: &[Vec<u8>]) -> (String, String) {
    let asked = ask(&[record()], message(command, avps));
    let data = asked.data(279).unwrap_or_default();
    (asked.code(), data.iter().map(|byte| format!("{byte:02X}")).collect())
}

fn shows(found: (String, String), code: &str, expected: &str) {
    let expected: String = expected.chars().filter(|c| *c != ' ').collect();
    assert_eq!(found, (code.to_string(), expected));
}

#[test]
fn failed_avp_holds_the_avp_itself() {
    // Unknown, all flag bits set, five bytes of data, padding not zero.
    let mut unknown = build::avp(0x00ABCDEF, 0xFF, 0x01020304, &[9, 8, 7, 6, 5]);
    unknown[17..20].copy_from_slice(&[1, 1, 1]);
    shows(failed(PUR, &with(common("a"), unknown)), "5001", "00ABCDEF FF000011 01020304 09080706 05000000");
    // V with vendor 0 keeps its header of 12 bytes and is a second.
    let second = build::avp(1, V, 0, b"7");
    shows(failed(PUR, &with(common("a"), second)), "5009", "00000001 8000000D 00000000 37000000");
    // The unknown one inside a group stands bare.
    let group = avp("Terminal-Information", &build::avp(0x00ABCDEF, M, 0, &[1]));
    shows(failed(PUR, &with(common("a"), group)), "5001", "00ABCDEF 40000009 01000000");
    // No M: no effect.
    let skipped = build::avp(0x00ABCDEF, 0, 0, &[1]);
    shows(failed(PUR, &with(common("a"), skipped)), "2001", "");
}

#[test]
fn failed_avp_of_a_fault_holds_a_header() {
    let fault = |raw: &str| failed(PUR, &with(common("a"), hex(raw)));
    // Length 7; length 11 with V; past the end; data size.
    shows(fault("00000001 40000007"), "5014", "00000001 40000008");
    shows(fault("00000001 C000000B 00000005"), "5014", "00000001 C000000C 00000005");
    shows(fault("00000001 4F000010 31313131"), "5014", "00000001 4F000008");
    shows(fault("00000115 6000000B 00000000"), "5014", "00000115 60000008");
    // A stump of four bytes, and one of eight with V.
    shows(fault("000005FF"), "5014", "000005FF 00000008");
    shows(fault("00000115 C000000C"), "5014", "00000115 C000000C 00000000");
    // In a group: the bytes after the group's end read as 0 and the stump is shown, not the group.
    shows(fault("00000579 C0000012 000028AF 00000115 C0FF0000"), "5014", "00000115 C000000C 00000000");
    // An AVP whose own padding leaves the group.
    shows(fault("00000579 C0000015 000028AF 00000001 40000009 31000000"), "5014", "00000001 40000008");
}

#[test]
fn the_ninth_nested_group_is_the_fault() {
    let nested =
        |depth: usize, inner: Vec<u8>| (0..depth).fold(inner, |inside, _| avp("Terminal-Information", &inside));
    assert_eq!(failed(PUR, &with(common("a"), nested(8, Vec::new()))).0, "2001");
    shows(failed(PUR, &with(common("a"), nested(9, Vec::new()))), "5004", "00000579 C000000C 000028AF");
    shows(failed(PUR, &with(common("a"), nested(10, Vec::new()))), "5004", "00000579 C000000C 000028AF");
    // An unknown AVP inside eight groups is visited; Proxy-Info there is not entered.
    let unknown = build::avp(0x00ABCDEF, M, 0, &[]);
    assert_eq!(failed(PUR, &with(common("a"), nested(8, unknown.clone()))).0, "5001");
    assert_eq!(failed(PUR, &with(common("a"), nested(8, avp("Proxy-Info", &unknown)))).0, "2001");
    assert_eq!(failed(PUR, &with(common("a"), nested(8, avp("Failed-AVP", &[1, 2, 3])))).0, "2001");
    // A wrong length goes before the depth.
    let mut wrong = avp("Terminal-Information", &[]);
    wrong[7] = 11;
    assert_eq!(failed(PUR, &with(common("a"), nested(8, wrong))).0, "5014");
}

#[test]
fn failed_avp_of_an_absent_avp_has_the_dictionarys_key() {
    let without = |place: usize| {
        let mut avps = ulr("a", S6A, 1004);
        avps.remove(place);
        failed(ULR, &avps)
    };
    shows(without(0), "5005", "00000107 40000008");
    shows(without(1), "5005", "00000115 4000000C 00000000");
    shows(without(2), "5005", "00000108 40000008");
    shows(without(3), "5005", "00000128 40000008");
    shows(without(4), "5005", "0000011B 40000008");
    shows(without(5), "5005", "00000001 40000008");
    shows(without(6), "5005", "00000408 C0000010 000028AF 00000000");
    shows(without(7), "5005", "0000057D C0000010 000028AF 00000000");
    shows(without(8), "5005", "0000057F C000000C 000028AF");
    shows(failed(ULR, &[]), "5005", "00000107 40000008");
}

#[test]
fn seconds_come_in_message_order() {
    let imei = |digits: &str| avp("IMEI", digits.as_bytes());
    let twice = avp("Terminal-Information", &[imei("12345678901234"), imei("x")].concat());
    let once = avp("Terminal-Information", &imei("12345678901234"));
    let user_name = avp("User-Name", b"2");
    let after = |more: &[&Vec<u8>]| {
        let mut avps = ulr("a", S6A, 1004);
        avps.extend(more.iter().map(|avp| avp.to_vec()));
        ask(&[record()], message(ULR, &avps)).notes
    };
    assert_eq!(after(&[&twice, &user_name]), ["5009 IMEI"]);
    assert_eq!(after(&[&user_name, &twice]), ["5009 User-Name"]);
    assert_eq!(after(&[&once, &twice]), ["5009 Terminal-Information"]);
    assert_eq!(after(&[&twice, &once]), ["5009 IMEI"]);
    shows(failed(ULR, &with(ulr("a", S6A, 1004), twice)), "5009", "0000057A C000000D 000028AF 78000000");
    // A PUR uses neither Terminal-Information nor NOR-Flags.
    let flags = avp("NOR-Flags", &[0; 4]);
    let pur = [common("a"), vec![once.clone(), once, flags.clone(), flags]].concat();
    assert_eq!(failed(PUR, &pur).0, "2001");
}

#[test]
fn values_are_judged_in_their_order() {
    let mut avps = ulr("", S6A, 1004);
    avps[5] = avp("User-Name", b"12345");
    avps[8] = avp("Visited-PLMN-Id", &[1, 2]);
    avps.push(avp("Terminal-Information", &avp("IMEI", b"1")));
    shows(failed(ULR, &avps), "5004", "00000001 4000000D 31323334 35000000");
    avps[5] = avp("User-Name", IMSI.as_bytes());
    shows(failed(ULR, &avps), "5004", "00000108 40000008");
    avps[2] = avp("Origin-Host", b"a");
    shows(failed(ULR, &avps), "5004", "0000057F C000000E 000028AF 01020000");
    avps[8] = avp("Visited-PLMN-Id", &[1, 2, 3]);
    shows(failed(ULR, &avps), "5004", "0000057A C000000D 000028AF 31000000");
}

// "Refusals without an answer" and the order of all refusals.

#[test]
fn refusals_without_an_answer_come_in_their_order() {
    let good = || {
        let table = build::table(&[record()]);
        (table, message(PUR, &common("a")), b"h".to_vec(), b"r".to_vec(), vec![1u8; 4352], vec![2u8; 136])
    };
    let mut all = (vec![0; 7], vec![0; 19], Vec::new(), vec![0x20], vec![1; 4351], vec![2; 135]);
    let mut found = Vec::new();
    for step in 0..8 {
        match step {
            1 => all.4 = good().4,
            2 => all.5 = good().5,
            3 => all.2 = good().2,
            4 => all.3 = good().3,
            5 => all.0 = good().0,
            6 => all.1 = vec![0; 20],
            7 => all.1 = good().1,
            _ => {}
        }
        let (table, request, host, realm, answer, cancel) = all.clone();
        let case = Case::Request { table, request, host, realm, answer, cancel };
        let judged = judge(dictionary(), &case);
        if let Outcome::Request { number, length, table, answer, cancel } = judged.outcome {
            found.push(number);
            let kept = (&table, &answer, &cancel) == (&all.0, &all.4, &all.5);
            assert_eq!((kept, length == 0), (number != 0, number != 0));
        }
    }
    assert_eq!(found, [3, 3, 5, 5, 4, 1, 2, 0]);
}

#[test]
fn sizes_at_their_edges() {
    let number = |host: &[u8], realm: &[u8], answer: usize, cancel: usize, request: usize| {
        let case = Case::Request {
            table: build::table(&[]),
            request: vec![0x80; request],
            host: host.to_vec(),
            realm: realm.to_vec(),
            answer: vec![0; answer],
            cancel: vec![0; cancel],
        };
        match judge(dictionary(), &case).outcome {
            Outcome::Request { number, .. } => number,
            Outcome::Correction { .. } => unreachable!(),
        }
    };
    let (n64, n65) = ([b'n'; 64], [b'n'; 65]);
    assert_eq!(number(&n64, &n64, 4352, 136, 20), 0);
    assert_eq!(number(&n65, b"r", 4352, 136, 20), 5);
    assert_eq!(number(b"h", &n65, 4352, 136, 20), 5);
    assert_eq!(number(b"h", b"", 4352, 136, 20), 5);
    assert_eq!(number(b"\x20", b"r", 4352, 136, 20), 5);
    assert_eq!(number(b"\x7F", b"r", 4352, 136, 20), 5);
    assert_eq!(number(b"\x21", b"\x7E", 9000, 999, 4096), 0);
    assert_eq!(number(b"h", b"r", 4352, 136, 19), 1);
    assert_eq!(number(b"h", b"r", 4352, 136, 4097), 1);
    assert_eq!(number(b"h", b"r", 4351, 136, 20), 3);
    assert_eq!(number(b"h", b"r", 4352, 135, 20), 3);
}

/// A request with everything wrong, mended one by one.
#[test]
fn refusals_with_an_answer_come_in_their_order() {
    let mut avps = common("a");
    avps[5] = avp("User-Name", b"999999");
    let absent = common("a")[1..].to_vec();
    let short = with(absent.clone(), avp("User-Name", b"1"));
    let unknown = with(short.clone(), build::avp(9999, M, 0, &[]));
    let fault = with(unknown.clone(), build::avp(277, M, 0, &[]));
    let build = |flags: u8, command: u32, application: u32, avps: &[Vec<u8>]| {
        build::message(flags, command, application, 1, 2, &avps.concat())
    };
    let mut length = build(0xA0, 1, 2, &fault);
    length[3] ^= 4;
    let mut version = length.clone();
    version[0] = 0;
    let mut odd = build(0xA0, 1, 2, &[fault.concat(), vec![0]]);
    odd[3] = odd.len() as u8;
    let mut wrong_name = common("b c");
    wrong_name[5] = avp("User-Name", b"1");
    let asked = [
        (version, "5011"),
        (length, "5015"),
        (odd, "5015"),
        (build(0xA0, 1, 2, &fault), "3008"),
        (build(0x80, 1, 2, &fault), "5014"),
        (build(0x80, 1, 2, &unknown), "3007"),
        (build(0x80, 1, APPLICATION, &unknown), "3001"),
        (build(0x80, PUR, APPLICATION, &unknown), "5001"),
        (build(0x80, PUR, APPLICATION, &short), "5009"),
        (build(0x80, PUR, APPLICATION, &absent), "5005"),
        (build(0x80, PUR, APPLICATION, &wrong_name), "5004"),
        (build(0x80, PUR, APPLICATION, &avps), "E5001"),
    ];
    for (request, code) in asked {
        let asked = ask(&[record()], request);
        assert_eq!(asked.code(), code);
        assert!(asked.unchanged() && asked.entries().is_empty());
        assert_eq!(asked.cancel[..136], [0; 136]);
    }
}

#[test]
fn header_fields_come_back_as_received() {
    let mut request = build::message(0x8F, 0x00ABCDEF, 0x01020304, 0x05060708, 0x090A0B0C, &[]);
    request[0] = 9;
    let asked = ask(&[], request);
    assert_eq!(asked.code(), "5011");
    assert_eq!(asked.answer[..4], [1, 0, 0, asked.answer.len() as u8]);
    assert_eq!(asked.answer[4..20], hex("00ABCDEF 01020304 05060708 090A0B0C")[..]);
}

// "The table".

/// A byte written over the table of one record, and the rule that it breaks first.
const BROKEN: [(usize, u8, &str); 30] = [
    (3, 9, "length field"),
    (4, 2, "version"),
    (5, 1, "zero byte"),
    (6, 1, "count"),
    (7, 2, "size"),
    (8, 5, "IMSI count"),
    (8, 16, "IMSI count"),
    (9, 0x3A, "IMSI digit"),
    (8 + 15, 1, "IMSI end"),
    (8 + 20, 4, "subscription bits"),
    (8 + 21, 1, "unlisted byte"),
    (8 + 31, 1, "unlisted byte"),
    (8 + 63, 1, "unlisted byte"),
    (8 + 195, 1, "unlisted byte"),
    (8 + 220, 1, "unlisted byte"),
    (8 + 255, 1, "unlisted byte"),
    (8 + 28, 9, "PLMN count"),
    (8 + 35, 1, "PLMN end"),
    (8 + 56, 4, "purge bits"),
    (8 + 64, 65, "MME length"),
    (8 + 65, 0x20, "MME byte"),
    (8 + 64, 1, "MME end"),
    (8 + 64, 3, "MME byte"),
    (8 + 129, 255, "SGSN length"),
    (8 + 130, 0x7F, "SGSN byte"),
    (8 + 193, 1, "SGSN end"),
    (8 + 204, 13, "IMEI count"),
    (8 + 205, 0x2F, "IMEI digit"),
    (8 + 219, 1, "IMEI end"),
    (8 + 204, 16, "IMEI count"),
];

#[test]
fn a_table_breaks_each_rule() {
    let full = Record {
        plmns: vec![[1, 2, 3]],
        purged: 3,
        imei: "12345678901234".to_string(),
        imsi: "123456".to_string(),
        ..nodes("mm", "ss", 3)
    };
    let good = build::table(&[full]);
    assert_eq!(broken_rule(&good), None);
    for (at, byte, rule) in BROKEN {
        let mut table = good.clone();
        table[at] = byte;
        assert_eq!(broken_rule(&table), Some(rule), "byte {at}");
    }
    assert_eq!(broken_rule(&good[..7]), Some("length short"));
    assert_eq!(broken_rule(&[]), Some("length short"));
}

#[test]
fn a_purge_bit_needs_the_name_of_its_own_node() {
    let rule = |mme: &str, sgsn: &str, purged| broken_rule(&build::table(&[nodes(mme, sgsn, purged)]));
    assert_eq!(rule("", "s", 1), Some("purge without name"));
    assert_eq!(rule("m", "", 2), Some("purge without name"));
    assert_eq!(rule("m", "", 1), None);
    assert_eq!(rule("", "s", 2), None);
}

#[test]
fn records_ascend_strictly_and_number_at_most_240() {
    let of = |imsi: &str| Record { imsi: imsi.to_string(), ..record() }.bytes();
    assert_eq!(broken_rule(&build::table_of(&[of("999999"), of("1000000")])), None);
    assert_eq!(broken_rule(&build::table_of(&[of("1000000"), of("999999")])), Some("order"));
    assert_eq!(broken_rule(&build::table_of(&[of("123456"), of("123456")])), Some("order"));
    let many = |count: u32| build::table_of(&(0..count).map(|n| of(&format!("{:06}", n))).collect::<Vec<_>>());
    assert_eq!(broken_rule(&many(0)), None);
    assert_eq!(broken_rule(&many(240)), None);
    assert_eq!(broken_rule(&many(241)), Some("count"));
    assert_eq!(find(&many(240), &build::imsi_field("000239")), Some(8 + 239 * 256..8 + 240 * 256));
    assert_eq!(find(&many(240), &build::imsi_field("0000239")), None);
}

// "Corrections".

#[test]
fn correction_numbers_come_in_their_order() {
    let imsi = build::imsi_field(IMSI);
    let table = build::table(&[record()]);
    let number = |table: &[u8], frame: &[u8]| {
        let mut after = table.to_vec();
        let number = correct(&mut after, frame, &mut Vec::new());
        assert_eq!(after == table, number != 0);
        number
    };
    let frame = |kind: u8, imsi: &[u8; 16], seen: u32, value: &[u8]| build::correction(kind, imsi, seen, value);
    assert_eq!(number(&table[1..], &[]), 4);
    assert_eq!(number(&table, &[0; 23]), 11);
    let mut wrong = frame(9, &[0; 16], 0, &[255; 2]);
    wrong[2] = 2;
    assert_eq!(number(&table, &[wrong.as_slice(), &[0]].concat()), 11);
    assert_eq!(number(&table, &wrong), 12);
    assert_eq!(number(&table, &frame(0, &[0; 16], 0, &[255; 2])), 13);
    assert_eq!(number(&table, &frame(5, &[0; 16], 0, &[255; 2])), 13);
    assert_eq!(number(&table, &frame(1, &[0; 16], 0, &[255; 2])), 14);
    assert_eq!(number(&table, &frame(1, &[0; 16], 0, &[4])), 15);
    assert_eq!(number(&table, &frame(1, &[0; 16], 0, &[3])), 16);
    assert_eq!(number(&table, &frame(1, &imsi, 8, &[3])), 17);
    assert_eq!(number(&table, &frame(1, &imsi, 7, &[3])), 0);
    let long = vec![0; 65536 + 25];
    assert_eq!(number(&table, &long), 11);
}

#[test]
fn each_kind_stores_its_bytes() {
    let stored = |kind: u8, value: &[u8]| {
        let mut table = build::table(&[record()]);
        let frame = build::correction(kind, &build::imsi_field(IMSI), 7, value);
        (correct(&mut table, &frame, &mut Vec::new()), table)
    };
    let left = |record: Record| (0, build::table(&[Record { change: 8, ..record }]));
    assert_eq!(stored(1, &[2]), left(Record { subscription: 2, ..record() }));
    assert_eq!(stored(2, &[1, 2, 3, 4]), left(Record { restriction: 0x01020304, ..record() }));
    assert_eq!(stored(4, &[9; 8]), left(Record { uplink: 0x09090909, downlink: 0x09090909, ..record() }));
    let mut plmns = [0; 25];
    plmns[..7].copy_from_slice(&[2, 1, 2, 3, 4, 5, 6]);
    assert_eq!(stored(3, &plmns), left(Record { plmns: vec![[1, 2, 3], [4, 5, 6]], ..record() }));
    plmns[7] = 1;
    assert_eq!(stored(3, &plmns).0, 15);
    assert_eq!(stored(3, &[8; 25]).0, 0);
    assert_eq!(stored(3, &[9; 25]).0, 15);
    for (kind, size) in [(1, 1), (2, 4), (3, 25), (4, 8)] {
        assert_eq!(stored(kind, &vec![0; size]).0, 0);
        assert_eq!(stored(kind, &vec![0; size - 1]).0, 14);
        assert_eq!(stored(kind, &vec![0; size + 1]).0, 14);
    }
}

#[test]
fn the_change_number_wraps() {
    let mut table = build::table(&[Record { change: u32::MAX, ..record() }]);
    let frame = build::correction(1, &build::imsi_field(IMSI), u32::MAX, &[3]);
    let mut notes = Vec::new();
    assert_eq!(correct(&mut table, &frame, &mut notes), 0);
    assert_eq!(table, build::table(&[Record { change: 0, ..record() }]));
    assert_eq!(notes, ["correction 0 kind 1", "correction 0 wrapped"]);
}

// The desk program.

fn desk_lines(input: &[u8]) -> String {
    let mut out = Vec::new();
    desk::run(dictionary(), &mut &input[..], &mut out).unwrap();
    String::from_utf8(out).unwrap()
}

fn frame(kind: u8, data: &[u8]) -> Vec<u8> {
    [&(6 + data.len() as u32).to_be_bytes()[..], &[1, kind], data].concat()
}

#[test]
fn the_desk_example() {
    let input = hex("0000000E 01 01 00000008 01 00 0000  00000009 01 02 010203  00000009 01 03 010203");
    assert_eq!(desk_lines(&input), "1 T 0 0 0\n2 R 1 0 0\n3 C 11 0 0\n");
}

#[test]
fn the_desk_keeps_its_table() {
    let record = nodes("a", "s", 0);
    let request = message(ULR, &ulr("b", S6A | ATTACH, 1004));
    let table = frame(1, &build::table(&[record]));
    let input = [
        frame(2, &request),
        table,
        frame(2, &request),
        frame(2, &request),
        frame(1, &[1, 2, 3]),
        frame(3, &build::correction(1, &build::imsi_field(IMSI), 7, &[0])),
        frame(2, &request),
        frame(2, &message(PUR, &common("b")[1..])),
    ]
    .concat();
    // 112 = 20 + 12 (Session-Id) + 32 + 12 + 20 + 16; 180 = 20 + 12 + 12 + 12 + 20 + 16 + 16 + 72;
    // 96 = 20 + 12 + 12 + 20 + 16 + 16 (Failed-AVP), no Session-Id being there.
    let lines = [
        "1 R E5001 112 0",
        "2 T 0 0 0",
        "3 R 2001 180 2",
        "4 R 2001 180 0",
        "5 T 4 0 0",
        "6 C 0 0 0",
        "7 R E5420 112 0",
        "8 R 5005 96 0",
        "",
    ];
    assert_eq!(desk_lines(&input), lines.join("\n"));
}

#[test]
fn the_desk_ends_at_a_bad_frame() {
    let good = frame(1, &[]);
    let after = |bad: &str| desk_lines(&[good.clone(), hex(bad), good.clone()].concat());
    let ended = "1 T 4 0 0\n2 X 0 0 0\n";
    for bad in
        ["00000005 01", "00000000", "00010001 0101", "00000006 0201", "00000006 0104", "00000006 0100", "FFFFFFFF"]
    {
        assert_eq!(after(bad), ended, "{bad}");
    }
    for bad in ["00", "000000", "00000006", "00000006 01", "00000007 0101"] {
        assert_eq!(desk_lines(&[good.clone(), hex(bad)].concat()), ended, "{bad}");
    }
    assert_eq!(desk_lines(&[]), "");
    assert_eq!(desk_lines(&good), "1 T 4 0 0\n");
    assert_eq!(desk_lines(&frame(2, &[0; 65530])), "1 R 1 0 0\n");
    assert_eq!(desk_lines(&frame(2, &[0; 65531])), "1 X 0 0 0\n");
}

// Demand 3: requests of newer nodes.

/// A ULR on S6a that displaces MME a, with an IMEI and a Proxy-Info; `unknown` stands before, between, after and in its AVPs, and `bits` are set
/// in the flags of its header and AVPs.
fn newer_ulr(unknown: &[u8], bits: u8, word: u32) -> Vec<u8> {
    let terminal = avp("Terminal-Information", &[unknown, &avp("IMEI", b"12345678901234")[..], unknown].concat());
    let mut avps = ulr("b", S6A | word, 1004);
    avps.extend([terminal, avp("Proxy-Info", b"xyz")]);
    for avp in &mut avps {
        avp[4] |= bits;
    }
    let between = avps.iter().flat_map(|avp| [&avp[..], unknown].concat());
    let stretch: Vec<u8> = unknown.iter().copied().chain(between).collect();
    build::message(0xC0 | bits & 0x1F, ULR, APPLICATION, 1, 2, &stretch)
}

#[test]
fn what_a_newer_node_adds_changes_nothing() {
    let plain = ask(&[nodes("a", "", 0)], newer_ulr(&[], 0, 0));
    assert_eq!((plain.code().as_str(), plain.entries()), ("2001", vec![entry(1, 0, "a")]));
    let newer = ask(&[nodes("a", "", 0)], newer_ulr(&build::avp(5000, V | 0x3F, 10415, b"new"), 0x3F, 0xFFFF_FFD8));
    assert!((plain.answer, plain.after, plain.cancel) == (newer.answer, newer.after, newer.cancel));
}

#[test]
fn an_added_avp_with_m_is_refused() {
    let unknown = build::avp(5000, V | M | 0x3F, 10415, b"new");
    let newer = ask(&[nodes("a", "", 0)], newer_ulr(&unknown, 0, 0));
    assert_eq!((newer.code().as_str(), newer.entries()), ("5001", Vec::new()));
    assert_eq!(newer.codes(), [263, 268, 277, 264, 296, 279, 284]);
    assert_eq!((newer.data(279), newer.unchanged()), (Some(unknown), true));
}

/// The outcomes of generated pairs, and the notes of their second requests.
fn generated_pairs(mandatory: bool) -> Vec<(Outcome, Outcome, Vec<String>)> {
    let mut bytes = Vec::new();
    crate::gen::widened(dictionary(), 3, 200, mandatory, &mut bytes).unwrap();
    let mut input = &bytes[..];
    let mut judged = move || protocol::read_case(&mut input).unwrap().map(|case| judge(dictionary(), &case));
    let pair = || Some((judged()?.outcome, judged()?));
    std::iter::from_fn(pair).map(|(first, second)| (first, second.outcome, second.notes)).collect()
}

#[test]
fn generated_widenings_come_to_the_same_or_to_5001() {
    let (same, refused) = (generated_pairs(false), generated_pairs(true));
    assert_eq!((same.len(), refused.len()), (200, 200));
    assert!(same.iter().all(|(first, second, _)| first == second));
    assert!(refused.iter().all(|(first, second, notes)| first != second && notes[0].starts_with("5001 ")));
}

// The message reader and the protocol.

#[test]
fn the_reader_says_where_a_fault_lies() {
    let d = dictionary();
    let verdict = |avps: &[Vec<u8>]| reader::verdict(d, &message(PUR, avps));
    assert_eq!(verdict(&common("a")), [0, 0, 0]);
    assert_eq!(reader::verdict(d, &[1, 2, 3]), [0, 0, 0]);
    assert_eq!(verdict(&[avp("User-Name", b"1"), build::avp(277, M, 0, &[])]), [5014, 32, 40]);
    let group = avp("Terminal-Information", &[avp("IMEI", b"1234"), build::avp(9999, M, 0, &[1])].concat());
    assert_eq!(verdict(&[group.clone(), avp("User-Name", b"1")]), [5001, 48, 60]);
    // A fault goes before an unknown AVP that stands earlier.
    assert_eq!(verdict(&[group, vec![1, 2]]), [5014, 60, 62]);
    // A long answer is read as well.
    let long = build::avp(284, M, 0, &[0; 5000]);
    assert_eq!(verdict(&[long, build::avp(9999, M, 0, &[])]), [5001, 5028, 5036]);
}

#[test]
fn cases_and_outcomes_go_through_the_protocol() {
    let mut bytes = Vec::new();
    let case = Case::Correction { table: vec![1, 2], frame: vec![3] };
    protocol::write_case(&mut bytes, &case).unwrap();
    assert_eq!(bytes, hex("02 00000002 0102 00000001 03"));
    assert!(protocol::read_case(&mut &bytes[..bytes.len() - 1]).is_err());
    assert!(protocol::read_case(&mut &bytes[..]).unwrap().is_some());
    assert!(protocol::read_case(&mut &[][..]).unwrap().is_none());
    assert!(protocol::read_case(&mut &[3][..]).is_err());
    let outcome = Outcome::Request { number: 1, length: 2, table: vec![3], answer: vec![4, 5], cancel: Vec::new() };
    let mut bytes = Vec::new();
    protocol::write_outcome(&mut bytes, &outcome).unwrap();
    assert_eq!(bytes, hex("00000001 00000002 00000001 03 00000002 0405 00000000"));
    assert_eq!(protocol::read_outcome(1, &mut &bytes[..]).unwrap(), outcome);
}
