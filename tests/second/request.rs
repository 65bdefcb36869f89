//! "Refusals with an answer" of document 01, Result-Codes: the first that applies, or the request to be carried out.

use crate::build::{avp, M, V};
use crate::dictionary::{Dictionary, Kind};
use crate::reader::{self, Avp, Header, Unknown, Visit};
use crate::table::{are_digits, imsi_as_stored, is_name, number};

const APPLICATION: u32 = 16777251;

#[derive(Clone, Copy, PartialEq, Eq, Debug)]
pub enum Command {
    Ulr,
    Pur,
    Nor,
}

impl Command {
    /// The command code: Update-Location 316, Purge-UE 321, Notify 323.
    pub fn code(self) -> u32 {
        match self {
            Command::Ulr => 316,
            Command::Pur => 321,
            Command::Nor => 323,
        }
    }

    fn of(code: u32) -> Option<Command> {
        [Command::Ulr, Command::Pur, Command::Nor].into_iter().find(|command| command.code() == code)
    }

    pub fn name(self) -> &'static str {
        match self {
            Command::Ulr => "ULR",
            Command::Pur => "PUR",
            Command::Nor => "NOR",
        }
    }

    /// "Required: Session-Id, Auth-Session-State (any value), Origin-Host, Origin-Realm, Destination-Realm,
    /// User-Name; for ULR also RAT-Type, ULR-Flags, Visited-PLMN-Id."
    pub fn required(self) -> &'static [&'static str] {
        const ULR: [&str; 9] = [
            "Session-Id",
            "Auth-Session-State",
            "Origin-Host",
            "Origin-Realm",
            "Destination-Realm",
            "User-Name",
            "RAT-Type",
            "ULR-Flags",
            "Visited-PLMN-Id",
        ];
        match self {
            Command::Ulr => &ULR,
            Command::Pur | Command::Nor => &ULR[..6],
        }
    }

    /// "Used when there: Proxy-Info; PUR-Flags in PUR; NOR-Flags in NOR; Terminal-Information in ULR and NOR".
    /// Proxy-Info stands apart, since a second one is no fault.
    pub fn used_when_there(self) -> &'static [&'static str] {
        match self {
            Command::Ulr => &["Terminal-Information"],
            Command::Pur => &["PUR-Flags"],
            Command::Nor => &["NOR-Flags", "Terminal-Information"],
        }
    }

    /// The flag word whose bits 01 uses.
    fn flag_word(self) -> &'static str {
        match self {
            Command::Ulr => "ULR-Flags",
            Command::Pur => "PUR-Flags",
            Command::Nor => "NOR-Flags",
        }
    }
}

/// A Result-Code, the AVP that Failed-AVP holds, and the row of the tally.
#[derive(Debug)]
pub struct Refusal {
    pub code: u32,
    pub failed: Option<Vec<u8>>,
    pub note: String,
}

/// What the answer takes over from the request.
#[derive(Default)]
pub struct Echo {
    pub session_id: Option<Vec<u8>>,
    pub proxy_infos: Vec<Vec<u8>>,
}

/// A request that no Result-Code refuses.
pub struct Accepted {
    pub command: Command,
    pub imsi: [u8; 16],
    pub origin_host: Vec<u8>,
    /// The command's own flag word, if there.
    pub flags: Option<u32>,
    /// 0 where the command does not use it.
    pub rat_type: u32,
    /// Empty where the command does not use it.
    pub visited_plmn_id: Vec<u8>,
    pub imei: Option<Vec<u8>>,
}

/// All Result-Codes in order. "After 5011, 5015, 3008 and faults of the visit no Session-Id and no Proxy-Info."
pub fn read(dictionary: &Dictionary, message: &[u8]) -> (Echo, Result<Accepted, Refusal>) {
    let header = Header::read(message);
    if let Err(refusal) = header_refusal(&header, message.len()) {
        return (Echo::default(), Err(refusal));
    }
    let visit = reader::visit(dictionary, message);
    if let Err(refusal) = fault_refusal(&visit) {
        return (Echo::default(), Err(refusal));
    }
    let top = reader::list(message, reader::HEADER, message.len());
    let request = Request { dictionary, message, header, unknown: visit.unknown, top };
    (request.echo(), request.accepted())
}

fn refuse<T>(code: u32, failed: Option<Vec<u8>>, note: String) -> Result<T, Refusal> {
    Err(Refusal { code, failed, note })
}

fn header_refusal(header: &Header, length: usize) -> Result<(), Refusal> {
    if header.version != 1 {
        // "5011 | version not 1"
        refuse(5011, None, "5011".to_string())
    } else if header.length as usize != length {
        // "5015 | length field not the bytes given .."
        refuse(5015, None, "5015 length".to_string())
    } else if length % 4 != 0 {
        // ".. or no multiple of 4"
        refuse(5015, None, "5015 multiple of 4".to_string())
    } else if header.flags & reader::E != 0 {
        // "3008 | E bit set"
        refuse(3008, None, "3008".to_string())
    } else {
        Ok(())
    }
}

/// "5014 / 5004 | first fault of the visit"; Failed-AVP holds "its code, flags, vendor and no data".
fn fault_refusal(visit: &Visit) -> Result<(), Refusal> {
    match visit.fault {
        None => Ok(()),
        Some((fault, at)) => {
            let failed = avp(at.code, at.flags, at.vendor, &[]);
            refuse(fault.code(), Some(failed), format!("{} {}", fault.code(), fault.name()))
        }
    }
}

/// A request whose header is right and whose visit met no fault.
struct Request<'a> {
    dictionary: &'a Dictionary,
    message: &'a [u8],
    header: Header,
    unknown: Option<Unknown>,
    /// "Used AVPs, Session-Id and Proxy-Info are looked for at the top level only"
    top: Vec<Avp>,
}

impl Request<'_> {
    fn accepted(&self) -> Result<Accepted, Refusal> {
        self.application()?;
        let command = self.command()?;
        self.no_unknown_mandatory()?;
        self.no_second(command)?;
        self.none_absent(command)?;
        self.values_right(command)?;
        Ok(self.taken(command))
    }

    /// "3007 | application not 16777251"
    fn application(&self) -> Result<(), Refusal> {
        match self.header.application {
            APPLICATION => Ok(()),
            _ => refuse(3007, None, "3007".to_string()),
        }
    }

    /// "3001 | command not 316, 321, 323"
    fn command(&self) -> Result<Command, Refusal> {
        match Command::of(self.header.command) {
            Some(command) => Ok(command),
            None => refuse(3001, None, "3001".to_string()),
        }
    }

    /// "5001 | visited unknown AVP with M set; the first"
    fn no_unknown_mandatory(&self) -> Result<(), Refusal> {
        match self.unknown {
            None => Ok(()),
            Some(Unknown { avp, depth: 0 }) => refuse(5001, Some(self.whole(&avp)), "5001 top".to_string()),
            Some(Unknown { avp, .. }) => refuse(5001, Some(self.whole(&avp)), "5001 in a group".to_string()),
        }
    }

    /// "5009 | second of an AVP that the command uses, Proxy-Info excepted; the first in message order"
    fn no_second(&self, command: Command) -> Result<(), Refusal> {
        let used = || command.required().iter().chain(command.used_when_there());
        for (place, avp) in self.top.iter().enumerate() {
            let named = used().find(|name| self.dictionary.key(name) == avp.key());
            let name = match named {
                Some(name) => name,
                None => continue,
            };
            if self.top[..place].iter().any(|before| before.key() == avp.key()) {
                return refuse(5009, Some(self.whole(avp)), format!("5009 {name}"));
            }
            if let ("Terminal-Information", Some(second)) = (*name, self.imeis(avp).get(1)) {
                return refuse(5009, Some(self.whole(second)), "5009 IMEI".to_string());
            }
        }
        Ok(())
    }

    /// "5005 | a required AVP absent; the first in the order below"
    fn none_absent(&self, command: Command) -> Result<(), Refusal> {
        match command.required().iter().find(|name| self.first(name).is_none()) {
            None => Ok(()),
            Some(name) => refuse(5005, Some(self.absent(name)), format!("5005 {name}")),
        }
    }

    /// "5004 | User-Name not 6–15 digits; Origin-Host not 1–64 name bytes; Visited-PLMN-Id not 3 bytes; IMEI not 14
    /// or 15 digits; in this order"
    fn values_right(&self, command: Command) -> Result<(), Refusal> {
        self.value_right("User-Name", self.first("User-Name"), |data| are_digits(data, 6..=15))?;
        self.value_right("Origin-Host", self.first("Origin-Host"), is_name)?;
        if command == Command::Ulr {
            self.value_right("Visited-PLMN-Id", self.first("Visited-PLMN-Id"), |data| data.len() == 3)?;
        }
        self.value_right("IMEI", self.imei(command), |data| are_digits(data, 14..=15))
    }

    fn value_right(&self, name: &str, avp: Option<Avp>, right: impl Fn(&[u8]) -> bool) -> Result<(), Refusal> {
        match avp {
            Some(avp) if !right(avp.data(self.message)) => refuse(5004, Some(self.whole(&avp)), format!("5004 {name}")),
            _ => Ok(()),
        }
    }

    fn taken(&self, command: Command) -> Accepted {
        let used = |name| self.first(name).filter(|_| command == Command::Ulr);
        Accepted {
            command,
            imsi: imsi_as_stored(&self.data(self.first("User-Name"))),
            origin_host: self.data(self.first("Origin-Host")),
            flags: self.first(command.flag_word()).map(|avp| number(avp.data(self.message))),
            rat_type: number(&self.data(used("RAT-Type"))),
            visited_plmn_id: self.data(used("Visited-PLMN-Id")),
            imei: self.imei(command).map(|avp| avp.data(self.message).to_vec()),
        }
    }

    /// "Session-Id (the first, if any)"; "each Proxy-Info in order, its data as received"
    fn echo(&self) -> Echo {
        let proxy_info = self.dictionary.key("Proxy-Info");
        let proxy_infos = self.top.iter().filter(|avp| avp.key() == proxy_info);
        Echo {
            session_id: self.first("Session-Id").map(|avp| avp.data(self.message).to_vec()),
            proxy_infos: proxy_infos.map(|avp| avp.data(self.message).to_vec()).collect(),
        }
    }

    fn first(&self, name: &str) -> Option<Avp> {
        let key = self.dictionary.key(name);
        self.top.iter().copied().find(|avp| avp.key() == key)
    }

    fn data(&self, avp: Option<Avp>) -> Vec<u8> {
        avp.map_or(Vec::new(), |avp| avp.data(self.message).to_vec())
    }

    /// "IMEI directly in Terminal-Information"
    fn imeis(&self, terminal_information: &Avp) -> Vec<Avp> {
        let key = self.dictionary.key("IMEI");
        reader::members(self.message, terminal_information).into_iter().filter(|avp| avp.key() == key).collect()
    }

    /// "Terminal-Information in ULR and NOR, and its IMEI, which may be absent"
    fn imei(&self, command: Command) -> Option<Avp> {
        let terminal_information = self.first("Terminal-Information").filter(|_| command != Command::Pur)?;
        self.imeis(&terminal_information).first().copied()
    }

    /// "Failed-AVP holds the AVP itself, its data as received, padding after it zero"
    fn whole(&self, shown: &Avp) -> Vec<u8> {
        avp(shown.code, shown.flags, shown.vendor, shown.data(self.message))
    }

    /// "for 5005 the dictionary's key, M, and four zero bytes for a 4-byte type, else no data"
    fn absent(&self, name: &str) -> Vec<u8> {
        let (vendor, code) = self.dictionary.key(name);
        let data: &[u8] = match self.dictionary.kind(vendor, code) {
            Some(Kind::Four) => &[0; 4],
            _ => &[],
        };
        avp(code, if vendor == 0 { M } else { M | V }, vendor, data)
    }
}
