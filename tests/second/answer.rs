//! "The answer" of document 01: its header and its AVPs in order.

use crate::build::{self, M, V};
use crate::dictionary::Dictionary;
use crate::reader::{Header, E, P};
use crate::request::Echo;
use crate::table;
use std::fmt;

const VENDOR: u32 = 10415;

/// "A Result-Code and an Experimental-Result-Code are separate numberings"
#[derive(Clone, Copy, PartialEq, Eq, Debug)]
pub enum Code {
    Result(u32),
    Experimental(u32),
}

/// The desk's way to write a code: "E before an Experimental one".
impl fmt::Display for Code {
    fn fmt(&self, f: &mut fmt::Formatter) -> fmt::Result {
        match self {
            Code::Result(code) => write!(f, "{code}"),
            Code::Experimental(code) => write!(f, "E{code}"),
        }
    }
}

/// What one answer is made of.
pub struct Answer<'a> {
    pub dictionary: &'a Dictionary,
    pub header: Header,
    pub echo: Echo,
    pub code: Code,
    pub host: &'a [u8],
    pub realm: &'a [u8],
    /// The AVP that Failed-AVP holds.
    pub failed: Option<Vec<u8>>,
    /// The AVPs that only a success has.
    pub success: Vec<u8>,
}

impl Answer<'_> {
    /// "Version 1; R, E, T clear but E set for 3xxx; P, command, application and both identifiers as received."
    pub fn bytes(&self) -> Vec<u8> {
        let error = match self.code {
            Code::Result(3000..=3999) => E,
            _ => 0,
        };
        let header = &self.header;
        let flags = header.flags & P | error;
        build::message(flags, header.command, header.application, header.hop, header.end, &self.avps())
    }

    fn avps(&self) -> Vec<u8> {
        let own = |name, data: &[u8]| avp(self.dictionary, name, data);
        let mut avps = Vec::new();
        if let Some(session_id) = &self.echo.session_id {
            avps.extend(own("Session-Id", session_id));
        }
        avps.extend(self.result());
        avps.extend(own("Auth-Session-State", &number(1)));
        avps.extend(own("Origin-Host", self.host));
        avps.extend(own("Origin-Realm", self.realm));
        if let Some(failed) = &self.failed {
            avps.extend(own("Failed-AVP", failed));
        }
        avps.extend(&self.success);
        for proxy_info in &self.echo.proxy_infos {
            avps.extend(own("Proxy-Info", proxy_info));
        }
        avps
    }

    /// "Result-Code (success 2001) or Experimental-Result (Vendor-Id, Experimental-Result-Code)"
    fn result(&self) -> Vec<u8> {
        match self.code {
            Code::Result(code) => avp(self.dictionary, "Result-Code", &number(code)),
            Code::Experimental(code) => {
                let vendor_id = avp(self.dictionary, "Vendor-Id", &number(VENDOR));
                let result_code = avp(self.dictionary, "Experimental-Result-Code", &number(code));
                avp(self.dictionary, "Experimental-Result", &[vendor_id, result_code].concat())
            }
        }
    }
}

/// "Flags of an answer's AVPs: M, and V for vendor 10415 ..; padding zero."
fn avp(dictionary: &Dictionary, name: &str, data: &[u8]) -> Vec<u8> {
    let (vendor, code) = dictionary.key(name);
    let flags = if vendor == VENDOR { M | V } else { M };
    build::avp(code, flags, vendor, data)
}

fn number(value: u32) -> [u8; 4] {
    value.to_be_bytes()
}

/// "on success ULA-Flags 1 .."
pub fn ula_flags(dictionary: &Dictionary) -> Vec<u8> {
    avp(dictionary, "ULA-Flags", &number(1))
}

/// ".. or PUA-Flags (bit 0 MME, bit 1 SGSN ..)"
pub fn pua_flags(dictionary: &Dictionary, purged: u8) -> Vec<u8> {
    avp(dictionary, "PUA-Flags", &number(u32::from(purged)))
}

/// "Subscription-Data: Subscriber-Status 0; Access-Restriction-Data if not 0; AMBR (uplink, downlink)."
pub fn subscription_data(dictionary: &Dictionary, record: &[u8]) -> Vec<u8> {
    let mut data = avp(dictionary, "Subscriber-Status", &number(0));
    if has_restriction(record) {
        data.extend(avp(dictionary, "Access-Restriction-Data", &record[table::RESTRICTION]));
    }
    let uplink = avp(dictionary, "Max-Requested-Bandwidth-UL", &record[table::UPLINK]);
    let downlink = avp(dictionary, "Max-Requested-Bandwidth-DL", &record[table::DOWNLINK]);
    data.extend(avp(dictionary, "AMBR", &[uplink, downlink].concat()));
    avp(dictionary, "Subscription-Data", &data)
}

pub fn has_restriction(record: &[u8]) -> bool {
    table::number(&record[table::RESTRICTION]) != 0
}
