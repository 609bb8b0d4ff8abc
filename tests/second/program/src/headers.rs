//! The fixed extended link headers (13.2.1 to 13.2.5), access (12.6.3), and what M
//! says: the letters of a manufacturer, and whether an address is hard or soft
//! (12.5.5, 2/14).

use crate::answer::Refusal;
use crate::chips::put;

/// The four fixed headers. The numbers are those of the text form of a case.
#[derive(Clone, Copy, Debug, PartialEq, Eq)]
pub enum HeaderKind {
    /// CC, ACC.
    Short = 0,
    /// CC, ACC, SN, PayloadCRC.
    Session = 1,
    /// CC, ACC, M2, A2.
    Address = 2,
    /// CC, ACC, M2, A2, SN, PayloadCRC.
    AddressAndSession = 3,
}

impl HeaderKind {
    pub const ALL: [HeaderKind; 4] = [
        HeaderKind::Short,
        HeaderKind::Session,
        HeaderKind::Address,
        HeaderKind::AddressAndSession,
    ];

    /// Table 43.
    pub fn ci(self) -> u8 {
        match self {
            HeaderKind::Short => 0x8C,
            HeaderKind::Session => 0x8D,
            HeaderKind::Address => 0x8E,
            HeaderKind::AddressAndSession => 0x8F,
        }
    }

    pub fn has_address(self) -> bool {
        matches!(self, HeaderKind::Address | HeaderKind::AddressAndSession)
    }

    pub fn has_session(self) -> bool {
        matches!(self, HeaderKind::Session | HeaderKind::AddressAndSession)
    }

    /// Total length: CI, CC, ACC, then eight bytes of address and six of
    /// session where there are any.
    pub fn length(self) -> usize {
        let address = if self.has_address() { 8 } else { 0 };
        let session = if self.has_session() { 6 } else { 0 };
        3 + address + session
    }
}

/// A header. Fields that its kind has not are zero when read, and are not
/// looked at when written.
#[derive(Clone, Copy, Debug, PartialEq, Eq)]
pub struct Header {
    pub kind: HeaderKind,
    pub cc: u8,
    pub acc: u8,
    pub m2: u16,
    pub a2: [u8; 6],
    pub sn: u32,
    /// Shown as its two bytes in their order, unchecked (01).
    pub payload_crc: [u8; 2],
}

/// Reading a header from a body. Order: 12 if empty, 11, 12.
pub fn read(body: &[u8]) -> Result<Header, Refusal> {
    let &ci = body.first().ok_or(Refusal::HeaderEnds)?;
    let kind = HeaderKind::ALL
        .into_iter()
        .find(|kind| kind.ci() == ci)
        .ok_or(Refusal::UnknownCi)?;
    if body.len() < kind.length() {
        return Err(Refusal::HeaderEnds);
    }
    let mut header = Header {
        kind,
        cc: body[1],
        acc: body[2],
        m2: 0,
        a2: [0; 6],
        sn: 0,
        payload_crc: [0; 2],
    };
    let mut place = 3;
    if kind.has_address() {
        // 12.2, 13.2.1: least significant byte first.
        header.m2 = u16::from_le_bytes([body[3], body[4]]);
        header.a2.copy_from_slice(&body[5..11]);
        place = 11;
    }
    if kind.has_session() {
        let sn = &body[place..place + 4];
        header.sn = u32::from_le_bytes([sn[0], sn[1], sn[2], sn[3]]);
        header.payload_crc = [body[place + 4], body[place + 5]];
    }
    Ok(header)
}

/// Writing a header: 4 only. Answers its length.
pub fn write(header: &Header, out: &mut [u8]) -> Result<usize, Refusal> {
    let mut bytes = vec![header.kind.ci(), header.cc, header.acc];
    if header.kind.has_address() {
        bytes.extend(header.m2.to_le_bytes());
        bytes.extend(header.a2);
    }
    if header.kind.has_session() {
        bytes.extend(header.sn.to_le_bytes());
        bytes.extend(header.payload_crc);
    }
    put(&bytes, out)
}

/// When a meter can be reached. The numbers are Table 37's two bits.
#[derive(Clone, Copy, Debug, PartialEq, Eq)]
pub enum Access {
    None = 0b00,
    NoneForNow = 0b01,
    Limited = 0b10,
    Unlimited = 0b11,
}

/// Table 37: bit B is bit 7 of CC, bit A is bit 2.
pub fn access(cc: u8) -> Access {
    let bit_b = cc & 0b1000_0000 != 0;
    let bit_a = cc & 0b0000_0100 != 0;
    match (bit_b, bit_a) {
        (false, false) => Access::None,
        (false, true) => Access::NoneForNow,
        (true, false) => Access::Limited,
        (true, true) => Access::Unlimited,
    }
}

/// How far an address is unique. The numbers are those of the top bit of M.
#[derive(Clone, Copy, Debug, PartialEq, Eq)]
pub enum Reach {
    /// Worldwide: the maker of the meter has fixed it.
    Hard = 0,
    /// Within radio range only: mostly given when the meter is installed.
    Soft = 1,
}

/// What M says of an address.
#[derive(Clone, Copy, Debug, PartialEq, Eq)]
pub struct Maker {
    /// The three letters in ASCII, or no letters.
    pub letters: Option<[u8; 3]>,
    /// Told in both cases: 12.5.5 does not ask for letters here.
    pub reach: Reach,
}

/// What M says, or M2: 13.2.9 sends to 12.5.5 for it.
///
/// 12.5.5 forms the letters from the lower 15 bits, and lets the top bit say how
/// far the address is unique. 01 divides the whole of M, so that a set top bit
/// would leave no letters; 2/14 calls that too simple.
pub fn maker(m: u16) -> Maker {
    let (top, lower) = (m / 32768, m % 32768);
    let numbers = [lower / 1024, lower / 32 % 32, lower % 32];
    let letters = if numbers.iter().all(|number| (1..=26).contains(number)) {
        Some(numbers.map(|number| b'A' + number as u8 - 1))
    } else {
        None
    };
    let reach = if top == 0 { Reach::Hard } else { Reach::Soft };
    Maker { letters, reach }
}
