//! Extended link headers, and the access that CC announces.
use crate::{raw, told, Refusal};

/// A header by its CI: 8Ch, 8Dh, 8Eh, 8Fh. Each kind has its own fields, so none can be asked for that it lacks.
#[derive(Clone, Copy, Debug, PartialEq, Eq)]
pub enum Header {
    Plain { cc: u8, acc: u8 },
    Secured { cc: u8, acc: u8, sn: u32, crc: [u8; 2] },
    Addressed { cc: u8, acc: u8, m2: u16, a2: [u8; 6] },
    AddressedSecured { cc: u8, acc: u8, m2: u16, a2: [u8; 6], sn: u32, crc: [u8; 2] },
}

#[derive(Clone, Copy, Debug, PartialEq, Eq)]
pub enum Access {
    Never,
    NotNow,
    Limited,
    Always,
}

impl Header {
    /// The CI that stands first.
    pub fn ci(self) -> u8 {
        match self {
            Header::Plain { .. } => 0x8C,
            Header::Secured { .. } => 0x8D,
            Header::Addressed { .. } => 0x8E,
            Header::AddressedSecured { .. } => 0x8F,
        }
    }

    /// The header at the start of a body, and its length with CI.
    pub fn read(body: &[u8]) -> Result<(Header, u64), Refusal> {
        // Sound: the slice is valid for its length, and `told` lends fourteen results.
        told(|r| unsafe { raw::kusikhut_header_read(body.as_ptr(), body.len(), r) }, Header::of)
    }

    fn of(r: [u64; 14]) -> (Header, u64) {
        let byte = |k: usize| r[k] as u8;
        let (cc, acc, m2) = (byte(2), byte(3), r[4] as u16);
        let a2 = [byte(5), byte(6), byte(7), byte(8), byte(9), byte(10)];
        let (sn, crc) = (r[11] as u32, [byte(12), byte(13)]);
        let header = match r[1] {
            0x8C => Header::Plain { cc, acc },
            0x8D => Header::Secured { cc, acc, sn, crc },
            0x8E => Header::Addressed { cc, acc, m2, a2 },
            0x8F => Header::AddressedSecured { cc, acc, m2, a2, sn, crc },
            other => unreachable!("the library accepts no CI {other}"),
        };
        (header, r[0])
    }

    /// Writes the header to the start of `out`; gives its length.
    pub fn write(self, out: &mut [u8]) -> Result<u64, Refusal> {
        let (o, len) = (out.as_mut_ptr(), out.len());
        // Sound: the slice and the arrays are valid for their lengths, `out` is borrowed for this call alone, and `told`
        // lends one result.
        let call = |r| unsafe {
            match self {
                Header::Plain { cc, acc } => raw::kusikhut_header_write_8c(cc, acc, o, len, r),
                Header::Secured { cc, acc, sn, crc } => {
                    raw::kusikhut_header_write_8d(cc, acc, sn, crc.as_ptr(), o, len, r)
                }
                Header::Addressed { cc, acc, m2, a2 } => {
                    raw::kusikhut_header_write_8e(cc, acc, m2, a2.as_ptr(), o, len, r)
                }
                Header::AddressedSecured { cc, acc, m2, a2, sn, crc } => {
                    raw::kusikhut_header_write_8f(cc, acc, m2, a2.as_ptr(), sn, crc.as_ptr(), o, len, r)
                }
            }
        };
        told(call, |[length]| length)
    }
}

/// When the meter may be called, by its CC byte.
pub fn access(cc: u8) -> Access {
    // Sound: it takes a number alone.
    match unsafe { raw::kusikhut_access(cc) } {
        0 => Access::Never,
        1 => Access::NotNow,
        2 => Access::Limited,
        3 => Access::Always,
        other => unreachable!("the library answers no access {other}"),
    }
}
