//! Frames as chips: receiving and sending.
use crate::{raw, told, written, Kind, Refusal};

/// A received frame.
#[derive(Clone, Copy, Debug, PartialEq, Eq)]
pub struct Received {
    pub kind: Kind,
    pub place: u64,
    pub tried: u64,
    pub size: u64,
    pub n: u64,
}

/// Receives the first mode T or C frame that the search reaches; its content comes to the start of `out`.
pub fn receive(chips: &[u8], start: usize, allowance: usize, out: &mut [u8]) -> Result<Received, Refusal> {
    let (c, cl, o, ol) = (chips.as_ptr(), chips.len(), out.as_mut_ptr(), out.len());
    // Sound: both slices are valid for their lengths, `out` is borrowed for this call alone, and `told` lends seven
    // results.
    told(|r| unsafe { raw::kusikhut_receive(c, cl, start, allowance, o, ol, r) }, received)
}

/// Receives the Manchester frame that starts at chip `start`.
pub fn receive_manchester(chips: &[u8], start: usize, out: &mut [u8]) -> Result<Received, Refusal> {
    let (c, cl, o, ol) = (chips.as_ptr(), chips.len(), out.as_mut_ptr(), out.len());
    // Sound: as above.
    told(|r| unsafe { raw::kusikhut_receive_manchester(c, cl, start, o, ol, r) }, received)
}

fn received([kind, place, tried, size, n, _block, _word]: [u64; 7]) -> Received {
    let kind = match kind {
        0 => Kind::TWithA,
        1 => Kind::CWithA,
        2 => Kind::CWithB,
        3 => Kind::ManchesterWithA,
        other => unreachable!("the library answers no kind {other}"),
    };
    Received { kind, place, tried, size, n }
}

impl Kind {
    /// Writes `content` as chips to the start of `out`; gives the number of bytes written.
    pub fn send(self, content: &[u8], out: &mut [u8]) -> Result<u64, Refusal> {
        let call = match self {
            Kind::TWithA => raw::kusikhut_send_t_a,
            Kind::CWithA => raw::kusikhut_send_c_a,
            Kind::CWithB => raw::kusikhut_send_c_b,
            Kind::ManchesterWithA => raw::kusikhut_send_manchester_a,
        };
        written(call, content, out)
    }
}
