//! Mending by correction bytes (EN 13757-4:2019, 12.8). Received are a frame, a header of two bytes and 32 check bytes;
//! a proposal is a frame and its check bytes, without the header, and any routine may make it. Here one is judged, and
//! one is made that mends up to sixteen wrong bytes, or a single one.
use crate::{raw, told, written, Format, Refusal};

impl Format {
    /// Judges a proposal for what was received; gives the number of bytes in which the two differ. It is taken exactly
    /// if it is a code word of Reed-Solomon (255, 223) and differs in at most 16 bytes. Sizes go by the proposal's own
    /// length byte, the received header is skipped, and either may be longer.
    ///
    /// - A taken frame is still to be read, as every frame: its block checks are not looked at here.
    /// - At most one word with a given length byte is taken. If that is the length byte that was sent, and at most 16
    ///   bytes came wrong (the header not counted), it is the word that was sent.
    /// - One with another length byte may be taken, too, and read: the frame's length is the caller's to know.
    ///
    /// ```
    /// use kusikhut::{Format, CORRECTION_SIZE};
    ///
    /// // Annex C.2
    /// let content = [0x44, 0xAE, 0x0C, 0x78, 0x56, 0x34, 0x12, 0x01, 0x07, 0x78, 0x0B, 0x13, 0x43, 0x65, 0x87];
    /// let (mut frame, mut received) = ([0; 20], [0; 20 + CORRECTION_SIZE]);
    /// Format::A.write(&content, &mut frame)?;
    /// Format::A.write_correction(&frame, &mut received)?;
    /// let proposal = [&received[..20], &received[22..]].concat();
    ///
    /// received[..16].fill(0xEE);
    /// assert_eq!(Format::A.judge_proposal(&proposal, &received)?, 16);
    /// received[20..22].fill(0xEE);
    /// assert_eq!(Format::A.judge_proposal(&proposal, &received)?, 16, "the header does not count");
    ///
    /// received[16] ^= 1;
    /// let refusal = Format::A.judge_proposal(&proposal, &received).unwrap_err();
    /// assert_eq!(refusal.to_string(), "26 too-far-for-correction");
    /// # Ok::<(), kusikhut::Refusal>(())
    /// ```
    pub fn judge_proposal(self, proposal: &[u8], received: &[u8]) -> Result<u64, Refusal> {
        let call: raw::Judge = match self {
            Format::A => raw::kusikhut_mending_judge_a,
            Format::B => raw::kusikhut_mending_judge_b,
        };
        let (p, pl, s, sl) = (proposal.as_ptr(), proposal.len(), received.as_ptr(), received.len());
        // Sound: both slices are valid for their lengths, and `told` lends one result.
        told(|r| unsafe { call(p, pl, s, sl, r) }, |[differing]| differing)
    }

    /// Writes a proposal for what was received to the start of `out`: the received word with up to 16 wrong bytes behind
    /// the length byte mended, or as it is where no code word with this length byte is within 16 bytes. Gives the number
    /// of bytes written: the frame's, by the received length byte, and 32. So as many bytes as were received are room
    /// enough.
    ///
    /// - If at most 16 bytes came wrong (the header not counted), the length byte not among them, it is the word that
    ///   was sent. If more did, it is what was received or, seldom, another code word: judging tells the two apart, and
    ///   nothing tells another code word from the right one but the frame's own checks.
    /// - A wrong length byte is not mended, since all sizes go by it: another frame may then be proposed, taken and read.
    ///
    /// ```
    /// use kusikhut::{Format, CORRECTION_SIZE};
    ///
    /// // Annex C.2
    /// let content = [0x44, 0xAE, 0x0C, 0x78, 0x56, 0x34, 0x12, 0x01, 0x07, 0x78, 0x0B, 0x13, 0x43, 0x65, 0x87];
    /// let (mut frame, mut received) = ([0; 20], [0; 20 + CORRECTION_SIZE]);
    /// Format::A.write(&content, &mut frame)?;
    /// Format::A.write_correction(&frame, &mut received)?;
    /// received[2..18].fill(0xEE);
    /// received[20..22].fill(0xEE); // the header does not count
    ///
    /// let (mut proposal, mut read) = ([0; 52], [0; 15]);
    /// assert_eq!(Format::A.propose(&received, &mut proposal)?, 52);
    /// assert_eq!(Format::A.judge_proposal(&proposal, &received)?, 16);
    /// assert_eq!(Format::A.read(&proposal, &mut read)?.n, 15);
    /// assert_eq!(read, content);
    ///
    /// received[18] ^= 1;
    /// Format::A.propose(&received, &mut proposal)?;
    /// let refusal = Format::A.judge_proposal(&proposal, &received).unwrap_err();
    /// assert_eq!(refusal.to_string(), "25 not-in-correction-code", "seventeen wrong bytes are too many");
    /// # Ok::<(), kusikhut::Refusal>(())
    /// ```
    pub fn propose(self, received: &[u8], out: &mut [u8]) -> Result<u64, Refusal> {
        let call = match self {
            Format::A => raw::kusikhut_mending_propose_a,
            Format::B => raw::kusikhut_mending_propose_b,
        };
        written(call, received, out)
    }

    /// Writes a proposal for what was received to the start of `out`: the received word with one wrong byte mended, or
    /// as it is where no other byte at one place behind the length byte makes it a code word. Gives the number of bytes
    /// written: the frame's, by the received length byte, and 32. So as many bytes as were received are room enough.
    ///
    /// That it is no code word is left to judging, and a taken frame is still to be read. A wrong length byte is not
    /// mended, since all sizes go by it: another frame may then be proposed, taken and read.
    ///
    /// ```
    /// use kusikhut::{Format, CORRECTION_SIZE};
    ///
    /// // Annex C.2
    /// let content = [0x44, 0xAE, 0x0C, 0x78, 0x56, 0x34, 0x12, 0x01, 0x07, 0x78, 0x0B, 0x13, 0x43, 0x65, 0x87];
    /// let (mut frame, mut received) = ([0; 20], [0; 20 + CORRECTION_SIZE]);
    /// Format::A.write(&content, &mut frame)?;
    /// Format::A.write_correction(&frame, &mut received)?;
    /// received[15] = 0x44;
    ///
    /// let (mut proposal, mut read) = ([0; 52], [0; 15]);
    /// assert_eq!(Format::A.propose_one(&received, &mut proposal)?, 52);
    /// assert_eq!(Format::A.judge_proposal(&proposal, &received)?, 1);
    /// assert_eq!(Format::A.read(&proposal, &mut read)?.n, 15);
    /// assert_eq!(read, content);
    ///
    /// received[16] = 0x44;
    /// Format::A.propose_one(&received, &mut proposal)?;
    /// let refusal = Format::A.judge_proposal(&proposal, &received).unwrap_err();
    /// assert_eq!(refusal.to_string(), "25 not-in-correction-code", "two wrong bytes are too many for it");
    /// # Ok::<(), kusikhut::Refusal>(())
    /// ```
    pub fn propose_one(self, received: &[u8], out: &mut [u8]) -> Result<u64, Refusal> {
        let call = match self {
            Format::A => raw::kusikhut_mending_propose_one_a,
            Format::B => raw::kusikhut_mending_propose_one_b,
        };
        written(call, received, out)
    }
}
