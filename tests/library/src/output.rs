//! Outputs to lend to a call.

/// Room that a line needs in the output, and that the end needs.
pub const LINE_ROOM: usize = 1024;
pub const END_ROOM: usize = 1088;
/// Bytes on both sides of an output.
const MARGIN: usize = 256;

/// Bytes to lend as outputs, with the pattern that they are filled with.
pub struct Output {
    bytes: Vec<u8>,
    old: Vec<u8>,
}

impl Output {
    /// For outputs of up to so many bytes.
    pub fn new(most: usize) -> Self {
        let old: Vec<u8> = (0..MARGIN + most + MARGIN)
            .map(|at| (at * 7 % 251) as u8)
            .collect();
        Output {
            bytes: old.clone(),
            old,
        }
    }

    pub fn lend(&mut self, room: usize) -> &mut [u8] {
        &mut self.bytes[MARGIN..][..room]
    }

    /// The first bytes of what was lent, where all others are as they were.
    pub fn take(&mut self, written: usize, room: usize) -> Result<Vec<u8>, String> {
        if written > room {
            return Err(format!("{written} bytes written of {room}"));
        }
        let end = MARGIN + written;
        if self.bytes[..MARGIN] != self.old[..MARGIN] || self.bytes[end..] != self.old[end..] {
            return Err("bytes around the text were written".to_string());
        }
        let text = self.bytes[MARGIN..end].to_vec();
        self.bytes[MARGIN..end].copy_from_slice(&self.old[MARGIN..end]);
        Ok(text)
    }
}
