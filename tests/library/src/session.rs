//! The exported calls, which take a script in parts, and the arrays that are
//! lent to them. crates/memory/specs/Layout.antt says what lies where.

use std::hint::black_box;

mod exported {
    use super::Tally;

    // An array is passed as a pointer, a slice as pointer and length; no
    // pointer is kept. build.rs names the library.
    extern "C" {
        pub fn script_feed(
            counts: &mut [u32; 8],
            heads: &mut [u32; 112],
            slots: &mut [u32; 1792],
            copies: &mut [u8; 7168],
            working: &mut [u8; 7168],
            texts: &mut [u8; 3584],
            queue: &mut [u32; 576],
            payloads: &mut [u8; 8192],
            answers: &mut [u32; 32],
            reader: &mut [usize; 3],
            line: &mut [u8; 121],
            tally: &mut Tally,
            input: *const u8,
            input_len: usize,
            out: *mut u8,
            out_len: usize,
        ) -> usize;
        pub fn script_finish(
            counts: &mut [u32; 8],
            heads: &mut [u32; 112],
            slots: &mut [u32; 1792],
            copies: &mut [u8; 7168],
            working: &mut [u8; 7168],
            texts: &mut [u8; 3584],
            queue: &mut [u32; 576],
            payloads: &mut [u8; 8192],
            answers: &mut [u32; 32],
            reader: &mut [usize; 3],
            line: &mut [u8; 121],
            tally: &mut Tally,
            out: *mut u8,
            out_len: usize,
        ) -> usize;
    }
}

/// Bytes of a bucket's content, and of the block that it lies in.
pub const CONTENT: usize = 113;
const CONTENT_BLOCK: usize = 128;
/// Words of a message's header.
pub const HEADER: usize = 8;
/// Places for messages, and where their order begins, behind the headers.
const PLACES: usize = 64;
const ORDER: usize = PLACES * HEADER;
/// The kinds of messages with a version and a content.
const WITH_CONTENT: [u32; 2] = [4, 8];

/// The tally of messages.
#[repr(C)]
#[derive(Clone, Copy, Default, PartialEq, Eq, Debug)]
pub struct Tally {
    pub sent: u32,
    pub copied: u32,
    pub delivered: u32,
    pub lost: u32,
    pub flight: u32,
}

/// A multiple of every alignment, so that no padding lies between.
const GUARD: [u8; 64] = [0x5a; 64];

/// Something lent, between bytes that nobody may write.
#[repr(C)]
#[derive(Clone, PartialEq, Eq)]
pub struct Guarded<T> {
    before: [u8; 64],
    pub value: T,
    after: [u8; 64],
}

impl<T> Guarded<T> {
    fn new(value: T) -> Self {
        Guarded {
            before: GUARD,
            value,
            after: GUARD,
        }
    }

    fn intact(&self) -> bool {
        *black_box(&self.before) == GUARD && *black_box(&self.after) == GUARD
    }
}

/// What is lent to every call for one script.
#[derive(Clone, PartialEq, Eq)]
pub struct Session {
    pub counts: Guarded<[u32; 8]>,
    pub heads: Guarded<[u32; 112]>,
    pub slots: Guarded<[u32; 1792]>,
    pub copies: Guarded<[u8; 7168]>,
    pub working: Guarded<[u8; 7168]>,
    pub texts: Guarded<[u8; 3584]>,
    pub queue: Guarded<[u32; 576]>,
    pub payloads: Guarded<[u8; 8192]>,
    pub answers: Guarded<[u32; 32]>,
    /// Lines read, bytes held of the present line, bytes last written.
    pub reader: Guarded<[usize; 3]>,
    pub line: Guarded<[u8; 121]>,
    pub tally: Guarded<Tally>,
}

impl Session {
    /// Zeros: the start of a script.
    pub fn new() -> Box<Self> {
        Self::filled(0)
    }

    /// The start of a script too: with no cluster, what is in the other arrays
    /// does not matter.
    pub fn filled(old: u8) -> Box<Self> {
        let word = u32::from_ne_bytes([old; 4]);
        Box::new(Session {
            counts: Guarded::new([0; 8]),
            heads: Guarded::new([word; 112]),
            slots: Guarded::new([word; 1792]),
            copies: Guarded::new([old; 7168]),
            working: Guarded::new([old; 7168]),
            texts: Guarded::new([old; 3584]),
            queue: Guarded::new([word; 576]),
            payloads: Guarded::new([old; 8192]),
            answers: Guarded::new([word; 32]),
            reader: Guarded::new([0; 3]),
            line: Guarded::new([old; 121]),
            tally: Guarded::new(Tally::default()),
        })
    }

    /// A part of the input: how many bytes of it were taken. `written` says how
    /// many bytes of `out` were.
    pub fn feed(&mut self, input: &[u8], out: &mut [u8]) -> usize {
        unsafe {
            exported::script_feed(
                &mut self.counts.value,
                &mut self.heads.value,
                &mut self.slots.value,
                &mut self.copies.value,
                &mut self.working.value,
                &mut self.texts.value,
                &mut self.queue.value,
                &mut self.payloads.value,
                &mut self.answers.value,
                &mut self.reader.value,
                &mut self.line.value,
                &mut self.tally.value,
                input.as_ptr(),
                input.len(),
                out.as_mut_ptr(),
                out.len(),
            )
        }
    }

    /// The end of the input: how many bytes of `out` were written, 0 where it
    /// has no room.
    pub fn finish(&mut self, out: &mut [u8]) -> usize {
        unsafe {
            exported::script_finish(
                &mut self.counts.value,
                &mut self.heads.value,
                &mut self.slots.value,
                &mut self.copies.value,
                &mut self.working.value,
                &mut self.texts.value,
                &mut self.queue.value,
                &mut self.payloads.value,
                &mut self.answers.value,
                &mut self.reader.value,
                &mut self.line.value,
                &mut self.tally.value,
                out.as_mut_ptr(),
                out.len(),
            )
        }
    }

    /// Messages under way.
    pub fn under_way(&self) -> u32 {
        self.counts.value[2]
    }

    /// Lines accepted after the cluster line.
    pub fn accepted(&self) -> u32 {
        self.counts.value[3]
    }

    /// Where the message with this index of the list lies.
    fn place(&self, index: usize) -> usize {
        self.queue.value[ORDER + index] as usize % PLACES
    }

    /// The words of a message's header, to be written over.
    pub fn header(&mut self, index: usize) -> &mut [u32] {
        let place = self.place(index);
        &mut self.queue.value[place * HEADER..][..HEADER]
    }

    /// The message with this index of the list: kind, sender, receiver, bucket,
    /// election, round, version, and its content. Kinds without a content have
    /// zeros for it and the version.
    pub fn message(&self, index: usize) -> ([u32; HEADER], [u8; CONTENT]) {
        let place = self.place(index);
        let mut header = [0; HEADER];
        let mut content = [0; CONTENT];
        header.copy_from_slice(&self.queue.value[place * HEADER..][..HEADER]);
        if WITH_CONTENT.contains(&header[0]) {
            content.copy_from_slice(&self.payloads.value[place * CONTENT_BLOCK..][..CONTENT]);
        } else {
            header[6..].fill(0);
        }
        (header, content)
    }

    pub fn lines(&self) -> usize {
        self.reader.value[0]
    }

    pub fn held(&self) -> usize {
        self.reader.value[1]
    }

    /// Bytes that the last call wrote.
    pub fn written(&self) -> usize {
        self.reader.value[2]
    }

    /// Whether nothing around the arrays was written.
    pub fn intact(&self) -> bool {
        self.counts.intact()
            && self.heads.intact()
            && self.slots.intact()
            && self.copies.intact()
            && self.working.intact()
            && self.texts.intact()
            && self.queue.intact()
            && self.payloads.intact()
            && self.answers.intact()
            && self.reader.intact()
            && self.line.intact()
            && self.tally.intact()
    }
}
