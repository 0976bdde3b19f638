//! Bucket forms with empty values, laid out by hand: good ones with what they
//! hold, and broken ones. And what stands before a bucket in a datagram.

use crate::bucket::{Pair, SIZE};

/// The first bytes of a REPLICAWRITE and of an ACKREAD, up to the bucket.
pub const FRONTS: [[u8; 16]; 2] = [
    [4, 0, 1, 7, 1, 2, 1, 2, 3, 4, 1, 2, 0, 0, 0, 5],
    [8, 6, 0, 3, 1, 2, 1, 2, 3, 4, 0, 1, 4, 3, 2, 1],
];

/// Forms without the zeros at their end, and their entries.
const GOOD: [(&str, &[Pair]); 10] = [
    ("01 05 01 06 00 61", &[(b"a", b"")]),
    (
        "01 05 08 0d 00 61 62 63 64 65 66 67 68",
        &[(b"abcdefgh", b"")],
    ),
    // The empty value comes first, last or between.
    (
        "02 09 01 0a 00 0a 01 0b 01 61 62 01",
        &[(b"a", b""), (b"b", b"\x01")],
    ),
    (
        "02 09 01 0a 01 0b 01 0c 00 61 01 62",
        &[(b"a", b"\x01"), (b"b", b"")],
    ),
    (
        "03 0d 01 0e 01 0f 01 10 00 10 01 11 01 61 01 62 63 02",
        &[(b"a", b"\x01"), (b"b", b""), (b"c", b"\x02")],
    ),
    // A key or value ends in a zero, and zeros follow.
    (
        "02 09 01 0a 00 0a 02 0c 00 61 61 00",
        &[(b"a", b""), (b"a\0", b"")],
    ),
    (
        "02 09 01 0a 00 0a 01 0b 01 61 62 00",
        &[(b"a", b""), (b"b", b"\0")],
    ),
    (
        "04 11 01 12 00 12 01 13 00 13 01 14 00 14 01 15 00 61 62 63 64",
        &[(b"a", b""), (b"b", b""), (b"c", b""), (b"d", b"")],
    ),
    // Beside the longest keys and values.
    (
        "04 11 08 19 00 19 08 21 10 31 08 39 00 39 08 41 10
         61 61 61 61 61 61 61 61 62 62 62 62 62 62 62 62
         30 31 32 33 34 35 36 37 38 39 3a 3b 3c 3d 3e 3f
         63 63 63 63 63 63 63 63 64 64 64 64 64 64 64 64
         40 41 42 43 44 45 46 47 48 49 4a 4b 4c 4d 4e 4f",
        &[
            (b"aaaaaaaa", b""),
            (b"bbbbbbbb", b"0123456789:;<=>?"),
            (b"cccccccc", b""),
            (b"dddddddd", b"@ABCDEFGHIJKLMNO"),
        ],
    ),
    (
        "02 09 08 11 10 21 08 29 00 61 61 61 61 61 61 61 61
         30 31 32 33 34 35 36 37 38 39 3a 3b 3c 3d 3e 3f
         62 62 62 62 62 62 62 62",
        &[(b"aaaaaaaa", b"0123456789:;<=>?"), (b"bbbbbbbb", b"")],
    ),
];

/// What breaks the form, without the zeros at its end.
const BROKEN: [&str; 22] = [
    // The offset of an empty value is the pair before's, one too far, two, none.
    "01 05 01 05 00 61",
    "01 05 01 07 00 61",
    "01 05 01 08 00 61",
    "01 05 01 00 00 61",
    "02 09 01 09 00 0a 01 0b 01 61 62 01",
    "02 09 01 0b 00 0a 01 0b 01 61 62 01",
    "02 09 01 00 00 0a 01 0b 01 61 62 01",
    "02 09 01 0a 01 0b 01 0b 00 61 01 62",
    "02 09 01 0a 01 0b 01 0d 00 61 01 62",
    "02 09 01 0a 01 0b 01 00 00 61 01 62",
    // It is the bucket's end, or past it.
    "01 05 01 71 00 61",
    "01 05 01 72 00 61",
    // The pair after it leaves out a byte, or takes the key before once more.
    "02 09 01 0a 00 0b 01 0c 01 61 00 62 01",
    "02 09 01 0a 00 09 01 0b 01 61 62 01",
    // A value of 17 bytes after an empty one.
    "02 09 01 0a 00 0a 01 0b 11 61 62 01 01 01 01 01 01 01 01 01 01 01 01 01 01 01 01 01",
    // A length that is not the value's.
    "02 09 01 0a 01 0a 01 0b 01 61 62 01",
    // A key of no bytes.
    "01 05 00 05 00",
    "02 09 00 09 00 09 01 0a 00 61",
    // A key twice, keys that fall, a key after its extension, a fifth key.
    "02 09 01 0a 00 0a 01 0b 00 61 61",
    "02 09 01 0a 00 0a 01 0b 00 62 61",
    "02 09 02 0b 00 0b 01 0c 00 61 00 61",
    "05 15 01 16 00 16 01 17 00 17 01 18 00 18 01 19 00 19 01 1a 00 61 62 63 64 65",
];

/// The bucket of these bytes and zeros, and how many bytes they are.
fn laid_out(front: &str) -> ([u8; SIZE], usize) {
    let mut bucket = [0; SIZE];
    let mut length = 0;
    for (place, byte) in bucket.iter_mut().zip(front.split_whitespace()) {
        *place = u8::from_str_radix(byte, 16).expect("it is written with two digits");
        length += 1;
    }
    (bucket, length)
}

/// Good buckets, with their entries.
pub fn good() -> impl Iterator<Item = ([u8; SIZE], &'static [Pair<'static>])> {
    GOOD.iter()
        .map(|(front, pairs)| (laid_out(front).0, *pairs))
}

/// Broken buckets; the last ones are good but for one byte after their end.
pub fn broken() -> impl Iterator<Item = [u8; SIZE]> {
    let ended = |front: &str| {
        let (bucket, length) = laid_out(front);
        (length..SIZE).map(move |at| {
            let mut longer = bucket;
            longer[at] = 1;
            longer
        })
    };
    let longer = GOOD.iter().flat_map(move |(front, _)| ended(front));
    BROKEN.iter().map(|front| laid_out(front).0).chain(longer)
}
