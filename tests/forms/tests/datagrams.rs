//! The proved datagram code against the independent one: the answer, and every
//! lent byte afterwards. About 400,000 inputs.

mod common;

use common::{any_bytes, any_entries, damage, full_table, laid_out, table, Rows, LENGTHS, OLD};
use reference::bucket::{Pair, Table};
use reference::bucket_forms::{broken, good, FRONTS};
use reference::datagram::{Header, Version};
use reference::scripts::Random;

/// Reading: the number. What was read, written again to an output of `room`
/// bytes: the number, and the output.
fn compare(bytes: &[u8], room: usize) {
    let mut expected = vec![OLD; room];
    let read = reference::datagram::read(bytes);
    let written = read.and_then(|(header, table)| {
        let entries = &table.pairs()[..table.keys().len()];
        reference::datagram::write(&header, entries, &mut expected)
    });
    let number = u32::from(read.err().unwrap_or(0));
    assert_eq!(forms::datagram::read(bytes), number, "{bytes:?}");
    let number = u32::from(written.err().unwrap_or(0));
    let mut out = vec![OLD; room];
    let answer = forms::datagram::rewrite(bytes, &mut out);
    assert_eq!((answer, out), (number, expected), "{bytes:?}");
}

/// A well-formed datagram of any kind.
fn datagram(random: &mut Random) -> Vec<u8> {
    let kind = random.within(1, 9) as u8;
    let from = random.below(7) as u8;
    let vote = kind <= 3;
    let header = Header {
        kind,
        from,
        to: (from + random.within(1, 6) as u8) % 7,
        bucket: if vote { 0 } else { random.below(8) as u8 },
        number: random.within(1, 65_535) as u16,
        round: if vote { 0 } else { random.draw() as u32 | 1 },
        version: Version::NONE,
    };
    let (version, table) = content(random, &header);
    form(&Header { version, ..header }, &table)
}

/// A version and a table that go with this kind.
fn content(random: &mut Random, header: &Header) -> (Version, Table) {
    if !header.has_bucket() || (header.kind == 8 && random.chance(200)) {
        return (Version::NONE, Table::EMPTY);
    }
    let number = match header.kind {
        4 => header.number,
        _ => random.within(1, 65_535) as u16,
    };
    let counter = random.draw() as u32 | 1;
    let table = match random.below(4) {
        0 => full_table(random),
        _ => table(random),
    };
    (Version { number, counter }, table)
}

fn form(header: &Header, table: &Table) -> Vec<u8> {
    let mut out = vec![0; 129];
    let entries = &table.pairs()[..table.keys().len()];
    let length = reference::datagram::write(header, entries, &mut out).unwrap();
    out.truncate(length);
    out
}

/// Room for an output: too little, just enough or more.
fn room(random: &mut Random) -> usize {
    *random.pick(&[0, 1, 9, 10, 11, 16, 128, 129, 130, 5000])
}

#[test]
fn reading_and_writing_agree_on_datagrams() {
    let mut random = Random::new(20);
    for _ in 0..20_000 {
        let bytes = datagram(&mut random);
        compare(&bytes, room(&mut random));
        let mut out = vec![OLD; 129];
        assert_eq!(forms::datagram::rewrite(&bytes, &mut out), 0);
        assert_eq!(out[..bytes.len()], bytes);
    }
}

#[test]
fn datagrams_carry_empty_values() {
    let mut random = Random::new(28);
    for front in FRONTS {
        for (bucket, pairs) in good() {
            let whole = [&front[..], &bucket].concat();
            assert_eq!(forms::datagram::read(&whole), 0, "{pairs:?}");
            let mut out = vec![OLD; 129];
            assert_eq!(forms::datagram::rewrite(&whole, &mut out), 0);
            assert_eq!(out, whole);
            let (header, _) = reference::datagram::read(&whole).unwrap();
            let written = write(&header, &Rows::of(&mut random, pairs), 129);
            assert_eq!(written, (0, whole), "{pairs:?}");
        }
        for bucket in broken() {
            let whole = [&front[..], &bucket].concat();
            assert_eq!(forms::datagram::read(&whole), 13, "{bucket:02x?}");
            compare(&whole, 129);
        }
    }
}

/// A bucket that holds a key is not empty, whatever the key's value.
#[test]
fn a_version_of_zeros_goes_with_an_empty_bucket() {
    let mut random = Random::new(29);
    let mut front = FRONTS[1];
    front[10..].fill(0);
    for (bucket, pairs) in good() {
        let whole = [&front[..], &bucket].concat();
        assert_eq!(forms::datagram::read(&whole), 14, "{pairs:?}");
        let empty = [&front[..], &[0; 113]].concat();
        let (header, _) = reference::datagram::read(&empty).unwrap();
        let written = write(&header, &Rows::of(&mut random, pairs), 129);
        assert_eq!(written, (14, vec![OLD; 129]), "{pairs:?}");
    }
}

#[test]
fn reading_and_writing_agree_on_every_single_damaged_byte() {
    let mut random = Random::new(21);
    for _ in 0..20 {
        let whole = datagram(&mut random);
        for at in 0..whole.len() {
            for byte in 0..=255 {
                let mut bytes = whole.clone();
                bytes[at] = byte;
                compare(&bytes, 129);
            }
        }
    }
}

#[test]
fn reading_and_writing_agree_on_damaged_datagrams() {
    let mut random = Random::new(22);
    for _ in 0..40_000 {
        let mut bytes = datagram(&mut random);
        damage(&mut random, &mut bytes);
        compare(&bytes, room(&mut random));
    }
}

#[test]
fn reading_and_writing_agree_on_any_entries_laid_out() {
    let mut random = Random::new(23);
    for _ in 0..40_000 {
        let mut bytes = datagram(&mut random);
        bytes.resize(16, random.byte());
        bytes.extend(laid_out(&any_entries(&mut random)));
        if random.chance(300) {
            damage(&mut random, &mut bytes[..16]);
        }
        compare(&bytes, room(&mut random));
    }
}

#[test]
fn reading_and_writing_agree_on_every_kind_byte_and_length() {
    let mut random = Random::new(24);
    for _ in 0..10 {
        let whole = datagram(&mut random);
        for kind in 0..=255 {
            for length in [9, 10, 11].into_iter().chain(LENGTHS) {
                let mut bytes = whole.clone();
                bytes.resize(length, 0);
                if let Some(first) = bytes.first_mut() {
                    *first = kind;
                }
                compare(&bytes, 129);
            }
        }
    }
}

/// Headers of small numbers, most of which break one rule or another.
#[test]
fn reading_and_writing_agree_on_random_headers() {
    let mut random = Random::new(25);
    for _ in 0..100_000 {
        let mut bytes = vec![0; if random.chance(500) { 10 } else { 129 }];
        for (at, most) in [(0, 10), (1, 7), (2, 7), (3, 8), (5, 2), (9, 2)] {
            bytes[at] = random.within(0, most) as u8;
        }
        if bytes.len() == 129 {
            bytes[11] = random.within(0, 2) as u8;
            bytes[15] = random.within(0, 1) as u8;
            if random.chance(500) {
                bytes[16..].copy_from_slice(&laid_out(&any_entries(&mut random)));
            }
        }
        compare(&bytes, 129);
    }
}

#[test]
fn reading_and_writing_agree_on_random_bytes() {
    let mut random = Random::new(26);
    for _ in 0..2_000 {
        for length in [10].into_iter().chain(LENGTHS) {
            let mut bytes = any_bytes(&mut random, length);
            if let Some(kind) = bytes.first_mut() {
                *kind %= 11;
            }
            compare(&bytes, room(&mut random));
        }
    }
}

/// The number of a datagram written to an output of `room` bytes, and the
/// output.
fn write(header: &Header, rows: &Rows, room: usize) -> (u32, Vec<u8>) {
    let mut out = vec![OLD; room];
    let answer = forms::datagram::write(header, rows.count, &rows.lengths, &rows.bytes, &mut out);
    (answer, out)
}

fn compare_writing(header: &Header, rows: &Rows, room: usize) {
    let mut expected = vec![OLD; room];
    let pairs = rows.pairs();
    let pairs: Vec<Pair> = pairs.iter().map(|(k, v)| (&k[..], &v[..])).collect();
    let written = reference::datagram::write(header, &pairs, &mut expected);
    let number = u32::from(written.err().unwrap_or(0));
    let written = write(header, rows, room);
    assert_eq!(written, (number, expected), "{header:?} {pairs:?}");
}

/// Headers of small numbers, with tables that have a form or have none, such
/// as five entries or a key of nine bytes.
#[test]
fn writing_agrees_on_random_headers_and_tables() {
    let mut random = Random::new(27);
    for _ in 0..100_000 {
        let mut small = |most| random.within(0, most);
        let header = Header {
            kind: small(10) as u8,
            from: small(7) as u8,
            to: small(7) as u8,
            bucket: small(8) as u8,
            number: small(2) as u16,
            round: small(2) as u32,
            version: Version {
                number: small(2) as u16,
                counter: small(1) as u32,
            },
        };
        let rows = Rows::any(&mut random);
        compare_writing(&header, &rows, room(&mut random));
    }
}
