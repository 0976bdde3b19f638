//! Hash vectors, the bucket form and datagrams.

use reference::bucket::{self, Full, Key, Pair, Table, Value};
use reference::bucket_forms;
use reference::datagram::{self, Header, Version};
use reference::hash::fnv1a;
use reference::random_tables::table;
use reference::scripts::Random;
use std::collections::BTreeSet;

#[test]
fn published_fnv_vectors() {
    let vectors: [(&str, u32); 12] = [
        ("", 0x811c9dc5),
        ("a", 0xe40c292c),
        ("b", 0xe70c2de5),
        ("c", 0xe60c2c52),
        ("d", 0xe10c2473),
        ("e", 0xe00c22e0),
        ("f", 0xe30c2799),
        ("fo", 0x6222e842),
        ("foo", 0xa9f37ed7),
        ("foob", 0x3f5076ef),
        ("fooba", 0x39aaa18a),
        ("foobar", 0xbf9cf968),
    ];
    for (text, hash) in vectors {
        assert_eq!(fnv1a(text.as_bytes()), hash, "{text:?}");
    }
}

fn write(table: &Table) -> [u8; 113] {
    let mut out = [0xaa; 113];
    bucket::write(&table.pairs()[..table.keys().len()], &mut out).unwrap();
    out
}

#[test]
fn written_buckets_are_read_back() {
    let mut random = Random::new(1);
    for _ in 0..10_000 {
        let table = table(&mut random);
        assert_eq!(bucket::read(&write(&table)), Ok(table));
    }
}

/// Each of four keys is absent or has the empty value, a short or the longest.
fn every_table(keys: [&[u8]; 4]) -> impl Iterator<Item = Table> + '_ {
    let values: [&[u8]; 3] = [b"", b"\0", b"0123456789abcdef"];
    (0..256).map(move |choice| {
        let mut table = Table::EMPTY;
        for (at, key) in keys.iter().enumerate() {
            if let Some(value) = values.get(choice >> (2 * at) & 3) {
                table.put(&Key::new(key), &Value::new(value)).unwrap();
            }
        }
        table
    })
}

#[test]
fn every_table_has_a_form_of_its_own_and_is_read_back() {
    let short: [&[u8]; 4] = [b"a", b"a\0", b"a\0\0", b"b"];
    let longest: [&[u8]; 4] = [b"\0aaaaaaa", b"aaaaaaa\0", b"aaaaaaaa", b"bbbbbbbb"];
    let mut forms = BTreeSet::new();
    for table in every_table(short).chain(every_table(longest)) {
        let form = write(&table);
        assert_eq!(bucket::read(&form), Ok(table), "{table:?}");
        forms.insert(form);
    }
    // The empty table is among both.
    assert_eq!(forms.len(), 256 + 256 - 1);
}

#[test]
fn empty_values_lie_where_the_next_pair_or_the_end_is() {
    for (form, pairs) in bucket_forms::good() {
        let mut out = [0xaa; 113];
        assert_eq!(bucket::write(pairs, &mut out), Ok(()), "{pairs:?}");
        assert_eq!(out, form, "{pairs:?}");
        let table = bucket::read(&form).unwrap();
        assert_eq!(&table.pairs()[..table.keys().len()], pairs);
    }
}

#[test]
fn faults_beside_empty_values_are_refused() {
    for form in bucket_forms::broken() {
        assert_eq!(bucket::read(&form), Err(13), "{form:02x?}");
    }
}

#[test]
fn a_damaged_bucket_is_read_only_as_another_written_form() {
    let mut random = Random::new(2);
    let random_forms = (0..40).map(|_| write(&table(&mut random)));
    for form in random_forms.chain(bucket_forms::good().map(|(form, _)| form)) {
        for at in 0..form.len() {
            for byte in 0..=255 {
                let mut damaged = form;
                damaged[at] = byte;
                match bucket::read(&damaged) {
                    Ok(table) => assert_eq!(write(&table), damaged),
                    Err(refusal) => assert_eq!(refusal, 13),
                }
            }
        }
    }
}

/// Places and bytes that break count, offsets, lengths, order or the zero rest.
#[rustfmt::skip]
const FAULTS: [(usize, u8); 18] = [
    (0, 5), (0, 1), (0, 3), (1, 10), (2, 0), (2, 2), (3, 11), (4, 0), (5, 10),
    (6, 9), (7, 11), (8, 0), (8, 17), (8, 1), (9, b'b'), (9, b'c'), (11, b'a'), (14, 1),
];

#[test]
fn every_rule_of_the_bucket_form_is_held() {
    let mut form = [0; 113];
    bucket::write(&[(b"a", b"x"), (b"b", b"yz")], &mut form).unwrap();
    assert_eq!(
        form[..14],
        [2, 9, 1, 10, 1, 11, 1, 12, 2, b'a', b'x', b'b', b'y', b'z']
    );
    for (at, byte) in FAULTS {
        let mut wrong = form;
        wrong[at] = byte;
        assert_eq!(
            bucket::read(&wrong).err(),
            Some(13),
            "byte {at} set to {byte}"
        );
    }
}

#[test]
fn tables_that_break_the_form_are_not_written() {
    let five: [Pair; 5] = [
        (b"1", b"x"),
        (b"2", b"x"),
        (b"3", b"x"),
        (b"4", b"x"),
        (b"5", b"x"),
    ];
    let wrong: [&[Pair]; 8] = [
        &five,
        &[(b"b", b"x"), (b"a", b"x")],
        &[(b"a", b"x"), (b"a", b"y")],
        &[(b"ab", b"x"), (b"a", b"x")],
        &[(b"", b"x")],
        &[(b"123456789", b"x")],
        &[(b"", b"")],
        &[(b"a", b""), (b"b", b"12345678901234567")],
    ];
    for pairs in wrong {
        let mut out = [7; 120];
        assert_eq!(bucket::write(pairs, &mut out), Err(13));
        assert_eq!(out, [7; 120]);
        assert_eq!(bucket::write(pairs, &mut []), Err(13));
    }
    let mut out = [7; 112];
    assert_eq!(bucket::write(&five[..4], &mut out), Err(15));
    assert_eq!(out, [7; 112]);
}

#[test]
fn a_longer_output_keeps_what_lies_past_the_bucket() {
    let mut out = [7; 120];
    bucket::write(&[(b"a", b"hi")], &mut out).unwrap();
    assert_eq!(out[112], 0);
    assert_eq!(out[113..], [7; 7]);
}

#[test]
fn look_up_put_and_remove() {
    let mut table = Table::EMPTY;
    let key = |text: &str| Key::new(text.as_bytes());
    for name in ["b", "a\0", "a", "c"] {
        assert_eq!(table.put(&key(name), &Value::new(b"1")), Ok(()));
    }
    assert_eq!(table.keys(), [key("a"), key("a\0"), key("b"), key("c")]);
    assert_eq!(table.put(&key("d"), &Value::new(b"1")), Err(Full));
    assert!(table.has_room(&key("b")) && !table.has_room(&key("d")));
    assert_eq!(table.put(&key("b"), &Value::new(b"2")), Ok(()));
    assert_eq!(table.look_up(&key("b")), Some(&Value::new(b"2")));
    assert_eq!(table.look_up(&key("a\0\0")), None);
    table.remove(&key("d"));
    table.remove(&key("a"));
    assert_eq!(table.keys(), [key("a\0"), key("b"), key("c")]);
    for name in ["a\0", "b", "c"] {
        table.remove(&key(name));
    }
    assert_eq!(table, Table::EMPTY);
}

#[test]
fn a_key_with_an_empty_value_is_there() {
    let mut table = Table::EMPTY;
    let key = |text: &str| Key::new(text.as_bytes());
    for name in ["b", "a", "d", "c"] {
        assert_eq!(table.put(&key(name), &Value::EMPTY), Ok(()));
        assert_eq!(table.look_up(&key(name)), Some(&Value::EMPTY));
    }
    assert_eq!(table.keys(), [key("a"), key("b"), key("c"), key("d")]);
    let full = table;
    assert_eq!(table.put(&key("e"), &Value::EMPTY), Err(Full));
    assert_eq!(table, full);
    assert_eq!(table.look_up(&key("e")), None);
    assert_eq!(table.put(&key("b"), &Value::new(b"2")), Ok(()));
    assert_eq!(table.put(&key("b"), &Value::EMPTY), Ok(()));
    assert_eq!(table, full);
    table.remove(&key("b"));
    assert_eq!(table.look_up(&key("b")), None);
    assert_eq!(table.keys(), [key("a"), key("c"), key("d")]);
}

/// A well-formed datagram of any kind.
fn datagram(random: &mut Random) -> (Header, Table) {
    let kind = random.within(1, 9) as u8;
    let from = random.below(7) as u8;
    let number = random.within(1, 3) as u16 * 0x101;
    let mut header = Header {
        kind,
        from,
        to: (from + random.within(1, 6) as u8) % 7,
        bucket: if kind < 4 { 0 } else { random.below(8) as u8 },
        number,
        round: if kind < 4 {
            0
        } else {
            random.within(1, 0x0102_0304) as u32
        },
        version: Version::NONE,
    };
    if !header.has_bucket() || (kind == 8 && random.chance(200)) {
        return (header, Table::EMPTY);
    }
    header.version.counter = random.within(1, 0x0102_0304) as u32;
    header.version.number = if kind == 4 {
        number
    } else {
        random.within(1, 65_535) as u16
    };
    (header, table(random))
}

/// The written datagram.
fn form(header: &Header, table: &Table) -> Vec<u8> {
    let mut out = vec![0xaa; 140];
    let pairs = &table.pairs()[..table.keys().len()];
    let length = datagram::write(header, pairs, &mut out).unwrap();
    assert!(out[length..].iter().all(|&byte| byte == 0xaa));
    out.truncate(length);
    out
}

#[test]
fn written_datagrams_are_read_back() {
    let mut random = Random::new(3);
    for _ in 0..10_000 {
        let (header, table) = datagram(&mut random);
        let form = form(&header, &table);
        assert_eq!(form.len(), if header.has_bucket() { 129 } else { 10 });
        assert_eq!(datagram::read(&form), Ok((header, table)));
        for length in [form.len() - 1, form.len() - 10] {
            assert_eq!(
                datagram::write(
                    &header,
                    &table.pairs()[..table.keys().len()],
                    &mut vec![0; length]
                ),
                Err(15)
            );
        }
    }
}

#[test]
fn a_damaged_datagram_is_read_only_as_another_written_form() {
    let mut random = Random::new(4);
    for _ in 0..60 {
        let (header, table) = datagram(&mut random);
        let whole = form(&header, &table);
        for at in 0..whole.len() {
            for byte in 0..=255 {
                let mut damaged = whole.clone();
                damaged[at] = byte;
                match datagram::read(&damaged) {
                    Ok((header, table)) => assert_eq!(form(&header, &table), damaged),
                    Err(refusal) if at >= 16 => assert!(refusal == 13 || refusal == 14),
                    Err(refusal) => assert_eq!(refusal, 14),
                }
            }
        }
    }
}

const WRITE: Header = Header {
    kind: 4,
    from: 0,
    to: 1,
    bucket: 0,
    number: 258,
    round: 16_909_060,
    version: Version {
        number: 258,
        counter: 5,
    },
};

#[test]
fn fields_are_big_endian() {
    let mut out = [0; 129];
    assert_eq!(datagram::write(&WRITE, &[(b"a", b"hi")], &mut out), Ok(129));
    assert_eq!(out[..16], [4, 0, 1, 0, 1, 2, 1, 2, 3, 4, 1, 2, 0, 0, 0, 5]);
    assert_eq!(out[16..24], [1, 5, 1, 6, 2, 0x61, 0x68, 0x69]);
}

#[test]
fn datagrams_carry_empty_values() {
    for front in bucket_forms::FRONTS {
        for (bucket, pairs) in bucket_forms::good() {
            let whole = [&front[..], &bucket].concat();
            let (header, table) = datagram::read(&whole).unwrap();
            assert_eq!(&table.pairs()[..table.keys().len()], pairs);
            assert_eq!(form(&header, &table), whole);
        }
        for bucket in bucket_forms::broken() {
            let whole = [&front[..], &bucket].concat();
            assert_eq!(datagram::read(&whole), Err(13), "{bucket:02x?}");
        }
    }
}

/// The header with one change made to it.
fn changed(mut header: Header, change: fn(&mut Header)) -> Header {
    change(&mut header);
    header
}

const READ_REPLY: Header = Header { kind: 8, ..WRITE };
const READ: Header = Header { kind: 7, ..WRITE };
const VOTE: Header = Header {
    kind: 1,
    round: 0,
    ..WRITE
};

#[test]
fn headers_that_break_the_form_are_not_written() {
    let wrong = [
        changed(VOTE, |header| header.kind = 0),
        changed(VOTE, |header| header.round = 1),
        changed(VOTE, |header| header.bucket = 1),
        changed(READ, |header| header.kind = 10),
        changed(READ, |header| header.from = 1),
        changed(READ, |header| header.from = 7),
        changed(READ, |header| header.to = 7),
        changed(READ, |header| header.bucket = 8),
        changed(READ, |header| header.number = 0),
        changed(READ, |header| header.round = 0),
        changed(WRITE, |header| header.version.number = 257),
        changed(WRITE, |header| header.version.counter = 0),
        changed(READ_REPLY, |header| header.version.number = 0),
        changed(READ_REPLY, |header| header.version.counter = 0),
    ];
    for header in wrong {
        let mut out = [7; 129];
        let refusal = datagram::write(&header, &[], &mut out);
        assert_eq!(refusal, Err(14), "{header:?}");
        assert_eq!(out, [7; 129]);
    }
}

/// A bucket that holds a key is not empty, whatever the key's value.
#[test]
fn a_version_of_zeros_goes_with_an_empty_bucket() {
    let unwritten = changed(READ_REPLY, |header| header.version = Version::NONE);
    let mut out = [0; 129];
    for value in ["x", ""] {
        let pairs: [Pair; 1] = [(b"a", value.as_bytes())];
        assert_eq!(datagram::write(&unwritten, &pairs, &mut out), Err(14));
        datagram::write(&READ_REPLY, &pairs, &mut out).unwrap();
        out[10..16].fill(0);
        assert_eq!(datagram::read(&out), Err(14));
    }
    assert_eq!(datagram::write(&unwritten, &[], &mut out), Ok(129));
    for header in [READ, VOTE] {
        assert_eq!(datagram::write(&header, &[], &mut out[..10]), Ok(10));
    }
}

#[test]
fn a_broken_bucket_comes_before_other_faults() {
    let unsorted: [Pair; 2] = [(b"b", b"x"), (b"a", b"x")];
    let header = Header { from: 9, ..WRITE };
    assert_eq!(datagram::write(&header, &unsorted, &mut []), Err(13));
    assert_eq!(datagram::write(&header, &[], &mut []), Err(14));
    assert_eq!(datagram::write(&WRITE, &[], &mut []), Err(15));
    let mut whole = [0; 129];
    datagram::write(&WRITE, &[], &mut whole).unwrap();
    whole[128] = 1;
    whole[1] = 9;
    assert_eq!(datagram::read(&whole), Err(13));
    whole[0] = 5;
    assert_eq!(datagram::read(&whole), Err(14));
    whole[0] = 4;
    assert_eq!(datagram::read(&whole[..128]), Err(14));
    assert_eq!(datagram::read(&[]), Err(14));
}
