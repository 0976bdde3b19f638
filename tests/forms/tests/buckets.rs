//! The proved calls on bucket bytes against the independent ones: the answer,
//! and every lent byte afterwards. About 800,000 inputs.

mod common;

use common::{
    any_bytes, any_entries, bytes, damage, form, full_table, laid_out, table, Rows, LENGTHS, OLD,
};
use reference::bucket::{Full, Key, Pair, Table, Value};
use reference::bucket_forms;
use reference::scripts::Random;

/// `full`; an absent key, which differs from an empty value; and what look-ups
/// and lists say for 13 and 15.
const FULL: u32 = 255;
const ABSENT: u32 = 254;
const REFUSED: u32 = 113;
const SHORT: u32 = 115;

fn read(bucket: &[u8]) -> Result<Table, u32> {
    reference::bucket::read(bucket).map_err(u32::from)
}

/// The number of a list of keys, each written to `out` behind its length. No
/// more room is needed than they take.
fn list_keys(bucket: &[u8], out: &mut [u8]) -> u32 {
    let Ok(table) = read(bucket) else {
        return REFUSED;
    };
    let room: usize = table.keys().iter().map(|key| 1 + key.len()).sum();
    if out.len() < room {
        return SHORT;
    }
    let mut at = 0;
    for key in table.keys() {
        out[at] = key.len() as u8;
        out[at + 1..][..key.len()].copy_from_slice(key.as_slice());
        at += 1 + key.len();
    }
    table.keys().len() as u32
}

/// The keys, written to an output of `room` bytes.
fn compare_keys(bucket: &[u8], room: usize) {
    let mut expected = vec![OLD; room];
    let number = list_keys(bucket, &mut expected);
    let mut out = vec![OLD; room];
    let answer = forms::bucket::keys(bucket, &mut out);
    assert_eq!(
        (answer, out),
        (number, expected),
        "keys of {bucket:?} into {room} bytes"
    );
}

/// The number of a look-up, whose value is written to `out`. An empty value
/// needs no room there, nor does an absent key.
fn look_up(bucket: &[u8], key: &[u8], out: &mut [u8]) -> u32 {
    let Ok(table) = read(bucket) else {
        return REFUSED;
    };
    let Some(value) = table.look_up(&Key::new(key)) else {
        return ABSENT;
    };
    let Some(front) = out.get_mut(..value.len()) else {
        return SHORT;
    };
    front.copy_from_slice(value.as_slice());
    value.len() as u32
}

/// The value of a key, written to an output of `room` bytes.
fn compare_look_up(bucket: &[u8], key: &[u8], room: usize) {
    let mut expected = vec![OLD; room];
    let number = look_up(bucket, key, &mut expected);
    let mut out = vec![OLD; room];
    let answer = forms::bucket::get(bucket, key, &mut out);
    assert_eq!((answer, out), (number, expected), "{key:?} in {bucket:?}");
}

/// The bucket after a put, with its number. An empty value is stored.
fn put(bucket: &[u8], key: &[u8], value: &[u8]) -> (u32, Vec<u8>) {
    if !(1..=8).contains(&key.len()) || value.len() > 16 {
        return (13, bucket.to_vec());
    }
    let Ok(mut table) = read(bucket) else {
        return (13, bucket.to_vec());
    };
    match table.put(&Key::new(key), &Value::new(value)) {
        Ok(()) => (0, form(&table)),
        Err(Full) => (FULL, bucket.to_vec()),
    }
}

fn compare_put(bucket: &mut [u8], key: &[u8], value: &[u8]) {
    let expected = put(bucket, key, value);
    let before = bucket.to_vec();
    let answer = forms::bucket::put(bucket, key, value);
    assert_eq!(
        (answer, bucket.to_vec()),
        expected,
        "{key:?} to {value:?} in {before:?}"
    );
}

fn compare_remove(bucket: &mut [u8], key: &[u8]) {
    let before = bucket.to_vec();
    let expected = match read(bucket) {
        Err(refusal) => (refusal, before.clone()),
        Ok(mut table) => {
            table.remove(&Key::new(key));
            (0, form(&table))
        }
    };
    let answer = forms::bucket::remove(bucket, key);
    assert_eq!(
        (answer, bucket.to_vec()),
        expected,
        "{key:?} from {before:?}"
    );
}

/// Reading: the number, and the table by its keys and their values.
fn compare_reading(bucket: &[u8]) {
    let table = read(bucket);
    let answer = forms::bucket::read(bucket);
    assert_eq!(answer, table.err().unwrap_or(0), "{bucket:?}");
    compare_keys(bucket, 36);
    if let Ok(table) = table {
        for key in table.keys() {
            compare_look_up(bucket, key.as_slice(), 16);
        }
    }
}

/// Every call, with a random key and value of good or bad length.
fn compare_calls(random: &mut Random, bucket: &[u8]) {
    compare_reading(bucket);
    let held = read(bucket).ok().and_then(|table| {
        let keys = table.keys();
        (!keys.is_empty()).then(|| random.pick(keys).as_slice().to_vec())
    });
    let key = match held {
        Some(key) if random.chance(500) => key,
        _ => bytes(random, 0, 10),
    };
    let value = bytes(random, 0, 18);
    compare_keys(bucket, random.below(50));
    compare_look_up(bucket, &key, random.below(20));
    compare_look_up(bucket, &key, 0);
    compare_put(&mut bucket.to_vec(), &key, &value);
    compare_put(&mut bucket.to_vec(), &key, b"");
    compare_remove(&mut bucket.to_vec(), &key);
}

/// A look-up that gives this number and writes nothing, whatever room there is.
fn assert_looked_up(bucket: &[u8], key: &[u8], number: u32) {
    for room in [0, 1, 16] {
        let mut out = vec![OLD; room];
        assert_eq!(forms::bucket::get(bucket, key, &mut out), number);
        assert_eq!(out, vec![OLD; room]);
    }
}

#[test]
fn an_empty_value_is_stored_found_and_removed() {
    let mut bucket = vec![0; 113];
    assert_looked_up(&bucket, b"a", ABSENT);
    assert_eq!(forms::bucket::put(&mut bucket, b"a", b""), 0);
    let mut stored = vec![1, 5, 1, 6, 0, b'a'];
    stored.resize(113, 0);
    assert_eq!(bucket, stored);
    assert_looked_up(&bucket, b"a", 0);
    // Another key, a longer one, one of no bytes and one of nine.
    for key in ["b", "a\0", "", "aaaaaaaaa"] {
        assert_looked_up(&bucket, key.as_bytes(), ABSENT);
    }
    // Some bytes are put in its place, and it in theirs.
    assert_eq!(forms::bucket::put(&mut bucket, b"a", b"hi"), 0);
    assert_eq!(bucket[..8], [1, 5, 1, 6, 2, b'a', b'h', b'i']);
    assert_eq!(forms::bucket::put(&mut bucket, b"a", b""), 0);
    assert_eq!(bucket, stored);
    for _ in 0..2 {
        assert_eq!(forms::bucket::remove(&mut bucket, b"a"), 0);
        assert_eq!(bucket, vec![0; 113]);
    }
    assert_looked_up(&bucket, b"a", ABSENT);
}

#[test]
fn keys_with_empty_values_count_for_the_four() {
    let mut bucket = vec![0; 113];
    for key in [b"c", b"a", b"d", b"b"] {
        assert_eq!(forms::bucket::put(&mut bucket, key, b""), 0);
    }
    let full = bucket.clone();
    assert_eq!(full[0], 4);
    for value in ["", "x"] {
        assert_eq!(
            forms::bucket::put(&mut bucket, b"e", value.as_bytes()),
            FULL
        );
        assert_eq!(bucket, full);
    }
    assert_eq!(forms::bucket::put(&mut bucket, b"d", b""), 0);
    assert_eq!(bucket, full);
    assert_eq!(forms::bucket::remove(&mut bucket, b"e"), 0);
    assert_eq!(bucket, full);
    assert_eq!(forms::bucket::remove(&mut bucket, b"d"), 0);
    assert_eq!(forms::bucket::put(&mut bucket, b"e", b""), 0);
    assert_looked_up(&bucket, b"d", ABSENT);
    assert_looked_up(&bucket, b"e", 0);
}

#[test]
fn forms_with_empty_values_are_read_and_written() {
    let mut random = Random::new(19);
    for (bucket, pairs) in bucket_forms::good() {
        assert_eq!(forms::bucket::read(&bucket), 0, "{pairs:?}");
        compare_calls(&mut random, &bucket);
        let written = write(&Rows::of(&mut random, pairs), 113);
        assert_eq!(written, (0, bucket.to_vec()), "{pairs:?}");
    }
}

#[test]
fn faults_beside_empty_values_are_refused() {
    let mut random = Random::new(9);
    for bucket in bucket_forms::broken() {
        assert_eq!(forms::bucket::read(&bucket), 13, "{bucket:02x?}");
        assert_looked_up(&bucket, b"a", REFUSED);
        compare_calls(&mut random, &bucket);
    }
}

#[test]
fn calls_agree_on_random_tables() {
    let mut random = Random::new(10);
    for _ in 0..10_000 {
        let table = table(&mut random);
        compare_calls(&mut random, &form(&table));
    }
}

/// 115 exactly where the keys do not fit, and no byte past them is written.
#[test]
fn keys_are_listed_wherever_they_fit() {
    let mut random = Random::new(30);
    let mut tables = vec![Table::EMPTY, full_table(&mut random)];
    tables.extend((0..2_000).map(|_| table(&mut random)));
    let mut buckets: Vec<Vec<u8>> = tables.iter().map(form).collect();
    buckets.extend(bucket_forms::broken().map(|bucket| bucket.to_vec()));
    for bucket in buckets {
        for room in 0..=40 {
            compare_keys(&bucket, room);
        }
    }
}

#[test]
fn a_bucket_changed_many_times_stays_the_same() {
    let mut random = Random::new(11);
    let mut bucket = vec![0; 113];
    for _ in 0..20_000 {
        let key = bytes(&mut random, 1, 2);
        if random.chance(600) {
            let value = bytes(&mut random, 0, 16);
            compare_put(&mut bucket, &key, &value);
        } else {
            compare_remove(&mut bucket, &key);
        }
    }
}

#[test]
fn reading_agrees_on_every_single_damaged_byte() {
    let mut random = Random::new(12);
    let mut tables = vec![Table::EMPTY, full_table(&mut random)];
    tables.extend((0..8).map(|_| table(&mut random)));
    let mut wholes: Vec<Vec<u8>> = tables.iter().map(form).collect();
    wholes.extend(bucket_forms::good().map(|(whole, _)| whole.to_vec()));
    for whole in wholes {
        for at in 0..whole.len() {
            for byte in 0..=255 {
                let mut bucket = whole.clone();
                bucket[at] = byte;
                compare_reading(&bucket);
            }
        }
    }
}

#[test]
fn calls_agree_on_damaged_tables() {
    let mut random = Random::new(13);
    for _ in 0..30_000 {
        let mut bucket = form(&table(&mut random));
        damage(&mut random, &mut bucket);
        compare_calls(&mut random, &bucket);
    }
}

#[test]
fn calls_agree_on_any_entries_laid_out() {
    let mut random = Random::new(18);
    for _ in 0..20_000 {
        let bucket = laid_out(&any_entries(&mut random));
        compare_calls(&mut random, &bucket);
    }
}

#[test]
fn calls_agree_on_every_count_byte() {
    let mut random = Random::new(14);
    for _ in 0..20 {
        let mut bucket = form(&table(&mut random));
        for count in 0..=255 {
            bucket[0] = count;
            compare_calls(&mut random, &bucket);
        }
    }
}

#[test]
fn calls_agree_on_random_bytes_and_any_length() {
    let mut random = Random::new(15);
    for _ in 0..1_000 {
        for length in LENGTHS {
            let mut bucket = any_bytes(&mut random, length);
            compare_calls(&mut random, &bucket);
            if let Some(count) = bucket.first_mut() {
                *count %= 5;
            }
            compare_calls(&mut random, &bucket);
        }
    }
}

#[test]
fn calls_agree_on_tables_cut_or_extended() {
    let mut random = Random::new(16);
    for _ in 0..500 {
        let whole = form(&table(&mut random));
        for length in LENGTHS {
            let mut bucket = whole.clone();
            bucket.resize(length, 0);
            compare_calls(&mut random, &bucket);
        }
    }
}

/// The number of a table written to an output of `room` bytes, and the output.
fn write(rows: &Rows, room: usize) -> (u32, Vec<u8>) {
    let mut out = vec![OLD; room];
    let answer = forms::bucket::write(rows.count, &rows.lengths, &rows.bytes, &mut out);
    (answer, out)
}

fn compare_writing(rows: &Rows, room: usize) {
    let mut expected = vec![OLD; room];
    let pairs = rows.pairs();
    let pairs: Vec<Pair> = pairs.iter().map(|(k, v)| (&k[..], &v[..])).collect();
    let number = match reference::bucket::write(&pairs, &mut expected) {
        Ok(()) => 0,
        Err(refusal) => u32::from(refusal),
    };
    assert_eq!(write(rows, room), (number, expected), "{pairs:?}");
}

#[test]
fn writing_agrees() {
    let mut random = Random::new(17);
    for _ in 0..30_000 {
        let rows = Rows::any(&mut random);
        compare_writing(&rows, *random.pick(&LENGTHS));
    }
}
