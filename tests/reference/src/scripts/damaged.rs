//! Scripts damaged as bytes, line feeds included: what comes out need not
//! have the lines that went in.

use super::{generate, Kind, Random};

/// Bytes that a damaged script is likely to get.
const LIKELY: &[u8] = b"\n\n\n  \t\r-.0019abfgAF\0\xff";
/// Longest run of one byte that is put in.
const LONGEST_RUN: usize = 200_000;

pub fn damaged(random: &mut Random, lines: usize) -> Vec<u8> {
    if random.chance(50) {
        return noise(random, 40 * lines);
    }
    let kinds = [Kind::Ordinary, Kind::Rivals, Kind::Crowded, Kind::Long];
    let mut text = generate(*random.pick(&kinds), random.draw(), lines);
    if random.chance(100) {
        text = with_carriage_returns(&text);
    }
    for _ in 0..random.within(1, 12) {
        damage(random, &mut text);
    }
    text
}

fn damage(random: &mut Random, text: &mut Vec<u8>) {
    let at = random.below(text.len().max(1)).min(text.len());
    let byte = match random.chance(800) {
        true => *random.pick(LIKELY),
        false => random.byte(),
    };
    let length = random.within(1, 300).min(text.len() - at);
    match random.below(100) {
        0..=29 if length > 0 => text[at] = byte,
        30..=54 => text.insert(at, byte),
        55..=74 if length > 0 => drop(text.remove(at)),
        // A part is left out, comes twice, or is noise.
        75..=81 => drop(text.drain(at..at + length)),
        82..=88 => {
            let part = text[at..at + length].to_vec();
            text.splice(at..at, part);
        }
        89..=93 => {
            let noise = noise(random, length);
            text.splice(at..at + length, noise);
        }
        94 | 95 => text.truncate(at.max(text.len() / 2)),
        96 => {
            let length = random.within(1, LONGEST_RUN);
            text.splice(at..at, vec![byte; length]);
        }
        _ => drop(text.pop()),
    }
}

/// Bytes of any value, with a line feed now and then.
fn noise(random: &mut Random, length: usize) -> Vec<u8> {
    let byte = |random: &mut Random| match random.chance(30) {
        true => b'\n',
        false => random.byte(),
    };
    (0..length).map(|_| byte(random)).collect()
}

fn with_carriage_returns(text: &[u8]) -> Vec<u8> {
    let end = |&byte: &u8| match byte {
        b'\n' => vec![b'\r', b'\n'],
        byte => vec![byte],
    };
    text.iter().flat_map(end).collect()
}
