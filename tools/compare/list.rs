//! A fixed list of messages with the crate's answers, tests/lists/replay.txt, which tests/vectors.c replays. README.md has its form.

use crate::calls::Loans;
use crate::dates;
use crate::inputs::{damaged, date_bits, Dates, Random, TEXT_EDGES};
use crate::published::{self, Published};
use crate::{hex, made, text_in, trees};
use std::collections::BTreeSet;

/// Entries that tests/vectors.c lends of each loan. Messages that need more are not in the list.
const LENT: [usize; 6] = [256, 4_096, 256, 256, 64, 256];

/// The most bytes of a message in the list, and of what is written of it.
const MESSAGE_MOST: usize = 160;
const WRITTEN_MOST: usize = 400;

const HEADER: &str = "\
# Answers of the crate amf 1.0.0. Made by tools/compare/run --list tests/lists/replay.txt. Tried by tests/vectors.c. Numbers and bytes are hexadecimal.
# finished MESSAGE TAKEN WRITTEN: the crate reads a value from TAKEN bytes, and writes it as WRITTEN
# refused MESSAGE NO TOLD PLACE: the crate's error, its value or 0, and the bytes that it had taken; MESSAGE may be none
# No message is refused for a date's sign bit alone, and none that finishes has a date with a part of a millisecond, or of 2^63 milliseconds and more.
# Lend 256 rows, 4,096 bytes, 256 strings, 256 objects, 64 traits, 256 names, and an output of 400 bytes.
";

/// The examples of document 01.
const EXAMPLES: [&[u8]; 16] = [
    &[],
    &[4, 0xff, 0xff, 0xff, 0xff],
    &[4, 0xc0, 0x80, 0x80, 0],
    &[4, 0xbf, 0xff, 0xff, 0xff],
    &[4, 0x80, 0],
    &[9, 5, 1, 6, 3, 0x61, 6, 0],
    &[9, 5, 1, 6, 1, 6, 0],
    &[9, 3, 1, 9, 0],
    &[0xa, 7, 1],
    &[0x11, 1, 2],
    &[6, 5, 0xc0, 0x80],
    &[0xa, 0xb, 1, 3, 0x61, 4, 1, 1],
    &[0x12],
    &[4, 0x81, 0],
    &[4, 0x81, 0x80, 0],
    &[4, 0x80, 0xc0, 0x80, 0],
];

fn messages() -> Vec<Vec<u8>> {
    let mut all: Vec<Vec<u8>> = EXAMPLES.iter().map(|m| m.to_vec()).collect();
    all.push([[9, 3, 1].repeat(63), vec![9, 1, 1]].concat());
    for a in 0..=255 {
        all.push(vec![a]);
    }
    for a in 0..=0x12 {
        all.extend([0, 1, 2, 3, 4, 5, 7, 9, 0xb, 0xf, 0x7f, 0x80, 0xff].map(|b| vec![a, b]));
    }
    let r = &mut Random::new(9);
    for (i, a) in TEXT_EDGES.iter().enumerate() {
        all.push(text_in(i, &[*a]));
        all.extend(TEXT_EDGES.iter().enumerate().map(|(k, b)| text_in(i + k, &[*a, *b])));
    }
    for i in 0..500 {
        let s: Vec<u8> = (0..3 + i % 3).map(|_| r.pick(&TEXT_EDGES)).collect();
        all.push(text_in(i, &s));
    }
    for dates in [Dates::Whole, Dates::Any] {
        all.extend((0..300).map(|_| [&[8, 1], &date_bits(r, dates).to_be_bytes()[..]].concat()));
    }
    all.extend((0..1_000).map(|_| made(r, 0, Dates::Whole)));
    all.extend((0..1_000).map(|_| made(r, 25, Dates::Any)));
    for _ in 0..1_200 {
        let m = made(r, 0, Dates::Whole);
        all.push(damaged(r, &m));
    }
    all
}

/// Whether the crate's answers to all dates of a message that it reads are those of the library.
fn dates_agree(m: &[u8]) -> bool {
    dates::bits_at(m, &dates::places(m)).into_iter().all(dates::is_listed)
}

fn line(m: &[u8]) -> Option<String> {
    match published::read(m) {
        Published::Skipped => None,
        Published::Refused { no: 7, told, .. } if dates::is_signed(told as u64) => None,
        Published::Refused { no, told, place } => Some(format!("refused {} {no:x} {told:x} {place:x}\n", hex(m))),
        Published::Finished { value, .. } if trees::levels(&value) > 64 || !dates_agree(m) => None,
        Published::Finished { value, taken } => {
            let bytes = published::write(&value);
            (bytes.len() <= WRITTEN_MOST).then(|| format!("finished {} {taken:x} {}\n", hex(m), hex(&bytes)))
        }
    }
}

/// The whole list.
pub fn lines() -> String {
    let mut loans = Loans::new();
    loans.lend(LENT);
    let mut seen = BTreeSet::new();
    let mut kinds: [Vec<String>; 2] = Default::default();
    for m in messages() {
        let outside = [9, 10, 11].contains(&loans.read(&m).no);
        if m.len() > MESSAGE_MOST && m.len() != 192 || outside || !seen.insert(m.clone()) {
            continue;
        }
        if let Some(l) = line(&m) {
            kinds[["finished", "refused"].iter().position(|k| l.starts_with(k)).unwrap()].push(l);
        }
    }
    HEADER.to_string() + &kinds.concat().concat()
}
