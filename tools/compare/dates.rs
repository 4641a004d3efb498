//! Dates. A row holds a date's 64 bits as they came; the crate knows milliseconds without a sign. What lies outside of its answers is held to rules here.

use crate::calls::{Moment, Table, COLUMNS};
use crate::published::{self, Published};
use crate::trees;
use amf::amf3::Value;
use std::time::Duration;

/// A double's sign bit, in its bits and in its first byte.
pub const SIGN: u64 = 1 << 63;
const SIGN_BYTE: u8 = 0x80;

/// The most whole milliseconds that both sides must write alike.
pub const WHOLE_MOST: u64 = 1 << 53;

/// From here on milliseconds are held: the crate says more than 2^63 - 1.
const HELD_FROM: f64 = 9_223_372_036_854_775_808.0;

/// The largest number whose bits the crate gives back: it reads 2^64 - 1 milliseconds and writes 2^64.
const KEPT_MOST: f64 = 18_446_744_073_709_551_616.0;

/// Bytes of a date's number, and those before it as a writer has them.
const BYTES: usize = 8;
const HEAD: [u8; 2] = [8, 1];

/// The columns that say what a row is and which date it has, and two kinds.
const KIND: usize = 0;
const NUMBER: usize = 8;
const DATE: usize = 8;
const REFERENCE: usize = 18;

/// The refusal of a date.
const BAD_DATE: usize = 7;

pub fn is_finite(bits: u64) -> bool {
    f64::from_bits(bits).is_finite()
}

/// What the crate reads of these bits, were there no sign bit.
pub fn published(bits: u64) -> Value {
    Value::Date { unix_time: Duration::from_millis(f64::from_bits(bits & !SIGN) as u64) }
}

fn is_whole(bits: u64) -> bool {
    bits & SIGN == 0 && f64::from_bits(bits).fract() == 0.0
}

/// Whether both sides must write these bits alike: whole milliseconds from +0 to 2^53.
pub fn is_written_alike(bits: u64) -> bool {
    is_whole(bits) && f64::from_bits(bits) <= WHOLE_MOST as f64
}

/// Whether the crate writes these bits once it has read them.
pub fn is_kept_by_crate(bits: u64) -> bool {
    is_whole(bits) && f64::from_bits(bits) <= KEPT_MOST
}

/// Whether the crate says more milliseconds of these bits than a row can.
pub fn is_held(bits: u64) -> bool {
    f64::from_bits(bits) >= HELD_FROM
}

/// Whether both sides agree on these bits, in reading and in writing.
pub fn is_listed(bits: u64) -> bool {
    is_kept_by_crate(bits) && !is_held(bits)
}

/// A message in which no finite date has its sign bit set, and what the crate makes of that. The crate itself tells where such dates are: it stops behind each.
pub fn cleared(message: &[u8]) -> (Vec<u8>, Published) {
    let mut m = message.to_vec();
    loop {
        match published::read(&m) {
            Published::Refused { no: BAD_DATE, told, place } if is_signed(told as u64) => m[place - BYTES] &= !SIGN_BYTE,
            answer => return (m, answer),
        }
    }
}

/// Whether a date's bits are refused by the crate for their sign alone.
pub fn is_signed(bits: u64) -> bool {
    is_finite(bits) && bits & SIGN != 0
}

/// The places of the dates in a message that the crate reads to its end: it takes eight bytes there, and refuses them as a date once their sign bit is set.
pub fn places(message: &[u8]) -> Vec<usize> {
    let mut m = message.to_vec();
    let mut is_date = |at: &usize| {
        m[*at] |= SIGN_BYTE;
        let answer = published::read(&m);
        m[*at] = message[*at];
        matches!(answer, Published::Refused { no: BAD_DATE, place, .. } if place == *at + BYTES)
    };
    published::eights(message).into_iter().filter(|at| is_date(at)).collect()
}

/// The bits of the dates in a message, whose places are those of a message that the crate reads.
pub fn bits_at(message: &[u8], places: &[usize]) -> Vec<u64> {
    places.iter().map(|at| u64::from_be_bytes(message[*at..*at + BYTES].try_into().unwrap())).collect()
}

/// The kind of a row, none where there is no such row.
fn kind_of(t: &Table, row: usize) -> Option<usize> {
    row.checked_mul(COLUMNS).and_then(|at| t.rows.get(at + KIND)).copied()
}

/// The rows that are dates.
fn date_rows<'a>(t: &'a Table) -> impl Iterator<Item = usize> + 'a {
    (0..t.rows.len() / COLUMNS).filter(|row| kind_of(t, *row) == Some(DATE))
}

fn number(t: &Table, row: usize) -> usize {
    t.rows[row * COLUMNS + NUMBER]
}

/// The date rows hold the bits of the message's dates, in their order. The cleared message says where those are.
pub fn check_bits(t: &Table, message: &[u8], cleared: &[u8]) -> Result<(), String> {
    let here: Vec<u64> = date_rows(t).map(|row| number(t, row) as u64).collect();
    if here.is_empty() {
        return Ok(());
    }
    let there = bits_at(message, &places(cleared));
    if here != there {
        return Err(format!("the message's dates are {there:x?}, here {here:x?}"));
    }
    Ok(())
}

/// The milliseconds of every row, and of the one past them: those of a date's bits by Rust's cast, which cuts towards zero and holds at the ends; a reference's
/// are its target's; elsewhere there are none.
pub fn check_moments(t: &Table) -> Result<(), String> {
    for row in 0..=t.rows.len() / COLUMNS {
        let home = if kind_of(t, row) == Some(REFERENCE) { number(t, row) } else { row };
        let bits = (kind_of(t, home) == Some(DATE)).then(|| number(t, home) as u64).filter(|bits| is_finite(*bits));
        let want = bits.map_or(Moment::default(), |bits| Moment { found: 1, millis: f64::from_bits(bits) as i64 });
        let here = t.moment(row);
        if here != want {
            return Err(format!("row {row}, bits {bits:x?}: {here:?}, not {want:?}"));
        }
    }
    Ok(())
}

/// No row has milliseconds: a loan is refused by 1.
pub fn check_no_moments(t: &Table) -> Result<(), String> {
    match (0..=t.rows.len() / COLUMNS).find(|row| t.moment(*row) != Moment::default()) {
        Some(row) => Err(format!("row {row} of {} numbers, a store of {}: {:?}", t.rows.len(), t.store.len(), t.moment(row))),
        None => Ok(()),
    }
}

/// Sets the sign bit in those date rows that have it in the other table.
pub fn copy_signs(to: &mut [usize], from: &Table) {
    for row in date_rows(from) {
        to[row * COLUMNS + NUMBER] |= number(from, row) & SIGN as usize;
    }
}

/// Milliseconds that no other date has: from them on the dates of a value are numbered.
const MARKED_FROM: u64 = 0x13_579b_df02_4680;

/// What the crate writes of a value, but for its dates, which are these bits in turn.
pub fn written(value: &Value, dates: &[u64]) -> Vec<u8> {
    let mut marked = value.clone();
    let mut marks = MARKED_FROM..;
    trees::each_date(&mut marked, &mut |time| *time = Duration::from_millis(marks.next().unwrap()));
    let mut out = published::write(&marked);
    let mut at = 0;
    for (mark, bits) in (MARKED_FROM..marks.start).zip(dates) {
        let form = [&HEAD[..], &(mark as f64).to_be_bytes()].concat();
        let Some(found) = out[at..].windows(form.len()).position(|w| w == form) else {
            return out;
        };
        at += found + form.len();
        out[at - BYTES..at].copy_from_slice(&bits.to_be_bytes());
    }
    out
}
