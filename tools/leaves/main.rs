//! Makes the vectors that the program `leaves` holds the crates wire and utf8 to: crates/leaves/data/leaves.txt, and on
//! standard output what `leaves` has to write about them, crates/leaves/stdout.
//!
//!     rustc --edition 2021 -O -o target/make-leaves tools/leaves/main.rs
//!     target/make-leaves > crates/leaves/stdout
//!
//! Run it in the root of the repository. Its seeds are fixed: a run makes the same two files again.
//!
//! The answers are Rust's: `String::from_utf8`, `from_be_bytes`, `to_be_bytes`, `f64::from_bits`, `to_bits`, shifts and casts of
//! `i32`, `i64` and `f64`. A U29 is read and written by `decode_u29` and `encode_u29` of amf 1.0.0, copied below, and held here to
//! the table of Adobe's AMF 3 specification, section 1.3.1. Integers are held to what amf 1.0.0 does with them, and so are dates that
//! it takes, below 2^63 milliseconds.

use std::collections::BTreeSet;
use std::fmt::Write;
use std::fs;
use std::io::{self, Read};

/// What the lines of each kind say, in the order in which they stand in the file, and the seed that they are made with. Numbers and
/// bytes are hexadecimal.
const KINDS: [(&str, &str, u64, fn(&mut Rows)); 11] = [
    (
        "read_u29",
        "BYTES AT VALUE NEXT, or BYTES AT short",
        0,
        read_u29_rows,
    ),
    ("put_u29", "VALUE BYTES", 1, put_u29_rows),
    ("integer", "U29 COLUMN", 2, integer_rows),
    (
        "integer_bits",
        "COLUMN U29, or COLUMN outside",
        3,
        integer_bits_rows,
    ),
    ("column", "SIGN MAGNITUDE COLUMN", 4, column_rows),
    (
        "read_be32",
        "BYTES AT VALUE NEXT, or BYTES AT short",
        5,
        read_be32_rows,
    ),
    ("put_be32", "VALUE BYTES", 6, put_be32_rows),
    (
        "read_be64",
        "BYTES AT VALUE NEXT, or BYTES AT short",
        7,
        read_be64_rows,
    ),
    ("put_be64", "VALUE BYTES", 8, put_be64_rows),
    ("millis", "BITS COLUMN, or BITS none", 9, millis_rows),
    (
        "text",
        "BYTES valid, BYTES cut, or BYTES broken",
        11,
        text_rows,
    ),
];

fn main() -> io::Result<()> {
    let mut file = String::from(
        "# Made by tools/leaves/main.rs. Each line has a kind, what is asked, and the answer:\n",
    );
    for (kind, form, ..) in KINDS {
        writeln!(file, "# {kind} {form}").unwrap();
    }
    for (kind, _, seed, make) in KINDS {
        let mut rows = Rows::new(kind, seed);
        make(&mut rows);
        for line in &rows.lines {
            writeln!(file, "{line}").unwrap();
        }
        println!("{kind} {} right, 0 wrong", rows.lines.len());
    }
    fs::write("crates/leaves/data/leaves.txt", file)
}

// ---- rows

/// The lines of one kind, none twice, and the random numbers that they are made with.
struct Rows {
    kind: &'static str,
    lines: Vec<String>,
    known: BTreeSet<String>,
    state: u64,
}

impl Rows {
    fn new(kind: &'static str, seed: u64) -> Self {
        Rows {
            kind,
            lines: Vec::new(),
            known: BTreeSet::new(),
            state: seed,
        }
    }

    fn add(&mut self, words: String) {
        if self.known.insert(words.clone()) {
            self.lines.push(format!("{} {words}", self.kind));
        }
    }

    /// Sixty-four random bits, by splitmix64.
    fn random(&mut self) -> u64 {
        self.state = self.state.wrapping_add(0x9e37_79b9_7f4a_7c15);
        let mut z = self.state;
        z = (z ^ (z >> 30)).wrapping_mul(0xbf58_476d_1ce4_e5b9);
        z = (z ^ (z >> 27)).wrapping_mul(0x94d0_49bb_1331_11eb);
        z ^ (z >> 31)
    }

    fn below(&mut self, n: u64) -> u64 {
        self.random() % n
    }

    fn bytes(&mut self, n: u64) -> Vec<u8> {
        (0..n).map(|_| self.random() as u8).collect()
    }

    /// A random number of `bits` bits, its highest set.
    fn wide(&mut self, bits: u32) -> u64 {
        (self.random() | 1 << 63) >> (64 - bits)
    }
}

fn hex(bytes: &[u8]) -> String {
    bytes.iter().map(|b| format!("{b:02x}")).collect()
}

/// The powers of two up to 2^`bits` - 1 with their neighbours, 0 and the largest number of so many bits.
fn edges(bits: u32) -> Vec<u64> {
    let largest = u64::MAX >> (64 - bits);
    let mut all = BTreeSet::from([0, largest - 1, largest]);
    for k in 0..bits {
        let power = 1u64 << k;
        all.extend([power - 1, power, power + 1]);
    }
    all.into_iter().filter(|&n| n <= largest).collect()
}

// ---- U29

/// `Decoder::decode_u29` of the crate amf 1.0.0 (MIT OR Apache-2.0), over any reader.
fn decode_u29(inner: &mut impl Read) -> io::Result<u32> {
    let mut n = 0;
    for _ in 0..3 {
        let b = read_u8(inner)? as u32;
        n = (n << 7) | (b & 0b0111_1111);
        if (b & 0b1000_0000) == 0 {
            return Ok(n);
        }
    }
    let b = read_u8(inner)? as u32;
    n = (n << 8) | b;
    Ok(n)
}

fn read_u8(inner: &mut impl Read) -> io::Result<u8> {
    let mut byte = [0];
    inner.read_exact(&mut byte)?;
    Ok(byte[0])
}

/// `Encoder::encode_u29` of the crate amf 1.0.0 (MIT OR Apache-2.0), into a vector.
#[allow(clippy::zero_prefixed_literal, clippy::identity_op)]
fn encode_u29(u29: u32) -> Vec<u8> {
    if u29 < 0x80 {
        vec![u29 as u8]
    } else if u29 < 0x4000 {
        let b1 = ((u29 >> 0) & 0b0111_1111) as u8;
        let b2 = ((u29 >> 7) | 0b1000_0000) as u8;
        vec![b2, b1]
    } else if u29 < 0x20_0000 {
        let b1 = ((u29 >> 00) & 0b0111_1111) as u8;
        let b2 = ((u29 >> 07) | 0b1000_0000) as u8;
        let b3 = ((u29 >> 14) | 0b1000_0000) as u8;
        vec![b3, b2, b1]
    } else if u29 < 0x4000_0000 {
        let b1 = ((u29 >> 00) & 0b1111_1111) as u8;
        let b2 = ((u29 >> 08) | 0b1000_0000) as u8;
        let b3 = ((u29 >> 15) | 0b1000_0000) as u8;
        let b4 = ((u29 >> 22) | 0b1000_0000) as u8;
        vec![b4, b3, b2, b1]
    } else {
        panic!("Too large number: {}", u29);
    }
}

/// The specification's table: 0xxxxxxx, 1xxxxxxx 0xxxxxxx, 1xxxxxxx 1xxxxxxx 0xxxxxxx, 1xxxxxxx 1xxxxxxx 1xxxxxxx xxxxxxxx.
/// The value, and how many bytes it took.
fn u29_by_table(s: &[u8]) -> Option<(u32, usize)> {
    let low = |i: usize| (s[i] & 0x7f) as u32;
    match s {
        [a, ..] if *a < 0x80 => Some((low(0), 1)),
        [_, b, ..] if *b < 0x80 => Some((low(0) << 7 | low(1), 2)),
        [_, _, c, ..] if *c < 0x80 => Some((low(0) << 14 | low(1) << 7 | low(2), 3)),
        [_, _, _, d, ..] => Some((low(0) << 22 | low(1) << 15 | low(2) << 8 | *d as u32, 4)),
        _ => None,
    }
}

/// `n` in `count` bytes, if it has room there: the shortest form or a longer one.
fn u29_in(n: u32, count: usize) -> Option<Vec<u8>> {
    let more = |shift: u32| 0x80 | (n >> shift & 0x7f) as u8;
    let last = (n & 0x7f) as u8;
    match count {
        1 if n < 1 << 7 => Some(vec![last]),
        2 if n < 1 << 14 => Some(vec![more(7), last]),
        3 if n < 1 << 21 => Some(vec![more(14), more(7), last]),
        4 if n < 1 << 29 => Some(vec![more(22), more(15), more(8), n as u8]),
        _ => None,
    }
}

fn read_u29_row(rows: &mut Rows, bytes: &[u8], at: usize) {
    let mut rest = bytes.get(at..).unwrap_or(&[]);
    let length = rest.len();
    let table = u29_by_table(rest);
    let answer = decode_u29(&mut rest).ok().map(|n| (n, length - rest.len()));
    assert_eq!(answer, table);
    rows.add(match answer {
        Some((n, taken)) => format!("{} {at:x} {n:x} {:x}", hex(bytes), at + taken),
        None => format!("{} {at:x} short", hex(bytes)),
    });
}

fn read_u29_rows(rows: &mut Rows) {
    for at in [0, 1, usize::MAX] {
        read_u29_row(rows, &[], at);
        read_u29_row(rows, &[0x01], at);
    }
    for n in edges(29) {
        for count in 1..=4 {
            let Some(form) = u29_in(n as u32, count) else {
                continue;
            };
            for length in 1..=count {
                read_u29_row(rows, &form[..length], 0);
            }
        }
        around(rows, &encode_u29(n as u32), read_u29_row);
    }
    for _ in 0..400 {
        let bits = 1 + rows.below(29) as u32;
        let n = rows.wide(bits) as u32;
        around(rows, &encode_u29(n), read_u29_row);
    }
    for _ in 0..400 {
        let length = 1 + rows.below(6);
        let bytes = rows.bytes(length);
        read_u29_row(rows, &bytes, 0);
    }
}

/// A row of `form` behind up to three random bytes, with up to two behind it.
fn around(rows: &mut Rows, form: &[u8], row: fn(&mut Rows, &[u8], usize)) {
    let before = rows.below(4);
    let behind = rows.below(3);
    let mut bytes = rows.bytes(before);
    bytes.extend(form);
    bytes.extend(rows.bytes(behind));
    row(rows, &bytes, before as usize);
}

fn put_u29_rows(rows: &mut Rows) {
    let mut values = edges(29);
    for _ in 0..400 {
        let bits = 1 + rows.below(29) as u32;
        values.push(rows.wide(bits));
    }
    for n in values {
        let form = encode_u29(n as u32);
        let shortest = (1..=4).find_map(|count| u29_in(n as u32, count)).unwrap();
        assert_eq!(form, shortest);
        rows.add(format!("{n:x} {}", hex(&form)));
    }
    // the crate writes the low 29 bits of these
    for n in [1 << 29, (1 << 29) + 1, 0x2345_6789, (1 << 30) - 1] {
        rows.add(format!("{n:x} {}", hex(&encode_u29(n))));
    }
}

// ---- integers

fn integer_rows(rows: &mut Rows) {
    let mut values = edges(29);
    values.extend(edges(32));
    for _ in 0..300 {
        let bits = 1 + rows.below(32) as u32;
        values.push(rows.wide(bits));
    }
    for n in values {
        let v = ((n as u32) << 3) as i32 >> 3;
        if n < 1 << 29 {
            assert_eq!(v, integer_of_crate(n as i32));
        }
        rows.add(format!("{n:x} {:x}", v as i64 as u64));
    }
}

/// `Decoder::decode_integer` of the crate amf 1.0.0, behind its U29.
fn integer_of_crate(n: i32) -> i32 {
    if n >= (1 << 28) {
        n - (1 << 29)
    } else {
        n
    }
}

fn integer_bits_rows(rows: &mut Rows) {
    let mut values: Vec<i64> = Vec::new();
    for n in edges(63) {
        values.extend([n as i64, -(n as i64), !(n as i64)]);
    }
    for _ in 0..300 {
        let bits = 1 + rows.below(31) as u32;
        let n = rows.wide(bits) as i64;
        values.extend([n, -n]);
    }
    for v in values {
        let column = v as u64;
        if v << 35 >> 35 == v {
            let bits = v as u32 & 0x1fff_ffff;
            assert_eq!(bits, u29_of_crate(v as i32));
            rows.add(format!("{column:x} {bits:x}"));
        } else {
            rows.add(format!("{column:x} outside"));
        }
    }
}

/// The U29 that `Encoder::encode_integer` of the crate amf 1.0.0 writes.
fn u29_of_crate(i: i32) -> u32 {
    if i >= 0 {
        i as u32
    } else {
        ((1 << 29) + i) as u32
    }
}

fn column_rows(rows: &mut Rows) {
    let mut values = vec![i64::MIN, i64::MIN + 1];
    for n in edges(63) {
        values.extend([n as i64, -(n as i64)]);
    }
    for _ in 0..200 {
        values.push(rows.random() as i64);
    }
    for v in values {
        let sign = if v < 0 { '-' } else { '+' };
        rows.add(format!("{sign} {:x} {:x}", v.unsigned_abs(), v as u64));
    }
}

// ---- big-endian numbers

fn read_be32_row(rows: &mut Rows, bytes: &[u8], at: usize) {
    rows.add(match array_at(bytes, at) {
        Some(s) => format!(
            "{} {at:x} {:x} {:x}",
            hex(bytes),
            u32::from_be_bytes(s),
            at + 4
        ),
        None => format!("{} {at:x} short", hex(bytes)),
    });
}

fn read_be64_row(rows: &mut Rows, bytes: &[u8], at: usize) {
    rows.add(match array_at(bytes, at) {
        Some(s) => format!(
            "{} {at:x} {:x} {:x}",
            hex(bytes),
            u64::from_be_bytes(s),
            at + 8
        ),
        None => format!("{} {at:x} short", hex(bytes)),
    });
}

fn array_at<const N: usize>(bytes: &[u8], at: usize) -> Option<[u8; N]> {
    bytes.get(at..)?.get(..N)?.try_into().ok()
}

fn read_be32_rows(rows: &mut Rows) {
    for n in edges(32) {
        around(rows, &(n as u32).to_be_bytes(), read_be32_row);
    }
    short_and_random(rows, 4, read_be32_row);
}

fn read_be64_rows(rows: &mut Rows) {
    for n in edges(64) {
        around(rows, &n.to_be_bytes(), read_be64_row);
    }
    short_and_random(rows, 8, read_be64_row);
}

/// Rows of too few bytes and of places past their end, for numbers of `width` bytes; and random ones.
fn short_and_random(rows: &mut Rows, width: u64, row: fn(&mut Rows, &[u8], usize)) {
    let bytes = rows.bytes(width + 2);
    for length in 0..bytes.len() {
        for at in [0, 1, 2, 3, length + 1] {
            row(rows, &bytes[..length], at);
        }
    }
    for at in [usize::MAX - 8, usize::MAX - 4, usize::MAX - 3, usize::MAX] {
        row(rows, &bytes, at);
    }
    for _ in 0..100 {
        let form = rows.bytes(width);
        around(rows, &form, row);
    }
}

fn put_be32_rows(rows: &mut Rows) {
    // above 32 bits the low ones are put
    for n in edges(32).into_iter().chain(edges(64)) {
        rows.add(format!("{n:x} {}", hex(&(n as u32).to_be_bytes())));
    }
    for _ in 0..100 {
        let n = rows.random() as u32;
        rows.add(format!("{n:x} {}", hex(&n.to_be_bytes())));
    }
}

fn put_be64_rows(rows: &mut Rows) {
    for n in edges(64) {
        rows.add(format!("{n:x} {}", hex(&n.to_be_bytes())));
    }
    for _ in 0..100 {
        let n = rows.random();
        rows.add(format!("{n:x} {}", hex(&n.to_be_bytes())));
    }
}

// ---- dates

/// A double's sign bit.
const SIGN: u64 = 1 << 63;

fn millis_rows(rows: &mut Rows) {
    for bits in date_edges() {
        millis_of_both_signs(rows, bits);
    }
    for _ in 0..300 {
        let bits = rows.random();
        millis_row(rows, bits);
    }
    // from 2^-4 to 2^68, where the whole part says something
    for _ in 0..700 {
        let exponent = 1023 - 4 + rows.below(73);
        let sign_and_fraction = rows.random() & (SIGN | ((1 << 52) - 1));
        millis_row(rows, exponent << 52 | sign_and_fraction);
    }
    // whole numbers and a half, and just below whole numbers
    for _ in 0..100 {
        let bits = 1 + rows.below(51) as u32;
        let whole = rows.wide(bits) as f64;
        millis_of_both_signs(rows, (whole + 0.5).to_bits());
        millis_of_both_signs(rows, whole.to_bits() - 1);
    }
}

fn millis_of_both_signs(rows: &mut Rows, bits: u64) {
    millis_row(rows, bits);
    millis_row(rows, bits | SIGN);
}

/// Numbers that are no powers of two, or ends of what a double holds.
const NUMBERS: [f64; 8] = [
    0.999,
    1.5,
    1e3,
    1e12,
    8.64e15,
    f64::MAX,
    f64::MIN_POSITIVE,
    f64::EPSILON,
];

/// What stands in a NaN's fraction.
const NAN_PAYLOADS: [u64; 7] = [
    1,
    2,
    0x7_ffff_ffff_ffff,
    0x8_0000_0000_0000,
    0x8_0000_0000_0001,
    0xc_dead_beef_0001,
    0xf_ffff_ffff_ffff,
];

/// Powers of two from subnormal to infinite, all from 2^-5 to 2^69, some other numbers and NaNs, each with the bits next to it.
fn date_edges() -> BTreeSet<u64> {
    let mut all = BTreeSet::new();
    for place in (0..52).step_by(3) {
        all.insert(1 << place);
    }
    for exponent in (0..2048)
        .step_by(31)
        .chain(1018..1093)
        .chain([1, 2, 2045, 2046, 2047])
    {
        all.insert(exponent << 52);
    }
    all.extend(NUMBERS.map(f64::to_bits));
    all.extend(NAN_PAYLOADS.map(|payload| f64::INFINITY.to_bits() | payload));
    let next: Vec<u64> = all
        .iter()
        .flat_map(|&b| [b.saturating_sub(1), b + 1])
        .collect();
    all.extend(next);
    all.retain(|&b| b < SIGN);
    all
}

/// Rust's cast: cut towards zero, held at the ends.
fn millis_row(rows: &mut Rows, bits: u64) {
    let millis = f64::from_bits(bits);
    if let Some(unsigned) = millis_of_crate(millis) {
        assert_eq!(unsigned.min(i64::MAX as u64), millis as i64 as u64);
    }
    rows.add(if millis.is_finite() {
        format!("{bits:x} {:x}", millis as i64 as u64)
    } else {
        format!("{bits:x} none")
    });
}

/// The test and the cast of `Decoder::decode_date` of the crate amf 1.0.0.
fn millis_of_crate(millis: f64) -> Option<u64> {
    if !(millis.is_finite() && millis.is_sign_positive()) {
        None
    } else {
        Some(millis as u64)
    }
}

// ---- texts

/// The bytes at which the classes of RFC 3629 begin and end.
const LEADS: [u8; 24] = [
    0x00, 0x7f, 0x80, 0x8f, 0x90, 0x9f, 0xa0, 0xbf, 0xc0, 0xc1, 0xc2, 0xdf, 0xe0, 0xe1, 0xec, 0xed,
    0xee, 0xef, 0xf0, 0xf1, 0xf3, 0xf4, 0xf5, 0xff,
];
const SECONDS: [u8; 8] = [0x7f, 0x80, 0x8f, 0x90, 0x9f, 0xa0, 0xbf, 0xc0];
const TAILS: [u8; 4] = [0x7f, 0x80, 0xbf, 0xc0];

/// Rust's verdict; `cut` where the text ends inside of a character that more bytes could complete.
fn text_row(rows: &mut Rows, bytes: &[u8]) {
    let verdict = match String::from_utf8(bytes.to_vec()) {
        Ok(_) => "valid",
        Err(e) if e.utf8_error().error_len().is_none() => "cut",
        Err(_) => "broken",
    };
    rows.add(format!("{} {verdict}", hex(bytes)));
}

fn text_rows(rows: &mut Rows) {
    text_row(rows, &[]);
    for a in 0..=255 {
        text_row(rows, &[a]);
    }
    for a in LEADS {
        for b in LEADS {
            text_row(rows, &[a, b]);
        }
    }
    for a in LEADS.into_iter().filter(|&a| a >= 0xe0) {
        for b in SECONDS {
            for c in TAILS {
                text_row(rows, &[a, b, c]);
                for d in TAILS.into_iter().filter(|_| a >= 0xf0) {
                    text_row(rows, &[a, b, c, d]);
                }
            }
        }
    }
    for _ in 0..200 {
        let mut text = random_text(rows);
        text_row(rows, &text);
        let end = rows.below(text.len() as u64 + 1) as usize;
        text_row(rows, &text[..end]);
        damage(rows, &mut text);
        text_row(rows, &text);
    }
}

/// Up to twelve characters, of each length as often, and often the first or last of their length.
fn random_text(rows: &mut Rows) -> Vec<u8> {
    const RANGES: [(u32, u32); 5] = [
        (0, 0x7f),
        (0x80, 0x7ff),
        (0x800, 0xd7ff),
        (0xe000, 0xffff),
        (0x1_0000, 0x10_ffff),
    ];
    let mut text = String::new();
    for _ in 0..1 + rows.below(12) {
        let (lo, hi) = RANGES[rows.below(5) as usize];
        let scalar = match rows.below(6) {
            0 => lo,
            1 => hi,
            _ => lo + rows.below((hi - lo + 1) as u64) as u32,
        };
        text.push(char::from_u32(scalar).unwrap());
    }
    text.into_bytes()
}

/// Changes a byte, drops one, or puts one in.
fn damage(rows: &mut Rows, text: &mut Vec<u8>) {
    let at = rows.below(text.len() as u64) as usize;
    let byte = LEADS[rows.below(24) as usize];
    match rows.below(3) {
        0 => text[at] = byte,
        1 => drop(text.remove(at)),
        _ => text.insert(at, byte),
    }
}
