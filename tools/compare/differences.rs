//! The known differences: for each the smallest input, the crate's answer and the library's.

use crate::calls::{Answer, Loans, COLUMNS, FINISHED, MOST};
use crate::hex;
use crate::published::{self, Published};
use crate::tree::Row;
use crate::trees;
use amf::amf3::Value;
use amf::Pair;
use std::time::Duration;

fn say(a: &Answer) -> String {
    match (a.kind, a.no) {
        (FINISHED, _) => format!("finished, {} taken, {} bytes", a.taken, a.bytes),
        (_, 1 | 13 | 14) => format!("{}, told {}", a.no, a.told),
        (_, 10) => format!("10, loan {}, place {}", a.told, a.place),
        _ => format!("{}, told {}, place {}", a.no, a.told, a.place),
    }
}

fn say_published(p: &Published) -> String {
    match p {
        Published::Finished { value, taken } if trees::size(value) < 3 => {
            format!("{value:?}, {taken} taken")
        }
        Published::Finished { value, taken } => {
            format!("a value of {} values, {taken} taken", trees::size(value))
        }
        Published::Refused { no, told, place } => {
            format!("error ({no}), told {told}, {place} taken")
        }
        Published::Skipped => "memory past the limit of this comparison".to_string(),
    }
}

fn say_message(m: &[u8]) -> String {
    if m.len() > 40 {
        format!("{} .. ({} bytes)", hex(&m[..12]), m.len())
    } else {
        hex(m)
    }
}

/// A message that needs byte 262,145: a text of 65,535 bytes, then keys by number in four bytes, each with a double.
fn too_long() -> Vec<u8> {
    let mut m = vec![9, 1, 3, b'a', 6, 0x87, 0xff, 0x7f];
    m.extend(vec![b'a'; 65_535]);
    while m.len() < 262_144 {
        m.extend([0x80, 0x80, 0x80, 0, 5, 0, 0, 0, 0, 0, 0, 0, 0]);
    }
    m.push(1);
    m
}

/// Arrays of two, each with the one before twice.
fn doubling(levels: usize) -> Vec<u8> {
    let mut m = vec![9, (levels * 2 + 3) as u8, 1, 9, 1, 1];
    for i in 1..=levels {
        m.extend([9, 5, 1, 9, (i * 2) as u8, 9, (i * 2) as u8]);
    }
    m
}

fn readings() {
    println!("| message | loans | crate | here |\n|---|---|---|---|");
    let mut loans = Loans::new();
    let without = |loan: usize| {
        let mut n = MOST;
        n[loan - 1] = 0;
        n
    };
    let cases: [(Vec<u8>, [usize; 6], &str); 9] = [
        (vec![1], without(1), "no rows"),
        (vec![6, 3, 0x61], without(2), "no store"),
        (vec![6, 3, 0x61], without(3), "no strings"),
        (vec![9, 1, 1], without(4), "no objects"),
        (vec![0xa, 3, 1], without(5), "no traits"),
        (vec![0xa, 0x13, 1, 1, 1], without(6), "no names"),
        ([[9, 3, 1].repeat(64), vec![1]].concat(), MOST, "full"),
        (too_long(), MOST, "full"),
        (doubling(30), MOST, "full"),
    ];
    for (m, entries, name) in cases {
        loans.lend(entries);
        let a = loans.read(&m);
        println!("| {} | {name} | {} | {} |", say_message(&m), say_published(&published::read(&m)), say(&a));
    }
}

fn leaf(kind: usize, number: usize) -> Row {
    Row { kind, number, end: 1, ..Row::default() }
}

/// Values that the crate writes or panics at, with their rows; beside some of them the last one that is written here.
fn unwritable() -> Vec<(Value, Vec<Row>)> {
    let integer = |n: i32| (Value::Integer(n), vec![leaf(4, n as i64 as usize)]);
    let null_under = |row: usize| Row { kind: 2, key: Some((0, 0)), end: row + 1, ..Row::default() };
    let array = |v| Value::Array { assoc_entries: Vec::new(), dense_entries: vec![v] };
    let deep = (0..64).fold(Value::Null, |v, _| array(v));
    let mut deep_rows: Vec<Row> = (0..64).map(|_| Row { kind: 9, second: 1, end: 65, ..Row::default() }).collect();
    deep_rows.push(Row { kind: 2, end: 65, ..Row::default() });
    let empty_key = || vec![Pair { key: String::new(), value: Value::Null }];
    vec![
        integer((1 << 28) - 1),
        integer(1 << 28),
        integer(-(1 << 28)),
        integer(-(1 << 28) - 1),
        integer(1 << 29),
        integer(1 << 30),
        integer(i32::MIN),
        (Value::Array { assoc_entries: empty_key(), dense_entries: Vec::new() }, vec![Row { kind: 9, count: 1, end: 2, ..Row::default() }, null_under(1)]),
        (Value::Object { class_name: None, sealed_count: 0, entries: empty_key() }, vec![Row { kind: 10, second: 1, end: 2, ..Row::default() }, null_under(1)]),
        (Value::Object { class_name: Some(String::new()), sealed_count: 0, entries: Vec::new() }, vec![Row { kind: 10, class: 1, end: 1, ..Row::default() }]),
        (
            Value::ObjectVector { class_name: Some("*".to_string()), is_fixed: false, entries: Vec::new() },
            vec![Row { kind: 16, class: 1, body: (0, 1), end: 1, ..Row::default() }],
        ),
        (Value::Object { class_name: None, sealed_count: 1, entries: Vec::new() }, vec![Row { kind: 10, count: 1, end: 1, ..Row::default() }]),
        (deep, deep_rows),
    ]
}

fn writings() {
    println!("| value | crate | here |\n|---|---|---|");
    for (value, rows) in unwritable() {
        let numbers: Vec<usize> = rows.iter().flat_map(|r| r.columns()).collect();
        assert_eq!(numbers.len(), rows.len() * COLUMNS);
        let mut out = vec![0; 1_000];
        let w = trees::table(&numbers, b"*").write(&mut out);
        let here = if w.kind == FINISHED { hex(&out[..w.bytes]) } else { say(&w) };
        let bytes = std::panic::catch_unwind(|| published::write(&value));
        let name = if trees::levels(&value) > 4 { format!("{} levels", trees::levels(&value)) } else { format!("{value:?}") };
        println!("| {name} | {} | {here} |", bytes.map_or("panics".to_string(), |b| say_message(&b)));
    }
}

/// The bits of dates on both sides of each edge.
const DATE_EDGES: [u64; 15] = [
    0x0000_0000_0000_0000,
    0x8000_0000_0000_0000,
    0xbff8_0000_0000_0000,
    0x0000_0000_0000_0001,
    0x3ff8_0000_0000_0000,
    0x4340_0000_0000_0000,
    0x4340_0000_0000_0001,
    0x43df_ffff_ffff_ffff,
    0x43e0_0000_0000_0000,
    0x43ef_ffff_ffff_ffff,
    0x43f0_0000_0000_0000,
    0x43f0_0000_0000_0001,
    0xc3e0_0000_0000_0000,
    0xffef_ffff_ffff_ffff,
    0x7ff0_0000_0000_0000,
];

/// A date's milliseconds by the crate, and the bits that it writes.
fn date_of_crate(m: &[u8]) -> (String, String) {
    match published::read(m) {
        Published::Finished { value: Value::Date { unix_time }, .. } => {
            (unix_time.as_millis().to_string(), hex(&published::write(&Value::Date { unix_time })[2..]))
        }
        p => (say_published(&p), String::new()),
    }
}

/// The same here, by row 0.
fn date_here(loans: &mut Loans, m: &[u8]) -> (String, String) {
    let a = loans.read(m);
    if a.kind != FINISHED {
        return (say(&a), String::new());
    }
    let mut out = [0; 10];
    let w = loans.table(&a).write(&mut out);
    (loans.table(&a).moment(0).millis.to_string(), hex(&out[2..w.bytes]))
}

fn dates() {
    println!("| date's bits | crate, milliseconds | crate, written | here, milliseconds | here, written |\n|---|---|---|---|---|");
    let mut loans = Loans::new();
    loans.lend(MOST);
    for bits in DATE_EDGES {
        let m = [&[8, 1][..], &bits.to_be_bytes()].concat();
        let (there, here) = (date_of_crate(&m), date_here(&mut loans, &m));
        println!("| {bits:016x} | {} | {} | {} | {} |", there.0, there.1, here.0, here.1);
    }
    let between = Value::Date { unix_time: Duration::from_millis((1 << 53) + 1) };
    println!("\nA value of 2^53 + 1 milliseconds, which no row has, is written by the crate as {}.", hex(&published::write(&between)));
}

/// Prints all of them.
pub fn print() {
    std::panic::set_hook(Box::new(|_| {}));
    readings();
    println!();
    writings();
    println!();
    dates();
}
