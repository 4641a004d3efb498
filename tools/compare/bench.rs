//! Measures the library beside the crate amf 1.0.0 and memcpy. README.md says how it is run.

mod calls;

use amf::amf3::Value;
use calls::{Answer, Loans, Table, COLUMNS, FINISHED, MOST};
use std::hint::black_box;
use std::time::Instant;

/// Calls of which the median is taken, in each of some rounds, of which the median is taken again.
const CALLS: usize = 301;
const ROUNDS: usize = 7;

/// What was measured, and its microseconds.
type Line = (&'static str, f64);

fn middle(mut times: Vec<f64>) -> f64 {
    times.sort_by(f64::total_cmp);
    times[times.len() / 2]
}

/// The median time of many calls, in microseconds.
fn median(mut call: impl FnMut()) -> f64 {
    let time = |_| {
        let t = Instant::now();
        call();
        t.elapsed().as_secs_f64() * 1e6
    };
    middle((0..CALLS).map(time).collect())
}

fn size_word(m: &mut Vec<u8>, n: usize) {
    let w = n * 2 + 1;
    m.extend([0x80 | (w >> 14) as u8, 0x80 | (w >> 7 & 0x7f) as u8, (w & 0x7f) as u8]);
}

fn integers() -> Vec<u8> {
    let mut m = vec![0xd];
    size_word(&mut m, 10_000);
    m.push(0);
    m.extend((0..40_000).map(|i| (i * 7) as u8));
    m
}

fn strings() -> Vec<u8> {
    let mut m = vec![9];
    size_word(&mut m, 2_000);
    m.push(1);
    for i in 0..2_000 {
        m.extend([6, 17]);
        m.extend(format!("{i:08}").bytes());
    }
    m
}

/// Objects with four sealed members: an integer, a string, a double, a boolean.
fn objects() -> Vec<u8> {
    let mut m = vec![9];
    size_word(&mut m, 200);
    m.push(1);
    for i in 0..200u32 {
        m.push(0xa);
        if i == 0 {
            m.push(4 << 4 | 3);
            for name in ["Order", "id", "name", "weight", "urgent"] {
                m.push(name.len() as u8 * 2 + 1);
                m.extend(name.bytes());
            }
        } else {
            m.push(1);
        }
        m.extend([4, 0x81, (i % 128) as u8, 6, 13]);
        m.extend(format!("box{i:03}").bytes());
        m.push(5);
        m.extend((i as f64 * 1.5).to_be_bytes());
        m.push(2 + (i % 2) as u8);
    }
    m
}

/// An array of texts, each of so many octets of one character, and the loans that just fit it.
fn texts(name: &'static str, count: usize, character: char, octets: usize) -> Message {
    let text = character.to_string().repeat(octets / character.len_utf8());
    let mut m = vec![9];
    size_word(&mut m, count);
    m.push(1);
    for _ in 0..count {
        m.push(6);
        size_word(&mut m, text.len());
        m.extend(text.bytes());
    }
    (name, m, [count + 1, count * text.len(), count, 1, 0, 0])
}

fn clear(l: &mut Loans) {
    let n = l.lent;
    l.rows[..n[0]].fill(0);
    l.store[..n[1]].fill(0);
    l.strings[..n[2]].fill(0);
    l.objects[..n[3]].fill(0);
    l.traits[..n[4]].fill(0);
    l.names[..n[5]].fill(0);
    black_box(l);
}

/// A whole reading into these loans, and the clearing of them alone.
fn read(l: &mut Loans, entries: [usize; 6], m: &[u8]) -> (f64, f64, Answer) {
    l.lend(entries);
    let clearing = median(|| clear(l));
    let mut a = Answer::default();
    let time = median(|| a = black_box(l.read(black_box(m))));
    assert_eq!((a.kind, a.taken), (FINISHED, m.len()));
    (time, clearing, a)
}

fn feed(l: &mut Loans, entries: [usize; 6], m: &[u8], size: usize) -> f64 {
    l.lend(entries);
    let mut state = [0; calls::STATE_WORDS];
    let mut a = Answer::default();
    let time = median(|| {
        l.begin(&mut state);
        for piece in m.chunks(size) {
            a = black_box(l.feed(&mut state, black_box(piece)));
        }
    });
    assert_eq!(a.kind, FINISHED);
    time
}

fn fed(l: &mut Loans, entries: [usize; 6], m: &[u8]) -> Vec<Line> {
    let sizes = [("fed in one piece", m.len()), ("fed by 1,400 bytes", 1_400), ("fed by single bytes", 1)];
    sizes.map(|(name, n)| (name, feed(l, entries, m, n))).to_vec()
}

/// Measures one message, with loans that just fit and with full ones.
fn measure(m: &[u8], fit: [usize; 6]) -> Vec<Line> {
    let mut l = Loans::new();
    let mut out = vec![0; 1 << 18];
    let memcpy = median(|| black_box(&mut out)[..m.len()].copy_from_slice(black_box(m)));
    let read_published = median(|| drop(black_box(Value::read_from(black_box(m)))));
    let (read_full, clearing_full, _) = read(&mut l, MOST, m);
    let fed = fed(&mut l, fit, m);
    let (read, clearing, a) = read(&mut l, fit, m);
    let table = l.table(&a);
    let mut w = Answer::default();
    let write = median(|| w = black_box(table.write(black_box(&mut out))));
    let value = Value::read_from(m).expect("the crate reads it");
    let mut sink = Vec::with_capacity(out.len());
    let write_published = median(|| {
        sink.clear();
        value.write_to(black_box(&mut sink)).expect("the crate writes it");
    });
    assert_eq!(out[..w.bytes], sink[..]);
    let mut lines = vec![
        ("memcpy of the message", memcpy),
        ("read, crate", read_published),
        ("read, loans that just fit", read),
        ("of it clearing the loans", clearing),
        ("read, full loans", read_full),
        ("of it clearing the loans", clearing_full),
    ];
    lines.extend(fed);
    lines.extend([("written, crate", write_published), ("written", write)]);
    lines
}

extern "C" {
    fn clock_gettime(clock: i32, time: *mut [i64; 2]) -> i32;
}

/// Seconds that this thread has run, so that a long call isn't charged for other work on the machine.
fn processor_time() -> f64 {
    const THREAD: i32 = 3;
    let mut t = [0; 2];
    assert_eq!(unsafe { clock_gettime(THREAD, &mut t) }, 0);
    t[0] as f64 + t[1] as f64 * 1e-9
}

/// An array whose items name texts of 65,535 bytes, beginning at 0 and at `other` in turn, into an output too small for one.
fn named_texts(other: usize) -> f64 {
    let n = MOST[0];
    let mut rows = vec![0; n * COLUMNS];
    (rows[0], rows[10], rows[11]) = (9, n - 1, n);
    for (i, row) in rows.chunks_exact_mut(COLUMNS).enumerate().skip(1) {
        (row[0], row[4], row[5], row[11]) = (6, i % 2 * other, 65_535, i + 1);
    }
    let (store, mut out) = (vec![b'a'; MOST[1]], vec![0; 1_000]);
    let t = processor_time();
    let w = Table { rows: &rows, store: &store }.write(&mut out);
    assert_eq!(w.no, 10);
    (processor_time() - t) * 1e3
}

/// A message, its name, and the loans that just fit it.
type Message = (&'static str, Vec<u8>, [usize; 6]);

/// Measures messages and prints a table of them.
fn table(messages: &[Message]) {
    let rounds: Vec<Vec<Vec<Line>>> = (0..ROUNDS).map(|_| messages.iter().map(|(_, m, fit)| measure(m, *fit)).collect()).collect();
    let row = |cells: Vec<String>| println!("| {} |", cells.join(" | "));
    let of_each = |first: &str, of: &dyn Fn(usize) -> String| {
        let mut cells = vec![first.to_string()];
        cells.extend((0..messages.len()).map(of));
        row(cells)
    };
    of_each("", &|k| messages[k].0.to_string());
    println!("|{}", "---|".repeat(messages.len() + 1));
    of_each("bytes of the message", &|k| messages[k].1.len().to_string());
    for (i, (name, _)) in rounds[0][0].iter().enumerate() {
        of_each(name, &|k| {
            let times = rounds.iter().map(|r| r[k][i].1).collect();
            format!("{:.1}", middle(times))
        });
    }
    println!();
}

fn main() {
    println!("Microseconds, each the median of {ROUNDS} rounds of {CALLS} calls.\n");
    table(&[
        ("a vector of 10,000 integers", integers(), [1, 40_000, 0, 1, 0, 0]),
        ("an array of 2,000 strings of 8 bytes", strings(), [2_001, 16_000, 2_000, 1, 0, 0]),
        ("200 objects of one trait, four members", objects(), [1_001, 1_300, 210, 201, 1, 4]),
    ]);
    table(&[
        texts("1,000 texts of 12 octets, plain", 1_000, 'a', 12),
        texts("two-octet", 1_000, '\u{e9}', 12),
        texts("three-octet", 1_000, '\u{4e2d}', 12),
        texts("one text of 60,000 octets, plain", 1, 'a', 60_000),
        texts("two-octet", 1, '\u{e9}', 60_000),
        texts("three-octet", 1, '\u{4e2d}', 60_000),
    ]);
    let (one, two) = (named_texts(0), named_texts(1));
    println!("Rows that name one text of 65,535 bytes, 16,383 times: refused after {one:.1} ms of processor time; two such texts in turn: {two:.0} ms.");
}
