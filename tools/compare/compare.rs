//! Holds the library to the crate amf 1.0.0 on the same inputs. README.md says how it is run and what is compared.

mod calls;
mod dates;
mod differences;
mod fed;
mod inputs;
mod list;
mod published;
mod tree;
mod trees;

use amf::amf3::Value;
use calls::{Answer, Loans, Table, COLUMNS, FINISHED, MOST, REFUSED};
use inputs::{bits_of_exponent, damaged, date_bits, Dates, Maker, Random, TEXT_EDGES};
use published::Published;
use std::io::Write;
use tree::{same, unfold};

#[global_allocator]
static COUNTING: published::Counting = published::Counting;

/// Differences that are kept to be shown.
const SHOWN: usize = 20;

/// What was counted for one class of inputs.
#[derive(Default)]
pub struct Tally {
    name: &'static str,
    inputs: usize,
    finished: usize,
    refused: [usize; 15],
    skipped: usize,
    /// Messages that the crate refuses for a date's sign bit: how they end here.
    signed_finished: usize,
    signed_refused: usize,
    /// Messages with a date of 2^63 milliseconds or more, which are held here.
    held: usize,
    /// Writings whose bytes are the crate's, those with dates that the crate need not write alike, and those that are refused.
    written: usize,
    written_by_bits: usize,
    unwritten: [usize; 15],
    /// Readings with other loans, and readings in pieces.
    lent: usize,
    fed: usize,
}

impl Tally {
    /// Counts a finished message, by what its dates are.
    fn count_finished(&mut self, signed: bool, held: bool) {
        match (signed, held) {
            (true, _) => self.signed_finished += 1,
            (false, true) => self.held += 1,
            (false, false) => self.finished += 1,
        }
    }

    /// The numbers of its line in the table.
    fn line(&self) -> Vec<usize> {
        let (r, u) = (&self.refused, &self.unwritten);
        let refused = r[2..9].iter().sum();
        let readings = [self.finished, refused, self.signed_finished, self.signed_refused, self.held, r[9], r[10], r[11], self.skipped];
        let writings = [self.written, self.written_by_bits, u[9], u[10], u[13], u[14]];
        [&[self.inputs][..], &readings, &writings, &[self.lent + r[1], self.fed]].concat()
    }
}

const HEADER: &str = "\
| inputs | count | finished, equal | refused 2 to 8, equal | sign bit: finished | refused | held | outside: 9 | 10 | 11 | crate skipped | written, equal | by bits | not written: 9 | 10 | 13 | 14 | other loans | in pieces |
|---|---|---|---|---|---|---|---|---|---|---|---|---|---|---|---|---|---|---|";

/// A tree to be written: its value, the bits of its dates in turn, and the bytes that must come of them.
struct Writing {
    value: Value,
    dates: Vec<u64>,
    bytes: Vec<u8>,
    /// Whether the bytes are the crate's as they stand, and not only but for the dates.
    alike: bool,
}

impl Writing {
    fn new(value: Value, dates: Vec<u64>) -> Writing {
        let alike = dates.iter().all(|bits| dates::is_written_alike(*bits));
        let bytes = if alike { published::write(&value) } else { dates::written(&value, &dates) };
        Writing { value, dates, bytes, alike }
    }
}

/// What every byte of an output is before a writing.
const UNWRITTEN: u8 = 0x5a;

fn is_unwritten(out: &[u8]) -> bool {
    out.iter().all(|b| *b == UNWRITTEN)
}

/// Both sides, and what was found.
pub struct Comparison {
    loans: Loans,
    other: Loans,
    back: Loans,
    out: Vec<u8>,
    random: Random,
    tallies: Vec<Tally>,
    /// Writings too long to be read again.
    unread: usize,
    /// Of the writings by bits after a reading that the crate does too: those with its bytes, and the others.
    kept_by_crate: usize,
    cut_by_crate: usize,
    differences: usize,
    shown: Vec<(Vec<u8>, String)>,
}

/// Loans that a message of this length can't fill, but for the store.
fn roomy(length: usize, store: usize) -> [usize; 6] {
    let n = length + 1;
    [n.min(MOST[0]), store, n.min(MOST[2]), n.min(MOST[3]), n.min(MOST[4]), n.min(MOST[5])]
}

impl Comparison {
    fn new() -> Comparison {
        Comparison {
            loans: Loans::new(),
            other: Loans::new(),
            back: Loans::new(),
            out: vec![0; 1 << 16],
            random: Random::new(1),
            tallies: Vec::new(),
            unread: 0,
            kept_by_crate: 0,
            cut_by_crate: 0,
            differences: 0,
            shown: Vec::new(),
        }
    }

    /// Begins a class of inputs, and shows what was counted for the one before.
    fn begin(&mut self, name: &'static str) {
        match self.tallies.last() {
            Some(t) => show(t.name, &t.line()),
            None => println!("{HEADER}"),
        }
        self.tallies.push(Tally { name, ..Tally::default() });
    }

    fn tally(&mut self) -> &mut Tally {
        self.tallies.last_mut().unwrap()
    }

    /// Counts a difference, shows the first ones at once, and keeps the shortest.
    pub fn differ(&mut self, message: &[u8], what: String) {
        self.differences += 1;
        if self.differences <= SHOWN {
            eprintln!("{} {what}", hex(message));
        }
        self.shown.push((message.to_vec(), what));
        self.shown.sort_by_key(|(m, _)| m.len());
        self.shown.truncate(SHOWN);
    }

    /// Reads a message into roomy loans; if the store has no room, into the largest store.
    fn read(&mut self, message: &[u8]) -> Answer {
        let mut a = Answer::default();
        for store in [2 * message.len() + 16, MOST[1]] {
            self.loans.lend(roomy(message.len(), store.min(MOST[1])));
            self.loans.spoil();
            a = self.loans.read(message);
            let as_promised = match a.kind {
                FINISHED => self.loans.rest_is_zero(a.rows, a.bytes) && (a.no, a.told, a.place) == (0, 0, 0),
                REFUSED => self.loans.is_zero() && (a.rows, a.bytes, a.taken) == (0, 0, 0),
                _ => false,
            };
            if !as_promised || !self.loans.past_is_untouched() {
                self.differ(message, format!("{a:?}: what is left in the loans"));
            }
            if a.no != 10 {
                break;
            }
        }
        a
    }

    /// Compares both sides on one message.
    fn message(&mut self, message: &[u8]) {
        self.tally().inputs += 1;
        let a = self.read(message);
        if self.random.once_in(64) {
            self.with_full_loans(message, &a);
        }
        self.in_pieces(message, &a);
        if a.kind == REFUSED && [1, 9, 10, 11, 12].contains(&a.no) {
            self.tally().refused[a.no] += 1;
            if a.no == 1 || a.no == 12 {
                self.differ(message, format!("here {a:?}"));
            }
            return;
        }
        let (cleared, published) = dates::cleared(message);
        match published {
            Published::Skipped => self.tally().skipped += 1,
            Published::Refused { no, told, place } => {
                if cleared == message {
                    self.tally().refused[no] += 1;
                } else {
                    self.tally().signed_refused += 1;
                }
                if a != Answer::refused(no, told, place) {
                    self.differ(message, format!("the crate refuses {no} told {told:x} place {place}, here {a:?}"));
                }
            }
            Published::Finished { value, taken } if a.kind == FINISHED && a.taken == taken => self.finished(message, &cleared, &a, value),
            Published::Finished { taken, .. } => self.differ(message, format!("the crate takes {taken} bytes, here {a:?}")),
        }
    }

    /// Compares a value of the crate with the rows, and what both write. It read the cleared message, which has no date's sign bit.
    fn finished(&mut self, message: &[u8], cleared: &[u8], a: &Answer, value: Value) {
        let dates = match self.unfolded(message, cleared, a, &value) {
            Ok(dates) => dates,
            Err(e) => return self.differ(message, e),
        };
        let signed = cleared != message;
        let held = dates.iter().any(|bits| dates::is_held(*bits));
        self.tally().count_finished(signed, held);
        let x = Writing::new(value, dates);
        if !signed && !x.alike {
            self.kept(message, &x);
        }
        let mut out = std::mem::take(&mut self.out);
        let room = x.bytes.len() + 8;
        out.resize(out.len().max(room), 0);
        out[..room].fill(UNWRITTEN);
        let w = self.loans.table(a).write(&mut out[..room]);
        self.written(message, &x, &w, &out[..room]);
        self.out = out;
    }

    /// The bits of the tree's dates, once the rows say what the crate says: its value, and the bits that came.
    fn unfolded(&mut self, message: &[u8], cleared: &[u8], a: &Answer, value: &Value) -> Result<Vec<u64>, String> {
        let table = self.loans.table(a);
        let tree = unfold(&table)?;
        if tree.end != a.rows || !same(&tree.value, value) {
            return Err(format!("the crate reads {value:?}, here {:?}", tree.value));
        }
        dates::check_moments(&table)?;
        dates::check_bits(&table, message, cleared)?;
        if cleared != message {
            self.as_cleared(cleared, a)?;
        }
        Ok(tree.dates)
    }

    /// The cleared message leaves the same answer and the same in all loans, but for the sign bits of date rows.
    fn as_cleared(&mut self, cleared: &[u8], a: &Answer) -> Result<(), String> {
        self.other.lent = self.loans.lent;
        self.other.spoil();
        let b = self.other.read(cleared);
        dates::copy_signs(&mut self.other.rows, &self.loans.table(a));
        if b != *a || !self.other.holds_as(&self.loans) {
            return Err(format!("without the sign bits {b:?}, with them {a:?}"));
        }
        Ok(())
    }

    /// The crate writes a date's bits again exactly if they are whole milliseconds without a sign, up to 2^64.
    fn kept(&mut self, message: &[u8], x: &Writing) {
        let bytes = published::write(&x.value);
        let kept = bytes == x.bytes;
        self.kept_by_crate += kept as usize;
        self.cut_by_crate += !kept as usize;
        if kept != x.dates.iter().all(|bits| dates::is_kept_by_crate(*bits)) {
            self.differ(message, format!("the crate writes {}, of dates {:x?}", hex(&bytes), x.dates));
        }
    }

    /// Compares what was written with the bytes that must come.
    fn written(&mut self, message: &[u8], x: &Writing, w: &Answer, out: &[u8]) {
        if w.kind == REFUSED {
            self.tally().unwritten[w.no] += 1;
            if w.no != 9 || trees::levels(&x.value) <= 64 || !is_unwritten(out) {
                self.differ(message, format!("written: {w:?}"));
            }
            return;
        }
        if x.alike {
            self.tally().written += 1;
        } else {
            self.tally().written_by_bits += 1;
        }
        let length = x.bytes.len();
        if w.bytes != length || out[..length] != x.bytes || !is_unwritten(&out[length..]) {
            self.differ(message, format!("to be written {}, here {w:?} {}", hex(&x.bytes), hex(out)));
        }
        self.read_again(message, x);
    }

    /// Both sides read the written bytes to the same tree; here its dates have the same bits.
    fn read_again(&mut self, message: &[u8], x: &Writing) {
        let length = x.bytes.len();
        self.back.lend(roomy(length, (2 * length + 16).min(MOST[1])));
        let b = self.back.read(&x.bytes);
        if [10, 11].contains(&b.no) {
            self.unread += 1;
            return;
        }
        let again = (b.kind == FINISHED && b.taken == length).then(|| unfold(&self.back.table(&b)));
        let here = matches!(again, Some(Ok(tree)) if same(&tree.value, &x.value) && tree.dates == x.dates);
        let there = matches!(dates::cleared(&x.bytes).1, Published::Finished { value, taken } if taken == length && same(&value, &x.value));
        if !here || !there {
            self.differ(message, format!("read again: {b:?}"));
        }
    }

    /// The largest loans give the same answer and hold the same.
    fn with_full_loans(&mut self, message: &[u8], a: &Answer) {
        self.other.lend(MOST);
        self.other.spoil();
        let b = self.other.read(message);
        self.tally().lent += 1;
        if b != *a || !self.other.holds_as(&self.loans) {
            self.differ(message, format!("roomy loans {a:?}, full loans {b:?}"));
        }
    }

    /// Smaller loans: the same answer, or 10 for a loan of which more changes the answer.
    fn with_small_loans(&mut self, message: &[u8]) {
        let a = self.read(message);
        self.tally().inputs += 1;
        let decided = if a.kind == FINISHED { a.taken } else { a.place };
        let mut entries = roomy(message.len(), MOST[1]);
        for (i, n) in entries.iter_mut().enumerate() {
            let k = message.len() / 3 + 1;
            *n = [0, 1, self.random.below(4), self.random.below(k).min(MOST[i]), *n, *n, MOST[i]][self.random.below(7)];
        }
        let fits = a.kind == FINISHED && self.random.once_in(3);
        if fits {
            entries = roomy(message.len(), a.bytes);
            entries[0] = a.rows;
        }
        let b = self.lent(message, entries);
        if fits || b.no != 10 || a.no == 10 {
            if b.no != a.no || a.no != 10 && b != a || !self.other.holds_as(&self.loans) {
                self.differ(message, format!("loans {entries:?}: {b:?}, roomy {a:?}"));
            }
        } else if !(1..=6).contains(&b.told) || b.place > decided || !self.other.is_zero() {
            self.differ(message, format!("loans {entries:?}: {b:?}, roomy {a:?}"));
        } else {
            entries[b.told - 1] = MOST[b.told - 1];
            let c = self.lent(message, entries);
            if c.no == 10 && (c.told == b.told || c.place < b.place) || c.no != 10 && c != a {
                self.differ(message, format!("loans {entries:?}: {b:?}, then {c:?}, roomy {a:?}"));
            }
        }
        if a.kind == FINISHED {
            self.one_less(message, &a);
        }
        self.over_the_most(message);
    }

    fn lent(&mut self, message: &[u8], entries: [usize; 6]) -> Answer {
        self.other.lend(entries);
        self.other.spoil();
        self.tally().lent += 1;
        let b = self.other.read(message);
        if !self.other.past_is_untouched() {
            self.differ(message, format!("loans {entries:?}: written past"));
        }
        b
    }

    /// One row or one byte less than a finished reading uses is 10 for that loan.
    fn one_less(&mut self, message: &[u8], a: &Answer) {
        for (loan, used) in [(1, a.rows), (2, a.bytes)] {
            let mut entries = roomy(message.len(), MOST[1]);
            if used == 0 {
                continue;
            }
            entries[loan - 1] = used - 1;
            let b = self.lent(message, entries);
            if b.no != 10 || b.told != loan || b.place > a.taken {
                self.differ(message, format!("loans {entries:?}: {b:?}"));
            }
        }
    }

    /// A loan over its maximum or not whole is 1, the lowest such, and nothing is touched.
    fn over_the_most(&mut self, message: &[u8]) {
        self.other.lend([1; 6]);
        let mut lowest = 0;
        for i in (0..6).rev() {
            let whole = calls::WIDTHS[i] == 1;
            if self.random.once_in(4) {
                self.other.lent[i] = MOST[i] * calls::WIDTHS[i] + if whole || self.random.once_in(2) { calls::WIDTHS[i] } else { 1 };
                lowest = i + 1;
            } else if !whole && self.random.once_in(4) {
                self.other.lent[i] = calls::WIDTHS[i] + 1;
                lowest = i + 1;
            }
        }
        if lowest == 0 {
            return;
        }
        self.other.spoil();
        let b = self.other.read(message);
        self.tally().refused[1] += 1;
        if b != Answer::refused(1, lowest, 0) || !self.other.is_untouched() {
            self.differ(message, format!("lent {:?}: {b:?}", self.other.lent));
        }
    }

    /// A tree that no reading made: written by both sides, into room enough or too little, then with a row made wrong.
    fn tree(&mut self, r: &mut Random, faults: usize, dates: Dates) {
        let left = r.pick(&[1, 4, 20, 60]);
        let (nest, depth) = (if r.once_in(20) { 55 + r.below(12) } else { 0 }, 1 + r.below(7));
        let mut t = trees::Tree::new(r, left, faults, dates);
        let value = t.nest(nest, depth);
        let (mut rows, store, unwritable) = (t.numbers(), t.store.clone(), t.unwritable);
        if store.len() > MOST[1] {
            return;
        }
        self.tally().inputs += 1;
        self.moments(&[], &trees::table(&rows, &store));
        if let Some(row) = unwritable {
            let w = trees::table(&rows, &store).write(&mut self.out);
            self.tally().unwritten[14] += 1;
            if w != Answer::refused(14, row, 0) {
                self.differ(&[], format!("row {row} can't be written: {w:?}"));
            }
            return;
        }
        match unfold(&trees::table(&rows, &store)) {
            Ok(tree) if same(&tree.value, &value) => self.grown(r, &trees::table(&rows, &store), Writing::new(value, tree.dates)),
            Ok(tree) => self.differ(&[], format!("grown {value:?}, here {:?}", tree.value)),
            Err(e) => self.differ(&[], e),
        }
        trees::damaged(r, &mut rows, store.len());
        self.wrong_rows(&rows, &store);
    }

    /// Rows that can be written: into room enough, and into too little.
    fn grown(&mut self, r: &mut Random, t: &Table, x: Writing) {
        let mut out = vec![UNWRITTEN; x.bytes.len() + 8];
        let w = t.write(&mut out);
        self.written(&x.bytes, &x, &w, &out);
        let short = r.below(x.bytes.len());
        let mut out = vec![UNWRITTEN; short];
        let w = t.write(&mut out);
        let right = w == Answer::refused(10, 7, short) || w.no == 9 && trees::levels(&x.value) > 64;
        self.tally().unwritten[w.no] += 1;
        if !right || !is_unwritten(&out) {
            self.differ(&x.bytes, format!("written into {short} bytes: {w:?}"));
        }
    }

    /// The milliseconds of all rows, whatever they say, and that there are none in rows that aren't whole.
    fn moments(&mut self, message: &[u8], t: &Table) {
        let cut = Table { rows: &t.rows[..t.rows.len() - 1], store: t.store };
        if let Err(e) = dates::check_moments(t).and_then(|()| dates::check_no_moments(&cut)) {
            self.differ(message, e);
        }
    }

    /// Rows that may be wrong: refused with nothing written, or written as the crate writes their tree.
    fn wrong_rows(&mut self, rows: &[usize], store: &[u8]) {
        let t = trees::table(rows, store);
        self.moments(&[], &t);
        let mut out = vec![UNWRITTEN; 1 << 14];
        let w = t.write(&mut out);
        if w.kind == REFUSED {
            self.tally().unwritten[w.no] += 1;
            if ![9, 10, 13, 14].contains(&w.no) || !is_unwritten(&out) {
                self.differ(&[], format!("wrong rows: {w:?}"));
            }
            return;
        }
        match unfold(&t) {
            Ok(tree) => {
                let x = Writing::new(tree.value, tree.dates);
                self.written(&x.bytes, &x, &w, &out[..w.bytes.max(x.bytes.len())]);
            }
            Err(e) => self.differ(&out[..w.bytes], format!("wrong rows are written: {e}")),
        }
    }

    /// The milliseconds of rows that no reading leaves.
    fn moments_of_any_rows(&mut self, r: &mut Random) {
        self.tally().inputs += 1;
        self.moments(&[], &trees::table(&trees::any_rows(r), &[]));
    }

    /// The milliseconds of a date in the largest loans, and that there are none in larger ones.
    fn moments_in_full_loans(&mut self) {
        let date = tree::Row { kind: 8, number: 1f64.to_bits() as usize, end: 1, ..tree::Row::default() };
        let mut rows = vec![0; (MOST[0] + 1) * COLUMNS];
        rows[..COLUMNS].copy_from_slice(&date.columns());
        let store = vec![0; MOST[1] + 1];
        let (row_numbers, bytes) = (MOST[0] * COLUMNS, MOST[1]);
        let table = |numbers: usize, bytes: usize| Table { rows: &rows[..numbers], store: &store[..bytes] };
        for (numbers, bytes) in [(COLUMNS, 0), (row_numbers, 0), (COLUMNS, bytes), (row_numbers, bytes)] {
            self.moments(&[], &table(numbers, bytes));
        }
        for (numbers, bytes) in [(COLUMNS, bytes + 1), (row_numbers + COLUMNS, 0), (row_numbers + 1, 0), (COLUMNS + 1, 0), (row_numbers, bytes + 1)] {
            if let Err(e) = dates::check_no_moments(&table(numbers, bytes)) {
                self.differ(&[], e);
            }
        }
    }
}

/// All messages of a length over some bytes.
fn all_over(bytes: &[u8], length: usize, mut each: impl FnMut(&[u8])) {
    let mut digits = vec![0; length];
    let mut message = vec![bytes[0]; length];
    loop {
        each(&message);
        let Some(i) = (0..length).rev().find(|i| digits[*i] + 1 < bytes.len()) else {
            return;
        };
        digits[i] += 1;
        digits[i + 1..].fill(0);
        for k in i..length {
            message[k] = bytes[digits[k]];
        }
    }
}

/// A text as the body of a value, by turns: string, XML, XMLDocument, key, class, field name.
pub fn text_in(form: usize, s: &[u8]) -> Vec<u8> {
    let size = (s.len() * 2 + 1) as u8;
    let (before, after): (&[u8], &[u8]) =
        [(&[6][..], &[][..]), (&[0xb], &[]), (&[7], &[]), (&[9, 1], &[1, 1]), (&[0xa, 3], &[]), (&[0xa, 0x13, 1], &[1]), (&[0x10, 1, 0], &[])][form % 7];
    [before, &[size], s, after].concat()
}

/// A made message: flat or nested, with so many faults, and such dates.
pub fn made(r: &mut Random, faults: usize, dates: Dates) -> Vec<u8> {
    let left = r.pick(&[1, 3, 8, 30, 100]);
    let depth = r.pick(&[0, 1, 2, 4, 8]);
    let levels = if r.once_in(8) { r.pick(&[3, 10, 40, 55, 60, 62, 63, 64, 65]) } else { 0 };
    let mut m = Maker::new(r, left, faults, dates);
    m.nest(levels, depth);
    let mut out = m.out;
    if r.once_in(4) {
        out.extend((0..r.below(4)).map(|_| r.bits() as u8).collect::<Vec<_>>());
    }
    out
}

fn hex(bytes: &[u8]) -> String {
    bytes.iter().map(|b| format!("{b:02x}")).collect()
}

/// All classes of inputs, each `scale` times as large as the least (100 is the full size).
fn classes(c: &mut Comparison, scale: usize) {
    let every: Vec<u8> = (0..=255).collect();
    c.begin(if scale < 100 { "all of 0 to 2 bytes" } else { "all of 0 to 3 bytes" });
    for n in 0..=if scale < 100 { 2 } else { 3 } {
        all_over(&every, n, |m| c.message(m));
    }
    c.begin("all of 4 and 5 over 12 bytes");
    for n in 4..=5 {
        all_over(&[0, 1, 2, 3, 4, 5, 6, 9, 0xa, 0xb, 0x11, 0x80], n, |m| c.message(m));
    }
    c.begin(if scale < 100 { "all of 6 over 8 bytes" } else { "all of 6 and 7 over 8 bytes" });
    for n in 6..=if scale < 100 { 6 } else { 7 } {
        all_over(&[0, 1, 3, 5, 6, 9, 0xa, 0xb], n, |m| c.message(m));
    }
    c.begin("texts at the edges of UTF-8");
    let mut form = 0;
    for n in 0..=if scale < 100 { 3 } else { 4 } {
        all_over(&TEXT_EDGES, n, |s| {
            form += 1;
            c.message(&text_in(form, s));
        });
    }
    date_classes(c, scale);
    made_classes(c, scale);
}

/// The classes of single dates. Each second one of every exponent has a reference to it.
fn date_classes(c: &mut Comparison, scale: usize) {
    c.begin("dates at their edges");
    let r = &mut Random::new(2);
    for i in 0..2_000 * scale {
        let word: &[u8] = [&[1u8][..], &[3], &[0x80, 1], &[0xff, 0xff, 0xff, 0xff]][i % 4];
        c.message(&[&[8], word, &date_bits(r, Dates::Any).to_be_bytes()].concat());
    }
    c.begin("dates of every exponent");
    let all = (0..1 << 11).flat_map(|exponent| bits_of_exponent(exponent, scale < 100));
    for (i, bits) in all.enumerate() {
        let (before, after): (&[u8], &[u8]) = [(&[8, 1][..], &[][..]), (&[9, 5, 1, 8, 1], &[8, 2])][i / 2 % 2];
        c.message(&[before, &bits.to_be_bytes(), after].concat());
    }
}

/// The classes that are made at random.
fn made_classes(c: &mut Comparison, scale: usize) {
    let classes = [
        (3, "made, valid", 0, Dates::Unsigned),
        (10, "made, valid, dates of both signs", 0, Dates::Finite),
        (4, "made, with a fault here and there", 60, Dates::Any),
    ];
    for (seed, name, faults, dates) in classes {
        c.begin(name);
        let r = &mut Random::new(seed);
        for _ in 0..5_000 * scale {
            c.message(&made(r, faults, dates));
        }
    }
    c.begin("made, then damaged");
    let r = &mut Random::new(5);
    for _ in 0..3_000 * scale {
        let m = made(r, 0, Dates::Unsigned);
        for _ in 0..3 {
            c.message(&damaged(r, &m));
        }
    }
    c.begin("made, into loans from empty to full");
    let r = &mut Random::new(6);
    for _ in 0..1_000 * scale {
        c.with_small_loans(&made(r, 100, Dates::Finite));
    }
    tree_classes(c, scale);
}

/// The classes of rows that no reading made.
fn tree_classes(c: &mut Comparison, scale: usize) {
    let classes = [
        (7, "trees of rows", 0, Dates::Whole),
        (11, "trees of rows, all finite dates", 0, Dates::Finite),
        (8, "trees of rows, some not to be written", 30, Dates::Whole),
    ];
    for (seed, name, faults, dates) in classes {
        c.begin(name);
        let r = &mut Random::new(seed);
        for _ in 0..2_000 * scale {
            c.tree(r, faults, dates);
        }
    }
    c.begin("rows of any content, milliseconds");
    c.moments_in_full_loans();
    let r = &mut Random::new(12);
    for _ in 0..5_000 * scale {
        c.moments_of_any_rows(r);
    }
}

fn show(name: &str, numbers: &[usize]) {
    println!("| {name} | {} |", numbers.iter().map(|x| grouped(*x)).collect::<Vec<_>>().join(" | "));
}

/// The last class, the sums, and the differences.
fn print(c: &Comparison) {
    let last = c.tallies.last().unwrap();
    show(last.name, &last.line());
    let sum = |i: usize| c.tallies.iter().map(|t| t.line()[i]).sum();
    show("all", &(0..last.line().len()).map(sum).collect::<Vec<usize>>());
    let kinds: Vec<String> = (2..9).map(|k| format!("{k}: {}", grouped(c.tallies.iter().map(|t| t.refused[k]).sum()))).collect();
    println!("\nRefusals compared: {}.", kinds.join(", "));
    println!("Written but too long for the loans or the limit when read again: {}.", grouped(c.unread));
    println!("Written by bits after a reading that the crate does too: {} with its bytes, {} with others.", grouped(c.kept_by_crate), grouped(c.cut_by_crate));
    println!("Differences: {}.", c.differences);
    for (m, what) in &c.shown {
        println!("  {} {what}", hex(m));
    }
}

/// A number with commas.
fn grouped(n: usize) -> String {
    let s = n.to_string();
    s.bytes().enumerate().map(|(i, b)| if i > 0 && (s.len() - i) % 3 == 0 { format!(",{}", b as char) } else { (b as char).to_string() }).collect()
}

fn run() -> i32 {
    let words: Vec<String> = std::env::args().skip(1).collect();
    match words.iter().map(|s| s.as_str()).collect::<Vec<_>>()[..] {
        [] | ["short"] => {
            let mut c = Comparison::new();
            classes(&mut c, if words.is_empty() { 100 } else { 1 });
            print(&c);
            (c.differences != 0) as i32
        }
        ["--list", file] => {
            let lines = list::lines();
            std::fs::File::create(file).and_then(|mut f| f.write_all(lines.as_bytes())).expect("the list is written");
            0
        }
        ["differences"] => {
            differences::print();
            0
        }
        _ => {
            eprintln!("words: none, short, differences, or --list FILE");
            2
        }
    }
}

fn main() {
    let thread = std::thread::Builder::new().stack_size(256 << 20).spawn(run).expect("a thread");
    std::process::exit(thread.join().unwrap_or(1));
}
