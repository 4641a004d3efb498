//! Trees of rows that no reading made, beside the crate's values that they mean.

use crate::calls::{Table, COLUMNS};
use crate::dates;
use crate::inputs::{date_bits, date_bits_not_finite, double_bits, text, Dates, Random};
use crate::tree::Row;
use amf::amf3::Value;
use amf::Pair;
use std::time::Duration;

/// A tree in the making.
pub struct Tree<'a> {
    pub rows: Vec<Row>,
    pub store: Vec<u8>,
    /// The first row that can't be written.
    pub unwritable: Option<usize>,
    r: &'a mut Random,
    /// Rows that a reference may name, with their values.
    done: Vec<(usize, Value)>,
    left: usize,
    /// Once in so many decisions something that can't be written; 0 never.
    faults: usize,
    dates: Dates,
}

impl<'a> Tree<'a> {
    pub fn new(r: &'a mut Random, left: usize, faults: usize, dates: Dates) -> Tree<'a> {
        Tree { rows: Vec::new(), store: Vec::new(), unwritable: None, r, done: Vec::new(), left, faults, dates }
    }

    fn fault(&mut self, row: usize) -> bool {
        let wrong = self.faults != 0 && self.r.once_in(self.faults);
        if wrong && self.unwritable.is_none_or(|u| row < u) {
            self.unwritable = Some(row);
        }
        wrong
    }

    /// A place for some bytes: where they stand already, or at the end.
    fn span(&mut self, s: &[u8]) -> (usize, usize) {
        if s.is_empty() {
            return (0, 0);
        }
        if self.r.once_in(2) {
            if let Some(at) = self.store.windows(s.len()).position(|w| w == s) {
                return (at, s.len());
            }
        }
        if self.r.once_in(8) {
            self.store.push(0xff);
        }
        let at = self.store.len();
        self.store.extend(s);
        (at, s.len())
    }

    fn text(&mut self) -> String {
        let s = text(self.r);
        if self.r.once_in(40) {
            s.repeat(60)
        } else {
            s
        }
    }

    /// A pair's key for the row that comes next.
    fn key(&mut self, may_be_empty: bool) -> (String, Option<(usize, usize)>) {
        let mut s = self.text();
        let row = self.rows.len();
        if s.is_empty() && !may_be_empty && !self.fault(row) {
            s.push('k');
        } else if s.is_empty() && !may_be_empty {
            return (s, Some((0, 0)));
        }
        let span = self.span(s.as_bytes());
        (s, Some(span))
    }

    fn pairs(&mut self, n: usize, sealed: bool, depth: usize) -> Vec<Pair<String, Value>> {
        let pair = |_| {
            let (key, span) = self.key(sealed);
            Pair { key, value: self.plant(span, depth) }
        };
        (0..n).map(pair).collect()
    }

    fn values(&mut self, n: usize, depth: usize) -> Vec<Value> {
        (0..n).map(|_| self.plant(None, depth)).collect()
    }

    /// So many arrays, each around the next, and in them a value.
    pub fn nest(&mut self, levels: usize, depth: usize) -> Value {
        if levels == 0 {
            return self.plant(None, depth);
        }
        let row = self.rows.len();
        self.rows.push(Row { kind: 9, second: 1, ..Row::default() });
        let inner = self.nest(levels - 1, depth);
        self.rows[row].end = self.rows.len();
        Value::Array { assoc_entries: Vec::new(), dense_entries: vec![inner] }
    }

    /// A value with at most `depth` levels below it, under a key or none.
    pub fn plant(&mut self, key: Option<(usize, usize)>, depth: usize) -> Value {
        let row = self.rows.len();
        self.rows.push(Row { key, ..Row::default() });
        let few = self.left == 0 || depth == 0;
        self.left = self.left.saturating_sub(1);
        if !self.done.is_empty() && self.r.once_in(6) {
            let (target, value) = &self.done[self.r.below(self.done.len())];
            self.rows[row] = Row { kind: 18, key, number: *target, end: row + 1, ..Row::default() };
            return value.clone();
        }
        let kind =
            if few { 1 + self.r.below(8) } else { self.r.pick(&[1, 2, 3, 4, 4, 5, 6, 6, 7, 8, 9, 9, 9, 10, 10, 10, 10, 11, 12, 13, 14, 15, 16, 16, 17, 17]) };
        self.rows[row].kind = kind;
        let value = if kind < 9 || (11..16).contains(&kind) { self.leaf(row, kind) } else { self.container(row, kind, depth - 1) };
        self.rows[row].end = self.rows.len();
        if kind > 6 && size(&value) < 60 {
            self.done.push((row, value.clone()));
        }
        value
    }

    fn leaf(&mut self, row: usize, kind: usize) -> Value {
        match kind {
            1 => Value::Undefined,
            2 => Value::Null,
            3 => {
                self.rows[row].number = self.r.below(2);
                Value::Boolean(self.rows[row].number == 1)
            }
            4 => {
                let n = self.integer(row);
                self.rows[row].number = n as i64 as usize;
                Value::Integer(n)
            }
            5 => {
                let bits = double_bits(self.r);
                self.rows[row].number = bits as usize;
                Value::Double(f64::from_bits(bits))
            }
            8 => {
                let bits = if self.fault(row) { date_bits_not_finite(self.r) } else { date_bits(self.r, self.dates) };
                self.rows[row].number = bits as usize;
                dates::published(bits)
            }
            6 | 7 | 11 => {
                let s = self.text();
                self.rows[row].body = self.span(s.as_bytes());
                [Value::String, Value::XmlDocument, Value::Xml][[6, 7, 11].iter().position(|k| *k == kind).unwrap()](s)
            }
            _ => self.raw(row, kind),
        }
    }

    fn integer(&mut self, row: usize) -> i32 {
        const END: i32 = 1 << 28;
        if self.fault(row) {
            return self.r.pick(&[END, -END - 1, i32::MAX, i32::MIN, 2 * END, -2 * END]);
        }
        let any = (self.r.bits() as i32 >> 3) >> self.r.below(29);
        let edge = self.r.pick(&[0, -1, 0x7f, 0x80, 0x3fff, 0x4000, 0x1f_ffff, 0x20_0000, END - 1, -END]);
        if self.r.once_in(3) {
            edge
        } else {
            any
        }
    }

    fn raw(&mut self, row: usize, kind: usize) -> Value {
        let n = self.r.small();
        let width = [1, 4, 4, 8][kind - 12];
        let bytes: Vec<u8> = (0..n * width).map(|_| self.r.bits() as u8).collect();
        self.rows[row].body = self.span(&bytes);
        if kind == 12 {
            return Value::ByteArray(bytes);
        }
        self.rows[row].count = n;
        let is_fixed = self.flag(row);
        let fours = bytes.chunks_exact(4).map(|c| u32::from_be_bytes(c.try_into().unwrap()));
        let eights = bytes.chunks_exact(8).map(|c| f64::from_be_bytes(c.try_into().unwrap()));
        match kind {
            13 => Value::IntVector { is_fixed, entries: fours.map(|x| x as i32).collect() },
            14 => Value::UintVector { is_fixed, entries: fours.collect() },
            _ => Value::DoubleVector { is_fixed, entries: eights.collect() },
        }
    }

    fn flag(&mut self, row: usize) -> bool {
        self.rows[row].flag = self.r.below(2);
        self.rows[row].flag == 1
    }

    /// A class for an object or a vector of objects, or none.
    fn class(&mut self, row: usize, no_class: &str) -> Option<String> {
        if self.r.once_in(2) {
            return None;
        }
        self.rows[row].class = 1;
        let wrong = self.fault(row);
        let s = self.text();
        let s = if wrong {
            no_class.to_string()
        } else if s == no_class {
            "c".to_string()
        } else {
            s
        };
        self.rows[row].body = self.span(s.as_bytes());
        Some(s)
    }

    fn container(&mut self, row: usize, kind: usize, depth: usize) -> Value {
        let (n, m) = (self.r.small(), self.r.small());
        self.rows[row].count = n;
        match kind {
            9 => {
                self.rows[row].second = m;
                Value::Array { assoc_entries: self.pairs(n, false, depth), dense_entries: self.values(m, depth) }
            }
            10 => {
                self.rows[row].second = m;
                let class_name = self.class(row, "");
                let mut entries = self.pairs(n, true, depth);
                entries.extend(self.pairs(m, false, depth));
                Value::Object { class_name, sealed_count: n, entries }
            }
            16 => {
                let is_fixed = self.flag(row);
                let class_name = self.class(row, "*");
                Value::ObjectVector { class_name, is_fixed, entries: self.values(n, depth) }
            }
            _ => {
                let is_weak = self.flag(row);
                let mut pair = |_| Pair { key: self.plant(None, depth), value: self.plant(None, depth) };
                Value::Dictionary { is_weak, entries: (0..n).map(&mut pair).collect() }
            }
        }
    }

    /// The rows as numbers.
    pub fn numbers(&self) -> Vec<usize> {
        self.rows.iter().flat_map(|r| r.columns()).collect()
    }
}

/// The values that are right below a value.
fn below(v: &Value) -> Vec<&Value> {
    match v {
        Value::Array { assoc_entries, dense_entries } => assoc_entries.iter().map(|p| &p.value).chain(dense_entries).collect(),
        Value::Object { entries, .. } => entries.iter().map(|p| &p.value).collect(),
        Value::ObjectVector { entries, .. } => entries.iter().collect(),
        Value::Dictionary { entries, .. } => entries.iter().flat_map(|p| [&p.key, &p.value]).collect(),
        _ => Vec::new(),
    }
}

/// How many values a value has, itself too.
pub fn size(v: &Value) -> usize {
    1 + below(v).into_iter().map(size).sum::<usize>()
}

/// How many levels a value has, its own too.
pub fn levels(v: &Value) -> usize {
    1 + below(v).into_iter().map(levels).max().unwrap_or(0)
}

/// Does something with the time of each date of a value, in the order in which they are written.
pub fn each_date(v: &mut Value, each: &mut impl FnMut(&mut Duration)) {
    match v {
        Value::Date { unix_time } => each(unix_time),
        Value::Array { assoc_entries, dense_entries } => {
            assoc_entries.iter_mut().for_each(|p| each_date(&mut p.value, each));
            dense_entries.iter_mut().for_each(|v| each_date(v, each));
        }
        Value::Object { entries, .. } => entries.iter_mut().for_each(|p| each_date(&mut p.value, each)),
        Value::ObjectVector { entries, .. } => entries.iter_mut().for_each(|v| each_date(v, each)),
        Value::Dictionary { entries, .. } => entries.iter_mut().for_each(|p| {
            each_date(&mut p.key, each);
            each_date(&mut p.value, each);
        }),
        _ => {}
    }
}

/// Rows with one number changed.
pub fn damaged(r: &mut Random, rows: &mut [usize], store: usize) {
    let at = r.below(rows.len());
    let old = rows[at];
    let any = r.bits() as usize;
    let near = r.below(rows.len() / COLUMNS + 2);
    rows[at] = r.pick(&[0, 1, 2, old.wrapping_add(1), old.wrapping_sub(1), near, any, near % 19, store, usize::MAX]);
}

/// Rows that need not be a tree: dates, references to any row, also to each other and past the end, and others.
pub fn any_rows(r: &mut Random) -> Vec<usize> {
    let rows = 1 + r.below(8);
    let row = |_| {
        let kind = r.pick(&[5, 8, 8, 8, 9, 18, 18, 18, 19, 0]);
        let number = match kind {
            18 if r.once_in(8) => r.bits() as usize,
            18 => r.below(rows + 1),
            _ => date_bits(r, Dates::Any) as usize,
        };
        let mut any = || r.bits() as usize >> r.below(64);
        Row { kind, number, key: Some((any(), any())), body: (any(), any()), class: any(), flag: any(), count: any(), second: any(), end: any() }.columns()
    };
    (0..rows).flat_map(row).collect()
}

/// A table of these.
pub fn table<'a>(rows: &'a [usize], store: &'a [u8]) -> Table<'a> {
    Table { rows, store }
}
