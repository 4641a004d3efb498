//! Rows unfolded into the crate's values, and values compared bit for bit.

use crate::calls::{Table, COLUMNS};
use amf::amf3::Value;
use amf::Pair;
use std::time::Duration;

/// One row, its columns by name.
#[derive(Clone, Copy, Default)]
pub struct Row {
    pub kind: usize,
    pub key: Option<(usize, usize)>,
    pub body: (usize, usize),
    pub class: usize,
    pub flag: usize,
    pub number: usize,
    pub count: usize,
    pub second: usize,
    pub end: usize,
}

impl Row {
    fn at(t: &Table, row: usize) -> Result<Row, String> {
        let c = t.rows.get(row * COLUMNS..(row + 1) * COLUMNS).ok_or(format!("row {row} isn't there"))?;
        if c[1] > 1 {
            return Err(format!("key mark of row {row}"));
        }
        let key = (c[1] == 1).then_some((c[2], c[3]));
        Ok(Row { kind: c[0], key, body: (c[4], c[5]), class: c[6], flag: c[7], number: c[8], count: c[9], second: c[10], end: c[11] })
    }

    /// The twelve numbers.
    pub fn columns(&self) -> [usize; COLUMNS] {
        let (begin, size) = self.key.unwrap_or((0, 0));
        [self.kind, self.key.is_some() as usize, begin, size, self.body.0, self.body.1, self.class, self.flag, self.number, self.count, self.second, self.end]
    }
}

fn bytes<'a>(t: &Table<'a>, (begin, size): (usize, usize)) -> Result<&'a [u8], String> {
    t.store.get(begin..begin.saturating_add(size)).ok_or("a span past the store".to_string())
}

fn text(t: &Table, span: (usize, usize)) -> Result<String, String> {
    String::from_utf8(bytes(t, span)?.to_vec()).map_err(|e| e.to_string())
}

/// The tree of a table's first row, the row after it, and the bits of its dates as they come in the tree.
pub struct Unfolded {
    pub value: Value,
    pub end: usize,
    pub dates: Vec<u64>,
}

/// The children of a row, one after another.
struct Children<'a, 'b> {
    table: Table<'a>,
    next: usize,
    dates: &'b mut Vec<u64>,
}

impl Children<'_, '_> {
    fn value(&mut self) -> Result<Value, String> {
        match self.any()? {
            (None, v) => Ok(v),
            _ => Err("a key where none is given".to_string()),
        }
    }

    fn pair(&mut self) -> Result<Pair<String, Value>, String> {
        match self.any()? {
            (Some(k), value) => Ok(Pair { key: text(&self.table, k)?, value }),
            _ => Err("no key".to_string()),
        }
    }

    fn any(&mut self) -> Result<(Option<(usize, usize)>, Value), String> {
        let (v, end) = unfold_row(&self.table, self.next, self.dates)?;
        let row = Row::at(&self.table, self.next)?;
        self.next = end;
        Ok((row.key, v))
    }
}

/// Unfolds: references are replaced by copies of their targets. Each row's text is asked for on the way, and each date's milliseconds.
pub fn unfold(t: &Table) -> Result<Unfolded, String> {
    let mut dates = Vec::new();
    let (value, end) = unfold_row(t, 0, &mut dates)?;
    Ok(Unfolded { value, end, dates })
}

/// The tree of a row, and the row after it.
fn unfold_row(t: &Table, row: usize, dates: &mut Vec<u64>) -> Result<(Value, usize), String> {
    let r = Row::at(t, row)?;
    let mut below = Children { table: *t, next: row + 1, dates };
    let value = of_row(t, row, &r, &mut below)?;
    if r.end != below.next {
        return Err(format!("row {row} ends at {}, its children at {}", r.end, below.next));
    }
    if t.text(row) != value.try_as_str().map(str::as_bytes) {
        return Err(format!("the text of row {row}"));
    }
    Ok((value, r.end))
}

fn of_row(t: &Table, row: usize, r: &Row, below: &mut Children) -> Result<Value, String> {
    let class = if r.class == 1 { Some(text(t, r.body)?) } else { None };
    Ok(match r.kind {
        1 => Value::Undefined,
        2 => Value::Null,
        3 => Value::Boolean(r.number == 1),
        4 => Value::Integer(i32::try_from(r.number as i64).map_err(|e| e.to_string())?),
        5 => Value::Double(f64::from_bits(r.number as u64)),
        6 => Value::String(text(t, r.body)?),
        7 => Value::XmlDocument(text(t, r.body)?),
        8 => date(t, row, &r, below.dates)?,
        9 => Value::Array {
            assoc_entries: (0..r.count).map(|_| below.pair()).collect::<Result<_, _>>()?,
            dense_entries: (0..r.second).map(|_| below.value()).collect::<Result<_, _>>()?,
        },
        10 => Value::Object { class_name: class, sealed_count: r.count, entries: (0..r.count + r.second).map(|_| below.pair()).collect::<Result<_, _>>()? },
        11 => Value::Xml(text(t, r.body)?),
        12 => Value::ByteArray(bytes(t, r.body)?.to_vec()),
        13 => Value::IntVector { is_fixed: r.flag == 1, entries: items(t, r, i32::from_be_bytes)? },
        14 => Value::UintVector { is_fixed: r.flag == 1, entries: items(t, r, u32::from_be_bytes)? },
        15 => Value::DoubleVector { is_fixed: r.flag == 1, entries: items(t, r, f64::from_be_bytes)? },
        16 => Value::ObjectVector { class_name: class, is_fixed: r.flag == 1, entries: (0..r.count).map(|_| below.value()).collect::<Result<_, _>>()? },
        17 => Value::Dictionary {
            is_weak: r.flag == 1,
            entries: (0..r.count).map(|_| Ok(Pair { key: below.value()?, value: below.value()? })).collect::<Result<_, String>>()?,
        },
        18 if r.number < row => unfold_row(t, r.number, below.dates)?.0,
        _ => return Err(format!("the kind of row {row}")),
    })
}

/// A date by its milliseconds without their sign, which its bits tell.
fn date(t: &Table, row: usize, r: &Row, dates: &mut Vec<u64>) -> Result<Value, String> {
    let moment = t.moment(row);
    if moment.found != 1 {
        return Err(format!("row {row} has no milliseconds"));
    }
    dates.push(r.number as u64);
    Ok(Value::Date { unix_time: Duration::from_millis(moment.millis.unsigned_abs()) })
}

/// The numbers of a raw vector.
fn items<const N: usize, T>(t: &Table, r: &Row, of: fn([u8; N]) -> T) -> Result<Vec<T>, String> {
    let raw = bytes(t, r.body)?;
    if raw.len() != r.count * N {
        return Err("the count of a vector".to_string());
    }
    Ok(raw.chunks_exact(N).map(|c| of(c.try_into().unwrap())).collect())
}

/// Milliseconds, those past the ends of a row's as the last one.
fn held(time: &Duration) -> u128 {
    time.as_millis().min(i64::MAX as u128)
}

/// Whether two values are equal, doubles by their bits, dates by milliseconds that a row can say.
pub fn same(a: &Value, b: &Value) -> bool {
    let pairs =
        |x: &[Pair<String, Value>], y: &[Pair<String, Value>]| x.len() == y.len() && x.iter().zip(y).all(|(p, q)| p.key == q.key && same(&p.value, &q.value));
    let all = |x: &[Value], y: &[Value]| x.len() == y.len() && x.iter().zip(y).all(|(p, q)| same(p, q));
    match (a, b) {
        (Value::Double(x), Value::Double(y)) => x.to_bits() == y.to_bits(),
        (Value::Date { unix_time: x }, Value::Date { unix_time: y }) => held(x) == held(y),
        (Value::DoubleVector { is_fixed: f, entries: x }, Value::DoubleVector { is_fixed: g, entries: y }) => {
            f == g && x.len() == y.len() && x.iter().zip(y).all(|(p, q)| p.to_bits() == q.to_bits())
        }
        (Value::Array { assoc_entries: p, dense_entries: x }, Value::Array { assoc_entries: q, dense_entries: y }) => pairs(p, q) && all(x, y),
        (Value::Object { class_name: c, sealed_count: n, entries: x }, Value::Object { class_name: d, sealed_count: m, entries: y }) => {
            c == d && n == m && pairs(x, y)
        }
        (Value::ObjectVector { class_name: c, is_fixed: f, entries: x }, Value::ObjectVector { class_name: d, is_fixed: g, entries: y }) => {
            c == d && f == g && all(x, y)
        }
        (Value::Dictionary { is_weak: f, entries: x }, Value::Dictionary { is_weak: g, entries: y }) => {
            f == g && x.len() == y.len() && x.iter().zip(y).all(|(p, q)| same(&p.key, &q.key) && same(&p.value, &q.value))
        }
        _ => a == b,
    }
}
