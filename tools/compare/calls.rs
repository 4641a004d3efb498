//! The library's C calls, and lent memory for them. Each of the two programs uses a part.
#![allow(dead_code)]

/// Numbers of a state.
pub const STATE_WORDS: usize = 416;

/// Numbers of an entry of each loan: rows, store, strings, objects, traits, names.
pub const WIDTHS: [usize; 6] = [12, 1, 2, 1, 5, 2];

/// Entries of each loan at most.
pub const MOST: [usize; 6] = [16_384, 65_536, 4_096, 4_096, 256, 4_096];

/// Numbers of a row.
pub const COLUMNS: usize = WIDTHS[0];

/// Kinds of answers.
pub const WAITING: usize = 0;
pub const FINISHED: usize = 1;
pub const REFUSED: usize = 2;

/// What every lent number and byte is before a call.
const JUNK: usize = 0x5a5a_5a5a_5a5a_5a5a;
const JUNK_BYTE: u8 = 0x5a;

/// An answer of a call, as include/pinebuckle.h has it.
#[repr(C)]
#[derive(Clone, Copy, Debug, Default, PartialEq, Eq)]
pub struct Answer {
    pub kind: usize,
    pub no: usize,
    pub told: usize,
    pub place: usize,
    pub rows: usize,
    pub bytes: usize,
    pub taken: usize,
}

impl Answer {
    /// A refusal of a whole reading or a writing.
    pub fn refused(no: usize, told: usize, place: usize) -> Answer {
        Answer { kind: REFUSED, no, told, place, ..Answer::default() }
    }
}

/// Where a text stands, if there is one.
#[repr(C)]
pub struct Span {
    pub found: usize,
    pub begin: usize,
    pub length: usize,
}

/// A date's milliseconds, if there are any.
#[repr(C)]
#[derive(Clone, Copy, Debug, Default, PartialEq, Eq)]
pub struct Moment {
    pub found: usize,
    pub millis: i64,
}

macro_rules! loan_calls {
    ($($name:ident($($before:ident: $of:ty),*; $($after:ident: $by:ty),*);)*) => {
        extern "C" {
            $(fn $name($($before: $of,)* rows: *mut usize, rows_len: usize, store: *mut u8, store_len: usize, strings: *mut usize, strings_len: usize,
                objects: *mut usize, objects_len: usize, traits: *mut usize, traits_len: usize, names: *mut usize, names_len: usize $(, $after: $by)*) -> Answer;)*
        }
    };
}

loan_calls! {
    pb_read(; message: *const u8, len: usize);
    pb_begin(state: *mut usize;);
    pb_feed(state: *mut usize; piece: *const u8, len: usize);
    pb_end(state: *mut usize;);
}

extern "C" {
    fn pb_write(rows: *const usize, rows_len: usize, store: *const u8, store_len: usize, out: *mut u8, out_len: usize) -> Answer;
    fn pb_text(rows: *const usize, rows_len: usize, store: *const u8, store_len: usize, row: usize) -> Span;
    fn pb_millis(rows: *const usize, rows_len: usize, store: *const u8, store_len: usize, row: usize) -> Moment;
}

/// Memory for the six loans, of which a part is lent.
pub struct Loans {
    pub rows: Vec<usize>,
    pub store: Vec<u8>,
    pub strings: Vec<usize>,
    pub objects: Vec<usize>,
    pub traits: Vec<usize>,
    pub names: Vec<usize>,
    /// Numbers (or bytes) lent of each.
    pub lent: [usize; 6],
}

/// Room past the most that may be lent, for loans that are refused and to see that nothing is written there.
const PAST: usize = 24;

/// The six loans of a call, as a list of pointers and counts.
macro_rules! call {
    ($name:ident, $l:expr $(, before $before:expr)? $(, after $after:expr)?) => {
        unsafe {
            $name($($before.as_mut_ptr(),)? $l.rows.as_mut_ptr(), $l.lent[0], $l.store.as_mut_ptr(), $l.lent[1], $l.strings.as_mut_ptr(), $l.lent[2],
                $l.objects.as_mut_ptr(), $l.lent[3], $l.traits.as_mut_ptr(), $l.lent[4], $l.names.as_mut_ptr(), $l.lent[5] $(, $after.as_ptr(), $after.len())?)
        }
    };
}

impl Loans {
    pub fn new() -> Loans {
        let room = |i: usize| vec![JUNK; MOST[i] * WIDTHS[i] + PAST];
        Loans { rows: room(0), store: vec![JUNK_BYTE; MOST[1] + PAST], strings: room(2), objects: room(3), traits: room(4), names: room(5), lent: [0; 6] }
    }

    /// Lends so many entries of each.
    pub fn lend(&mut self, entries: [usize; 6]) {
        for i in 0..6 {
            self.lent[i] = entries[i] * WIDTHS[i];
        }
    }

    fn numbers(&self) -> [(&[usize], usize); 5] {
        [
            (&self.rows[..], self.lent[0]),
            (&self.strings, self.lent[2]),
            (&self.objects, self.lent[3]),
            (&self.traits, self.lent[4]),
            (&self.names, self.lent[5]),
        ]
    }

    /// Fills what is lent, and a little past it, with junk.
    pub fn spoil(&mut self) {
        let lent = self.lent;
        let all =
            [(&mut self.rows, lent[0]), (&mut self.strings, lent[2]), (&mut self.objects, lent[3]), (&mut self.traits, lent[4]), (&mut self.names, lent[5])];
        for (numbers, n) in all {
            let end = numbers.len().min(n + PAST);
            numbers[..end].fill(JUNK);
        }
        let end = self.store.len().min(lent[1] + PAST);
        self.store[..end].fill(JUNK_BYTE);
    }

    /// Whether the numbers past what is lent are as they were.
    pub fn past_is_untouched(&self) -> bool {
        self.numbers().iter().all(|(xs, n)| xs[*n..xs.len().min(n + PAST)].iter().all(|x| *x == JUNK))
            && self.store[self.lent[1]..self.store.len().min(self.lent[1] + PAST)].iter().all(|b| *b == JUNK_BYTE)
    }

    /// Whether all that is lent is junk still.
    pub fn is_untouched(&self) -> bool {
        self.numbers().iter().all(|(xs, n)| xs[..*n].iter().all(|x| *x == JUNK)) && self.store[..self.lent[1]].iter().all(|b| *b == JUNK_BYTE)
    }

    /// Whether all that is lent is zero.
    pub fn is_zero(&self) -> bool {
        self.numbers().iter().all(|(xs, n)| zero(&xs[..*n])) && zero_bytes(&self.store[..self.lent[1]])
    }

    /// Whether the rows past `rows` and the store past `bytes` are zero.
    pub fn rest_is_zero(&self, rows: usize, bytes: usize) -> bool {
        zero(&self.rows[rows * COLUMNS..self.lent[0]]) && zero_bytes(&self.store[bytes..self.lent[1]])
    }

    /// Whether all that is lent of both is equal where both have it, and zero where one has more.
    pub fn holds_as(&self, other: &Loans) -> bool {
        let equal = |xs: &[usize], n: usize, ys: &[usize], m: usize| {
            let k = n.min(m);
            xs[..k] == ys[..k] && zero(&xs[k..n]) && zero(&ys[k..m])
        };
        let k = self.lent[1].min(other.lent[1]);
        self.numbers().iter().zip(other.numbers().iter()).all(|((xs, n), (ys, m))| equal(xs, *n, ys, *m))
            && self.store[..k] == other.store[..k]
            && zero_bytes(&self.store[k..self.lent[1]])
            && zero_bytes(&other.store[k..other.lent[1]])
    }

    /// Reads a whole message.
    pub fn read(&mut self, message: &[u8]) -> Answer {
        call!(pb_read, self, after message)
    }

    /// Begins a reading in pieces.
    pub fn begin(&mut self, state: &mut [usize; STATE_WORDS]) -> Answer {
        call!(pb_begin, self, before state)
    }

    /// Takes a piece.
    pub fn feed(&mut self, state: &mut [usize; STATE_WORDS], piece: &[u8]) -> Answer {
        call!(pb_feed, self, before state, after piece)
    }

    /// Declares the end.
    pub fn end(&mut self, state: &mut [usize; STATE_WORDS]) -> Answer {
        call!(pb_end, self, before state)
    }

    /// All rows and the whole store that are lent.
    pub fn lent_table(&self) -> Table<'_> {
        Table { rows: &self.rows[..self.lent[0]], store: &self.store[..self.lent[1]] }
    }

    /// The rows and the store of a finished reading.
    pub fn table(&self, a: &Answer) -> Table<'_> {
        Table { rows: &self.rows[..a.rows * COLUMNS], store: &self.store[..a.bytes] }
    }
}

/// Rows and the store that they name.
#[derive(Clone, Copy)]
pub struct Table<'a> {
    pub rows: &'a [usize],
    pub store: &'a [u8],
}

impl<'a> Table<'a> {
    /// Writes the tree of row 0.
    pub fn write(&self, out: &mut [u8]) -> Answer {
        unsafe { pb_write(self.rows.as_ptr(), self.rows.len(), self.store.as_ptr(), self.store.len(), out.as_mut_ptr(), out.len()) }
    }

    /// The text of a row.
    pub fn text(&self, row: usize) -> Option<&'a [u8]> {
        let s = unsafe { pb_text(self.rows.as_ptr(), self.rows.len(), self.store.as_ptr(), self.store.len(), row) };
        (s.found == 1).then(|| &self.store[s.begin..s.begin + s.length])
    }

    /// The milliseconds of a row's date.
    pub fn moment(&self, row: usize) -> Moment {
        unsafe { pb_millis(self.rows.as_ptr(), self.rows.len(), self.store.as_ptr(), self.store.len(), row) }
    }
}

fn zero(xs: &[usize]) -> bool {
    xs.iter().fold(0, |a, x| a | x) == 0
}

fn zero_bytes(xs: &[u8]) -> bool {
    xs.iter().fold(0, |a, x| a | x) == 0
}
