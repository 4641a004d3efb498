//! Messages and trees to compare on. Seeds are fixed: a run makes the same ones again.

use crate::dates::{is_finite, SIGN, WHOLE_MOST};

/// Random numbers (xorshift64*).
pub struct Random(u64);

impl Random {
    pub fn new(seed: u64) -> Random {
        Random(seed.wrapping_mul(0x9e37_79b9_7f4a_7c15) | 1)
    }

    pub fn bits(&mut self) -> u64 {
        self.0 ^= self.0 >> 12;
        self.0 ^= self.0 << 25;
        self.0 ^= self.0 >> 27;
        self.0.wrapping_mul(0x2545_f491_4f6c_dd1d)
    }

    /// A number below `n`.
    pub fn below(&mut self, n: usize) -> usize {
        ((self.bits() >> 32) as usize * n) >> 32
    }

    /// True once in `n` times.
    pub fn once_in(&mut self, n: usize) -> bool {
        self.below(n) == 0
    }

    pub fn pick<T: Copy>(&mut self, xs: &[T]) -> T {
        xs[self.below(xs.len())]
    }

    /// A small number, seldom a larger one.
    pub fn small(&mut self) -> usize {
        let most = self.pick(&[2, 4, 4, 6, 20]);
        self.below(most)
    }
}

/// Bytes at the boundaries of the classes of RFC 3629.
pub const TEXT_EDGES: [u8; 27] = [
    0x00, 0x41, 0x7f, 0x80, 0x8f, 0x90, 0x9f, 0xa0, 0xbf, 0xc0, 0xc1, 0xc2, 0xdf, 0xe0, 0xe1, 0xec, 0xed, 0xee, 0xef, 0xf0, 0xf1, 0xf3, 0xf4, 0xf5, 0xf7, 0xf8,
    0xff,
];

/// Which dates are made.
#[derive(Clone, Copy)]
pub enum Dates {
    /// Whole milliseconds from +0 to 2^53: both sides write them alike.
    Whole,
    /// Finite ones without a sign bit: the crate reads them.
    Unsigned,
    /// Finite ones: they are read and written here.
    Finite,
    /// Any bits.
    Any,
}

/// A date in the middle of all.
const ORDINARY: f64 = 1_700_000_000_000.0;

/// The bits of a date of these.
pub fn date_bits(r: &mut Random, dates: Dates) -> u64 {
    let bits = any_date_bits(r);
    match dates {
        Dates::Any => bits,
        Dates::Whole => (whole_millis(r, bits) as f64).to_bits(),
        _ if !is_finite(bits) => ORDINARY.to_bits(),
        Dates::Unsigned => bits & !SIGN,
        Dates::Finite => bits,
    }
}

/// The whole milliseconds of these bits, or others where those are too many.
fn whole_millis(r: &mut Random, bits: u64) -> u64 {
    let millis = f64::from_bits(bits & !SIGN) as u64;
    if millis > WHOLE_MOST {
        r.pick(&[0, 1, WHOLE_MOST - 1, WHOLE_MOST])
    } else {
        millis
    }
}

/// The bits of NaN or an infinity.
pub fn date_bits_not_finite(r: &mut Random) -> u64 {
    const INFINITY: u64 = 0x7ff << 52;
    let sign = (r.below(2) as u64) << 63;
    let payload = if r.once_in(2) { 0 } else { r.bits() >> 12 };
    INFINITY | sign | payload
}

/// The bits of a double at an edge of what a date may be, or near one, or any.
fn any_date_bits(r: &mut Random) -> u64 {
    const EDGES: [f64; 17] = [
        0.0,
        0.5,
        1.0,
        1.5,
        999.0,
        1000.0,
        4_294_967_296.0,
        4_503_599_627_370_496.0,
        9_007_199_254_740_991.0,
        9_007_199_254_740_992.0,
        9_223_372_036_854_775_808.0,
        18_446_744_073_709_551_616.0,
        1.5e12,
        1e300,
        f64::MAX,
        f64::MIN_POSITIVE,
        f64::INFINITY,
    ];
    let near = r.pick(&EDGES).to_bits().wrapping_add(r.below(9) as u64).wrapping_sub(4);
    let sign = (r.once_in(3) as u64) << 63;
    match r.below(6) {
        0 => r.bits(),
        1 => ((r.bits() >> r.below(64)) as f64).to_bits() ^ sign,
        2 => ((r.bits() >> r.below(64)) as f64 / 16.0).to_bits() ^ sign,
        3 => date_bits_not_finite(r),
        _ => near ^ sign,
    }
}

/// The bits of doubles of one exponent: an empty fraction, one bit of it, and a full one, or fewer.
pub fn bits_of_exponent(exponent: u64, few: bool) -> Vec<u64> {
    const FRACTION: u32 = 52;
    let step = if few { 51 } else { 1 };
    let fractions = (0..FRACTION).step_by(step).map(|place| 1 << place).chain([0, (1 << FRACTION) - 1]);
    fractions.flat_map(|fraction| [0, SIGN].map(|sign| sign | exponent << FRACTION | fraction)).collect()
}

/// A double's bits: special ones, or any.
pub fn double_bits(r: &mut Random) -> u64 {
    let special = [0, 1 << 63, 0x7ff0_0000_0000_0000, 0xfff0_0000_0000_0000, 0x7ff8_0000_0000_0000, 0x7ff0_0000_0000_0001, 0xffff_ffff_ffff_ffff, 1];
    if r.once_in(3) {
        r.pick(&special)
    } else {
        r.bits()
    }
}

/// A valid text.
pub fn text(r: &mut Random) -> String {
    let n = r.small();
    let edges = ['\u{0}', 'a', '*', '\u{7f}', '\u{80}', '\u{7ff}', '\u{800}', '\u{d7ff}', '\u{e000}', '\u{ffff}', '\u{10000}', '\u{10ffff}'];
    (0..n).map(|_| if r.once_in(3) { r.pick(&edges) } else { r.pick(&['a', 'b', 'c', '*']) }).collect()
}

/// Makes one message, keeping the tables that its reader will have.
pub struct Maker<'a> {
    pub out: Vec<u8>,
    r: &'a mut Random,
    strings: usize,
    /// For each object whether it is finished.
    objects: Vec<bool>,
    /// For each trait whether it is dynamic, and how many names it has.
    traits: Vec<(bool, usize)>,
    /// Values that may still be made.
    left: usize,
    /// Once in so many decisions something is made wrong; 0 never.
    faults: usize,
    dates: Dates,
}

impl<'a> Maker<'a> {
    pub fn new(r: &'a mut Random, left: usize, faults: usize, dates: Dates) -> Maker<'a> {
        Maker { out: Vec::new(), r, strings: 0, objects: Vec::new(), traits: Vec::new(), left, faults, dates }
    }

    fn fault(&mut self) -> bool {
        self.faults != 0 && self.r.once_in(self.faults)
    }

    /// A U29 in its shortest form or a longer one.
    fn u29(&mut self, n: usize) {
        let least = if n < 0x80 {
            1
        } else if n < 0x4000 {
            2
        } else if n < 0x20_0000 {
            3
        } else {
            4
        };
        let size = if self.r.once_in(6) { least + self.r.below(5 - least) } else { least };
        let (rest, last) = if size == 4 { (n >> 8, (n & 0xff) as u8) } else { (n >> 7, (n & 0x7f) as u8) };
        for i in (0..size - 1).rev() {
            self.out.push(0x80 | (rest >> (7 * i) & 0x7f) as u8);
        }
        self.out.push(last);
    }

    fn size(&mut self, n: usize) {
        self.u29(n << 1 | 1);
    }

    fn text_bytes(&mut self) -> Vec<u8> {
        let mut s = text(self.r).into_bytes();
        if self.r.once_in(300) {
            s = s.repeat(self.r.pick(&[20, 100, 1_000]));
        }
        if self.fault() {
            s.push(self.r.pick(&TEXT_EDGES));
        }
        s
    }

    /// A string's words, literal or by number; tells whether it is empty.
    fn string(&mut self, may_be_empty: bool) {
        if self.fault() {
            let past = self.strings + self.r.below(2);
            return self.u29(past << 1);
        }
        if self.strings > 0 && self.r.once_in(3) {
            let i = self.r.below(self.strings);
            return self.u29(i << 1);
        }
        let mut s = self.text_bytes();
        if s.is_empty() && !may_be_empty {
            s.push(b'k');
        }
        self.size(s.len());
        self.strings += !s.is_empty() as usize;
        self.out.extend(s);
    }

    fn pairs(&mut self, n: usize, depth: usize) {
        for _ in 0..n {
            self.string(false);
            self.value(depth);
        }
        self.size(0);
    }

    fn values(&mut self, n: usize, depth: usize) {
        for _ in 0..n {
            self.value(depth);
        }
    }

    fn flag(&mut self) {
        let b = self.r.pick(&[0, 1, 1, 2, 0x80, 0xff]);
        self.out.push(b);
    }

    fn raw(&mut self, n: usize) {
        for _ in 0..n {
            let b = self.r.bits() as u8;
            self.out.push(b);
        }
    }

    /// One value with at most `depth` levels below it.
    pub fn value(&mut self, depth: usize) {
        if self.left == 0 {
            let b = self.r.pick(&[0, 1, 2, 3]);
            return self.out.push(b);
        }
        self.left -= 1;
        if self.fault() {
            let b = 0x12 + self.r.below(0xee) as u8;
            return self.out.push(b);
        }
        let marker = if depth == 0 {
            self.r.pick(&[4, 5, 6, 7, 8, 0xb, 0xc, 0xd, 0xe, 0xf, 9])
        } else {
            self.r.pick(&[0, 1, 2, 3, 4, 4, 5, 6, 6, 7, 8, 9, 9, 9, 0xa, 0xa, 0xa, 0xa, 0xb, 0xc, 0xd, 0xe, 0xf, 0x10, 0x10, 0x11, 0x11])
        };
        self.out.push(marker);
        self.rest(marker, depth);
    }

    fn rest(&mut self, marker: u8, depth: usize) {
        match marker {
            0..=3 => {}
            4 => {
                let n = self.r.bits() as usize & 0x1fff_ffff;
                let n = n >> self.r.below(29);
                let edge = self.r.pick(&[0, 0x7f, 0x80, 0x3fff, 0x4000, 0x1f_ffff, 0x20_0000, 0xfff_ffff, 0x1000_0000, 0x1fff_ffff]);
                let n = if self.r.once_in(3) { edge } else { n };
                self.u29(n)
            }
            5 => {
                let bits = double_bits(self.r);
                self.out.extend(bits.to_be_bytes())
            }
            6 => self.string(true),
            _ => self.object(marker, depth),
        }
    }

    /// A value that enters the objects, or a reference to one.
    fn object(&mut self, marker: u8, depth: usize) {
        if self.fault() {
            let any = self.r.below(self.objects.len() + 2);
            return self.u29(any << 1);
        }
        if self.objects.contains(&true) && self.r.once_in(4) {
            let mut i = self.r.below(self.objects.len());
            while !self.objects[i] {
                i = (i + 1) % self.objects.len();
            }
            return self.u29(i << 1);
        }
        let own = self.objects.len();
        self.objects.push(false);
        self.literal(marker, depth);
        self.objects[own] = true;
    }

    /// A date's word, whose rest is ignored, and its bits.
    fn date(&mut self) {
        let any = self.r.small();
        self.size(any);
        let bits = date_bits(self.r, self.dates);
        self.out.extend(bits.to_be_bytes());
    }

    /// A vector's class, by turns `*`.
    fn vector_class(&mut self) {
        if self.r.once_in(2) {
            return self.string(true);
        }
        self.size(1);
        self.strings += 1;
        self.out.push(b'*');
    }

    fn literal(&mut self, marker: u8, depth: usize) {
        let n = if depth == 0 { 0 } else { self.r.small() };
        match marker {
            7 | 0xb => {
                let s = self.text_bytes();
                self.size(s.len());
                self.out.extend(s);
            }
            8 => self.date(),
            9 => {
                let pairs = if depth == 0 || self.r.once_in(2) { 0 } else { self.r.small() };
                self.size(n);
                self.pairs(pairs, depth.saturating_sub(1));
                self.values(n, depth.saturating_sub(1));
            }
            0xa => self.members(depth),
            0xc => {
                self.size(n);
                self.raw(n);
            }
            0xd..=0xf => {
                self.size(n);
                self.flag();
                self.raw(n * if marker == 0xf { 8 } else { 4 });
            }
            0x10 => {
                self.size(n);
                self.flag();
                self.vector_class();
                self.values(n, depth - 1);
            }
            _ => {
                self.size(n);
                self.flag();
                self.values(2 * n, depth - 1);
            }
        }
    }

    /// An object's word, trait and members.
    fn members(&mut self, depth: usize) {
        if self.fault() {
            self.u29(7);
            return self.string(true);
        }
        let (dynamic, names) = if !self.traits.is_empty() && self.r.once_in(2) {
            let i = if self.fault() { self.traits.len() } else { self.r.below(self.traits.len()) };
            self.u29(i << 2 | 1);
            self.traits.get(i).copied().unwrap_or((false, 0))
        } else {
            let (dynamic, names) = (self.r.once_in(2), self.r.small());
            self.u29(names << 4 | (dynamic as usize) << 3 | 3);
            self.string(true);
            for _ in 0..names {
                self.string(true);
            }
            self.traits.push((dynamic, names));
            (dynamic, names)
        };
        self.values(names, depth - 1);
        if dynamic {
            let n = self.r.small();
            self.pairs(n, depth - 1);
        }
    }

    /// An array of several values.
    fn several(&mut self, depth: usize) {
        let n = 2 + 2 * self.r.small();
        self.objects.push(false);
        self.out.push(9);
        self.size(n);
        self.pairs(0, depth);
        self.values(n, depth);
    }

    /// So many values, each around the next, and in them a value with at most `depth` levels below it.
    pub fn nest(&mut self, levels: usize, depth: usize) {
        let mut empty_keys = 0;
        for _ in 0..levels {
            self.objects.push(false);
            let form = self.r.below(6);
            self.out.extend::<&[u8]>([&[9, 1, 3, b'a'][..], &[0xa, 0xb, 1, 3, b'a'], &[0xa, 0x13, 1, 1], &[0x10, 3, 0, 1], &[0x11, 3, 0, 1], &[9, 3, 1]][form]);
            self.strings += (form < 2) as usize;
            empty_keys += (form < 2) as usize;
            if form == 1 || form == 2 {
                self.traits.push((form == 1, form - 1));
            }
        }
        if self.r.once_in(2) {
            self.value(depth);
        } else {
            self.several(depth);
        }
        self.out.extend(vec![1; empty_keys]);
    }
}

/// A message made wrong in one or a few places.
pub fn damaged(r: &mut Random, message: &[u8]) -> Vec<u8> {
    let mut m = message.to_vec();
    for _ in 0..1 + r.below(3) {
        let at = r.below(m.len().max(1));
        let b = if r.once_in(2) { r.bits() as u8 } else { r.pick(&[0, 1, 2, 3, 5, 6, 7, 9, 0xa, 0xb, 0x11, 0x7f, 0x80, 0xff]) };
        match r.below(6) {
            0 => m.truncate(at),
            1 => m.insert(at.min(m.len()), b),
            2 if at < m.len() => {
                m.remove(at);
            }
            3 if at < m.len() => m[at] ^= 1 << r.below(8),
            4 if at < m.len() => {
                let part = m[at..m.len().min(at + 1 + r.below(8))].to_vec();
                let to = r.below(m.len());
                m.splice(to..to, part);
            }
            _ if at < m.len() => m[at] = b,
            _ => m.push(b),
        }
    }
    m
}
