//! The same message in pieces: answer, rows, all loans and bytes taken must be those of the whole.

use crate::calls::{Answer, Loans, FINISHED, REFUSED, STATE_WORDS, WAITING};
use crate::dates::check_moments;
use crate::inputs::Random;
use crate::Comparison;

type State = [usize; STATE_WORDS];

/// A message in pieces: all at once, by single bytes, or cut at random, empty pieces too.
fn pieces<'a>(r: &mut Random, message: &'a [u8]) -> Vec<&'a [u8]> {
    let most = r.pick(&[1, 1, 2, 4, 16, 64, usize::MAX]);
    let mut left = message;
    let mut all = Vec::new();
    while !left.is_empty() {
        let n = if most == 1 || most == usize::MAX { most } else { r.below(most + 1) };
        let (piece, rest) = left.split_at(n.min(left.len()));
        all.push(piece);
        left = rest;
    }
    all
}

/// Feeds pieces until an answer isn't waiting. The answer has all bytes taken so far.
fn feed(loans: &mut Loans, state: &mut State, pieces: &[&[u8]]) -> Answer {
    let mut taken = 0;
    let mut a = Answer::default();
    for piece in pieces {
        a = loans.feed(state, piece);
        taken += a.taken;
        if a.kind != WAITING {
            break;
        }
    }
    Answer { taken, ..a }
}

impl Comparison {
    fn begun(&mut self, message: &[u8], state: &mut State) {
        state.fill(0x5a5a);
        self.other.lent = self.loans.lent;
        self.other.spoil();
        let a = self.other.begin(state);
        if a != Answer::default() || !self.other.is_zero() {
            self.differ(message, format!("begun: {a:?}"));
        }
    }

    /// Feeds a message, whose whole reading answered `whole` and is in `self.loans`.
    pub fn in_pieces(&mut self, message: &[u8], whole: &Answer) {
        self.tally().fed += 1;
        let mut state = [0; STATE_WORDS];
        self.begun(message, &mut state);
        let cut = pieces(&mut self.random, message);
        let fed = feed(&mut self.other, &mut state, &cut);
        let taken = match (whole.kind, whole.no) {
            (FINISHED, _) => whole.taken,
            (_, 2) => message.len(),
            _ => whole.place,
        };
        let last = if fed.kind == WAITING { self.other.end(&mut state) } else { fed };
        if fed.taken != taken || (Answer { taken: whole.taken, ..last }) != *whole || !self.other.holds_as(&self.loans) {
            return self
                .differ(message, format!("in pieces {:?}: {fed:?}, at the end {last:?}, whole {whole:?}", cut.iter().map(|p| p.len()).collect::<Vec<_>>()));
        }
        self.fed_again(message, &mut state, &last);
        if self.random.once_in(8) {
            self.waiting(message);
        }
    }

    /// A finished or refused state takes nothing more, touches no loan and repeats its answer.
    fn fed_again(&mut self, message: &[u8], state: &mut State, last: &Answer) {
        let before = *state;
        let want = Answer { taken: 0, ..*last };
        let more = self.other.feed(state, &[1, 2, 3]);
        let none = self.other.feed(state, &[]);
        let end = self.other.end(state);
        if more != want || none != want || end != want || *state != before || !self.other.holds_as(&self.loans) {
            self.differ(message, format!("fed again: {more:?}, {none:?}, {end:?}, before {last:?}"));
        }
    }

    /// A part of a message, in pieces and joined: the same answer, state and loans, though it may wait. Open rows answer for their milliseconds as they stand.
    fn waiting(&mut self, message: &[u8]) {
        let part = &message[..self.random.below(message.len() + 1)];
        let (mut one, mut many) = ([0; STATE_WORDS], [0; STATE_WORDS]);
        self.begun(message, &mut many);
        let cut = pieces(&mut self.random, part);
        let a = feed(&mut self.other, &mut many, &cut);
        self.back.lent = self.other.lent;
        self.back.spoil();
        self.back.begin(&mut one);
        let b = feed(&mut self.back, &mut one, &[part]);
        let taken_all = b.kind == REFUSED || b.kind == FINISHED || b.taken == part.len();
        if a != b && !part.is_empty() || one != many || !self.other.holds_as(&self.back) || !taken_all {
            self.differ(part, format!("a part in pieces: {a:?}, joined {b:?}"));
        }
        if let Err(e) = check_moments(&self.other.lent_table()) {
            self.differ(part, format!("while it waits: {e}"));
        }
    }
}
