//! Random tables and inputs.

use crate::expect::Search;
use crate::rules::*;

/// Random numbers by xorshift, so that a seed gives the same inputs everywhere.
pub struct Random(u64);

impl Random {
    pub fn new(seed: u64) -> Random {
        let mut r = Random(seed.wrapping_mul(0x9e3779b97f4a7c15) | 1);
        for _ in 0..20 {
            r.next();
        }
        r
    }

    fn next(&mut self) -> u64 {
        self.0 ^= self.0 << 13;
        self.0 ^= self.0 >> 7;
        self.0 ^= self.0 << 17;
        self.0.wrapping_mul(0x2545f4914f6cdd1d)
    }

    /// A number below `n`.
    pub fn below(&mut self, n: usize) -> usize {
        ((self.next() >> 32) as usize * n) >> 32
    }

    pub fn byte(&mut self) -> u8 {
        self.below(256) as u8
    }

    /// True once in `n` times.
    pub fn once_in(&mut self, n: usize) -> bool {
        self.below(n) == 0
    }

    pub fn of<T: Copy>(&mut self, from: &[T]) -> T {
        from[self.below(from.len())]
    }
}

/// A table with `n` cards in each hand and no trick. Suits have random weights, so that in many tables a suit is long,
/// short or not there, and the ranks are sometimes close together, so that many cards are next to each other.
pub fn table(r: &mut Random, n: usize) -> Table {
    let weights: Vec<usize> = (0..4).map(|_| r.of(&[1, 1, 2, 3, 6])).collect();
    let absent = r.below(4);
    let leave_out = r.once_in(3);
    let lowest = if r.once_in(2) { 0 } else { 13 - n - r.below(13 - n) };
    let mut pool: Vec<u8> = (0..52).filter(|&c| (c % 13) as usize >= lowest && !(leave_out && suit(c) == absent as u8)).collect();
    if pool.len() < 4 * n {
        pool = (0..52).collect();
    }
    let mut hands = [0u64; 4];
    for i in 0..4 * n {
        let total: usize = pool.iter().map(|&c| weights[suit(c) as usize]).sum();
        let mut x = r.below(total);
        let mut at = 0;
        while x >= weights[suit(pool[at]) as usize] {
            x -= weights[suit(pool[at]) as usize];
            at += 1;
        }
        hands[i % 4] |= 1 << pool.swap_remove(at);
    }
    Table { trump: r.below(5) as u8, leader: r.below(4), lying: 0, trick: [0; 3], hands }
}

/// A table with up to three cards lawfully played to its first trick.
pub fn table_in_trick(r: &mut Random, n: usize) -> Table {
    let mut t = table(r, n);
    for _ in 0..r.below(4) {
        let may = cards(t.may());
        t = t.play(r.of(&may)).0;
    }
    t
}

/// The bytes of a deal. The cards of a hand are in any order.
pub fn bytes(r: &mut Random, t: &Table) -> Vec<u8> {
    let mut b = vec![t.trump, t.leader as u8, t.lying as u8];
    b.extend(&t.trick[..t.lying]);
    for hand in t.hands {
        let mut held = cards(hand);
        b.push(held.len() as u8);
        while !held.is_empty() {
            b.push(held.swap_remove(r.below(held.len())));
        }
    }
    b
}

/// Which of the two programs an input is for.
#[derive(Clone, Copy, PartialEq)]
pub enum For {
    Judge,
    Play,
}

/// Kinds of inputs. For the judge those in order have no row. For playing on there is always one, and the first two kinds
/// are alike.
pub const KINDS: [&str; 4] = ["in order", "with a row", "row damaged", "damaged"];

pub struct Input {
    pub kind: usize,
    pub bytes: Vec<u8>,
    /// The program's argument, the most cards in a hand.
    pub room: Option<usize>,
}

/// A row of up to `len` cards, all lawful but perhaps the last. With `by_advice` that side's cards are played by advice
/// and are not in the row. With `revoke_at` the first card from that place on that can go against the suit led does so,
/// and ends the row.
fn row(r: &mut Random, s: &mut Search, t: &Table, len: usize, by_advice: Option<u8>, revoke_at: Option<usize>) -> Vec<u8> {
    let (mut t, mut row) = (*t, Vec::new());
    while t.tricks_left() > 0 {
        if by_advice.is_some_and(|side| t.turn() % 2 == side as usize) {
            t = t.play(s.advice(&t).unwrap()).0;
            continue;
        }
        if row.len() == len {
            break;
        }
        let against = t.hands[t.turn()] & !t.may();
        if against != 0 && revoke_at.is_some_and(|at| row.len() >= at) {
            row.push(r.of(&cards(against)));
            break;
        }
        let c = r.of(&cards(t.may()));
        row.push(c);
        t = t.play(c).0;
    }
    row
}

/// A byte that takes the place of a card of a row: a card of the deal (of any hand, and perhaps played), any card, any byte.
fn wrong_card(r: &mut Random, t: &Table) -> u8 {
    let all = cards(t.hands.iter().fold(0, |a, h| a | h));
    match r.below(4) {
        0 | 1 if !all.is_empty() => r.of(&all),
        2 => r.below(52) as u8,
        _ => r.byte(),
    }
}

/// An input for a program, with tables of `n` cards in a hand.
pub fn input(r: &mut Random, s: &mut Search, n: usize, of: For) -> Input {
    let kind = r.of(&[0, 0, 0, 1, 1, 1, 2, 2, 3, 3]);
    input_of(r, s, n, of, kind)
}

/// The row of an input.
fn row_of(r: &mut Random, s: &mut Search, t: &Table, n: usize, of: For, kind: usize, side: u8) -> Vec<u8> {
    let revoke_at = if kind == 2 && r.once_in(3) { Some(r.below(2 * n)) } else { None };
    let to_the_end = kind == 2 && revoke_at.is_none() && r.once_in(6);
    let mut row = match of {
        For::Judge if kind == 0 => Vec::new(),
        For::Judge => {
            let most = if r.once_in(4) { 4 * n } else { 2 * n };
            let len = r.below(most + 1);
            row(r, s, t, if revoke_at.is_some() || to_the_end { 4 * n } else { len }, None, revoke_at)
        }
        // Played on to the end for the most part, since every card is compared.
        For::Play => {
            let len = if !to_the_end && r.once_in(3) { r.below(2 * n + 1) } else { 2 * n };
            row(r, s, t, len, Some(side & 1), revoke_at)
        }
    };
    if to_the_end {
        row.push(wrong_card(r, t));
    } else if kind == 2 && revoke_at.is_none() {
        damage_row(r, t, &mut row);
    }
    row
}

/// Changes a card of a row, takes one out or puts one in.
fn damage_row(r: &mut Random, t: &Table, row: &mut Vec<u8>) {
    match r.below(3) {
        0 if !row.is_empty() => {
            let at = r.below(row.len());
            row[at] = wrong_card(r, t);
        }
        1 if !row.is_empty() => {
            row.remove(r.below(row.len()));
        }
        _ => {
            let c = wrong_card(r, t);
            row.insert(r.below(row.len() + 1), c);
            if r.once_in(3) {
                row.push(wrong_card(r, t));
            }
        }
    }
}

/// An input of a kind.
pub fn input_of(r: &mut Random, s: &mut Search, n: usize, of: For, kind: usize) -> Input {
    let t = table_in_trick(r, n);
    let mut b = bytes(r, &t);
    let mut room = match r.below(16) {
        0 => Some(1 + r.below(8)),
        1 => Some(r.of(&[n, n, (n - 1).max(1)])),
        _ => None,
    };
    let side = if r.once_in(40) { r.of(&[2, 3, 255]) } else { r.below(2) as u8 };
    let row = row_of(r, s, &t, n, of, kind, side);
    if of == For::Judge {
        let left = (4 * n).saturating_sub(row.len() + t.lying).div_ceil(4);
        b.extend(&row);
        b.push(side);
        b.push(match r.below(24) {
            0 => left as u8 + 1,
            1 => r.byte(),
            _ => r.below(left + 1).max(r.below(left + 1)) as u8,
        });
    } else {
        b.push(side);
        b.extend(&row);
    }
    if kind == 3 {
        damage(r, n, &t, &mut b, &mut room);
    }
    Input { kind, bytes: b, room }
}

/// Damages the bytes of an input in one of many ways.
fn damage(r: &mut Random, n: usize, t: &Table, b: &mut Vec<u8>, room: &mut Option<usize>) {
    match r.below(16) {
        0..=7 => damage_bytes(r, b),
        8 | 9 => uneven_hands(r, t, b),
        10 | 11 => unlawful_trick(r, n, b),
        12 => {
            *room = r.of(&[None, Some(8), Some(8), Some(8)]);
            too_many_cards(r, b);
        }
        13 => few_cards(r, b),
        // Bytes without sense: few of them, large ones and small ones.
        14 => {
            let top = r.of(&[2, 5, 53, 256]);
            *b = (0..r.below(30)).map(|_| r.below(top) as u8).collect();
        }
        // A lawful head, and any small bytes.
        _ => {
            *b = vec![r.below(5) as u8, r.below(4) as u8, r.below(4) as u8];
            let top = r.of(&[8, 20, 52]);
            for _ in 0..r.below(24) {
                b.push(r.below(top) as u8);
            }
        }
    }
}

/// Changes bytes, takes one out, puts one in, or cuts them short.
fn damage_bytes(r: &mut Random, b: &mut Vec<u8>) {
    match r.below(8) {
        // Bytes changed, a small one near what is lawful or any.
        0 | 1 => {
            for _ in 0..1 + r.below(2) {
                let at = r.below(b.len());
                b[at] = if r.once_in(2) { r.below(8) as u8 } else { r.byte() };
            }
        }
        2 => {
            b.remove(r.below(b.len()));
        }
        3 => {
            let byte = if r.once_in(2) { r.below(52) as u8 } else { r.byte() };
            b.insert(r.below(b.len() + 1), byte);
        }
        // Cut short anywhere, the whole deal and no more among them.
        4 | 5 => b.truncate(r.below(b.len())),
        // A byte of the cards repeats another.
        6 => {
            let (i, j) = (r.below(b.len() - 3), r.below(b.len() - 3));
            b[3 + i] = b[3 + j];
        }
        // The head: trump, leader and number of the trick's cards, just above the bounds or far.
        _ => {
            for _ in 0..1 + r.below(2) {
                let at = r.below(3);
                b[at] = if r.once_in(2) { 3 + r.below(3) as u8 } else { r.byte() };
            }
        }
    }
}

/// Hands that are not even: a card is moved from one hand to another, or is missing. Sometimes nothing follows.
fn uneven_hands(r: &mut Random, t: &Table, b: &mut Vec<u8>) {
    let mut t = *t;
    let (from, to) = (r.below(4), r.below(4));
    let held = cards(t.hands[from]);
    if !held.is_empty() {
        let c = r.of(&held);
        t.hands[from] &= !(1 << c);
        if r.once_in(2) {
            t.hands[to] |= 1 << c;
        }
    }
    let tail = b.split_off(b.len() - 2);
    *b = bytes(r, &t);
    if !r.once_in(4) {
        b.extend(tail);
    }
}

/// A trick against the rule: any cards of the next hands, whether they follow or not. Sometimes nothing follows.
fn unlawful_trick(r: &mut Random, n: usize, b: &mut Vec<u8>) {
    let mut t = table(r, n);
    for i in 0..2 + r.below(2) {
        let held = cards(t.hands[(t.leader + i) % 4]);
        let c = r.of(&held);
        t.hands[(t.leader + i) % 4] &= !(1 << c);
        t.trick[i] = c;
        t.lying += 1;
    }
    *b = bytes(r, &t);
    if !r.once_in(4) {
        b.extend([r.below(2) as u8, r.below(n + 1) as u8]);
    }
}

/// Nine cards in a hand, some of them in the trick. Where three are there and the fourth player lacks one, no number
/// byte is above 8.
fn too_many_cards(r: &mut Random, b: &mut Vec<u8>) {
    let mut t = table(r, 9);
    for _ in 0..r.of(&[0, 1, 2, 3, 3, 3]) {
        t = t.play(r.of(&cards(t.may()))).0;
    }
    if r.once_in(2) {
        let p = t.turn();
        t.hands[p] &= t.hands[p] - 1;
    }
    *b = bytes(r, &t);
    b.extend([0, 0]);
}

/// Hands with no card, or one.
fn few_cards(r: &mut Random, b: &mut Vec<u8>) {
    *b = vec![r.below(5) as u8, r.below(4) as u8, 0];
    for _ in 0..4 {
        if r.once_in(4) {
            b.extend([1, r.below(52) as u8]);
        } else {
            b.push(0);
        }
    }
    b.extend([0, 0]);
}
