//! What the two programs must print, found by going through all plays.

use crate::rules::*;
use std::collections::HashMap;

/// Finds worths by going through every card of every turn, with no bounds and no card skipped for being like another.
/// Tables of up to 4 cards in a hand are searched by plain recursion, with nothing kept.
/// Those of 5 keep the worth of tables at the start of a trick in a map whose key is the whole table: all hands, the
/// leader and trump. So do larger ones, unless there is another program to ask.
#[derive(Default)]
pub struct Search {
    kept: HashMap<Table, usize>,
    /// Asked for the worth of tables with more than 5 cards in a hand.
    pub large: Option<Box<dyn FnMut(&Table) -> usize>>,
}

pub fn ours(player: usize) -> bool {
    player % 2 == 0
}

fn gain(taker: Option<usize>) -> usize {
    taker.is_some_and(ours) as usize
}

impl Search {
    /// The tricks that our side takes of those left if both sides play as well as can be.
    pub fn worth(&mut self, t: &Table) -> usize {
        match &mut self.large {
            Some(ask) if t.tricks_left() > 5 => ask(t),
            _ => self.worth_of(t, t.tricks_left() > 4),
        }
    }

    fn worth_of(&mut self, t: &Table, keeping: bool) -> usize {
        let mut left = t.may();
        if left == 0 {
            return 0;
        }
        if keeping && t.lying == 0 {
            if let Some(&w) = self.kept.get(t) {
                return w;
            }
        }
        let our_turn = ours(t.turn());
        let mut best = if our_turn { 0 } else { usize::MAX };
        while left != 0 {
            let card = left.trailing_zeros() as u8;
            left &= left - 1;
            let (after, taker) = t.play(card);
            let w = gain(taker) + self.worth_of(&after, keeping);
            best = if our_turn { best.max(w) } else { best.min(w) };
        }
        if keeping && t.lying == 0 {
            self.kept.insert(*t, best);
        }
        best
    }

    /// Our side's tricks of those left if this card is played, and all is played well from there on.
    pub fn worth_with(&mut self, t: &Table, card: u8) -> usize {
        let (after, taker) = t.play(card);
        gain(taker) + self.worth(&after)
    }

    /// Advice: the lowest card that keeps the worth, for whoever is to play; none if all is played.
    pub fn advice(&mut self, t: &Table) -> Option<u8> {
        let with: Vec<(u8, usize)> = cards(t.may()).into_iter().map(|c| (c, self.worth_with(t, c))).collect();
        let all = with.iter().map(|x| x.1);
        let worth = if ours(t.turn()) { all.max() } else { all.min() };
        with.iter().find(|x| Some(x.1) == worth).map(|x| x.0)
    }
}

pub fn card_text(card: u8) -> String {
    let suits = ["C", "D", "H", "S"];
    let ranks = ["2", "3", "4", "5", "6", "7", "8", "9", "T", "J", "Q", "K", "A"];
    format!("{}{}", suits[(card / 13) as usize], ranks[(card % 13) as usize])
}

fn card_or_dash(card: Option<u8>) -> String {
    card.map_or("-".to_string(), card_text)
}

fn refusal_text(r: Refusal) -> String {
    format!("refused {} at {}\n", r.number, r.place)
}

/// A claim of `number` tricks for our side, or for the others.
#[derive(Clone, Copy)]
struct Claim {
    ours: bool,
    number: usize,
}

impl Claim {
    /// Whether the claiming side has its number, where our side gets `our_tricks` of `all`.
    fn met(&self, our_tricks: usize, all: usize) -> bool {
        if self.ours { our_tricks >= self.number } else { all - our_tricks >= self.number }
    }
}

/// The lowest card of who is to play at `t` with which the claim fails,
/// where `all` tricks were left when it was made and our side has taken `taken` of them since.
fn failing(s: &mut Search, t: &Table, claim: Claim, all: usize, taken: usize) -> Option<u8> {
    cards(t.may()).into_iter().find(|&c| !claim.met(taken + s.worth_with(t, c), all))
}

/// The reply to a card of the claiming side: the lowest card at the other side's next turn with which the claim fails.
/// If the claiming side takes the trick with it, it leads to the next by its advice. None if no such turn is left.
fn reply(s: &mut Search, t: &Table, card: u8, claim: Claim) -> Option<u8> {
    let all = t.tricks_left();
    let (mut now, taker) = t.play(card);
    let taken = gain(taker);
    if now.tricks_left() == 0 {
        return None;
    }
    if ours(now.turn()) == claim.ours {
        let lead = s.advice(&now).unwrap();
        now = now.play(lead).0;
    }
    let found = failing(s, &now, claim, all, taken);
    assert!(found.is_some(), "a claim that is not upheld must fail by some reply");
    found
}

fn judgement(s: &mut Search, t: &Table, claim: Claim) -> String {
    s.kept.clear();
    let all = t.tricks_left();
    let worth = s.worth(t);
    let mut text = format!("worth {worth}\n");
    if claim.met(worth, all) {
        text += &format!("upheld\ncard {}\n", card_or_dash(s.advice(t)));
        return text;
    }
    text += "not upheld\n";
    if ours(t.turn()) == claim.ours {
        for card in cards(t.may()) {
            text += &format!("{}: {}\n", card_text(card), card_or_dash(reply(s, t, card, claim)));
        }
    } else {
        text += &format!("card {}\n", card_or_dash(failing(s, t, claim, all, 0)));
    }
    text
}

/// The judge's output: a deal, a row of cards that are played first, and the claim as the last two bytes.
pub fn judge(s: &mut Search, input: &[u8], room: usize) -> String {
    let mut judged = || -> Result<String, Refusal> {
        let before = &input[..input.len().saturating_sub(2)];
        let (mut t, end) = read(before, room, false)?;
        for (place, &byte) in before[end..].iter().enumerate() {
            t = t.play_checked(byte, place)?.0;
        }
        // 10: a claim of more tricks than are left, or of a side that is neither.
        let (side, number) = (input[input.len() - 2], input[input.len() - 1] as usize);
        if side > 1 || number > t.tricks_left() {
            return refuse(10, 0);
        }
        Ok(judgement(s, &t, Claim { ours: side == 0, number }))
    };
    judged().unwrap_or_else(refusal_text)
}

/// The player's output: a deal, a byte for the side that goes by advice, and the other side's cards in order.
pub fn play(s: &mut Search, input: &[u8], room: usize) -> String {
    let mut played = || -> Result<String, Refusal> {
        let (mut t, end) = read(input, room, true)?;
        // 10: a side that is neither.
        if input[end] > 1 {
            return refuse(10, 0);
        }
        let by_advice = input[end] == 0;
        let row = &input[end + 1..];
        s.kept.clear();
        let (mut place, mut trick, mut text) = (0, 1, String::new());
        loop {
            let player = t.turn();
            let (card, after, taker);
            if t.tricks_left() > 0 && ours(player) == by_advice {
                card = s.advice(&t).unwrap();
                (after, taker) = t.play(card);
            } else {
                // A row that ends stops the play.
                if place == row.len() {
                    return Ok(text);
                }
                card = row[place];
                (after, taker) = t.play_checked(card, place)?;
                place += 1;
            }
            text += &format!("{player}: {}\n", card_text(card));
            if let Some(p) = taker {
                text += &format!("{trick} trick: {p}\n");
                trick += 1;
            }
            t = after;
        }
    };
    played().unwrap_or_else(refusal_text)
}

/// For each card that may be played after the row: what our side gets of the tricks left. To look into an example.
pub fn look(input: &[u8]) -> String {
    let looked = || -> Result<String, Refusal> {
        let before = &input[..input.len().saturating_sub(2)];
        let (mut t, end) = read(before, 8, false)?;
        for (place, &byte) in before[end..].iter().enumerate() {
            t = t.play_checked(byte, place)?.0;
        }
        let s = &mut Search::default();
        let mut text = format!("player {}, tricks left {}\n", t.turn(), t.tricks_left());
        for c in cards(t.may()) {
            text += &format!("{}: {}\n", card_text(c), s.worth_with(&t, c));
        }
        Ok(text)
    };
    looked().unwrap_or_else(refusal_text)
}
