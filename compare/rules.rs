//! The game's rules, the byte format and its refusals, written for the comparison and sharing nothing with the crates.
//!
//! A card's number is 13 * suit + rank: clubs 0, diamonds 1, hearts 2, spades 3; ranks 2 to ace are 0 to 12.
//! Players 0 to 3 sit round; our side is 0 and 2.

/// A table: four hands as sets of card numbers, and the cards lying in the trick from the leader on.
/// Places of `trick` from `lying` on are 0, so that equal tables are equal values.
#[derive(Clone, Copy, PartialEq, Eq, Hash, Debug)]
pub struct Table {
    pub trump: u8,
    pub leader: usize,
    pub lying: usize,
    pub trick: [u8; 3],
    pub hands: [u64; 4],
}

#[derive(Clone, Copy, PartialEq, Eq, Debug)]
pub struct Refusal {
    pub number: u32,
    pub place: usize,
}

pub fn refuse<T>(number: u32, place: usize) -> Result<T, Refusal> {
    Err(Refusal { number, place })
}

pub fn suit(card: u8) -> u8 {
    card / 13
}

/// All cards of a suit, as a set.
fn suit_set(suit: u8) -> u64 {
    0x1fff << (13 * suit)
}

/// The cards of a set, lowest first.
pub fn cards(set: u64) -> Vec<u8> {
    (0..52).filter(|c| set >> c & 1 == 1).collect()
}

impl Table {
    /// Who is to play, if anybody has a card.
    pub fn turn(&self) -> usize {
        (self.leader + self.lying) % 4
    }

    /// Tricks still to be finished, the one on the table among them.
    pub fn tricks_left(&self) -> usize {
        self.hands[self.leader].count_ones() as usize + (self.lying > 0) as usize
    }

    /// The cards that who is to play may play: of the suit led, if it has one, and else all.
    pub fn may(&self) -> u64 {
        let hand = self.hands[self.turn()];
        if self.lying == 0 {
            return hand;
        }
        let following = hand & suit_set(suit(self.trick[0]));
        if following != 0 { following } else { hand }
    }

    /// The table after a card, and who takes the trick if the card ends it.
    pub fn play(&self, card: u8) -> (Table, Option<usize>) {
        let mut after = *self;
        after.hands[self.turn()] &= !(1 << card);
        if self.lying < 3 {
            after.trick[self.lying] = card;
            after.lying += 1;
            return (after, None);
        }
        let four = [self.trick[0], self.trick[1], self.trick[2], card];
        // The highest trump takes the trick; if there is none, the highest card of the suit led.
        let trumps = four.iter().any(|&c| suit(c) == self.trump);
        let wanted = if trumps { self.trump } else { suit(four[0]) };
        let highest = *four.iter().filter(|&&c| suit(c) == wanted).max().unwrap();
        let taker = (self.leader + four.iter().position(|&c| c == highest).unwrap()) % 4;
        after.leader = taker;
        after.lying = 0;
        after.trick = [0; 3];
        (after, Some(taker))
    }

    /// Plays a card of a row after checking it; `place` is where it stands in the row.
    pub fn play_checked(&self, byte: u8, place: usize) -> Result<(Table, Option<usize>), Refusal> {
        // 9: a card after the last trick, whatever it is.
        if self.tricks_left() == 0 {
            return refuse(9, place);
        }
        // 7: a card that is not in the hand of who is to play; no hand has a number above 51.
        if byte > 51 || self.hands[self.turn()] >> byte & 1 == 0 {
            return refuse(7, place);
        }
        // 8: a card that does not follow suit though the hand can.
        if self.may() >> byte & 1 == 0 {
            return refuse(8, place);
        }
        Ok(self.play(byte))
    }
}

/// 1: trump is a suit, or 4 for none. 2: the leader is a player, and at most three cards lie in the trick.
/// A byte that is missing is not looked at here.
fn head(bytes: &[u8]) -> Result<(), Refusal> {
    for (place, most, number) in [(0, 4, 1), (1, 3, 2), (2, 3, 2)] {
        if bytes.len() > place && bytes[place] > most {
            return refuse(number, place);
        }
    }
    Ok(())
}

/// Where the number bytes of the four hands stand, as far as they are there, and where the deal ends, if it does.
/// The number bytes are believed.
fn walk(bytes: &[u8]) -> (Vec<usize>, Option<usize>) {
    let mut numbers = Vec::new();
    if bytes.len() < 3 {
        return (numbers, None);
    }
    let mut at = 3 + bytes[2] as usize;
    for _ in 0..4 {
        if at >= bytes.len() {
            return (numbers, None);
        }
        numbers.push(at);
        at += 1 + bytes[at] as usize;
    }
    (numbers, if at <= bytes.len() { Some(at) } else { None })
}

/// 4: a card above 51, or equal to an earlier one.
fn cards_apart(bytes: &[u8], numbers: &[usize], end: usize) -> Result<(), Refusal> {
    let mut seen = 0u64;
    for place in (3..end).filter(|p| !numbers.contains(p)) {
        if bytes[place] > 51 || seen >> bytes[place] & 1 == 1 {
            return refuse(4, place);
        }
        seen |= 1 << bytes[place];
    }
    Ok(())
}

/// 5: a hand that, with its card in the trick, has not as many cards as the leader's, or none, or more than 8.
fn hands_even(bytes: &[u8], numbers: &[usize]) -> Result<(), Refusal> {
    let (leader, lying) = (bytes[1] as usize, bytes[2] as usize);
    let count = |p: usize| bytes[numbers[p]] as usize + ((p + 4 - leader) % 4 < lying) as usize;
    for p in 0..4 {
        if count(p) != count(leader) || count(p) == 0 || count(p) > 8 {
            return refuse(5, numbers[p]);
        }
    }
    Ok(())
}

/// The table of a deal whose cards are good.
fn table_of(bytes: &[u8], numbers: &[usize]) -> Table {
    let (leader, lying) = (bytes[1] as usize, bytes[2] as usize);
    let mut table = Table { trump: bytes[0], leader, lying, trick: [0; 3], hands: [0; 4] };
    table.trick[..lying].copy_from_slice(&bytes[3..3 + lying]);
    for p in 0..4 {
        for i in 1..=bytes[numbers[p]] as usize {
            table.hands[p] |= 1 << bytes[numbers[p] + i];
        }
    }
    table
}

/// 6: a card of the trick whose player holds a card of the suit led.
fn trick_lawful(t: &Table) -> Result<(), Refusal> {
    for i in 1..t.lying {
        let led = suit(t.trick[0]);
        if suit(t.trick[i]) != led && t.hands[(t.leader + i) % 4] & suit_set(led) != 0 {
            return refuse(6, 3 + i);
        }
    }
    Ok(())
}

/// Reads a deal from the start of the bytes, for tables with at most `room` cards in a hand.
/// Answers the table and how many bytes it took, or the first refusal in the order 1, 2, 11, 3, 4, 5, 6.
/// With `and_side` the deal must be followed by one more byte, and lacks something as long as it is not there.
pub fn read(bytes: &[u8], room: usize, and_side: bool) -> Result<(Table, usize), Refusal> {
    head(bytes)?;
    let (numbers, end) = walk(bytes);
    // 11: a number byte is above the room for hands. The programs always have room for plays and positions.
    if numbers.iter().any(|&n| bytes[n] as usize > room) {
        return refuse(11, 0);
    }
    // 3: the bytes end before all is there.
    let Some(end) = end.filter(|&end| end + and_side as usize <= bytes.len()) else {
        return refuse(3, bytes.len());
    };
    cards_apart(bytes, &numbers, end)?;
    hands_even(bytes, &numbers)?;
    let table = table_of(bytes, &numbers);
    trick_lawful(&table)?;
    Ok((table, end))
}
