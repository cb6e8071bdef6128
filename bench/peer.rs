// The peer of the benchmark: makes random tables, and searches them by the same algorithm as the crate `worth`.
//
//   peer deals SEED COUNT    writes COUNT tables for each of 4 to 8 cards a hand: a byte for its length, then the deal
//   peer solve < TABLES      prints for each table its cards a hand, its worth and the nanoseconds that the search took

use std::io::{Read, Write};
use std::time::Instant;

#[derive(Clone, Copy)]
struct Board {
    trump: u8,
    hands: [u64; 4],
    leader: u8,
    trick: [u8; 3],
    played: u8,
}

fn suit_mask(suit: u8) -> u64 {
    0x1fff << (13 * suit)
}

fn playable(board: &Board) -> u64 {
    let hand = board.hands[((board.leader + board.played) % 4) as usize];
    if board.played == 0 {
        return hand;
    }
    let suit = board.trick[0] / 13;
    if has_suit(hand, suit) { hand & suit_mask(suit) } else { hand }
}

// Looked up card by card, as there.
fn has_suit(hand: u64, suit: u8) -> bool {
    (0..52u8).any(|card| hand >> card & 1 == 1 && card / 13 == suit)
}

// The cards that may be played, of equal ones the lowest.
fn lowest_equals(board: &Board) -> u64 {
    let own = board.hands[((board.leader + board.played) % 4) as usize];
    let mut in_play = board.hands[0] | board.hands[1] | board.hands[2] | board.hands[3];
    for card in &board.trick[..board.played as usize] {
        in_play |= 1 << card;
    }
    let mut left = playable(board);
    let mut lowest = 0;
    while left != 0 {
        let card = left.trailing_zeros() as u8;
        left &= left - 1;
        let below = in_play & suit_mask(card / 13) & ((1u64 << card) - 1);
        if below == 0 || own >> (63 - below.leading_zeros()) & 1 == 0 {
            lowest |= 1 << card;
        }
    }
    lowest
}

fn beats(trump: u8, best: u8, card: u8) -> bool {
    card / 13 == best / 13 && best % 13 < card % 13 || best / 13 != trump && card / 13 == trump
}

fn taker(board: &Board, card: u8) -> u8 {
    let cards = [board.trick[0], board.trick[1], board.trick[2], card];
    let mut best = 0;
    for place in 1..4 {
        if beats(board.trump, cards[best], cards[place]) {
            best = place;
        }
    }
    (board.leader + best as u8) % 4
}

fn play(board: &Board, card: u8) -> (Board, u8) {
    let mut next = *board;
    next.hands[((board.leader + board.played) % 4) as usize] &= !(1 << card);
    if board.played == 3 {
        next.leader = taker(board, card);
        next.played = 0;
        return (next, (next.leader % 2 == 0) as u8);
    }
    next.trick[board.played as usize] = card;
    next.played += 1;
    (next, 0)
}

fn key(board: &Board) -> u64 {
    board.hands[0] | board.hands[1] | board.hands[2] | board.hands[3] | (board.leader as u64) << 52
}

fn slot(key: u64, places: usize) -> usize {
    (key.wrapping_mul(0x9e37_79b9_7f4a_7c15) >> 32) as usize % places
}

// The worth, or the nearest to it within low and high.
fn search(board: Board, left: u8, low: u8, high: u8, positions: &mut [u64], worths: &mut [u8]) -> u8 {
    if low == high {
        return low;
    }
    let place = slot(key(&board), positions.len());
    if board.played == 0 && positions[place] == key(&board) {
        return worths[place].min(high).max(low);
    }
    let ours = (board.leader + board.played) % 2 == 0;
    let cards = lowest_equals(&board);
    let (mut floor, mut ceiling) = (low, high);
    'suits: for suit in (0..4u8).rev() {
        for rank in (0..13u8).rev() {
            let card = 13 * suit + rank;
            if cards >> card & 1 == 0 {
                continue;
            }
            let (next, gain) = play(&board, card);
            let rest = if board.played == 3 { left - 1 } else { left };
            let (low, high) = (floor.saturating_sub(gain), ceiling.saturating_sub(gain).min(rest));
            let worth = gain + search(next, rest, low, high, positions, worths);
            if ours {
                floor = floor.max(worth);
            } else {
                ceiling = ceiling.min(worth);
            }
            if floor == ceiling {
                break 'suits;
            }
        }
    }
    let worth = if ours { floor } else { ceiling };
    let exact = (low < worth || low == 0) && (worth < high || high == left);
    if exact && board.played == 0 {
        positions[place] = key(&board);
        worths[place] = worth;
    }
    worth
}

fn slots(cards: u8) -> usize {
    1 << (2 * cards + 4)
}

fn solve() {
    let mut input = Vec::new();
    std::io::stdin().read_to_end(&mut input).unwrap();
    let mut rest = &input[..];
    while let [size, tail @ ..] = rest {
        let (deal, more) = tail.split_at(*size as usize);
        let cards = deal[3];
        let mut board = Board { trump: deal[0], hands: [0; 4], leader: deal[1], trick: [0; 3], played: 0 };
        for p in 0..4 {
            for i in 0..cards as usize {
                board.hands[p] |= 1 << deal[4 + p * (cards as usize + 1) + i];
            }
        }
        let mut positions = vec![0u64; slots(cards)];
        let mut worths = vec![0u8; slots(cards)];
        let start = Instant::now();
        positions.fill(0);
        worths.fill(0);
        let worth = search(board, cards, 0, cards, &mut positions, &mut worths);
        println!("{cards} {worth} {}", start.elapsed().as_nanos());
        rest = more;
    }
}

struct Random(u64);

impl Random {
    fn below(&mut self, n: u64) -> u64 {
        self.0 ^= self.0 << 13;
        self.0 ^= self.0 >> 7;
        self.0 ^= self.0 << 17;
        self.0 % n
    }
}

fn deals(seed: u64, count: u64) {
    let mut random = Random(seed);
    let mut out = Vec::new();
    for cards in 4..=8u8 {
        for _ in 0..count {
            let mut deck: Vec<u8> = (0..52).collect();
            for i in 0..4 * cards as usize {
                let j = i + random.below(52 - i as u64) as usize;
                deck.swap(i, j);
            }
            out.push(3 + 4 * (cards + 1));
            out.extend([random.below(5) as u8, random.below(4) as u8, 0]);
            for hand in deck[..4 * cards as usize].chunks(cards as usize) {
                out.push(cards);
                out.extend(hand);
            }
        }
    }
    std::io::stdout().write_all(&out).unwrap();
}

fn main() {
    let args: Vec<String> = std::env::args().collect();
    match args.iter().map(String::as_str).collect::<Vec<_>>()[..] {
        [_, "deals", seed, count] => deals(seed.parse().unwrap(), count.parse().unwrap()),
        [_, "solve"] => solve(),
        _ => eprintln!("usage: peer deals SEED COUNT | peer solve < TABLES"),
    }
}
