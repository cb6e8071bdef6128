//! Compares the two programs with what the rules say, worked out here from nothing but the rules.
//!
//!     compare all JUDGE PLAY [SEED [PERCENT]]     random inputs of up to 5 cards in a hand: all lines and the status
//!     compare large JUDGE PLAY DDS [SEED [PERCENT]]   inputs of 6 to 8 cards in a hand, with worths by libdds
//!     compare limits JUDGE PLAY COUNT [SEED]      bytes of one value, and COUNT times random bytes
//!     compare worst JUDGE SECONDS [SEED [INPUT]]  looks for the table of 8 cards that takes the judge longest, in
//!                                                 processor seconds
//!     compare judge|play [N] <INPUT               what the program must print
//!     compare look <INPUT                         what our side gets with each card that may be played
//!
//! A program given as - is left out. PERCENT is of the usual number of inputs. A difference ends it with status 1.

mod deals;
mod expect;
mod rules;

use deals::{For, KINDS, Random};
use expect::Search;
use std::io::{BufRead, BufReader, Read, Write};
use std::process::{Command, Stdio, exit};
use std::time::Instant;

/// What a program answered.
struct Answer {
    out: Vec<u8>,
    err: Vec<u8>,
    status: Option<i32>,
}

fn run(program: &str, args: &[String], input: &[u8]) -> Answer {
    let mut child = Command::new(program)
        .args(args)
        .stdin(Stdio::piped())
        .stdout(Stdio::piped())
        .stderr(Stdio::piped())
        .spawn()
        .unwrap_or_else(|e| {
            println!("{program} cannot be run: {e}");
            exit(2)
        });
    // A program that stops reading early is judged by what it answers.
    let _ = child.stdin.take().unwrap().write_all(input);
    let out = child.wait_with_output().unwrap();
    Answer { out: out.stdout, err: out.stderr, status: out.status.code() }
}

fn hex(bytes: &[u8]) -> String {
    bytes.iter().map(|b| format!("{b:02x}")).collect()
}

/// Prints a difference and ends with status 1.
fn differ(program: &str, args: &[String], input: &[u8], expected: &str, got: &Answer) -> ! {
    println!("DIFFERENCE: {program} {}", args.join(" "));
    println!("input in hex: {}", hex(input));
    println!("expected, status 0:\n{expected}");
    println!("answered, status {:?}:\n{}", got.status, String::from_utf8_lossy(&got.out));
    println!("standard error:\n{}", String::from_utf8_lossy(&got.err));
    exit(1)
}

/// Runs a program on an input and compares. Answers what was expected.
fn compare_one(s: &mut Search, program: &str, of: For, input: &[u8], room: Option<usize>) -> String {
    let most = room.unwrap_or(5);
    let expected = if of == For::Judge { expect::judge(s, input, most) } else { expect::play(s, input, most) };
    let args: Vec<String> = room.iter().map(|n| n.to_string()).collect();
    let got = run(program, &args, input);
    if got.out != expected.as_bytes() || got.status != Some(0) || !got.err.is_empty() {
        differ(program, &args, input, &expected, &got);
    }
    expected
}

/// Arguments that are no number from 1 to 8: a line of usage on standard error, nothing on standard output, status 1.
fn compare_arguments(program: &str) {
    let wrong: [&[&str]; 12] = [&["5", "5"], &["00"], &["+9"], &["0"], &["9"], &["10"], &["-1"], &["x"], &[""], &["5x"], &["256"], &["257"]];
    for args in wrong {
        let args: Vec<String> = args.iter().map(|a| a.to_string()).collect();
        let got = run(program, &args, &[]);
        let lines = got.err.iter().filter(|&&b| b == b'\n').count();
        if !got.out.is_empty() || got.status != Some(1) || lines != 1 || got.err.last() != Some(&b'\n') {
            differ(program, &args, &[], "nothing, but status 1 and a line of usage on standard error", &got);
        }
    }
    println!("  {} wrong arguments", wrong.len());
    // Zeros and a plus may stand before the digit.
    for word in ["5", "05", "+5"] {
        let got = run(program, &[word.to_string()], &[]);
        if got.out != b"refused 3 at 0\n" || got.status != Some(0) || !got.err.is_empty() {
            differ(program, &[word.to_string()], &[], "refused 3 at 0", &got);
        }
    }
}

/// Inputs of each size in cards, for each program, at 100 percent.
const SIZES: [(usize, usize); 5] = [(1, 4000), (2, 6000), (3, 10000), (4, 20000), (5, 1500)];

fn compare_all(judge: &str, play: &str, seed: u64, percent: usize) {
    for (program, of) in [(judge, For::Judge), (play, For::Play)] {
        if program == "-" {
            continue;
        }
        let start = Instant::now();
        println!("{program}");
        compare_arguments(program);
        let mut r = Random::new(seed + (of == For::Play) as u64);
        let s = &mut Search::default();
        let mut total = 0;
        // How many answers were of each sort.
        let mut sorts = std::collections::BTreeMap::new();
        for (n, count) in SIZES {
            let mut kinds = [0; KINDS.len()];
            for _ in 0..count * percent / 100 {
                let i = deals::input(&mut r, s, n, of);
                let answer = compare_one(s, program, of, &i.bytes, i.room);
                kinds[i.kind] += 1;
                total += 1;
                let words: Vec<&str> = answer.split_whitespace().collect();
                let about = match words.first() {
                    None => "nothing".to_string(),
                    Some(&"refused") => format!("refused {:>2}", words[1]),
                    Some(&"worth") => if words[2] == "not" { "not upheld" } else { "upheld" }.to_string(),
                    _ => "a play".to_string(),
                };
                *sorts.entry(about).or_insert(0) += 1;
            }
            let told: Vec<String> = (0..KINDS.len()).map(|k| format!("{} {}", KINDS[k], kinds[k])).collect();
            println!("  {n} cards in a hand: {}", told.join(", "));
        }
        let told: Vec<String> = sorts.iter().map(|(k, v)| format!("{k}: {v}")).collect();
        println!("  answers: {}", told.join(", "));
        println!("  {total} inputs, no difference, {} s", start.elapsed().as_secs());
    }
}

fn worth_line(answer: &Answer) -> Option<usize> {
    let text = String::from_utf8_lossy(&answer.out);
    text.lines().next()?.strip_prefix("worth ")?.parse().ok()
}

/// Inputs of each size in cards, at 100 percent: for the judge, and for playing on. Those of 4 and 5 show that libdds is
/// asked rightly.
const LARGE: [(usize, usize, usize); 5] = [(4, 200, 0), (5, 100, 0), (6, 300, 100), (7, 200, 60), (8, 100, 30)];

/// The program that asks libdds, as a function from a table to our side's worth.
fn ask_libdds(dds: &str) -> Box<dyn FnMut(&rules::Table) -> usize> {
    let mut peer = Command::new(dds).stdin(Stdio::piped()).stdout(Stdio::piped()).spawn().unwrap_or_else(|e| {
        println!("{dds} cannot be run: {e}");
        exit(2)
    });
    let mut to = peer.stdin.take().unwrap();
    let mut from = BufReader::new(peer.stdout.take().unwrap());
    let mut r = Random::new(1);
    Box::new(move |t| {
        let bytes = deals::bytes(&mut r, t);
        let numbers: Vec<String> = bytes.iter().map(|b| b.to_string()).collect();
        writeln!(to, "{}", numbers.join(" ")).unwrap();
        let mut line = String::new();
        from.read_line(&mut line).unwrap();
        let Ok(theirs) = line.trim().parse::<usize>() else {
            println!("libdds cannot solve {}: {line}", hex(&bytes));
            exit(1)
        };
        // It says what the side to play takes.
        if expect::ours(t.turn()) { theirs } else { t.tricks_left() - theirs }
    })
}

/// Worths of tables of at most 5 cards in a hand, by libdds and by the search of this program.
fn compare_worths(r: &mut Random, libdds: &mut impl FnMut(&rules::Table) -> usize, n: usize, count: usize) {
    for _ in 0..count {
        let t = deals::table_in_trick(r, n);
        if Search::default().worth(&t) != libdds(&t) {
            println!("libdds and the search of this program differ: {}", hex(&deals::bytes(r, &t)));
            exit(1);
        }
    }
    println!("  {n} cards in a hand: libdds has the worths of this program, {count} tables");
}

/// All lines of so many inputs with n cards in a hand.
fn compare_lines(r: &mut Random, s: &mut Search, program: &str, of: For, n: usize, count: usize) {
    let (mut not_upheld, mut total, mut slowest) = (0, 0.0, 0.0f64);
    for i in 0..count {
        // For the judge most are without a row, so that the tables are large.
        let kind = if of == For::Judge && i % 5 > 0 { 0 } else { 1 };
        let input = deals::input_of(r, s, n, of, kind).bytes;
        let before = processor_seconds();
        let answer = compare_one(s, program, of, &input, Some(8));
        let took = processor_seconds() - before;
        total += took;
        slowest = slowest.max(took);
        not_upheld += answer.contains("not upheld") as usize;
    }
    let told = if of == For::Judge { format!(", {not_upheld} of them claims not upheld") } else { String::new() };
    println!("  {n} cards in a hand: {count} inputs{told}, no difference; it took {total:.1} s in all, {slowest:.2} s at most");
}

/// All lines for tables of 6 to 8 cards in a hand, where worths of more than 5 are those of libdds.
fn compare_large(judge: &str, play: &str, dds: &str, seed: u64, percent: usize) {
    let mut r = Random::new(seed);
    let mut libdds = ask_libdds(dds);
    for (n, count, _) in LARGE {
        if n <= 5 {
            compare_worths(&mut r, &mut libdds, n, count * percent / 100);
        }
    }
    let s = &mut Search::default();
    s.large = Some(libdds);
    for (program, of) in [(judge, For::Judge), (play, For::Play)] {
        if program == "-" {
            continue;
        }
        println!("{program} beside libdds");
        for (n, judged, played) in LARGE {
            if n > 5 {
                let count = if of == For::Judge { judged } else { played } * percent / 100;
                compare_lines(&mut r, s, program, of, n, count);
            }
        }
    }
}

/// Inputs of 0 to 64 bytes: all of one value, and then `count` of random ones. Each is answered as expected.
fn limits(judge: &str, play: &str, count: usize, seed: u64) {
    for (program, of) in [(judge, For::Judge), (play, For::Play)] {
        if program == "-" {
            continue;
        }
        let start = Instant::now();
        let s = &mut Search::default();
        let values: Vec<u8> = (0..=255).collect();
        for len in 0..=64 {
            for &value in &values {
                compare_one(s, program, of, &vec![value; len], None);
            }
        }
        println!("  {program}: {} inputs of bytes of one value, no difference", 65 * values.len());
        let mut r = Random::new(seed);
        for _ in 0..count {
            let top = r.of(&[2, 4, 9, 53, 256]);
            let mut input: Vec<u8> = (0..r.below(65)).map(|_| r.below(top) as u8).collect();
            // Half of them get past the first checks.
            if input.len() > 2 && r.once_in(2) {
                input[0] %= 5;
                input[1] %= 4;
                input[2] %= 4;
            }
            let room = if r.once_in(4) { Some(1 + r.below(8)) } else { None };
            compare_one(s, program, of, &input, room);
        }
        println!("  {program}: {count} inputs of random bytes, no difference, {} s", start.elapsed().as_secs());
    }
}

/// Processor seconds of all programs that were run and have ended. (Linux with 64 bits: the first four of the numbers
/// are seconds and millionths in the program and in the system; -1 stands for ended children.)
fn processor_seconds() -> f64 {
    unsafe extern "C" {
        fn getrusage(who: i32, usage: *mut [i64; 18]) -> i32;
    }
    let mut usage = [0i64; 18];
    unsafe { getrusage(-1, &mut usage) };
    (usage[0] + usage[2]) as f64 + (usage[1] + usage[3]) as f64 / 1e6
}

/// The longest that the judge takes for a table of 8 cards, in processor seconds, with the claim for which it does:
/// one trick more than can be had, by the side that is to play, so that there is a reply to find to each card.
fn time_of(judge: &str, t: &rules::Table, bytes: &[u8], guess: u8) -> (f64, Vec<u8>, u8) {
    let side = (t.turn() % 2) as u8;
    let mut claim = guess;
    loop {
        let mut input = bytes.to_vec();
        input.extend([side, claim]);
        let before = processor_seconds();
        let got = run(judge, &["8".to_string()], &input);
        let took = processor_seconds() - before;
        let Some(worth) = worth_line(&got) else { differ(judge, &["8".to_string()], &input, "a worth", &got) };
        let right = if side == 0 { worth as u8 + 1 } else { 8 - worth as u8 + 1 };
        if right == claim || right > 8 {
            return (took, input, claim);
        }
        claim = right;
    }
}

fn table_text(t: &rules::Table) -> String {
    let trump = if t.trump == 4 { "none".to_string() } else { "CDHS"[t.trump as usize..][..1].to_string() };
    let hands: Vec<String> = t
        .hands
        .iter()
        .map(|&h| rules::cards(h).into_iter().map(expect::card_text).collect::<Vec<_>>().join(" "))
        .collect();
    format!("trump {trump}, leader {}, trick -: {}", t.leader, hands.join(" / "))
}

/// Changes the leader, trump, or a card of a table.
fn change(r: &mut Random, t: &mut rules::Table) {
    match r.below(8) {
        0 => t.leader = r.below(4),
        1 => t.trump = r.below(5) as u8,
        2 | 3 => {
            // A card gives way to one that is out of play.
            let p = r.below(4);
            let all = t.hands.iter().fold(0, |a, h| a | h);
            let (held, free) = (rules::cards(t.hands[p]), rules::cards(!all & (1 << 52) - 1));
            let (c, d) = (r.of(&held), r.of(&free));
            t.hands[p] = t.hands[p] & !(1 << c) | 1 << d;
        }
        _ => {
            let (p, q) = (r.below(4), r.below(4));
            let (c, d) = (r.of(&rules::cards(t.hands[p])), r.of(&rules::cards(t.hands[q])));
            if p != q {
                t.hands[p] = t.hands[p] & !(1 << c) | 1 << d;
                t.hands[q] = t.hands[q] & !(1 << d) | 1 << c;
            }
        }
    }
}

/// Random tables for a third of the time, then swaps of two cards, of the leader or of trump that make the slowest slower.
/// With an input to start from, in hex, only swaps.
fn worst(judge: &str, seconds: f64, seed: u64, from: &str) {
    let mut r = Random::new(seed);
    let start = Instant::now();
    let mut slowest = (0.0, deals::table(&mut r, 8), 4);
    if !from.is_empty() {
        let bytes: Vec<u8> = (0..from.len() / 2).map(|i| u8::from_str_radix(&from[2 * i..][..2], 16).unwrap()).collect();
        slowest.1 = rules::read(&bytes, 8, false).unwrap().0;
        let (took, _, claim) = time_of(judge, &slowest.1, &deals::bytes(&mut r, &slowest.1), 4);
        println!("{took:.2} s at the start");
        (slowest.0, slowest.2) = (took, claim);
    }
    let (mut tried, mut climbed) = (0, 0);
    while start.elapsed().as_secs_f64() < seconds {
        let climbing = !from.is_empty() || start.elapsed().as_secs_f64() > seconds / 3.0;
        let mut t = if climbing { slowest.1 } else { deals::table(&mut r, 8) };
        if climbing {
            for _ in 0..1 + r.below(3) {
                change(&mut r, &mut t);
            }
        }
        let bytes = deals::bytes(&mut r, &t);
        let (took, input, claim) = time_of(judge, &t, &bytes, slowest.2);
        tried += 1;
        climbed += climbing as usize;
        if took > slowest.0 {
            slowest = (took, t, claim);
            println!("{took:.2} s  {}  {}, claim {claim}", hex(&input), table_text(&t));
        }
    }
    println!("{tried} tables tried, {climbed} of them by swaps");
}

fn main() {
    let args: Vec<String> = std::env::args().skip(1).collect();
    let arg = |i: usize| args.get(i).map(String::as_str).unwrap_or("");
    let number = |i: usize, without: usize| arg(i).parse().unwrap_or(without);
    let input = || {
        let mut b = Vec::new();
        std::io::stdin().read_to_end(&mut b).unwrap();
        b
    };
    match arg(0) {
        "all" => compare_all(arg(1), arg(2), number(3, 1) as u64, number(4, 100)),
        "large" => compare_large(arg(1), arg(2), arg(3), number(4, 1) as u64, number(5, 100)),
        "limits" => limits(arg(1), arg(2), number(3, 1000), number(4, 1) as u64),
        "worst" => worst(arg(1), number(2, 60) as f64, number(3, 1) as u64, arg(4)),
        "judge" => print!("{}", expect::judge(&mut Search::default(), &input(), number(1, 5))),
        "play" => print!("{}", expect::play(&mut Search::default(), &input(), number(1, 5))),
        "look" => print!("{}", expect::look(&input())),
        _ => {
            eprintln!("usage: compare all|large|limits|worst|judge|play|look ...; see the top of main.rs");
            exit(1)
        }
    }
}
