//! The plain counter of this project: a count written by hand in Rust, with std alone, to measure against.
//!
//!     plain [--like] count --poll F --ballots F [--desks K] [--casting NAME]
//!
//! It takes valid polls with the six keys in TOML's plainest form, and prints the same sheet as
//! debvote. Without `--like` it keeps no more than a count needs: each voter's last ballot in one
//! box behind a Mutex; the votes are counted once at the end. With `--like` it does the bookkeeping
//! that debvote does: a matrix kept by differences, a list of steps, a sheet of slips for each
//! desk, and an audit that reads every line once more. Nothing of it is proved.

use std::collections::HashMap;
use std::fmt::Write as _;
use std::io::Write as _;
use std::process::exit;
use std::sync::atomic::{AtomicUsize, Ordering};
use std::sync::Mutex;

const MOST: usize = 32;

// ------------------------------------------------------------------------ poll

enum Value {
    Text(String),
    Whole(u64),
    List(Vec<Value>),
}

/// Reads `key = value` lines with texts, whole numbers and lists of them.
struct Toml<'a> {
    bytes: &'a [u8],
    at: usize,
}

impl Toml<'_> {
    fn peek(&self) -> u8 {
        self.bytes.get(self.at).copied().unwrap_or(0)
    }

    /// Skips spaces, line ends and comments.
    fn gap(&mut self) {
        loop {
            match self.peek() {
                b' ' | b'\t' | b'\n' | b'\r' => self.at += 1,
                b'#' => {
                    while self.at < self.bytes.len() && self.peek() != b'\n' {
                        self.at += 1;
                    }
                }
                _ => return,
            }
        }
    }

    fn word(&mut self) -> String {
        let start = self.at;
        while self.peek().is_ascii_alphanumeric() || self.peek() == b'_' {
            self.at += 1;
        }
        String::from_utf8_lossy(&self.bytes[start..self.at]).into_owned()
    }

    fn value(&mut self) -> Value {
        match self.peek() {
            quote @ (b'"' | b'\'') => {
                self.at += 1;
                let mut text = Vec::new();
                while self.at < self.bytes.len() && self.peek() != quote {
                    if self.peek() == b'\\' && quote == b'"' {
                        self.at += 1;
                    }
                    text.push(self.peek());
                    self.at += 1;
                }
                self.at += 1;
                Value::Text(String::from_utf8(text).unwrap_or_else(|_| refuse()))
            }
            b'[' => {
                self.at += 1;
                let mut list = Vec::new();
                loop {
                    self.gap();
                    if self.peek() == b']' {
                        self.at += 1;
                        return Value::List(list);
                    }
                    list.push(self.value());
                    self.gap();
                    if self.peek() == b',' {
                        self.at += 1;
                    }
                }
            }
            _ => Value::Whole(self.word().parse().unwrap_or_else(|_| refuse())),
        }
    }
}

fn refuse() -> ! {
    eprintln!("plain: poll refused");
    exit(3)
}

struct Poll {
    title: String,
    options: Vec<String>, // the default last
    ratios: Vec<u64>,
    quorum: u64,
    roll: HashMap<Vec<u8>, u32>,
}

impl Poll {
    fn read(bytes: &[u8]) -> Poll {
        let mut toml = Toml { bytes, at: 0 };
        let mut table = HashMap::new();
        loop {
            toml.gap();
            if toml.at >= bytes.len() {
                break;
            }
            let key = toml.word();
            toml.gap();
            toml.at += 1; // `=`
            toml.gap();
            let value = toml.value();
            table.insert(key, value);
        }
        let mut take = |key: &str| table.remove(key).unwrap_or_else(|| refuse());
        let mut options = texts(take("options"));
        options.push(text(take("default")));
        let roll = texts(take("roll"));
        Poll {
            title: text(take("title")),
            ratios: list(take("ratios")).into_iter().map(whole).collect(),
            quorum: whole(take("quorum")),
            roll: roll.into_iter().enumerate().map(|(i, v)| (v.into_bytes(), i as u32)).collect(),
            options,
        }
    }

    fn n(&self) -> usize {
        self.options.len()
    }

    fn meets_quorum(&self, votes: u64) -> bool {
        4 * votes * votes >= self.quorum * self.quorum * self.roll.len() as u64
    }
}

fn text(v: Value) -> String {
    match v {
        Value::Text(t) => t,
        _ => refuse(),
    }
}

fn whole(v: Value) -> u64 {
    match v {
        Value::Whole(w) => w,
        _ => refuse(),
    }
}

fn list(v: Value) -> Vec<Value> {
    match v {
        Value::List(l) => l,
        _ => refuse(),
    }
}

fn texts(v: Value) -> Vec<String> {
    list(v).into_iter().map(text).collect()
}

// --------------------------------------------------------------------- ballots

/// Ranks of 1 to 99; an unranked option has 255.
type Ranks = [u8; MOST];
const UNRANKED: u8 = 255;

#[derive(Clone, Copy, PartialEq)]
enum Reading {
    Ballot { voter: u32, ranks: Ranks },
    Bad,
}

fn read_line(poll: &Poll, line: &[u8]) -> Reading {
    parse_line(poll, line).unwrap_or(Reading::Bad)
}

fn parse_line(poll: &Poll, line: &[u8]) -> Option<Reading> {
    if line.len() > 200 {
        return None;
    }
    let space = line.iter().position(|&b| b == b' ')?;
    let mut ranks = [UNRANKED; MOST];
    let mut number = 0;
    for rank in line[space + 1..].split(|&b| b == b',') {
        if number == poll.n() {
            return None;
        }
        ranks[number] = match *rank {
            [b'-'] => UNRANKED,
            [a @ b'1'..=b'9'] => a - b'0',
            [a @ b'1'..=b'9', b @ b'0'..=b'9'] => (a - b'0') * 10 + (b - b'0'),
            _ => return None,
        };
        number += 1;
    }
    if number != poll.n() {
        return None;
    }
    let voter = *poll.roll.get(&line[..space])?;
    Some(Reading::Ballot { voter, ranks })
}

#[derive(Clone)]
struct Matrix([[u32; MOST]; MOST]);

impl Matrix {
    fn change(&mut self, n: usize, ranks: &Ranks, by: u32) {
        for a in 0..n {
            for b in 0..n {
                self.0[a][b] = self.0[a][b].wrapping_add(by * u32::from(ranks[a] < ranks[b]));
            }
        }
    }

    fn add(&mut self, n: usize, ranks: &Ranks) {
        self.change(n, ranks, 1);
    }

    fn take_out(&mut self, n: usize, ranks: &Ranks) {
        self.change(n, ranks, 1u32.wrapping_neg());
    }
}

// ------------------------------------------------------------------------- box

#[derive(Clone, Copy, PartialEq)]
enum Reply {
    Bad,
    Superseded,
    Replaced,
    Counted,
}

struct Step {
    desk: u8,
    stamp: u32,
    reading: Reading,
    reply: Reply,
}

#[derive(Clone, Copy, PartialEq)]
struct Slip {
    number: u32,
    stamp: u32,
    reply: Reply,
}

struct Box_ {
    like: bool,
    n: usize,
    standing: Vec<(u32, Ranks)>, // stamp 0: none
    valid: usize,
    matrix: Matrix,   // with --like, kept by differences
    steps: Vec<Step>, // with --like
}

impl Box_ {
    fn cast(&mut self, desk: u8, stamp: u32, reading: Reading) -> Slip {
        let reply = match reading {
            Reading::Bad => Reply::Bad,
            Reading::Ballot { voter, ranks } => {
                self.valid += 1;
                let place = &mut self.standing[voter as usize];
                if place.0 > stamp {
                    Reply::Superseded
                } else {
                    let reply = if place.0 == 0 { Reply::Counted } else { Reply::Replaced };
                    if self.like {
                        if place.0 != 0 {
                            self.matrix.take_out(self.n, &place.1);
                        }
                        self.matrix.add(self.n, &ranks);
                    }
                    *place = (stamp, ranks);
                    reply
                }
            }
        };
        if self.like {
            self.steps.push(Step { desk, stamp, reading, reply });
        }
        Slip { number: self.steps.len() as u32, stamp, reply }
    }
}

fn take_votes(poll: &Poll, lines: &[&[u8]], desks: u8, like: bool) -> Box_ {
    let room = if like { lines.len() } else { 0 };
    let shared = Mutex::new(Box_ {
        like,
        n: poll.n(),
        standing: vec![(0, [UNRANKED; MOST]); poll.roll.len()],
        valid: 0,
        matrix: Matrix([[0; MOST]; MOST]),
        steps: Vec::with_capacity(room),
    });
    let next = AtomicUsize::new(0);
    let work = |desk: u8| {
        let mut slips = Vec::with_capacity(room);
        loop {
            let place = next.fetch_add(1, Ordering::Relaxed);
            let Some(line) = lines.get(place) else { return slips };
            let reading = read_line(poll, line);
            let slip = shared.lock().unwrap().cast(desk, place as u32 + 1, reading);
            if like {
                slips.push(slip);
            }
        }
    };
    let work = &work;
    let sheets: Vec<Vec<Slip>> = std::thread::scope(|scope| {
        let workers: Vec<_> = (1..=desks).map(|d| scope.spawn(move || work(d))).collect();
        workers.into_iter().map(|w| w.join().unwrap()).collect()
    });
    let ballot_box = shared.into_inner().unwrap();
    if like && !audit(poll, lines, &ballot_box, &sheets) {
        eprintln!("plain: audit failed");
        exit(6);
    }
    ballot_box
}

/// Each cast's reading is that of its line, and each sheet is its desk's casts in order.
fn audit(poll: &Poll, lines: &[&[u8]], ballot_box: &Box_, sheets: &[Vec<Slip>]) -> bool {
    let mut slips: Vec<_> = sheets.iter().map(|s| s.iter()).collect();
    ballot_box.steps.len() == lines.len()
        && ballot_box.steps.iter().enumerate().all(|(i, step)| {
            let slip = Slip { number: i as u32 + 1, stamp: step.stamp, reply: step.reply };
            read_line(poll, lines[step.stamp as usize - 1]) == step.reading
                && slips[step.desk as usize - 1].next() == Some(&slip)
        })
        && slips.iter_mut().all(|s| s.next().is_none())
}

// -------------------------------------------------------------------- counting

/// Sets of options, and rows of defeats, are bits; bit o-1 is option o.
type Set = u32;

fn members(set: Set) -> impl Iterator<Item = usize> {
    (0..MOST).filter(move |&o| set >> o & 1 == 1)
}

fn reach(n: usize, defeats: &[Set; MOST]) -> [Set; MOST] {
    let mut rows = *defeats;
    for b in 0..n {
        for a in 0..n {
            if rows[a] >> b & 1 == 1 {
                rows[a] |= rows[b];
            }
        }
    }
    rows
}

fn schwartz(n: usize, kept: Set, chains: &[Set; MOST]) -> Set {
    members(kept)
        .filter(|&a| (0..n).all(|b| chains[a] >> b & 1 == 1 || chains[b] >> a & 1 == 0))
        .fold(0, |set, a| set | 1 << a)
}

fn numbers(set: Set) -> String {
    let words: Vec<String> = members(set).map(|o| (o + 1).to_string()).collect();
    words.join(" ")
}

fn sheet(poll: &Poll, lines: usize, ballot_box: &Box_, casting: Option<usize>) -> (String, i32) {
    let n = poll.n();
    let d = n - 1;
    let mut matrix = Matrix([[0; MOST]; MOST]);
    if ballot_box.like {
        matrix = ballot_box.matrix.clone();
    } else {
        for (stamp, ranks) in &ballot_box.standing {
            if *stamp != 0 {
                matrix.add(n, ranks);
            }
        }
    }
    let v = &matrix.0;
    let voters = ballot_box.standing.iter().filter(|s| s.0 != 0).count();
    let quorum_votes = (0u64..).find(|&x| poll.meets_quorum(x)).unwrap();

    let mut out = String::new();
    let o = &mut out;
    let _ = writeln!(o, "Poll: {}", poll.title);
    let _ = writeln!(o, "Electors: {}", poll.roll.len());
    let _ = writeln!(o, "Quorum: {}Q, {} votes", poll.quorum, quorum_votes);
    let _ = writeln!(o, "Lines: {lines}");
    let _ = writeln!(o, "Valid: {}", ballot_box.valid);
    let _ = writeln!(o, "Refused: {}", lines - ballot_box.valid);
    let _ = writeln!(o, "Voters: {voters}");
    let _ = writeln!(o, "Options:");
    for a in 0..d {
        let _ = writeln!(o, "{:3} ratio {} {}", a + 1, poll.ratios[a], poll.options[a]);
    }
    let _ = writeln!(o, "{n:3} default {}", poll.options[d]);

    let _ = write!(o, "Votes:\n   ");
    for b in 0..n {
        let _ = write!(o, "{:6}", b + 1);
    }
    let _ = writeln!(o);
    for a in 0..n {
        let _ = write!(o, "{:3}", a + 1);
        for b in 0..n {
            let _ = if a == b { write!(o, "     -") } else { write!(o, "{:6}", v[a][b]) };
        }
        let _ = writeln!(o);
    }

    let mut kept: Set = 1 << d;
    let _ = writeln!(o, "Dropped:");
    for a in 0..d {
        let (for_a, against) = (u64::from(v[a][d]), u64::from(v[d][a]));
        if !poll.meets_quorum(for_a) {
            let _ = writeln!(o, "{:3} quorum", a + 1);
        } else if for_a < poll.ratios[a] * against || for_a <= against {
            let _ = writeln!(o, "{:3} majority", a + 1);
        } else {
            kept |= 1 << a;
        }
    }
    if kept.count_ones() as usize == n {
        let _ = writeln!(o, "  none");
    }

    let mut defeats = [0; MOST];
    let _ = writeln!(o, "Defeats:");
    for a in members(kept) {
        for b in members(kept) {
            if v[a][b] > v[b][a] {
                defeats[a] |= 1 << b;
                let _ = writeln!(o, "{:3} over {} by {} to {}", a + 1, b + 1, v[a][b], v[b][a]);
            }
        }
    }
    if defeats == [0; MOST] {
        let _ = writeln!(o, "  none");
    }

    let mut round = 1;
    let last = loop {
        let set = schwartz(n, kept, &reach(n, &defeats));
        let _ = writeln!(o, "Round {round}: {}", numbers(set));
        let inside = |a: usize| members(set & defeats[a]).map(move |b| (a, b));
        let strength = |(a, b): (usize, usize)| (v[a][b], std::cmp::Reverse(v[b][a]));
        let Some(least) = members(set).flat_map(inside).map(strength).min() else { break set };
        let weakest: Vec<_> =
            members(set).flat_map(inside).filter(|&p| strength(p) == least).collect();
        for (a, b) in weakest {
            let _ = writeln!(o, "  drop {} over {}", a + 1, b + 1);
            defeats[a] &= !(1 << b);
        }
        round += 1;
    };

    let status = if last.count_ones() == 1 {
        let w = last.trailing_zeros() as usize;
        let _ = writeln!(o, "Winner: {} {}", w + 1, poll.options[w]);
        0
    } else {
        match casting {
            Some(c) if last >> c & 1 == 1 => {
                let _ = writeln!(o, "Winner: {} {} by casting vote", c + 1, poll.options[c]);
                0
            }
            Some(c) => {
                let _ = writeln!(
                    o,
                    "Tie: {}, casting option {} is not among them",
                    numbers(last),
                    c + 1
                );
                8
            }
            None => {
                let _ = writeln!(o, "Tie: {}", numbers(last));
                1
            }
        }
    };
    (out, status)
}

// ------------------------------------------------------------------------ main

fn main() {
    let words: Vec<String> = std::env::args().skip(1).collect();
    let mut options: HashMap<&str, &str> = HashMap::new();
    let mut rest = words.iter().filter(|&word| word != "count");
    while let Some(word) = rest.next() {
        if word == "--like" {
            options.insert("--like", "");
        } else if let Some((key, value)) = word.split_once('=') {
            options.insert(key, value);
        } else if let Some(value) = rest.next() {
            options.insert(word, value);
        }
    }
    let file = |key: &str| match options.get(key).map(std::fs::read) {
        Some(Ok(bytes)) => bytes,
        _ => {
            eprintln!("plain: {key} unreadable");
            exit(2)
        }
    };
    let poll = Poll::read(&file("--poll"));
    let ballots = file("--ballots");
    let desks: u8 = options.get("--desks").map_or(1, |k| k.parse().unwrap());
    let casting = options.get("--casting").map(|name| {
        poll.options.iter().position(|o| o == name).unwrap_or_else(|| {
            eprintln!("plain: casting option is not in the poll");
            exit(8)
        })
    });

    let mut lines: Vec<&[u8]> = ballots.split(|&b| b == b'\n').collect();
    if lines.last() == Some(&&b""[..]) {
        lines.pop();
    }
    if lines.len() > 100_000 {
        eprintln!("plain: ballots refused: too many lines");
        exit(4)
    }
    let like = options.contains_key("--like");
    let ballot_box = take_votes(&poll, &lines, desks, like);
    let (text, status) = sheet(&poll, lines.len(), &ballot_box, casting);
    std::io::stdout().write_all(text.as_bytes()).unwrap();
    exit(status)
}
