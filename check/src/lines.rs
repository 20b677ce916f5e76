//! Words, the best lines of a paragraph, and lines set to the width, with their notes.
//!
//! The best way is found forwards: for each place where a line may end, the best way to get there from the start.

use crate::model::Looks;
use crate::wire::Token;
use std::cmp::Ordering;

const STICKS_OUT: u64 = 10_000_000_000;

#[derive(Clone, Copy, Debug, PartialEq, Eq)]
pub struct Placed {
    pub letter: u8,
    pub at: u32,
}

pub type Row = Vec<Placed>;

/// A line of a text, with the lines of its notes.
#[derive(Clone, Debug, PartialEq, Eq)]
pub struct Line {
    pub row: Row,
    pub notes: Vec<Row>,
}

impl Line {
    /// How many rows of a page it takes.
    pub fn height(&self) -> usize {
        1 + self.notes.len()
    }
}

/// What is set of a token.
enum Atom<'a> {
    Letter(u8),
    Space,
    Note(&'a [Token]),
}

fn atom(token: &Token) -> Atom<'_> {
    match token {
        Token::Letter(letter) => Atom::Letter(*letter),
        Token::Space => Atom::Space,
        Token::Note(inside) => Atom::Note(inside),
        other => unreachable!("{other:?} is refused"),
    }
}

/// What is set of a note: all that is in it but notes.
pub fn plain(inside: &[Token]) -> impl Iterator<Item = &Token> {
    inside
        .iter()
        .filter(|token| !matches!(token, Token::Note(_)))
}

/// What stands between two gaps: letters, and notes in any place.
#[derive(Default)]
struct Word<'a> {
    letters: Vec<u8>,
    width: u32,
    notes: Vec<&'a [Token]>,
}

impl Word<'_> {
    fn add(&mut self, letter: u8, looks: &Looks) {
        self.letters.push(letter);
        self.width += looks.wide(letter);
    }

    fn is_nothing(&self) -> bool {
        self.letters.is_empty() && self.notes.is_empty()
    }
}

fn words<'a>(tokens: &'a [Token], looks: &Looks) -> Vec<Word<'a>> {
    let mut words = vec![Word::default()];
    for token in tokens {
        let word = words.last_mut().expect("never empty");
        match atom(token) {
            Atom::Letter(letter) => word.add(letter, looks),
            Atom::Space => words.push(Word::default()),
            Atom::Note(inside) => word.notes.push(inside),
        }
    }
    words.retain(|word| !word.is_nothing());
    words
}

/// A line's own width: its words, with a space between any two.
fn natural(line: &[Word], space: u32) -> u32 {
    let gaps = line.len().saturating_sub(1) as u32;
    line.iter().map(|word| word.width).sum::<u32>() + gaps * space
}

fn cost(natural: u32, across: u32, is_last: bool) -> u64 {
    match across.checked_sub(natural) {
        Some(_) if is_last => 0,
        Some(room) => u64::from(room).pow(2),
        None => STICKS_OUT + u64::from(natural - across),
    }
}

/// A way to break the words up to some place: how many each line has.
#[derive(Clone)]
struct Way {
    cost: u64,
    lines: Vec<u16>,
}

impl Way {
    fn start() -> Way {
        Way {
            cost: 0,
            lines: Vec::new(),
        }
    }
}

/// One line more, behind a way.
#[derive(Clone, Copy)]
struct Step<'a> {
    way: &'a Way,
    count: u16,
    cost: u64,
}

impl Step<'_> {
    fn lines(&self) -> impl Iterator<Item = u16> {
        self.way.lines.iter().copied().chain([self.count])
    }

    /// It costs less, or as much and the first line that is not the same has more words.
    fn beats(&self, other: &Step) -> bool {
        match self.cost.cmp(&other.cost) {
            Ordering::Less => true,
            Ordering::Equal => self.lines().cmp(other.lines()) == Ordering::Greater,
            Ordering::Greater => false,
        }
    }

    fn taken(&self) -> Way {
        Way {
            cost: self.cost,
            lines: self.lines().collect(),
        }
    }
}

/// How many words each line has.
fn best(words: &[Word], space: u32, across: u32) -> Vec<u16> {
    let mut ways = vec![Way::start()];
    for end in 1..=words.len() {
        let is_last = end == words.len();
        let mut best: Option<Step> = None;
        let mut natural = 0;
        for start in (0..end).rev() {
            natural += words[start].width + if start + 1 < end { space } else { 0 };
            let line = cost(natural, across, is_last);
            // with more words a line that sticks out costs only more
            if natural > across && best.is_some_and(|best| best.cost < line) {
                break;
            }
            let step = Step {
                way: &ways[start],
                count: (end - start) as u16,
                cost: ways[start].cost + line,
            };
            if best.is_none_or(|best| step.beats(&best)) {
                best = Some(step);
            }
        }
        let taken = best.expect("a line of one word can always be").taken();
        ways.push(taken);
    }
    ways.pop().map(|way| way.lines).unwrap_or_default()
}

fn set_row(line: &[Word], is_last: bool, looks: &Looks) -> Row {
    let gaps = line.len() as u32 - 1;
    let room = match looks.width.checked_sub(natural(line, looks.space())) {
        Some(room) if !is_last && gaps > 0 => room,
        _ => 0,
    };
    let mut placed = Vec::new();
    let mut at = 0;
    for (gap, word) in (0..).zip(line) {
        for &letter in &word.letters {
            placed.push(Placed { letter, at });
            at += looks.wide(letter);
        }
        if gap < gaps {
            at += looks.space() + room / gaps + u32::from(gap < room % gaps);
        }
    }
    placed
}

/// The lines of a note, set as a paragraph of its own.
fn note(inside: &[Token], looks: &Looks) -> Vec<Row> {
    let tokens: Vec<Token> = plain(inside).cloned().collect();
    let lines = paragraph(&tokens, looks);
    lines.into_iter().map(|line| line.row).collect()
}

fn set_line(line: &[Word], is_last: bool, looks: &Looks) -> Line {
    let notes = line.iter().flat_map(|word| &word.notes);
    Line {
        row: set_row(line, is_last, looks),
        notes: notes.flat_map(|inside| note(inside, looks)).collect(),
    }
}

/// The lines of a paragraph, set.
pub fn paragraph(tokens: &[Token], looks: &Looks) -> Vec<Line> {
    let words = words(tokens, looks);
    let mut rest = words.as_slice();
    best(&words, looks.space(), looks.width)
        .into_iter()
        .map(|count| {
            let (line, behind) = rest.split_at(usize::from(count));
            rest = behind;
            set_line(line, behind.is_empty(), looks)
        })
        .collect()
}

#[cfg(test)]
mod tests {
    use super::*;
    use crate::random::Random;

    /// All ways to break so many words.
    fn all_ways(count: u16) -> Vec<Vec<u16>> {
        if count == 0 {
            return vec![Vec::new()];
        }
        (1..=count)
            .flat_map(|first| {
                all_ways(count - first)
                    .into_iter()
                    .map(move |rest| [vec![first], rest].concat())
            })
            .collect()
    }

    fn cost_of(words: &[Word], space: u32, across: u32, way: &[u16]) -> u64 {
        let mut rest = words;
        way.iter()
            .map(|&count| {
                let (line, behind) = rest.split_at(usize::from(count));
                rest = behind;
                cost(natural(line, space), across, behind.is_empty())
            })
            .sum()
    }

    #[test]
    fn no_way_is_better() {
        let mut random = Random::new(1);
        for _ in 0..3_000 {
            let count = random.up_to(9);
            let most = random.between(1, 8);
            let words: Vec<Word> = (0..count)
                .map(|_| Word {
                    width: random.up_to(most), // 0 where it has notes only
                    ..Word::default()
                })
                .collect();
            let (space, across) = (random.between(1, 4), random.between(1, 20));
            let mut ways = all_ways(count as u16);
            // least cost first, then the longest first lines
            ways.sort_by(|a, b| b.cmp(a));
            ways.sort_by_key(|way| cost_of(&words, space, across, way));
            assert_eq!(best(&words, space, across), ways[0]);
        }
    }
}
