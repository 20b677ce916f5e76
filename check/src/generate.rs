//! Random books, and random calls on them.

use crate::model::{self, Book, Limits, Looks, Memory};
use crate::random::Random;
use crate::wire::{Call, Token};

/// What a book is opened with.
#[derive(Clone, Copy, Debug)]
pub struct Opening {
    pub limits: Limits,
    pub looks: Looks,
    pub lent: Memory,
    /// How many of the widths are given.
    pub widths: usize,
}

/// What comes to its limit first, if anything.
#[derive(Clone, Copy, PartialEq, Eq)]
enum Kind {
    FewParagraphs,
    FewTokens,
    SmallParagraphs,
    AllSmall,
    Roomy,
    /// As many paragraphs as a book can have, all of them short.
    Crowded,
    /// As many tokens as a book can have, in the largest paragraphs.
    Large,
}

impl Kind {
    fn of(number: u64) -> Kind {
        match number % 25 {
            7 => Kind::Crowded,
            17 => Kind::Large,
            n => match n % 5 {
                0 => Kind::FewParagraphs,
                1 => Kind::FewTokens,
                2 => Kind::SmallParagraphs,
                3 => Kind::AllSmall,
                _ => Kind::Roomy,
            },
        }
    }

    fn limits(self, random: &mut Random) -> Limits {
        let (paragraphs, tokens, bulk) = match self {
            Kind::FewParagraphs => (random.up_to(8), 2_000, 400),
            Kind::FewTokens => (40, random.up_to(400), 300),
            Kind::SmallParagraphs => (30, 3_000, random.up_to(60)),
            Kind::AllSmall => (random.up_to(12), random.up_to(200), random.up_to(60)),
            Kind::Roomy => (
                random.between(50, 4_096),
                random.between(5_000, 20_000),
                random.between(500, 4_096),
            ),
            Kind::Crowded | Kind::Large => (4_096, 65_536, 4_096),
        };
        let definitions = random.pick(&[0, 1, 100, 1_024]);
        Limits {
            paragraphs,
            tokens,
            definitions,
            bulk,
        }
    }

    /// How many paragraphs the book may come to before it shrinks again.
    fn wanted(self) -> u32 {
        match self {
            Kind::Roomy | Kind::Large => 24,
            _ => u32::MAX,
        }
    }

    /// How many tokens a usual paragraph has at most.
    fn longest(self, random: &mut Random) -> u32 {
        match self {
            Kind::Crowded => 4,
            Kind::Large => 4_096,
            Kind::SmallParagraphs => 60,
            _ => random.pick(&[20, 60, 150, 250]),
        }
    }

    /// Of 100 calls, how many ask something.
    fn questions(self) -> u32 {
        match self {
            Kind::Crowded => 10,
            Kind::Large => 4,
            _ => 50,
        }
    }
}

fn widths(random: &mut Random) -> [u8; 95] {
    let most = random.pick(&[2, 6, 20, 63]);
    let few: Vec<u8> = (0..random.between(1, 3))
        .map(|_| random.between(1, most) as u8)
        .collect();
    let any = random.one_in(3);
    std::array::from_fn(|_| match any {
        true => random.between(1, 63) as u8,
        false => random.pick(&few),
    })
}

fn alphabet(random: &mut Random) -> Vec<u8> {
    if random.one_in(4) {
        return (33..=126).collect();
    }
    (0..random.between(1, 4))
        .map(|_| match random.up_to(9) {
            0 => 33,
            1 => 126,
            _ => random.between(33, 126) as u8,
        })
        .collect()
}

fn line_width(random: &mut Random, letter: u32) -> u32 {
    match random.up_to(11) {
        0 => 1,
        1 => 1_000,
        2 | 3 => random.between(1, 30),
        4 => random.between(1, 1_000),
        _ => (letter * random.between(2, 30)).min(1_000),
    }
}

fn page_rows(random: &mut Random) -> u32 {
    match random.up_to(9) {
        0 => 1,
        1 => 255,
        2 => random.between(1, 255),
        3..=6 => random.between(1, 5),
        _ => random.between(1, 20),
    }
}

pub struct Caller {
    random: Random,
    kind: Kind,
    opening: Opening,
    alphabet: Vec<u8>,
    /// How many tokens a usual paragraph has at most, and letters a usual word.
    longest: u32,
    word: u32,
    /// How many notes a usual paragraph has at most.
    notes: u32,
    growing: bool,
    /// How many rows each page had when it was last asked how many there are.
    pages: Vec<u32>,
}

/// How a paragraph is measured: by `model::size` or `model::bulk`.
type Measure = fn(&[Token]) -> u32;

impl Caller {
    /// The same book and the same calls for the same seed and number.
    pub fn new(seed: u64, number: u64) -> Caller {
        let mut random = Random::new(Random::new(seed).next() ^ number);
        let kind = Kind::of(number);
        let limits = kind.limits(&mut random);
        let alphabet = alphabet(&mut random);
        let widths = widths(&mut random);
        let mut looks = Looks {
            widths,
            width: 1,
            rows: page_rows(&mut random),
        };
        let letter = looks.wide(random.pick(&alphabet));
        looks.width = line_width(&mut random, letter);
        let asked = limits.asked().expect("limits in range");
        let lent = Memory {
            tokens: asked.tokens + random.pick(&[0, 0, 1, 9]),
            rest: asked.rest + random.pick(&[0, 0, 1, 9]),
        };
        Caller {
            kind,
            opening: Opening {
                limits,
                looks,
                lent,
                widths: widths.len(),
            },
            alphabet,
            longest: kind.longest(&mut random),
            word: random.pick(&[1, 3, 3, 6, 15]),
            notes: random.pick(&[0, 1, 3, 3, 10]),
            growing: true,
            pages: Vec::new(),
            random,
        }
    }

    pub fn opening(&self) -> Opening {
        self.opening
    }

    /// An opening that may be refused.
    pub fn odd_opening(&mut self) -> Opening {
        let random = &mut self.random;
        let mut odd = self.opening;
        let limits = &mut odd.limits;
        match random.up_to(9) {
            0 => limits.paragraphs = random.pick(&[4_097, 65_536, u32::MAX]),
            1 => limits.tokens = random.pick(&[65_537, u32::MAX]),
            2 => limits.definitions = random.pick(&[1_025, u32::MAX]),
            3 => limits.bulk = random.pick(&[4_097, u32::MAX]),
            4 => odd.looks.width = random.pick(&[0, 1_001, u32::MAX]),
            5 => odd.looks.rows = random.pick(&[0, 256, u32::MAX]),
            6 => odd.looks.widths[random.up_to(94) as usize] = random.pick(&[0, 64, 255]),
            7 => odd.widths = random.up_to(94) as usize,
            _ => {}
        }
        let asked = self.opening.limits.asked().expect("limits in range");
        match random.up_to(3) {
            0 => odd.lent.tokens = asked.tokens.saturating_sub(1),
            1 => odd.lent.rest = asked.rest - 1,
            2 => {
                odd.lent = Memory {
                    tokens: asked.tokens / 2,
                    rest: random.up_to(70) as usize,
                }
            }
            _ => {}
        }
        odd
    }

    /// A call was answered of this book.
    pub fn heard(&mut self, call: &[u8], book: &Book) {
        if call == Call::HowMany.bytes() {
            self.pages = book.rows_of_pages();
        }
    }

    /// The bytes of a call, good or bad.
    pub fn next(&mut self, book: &Book) -> Vec<u8> {
        if self.random.one_in(60) {
            self.growing = !self.growing;
        }
        let mut bytes = self.call(book).bytes();
        if self.random.one_in(12) {
            self.spoil(&mut bytes);
        }
        bytes
    }

    fn call(&mut self, book: &Book) -> Call {
        if self.random.up_to(99) < self.kind.questions() {
            self.question(book)
        } else {
            self.edit(book)
        }
    }

    fn question(&mut self, book: &Book) -> Call {
        match self.random.up_to(19) {
            0 if self.pages.is_empty() => self.show(book.looks().rows),
            1..=13 if !self.pages.is_empty() => self.show(book.looks().rows),
            0..=18 => Call::HowMany,
            _ => Call::WhereIs {
                name: self.random.pick(&[0, 1, 7, 255, 256, 65_535]),
            },
        }
    }

    /// Rows of a page, which has so many where nothing else is known.
    fn show(&mut self, rows: u32) -> Call {
        let pages = self.pages.len() as u32;
        let random = &mut self.random;
        let page = match random.up_to(24) {
            0 => pages,
            1 => pages.saturating_add(1),
            2 => random.pick(&[u32::MAX, u32::MAX - 1, 1 << 31, 65_536]),
            3..=5 => pages.saturating_sub(1),
            _ => random.up_to(pages.saturating_sub(1)),
        };
        let known = self.pages.get(page as usize);
        let rows = known.copied().unwrap_or(rows);
        let row = match random.up_to(19) {
            0 => random.pick(&[rows, rows + 1, 255, 256, 65_535]),
            1..=4 => rows.saturating_sub(random.between(1, 9)),
            5..=9 => random.up_to(rows - 1),
            _ => 0,
        };
        let left = rows.saturating_sub(row).min(8);
        let count = match random.up_to(24) {
            0 => random.pick(&[9, 10, 255, 256, 65_535]),
            1 => 0,
            2 => left + 1,
            3..=13 => left,
            _ => random.up_to(left),
        };
        Call::Show {
            page,
            row: row as u16,
            count: count as u16,
        }
    }

    fn edit(&mut self, book: &Book) -> Call {
        let grows = self.growing && book.paragraphs() < self.kind.wanted();
        let chance = self.random.up_to(99);
        let (new, put_in, cut) = match (self.kind, grows) {
            (Kind::Crowded, _) => (60, 85, 90),
            (_, true) => (30, 55, 65),
            (_, false) => (8, 16, 55),
        };
        let count = book.paragraphs();
        if chance < new {
            Call::Put {
                at: count as u16,
                tokens: self.tokens(book),
            }
        } else if chance < put_in {
            Call::PutIn {
                at: self.paragraph(count + 1),
                tokens: self.tokens(book),
            }
        } else if chance < cut {
            Call::Cut {
                at: self.paragraph(count),
            }
        } else if chance < 97 {
            Call::Put {
                at: self.paragraph(count),
                tokens: self.tokens(book),
            }
        } else {
            Call::Define {
                command: self.random.pick(&[0, 255, 256]),
                tokens: self.tokens(book),
            }
        }
    }

    /// The number of a paragraph: most often one of so many.
    fn paragraph(&mut self, count: u32) -> u16 {
        let random = &mut self.random;
        let at = match random.up_to(24) {
            0 => count,
            1 => count + 1,
            2 => random.pick(&[65_535, 4_095, 4_096, 256]),
            3 => 0,
            _ => random.up_to(count.saturating_sub(1)),
        };
        at as u16
    }

    /// The tokens of a paragraph; seldom one of them can't be done.
    fn tokens(&mut self, book: &Book) -> Vec<Token> {
        let (count, measure) = self.count(book);
        let mut tokens = self.with_notes(count, measure);
        if self.random.one_in(20) {
            let strange = self.strange();
            let inside = self.inside_of_any(&mut tokens);
            let at = self.random.up_to(inside.len() as u32) as usize;
            inside.insert(at, strange);
        }
        tokens
    }

    /// How many tokens, and by what measure: sometimes just as many as fit, or one more.
    fn count(&mut self, book: &Book) -> (u32, Measure) {
        let limits = book.limits();
        let most = 600.max(self.longest);
        let (count, measure): (u32, Measure) = match self.random.up_to(19) {
            0 => (limits.bulk, model::bulk),
            1 => (limits.bulk + 1, model::bulk),
            2 => (limits.tokens - book.tokens(), model::size),
            3 => (limits.tokens - book.tokens() + 1, model::size),
            4 | 5 => (self.random.up_to(3), model::size),
            _ if self.kind == Kind::Large => (self.random.between(3_000, 4_096), model::bulk),
            _ => (self.random.up_to(self.longest), model::size),
        };
        match count <= most + 1 {
            true => (count, measure),
            false => (self.random.up_to(self.longest), measure),
        }
    }

    /// Letters, spaces and notes, so many by this measure.
    fn with_notes(&mut self, count: u32, measure: Measure) -> Vec<Token> {
        let (wanted, most) = match self.random.up_to(19) {
            0 if self.kind == Kind::Large => (self.random.up_to(3_000), 2),
            0 | 1 => (self.random.between(10, 40), count),
            2..=6 => (0, 0),
            _ => (self.random.up_to(self.notes), count),
        };
        let mut notes = Vec::new();
        let mut left = count;
        for _ in 0..wanted {
            let depth = self.random.pick(&[1, 1, 1, 1, 1, 1, 2, 3, 16]);
            let note = [self.note(depth, most.min(left))];
            if let Some(less) = left.checked_sub(measure(&note)) {
                left = less;
                notes.extend(note);
            }
        }
        let mut tokens = self.plain(left);
        let mut at = self.place(&tokens);
        for note in notes {
            if !self.random.one_in(3) {
                at = self.place(&tokens);
            }
            tokens.insert(at, note);
        }
        tokens
    }

    /// Where a note goes: at the start, at the end, between two spaces, or anywhere.
    fn place(&mut self, tokens: &[Token]) -> usize {
        let random = &mut self.random;
        let end = tokens.len();
        let between: Vec<usize> = (1..end)
            .filter(|&at| tokens[at - 1..=at] == [Token::Space, Token::Space])
            .collect();
        match random.up_to(7) {
            0 => 0,
            1 => end,
            2..=4 if !between.is_empty() => random.pick(&between),
            _ => random.up_to(end as u32) as usize,
        }
    }

    /// So many notes in each other, sometimes with one beside another; each has at most so many letters and spaces.
    fn note(&mut self, depth: u32, most: u32) -> Token {
        let count = match self.random.up_to(9) {
            0 | 1 => 0,
            2..=6 => self.random.up_to(most.min(6)),
            7 | 8 => self.random.up_to(most.min(60)),
            _ => self.random.up_to(most),
        };
        let mut tokens = match self.random.one_in(12) {
            true => vec![Token::Space; count as usize],
            false => self.plain(count),
        };
        if depth > 1 {
            let mut inner = vec![self.note(depth - 1, most.min(6))];
            if self.random.one_in(3) {
                inner.push(self.note(1, most.min(6)));
            }
            for note in inner {
                let at = self.place(&tokens);
                tokens.insert(at, note);
            }
        }
        Token::Note(tokens)
    }

    /// These tokens, or what is in one of their notes.
    fn inside_of_any<'a>(&mut self, tokens: &'a mut Vec<Token>) -> &'a mut Vec<Token> {
        let are_notes = |token: &Token| matches!(token, Token::Note(_));
        let notes: Vec<usize> = (0..tokens.len())
            .filter(|&at| are_notes(&tokens[at]))
            .collect();
        if notes.is_empty() || self.random.one_in(3) {
            return tokens;
        }
        match &mut tokens[self.random.pick(&notes)] {
            Token::Note(inside) => inside,
            other => unreachable!("{other:?} is no note"),
        }
    }

    /// So many letters and spaces.
    fn plain(&mut self, count: u32) -> Vec<Token> {
        let count = count as usize;
        let mut tokens = Vec::with_capacity(count + 64);
        while tokens.len() < count {
            let random = &mut self.random;
            let letters = match random.up_to(39) {
                0 => random.up_to(50),
                1..=4 => 0,
                _ => random.between(1, self.word),
            };
            for _ in 0..letters {
                tokens.push(Token::Letter(random.pick(&self.alphabet)));
            }
            let spaces = match random.up_to(11) {
                0 => random.up_to(4),
                _ => 1,
            };
            tokens.extend((0..spaces).map(|_| Token::Space));
        }
        tokens.truncate(count);
        tokens
    }

    /// A token that most often can't be done.
    fn strange(&mut self) -> Token {
        let byte = self.random.byte();
        let few = self.random.up_to(3);
        match self.random.up_to(7) {
            0 => Token::Letter(self.random.pick(&[0, 7, 31, 32, 127, 128, 255])),
            1 => Token::Mark(byte),
            2 => Token::PageOf(byte),
            3 => {
                let depth = self.random.pick(&[15, 16, 17, 17, 18, 40, 300]);
                self.note(depth, few)
            }
            4 => Token::Command(byte, self.plain(few)),
            5 => Token::Given,
            _ => {
                let depth = self.random.pick(&[1, 2, 15, 16, 17, 18, 40, 300]);
                (0..depth).fold(Token::Letter(b'a'), |inner, _| {
                    match self.random.one_in(2) {
                        true => Token::Note(vec![inner]),
                        false => Token::Command(byte, vec![inner, Token::Space]),
                    }
                })
            }
        }
    }

    /// Bytes that most often are no call any more.
    fn spoil(&mut self, bytes: &mut Vec<u8>) {
        let random = &mut self.random;
        let at = random.up_to(bytes.len() as u32 - 1) as usize;
        // what may be the ends of notes
        let ends: Vec<usize> = (3..bytes.len()).filter(|&at| bytes[at] == 7).collect();
        match random.up_to(10) {
            0 | 1 => bytes.truncate(at),
            2 => bytes.push(7),
            3 => bytes.extend((0..random.between(1, 4)).map(|_| random.byte())),
            4 => bytes[at] = random.byte(),
            5 => bytes.insert(at, random.pick(&[0, 1, 4, 5, 7, 8])),
            6 => {
                bytes.remove(at);
            }
            7 => *bytes = (0..random.up_to(12)).map(|_| random.byte()).collect(),
            8 if !ends.is_empty() => {
                bytes.remove(random.pick(&ends));
            }
            9 if !ends.is_empty() => bytes.insert(random.pick(&ends), 7),
            8 | 9 => {
                *bytes = vec![random.pick(&[0, 6]), 0, 0];
                bytes.extend((0..random.up_to(40)).map(|_| random.pick(&[1, 4, 7])));
            }
            _ => {
                *bytes = vec![random.pick(&[0, 2, 6]), 0, random.up_to(2) as u8];
                let most = random.pick(&[7, 7, 8]);
                bytes.extend((0..random.up_to(40)).map(|_| random.up_to(most) as u8));
            }
        }
    }
}
