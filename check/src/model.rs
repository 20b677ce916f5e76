//! The setter by the rules: each question is answered from the text alone, set from nothing.

use crate::lines::{self, Line, Row};
use crate::wire::{Answer, Call, Refusal, Token};

#[derive(Clone, Copy, Debug)]
pub struct Limits {
    pub paragraphs: u32,
    pub tokens: u32,
    pub definitions: u32,
    pub bulk: u32,
}

/// How much memory is lent: bytes for tokens, and numbers of eight bytes for the rest.
#[derive(Clone, Copy, Debug, PartialEq, Eq)]
pub struct Memory {
    pub tokens: usize,
    pub rest: usize,
}

impl Limits {
    fn in_range(&self) -> bool {
        self.paragraphs <= 4_096
            && self.tokens <= 65_536
            && self.definitions <= 1_024
            && self.bulk <= 4_096
    }

    pub fn asked(&self) -> Result<Memory, Refusal> {
        if !self.in_range() {
            return Err(refused(3, 2));
        }
        let counted = self.paragraphs + self.tokens + self.definitions;
        Ok(Memory {
            tokens: 4 * self.tokens as usize,
            rest: (8 * counted + 32 * self.bulk + 4_096) as usize,
        })
    }
}

/// The widths of a space and of the letters 33 to 126; the width of lines; the rows of a page.
#[derive(Clone, Copy, Debug)]
pub struct Looks {
    pub widths: [u8; 95],
    pub width: u32,
    pub rows: u32,
}

impl Looks {
    pub fn wide(&self, letter: u8) -> u32 {
        u32::from(self.widths[usize::from(letter) - 32])
    }

    pub fn space(&self) -> u32 {
        self.wide(b' ')
    }

    fn in_range(&self) -> bool {
        (1..=1_000).contains(&self.width)
            && (1..=255).contains(&self.rows)
            && self.widths.iter().all(|width| (1..=63).contains(width))
    }
}

fn refused(number: u8, place: u32) -> Refusal {
    Refusal { number, place }
}

/// How deep notes may be in each other.
const DEPTH: u32 = 16;

/// Whether the present stage can do all of these, with notes in each other up to so deep.
fn can_do(tokens: &[Token], depth: u32) -> bool {
    tokens.iter().all(|token| match token {
        Token::Letter(33..=126) | Token::Space => true,
        Token::Note(inside) => depth > 0 && can_do(inside, depth - 1),
        _ => false,
    })
}

fn is_good(call: &Call) -> bool {
    match call {
        Call::Put { tokens, .. } | Call::PutIn { tokens, .. } => can_do(tokens, DEPTH),
        Call::Define { .. } => false,
        Call::Show { count, .. } => *count <= 8,
        Call::WhereIs { name } => *name <= 255,
        Call::Cut { .. } | Call::HowMany => true,
    }
}

/// What is refused whatever book there is: by 1 and 2.
fn understood(bytes: &[u8]) -> Result<Call, Refusal> {
    let call = Call::read(bytes).map_err(|place| refused(1, place as u32))?;
    if is_good(&call) {
        Ok(call)
    } else {
        Err(refused(2, 0))
    }
}

/// What a call is answered where memory is no open book.
pub fn answer_unopened(bytes: &[u8]) -> Answer {
    match understood(bytes) {
        Ok(_) => Answer::Refused(refused(3, 2)),
        Err(refusal) => Answer::Refused(refusal),
    }
}

/// The size of tokens: a note has two besides what is in it.
pub fn size(tokens: &[Token]) -> u32 {
    let of_one = |token: &Token| match token {
        Token::Note(inside) => 2 + size(inside),
        _ => 1,
    };
    tokens.iter().map(of_one).sum()
}

/// How much a paragraph is: a note is one besides what is set of it.
pub fn bulk(tokens: &[Token]) -> u32 {
    let of_one = |token: &Token| match token {
        Token::Note(inside) => 1 + lines::plain(inside).count() as u32,
        _ => 1,
    };
    tokens.iter().map(of_one).sum()
}

/// How many of these lines go on a page: as many as fit with their notes, and one in any case.
fn on_a_page(lines: &[Line], rows: u32) -> usize {
    let mut filled = 0;
    let fits = lines.iter().take_while(|line| {
        filled += line.height();
        filled <= rows as usize
    });
    fits.count().max(1)
}

/// The rows of a page: its lines, and then the lines of their notes.
fn rows(page: &[Line]) -> impl Iterator<Item = &Row> {
    let lines = page.iter().map(|line| &line.row);
    lines.chain(page.iter().flat_map(|line| &line.notes))
}

pub struct Book {
    limits: Limits,
    looks: Looks,
    paragraphs: Vec<Vec<Token>>,
}

impl Book {
    pub fn open(limits: Limits, looks: Looks, lent: Memory) -> Result<Book, Refusal> {
        let asked = limits.asked()?;
        if !looks.in_range() {
            return Err(refused(3, 2));
        }
        if lent.tokens < asked.tokens {
            return Err(refused(3, 0));
        }
        if lent.rest < asked.rest {
            return Err(refused(3, 1));
        }
        Ok(Book {
            limits,
            looks,
            paragraphs: Vec::new(),
        })
    }

    pub fn limits(&self) -> &Limits {
        &self.limits
    }

    pub fn looks(&self) -> &Looks {
        &self.looks
    }

    pub fn paragraphs(&self) -> u32 {
        self.paragraphs.len() as u32
    }

    pub fn tokens(&self) -> u32 {
        self.paragraphs.iter().map(|tokens| size(tokens)).sum()
    }

    pub fn answer(&mut self, bytes: &[u8]) -> Answer {
        understood(bytes)
            .and_then(|call| self.perform(call))
            .unwrap_or_else(Answer::Refused)
    }

    fn perform(&mut self, call: Call) -> Result<Answer, Refusal> {
        match call {
            Call::Put { at, tokens } => self.put(at, tokens),
            Call::Cut { at } => self.cut(at),
            Call::Define { .. } => unreachable!("refused by 2"),
            Call::Show { page, row, count } => self.show(page, row, count),
            Call::WhereIs { .. } => Ok(Answer::Numbers(0, 0)), // no text has names yet
            Call::HowMany => Ok(Answer::Numbers(self.pages().len() as u32, 1)),
            Call::PutIn { at, tokens } => self.put_in(at, tokens),
        }
    }

    /// The number of a paragraph that is one of the first `count`.
    fn one_of(at: u16, count: usize) -> Result<usize, Refusal> {
        let k = usize::from(at);
        if k < count {
            Ok(k)
        } else {
            Err(refused(4, at.into()))
        }
    }

    fn put(&mut self, at: u16, tokens: Vec<Token>) -> Result<Answer, Refusal> {
        let k = Self::one_of(at, self.paragraphs.len() + 1)?;
        let mut changed = self.paragraphs.clone();
        match changed.get_mut(k) {
            Some(paragraph) => *paragraph = tokens,
            None => changed.push(tokens),
        }
        self.become_if_fit(changed)
    }

    fn put_in(&mut self, at: u16, tokens: Vec<Token>) -> Result<Answer, Refusal> {
        let k = Self::one_of(at, self.paragraphs.len() + 1)?;
        let mut changed = self.paragraphs.clone();
        changed.insert(k, tokens);
        self.become_if_fit(changed)
    }

    fn cut(&mut self, at: u16) -> Result<Answer, Refusal> {
        let k = Self::one_of(at, self.paragraphs.len())?;
        self.paragraphs.remove(k);
        Ok(Answer::Done)
    }

    fn become_if_fit(&mut self, changed: Vec<Vec<Token>>) -> Result<Answer, Refusal> {
        let sizes = changed.iter().map(|tokens| size(tokens));
        let mut bulks = changed.iter().map(|tokens| bulk(tokens));
        let fits = changed.len() <= self.limits.paragraphs as usize
            && sizes.sum::<u32>() <= self.limits.tokens
            && bulks.all(|bulk| bulk <= self.limits.bulk);
        if !fits {
            return Err(refused(6, 0));
        }
        self.paragraphs = changed;
        Ok(Answer::Done)
    }

    fn show(&self, page: u32, row: u16, count: u16) -> Result<Answer, Refusal> {
        let pages = self.pages();
        let shown = pages.get(page as usize).ok_or(refused(5, page))?;
        let rows: Vec<Row> = rows(shown).cloned().collect();
        let first = usize::from(row);
        let asked = rows
            .get(first..first + usize::from(count))
            .ok_or(refused(5, row.into()))?;
        Ok(Answer::Rows(asked.to_vec()))
    }

    /// The lines of each page.
    fn pages(&self) -> Vec<Vec<Line>> {
        let lines: Vec<Line> = self
            .paragraphs
            .iter()
            .flat_map(|tokens| lines::paragraph(tokens, &self.looks))
            .collect();
        let mut pages = Vec::new();
        let mut rest = lines.into_iter();
        while !rest.as_slice().is_empty() {
            let count = on_a_page(rest.as_slice(), self.looks.rows);
            pages.push(rest.by_ref().take(count).collect());
        }
        pages
    }

    /// How many rows each page has.
    pub fn rows_of_pages(&self) -> Vec<u32> {
        let pages = self.pages();
        pages.iter().map(|page| rows(page).count() as u32).collect()
    }
}

#[cfg(test)]
mod tests {
    use super::*;

    /// A space 4 wide, i and l 3, other letters 6.
    fn easy() -> [u8; 95] {
        std::array::from_fn(|k| match k as u8 + 32 {
            b' ' => 4,
            b'i' | b'l' => 3,
            _ => 6,
        })
    }

    /// A text with its notes in braces.
    fn typed(text: &str) -> Vec<Token> {
        let mut open = vec![Vec::new()];
        for byte in text.bytes() {
            let token = match byte {
                b'{' => {
                    open.push(Vec::new());
                    continue;
                }
                b'}' => Token::Note(open.pop().unwrap()),
                b' ' => Token::Space,
                letter => Token::Letter(letter),
            };
            open.last_mut().unwrap().push(token);
        }
        open.pop().unwrap()
    }

    fn put(at: u16, text: &str) -> Vec<u8> {
        let tokens = typed(text);
        Call::Put { at, tokens }.bytes()
    }

    fn opened(tokens: u32, bulk: u32, width: u32, rows: u32) -> Book {
        let limits = Limits {
            paragraphs: 4,
            tokens,
            definitions: 0,
            bulk,
        };
        let looks = Looks {
            widths: easy(),
            width,
            rows,
        };
        Book::open(limits, looks, limits.asked().unwrap()).unwrap()
    }

    fn with(paragraphs: &[&str], width: u32, rows: u32) -> Book {
        let mut book = opened(100, 100, width, rows);
        for (at, text) in (0..).zip(paragraphs) {
            assert_eq!(book.answer(&put(at, text)), Answer::Done);
        }
        book
    }

    /// A row as it is told, and `-` where it has no letters.
    fn told(row: &Row) -> String {
        if row.is_empty() {
            return "-".into();
        }
        let letters = row.iter();
        let letters = letters.map(|placed| format!("{} {}", placed.letter as char, placed.at));
        letters.collect::<Vec<_>>().join(" ")
    }

    fn all_told(rows: &[&Row]) -> String {
        let rows = rows.iter().map(|row| told(row));
        rows.collect::<Vec<_>>().join("; ")
    }

    /// The pages of a text, with `;` between rows, `|` before what is at the foot, and `/` between pages.
    fn pages(paragraphs: &[&str], width: u32, rows: u32) -> String {
        let page = |page: &Vec<Line>| {
            let rows: Vec<&Row> = super::rows(page).collect();
            match rows.split_at(page.len()) {
                (lines, []) => all_told(lines),
                (lines, notes) => format!("{} | {}", all_told(lines), all_told(notes)),
            }
        };
        let pages = with(paragraphs, width, rows).pages();
        pages.iter().map(page).collect::<Vec<_>>().join(" / ")
    }

    #[test]
    fn texts_with_their_pages() {
        assert_eq!(pages(&[], 30, 3), "");
        assert_eq!(pages(&["", "   "], 30, 3), "");
        assert_eq!(pages(&["ab cd ef"], 30, 3), "a 0 b 6 c 18 d 24; e 0 f 6");
        assert_eq!(
            pages(&["a b c d e f g h i j"], 32, 2),
            "a 0 b 13 c 26; d 0 e 13 f 26 / g 0 h 15 i 29; j 0"
        );
        assert_eq!(
            pages(&["abcdef a"], 10, 2),
            "a 0 b 6 c 12 d 18 e 24 f 30; a 0"
        );
        assert_eq!(
            pages(&["ab cd ef", "gh ij kl"], 30, 3),
            "a 0 b 6 c 18 d 24; e 0 f 6; g 0 h 6 i 21 j 24 / k 0 l 6"
        );
        assert_eq!(
            pages(&["the sun is up and birds sing"], 60, 3),
            "t 0 h 6 e 12 s 42 u 48 n 54; i 0 s 3 u 20 p 26 a 42 n 48 d 54; \
             b 0 i 6 r 9 d 15 s 21 s 31 i 37 n 40 g 46"
        );
    }

    #[test]
    fn notes_are_at_the_foot() {
        assert_eq!(pages(&["a{x y} b c"], 40, 2), "a 0 b 10 c 20 | x 0 y 10");
        // in a word; and set on two lines
        assert_eq!(
            pages(&["g{ab cd ef}h"], 30, 3),
            "g 0 h 6 | a 0 b 6 c 18 d 24; e 0 f 6"
        );
        // the best lines, as of a text, with the last not stretched
        assert_eq!(
            pages(&["{a  b c d e f g h i  j }"], 32, 9),
            "- | a 0 b 13 c 26; d 0 e 13 f 26; g 0 h 15 i 29; j 0"
        );
        // wider than the lines
        assert_eq!(pages(&["a{abc a}"], 10, 9), "a 0 | a 0 b 6 c 12; a 0");
    }

    #[test]
    fn notes_in_their_order() {
        assert_eq!(
            pages(&["a{x}{y}b{z} c{u}"], 40, 9),
            "a 0 b 6 c 16 | x 0; y 0; z 0; u 0"
        );
        assert_eq!(
            pages(&["a{x} b", "c{y}{z z}"], 40, 9),
            "a 0 b 10; c 0 | x 0; y 0; z 0 z 10"
        );
    }

    #[test]
    fn notes_where_no_word_is() {
        // at the start and at the end, right at a word and not
        assert_eq!(pages(&["{x}a b"], 40, 9), "a 0 b 10 | x 0");
        assert_eq!(pages(&["{x} a b"], 40, 9), "a 4 b 14 | x 0");
        assert_eq!(pages(&["a b{x}"], 40, 9), "a 0 b 10 | x 0");
        assert_eq!(pages(&["a b {x}"], 40, 9), "a 0 b 10 | x 0");
        assert_eq!(pages(&["  {x}  "], 40, 9), "- | x 0");
        // between two spaces: a word 0 wide, so that b comes 4 later
        assert_eq!(pages(&["a {x} b"], 40, 9), "a 0 b 14 | x 0");
        assert_eq!(pages(&["a {x}{y} b"], 40, 9), "a 0 b 14 | x 0; y 0");
        assert_eq!(pages(&["a {x} {y} b"], 40, 9), "a 0 b 18 | x 0; y 0");
        // its gaps are stretched as any: 5 more each
        assert_eq!(
            pages(&["a {x} b ccc"], 30, 3),
            "a 0 b 24; c 0 c 6 c 12 | x 0"
        );
        assert_eq!(
            pages(&["a {x} b ccc"], 30, 2),
            "a 0 b 24 | x 0 / c 0 c 6 c 12"
        );
        // a line without letters, since there is no room for a space more
        assert_eq!(pages(&["ab {x}"], 12, 3), "a 0 b 6; - | x 0");
        assert_eq!(pages(&["ab {x}"], 12, 2), "a 0 b 6 / - | x 0");
        assert_eq!(pages(&["ab {x}"], 16, 2), "a 0 b 6 | x 0");
    }

    #[test]
    fn notes_without_words() {
        assert_eq!(pages(&["a{}", "b"], 40, 2), "a 0; b 0");
        assert_eq!(pages(&["a {} b{  }"], 40, 1), "a 0 b 14");
        assert_eq!(pages(&["{}", " {} "], 40, 1), "- / -");
    }

    #[test]
    fn notes_in_notes() {
        assert_eq!(pages(&["a{x{y}z}b"], 40, 2), "a 0 b 6 | x 0 z 6");
        assert_eq!(pages(&["a{x {y} z}"], 40, 2), "a 0 | x 0 z 10");
        assert_eq!(pages(&["a{{x}}", "b"], 40, 2), "a 0; b 0");
        assert_eq!(pages(&["{ {x} }"], 40, 1), "-");
    }

    #[test]
    fn notes_move_their_line() {
        assert_eq!(pages(&["a", "b{x}"], 40, 3), "a 0; b 0 | x 0");
        assert_eq!(pages(&["a", "b{x}", "c"], 40, 2), "a 0 / b 0 | x 0 / c 0");
        assert_eq!(
            pages(&["a{x}", "b", "c{y z}", "d"], 10, 4),
            "a 0; b 0 | x 0 / c 0; d 0 | y 0; z 0"
        );
        // more than a page has
        assert_eq!(
            pages(&["a", "b{x}{y}{z}", "c"], 40, 2),
            "a 0 / b 0 | x 0; y 0; z 0 / c 0"
        );
        assert_eq!(
            pages(&["a{x}{y}{z}", "b{u}"], 40, 3),
            "a 0 | x 0; y 0; z 0 / b 0 | u 0"
        );
        assert_eq!(
            pages(&["a{x}{y}{z}", "b"], 40, 4),
            "a 0 | x 0; y 0; z 0 / b 0"
        );
    }

    #[test]
    fn rows_with_notes_are_shown() {
        let mut book = with(&["a", "b{x}{y y}{z}", "c"], 40, 2);
        assert_eq!(book.rows_of_pages(), [1, 4, 1]);
        assert_eq!(book.answer(&[5]), Answer::Numbers(3, 1));
        assert_eq!(book.answer(&[4, 0, 9]), Answer::Numbers(0, 0));
        let mut show =
            |page, row, count| match book.answer(&Call::Show { page, row, count }.bytes()) {
                Answer::Rows(rows) => all_told(&rows.iter().collect::<Vec<_>>()),
                answer => format!("{answer:?}"),
            };
        let refused_at = |place| format!("{:?}", Answer::Refused(refused(5, place)));
        assert_eq!(show(1, 0, 4), "b 0; x 0; y 0 y 10; z 0");
        assert_eq!(show(1, 2, 2), "y 0 y 10; z 0");
        assert_eq!(show(1, 4, 0), "");
        assert_eq!(show(1, 2, 3), refused_at(2));
        assert_eq!(show(1, 5, 0), refused_at(5));
        assert_eq!(show(0, 1, 1), refused_at(1));
        assert_eq!(show(3, 0, 0), refused_at(3));
    }

    #[test]
    fn notes_count_against_the_limits() {
        // two of size besides what is in it; one of bulk besides its letters and spaces
        let counted = |text| (size(&typed(text)), bulk(&typed(text)));
        assert_eq!(counted("a {}"), (4, 3));
        assert_eq!(counted("a{x y}"), (6, 5));
        assert_eq!(counted("{x{y{z}}{u v}}"), (14, 2));

        let fits = |tokens, bulk, text| {
            let answer = opened(tokens, bulk, 40, 9).answer(&put(0, text));
            assert!(answer == Answer::Done || answer == Answer::Refused(refused(6, 0)));
            answer == Answer::Done
        };
        assert!(fits(6, 5, "a{x y}"));
        assert!(!fits(5, 5, "a{x y}"));
        assert!(!fits(6, 4, "a{x y}"));
        assert!(fits(14, 2, "{x{y{z}}{u v}}"));
        assert!(!fits(13, 2, "{x{y{z}}{u v}}"));
        assert!(!fits(14, 1, "{x{y{z}}{u v}}"));
    }

    #[test]
    fn what_can_not_be_done_is_refused_in_notes_too() {
        let answer = |token| {
            let tokens = vec![Token::Letter(b'a'), Token::Note(vec![token])];
            opened(100, 100, 40, 9).answer(&Call::PutIn { at: 0, tokens }.bytes())
        };
        let nested = |depth| (1..depth).fold(Token::Space, |inside, _| Token::Note(vec![inside]));
        assert_eq!(answer(Token::Letter(126)), Answer::Done);
        assert_eq!(answer(nested(16)), Answer::Done);
        let others = [
            nested(17),
            Token::Note(vec![Token::Letter(32)]),
            Token::Letter(127),
            Token::Mark(1),
            Token::PageOf(1),
            Token::Command(1, vec![]),
            Token::Given,
        ];
        for token in others {
            assert_eq!(answer(token), Answer::Refused(refused(2, 0)));
        }
    }
}
