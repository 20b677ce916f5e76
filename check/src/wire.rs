//! Calls and answers, and their forms as bytes.

use crate::lines::{Placed, Row};

#[derive(Clone, Debug, PartialEq, Eq)]
pub enum Token {
    Letter(u8),
    Space,
    Mark(u8),
    PageOf(u8),
    Note(Vec<Token>),
    Command(u8, Vec<Token>),
    Given,
}

#[derive(Clone, Debug, PartialEq, Eq)]
pub enum Call {
    Put { at: u16, tokens: Vec<Token> },
    Cut { at: u16 },
    Define { command: u16, tokens: Vec<Token> },
    Show { page: u32, row: u16, count: u16 },
    WhereIs { name: u16 },
    HowMany,
    PutIn { at: u16, tokens: Vec<Token> },
}

#[derive(Clone, Copy, Debug, PartialEq, Eq)]
pub struct Refusal {
    pub number: u8,
    pub place: u32,
}

#[derive(Clone, Debug, PartialEq, Eq)]
pub enum Answer {
    Done,
    Refused(Refusal),
    Rows(Vec<Row>),
    Numbers(u32, u32),
}

/// What is read, or the place of the first byte that doesn't fit.
type Read<T> = Result<T, usize>;

struct Reader<'a> {
    bytes: &'a [u8],
    at: usize,
}

impl Reader<'_> {
    fn peek(&self) -> Option<u8> {
        self.bytes.get(self.at).copied()
    }

    fn byte(&mut self) -> Read<u8> {
        let byte = self.peek().ok_or(self.at)?;
        self.at += 1;
        Ok(byte)
    }

    fn two(&mut self) -> Read<u16> {
        Ok(u16::from_be_bytes([self.byte()?, self.byte()?]))
    }

    fn four(&mut self) -> Read<u32> {
        Ok(u32::from(self.two()?) << 16 | u32::from(self.two()?))
    }

    fn call(&mut self) -> Read<Call> {
        let start = self.at;
        Ok(match self.byte()? {
            0 => Call::Put {
                at: self.two()?,
                tokens: self.tokens()?,
            },
            1 => Call::Cut { at: self.two()? },
            2 => Call::Define {
                command: self.two()?,
                tokens: self.tokens()?,
            },
            3 => Call::Show {
                page: self.four()?,
                row: self.two()?,
                count: self.two()?,
            },
            4 => Call::WhereIs { name: self.two()? },
            5 => Call::HowMany,
            6 => Call::PutIn {
                at: self.two()?,
                tokens: self.tokens()?,
            },
            _ => return Err(start),
        })
    }

    /// Tokens up to the end of the bytes, or to an end byte, which is left.
    fn tokens(&mut self) -> Read<Vec<Token>> {
        let mut tokens = Vec::new();
        while self.peek().is_some_and(|kind| kind != 7) {
            tokens.push(self.token()?);
        }
        Ok(tokens)
    }

    fn token(&mut self) -> Read<Token> {
        let start = self.at;
        Ok(match self.byte()? {
            0 => Token::Letter(self.byte()?),
            1 => Token::Space,
            2 => Token::Mark(self.byte()?),
            3 => Token::PageOf(self.byte()?),
            4 => Token::Note(self.enclosed()?),
            5 => Token::Command(self.byte()?, self.enclosed()?),
            6 => Token::Given,
            _ => return Err(start),
        })
    }

    fn enclosed(&mut self) -> Read<Vec<Token>> {
        let tokens = self.tokens()?;
        self.byte()?; // the 7 at which they ended
        Ok(tokens)
    }

    fn end(&self) -> Read<()> {
        if self.at < self.bytes.len() {
            return Err(self.at);
        }
        Ok(())
    }
}

impl Call {
    pub fn read(bytes: &[u8]) -> Read<Call> {
        let mut reader = Reader { bytes, at: 0 };
        let call = reader.call()?;
        reader.end()?;
        Ok(call)
    }

    pub fn bytes(&self) -> Vec<u8> {
        match self {
            Call::Put { at, tokens } => with_tokens(0, *at, tokens),
            Call::Cut { at } => numbered(1, *at),
            Call::Define { command, tokens } => with_tokens(2, *command, tokens),
            Call::Show { page, row, count } => {
                let mut bytes = vec![3];
                bytes.extend(page.to_be_bytes());
                bytes.extend(row.to_be_bytes());
                bytes.extend(count.to_be_bytes());
                bytes
            }
            Call::WhereIs { name } => numbered(4, *name),
            Call::HowMany => vec![5],
            Call::PutIn { at, tokens } => with_tokens(6, *at, tokens),
        }
    }
}

fn numbered(kind: u8, number: u16) -> Vec<u8> {
    let [high, low] = number.to_be_bytes();
    vec![kind, high, low]
}

fn with_tokens(kind: u8, number: u16, tokens: &[Token]) -> Vec<u8> {
    let mut bytes = numbered(kind, number);
    write_tokens(tokens, &mut bytes);
    bytes
}

pub fn write_tokens(tokens: &[Token], bytes: &mut Vec<u8>) {
    for token in tokens {
        match token {
            Token::Letter(letter) => bytes.extend([0, *letter]),
            Token::Space => bytes.push(1),
            Token::Mark(name) => bytes.extend([2, *name]),
            Token::PageOf(name) => bytes.extend([3, *name]),
            Token::Note(inner) => {
                bytes.push(4);
                write_tokens(inner, bytes);
                bytes.push(7);
            }
            Token::Command(command, inner) => {
                bytes.extend([5, *command]);
                write_tokens(inner, bytes);
                bytes.push(7);
            }
            Token::Given => bytes.push(6),
        }
    }
}

impl Answer {
    pub fn bytes(&self) -> Vec<u8> {
        match self {
            Answer::Done => vec![0],
            Answer::Refused(refusal) => {
                let mut bytes = vec![1, refusal.number];
                bytes.extend(refusal.place.to_be_bytes());
                bytes
            }
            Answer::Rows(rows) => {
                let count = u8::try_from(rows.len()).expect("at most 8 rows");
                let mut bytes = vec![2, count];
                for row in rows {
                    let count = u16::try_from(row.len()).expect("at most 4,096 letters");
                    bytes.extend(count.to_be_bytes());
                    for placed in row {
                        bytes.push(placed.letter);
                        bytes.extend(placed.at.to_be_bytes());
                    }
                }
                bytes
            }
            Answer::Numbers(first, second) => {
                let mut bytes = vec![3];
                bytes.extend(first.to_be_bytes());
                bytes.extend(second.to_be_bytes());
                bytes
            }
        }
    }

    /// The answer that these bytes are, where they are one.
    pub fn read(bytes: &[u8]) -> Option<Answer> {
        let mut reader = Reader { bytes, at: 0 };
        let answer = reader.answer().ok()?;
        reader.end().ok()?;
        Some(answer)
    }
}

impl Reader<'_> {
    fn answer(&mut self) -> Read<Answer> {
        let start = self.at;
        Ok(match self.byte()? {
            0 => Answer::Done,
            1 => Answer::Refused(Refusal {
                number: self.byte()?,
                place: self.four()?,
            }),
            2 => {
                let count = self.byte()?;
                Answer::Rows((0..count).map(|_| self.row()).collect::<Read<_>>()?)
            }
            3 => Answer::Numbers(self.four()?, self.four()?),
            _ => return Err(start),
        })
    }

    fn row(&mut self) -> Read<Row> {
        let count = self.two()?;
        (0..count)
            .map(|_| {
                Ok(Placed {
                    letter: self.byte()?,
                    at: self.four()?,
                })
            })
            .collect()
    }
}

#[cfg(test)]
mod tests {
    use super::*;

    #[test]
    fn stops_at_the_first_byte_that_does_not_fit() {
        let cases: [(&[u8], usize); 15] = [
            (&[], 0),
            (&[7], 0),
            (&[1, 0], 2),
            (&[5, 5], 1),
            (&[3, 0, 0, 0, 0, 0, 0, 0], 8),
            (&[3, 0, 0, 0, 0, 0, 0, 0, 0, 0], 9),
            (&[0, 0, 0, 0], 4),
            (&[0, 0, 0, 7], 3),
            (&[0, 0, 0, 4, 1], 5),
            (&[0, 0, 0, 4, 8, 7], 4),
            (&[0, 0, 0, 4, 1, 7, 7], 6),
            (&[0, 0, 0, 4, 4, 1, 7], 7),
            (&[0, 0, 0, 4, 0, 7], 6),
            (&[6, 0, 0, 5, 7, 7, 7], 6),
            (&[2, 0, 0, 5], 4),
        ];
        for (bytes, place) in cases {
            assert_eq!(Call::read(bytes), Err(place), "{bytes:?}");
        }
    }

    #[test]
    fn calls_are_read_back() {
        let inner = vec![Token::Given, Token::Mark(3), Token::Note(vec![])];
        let tokens = vec![
            Token::Letter(0),
            Token::Space,
            Token::Command(7, inner),
            Token::PageOf(255),
        ];
        let call = Call::PutIn { at: 258, tokens };
        assert_eq!(Call::read(&call.bytes()), Ok(call));
    }
}
