//! Calls and answers in words, as files of calls have them.

use crate::lines::Row;
use crate::wire::{Answer, Call, Token};

pub fn hex(bytes: &[u8]) -> String {
    let digits: Vec<String> = bytes.iter().map(|byte| format!("{byte:02x}")).collect();
    digits.join(" ")
}

fn token(token: &Token) -> String {
    match token {
        Token::Letter(letter @ (b'\\' | b'{' | b'}')) => format!("\\{}", *letter as char),
        Token::Letter(letter @ 33..=126) => (*letter as char).into(),
        Token::Letter(letter) => format!("<{letter}>"),
        Token::Space => " ".into(),
        Token::Mark(name) => format!("\\m{name};"),
        Token::PageOf(name) => format!("\\p{name};"),
        Token::Note(inner) => format!("\\note{{{}}}", tokens(inner)),
        Token::Command(command, inner) => format!("\\{command}{{{}}}", tokens(inner)),
        Token::Given => "\\given".into(),
    }
}

fn tokens(tokens: &[Token]) -> String {
    tokens.iter().map(token).collect()
}

pub fn call(bytes: &[u8]) -> String {
    match Call::read(bytes) {
        Ok(Call::Put { at, tokens: ts }) => format!("put {at} {}", tokens(&ts)),
        Ok(Call::Cut { at }) => format!("cut {at}"),
        Ok(Call::Define {
            command,
            tokens: ts,
        }) => format!("define {command} {}", tokens(&ts)),
        Ok(Call::Show { page, row, count }) => format!("show {page} {row} {count}"),
        Ok(Call::WhereIs { name }) => format!("where is {name}"),
        Ok(Call::HowMany) => "how many".into(),
        Ok(Call::PutIn { at, tokens: ts }) => format!("put in {at} {}", tokens(&ts)),
        Err(place) => format!("no call, from byte {place} on"),
    }
}

fn row(row: &Row) -> String {
    let letters = row.iter();
    let letters = letters.map(|placed| format!("{} {}", placed.letter as char, placed.at));
    letters.collect::<Vec<_>>().join(" ")
}

pub fn answer(bytes: &[u8]) -> String {
    match Answer::read(bytes) {
        Some(Answer::Done) => "done".into(),
        Some(Answer::Refused(refusal)) => {
            format!("refused {} at {}", refusal.number, refusal.place)
        }
        Some(Answer::Rows(rows)) => {
            let told = rows.iter().map(|one| format!("\n    {}", row(one)));
            format!("rows {}{}", rows.len(), told.collect::<String>())
        }
        Some(Answer::Numbers(first, second)) => format!("numbers {first} and {second}"),
        None => "no answer".into(),
    }
}
