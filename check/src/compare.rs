//! The model and the library side by side, and where they differ.

use crate::generate::Opening;
use crate::library::{self, Fault, Library};
use crate::model::{Book, answer_unopened};
use crate::tell;
use crate::wire::{Answer, Call, Refusal, Token, write_tokens};
use std::fmt::{self, Debug, Display};
use std::time::{Duration, Instant};

/// How long is tried to make a failure shorter.
const PATIENCE: Duration = Duration::from_secs(60);

/// What the two said, where it is not the same.
pub struct Difference {
    model: String,
    library: String,
}

fn answers(model: &Answer, library: Result<Vec<u8>, Fault>) -> Result<(), Difference> {
    let expected = model.bytes();
    if library.as_ref() == Ok(&expected) {
        return Ok(());
    }
    let told = |bytes: &[u8]| format!("{}\n    {}", tell::answer(bytes), tell::hex(bytes));
    Err(Difference {
        model: told(&expected),
        library: library.map_or_else(|fault| fault, |bytes| told(&bytes)),
    })
}

fn same<T: PartialEq + Debug>(model: &T, library: &T) -> Result<(), Difference> {
    if model == library {
        return Ok(());
    }
    Err(Difference {
        model: format!("{model:?}"),
        library: format!("{library:?}"),
    })
}

fn open(opening: &Opening, library: &mut Library) -> Result<Option<Book>, Difference> {
    let Opening {
        limits,
        looks,
        lent,
        widths,
    } = opening;
    same(&limits.asked(), &library::asked(limits))?;
    let model = if *widths == looks.widths.len() {
        Book::open(*limits, *looks, *lent)
    } else {
        Err(Refusal {
            number: 3,
            place: 2,
        })
    };
    let expected = model.as_ref().map(|_| ()).map_err(|refusal| *refusal);
    same(&Ok(expected), &library.open(limits, looks, *widths))?;
    Ok(model.ok())
}

/// An opening that may be refused, in memory of its own.
pub fn try_opening(opening: &Opening) -> Result<(), Difference> {
    open(opening, &mut Library::unopened(opening.lent)).map(|_| ())
}

/// A call on memory in which no book is open.
pub fn call_unopened(bytes: &[u8], library: &mut Library) -> Result<(), Difference> {
    answers(&answer_unopened(bytes), library.call(bytes))
}

/// A book as the model has it and as the library has it.
pub struct Pair {
    pub model: Book,
    library: Library,
}

impl Pair {
    /// Opens a book that is not to be refused.
    pub fn open(opening: &Opening, mut library: Library) -> Result<Pair, Difference> {
        let model = open(opening, &mut library)?.expect("a good opening");
        Ok(Pair { model, library })
    }

    pub fn call(&mut self, bytes: &[u8]) -> Result<Answer, Difference> {
        let answer = self.model.answer(bytes);
        answers(&answer, self.library.call(bytes))?;
        Ok(answer)
    }
}

/// When the two differ.
#[derive(Clone, Copy, PartialEq, Eq)]
pub enum When {
    Opening,
    /// At a call before the book is opened.
    Before,
    /// At a call on an open book.
    Open,
}

/// Where the two differ, and the calls that lead there, of which the last is the one.
pub struct Failure {
    when: When,
    opening: Opening,
    calls: Vec<Vec<u8>>,
    difference: Difference,
}

impl Failure {
    pub fn new(
        when: When,
        opening: Opening,
        calls: &[Vec<u8>],
        difference: Difference,
    ) -> Box<Failure> {
        Box::new(Failure {
            when,
            opening,
            calls: calls.to_vec(),
            difference,
        })
    }

    pub fn calls(&self) -> usize {
        self.calls.len()
    }

    /// The first difference that these calls on an open book lead to.
    fn replayed(opening: &Opening, calls: &[Vec<u8>]) -> Option<Box<Failure>> {
        let mut pair = Pair::open(opening, Library::unopened(opening.lent)).ok()?;
        (1..).zip(calls).find_map(|(count, bytes)| {
            let difference = pair.call(bytes).err()?;
            let calls = &calls[..count];
            Some(Failure::new(When::Open, *opening, calls, difference))
        })
    }

    /// With calls, and tokens of calls, left out as far as something still differs.
    pub fn shortened(self: Box<Failure>) -> Box<Failure> {
        let opening = self.opening;
        let end = Instant::now() + PATIENCE;
        let differs = |calls: &[Vec<u8>]| {
            Instant::now() < end && Failure::replayed(&opening, calls).is_some()
        };
        if self.when != When::Open || !differs(&self.calls) {
            return self;
        }
        let mut calls = fewer(self.calls, differs);
        for at in 0..calls.len() {
            let tokens = match Call::read(&calls[at]) {
                Ok(Call::Put { tokens, .. } | Call::PutIn { tokens, .. }) => tokens,
                _ => continue,
            };
            let head = calls[at][..3].to_vec();
            let mut with = |tokens: &[Token]| {
                calls[at].clone_from(&head);
                write_tokens(tokens, &mut calls[at]);
                differs(&calls)
            };
            let tokens = fewer_tokens(tokens, &mut with);
            with(&tokens);
        }
        Failure::replayed(&opening, &calls).expect("something differs still")
    }
}

/// Leaves out what can be left out.
fn fewer<T: Clone>(mut items: Vec<T>, mut will_do: impl FnMut(&[T]) -> bool) -> Vec<T> {
    let mut part = items.len();
    while part > 0 {
        let mut at = 0;
        while at < items.len() {
            let end = items.len().min(at + part);
            let others = [&items[..at], &items[end..]].concat();
            if will_do(&others) {
                items = others;
            } else {
                at = end;
            }
        }
        part /= 2;
    }
    items
}

/// Leaves out what can be left out of tokens, and of what is in their notes.
fn fewer_tokens(tokens: Vec<Token>, will_do: &mut dyn FnMut(&[Token]) -> bool) -> Vec<Token> {
    let mut tokens = fewer(tokens, &mut *will_do);
    for at in 0..tokens.len() {
        let Token::Note(inside) = tokens[at].clone() else {
            continue;
        };
        let mut with = |inside: &[Token]| {
            tokens[at] = Token::Note(inside.to_vec());
            will_do(&tokens)
        };
        let inside = fewer_tokens(inside, &mut with);
        tokens[at] = Token::Note(inside);
    }
    tokens
}

impl Display for Failure {
    fn fmt(&self, f: &mut fmt::Formatter) -> fmt::Result {
        let when = match self.when {
            When::Opening => "at opening",
            When::Before => "not yet opened",
            When::Open => "opened",
        };
        writeln!(f, "{when} with {:?}", self.opening)?;
        for bytes in &self.calls {
            writeln!(f, "{}\n    {}", tell::call(bytes), tell::hex(bytes))?;
        }
        writeln!(f, "by the rules: {}", self.difference.model)?;
        write!(f, "the library: {}", self.difference.library)
    }
}
