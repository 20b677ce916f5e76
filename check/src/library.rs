//! The setter through its C functions, in memory with guards on both sides of each lent slice.

use crate::model::{Limits, Looks, Memory};
use crate::wire::{Answer, Refusal};

mod c {
    unsafe extern "C" {
        pub safe fn setter_tokens_asked(
            paragraphs: u32,
            tokens: u32,
            definitions: u32,
            bulk: u32,
        ) -> i64;

        pub safe fn setter_rest_asked(
            paragraphs: u32,
            tokens: u32,
            definitions: u32,
            bulk: u32,
        ) -> i64;

        pub fn setter_open(
            tokens: *mut u8,
            tokens_len: usize,
            rest: *mut u64,
            rest_len: usize,
            paragraphs: u32,
            limit_tokens: u32,
            definitions: u32,
            bulk: u32,
            widths: *const u8,
            widths_len: usize,
            width: u32,
            rows: u32,
        ) -> i64;

        pub fn setter_call(
            tokens: *mut u8,
            tokens_len: usize,
            rest: *mut u64,
            rest_len: usize,
            bytes: *const u8,
            bytes_len: usize,
            out: *mut u8,
            out_len: usize,
        ) -> i64;
    }
}

/// How many bytes an answer must have room for.
const ROOM: usize = 163_858;

/// Each so many calls the same call is made with too little room first.
const SHORT_EACH: u64 = 40;

/// What stands in memory before it is opened, and in its guards.
const BYTE: u8 = 0xa5;
const NUMBER: u64 = 0xa5a5_a5a5_a5a5_a5a5;

const GUARD: usize = 64;

/// A lent slice of which only the first `used` may change, between guards.
struct Lent<T> {
    all: Vec<T>,
    len: usize,
    used: usize,
    mark: T,
}

impl<T: Copy + PartialEq> Lent<T> {
    fn new(len: usize, mark: T) -> Lent<T> {
        Lent {
            all: vec![mark; GUARD + len + GUARD],
            len,
            used: 0,
            mark,
        }
    }

    fn slice(&self) -> &[T] {
        &self.all[GUARD..GUARD + self.len]
    }

    fn slice_mut(&mut self) -> &mut [T] {
        &mut self.all[GUARD..GUARD + self.len]
    }

    fn is_intact(&self) -> bool {
        all_are(&self.all[..GUARD], self.mark) && all_are(&self.all[GUARD + self.used..], self.mark)
    }
}

/// Each is like the one before it, and the first is the mark: faster than to look at them one by one.
fn all_are<T: PartialEq>(slice: &[T], mark: T) -> bool {
    match slice {
        [first, others @ ..] => *first == mark && *others == slice[..others.len()],
        [] => true,
    }
}

/// How much memory these limits ask for.
pub fn asked(limits: &Limits) -> Result<Memory, Refusal> {
    let Limits {
        paragraphs,
        tokens,
        definitions,
        bulk,
    } = *limits;
    let number = |number: i64| match usize::try_from(number) {
        Ok(number) => Ok(number),
        Err(_) => Err(refusal(number).expect("a number below 0 is a refusal")),
    };
    Ok(Memory {
        tokens: number(c::setter_tokens_asked(
            paragraphs,
            tokens,
            definitions,
            bulk,
        ))?,
        rest: number(c::setter_rest_asked(paragraphs, tokens, definitions, bulk))?,
    })
}

/// The refusal that a number below 0 is.
fn refusal(number: i64) -> Option<Refusal> {
    let told = number.checked_neg().filter(|&told| told > 0)?;
    Some(Refusal {
        number: u8::try_from(told >> 32).ok()?,
        place: told as u32,
    })
}

/// What went wrong beside the answer.
pub type Fault = String;

pub struct Library {
    tokens: Lent<u8>,
    rest: Lent<u64>,
    out: Lent<u8>,
    /// Both slices as the last call left them.
    kept_tokens: Vec<u8>,
    kept_rest: Vec<u64>,
    calls: u64,
}

impl Library {
    /// Memory in which no book is open.
    pub fn unopened(lent: Memory) -> Library {
        let tokens = Lent::new(lent.tokens, BYTE);
        let rest = Lent::new(lent.rest, NUMBER);
        Library {
            kept_tokens: tokens.slice().to_vec(),
            kept_rest: rest.slice().to_vec(),
            tokens,
            rest,
            out: Lent::new(ROOM, BYTE),
            calls: 0,
        }
    }

    /// Opens a book, with the first `count` widths.
    pub fn open(
        &mut self,
        limits: &Limits,
        looks: &Looks,
        count: usize,
    ) -> Result<Result<(), Refusal>, Fault> {
        let widths = &looks.widths[..count];
        let (tokens, rest) = (self.tokens.slice_mut(), self.rest.slice_mut());
        // SAFETY: pointers and lengths are those of slices, which don't overlap.
        let number = unsafe {
            c::setter_open(
                tokens.as_mut_ptr(),
                tokens.len(),
                rest.as_mut_ptr(),
                rest.len(),
                limits.paragraphs,
                limits.tokens,
                limits.definitions,
                limits.bulk,
                widths.as_ptr(),
                widths.len(),
                looks.width,
                looks.rows,
            )
        };
        if number == 0 {
            self.calls = 0;
            let asked = asked(limits).map_err(|refusal| format!("opened despite {refusal:?}"))?;
            self.tokens.used = self.tokens.len.min(asked.tokens);
            self.rest.used = self.rest.len.min(asked.rest);
            self.keep();
            self.intact()?;
            return Ok(Ok(()));
        }
        self.intact()?;
        self.as_kept()?;
        match refusal(number) {
            Some(refusal) => Ok(Err(refusal)),
            None => Err(format!("opening gave {number}")),
        }
    }

    /// The bytes of the answer.
    pub fn call(&mut self, bytes: &[u8]) -> Result<Vec<u8>, Fault> {
        self.calls += 1;
        if self.calls.is_multiple_of(SHORT_EACH) {
            let room = [ROOM - 1, 6, 0][(self.calls / SHORT_EACH % 3) as usize];
            self.call_short(bytes, room)?;
        }
        let number = self.call_with_room(bytes, ROOM)?;
        let answer = self.take_answer(number)?;
        self.intact()?;
        if number < 0 {
            self.as_kept()?;
        } else {
            self.keep();
        }
        Ok(answer)
    }

    /// A call with too little room gives 0, and changes nothing.
    fn call_short(&mut self, bytes: &[u8], room: usize) -> Result<(), Fault> {
        let number = self.call_with_room(bytes, room)?;
        if number != 0 {
            return Err(format!("with room for {room} bytes it gave {number}"));
        }
        self.intact()?;
        self.as_kept()
    }

    fn call_with_room(&mut self, bytes: &[u8], room: usize) -> Result<i64, Fault> {
        let sent = bytes.to_vec();
        let (tokens, rest) = (self.tokens.slice_mut(), self.rest.slice_mut());
        let out = &mut self.out.slice_mut()[..room];
        // SAFETY: pointers and lengths are those of slices, which don't overlap.
        let number = unsafe {
            c::setter_call(
                tokens.as_mut_ptr(),
                tokens.len(),
                rest.as_mut_ptr(),
                rest.len(),
                sent.as_ptr(),
                sent.len(),
                out.as_mut_ptr(),
                out.len(),
            )
        };
        if sent != bytes {
            return Err("the call's own bytes were changed".into());
        }
        Ok(number)
    }

    /// Takes the answer out of its room, which is then as it was before the call.
    fn take_answer(&mut self, number: i64) -> Result<Vec<u8>, Fault> {
        let refused = refusal(number).map(|refusal| Answer::Refused(refusal).bytes());
        let len = match &refused {
            Some(bytes) => bytes.len(),
            None => usize::try_from(number).unwrap_or(0),
        };
        if len == 0 || len > ROOM {
            return Err(format!("a call gave {number}"));
        }
        let written = &mut self.out.slice_mut()[..len];
        let answer = written.to_vec();
        written.fill(BYTE);
        let agrees = match refused {
            Some(bytes) => answer == bytes,
            None => answer[0] != 1,
        };
        if !agrees {
            return Err(format!("it gave {number}, and the answer {answer:02x?}"));
        }
        Ok(answer)
    }

    fn intact(&self) -> Result<(), Fault> {
        let what = match (
            self.tokens.is_intact(),
            self.rest.is_intact(),
            self.out.is_intact(),
        ) {
            (false, _, _) => "tokens",
            (_, false, _) => "the rest",
            (_, _, false) => "the answer",
            _ => return Ok(()),
        };
        Err(format!("memory around or behind {what} was changed"))
    }

    fn keep(&mut self) {
        self.kept_tokens.copy_from_slice(self.tokens.slice());
        self.kept_rest.copy_from_slice(self.rest.slice());
    }

    fn as_kept(&self) -> Result<(), Fault> {
        if self.kept_tokens != self.tokens.slice() || self.kept_rest != self.rest.slice() {
            return Err("what was refused changed memory".into());
        }
        Ok(())
    }
}
