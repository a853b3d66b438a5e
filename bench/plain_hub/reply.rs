//! What a request is answered, and how that is written.

use crate::fifodir::About;
use std::fmt;

pub enum Reply {
    Done,
    Number(u64),
    State { number: u64, code: u8, closed: bool },
    Got(String),
    Hit(String),
    Nothing,
    End,
    Evicted,
    Yes(Vec<Option<u64>>),
    Never,
    Late,
    Names(String),
    About(About),
    No(Refusal),
}

/// Why a request is refused: the word that the reply says, or the place of an unlawful letter.
#[derive(Clone, Copy)]
pub enum Refusal {
    Word(&'static str),
    Unlawful(usize),
}

impl fmt::Display for Reply {
    fn fmt(&self, f: &mut fmt::Formatter<'_>) -> fmt::Result {
        match self {
            Reply::Done => write!(f, "ok"),
            Reply::Number(number) => write!(f, "ok {number}"),
            Reply::State { number, code, closed } => {
                let state = if *closed { "closed" } else { "open" };
                write!(f, "ok {number} {code} {state}")
            }
            Reply::Got(letters) => write!(f, "got {letters}"),
            Reply::Hit(letters) => write!(f, "hit {letters}"),
            Reply::Nothing => write!(f, "none"),
            Reply::End => write!(f, "end"),
            Reply::Evicted => write!(f, "evicted"),
            Reply::Yes(numbers) => {
                write!(f, "yes")?;
                numbers.iter().try_for_each(|number| match number {
                    Some(number) => write!(f, " {number}"),
                    None => write!(f, " -"),
                })
            }
            Reply::Never => write!(f, "never"),
            Reply::Late => write!(f, "late"),
            Reply::Names(names) => write!(f, "names{names}"),
            Reply::About(about) => write!(f, "ok {about}"),
            Reply::No(refusal) => write!(f, "no {refusal}"),
        }
    }
}

impl fmt::Display for About {
    fn fmt(&self, f: &mut fmt::Formatter<'_>) -> fmt::Result {
        let (kind, reports) = match self.service {
            Some(service) => ("svc", service.notifies as u8),
            None => ("dir", 0),
        };
        let policy = if self.evicts { "evict" } else { "hold" };
        write!(f, "{kind} {reports} {} {} {policy} ", self.waiting, self.total)?;
        write!(f, "{} {} {}", self.subscriptions, self.publishers, self.pending)
    }
}

impl fmt::Display for Refusal {
    fn fmt(&self, f: &mut fmt::Formatter<'_>) -> fmt::Result {
        match self {
            Refusal::Word(word) => f.write_str(word),
            Refusal::Unlawful(place) => write!(f, "unlawful {place}"),
        }
    }
}
