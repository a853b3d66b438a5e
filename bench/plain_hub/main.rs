//! A plain hub: the request lines of `ftrighub script`, answered the obvious way with the standard library alone.
//! It is what the proved program is measured against, and compared with (`tests/alike`). Patterns of `listen` are of a small kind:
//! see `pattern.rs`. With the word `sessions` it has many of them, one request at a time: before each line is the session's number
//! and a space, and a number alone ends its session. Without it the one session is no publisher.

mod fifodir;
mod hub;
mod pattern;
mod reply;
mod request;
mod session;

use hub::Hub;
use reply::Reply;
use session::Session;
use std::collections::HashMap;
use std::io::{self, BufRead, Write};

fn main() -> io::Result<()> {
    let many = std::env::args().nth(1).is_some_and(|word| word == "sessions");
    let mut hub = Hub::new(many);
    let mut sessions = HashMap::from([(0, Session::new(0))]);
    let mut input = io::stdin().lock();
    let mut output = io::stdout().lock();
    let mut line = Vec::new();
    while input.read_until(b'\n', &mut line)? > 0 {
        if line.last() == Some(&b'\n') {
            line.pop();
        }
        let (number, given) = if many { split(&line) } else { (0, Some(line.as_slice())) };
        let reply = match given {
            Some(it) => {
                answer(&mut hub, sessions.entry(number).or_insert(Session::new(number)), it)
            }
            None => {
                sessions.remove(&number).unwrap_or_default().end(&mut hub);
                Reply::End
            }
        };
        // Standard output writes at each line's end, so each reply goes out by itself.
        writeln!(output, "{reply}")?;
        line.clear();
    }
    Ok(())
}

/// The session's number, and its line behind a space if there is one.
fn split(line: &[u8]) -> (u64, Option<&[u8]>) {
    let space = line.iter().position(|byte| *byte == b' ');
    let digits = &line[..space.unwrap_or(line.len())];
    let number = digits.iter().fold(0, |sum, digit| 10 * sum + u64::from(digit - b'0'));
    (number, space.map(|at| &line[at + 1..]))
}

fn answer(hub: &mut Hub, session: &mut Session, line: &[u8]) -> Reply {
    match request::parse(line) {
        Ok(request) => session.ask(hub, request),
        Err(refusal) => Reply::No(refusal),
    }
}
