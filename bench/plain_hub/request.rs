//! Lines to requests.

use crate::reply::Refusal;
use std::ops::RangeInclusive;

pub enum Request<'a> {
    Make {
        name: &'a str,
        waiting: u64,
        total: u64,
        service: Option<Service>,
        evict: bool,
    },
    Sub {
        name: &'a str,
    },
    Pub {
        name: &'a str,
        letters: &'a str,
    },
    Take {
        id: u64,
        max: usize,
    },
    Cancel {
        id: u64,
    },
    Close {
        name: &'a str,
    },
    Status {
        name: &'a str,
    },
    Listen {
        name: &'a str,
        once: bool,
        pattern: &'a str,
    },
    Poll {
        id: u64,
    },
    Await {
        id: u64,
    },
    Wait {
        all: bool,
        want: Want,
        names: Vec<&'a str>,
    },
    Names {
        from: u64,
    },
    Next {
        id: u64,
    },
    Tell {
        name: &'a str,
        state: State,
    },
    /// None takes it back.
    Will {
        name: &'a str,
        state: Option<State>,
    },
    About {
        name: &'a str,
    },
}

/// Where a service is told to be.
#[derive(Clone, Copy)]
pub enum State {
    Off,
    Down,
    Up,
    Ready,
    Failed,
}

/// What is known of a service: whether it reports readiness.
#[derive(Clone, Copy)]
pub struct Service {
    pub notifies: bool,
}

#[derive(Clone, Copy)]
pub enum Want {
    Up,
    Ready,
    Down,
    Finished,
    Again,
}

const MOST_EVENTS: u64 = 1_000_000_000_000;
const WORDS: [&str; 17] = [
    "dir", "svc", "sub", "pub", "take", "cancel", "close", "status", "listen", "poll", "await",
    "wait", "names", "next", "tell", "will", "about",
];

/// The request that a line spells.
pub fn parse(line: &[u8]) -> Result<Request<'_>, Refusal> {
    if line.len() > 512 {
        return Err(Refusal::Word("long"));
    }
    if !line.iter().all(|byte| (0x20..=0x7e).contains(byte)) {
        return Err(Refusal::Word("text"));
    }
    let line = std::str::from_utf8(line).map_err(|_| Refusal::Word("text"))?;
    let (word, rest) = line.split_once(' ').unwrap_or((line, ""));
    if word == "listen" {
        return listen(rest);
    }
    if !WORDS.contains(&word) {
        return Err(Refusal::Word("word"));
    }
    let fields: Vec<&str> = rest.split(' ').collect();
    match (word, fields.as_slice()) {
        ("dir", [n, w, t]) => make(n, w, t, None, false),
        ("dir", [n, w, t, "evict"]) => make(n, w, t, None, true),
        ("svc", [n, w, t, r]) => make(n, w, t, Some(r), false),
        ("svc", [n, w, t, r, "evict"]) => make(n, w, t, Some(r), true),
        ("sub", [n]) => Ok(Request::Sub { name: name(n)? }),
        ("pub", [n, letters]) if !letters.is_empty() => {
            Ok(Request::Pub { name: name(n)?, letters })
        }
        ("take", [id, max]) => {
            let (id, max) = (numeral(id)?, numeral(max)?);
            Ok(Request::Take { id, max: within(max, 1..=256)? as usize })
        }
        ("cancel", [id]) => Ok(Request::Cancel { id: numeral(id)? }),
        ("close", [n]) => Ok(Request::Close { name: name(n)? }),
        ("status", [n]) => Ok(Request::Status { name: name(n)? }),
        ("poll", [id]) => Ok(Request::Poll { id: numeral(id)? }),
        ("await", [id, turns]) => {
            let (id, turns) = (numeral(id)?, numeral(turns)?);
            within(turns, 0..=1_000_000)?;
            Ok(Request::Await { id })
        }
        ("next", [id, turns]) => {
            let (id, turns) = (numeral(id)?, numeral(turns)?);
            within(turns, 0..=1_000_000)?;
            Ok(Request::Next { id })
        }
        ("tell", [n, text]) => {
            let state = state(text).ok_or(Refusal::Word("form"))?;
            Ok(Request::Tell { name: name(n)?, state })
        }
        ("will", [n, text]) => Ok(Request::Will { name: name(n)?, state: will(text)? }),
        ("about", [n]) => Ok(Request::About { name: name(n)? }),
        ("names", [from]) => Ok(Request::Names { from: numeral(from)? }),
        ("wait", [span, want, turns, names @ ..]) => wait(span, want, turns, names),
        _ => Err(Refusal::Word("form")),
    }
}

fn make<'a>(
    n: &'a str,
    w: &str,
    t: &str,
    r: Option<&&str>,
    evict: bool,
) -> Result<Request<'a>, Refusal> {
    let (name, waiting, total) = (name(n)?, numeral(w)?, numeral(t)?);
    let reports = r.map(|r| numeral(r)).transpose()?;
    within(waiting, 1..=4096)?;
    within(total, 1..=MOST_EVENTS)?;
    let service = match reports {
        Some(reports) => Some(Service { notifies: within(reports, 0..=1)? == 1 }),
        None => None,
    };
    Ok(Request::Make { name, waiting, total, service, evict })
}

fn listen(rest: &str) -> Result<Request<'_>, Refusal> {
    let mut fields = rest.splitn(3, ' ');
    let (Some(n), Some(mode), Some(pattern)) = (fields.next(), fields.next(), fields.next()) else {
        return Err(Refusal::Word("form"));
    };
    let once = match mode {
        "once" => true,
        "repeat" => false,
        _ => return Err(Refusal::Word("form")),
    };
    if pattern.is_empty() || pattern.len() > 200 {
        return Err(Refusal::Word("form"));
    }
    Ok(Request::Listen { name: name(n)?, once, pattern })
}

fn wait<'a>(
    span: &str,
    want: &str,
    turns: &str,
    names: &[&'a str],
) -> Result<Request<'a>, Refusal> {
    let all = match span {
        "all" => true,
        "any" => false,
        _ => return Err(Refusal::Word("form")),
    };
    let want = match want {
        "up" => Want::Up,
        "ready" => Want::Ready,
        "down" => Want::Down,
        "finished" => Want::Finished,
        "restarted" | "restarted-ready" => Want::Again,
        _ => return Err(Refusal::Word("form")),
    };
    let turns = numeral(turns)?;
    if names.is_empty() || names.len() > 32 {
        return Err(Refusal::Word("form"));
    }
    let names = names.iter().map(|n| name(n)).collect::<Result<_, _>>()?;
    within(turns, 0..=1_000_000)?;
    Ok(Request::Wait { all, want, names })
}

fn state(field: &str) -> Option<State> {
    match field {
        "off" => Some(State::Off),
        "down" => Some(State::Down),
        "up" => Some(State::Up),
        "ready" => Some(State::Ready),
        "failed" => Some(State::Failed),
        _ => None,
    }
}

/// A will is that a service is told a state in which it isn't up, or none.
fn will(field: &str) -> Result<Option<State>, Refusal> {
    match (field, state(field)) {
        ("none", _) => Ok(None),
        (_, Some(state @ (State::Off | State::Down | State::Failed))) => Ok(Some(state)),
        _ => Err(Refusal::Word("form")),
    }
}

fn name(field: &str) -> Result<&str, Refusal> {
    let is_allowed = |byte: u8| byte.is_ascii_alphanumeric() || matches!(byte, b'_' | b'.' | b'-');
    if (1..=32).contains(&field.len()) && field.bytes().all(is_allowed) {
        Ok(field)
    } else {
        Err(Refusal::Word("form"))
    }
}

fn numeral(field: &str) -> Result<u64, Refusal> {
    let leading_zero = field.len() > 1 && field.starts_with('0');
    if field.len() > 13 || leading_zero || !field.bytes().all(|byte| byte.is_ascii_digit()) {
        return Err(Refusal::Word("form"));
    }
    field.parse().map_err(|_| Refusal::Word("form"))
}

fn within(number: u64, range: RangeInclusive<u64>) -> Result<u64, Refusal> {
    if range.contains(&number) { Ok(number) } else { Err(Refusal::Word("range")) }
}
