//! One fifodir: its events that wait, where each subscription is, and what the letters say of a service.

use crate::reply::Refusal;
use crate::request::{Service, State, Want};
use std::collections::{HashMap, HashSet, VecDeque};

#[derive(Clone, Copy, Default)]
pub struct Flags {
    up: bool,
    settled: bool,
    supervised: bool,
    failed: bool,
}

#[derive(Clone, Copy, Default)]
enum Stage {
    #[default]
    Off,
    Idle,
    Starting,
    Ready,
    Ending,
}

pub struct Fifodir {
    pub service: Option<Service>,
    pub closed: bool,
    pub flags: Flags,
    stage: Stage,
    waiting: u64,
    total: u64,
    evicts: bool,
    /// The events from number `first` on.
    events: VecDeque<u8>,
    first: u64,
    /// The number of the next event of each subscription that isn't evicted.
    cursors: HashMap<u64, u64>,
    evicted: HashSet<u64>,
    given: u64,
    /// The sessions that are its publishers, and the one that published the last event.
    publishers: HashSet<u64>,
    last: Option<u64>,
}

/// What a fifodir is, and how much is there.
pub struct About {
    pub service: Option<Service>,
    pub waiting: u64,
    pub total: u64,
    pub evicts: bool,
    pub subscriptions: usize,
    pub publishers: usize,
    pub pending: u64,
}

impl Fifodir {
    pub fn new(service: Option<Service>, waiting: u64, total: u64, evicts: bool) -> Fifodir {
        Fifodir {
            service,
            closed: false,
            flags: Flags::default(),
            stage: Stage::default(),
            waiting,
            total,
            evicts,
            events: VecDeque::new(),
            first: 0,
            cursors: HashMap::new(),
            evicted: HashSet::new(),
            given: 0,
            publishers: HashSet::new(),
            last: None,
        }
    }

    /// How many events there were.
    pub fn number(&self) -> u64 {
        self.first + self.events.len() as u64
    }

    pub fn subscribe(&mut self) -> Result<u64, Refusal> {
        if self.closed {
            return Err(Refusal::Word("closed"));
        }
        if self.cursors.len() + self.evicted.len() >= 1024 {
            return Err(Refusal::Word("many"));
        }
        self.given += 1;
        self.cursors.insert(self.given, self.number());
        Ok(self.given)
    }

    pub fn close(&mut self) -> Result<(), Refusal> {
        if self.closed {
            return Err(Refusal::Word("closed"));
        }
        self.closed = true;
        Ok(())
    }

    /// Makes a session a publisher.
    pub fn join(&mut self, session: u64) {
        self.publishers.insert(session);
    }

    pub fn leave(&mut self, session: u64) {
        self.publishers.remove(&session);
    }

    pub fn is_last(&self, session: u64) -> bool {
        self.last == Some(session)
    }

    pub fn about(&self) -> About {
        About {
            service: self.service,
            waiting: self.waiting,
            total: self.total,
            evicts: self.evicts,
            subscriptions: self.cursors.len(),
            publishers: self.publishers.len(),
            pending: self.cursors.values().map(|next| self.number() - next).max().unwrap_or(0),
        }
    }

    /// Publishes what brings the service to the state.
    pub fn tell(&mut self, session: u64, state: State) -> Result<u64, Refusal> {
        self.publish(session, self.letters_to(state))
    }

    /// The letters after which the state holds: none where it holds already.
    fn letters_to(&self, state: State) -> &'static str {
        let failed = self.flags.failed;
        match (state, self.stage) {
            (State::Up, Stage::Off) => "su",
            (State::Up, Stage::Idle) => "u",
            (State::Up, Stage::Ending) => "Du",
            (State::Ready, Stage::Off) => "suU",
            (State::Ready, Stage::Idle) => "uU",
            (State::Ready, Stage::Starting) => "U",
            (State::Ready, Stage::Ending) => "DuU",
            (State::Down, Stage::Off) => "s",
            (State::Down, Stage::Starting | Stage::Ready) => "dD",
            (State::Down, Stage::Ending) => "D",
            (State::Failed, Stage::Off) => "sO",
            (State::Failed, Stage::Idle) if !failed => "O",
            (State::Failed, Stage::Starting | Stage::Ready) if failed => "dD",
            (State::Failed, Stage::Starting | Stage::Ready) => "dDO",
            (State::Failed, Stage::Ending) if failed => "D",
            (State::Failed, Stage::Ending) => "DO",
            (State::Off, Stage::Off) if self.flags.up => "sx",
            (State::Off, Stage::Idle) => "x",
            (State::Off, Stage::Starting | Stage::Ready) => "dDx",
            (State::Off, Stage::Ending) => "Dx",
            _ => "",
        }
    }

    pub fn publish(&mut self, session: u64, letters: &str) -> Result<u64, Refusal> {
        if self.closed {
            return Err(Refusal::Word("closed"));
        }
        let mut stage = self.stage;
        if self.service.is_some() {
            for (place, letter) in letters.bytes().enumerate() {
                stage = stage.next(letter).ok_or(Refusal::Unlawful(place))?;
            }
        }
        let number = self.number();
        let count = letters.len() as u64;
        if count > self.total - number {
            return Err(Refusal::Word("spent"));
        }
        let held = if self.evicts { 0 } else { self.events.len() as u64 };
        if !self.cursors.is_empty() && held + count > self.waiting {
            return Err(Refusal::Word("full"));
        }
        if count > 0 {
            self.last = Some(session);
        }
        self.events.extend(letters.bytes());
        self.stage = stage;
        self.flags = letters.bytes().fold(self.flags, Flags::after);
        self.evict_slow();
        self.drop_taken();
        Ok(number)
    }

    /// Takes at most so many events behind a cursor.
    pub fn take(&mut self, id: u64, max: usize) -> String {
        let Some(next) = self.cursors.get_mut(&id) else {
            return String::new();
        };
        let from = (*next - self.first) as usize;
        let letters: String =
            self.events.iter().skip(from).take(max).map(|letter| *letter as char).collect();
        *next += letters.len() as u64;
        self.drop_taken();
        letters
    }

    /// Whether an event is behind a cursor.
    pub fn has_pending(&self, id: u64) -> bool {
        self.cursors.get(&id).is_some_and(|next| *next < self.number())
    }

    pub fn is_evicted(&self, id: u64) -> bool {
        self.evicted.contains(&id)
    }

    pub fn cancel(&mut self, id: u64) {
        self.cursors.remove(&id);
        self.evicted.remove(&id);
        self.drop_taken();
    }

    /// Evicts each subscription for which too many events are pending, if the fifodir evicts any.
    fn evict_slow(&mut self) {
        let (number, waiting) = (self.number(), self.waiting);
        if self.evicts {
            let slow = self.cursors.extract_if(|_, next| number - *next > waiting);
            self.evicted.extend(slow.map(|(id, _)| id));
        }
    }

    /// Lets go of the events that every subscription has taken.
    fn drop_taken(&mut self) {
        let base = self.cursors.values().min().copied().unwrap_or(self.number());
        self.events.drain(..(base - self.first) as usize);
        self.first = base;
    }

    pub fn meets(&self, want: Want) -> bool {
        let notifies = self.service.is_some_and(|service| service.notifies);
        match want {
            Want::Up => self.flags.up,
            Want::Ready => self.flags.up && (!notifies || self.flags.settled),
            Want::Down => !self.flags.up,
            Want::Finished => !self.flags.up && self.flags.settled,
            // A wait of this hub looks once, so no fall comes after it began.
            Want::Again => false,
        }
    }

    pub fn is_hopeless(&self, want: Want) -> bool {
        !matches!(want, Want::Down | Want::Finished) && self.flags.failed
    }
}

impl Flags {
    pub fn code(self) -> u8 {
        self.up as u8 + 2 * self.settled as u8 + 4 * self.supervised as u8 + 8 * self.failed as u8
    }

    fn after(self, letter: u8) -> Flags {
        match letter {
            b's' => Flags { up: false, settled: true, supervised: true, failed: false },
            b'u' => Flags { up: true, settled: false, failed: false, ..self },
            b'U' => Flags { up: true, settled: true, ..self },
            b'd' => Flags { up: false, settled: false, ..self },
            b'D' => Flags { up: false, settled: true, ..self },
            b'x' => Flags { supervised: false, ..self },
            b'O' => Flags { failed: true, ..self },
            _ => self,
        }
    }
}

impl Stage {
    fn next(self, letter: u8) -> Option<Stage> {
        match (self, letter) {
            (_, b's') => Some(Stage::Idle),
            (Stage::Off, _) => None,
            (_, b'x') => Some(Stage::Off),
            (_, b'O') => Some(self),
            (Stage::Idle, b'u') => Some(Stage::Starting),
            (Stage::Starting, b'U') => Some(Stage::Ready),
            (Stage::Starting | Stage::Ready, b'd') => Some(Stage::Ending),
            (Stage::Ending, b'D') => Some(Stage::Idle),
            _ => None,
        }
    }
}
