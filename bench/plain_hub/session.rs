//! A client's session: its handles, its wills, and its requests to replies.

use crate::fifodir::Fifodir;
use crate::hub::Hub;
use crate::pattern::Pattern;
use crate::reply::{Refusal, Reply};
use crate::request::{Request, State};
use std::collections::HashMap;

const MOST_HANDLES: usize = 256;
const MOST_NUMBERS: u64 = 1_000_000;
const MOST_LETTERS: usize = 4096;

#[derive(Default)]
pub struct Session {
    number: u64,
    handles: HashMap<u64, Handle>,
    given: u64,
    /// In the order in which the names were first given one.
    wills: Vec<(String, Option<State>)>,
}

/// A subscription of a fifodir, and its listener where it has one.
struct Handle {
    name: String,
    id: u64,
    listener: Option<Listener>,
}

struct Listener {
    pattern: Pattern,
    once: bool,
    letters: String,
}

impl Session {
    pub fn new(number: u64) -> Session {
        Session { number, ..Session::default() }
    }

    pub fn ask(&mut self, hub: &mut Hub, request: Request) -> Reply {
        self.answer(hub, request).unwrap_or_else(Reply::No)
    }

    fn answer(&mut self, hub: &mut Hub, request: Request) -> Result<Reply, Refusal> {
        match request {
            Request::Make { name, waiting, total, service, evict } => {
                hub.make(name, Fifodir::new(service, waiting, total, evict))?;
                Ok(Reply::Done)
            }
            Request::Sub { name } => self.subscribe(hub, name, None),
            Request::Pub { name, letters } => {
                let number = hub.find_for(self.number, name)?.publish(self.number, letters)?;
                Ok(Reply::Number(number))
            }
            Request::Take { id, max } => self.take(hub, id, max),
            Request::Cancel { id } => self.cancel(hub, id),
            Request::Close { name } => {
                hub.find_for(self.number, name)?.close()?;
                Ok(Reply::Done)
            }
            Request::Status { name } => {
                let found = hub.find_for(self.number, name)?;
                let (number, code) = (found.number(), found.flags.code());
                Ok(Reply::State { number, code, closed: found.closed })
            }
            Request::Listen { name, once, pattern } => {
                self.subscribe(hub, name, Some((once, pattern)))
            }
            Request::Poll { id } => self.poll(hub, id),
            Request::Await { id } => self.has_something(hub, id),
            Request::Wait { all, want, names } => hub.wait(all, want, &names),
            Request::Names { from } => Ok(hub.list(from)),
            Request::Next { id } => self.next(hub, id),
            Request::Tell { name, state } => {
                hub.find_service(name)?;
                Ok(Reply::Number(hub.find_for(self.number, name)?.tell(self.number, state)?))
            }
            Request::Will { name, state } => self.leave_will(hub, name, state),
            Request::About { name } => Ok(Reply::About(hub.find(name)?.about())),
        }
    }

    /// Gives all back, and carries out the wills. One that doesn't fit is lost: nobody makes room here.
    pub fn end(mut self, hub: &mut Hub) {
        for (_, handle) in self.handles.drain() {
            if let Ok(fifodir) = hub.find(&handle.name) {
                fifodir.cancel(handle.id);
            }
        }
        for (name, state) in &self.wills {
            if let (Ok(fifodir), Some(state)) = (hub.find(name), state)
                && fifodir.is_last(self.number)
            {
                let _ = fifodir.tell(self.number, *state);
            }
        }
        hub.leave(self.number);
    }

    fn leave_will(
        &mut self,
        hub: &mut Hub,
        name: &str,
        state: Option<State>,
    ) -> Result<Reply, Refusal> {
        hub.find_service(name)?;
        hub.find_for(self.number, name)?;
        match self.wills.iter_mut().find(|will| will.0 == name) {
            Some(will) => will.1 = state,
            None => self.wills.push((name.to_string(), state)),
        }
        Ok(Reply::Done)
    }

    fn subscribe(
        &mut self,
        hub: &mut Hub,
        name: &str,
        listen: Option<(bool, &str)>,
    ) -> Result<Reply, Refusal> {
        let fifodir = hub.find(name)?;
        if self.handles.len() >= MOST_HANDLES {
            return Err(Refusal::Word("many"));
        }
        if self.given >= MOST_NUMBERS {
            return Err(Refusal::Word("spent"));
        }
        let listener = match listen {
            Some((once, text)) => {
                let pattern = Pattern::of(text).ok_or(Refusal::Word("pattern"))?;
                Some(Listener { pattern, once, letters: String::new() })
            }
            None => None,
        };
        let id = fifodir.subscribe()?;
        self.given += 1;
        self.handles.insert(self.given, Handle { name: name.to_string(), id, listener });
        Ok(Reply::Number(self.given))
    }

    fn take(&mut self, hub: &mut Hub, id: u64, max: usize) -> Result<Reply, Refusal> {
        let handle = self.handles.get(&id).ok_or(Refusal::Word("id"))?;
        if handle.listener.is_some() {
            return Err(Refusal::Word("id"));
        }
        let fifodir = hub.find(&handle.name)?;
        let letters = fifodir.take(handle.id, max);
        Ok(if letters.is_empty() { idle(fifodir, handle.id) } else { Reply::Got(letters) })
    }

    fn cancel(&mut self, hub: &mut Hub, id: u64) -> Result<Reply, Refusal> {
        let handle = self.handles.remove(&id).ok_or(Refusal::Word("id"))?;
        hub.find(&handle.name)?.cancel(handle.id);
        Ok(Reply::Done)
    }

    fn poll(&mut self, hub: &mut Hub, id: u64) -> Result<Reply, Refusal> {
        let handle = self.handles.get_mut(&id).ok_or(Refusal::Word("id"))?;
        let listener = handle.listener.as_mut().ok_or(Refusal::Word("id"))?;
        let fifodir = hub.find(&handle.name)?;
        if listener.letters.len() >= MOST_LETTERS {
            return Err(Refusal::Word("overlong"));
        }
        while listener.letters.len() < MOST_LETTERS {
            let letter = fifodir.take(handle.id, 1);
            if letter.is_empty() {
                return Ok(idle(fifodir, handle.id));
            }
            listener.letters.push_str(&letter);
            if listener.pattern.is_found_in(&listener.letters) {
                let hit = std::mem::take(&mut listener.letters);
                if listener.once {
                    self.cancel(hub, id)?;
                }
                return Ok(Reply::Hit(hit));
            }
        }
        Ok(Reply::Nothing)
    }

    /// As `take` or `poll`, asked again while there is nothing. Nobody publishes meanwhile.
    fn next(&mut self, hub: &mut Hub, id: u64) -> Result<Reply, Refusal> {
        let handle = self.handles.get(&id).ok_or(Refusal::Word("id"))?;
        let reply = match handle.listener {
            None => self.take(hub, id, MOST_LETTERS)?,
            Some(_) => self.poll(hub, id)?,
        };
        let handle = self.handles.get(&id);
        let listener = handle.and_then(|handle| handle.listener.as_ref());
        match (&reply, listener) {
            (Reply::Nothing, Some(it)) if it.letters.len() >= MOST_LETTERS => {
                Err(Refusal::Word("overlong"))
            }
            (Reply::Nothing, _) => Ok(Reply::Late),
            _ => Ok(reply),
        }
    }

    /// One client has nobody to wait for here either. No listener holds a letter.
    fn has_something(&self, hub: &mut Hub, id: u64) -> Result<Reply, Refusal> {
        let handle = self.handles.get(&id).ok_or(Refusal::Word("id"))?;
        let fifodir = hub.find(&handle.name)?;
        let comes =
            fifodir.closed || fifodir.is_evicted(handle.id) || fifodir.has_pending(handle.id);
        Ok(if comes { Reply::Done } else { Reply::Late })
    }
}

/// The reply for a subscription that has no event to take.
fn idle(fifodir: &Fifodir, id: u64) -> Reply {
    match (fifodir.is_evicted(id), fifodir.closed) {
        (true, _) => Reply::Evicted,
        (false, true) => Reply::End,
        (false, false) => Reply::Nothing,
    }
}
