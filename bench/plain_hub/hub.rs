//! The fifodirs, by their names.

use crate::fifodir::Fifodir;
use crate::reply::{Refusal, Reply};
use crate::request::Want;
use std::collections::HashMap;

const MOST_NAMES: usize = 256;
const LONGEST_REPLY: usize = 4101;

#[derive(Default)]
pub struct Hub {
    fifodirs: HashMap<String, Fifodir>,
    /// In the order in which they were made.
    names: Vec<String>,
    /// Whether its sessions are publishers.
    has_publishers: bool,
}

impl Hub {
    pub fn new(has_publishers: bool) -> Hub {
        Hub { has_publishers, ..Hub::default() }
    }

    pub fn make(&mut self, name: &str, fifodir: Fifodir) -> Result<(), Refusal> {
        if self.fifodirs.contains_key(name) {
            return Err(Refusal::Word("exists"));
        }
        if self.fifodirs.len() >= MOST_NAMES {
            return Err(Refusal::Word("many"));
        }
        self.fifodirs.insert(name.to_string(), fifodir);
        self.names.push(name.to_string());
        Ok(())
    }

    pub fn find(&mut self, name: &str) -> Result<&mut Fifodir, Refusal> {
        self.fifodirs.get_mut(name).ok_or(Refusal::Word("name"))
    }

    pub fn find_service(&mut self, name: &str) -> Result<&mut Fifodir, Refusal> {
        let found = self.find(name)?;
        if found.service.is_some() { Ok(found) } else { Err(Refusal::Word("kind")) }
    }

    /// The fifodir, of which the session is a publisher from now on.
    pub fn find_for(&mut self, session: u64, name: &str) -> Result<&mut Fifodir, Refusal> {
        let counts = self.has_publishers;
        let found = self.find(name)?;
        if counts {
            found.join(session);
        }
        Ok(found)
    }

    /// Takes a session from the publishers of all fifodirs.
    pub fn leave(&mut self, session: u64) {
        self.fifodirs.values_mut().for_each(|fifodir| fifodir.leave(session));
    }

    /// As many names as fit, each with a space before it.
    pub fn list(&self, from: u64) -> Reply {
        let mut listed = String::new();
        for name in self.names.iter().skip(from as usize) {
            if "names\n".len() + listed.len() + 1 + name.len() > LONGEST_REPLY {
                break;
            }
            listed.push(' ');
            listed.push_str(name);
        }
        if listed.is_empty() { Reply::Nothing } else { Reply::Names(listed) }
    }

    /// Nobody publishes meanwhile, so the answer is that of the services as they are.
    pub fn wait(&mut self, all: bool, want: Want, names: &[&str]) -> Result<Reply, Refusal> {
        let mut met = Vec::new();
        let mut hopeless = Vec::new();
        for name in names {
            self.find(name)?;
        }
        for name in names {
            self.find_service(name)?;
        }
        for name in names {
            let fifodir = self.find(name)?;
            let post = fifodir.subscribe()?;
            fifodir.cancel(post);
            met.push(fifodir.meets(want).then(|| fifodir.number()));
            hopeless.push(fifodir.is_hopeless(want));
        }
        let is_met = |number: &Option<u64>| number.is_some();
        let mut unmet_hopes = met.iter().zip(&hopeless).filter(|(number, _)| number.is_none());
        Ok(match all {
            true if met.iter().all(is_met) => Reply::Yes(met),
            true if unmet_hopes.any(|(_, hopeless)| *hopeless) => Reply::Never,
            false if met.iter().any(is_met) => Reply::Yes(met),
            false if hopeless.iter().all(|hopeless| *hopeless) => Reply::Never,
            _ => Reply::Late,
        })
    }
}
