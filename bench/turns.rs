//! How long a letter and its answer take between two threads, by a mutex and a condition variable: prints the nanoseconds of
//! a round.
use std::collections::VecDeque;
use std::sync::{Condvar, Mutex};
use std::thread;
use std::time::Instant;

const ROUNDS: u128 = 50_000;

#[derive(Default)]
struct Letters {
    pending: Mutex<VecDeque<u8>>,
    came: Condvar,
}

impl Letters {
    fn publish(&self, letter: u8) {
        self.pending.lock().unwrap().push_back(letter);
        self.came.notify_all();
    }

    fn receive(&self) -> u8 {
        let pending = self.pending.lock().unwrap();
        let mut pending = self.came.wait_while(pending, |it| it.is_empty()).unwrap();
        pending.pop_front().unwrap()
    }
}

fn main() {
    let (letters, answers) = (Letters::default(), Letters::default());
    thread::scope(|threads| {
        threads.spawn(|| {
            for _ in 0..ROUNDS {
                answers.publish(letters.receive());
            }
        });
        let start = Instant::now();
        for _ in 0..ROUNDS {
            letters.publish(b'a');
            answers.receive();
        }
        println!("{} nanoseconds a round", start.elapsed().as_nanos() / ROUNDS);
    });
}
