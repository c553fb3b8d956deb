//! Reading a message whose bytes come in runs: all of them are kept, and read at once after each run.

use super::read::read_as;
use super::{Edition, Refusal};

/// What a run is answered with.
#[derive(Clone, Copy, Debug, PartialEq, Eq)]
pub enum Told {
    Waiting,
    /// The end, counted from the message's first byte.
    Ended(usize),
    Refused(Refusal),
}

/// All that has come of a message.
pub struct Runs {
    edition: Edition,
    bytes: Vec<u8>,
    /// The answer that stays, once there is one.
    last: Option<Told>,
}

impl Runs {
    pub fn open(edition: Edition) -> Self {
        Runs {
            edition,
            bytes: Vec::new(),
            last: None,
        }
    }

    /// The answer to a run, and how many of its bytes were taken.
    pub fn feed(&mut self, run: &[u8]) -> (Told, usize) {
        if let Some(told) = self.last {
            return (told, 0);
        }
        let before = self.bytes.len();
        self.bytes.extend_from_slice(run);
        let (told, taken) = match read_as(self.edition, &self.bytes) {
            Err(Refusal { number: 1, .. }) => return (Told::Waiting, run.len()),
            Err(refusal) => (Told::Refused(refusal), run.len()),
            Ok(message) => (Told::Ended(message.end), message.end - before),
        };
        self.last = Some(told);
        (told, taken)
    }
}
