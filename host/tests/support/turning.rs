//! Compares turning messages of one edition into the other with both references.

use super::compare::{expected, fill, same, same_bytes, Compared, Comparison};
use super::library::Answer;
use super::random::Random;
use crate::reference::{self, by_copy, Body, Edition};

/// One turning by the library and by both references.
type Calls<'a> = [&'a dyn Fn(&mut [u8]) -> Answer<1>; 3];

/// The bytes that the longest Repository takes.
const LONGEST_REPOSITORY: usize = 4 + 64;

impl Comparison {
    /// Turns `message`, which was made from an old one of type `kind`, into a new one. Turned down again,
    /// it is the message as it was.
    pub fn upgrade(
        &mut self,
        kind: u32,
        message: &[u8],
        repository: &[u8],
        random: &mut Random,
    ) -> Compared {
        let (upgrade, downgrade) = (self.library.upgrade, self.library.downgrade);
        let room = message.len() + LONGEST_REPOSITORY + random.below(9);
        let calls: Calls = [
            &|out| upgrade(message, repository, out),
            &|out| expected(reference::upgrade(message, repository, out)),
            &|out| expected(by_copy::upgrade(message, repository, out)),
        ];
        let answer = self.turn("upgrade", kind, calls, room, random)?;
        let Ok(read) = reference::read_as(Edition::Old, message) else {
            return Ok(());
        };
        match answer {
            (0, [len]) => {
                let mut new = vec![0; len as usize];
                same("upgrade", &upgrade(message, repository, &mut new), &answer)?;
                self.turned_back(&message[..read.end], |out| downgrade(&new, out))
            }
            // Not the message is at fault, but the Repository given.
            (number, _) => {
                let entry = ("upgrade by Repository", kind, number);
                *self.seen.entry(entry).or_default() += 1;
                Ok(())
            }
        }
    }

    /// Turns `message`, which was made from a new one of type `kind`, into an old one. Turned up again with
    /// its own Repository, it is the message as it was.
    pub fn downgrade(&mut self, kind: u32, message: &[u8], random: &mut Random) -> Compared {
        let (upgrade, downgrade) = (self.library.upgrade, self.library.downgrade);
        let room = message.len() + random.below(9);
        let calls: Calls = [
            &|out| downgrade(message, out),
            &|out| expected(reference::downgrade(message, out)),
            &|out| expected(by_copy::downgrade(message, out)),
        ];
        let answer = self.turn("downgrade", kind, calls, room, random)?;
        let (Ok(read), (0, [len])) = (reference::read(message), answer) else {
            return Ok(());
        };
        let repository = match read.body {
            Body::Index { repository, .. }
            | Body::IndexUpdate { repository, .. }
            | Body::Request { repository, .. } => repository.of(message),
            // It isn't looked at.
            _ => b"\xFF",
        };
        let mut old = vec![0; len as usize];
        same("downgrade", &downgrade(message, &mut old), &answer)?;
        self.turned_back(&message[..read.end], |out| upgrade(&old, repository, out))
    }

    /// Turns a message against one reference in `room` bytes, which are enough, and against the other in a
    /// buffer that may be too short.
    fn turn(
        &mut self,
        call: &'static str,
        kind: u32,
        [library, by_fields, by_copy]: Calls,
        room: usize,
        random: &mut Random,
    ) -> Result<Answer<1>, String> {
        let answer = fill(room, random, library, by_fields)?;
        self.met(call, kind, answer.0);
        let len = match answer {
            (0, [len]) => len as usize,
            _ => room,
        };
        let rooms = [len, len.saturating_sub(1), random.below(len + 1), 0];
        let second = fill(random.pick(&rooms), random, library, by_copy)?;
        self.met(call, kind, second.0);
        Ok(answer)
    }

    /// That turning back gives this message.
    fn turned_back(
        &mut self,
        message: &[u8],
        turn: impl FnOnce(&mut [u8]) -> Answer<1>,
    ) -> Compared {
        self.calls += 2;
        let mut out = vec![0; message.len()];
        let expected = (0, [message.len() as u64]);
        same("turned back", &turn(&mut out), &expected)?;
        same_bytes("what is turned back", &out, message)
    }
}
