//! Compares the calls for SHA-256 with the reference.

use super::compare::{same, same_bytes, Compared};
use super::library::ffi;
use super::random::Random;
use crate::reference;

/// A hash that is worked out run by run, as it is lent.
#[derive(Clone, Debug, PartialEq, Eq)]
pub struct State {
    pub words: [u32; ffi::SHA256_WORDS],
    pub tail: [u8; ffi::SHA256_TAIL],
}

/// The calls under test. Faults are planted by exchanging one of them.
#[derive(Clone, Copy)]
pub struct ShaCalls {
    pub sha256: fn(&[u8], &mut [u8; 32]) -> u32,
    pub begin: fn(&mut State) -> u32,
    pub update: fn(&mut State, &[u8]) -> u32,
    pub finish: fn(&mut State, &mut [u8; 32]) -> u32,
}

/// The library as it is.
pub const SHA_CALLS: ShaCalls = ShaCalls {
    sha256,
    begin,
    update,
    finish,
};

fn sha256(message: &[u8], digest: &mut [u8; 32]) -> u32 {
    // SAFETY: pointer and length are those of one slice, and the digest has the size asked for. In all
    // calls so have words and tail.
    unsafe { ffi::bep_sha256(message.as_ptr(), message.len(), digest) }
}

fn begin(state: &mut State) -> u32 {
    // SAFETY: as in `sha256`.
    unsafe { ffi::bep_sha256_begin(&mut state.words, &mut state.tail) }
}

fn update(state: &mut State, run: &[u8]) -> u32 {
    // SAFETY: as in `sha256`.
    unsafe { ffi::bep_sha256_update(&mut state.words, &mut state.tail, run.as_ptr(), run.len()) }
}

fn finish(state: &mut State, digest: &mut [u8; 32]) -> u32 {
    // SAFETY: as in `sha256`.
    unsafe { ffi::bep_sha256_finish(&state.words, &state.tail, digest) }
}

/// The words and the tail of the reference's hash.
pub fn state_of(hash: &reference::Sha256) -> State {
    let mut words = [0; ffi::SHA256_WORDS];
    words[..8].copy_from_slice(&hash.value);
    words[8] = (hash.count >> 32) as u32;
    words[9] = hash.count as u32;
    State {
        words,
        tail: hash.tail,
    }
}

/// The reference's hash with these words and this tail.
pub fn hash_of(state: &State) -> reference::Sha256 {
    let [value @ .., high, low] = state.words;
    reference::Sha256 {
        value,
        count: u64::from(high) << 32 | u64::from(low),
        tail: state.tail,
    }
}

/// What words and tails start out as, so that what is left unset shows.
pub const UNSET: State = State {
    words: [0xA5A5_A5A5; ffi::SHA256_WORDS],
    tail: [0xA5; ffi::SHA256_TAIL],
};

/// The digest that a call fills, and nothing beside it.
fn filled(call: impl FnOnce(&mut [u8; 32]) -> u32) -> Result<[u8; 32], String> {
    let mut memory = [0xA5; 96];
    let number = call((&mut memory[32..64]).try_into().expect("32 bytes"));
    same("the number", &number, &0)?;
    same_bytes("before the digest", &memory[..32], &[0xA5; 32])?;
    same_bytes("after the digest", &memory[64..], &[0xA5; 32])?;
    Ok(*memory[32..].first_chunk().expect("32 bytes"))
}

/// The hash of one message on each side, compared after every run.
pub struct ShaComparison {
    calls: ShaCalls,
    state: State,
    hash: reference::Sha256,
    /// Whether the state came of an opening, so that its tail ends in zeros.
    begun: bool,
    /// The number of calls compared.
    pub compared: u64,
}

impl ShaComparison {
    pub fn begin(calls: ShaCalls) -> Result<Self, String> {
        let mut state = UNSET;
        same("begin", &(calls.begin)(&mut state), &0)?;
        let hash = reference::Sha256::new();
        same("begin", &state, &state_of(&hash))?;
        Ok(ShaComparison {
            calls,
            state,
            hash,
            begun: true,
            compared: 1,
        })
    }

    /// With any words and any tail.
    pub fn forged(calls: ShaCalls, state: State) -> Self {
        ShaComparison {
            calls,
            hash: hash_of(&state),
            state,
            begun: false,
            compared: 0,
        }
    }

    /// Compares the states. Of a tail that was given at random only the bytes that wait count.
    fn same_states(&self, what: &str) -> Compared {
        let expected = state_of(&self.hash);
        same(what, &self.state.words, &expected.words)?;
        let count = match self.begun {
            true => expected.tail.len(),
            false => self.hash.waiting(),
        };
        same_bytes(what, &self.state.tail[..count], &expected.tail[..count])
    }

    pub fn update(&mut self, run: &[u8]) -> Compared {
        self.compared += 1;
        same("update", &(self.calls.update)(&mut self.state, run), &0)?;
        self.hash.update(run);
        self.same_states("the state after a run")
    }

    /// Compares the digests. The state must stay as it was.
    pub fn finish(&mut self) -> Result<[u8; 32], String> {
        self.compared += 1;
        let before = self.state.clone();
        let digest = filled(|digest| (self.calls.finish)(&mut self.state, digest))?;
        same_bytes("the digest of runs", &digest, &self.hash.finish())?;
        same("the state after the digest", &self.state, &before)?;
        Ok(digest)
    }

    /// Feeds a message cut at random places, with empty runs between, and compares the digest of all.
    /// Now and then that of what has come so far is asked for.
    pub fn in_runs(&mut self, message: &[u8], random: &mut Random) -> Result<[u8; 32], String> {
        let longest = random.pick(&[1, 7, 63, 64, 65, 130, 300, message.len() + 1]);
        // Few calls for a long message.
        let longest = longest.max(message.len() / 100);
        let mut rest = message;
        while !rest.is_empty() {
            let len = random.below(longest + 1).min(rest.len());
            let (run, after) = rest.split_at(len);
            self.update(run)?;
            rest = after;
            if random.once_in(8) {
                self.finish()?;
            }
        }
        self.finish()
    }
}

/// Compares a message at once, and in runs.
pub fn compare(calls: ShaCalls, message: &[u8], random: &mut Random) -> Result<u64, String> {
    let at_once = filled(|digest| (calls.sha256)(message, digest))?;
    same_bytes("the digest", &at_once, &reference::sha256(message))?;
    let mut comparison = ShaComparison::begin(calls)?;
    let in_runs = comparison.in_runs(message, random)?;
    same_bytes("the digest of all runs", &in_runs, &at_once)?;
    Ok(comparison.compared + 1)
}
