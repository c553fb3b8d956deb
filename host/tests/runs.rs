//! Messages whose bytes come in runs, by the library against reading all bytes so far at once.
//!
//! `SOAK=N` compares N inputs instead of the usual number; `SOAK_FROM=M` starts with input number M.

mod reference;
mod support;

use reference::{read_as, Edition};
use std::io::Write;
use support::compare::{Compared, Comparison, READING};
use support::damage;
use support::draft::{Body, Draft};
use support::encode::{Block, Encoding, File};
use support::feeding::{self, call, feed, header, Words};
use support::generate;
use support::library::{ffi, Library, LIBRARY};
use support::random::Random;
use support::settings::setting;

const INPUTS: u64 = 5_000;
const SEED: u64 = 0x4A0_7E57_0000_0000;

/// The first word of a feed that has refused its message; the second is the number.
const REFUSED: u32 = 22;

/// Input number `number`: a message of this edition, whole or damaged, and the bytes of another one after
/// it, in two runs at every cut and in many.
fn compare_input(comparison: &mut Comparison, edition: Edition, number: u64) -> Compared {
    let mut random = Random::new(SEED ^ number.wrapping_mul(0xD134_2543_DE82_EF95));
    let mut draft = generate::draft(&mut random);
    draft.edition = edition;
    if random.once_in(4) {
        damage::draft(&mut draft, &mut random);
    }
    let kind = draft.kind();
    let mut message = draft.encode();
    if random.once_in(2) {
        damage::encoding(&mut message, &mut random);
    }
    let mut bytes = message.bytes;
    if random.once_in(2) {
        let next = generate::draft(&mut random).encode().bytes;
        bytes.extend_from_slice(&next[..random.below(next.len() + 1).min(20)]);
    }
    for cut in 0..=bytes.len() {
        let (first, second) = bytes.split_at(cut);
        comparison.feed(edition, kind, &[first, second], &mut random)?;
    }
    for most in [4, 16] {
        let runs = cut(&bytes, most, &mut random);
        comparison.feed(edition, kind, &runs, &mut random)?;
    }
    Ok(())
}

/// Cuts bytes into about so many runs, with empty ones between them.
fn cut<'a>(bytes: &'a [u8], most: usize, random: &mut Random) -> Vec<&'a [u8]> {
    let mut runs = Vec::new();
    let mut rest = bytes;
    while !rest.is_empty() {
        let longest = match random.below(4) {
            0 => 4,
            _ => 2 * bytes.len().div_ceil(most),
        };
        let (run, after) = rest.split_at(random.below(longest + 1).min(rest.len()));
        runs.push(run);
        rest = after;
    }
    runs
}

/// Says something even when the test passes.
fn say(text: &str) {
    let _ = writeln!(std::io::stderr(), "{text}");
}

/// Compares generated messages. In a usual run every number has to be met.
fn compare_generated(edition: Edition) {
    let from = setting("SOAK_FROM").unwrap_or(0);
    let inputs = setting("SOAK").unwrap_or(INPUTS);
    let mut comparison = Comparison::new(LIBRARY);
    for number in from..from + inputs {
        if let Err(difference) = compare_input(&mut comparison, edition, number) {
            panic!("input {number}: {difference}");
        }
    }
    let feeds = comparison.calls;
    say(&format!(
        "{edition:?} edition, {inputs} messages in runs from input {from} on: \
         {feeds} feeds compared, no difference"
    ));
    if inputs < INPUTS {
        return;
    }
    let call = call(edition);
    for (kind, numbers) in READING {
        match (edition, kind) {
            (Edition::Old, 7) => comparison.met_often(call, 7, &[1, 2, 3]),
            _ => {
                comparison.met_often(call, kind, &[0, 2, 3, 4]);
                comparison.met_often(call, kind, numbers);
            }
        }
    }
}

#[test]
fn generated_new_messages_in_runs_get_the_same_answers() {
    compare_generated(Edition::New);
}

#[test]
fn generated_old_messages_in_runs_get_the_same_answers() {
    compare_generated(Edition::Old);
}

#[test]
fn short_messages_are_the_same_in_two_and_three_runs_and_byte_by_byte() {
    let mut comparison = Comparison::new(LIBRARY);
    let mut random = Random::new(SEED);
    for draft in generate::short_messages() {
        let (edition, kind) = (draft.edition, draft.kind());
        let mut bytes = draft.encode().bytes;
        // A run may go past the end.
        bytes.extend_from_slice(&[0xFF; 3]);
        for second in 0..=bytes.len() {
            for first in 0..=second {
                let runs = [&bytes[..first], &bytes[first..second], &bytes[second..]];
                let compared = comparison.feed(edition, kind, &runs, &mut random);
                compared.unwrap();
            }
        }
        let bytewise: Vec<&[u8]> = bytes.chunks(1).collect();
        let compared = comparison.feed(edition, kind, &bytewise, &mut random);
        compared.unwrap();
    }
    say(&format!(
        "short messages: {} feeds compared, no difference",
        comparison.calls
    ));
}

#[test]
fn short_messages_damaged_anywhere_are_the_same_in_runs() {
    let mut comparison = Comparison::new(LIBRARY);
    let mut random = Random::new(SEED + 1);
    for draft in generate::short_messages() {
        let kind = draft.kind();
        damage::everywhere(&draft.encode().bytes, |bytes| {
            let (first, second) = bytes.split_at(random.below(bytes.len() + 1));
            // Each by the other edition too, where it is another message or none.
            for edition in [Edition::Old, Edition::New] {
                let compared = comparison.feed(edition, kind, &[first, second], &mut random);
                compared.unwrap();
            }
        });
    }
    say(&format!(
        "cuts and bytes: {} feeds compared, no difference",
        comparison.calls
    ));
}

#[test]
fn long_messages_are_the_same_in_runs() {
    let block = Block {
        length: 131_072,
        hash: [0xA7; 32],
    };
    let file = |number| File {
        name: format!("каталог/имя {number}").into_bytes(),
        flags: 0o644,
        modified: -1,
        version: 1,
        blocks: vec![block; 1_024],
    };
    let mut files = Encoding::new();
    files.files(&(0..10).map(file).collect::<Vec<_>>());
    let mut options = Encoding::new();
    options.options(&vec![("k".repeat(64).into(), "é".repeat(127).into()); 64]);
    let bodies = [
        Body::Index {
            update: false,
            repository: b"default".to_vec(),
            files,
        },
        Body::Options { options },
        Body::Response {
            data: vec![0xFF; 131_072],
        },
        Body::Response {
            data: vec![0xFF; 131_069],
        },
    ];
    let mut comparison = Comparison::new(LIBRARY);
    let mut random = Random::new(SEED + 2);
    for body in bodies {
        let draft = Draft::new(1, body);
        let bytes = draft.encode().bytes;
        assert!(read_as(Edition::New, &bytes).is_ok());
        for len in [1_460, 65_536] {
            let runs: Vec<&[u8]> = bytes.chunks(len).collect();
            let compared = comparison.feed(Edition::New, draft.kind(), &runs, &mut random);
            compared.unwrap();
        }
    }
    say(&format!(
        "long messages: {} feeds compared, no difference",
        comparison.calls
    ));
}

/// Words that are no sound feed are refused with 22 and stay as they are, whatever the run. Some that are
/// forged are sound all the same: their answers keep within bounds.
#[test]
fn forged_feeds_are_refused() {
    let mut random = Random::new(SEED + 3);
    let mut refused = 0;
    for number in 0..300_000 {
        let run = generate::draft(&mut random).encode().bytes;
        let run = &run[..random.below(run.len() + 1).min(100)];
        let any: Words = std::array::from_fn(|_| random.word());
        let mut words = any;
        if number % 4 > 0 {
            words = feeding::open(random.pick(&[Edition::Old, Edition::New]));
            feed(&mut words, run);
            let (at, bit) = (random.below(words.len()), random.below(32));
            let word = words[at];
            words[at] = random.pick(&[
                0,
                1,
                word.wrapping_add(1),
                word.wrapping_sub(1),
                word ^ 1 << bit,
                u32::MAX,
                any[at],
            ]);
        }
        let forged = words;
        let (number, [first, taken]) = feed(&mut words, run);
        match number {
            // A feed that says it was refused says so of any number from 2 on.
            22 if forged[..2] == [REFUSED, 22] => assert_eq!((words, taken), (forged, 0)),
            22 => {
                assert_eq!((words, first, taken), (forged, 0, 0), "{forged:x?}");
                refused += 1;
            }
            1 => assert!(first > 0 && taken == run.len() as u64, "{forged:x?}"),
            _ => assert!(taken <= run.len() as u64, "{forged:x?}"),
        }
        assert!(number == 22 || forged != any, "{forged:x?}");
    }
    assert!(refused >= 100_000, "{refused}");
    for words in [
        [0; ffi::FEED_WORDS],
        [0xFFFF_FFFF; ffi::FEED_WORDS],
        [0x5A5A_5A5A; ffi::FEED_WORDS],
    ] {
        let mut fed = words;
        assert_eq!(feed(&mut fed, &[0, 0, 4, 0]), (22, [0, 0]));
        assert_eq!(fed, words);
    }
}

/// Compares a library with a fault until that is found.
fn is_found(library: Library) -> bool {
    let mut comparison = Comparison::new(library);
    (0..500).any(|number| {
        [Edition::Old, Edition::New]
            .iter()
            .any(|&edition| compare_input(&mut comparison, edition, number).is_err())
    })
}

/// The number that a feed has come to.
fn said(mut words: Words) -> u32 {
    feed(&mut words, &[]).0
}

#[test]
fn a_difference_is_found() {
    assert!(!is_found(LIBRARY));
    assert!(is_found(Library {
        // A string that is no text is refused before its pad is there.
        feed: |words, given| match (LIBRARY.feed)(words, given) {
            answer @ (1, [_, taken]) => {
                let padded = [given.before, given.run, &[0; 3]].concat();
                match read_as(given.edition, &padded) {
                    Err(refusal) if refusal.number == 7 => (7, [refusal.place as u64, taken]),
                    _ => answer,
                }
            }
            answer => answer,
        },
        ..LIBRARY
    }));
    assert!(is_found(Library {
        // The end is one byte late, where there is one.
        feed: |words, given| match (LIBRARY.feed)(words, given) {
            (0, [end, taken @ (1..)]) if taken < given.run.len() as u64 => {
                (0, [end + 1, taken + 1])
            }
            answer => answer,
        },
        ..LIBRARY
    }));
    assert!(is_found(Library {
        // The end is told with the next run.
        feed: |words, given| match (LIBRARY.feed)(words, given) {
            (0, [_, taken @ (1..)]) => (1, [1, taken]),
            answer => answer,
        },
        ..LIBRARY
    }));
    assert!(is_found(Library {
        // The bytes after the end are taken.
        feed: |words, given| match (LIBRARY.feed)(words, given) {
            (0, [end, (1..)]) => (0, [end, given.run.len() as u64]),
            answer => answer,
        },
        ..LIBRARY
    }));
    assert!(is_found(Library {
        // A run after the end is taken.
        feed: |words, given| match (LIBRARY.feed)(words, given) {
            (0, [end, 0]) => (0, [end, given.run.len() as u64]),
            answer => answer,
        },
        ..LIBRARY
    }));
    assert!(is_found(Library {
        // A run after a refusal is taken.
        feed: |words, given| match (LIBRARY.feed)(words, given) {
            (number @ 2.., [place, 0]) => (number, [place, given.run.len() as u64]),
            answer => answer,
        },
        ..LIBRARY
    }));
    assert!(is_found(Library {
        // The run a refusal comes in is taken up to the field at fault.
        feed: |words, given| match (LIBRARY.feed)(words, given) {
            (number @ 2.., [place, taken @ (1..)]) => {
                let before = given.before.len() as u64;
                (number, [place, place.saturating_sub(before).min(taken)])
            }
            answer => answer,
        },
        ..LIBRARY
    }));
    assert!(is_found(Library {
        // A message that has ended is opened anew by the next run.
        feed: |words, given| match (LIBRARY.feed)(words, given) {
            (0, [_, 0]) if !given.run.is_empty() => {
                *words = feeding::open(given.edition);
                (LIBRARY.feed)(words, given)
            }
            answer => answer,
        },
        ..LIBRARY
    }));
    assert!(is_found(Library {
        // The place is counted from the run.
        feed: |words, given| match (LIBRARY.feed)(words, given) {
            (number @ 2.., [place, taken @ (1..)]) => {
                let before = given.before.len() as u64;
                (number, [place.saturating_sub(before), taken])
            }
            answer => answer,
        },
        ..LIBRARY
    }));
    assert!(is_found(Library {
        // It waits where 5 is due.
        feed: |words, given| match (LIBRARY.feed)(words, given) {
            (5, [_, taken]) => (1, [1, taken]),
            answer => answer,
        },
        ..LIBRARY
    }));
    assert!(is_found(Library {
        // An empty run ends the waiting.
        feed: |words, given| match (LIBRARY.feed)(words, given) {
            (1, [_, 0]) => (0, [given.before.len() as u64, 0]),
            answer => answer,
        },
        ..LIBRARY
    }));
    assert!(is_found(Library {
        // More bytes are said to be missing than are.
        feed: |words, given| match (LIBRARY.feed)(words, given) {
            (1, [missing, taken]) => (1, [missing + 1, taken]),
            answer => answer,
        },
        ..LIBRARY
    }));
    assert!(is_found(Library {
        // None are said to be missing.
        feed: |words, given| match (LIBRARY.feed)(words, given) {
            (1, [_, taken]) => (1, [0, taken]),
            answer => answer,
        },
        ..LIBRARY
    }));
    assert!(is_found(Library {
        // The old edition is read as the new one.
        open_feed: |_| feeding::open(Edition::New),
        ..LIBRARY
    }));
    assert!(is_found(Library {
        // The type isn't told where the message is refused.
        feed_header: |words| match said(*words) {
            0 | 1 => header(words),
            _ => (1, [0, 0]),
        },
        ..LIBRARY
    }));
    assert!(is_found(Library {
        // The ID has the bits of the version too.
        feed_header: |words| match (header(words), said(*words)) {
            ((0, [kind, id]), 2) => (0, [kind, id | 1 << 12]),
            (answer, _) => answer,
        },
        ..LIBRARY
    }));
}
