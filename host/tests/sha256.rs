//! SHA-256 against NIST's examples, `sha256sum` and the reference.
//!
//! `SOAK=N` compares N messages instead of the usual number, and NIST's long example;
//! `SOAK_FROM=M` starts with message number M.

mod reference;
mod support;

use fordtrumpet::{sha256, Sha256};
use std::fs;
use std::io::Write;
use std::path::Path;
use std::process::Command;
use support::random::Random;
use support::settings::setting;
use support::sha_calls::{compare, ShaCalls, ShaComparison, State, SHA_CALLS};

const MESSAGES: u64 = 50_000;
const FORGED: u64 = 20_000;
const SEED: u64 = 0x54A2_5600_0000_0000;

fn random(number: u64) -> Random {
    Random::new(SEED ^ number.wrapping_mul(0xD134_2543_DE82_EF95))
}

fn hex(digest: &[u8; 32]) -> String {
    digest.iter().map(|byte| format!("{byte:02x}")).collect()
}

/// The hashes that a message has: at once and in runs, by the library and by the reference.
fn all_ways(message: &[u8]) -> [String; 4] {
    let (mut runs, mut runs_by_reference) = (Sha256::new(), reference::Sha256::new());
    for run in message.chunks(1 + message.len() / 3) {
        runs.update(run);
        runs_by_reference.update(run);
    }
    [
        sha256(message),
        runs.finish(),
        reference::sha256(message),
        runs_by_reference.finish(),
    ]
    .map(|digest| hex(&digest))
}

/// The examples that NIST publishes with FIPS 180-4, and the additional ones.
#[test]
fn the_published_examples_have_their_hashes() {
    let four_times = "abcdefghbcdefghicdefghijdefghijkefghijklfghijklmghijklmn\
                      hijklmnoijklmnopjklmnopqklmnopqrlmnopqrsmnopqrstnopqrstu";
    let cases: [(&[u8], &str); 15] = [
        (
            b"abc",
            "ba7816bf8f01cfea414140de5dae2223b00361a396177a9cb410ff61f20015ad",
        ),
        (
            b"abcdbcdecdefdefgefghfghighijhijkijkljklmklmnlmnomnopnopq",
            "248d6a61d20638b8e5c026930c3e6039a33ce45964ff2167f6ecedd419db06c1",
        ),
        (
            four_times.as_bytes(),
            "cf5b16a778af8380036ce59e7b0492370b249b11e8f07a51afac45037afee9d1",
        ),
        (
            b"",
            "e3b0c44298fc1c149afbf4c8996fb92427ae41e4649b934ca495991b7852b855",
        ),
        (
            &[0xBD],
            "68325720aabd7c82f30f554b313d0570c95accbb7dc4b5aae11204c08ffe732b",
        ),
        (
            &[0xC9, 0x8C, 0x8E, 0x55],
            "7abc22c0ae5af26ce93dbb94433a0e0b2e119d014f8e7f65bd56c61ccccd9504",
        ),
        (
            &[0; 55],
            "02779466cdec163811d078815c633f21901413081449002f24aa3e80f0b88ef7",
        ),
        (
            &[0; 56],
            "d4817aa5497628e7c77e6b606107042bbba3130888c5f47a375e6179be789fbb",
        ),
        (
            &[0; 57],
            "65a16cb7861335d5ace3c60718b5052e44660726da4cd13bb745381b235a1785",
        ),
        (
            &[0; 64],
            "f5a5fd42d16a20302798ef6ed309979b43003d2320d9f0e8ea9831a92759fb4b",
        ),
        (
            &[0; 1_000],
            "541b3e9daa09b20bf85fa273e5cbd3e80185aa4ec298e765db87742b70138a53",
        ),
        (
            &[b'A'; 1_000],
            "c2e686823489ced2017f6059b8b239318b6364f6dcd835d0a519105a1eadd6e4",
        ),
        (
            &[b'U'; 1_005],
            "f4d62ddec0f3dd90ea1380fa16a5ff8dc4c54b21740650f24afc4120903552b0",
        ),
        (
            &[0; 1_000_000],
            "d29751f2649b32ff572b5e0a9f541ea660a50f94ff0beedfb0b692b924cc8025",
        ),
        (
            &[b'a'; 1_000_000],
            "cdc76e5c9914fb9281a1c7e284d73e67f1809a48a497200e046d39ccc7112cd0",
        ),
    ];
    for (message, hash) in cases {
        assert_eq!(all_ways(message), [hash; 4], "{} bytes", message.len());
    }
}

/// NIST's example of 512 MB, whose number of bits needs more than one word. It takes some seconds, so it is
/// generated in a soak only.
#[test]
fn the_long_example_is_generated_run_by_run() {
    if setting("SOAK").is_none() {
        return;
    }
    let (run, mut hash) = (vec![b'Z'; 1 << 20], Sha256::new());
    for _ in 0..512 {
        hash.update(&run);
    }
    assert_eq!(
        hex(&hash.finish()),
        "15a1868c12cc53951e182344277447cd0979536badcc512ad24c67e9b2d4f3dd"
    );
}

/// Every length up to some blocks, and those about the largest Data, against `sha256sum` of coreutils.
#[test]
fn every_length_has_the_hash_that_sha256sum_gives() {
    let folder = Path::new(env!("CARGO_TARGET_TMPDIR")).join("sha256sum");
    let _ = fs::remove_dir_all(&folder);
    fs::create_dir_all(&folder).unwrap();
    let mut random = random(0);
    let bytes = random.bytes(131_141);
    let lengths: Vec<usize> = (0..=300).chain(131_000..=131_141).collect();
    // Each begins with other bytes.
    let message = |length: usize| &bytes[(131_141 - length) / 2..][..length];
    for &length in &lengths {
        fs::write(folder.join(length.to_string()), message(length)).unwrap();
    }
    let output = Command::new("sha256sum")
        .args(lengths.iter().map(usize::to_string))
        .current_dir(&folder)
        .output()
        .expect("sha256sum of coreutils");
    assert!(output.status.success());
    let printed = String::from_utf8(output.stdout).unwrap();
    assert_eq!(printed.lines().count(), lengths.len());
    let mut calls = 0;
    for (line, &length) in printed.lines().zip(&lengths) {
        let message = message(length);
        assert_eq!(line, format!("{}  {length}", hex(&sha256(message))));
        calls += compare(SHA_CALLS, message, &mut random)
            .unwrap_or_else(|difference| panic!("{length} bytes: {difference}"));
    }
    fs::remove_dir_all(&folder).unwrap();
    let count = lengths.len();
    let text = format!("{count} lengths, as sha256sum has them: {calls} calls, no difference");
    let _ = writeln!(std::io::stderr(), "{text}");
}

/// One message of any bytes at any alignment, at once and in runs.
fn one_message(calls: ShaCalls, number: u64) -> Result<u64, String> {
    let mut random = random(number);
    let len = match random.below(500) {
        0 => random.below(20_000),
        1..=100 => random.below(1_000),
        101..=300 => 64 * random.below(5) + random.pick(&[0, 1, 54, 55, 56, 57, 62, 63]),
        _ => random.below(130),
    };
    let start = random.below(8);
    let memory = match random.below(10) {
        0 => vec![random.pick(&[0, 0x80, 0xFF]); start + len],
        _ => random.bytes(start + len),
    };
    compare(calls, &memory[start..], &mut random)
}

#[test]
fn generated_messages_have_the_same_hashes() {
    let from = setting("SOAK_FROM").unwrap_or(0);
    let messages = setting("SOAK").unwrap_or(MESSAGES);
    let mut compared = 0;
    for number in from..from + messages {
        match one_message(SHA_CALLS, number) {
            Ok(calls) => compared += calls,
            Err(difference) => panic!("message {number}: {difference}"),
        }
    }
    let text =
        format!("{messages} messages from number {from} on: {compared} calls, no difference");
    let _ = writeln!(std::io::stderr(), "{text}");
}

/// Any words and any tail are taken. So far there are as many bytes as a message may have that has a hash,
/// up to two to the 61st.
fn forged_state(random: &mut Random) -> State {
    let mut state = State {
        words: [0; 10],
        tail: [0; 64],
    };
    state
        .words
        .iter_mut()
        .for_each(|word| *word = random.word());
    random.fill(&mut state.tail);
    let near = random.below(300) as u64;
    let count = match random.below(6) {
        0 => near,
        1 => (1 << 29) - near,
        2 => (1 << 32) - near,
        3 => (1 << 61) - 10_000 - near,
        _ => random.next() >> random.pick(&[4, 20, 40]),
    };
    state.words[8] = (count >> 32) as u32;
    state.words[9] = count as u32;
    state
}

fn one_forged(calls: ShaCalls, number: u64) -> Result<u64, String> {
    let mut random = random(number);
    let mut comparison = ShaComparison::forged(calls, forged_state(&mut random));
    comparison.finish()?;
    let len = random.below(300);
    let message = random.bytes(len);
    comparison.in_runs(&message, &mut random)?;
    Ok(comparison.compared)
}

#[test]
fn forged_states_go_on_the_same_way() {
    let mut compared = 0;
    for number in 0..FORGED {
        match one_forged(SHA_CALLS, number) {
            Ok(calls) => compared += calls,
            Err(difference) => panic!("state {number}: {difference}"),
        }
    }
    let text = format!("{FORGED} forged states: {compared} calls, no difference");
    let _ = writeln!(std::io::stderr(), "{text}");
}

/// No message has so many bytes, and what the hash is nobody says; but the calls come back.
#[test]
fn a_count_that_no_message_has_is_taken() {
    for count in [u64::MAX, u64::MAX - 100, 1 << 61, 1 << 63] {
        let mut state = State {
            words: [7; 10],
            tail: [7; 64],
        };
        state.words[8] = (count >> 32) as u32;
        state.words[9] = count as u32;
        let mut digest = [0; 32];
        for run in [&[][..], &[1; 200], &[2; 1]] {
            assert_eq!((SHA_CALLS.update)(&mut state, run), 0);
            assert_eq!((SHA_CALLS.finish)(&mut state, &mut digest), 0);
        }
    }
}

/// Compares calls with a fault until that is found.
fn is_found(calls: ShaCalls) -> bool {
    (0..3_000)
        .any(|number| one_message(calls, number).is_err() || one_forged(calls, number).is_err())
}

/// How many bytes wait for their block to be whole.
fn waiting(state: &State) -> usize {
    state.words[9] as usize % 64
}

#[test]
fn a_difference_is_found() {
    assert!(!is_found(SHA_CALLS));
    assert!(is_found(ShaCalls {
        // Messages of 56 bytes beyond whole blocks get no block more for their pad.
        sha256: |message, digest| {
            let number = (SHA_CALLS.sha256)(message, digest);
            if message.len() % 64 == 56 {
                let mut hash = reference::Sha256::new();
                hash.update(&message[..message.len() - 1]);
                *digest = hash.finish();
            }
            number
        },
        ..SHA_CALLS
    }));
    assert!(is_found(ShaCalls {
        // The last bit of the digest is lost.
        finish: |state, digest| {
            let number = (SHA_CALLS.finish)(state, digest);
            digest[31] &= 0xFE;
            number
        },
        ..SHA_CALLS
    }));
    assert!(is_found(ShaCalls {
        // The number of bits has one word only.
        finish: |state, digest| {
            let mut other = state.clone();
            other.words[8] = 0;
            other.words[9] &= (1 << 29) - 1;
            (SHA_CALLS.finish)(&mut other, digest)
        },
        ..SHA_CALLS
    }));
    assert!(is_found(ShaCalls {
        // All of the tail counts.
        finish: |state, digest| match state.tail[waiting(state)..].iter().any(|&byte| byte != 0) {
            true => {
                *digest = [0; 32];
                0
            }
            false => (SHA_CALLS.finish)(state, digest),
        },
        ..SHA_CALLS
    }));
    assert!(is_found(ShaCalls {
        // The digest ends the message.
        finish: |state, digest| {
            let number = (SHA_CALLS.finish)(state, digest);
            let waits = waiting(state);
            state.tail[waits] = 0x80;
            number
        },
        ..SHA_CALLS
    }));
    assert!(is_found(ShaCalls {
        // A run that makes a block whole leaves it in the tail.
        update: |state, run| {
            let before = state.clone();
            let number = (SHA_CALLS.update)(state, run);
            if waiting(state) == 0 && waiting(&before) > 0 {
                state.tail = before.tail;
            }
            number
        },
        ..SHA_CALLS
    }));
    assert!(is_found(ShaCalls {
        // An empty run counts as a byte.
        update: |state, run| {
            let number = (SHA_CALLS.update)(state, run);
            if run.is_empty() {
                state.words[9] = state.words[9].wrapping_add(1);
            }
            number
        },
        ..SHA_CALLS
    }));
    assert!(is_found(ShaCalls {
        // The high word of the count isn't carried to.
        update: |state, run| {
            let high = state.words[8];
            let number = (SHA_CALLS.update)(state, run);
            state.words[8] = high;
            number
        },
        ..SHA_CALLS
    }));
    assert!(is_found(ShaCalls {
        // Beginning leaves the tail as it was.
        begin: |state| {
            let tail = state.tail;
            let number = (SHA_CALLS.begin)(state);
            state.tail = tail;
            number
        },
        ..SHA_CALLS
    }));
}

/// The safe side gives what the calls do, and is a writer.
#[test]
fn the_safe_hash_goes_the_same_way() {
    for number in 0..2_000 {
        let mut random = random(number);
        let len = random.below(400);
        let message = random.bytes(len);
        let (mut updated, mut written) = (Sha256::new(), Sha256::default());
        let mut halfway = (0, Sha256::new());
        let mut at = 0;
        while at < len {
            let run = &message[at..][..random.below(100).min(len - at)];
            updated.update(run);
            assert_eq!(written.write(run).unwrap(), run.len());
            written.flush().unwrap();
            at += run.len();
            if random.once_in(3) {
                halfway = (at, updated.clone());
            }
        }
        let expected = reference::sha256(&message);
        assert_eq!(sha256(&message), expected);
        assert_eq!(updated.finish(), expected);
        assert_eq!(updated, written);
        let (came, mut cloned) = halfway;
        assert_eq!(cloned.finish(), reference::sha256(&message[..came]));
        cloned.write_all(&message[came..]).unwrap();
        assert_eq!(cloned.finish(), expected);
    }
}
