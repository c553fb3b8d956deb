//! The library against the reference, over messages made from fixed seeds.
//!
//! `SOAK=N` compares N inputs instead of the usual number; `SOAK_FROM=M` starts with input number M,
//! so that an input named in a failure can be run alone.

mod reference;
mod support;

use std::io::Write;
use support::compare::{laid_out, same, same_bytes, short, Comparison, READING, WRITING};
use support::damage;
use support::draft::Body;
use support::generate;
use support::library::{Library, LIBRARY};
use support::random::Random;
use support::settings::setting;

const INPUTS: u64 = 200_000;
const SEED: u64 = 0xF04D_7E57_0000_0000;

/// Input number `number`: a draft to write, whole or damaged, and a message to read made from it.
fn compare_input(comparison: &mut Comparison, number: u64) -> Result<(), String> {
    let mut random = Random::new(SEED ^ number.wrapping_mul(0xD134_2543_DE82_EF95));
    let mut draft = generate::draft(&mut random);
    if random.once_in(2) {
        damage::draft(&mut draft, &mut random);
    }
    comparison
        .write(&draft, &mut random)
        .map_err(|difference| {
            let draft = short(&format!("{draft:?}"));
            format!("input {number}, writing {draft}\n{difference}")
        })?;
    let mut message = draft.encode();
    if !random.once_in(4) {
        damage::encoding(&mut message, &mut random);
    }
    let (memory, lies) = laid_out(&message.bytes, &mut random);
    let input = &memory[lies];
    let compared = comparison.read(draft.edition, draft.kind(), input);
    compared.map_err(|difference| {
        let hex = short(&hex(input));
        format!("input {number}, reading {hex}\n{difference}")
    })
}

fn hex(bytes: &[u8]) -> String {
    bytes.iter().map(|byte| format!("{byte:02x}")).collect()
}

/// Says something even when the test passes.
fn say(text: &str) {
    let _ = writeln!(std::io::stderr(), "{text}");
}

#[test]
fn generated_messages_get_the_same_answers() {
    let from = setting("SOAK_FROM").unwrap_or(0);
    let inputs = setting("SOAK").unwrap_or(INPUTS);
    let mut comparison = Comparison::new(LIBRARY);
    for number in from..from + inputs {
        if let Err(difference) = compare_input(&mut comparison, number) {
            panic!("{difference}");
        }
    }
    say(&format!(
        "{inputs} inputs from number {from} on: {} calls compared, no difference",
        comparison.calls
    ));
    if inputs >= INPUTS {
        every_number_was_met(&comparison);
    }
}

fn every_number_was_met(comparison: &Comparison) {
    for (kind, numbers) in READING {
        comparison.met_often("read", kind, &[0, 2, 3, 4]);
        comparison.met_often("read", kind, numbers);
    }
    for (kind, numbers) in WRITING {
        comparison.met_often("write", kind, &[0, 14]);
        comparison.met_often("write", kind, numbers);
    }
}

#[test]
fn every_cut_and_every_byte_gets_the_same_answer() {
    let mut comparison = Comparison::new(LIBRARY);
    for draft in generate::short_messages() {
        damage::everywhere(&draft.encode().bytes, |bytes| {
            let compared = comparison.read(draft.edition, draft.kind(), bytes);
            compared.unwrap();
        });
    }
    say(&format!(
        "cuts and bytes: {} calls compared, no difference",
        comparison.calls
    ));
}

#[test]
fn arrays_damaged_anywhere_are_written_alike() {
    let mut comparison = Comparison::new(LIBRARY);
    let mut random = Random::new(SEED);
    for mut draft in generate::short_messages() {
        let (Body::Index { files: array, .. } | Body::Options { options: array }) = &draft.body
        else {
            continue;
        };
        let whole = array.clone();
        let room = draft.encode().bytes.len() + 4;
        let mut compare = |bytes: &[u8]| {
            let (Body::Index { files: array, .. } | Body::Options { options: array }) =
                &mut draft.body
            else {
                unreachable!()
            };
            array.bytes = bytes.to_vec();
            comparison.write_into(&draft, room, &mut random).unwrap();
        };
        for len in 0..=whole.bytes.len() {
            compare(&whole.bytes[..len]);
        }
        let mut bytes = whole.bytes.clone();
        bytes.extend_from_slice(b"after");
        compare(&bytes);
        for at in 0..whole.bytes.len() {
            for value in [0, 1, 0x1F, 0x21, 0x40, 0x7F, 0x80, 0xC0, 0xE0, 0xF5, 0xFF] {
                bytes[at] = value;
                compare(&bytes);
            }
            bytes[at] = whole.bytes[at];
        }
    }
    say(&format!(
        "damaged arrays: {} calls compared, no difference",
        comparison.calls
    ));
}

#[test]
fn every_room_gets_the_same_answer() {
    let mut comparison = Comparison::new(LIBRARY);
    let mut random = Random::new(SEED + 1);
    for draft in generate::short_messages() {
        for room in 0..draft.encode().bytes.len() + 5 {
            comparison.write_into(&draft, room, &mut random).unwrap();
        }
    }
}

#[test]
fn records_at_any_place_are_the_same() {
    let mut comparison = Comparison::new(LIBRARY);
    for draft in generate::short_messages() {
        let (Body::Index { files: array, .. } | Body::Options { options: array }) = &draft.body
        else {
            continue;
        };
        for at in (0..array.bytes.len() + 9).chain([usize::MAX - 4, usize::MAX]) {
            comparison.file(&array.bytes, at).unwrap();
            comparison.option(&array.bytes, at).unwrap();
        }
    }
}

/// Compares a library with a fault until that is found.
fn is_found(library: Library) -> bool {
    let mut comparison = Comparison::new(library);
    (0..20_000).any(|number| compare_input(&mut comparison, number).is_err())
}

#[test]
fn a_difference_is_found() {
    // In any word of an answer.
    let answer = (LIBRARY.read)(&[0, 1, 1, 0, 0, 0, 0, 0, 0, 0, 0, 0]);
    assert!(same("number", &(1, answer.1), &answer).is_err());
    for at in 0..11 {
        let mut altered = answer;
        altered.1[at] ^= 1;
        assert!(same("word", &altered, &answer).is_err());
    }
    assert!(same("nothing", &answer, &answer).is_ok());

    // In any byte of a buffer.
    let buffer = [5; 40];
    for at in 0..buffer.len() {
        let mut altered = buffer;
        altered[at] ^= 0x80;
        assert!(same_bytes("byte", &altered, &buffer).is_err());
    }
    assert!(same_bytes("length", &buffer[1..], &buffer).is_err());
    assert!(same_bytes("nothing", &buffer, &buffer).is_ok());

    // By the generated inputs, in each call.
    assert!(is_found(Library {
        // The place of a deleted file with blocks is that of its flags.
        read: |input| match (LIBRARY.read)(input) {
            (12, mut answer) => {
                answer[0] -= 16;
                (12, answer)
            }
            answer => answer,
        },
        ..LIBRARY
    }));
    assert!(is_found(Library {
        // C0 may lead, as before RFC 3629.
        read: |input| match (LIBRARY.read)(input) {
            (7, answer) if input[answer[0] as usize] == 0xC0 => (0, answer),
            answer => answer,
        },
        ..LIBRARY
    }));
    assert!(is_found(Library {
        // The place of a text is its word rather than its byte.
        read: |input| match (LIBRARY.read)(input) {
            (7, mut answer) => {
                answer[0] &= !3;
                (7, answer)
            }
            answer => answer,
        },
        ..LIBRARY
    }));
    assert!(is_found(Library {
        // The place of a pad is its last byte that isn't zero.
        read: |input| match (LIBRARY.read)(input) {
            (6, mut answer) => {
                let end = (answer[0] as usize + 1).next_multiple_of(4);
                let last = input[..end].iter().rposition(|&byte| byte != 0);
                answer[0] = last.unwrap() as u64;
                (6, answer)
            }
            answer => answer,
        },
        ..LIBRARY
    }));
    assert!(is_found(Library {
        // In writing, the place of a text is the byte after the lead.
        write: |draft, out| match (LIBRARY.write)(draft, out) {
            (7, [place]) => (7, [place + 1]),
            answer => answer,
        },
        ..LIBRARY
    }));
    assert!(is_found(Library {
        // A name may end with a slash.
        read: |input| match (LIBRARY.read)(input) {
            (24, answer) => {
                let (len, rest) = input[answer[0] as usize..].split_first_chunk().unwrap();
                match rest[..u32::from_be_bytes(*len) as usize].ends_with(b"/") {
                    true => (0, answer),
                    false => (24, answer),
                }
            }
            answer => answer,
        },
        ..LIBRARY
    }));
    assert!(is_found(Library {
        // In writing, a name that is no plain path counts as an empty one.
        write: |draft, out| match (LIBRARY.write)(draft, out) {
            (24, place) => (8, place),
            answer => answer,
        },
        ..LIBRARY
    }));
    assert!(is_found(Library {
        // Bytes after the message count.
        read: |input| match (LIBRARY.read)(input) {
            (0, answer) if answer[0] != input.len() as u64 => (1, [0; 11]),
            answer => answer,
        },
        ..LIBRARY
    }));
    assert!(is_found(Library {
        // The safe side loses the lowest bit of offsets.
        read_safely: |input| match (LIBRARY.read_safely)(input) {
            (0, mut answer) if answer[1] == 2 => {
                answer[7] &= !1;
                (0, answer)
            }
            answer => answer,
        },
        ..LIBRARY
    }));
    assert!(is_found(Library {
        // A byte after the message changes.
        write: |draft, out| {
            let answer = (LIBRARY.write)(draft, out);
            if let (0, [len]) = answer {
                if let Some(byte) = out.get_mut(len as usize) {
                    *byte ^= 1;
                }
            }
            answer
        },
        ..LIBRARY
    }));
    assert!(is_found(Library {
        // A refused call has begun to write.
        write: |draft, out| {
            let answer = (LIBRARY.write)(draft, out);
            if let (14, Some(byte)) = (answer.0, out.first_mut()) {
                *byte ^= 1;
            }
            answer
        },
        ..LIBRARY
    }));
    assert!(is_found(Library {
        // The room is looked at before the fields.
        write: |draft, out| match (LIBRARY.write)(draft, out) {
            (1..=13, _) if out.is_empty() => (14, [0]),
            answer => answer,
        },
        ..LIBRARY
    }));
    assert!(is_found(Library {
        // Modified loses its sign.
        file: |array, at| {
            let (number, mut answer) = (LIBRARY.file)(array, at);
            answer[4] &= i64::MAX as u64;
            (number, answer)
        },
        ..LIBRARY
    }));
    assert!(is_found(Library {
        // The place past an option leaves out the pad.
        option: |array, at| {
            let (number, mut answer) = (LIBRARY.option)(array, at);
            answer[0] = answer[3] + answer[4];
            (number, answer)
        },
        ..LIBRARY
    }));
}
