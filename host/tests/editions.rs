//! The old edition read and written, and messages of each edition turned into the other, by the library
//! against the reference.
//!
//! `SOAK=N` compares N inputs instead of the usual number; `SOAK_FROM=M` starts with input number M.

mod reference;
mod support;

use fordtrumpet::{
    accept, downgrade, serve, sha256, upgrade, write_old_index, write_response, Block,
    FilesBuilder, Flags, Outcome, RequestQueue, Serving, Table, REPLY,
};
use reference::Edition;
use std::io::Write;
use support::compare::{laid_out, Compared, Comparison, READING, WRITING};
use support::damage;
use support::generate;
use support::library::{Answer, Library, LIBRARY};
use support::random::Random;
use support::settings::setting;

const INPUTS: u64 = 250_000;
const SEED: u64 = 0x01D0_ED17_0000_0000;

/// The messages that are made of an input.
const MESSAGES: u64 = 4;

/// Input number `number`: a draft, whole or damaged, and messages of this edition made from it.
fn compare_input(comparison: &mut Comparison, edition: Edition, number: u64) -> Compared {
    let mut random = Random::new(SEED ^ number.wrapping_mul(0xD134_2543_DE82_EF95));
    let mut draft = generate::draft(&mut random);
    draft.edition = edition;
    if random.once_in(2) {
        damage::draft(&mut draft, &mut random);
    }
    let kind = draft.kind();
    // The writers of the new edition are compared in `differential.rs`.
    if edition == Edition::Old && kind != 7 {
        comparison.write(&draft, &mut random)?;
    }
    // Where such a message has none, that of the link may be anything.
    let repository = match draft.repository() {
        Some(repository) => repository.to_vec(),
        None => random
            .pick(&[&b"default"[..], b"\xFF", &[b'r'; 65]])
            .to_vec(),
    };
    let whole = draft.encode();
    for _ in 0..MESSAGES {
        let mut message = whole.clone();
        if !random.once_in(4) {
            damage::encoding(&mut message, &mut random);
        }
        let (memory, lies) = laid_out(&message.bytes, &mut random);
        let message = &memory[lies];
        comparison.read(edition, kind, message)?;
        match edition {
            Edition::Old => comparison.upgrade(kind, message, &repository, &mut random)?,
            Edition::New => comparison.downgrade(kind, message, &mut random)?,
        }
    }
    Ok(())
}

/// Says something even when the test passes.
fn say(text: &str) {
    let _ = writeln!(std::io::stderr(), "{text}");
}

/// Compares generated messages. In a usual run every number has to be met.
fn compare_generated(edition: Edition, every_number_was_met: fn(&Comparison)) {
    let from = setting("SOAK_FROM").unwrap_or(0);
    let inputs = setting("SOAK").unwrap_or(INPUTS);
    let mut comparison = Comparison::new(LIBRARY);
    for number in from..from + inputs {
        if let Err(difference) = compare_input(&mut comparison, edition, number) {
            panic!("input {number}: {difference}");
        }
    }
    let (messages, calls) = (inputs * MESSAGES, comparison.calls);
    say(&format!(
        "{edition:?} edition, {messages} messages from input {from} on: \
         {calls} calls compared, no difference"
    ));
    if inputs >= INPUTS {
        every_number_was_met(&comparison);
    }
}

#[test]
fn generated_old_messages_get_the_same_answers() {
    compare_generated(Edition::Old, |comparison| {
        for call in ["read_old", "upgrade"] {
            for (kind, numbers) in &READING[..6] {
                comparison.met_often(call, *kind, &[0, 2, 3, 4]);
                comparison.met_often(call, *kind, numbers);
            }
            comparison.met_often(call, 7, &[1, 2, 3]);
        }
        for (kind, numbers) in &WRITING[..6] {
            comparison.met_often("write_old", *kind, numbers);
            comparison.met_often("write_old", *kind, &[0, 14]);
            comparison.met_often("upgrade", *kind, &[14]);
        }
        for kind in [1, 2, 6] {
            comparison.met_often("upgrade by Repository", kind, &[5, 7]);
        }
    });
}

#[test]
fn generated_new_messages_get_the_same_answers() {
    compare_generated(Edition::New, |comparison| {
        for (kind, numbers) in READING {
            for call in ["read", "downgrade"] {
                comparison.met_often(call, kind, &[2, 3, 4]);
                comparison.met_often(call, kind, numbers);
            }
            let last = match kind {
                7 => 18,
                _ => 14,
            };
            comparison.met_often("downgrade", kind, &[0, last]);
        }
    });
}

#[test]
fn short_messages_damaged_anywhere_are_turned_alike() {
    let mut comparison = Comparison::new(LIBRARY);
    let mut random = Random::new(SEED);
    for draft in generate::short_messages() {
        let kind = draft.kind();
        damage::everywhere(&draft.encode().bytes, |bytes| {
            // Each by the other edition too, where it is another message or none.
            for repository in [&b"r"[..], b"", b"\xFF"] {
                let compared = comparison.upgrade(kind, bytes, repository, &mut random);
                compared.unwrap();
            }
            comparison.downgrade(kind, bytes, &mut random).unwrap();
        });
    }
    say(&format!(
        "cuts and bytes: {} calls compared, no difference",
        comparison.calls
    ));
}

/// Every Repository of at most two bytes, each length around the limit, and a broken byte at each place.
#[test]
fn every_short_repository_is_taken_alike() {
    let mut repositories = vec![Vec::new()];
    for first in 0..=255 {
        repositories.push(vec![first]);
        repositories.extend((0..=255).map(|second| vec![first, second]));
    }
    repositories.extend((0..70).map(|len| vec![b'r'; len]));
    for len in 1..70 {
        for at in 0..len {
            let mut repository = vec![b'r'; len];
            repository[at] = 0xE2;
            repositories.push(repository);
        }
    }
    let mut comparison = Comparison::new(LIBRARY);
    let mut random = Random::new(SEED + 1);
    for draft in generate::short_messages() {
        if draft.edition == Edition::Old {
            let message = draft.encode().bytes;
            for repository in &repositories {
                let compared = comparison.upgrade(draft.kind(), &message, repository, &mut random);
                compared.unwrap();
            }
        }
    }
    say(&format!(
        "repositories: {} calls compared, no difference",
        comparison.calls
    ));
}

/// What a host does on an old link: it turns up what comes and turns down what goes.
#[test]
fn a_block_comes_over_an_old_link() {
    let data = *b"hello";
    let hash = sha256(&data);
    let mut files = FilesBuilder::new();
    let block = Block {
        length: 5,
        hash: &hash,
    };
    files.push("notes.txt", Flags(0o644), 0, 0, [block]);
    let mut wire = [0; 500];
    let length = write_old_index(1, files.as_bytes(), &mut wire).unwrap();

    let (mut new, mut out) = ([0; 500], [0; 500]);
    let length = upgrade(&wire[..length], "default", &mut new).unwrap();
    let theirs = accept(Table::EMPTY, &new[..length], "default", &mut out).unwrap();
    assert_eq!(theirs.as_bytes(), files.as_bytes());
    let mut queue = RequestQueue::open();
    let issued = queue
        .peer(3)
        .issue("default", "notes.txt", 0, 5, &hash, &mut new);
    let length = downgrade(&new[..issued.unwrap().written], &mut wire).unwrap();

    let length = upgrade(&wire[..length], "default", &mut new).unwrap();
    let mut reply = [0; REPLY];
    let serving = serve(theirs, "default", &new[..length], &mut reply).unwrap();
    let Serving::Served { id, .. } = serving else {
        panic!("{serving:?}")
    };
    let length = write_response(id, &data, &mut wire).unwrap();

    let answered = queue.peer(3).answer(&wire[..length]).unwrap();
    assert_eq!(answered.outcome, Outcome::Data(&data));
}

/// Compares a library with a fault until that is found.
fn is_found(library: Library) -> bool {
    let mut comparison = Comparison::new(library);
    (0..5_000).any(|number| {
        [Edition::Old, Edition::New]
            .iter()
            .any(|&edition| compare_input(&mut comparison, edition, number).is_err())
    })
}

/// The type in the header of a message, or 0 where there is none.
fn kind(message: &[u8]) -> u8 {
    message.get(2).copied().unwrap_or(0)
}

/// The refusal of a Repository.
fn of_repository(repository: &[u8]) -> Option<Answer<1>> {
    if repository.len() > 64 {
        return Some((5, [4]));
    }
    let error = std::str::from_utf8(repository).err()?;
    Some((7, [8 + error.valid_up_to() as u64]))
}

/// A fault of what a call does with the buffer it is lent.
type InBuffer = fn(Answer<1>, &mut [u8]) -> Answer<1>;

const ID_LOST: InBuffer = |answer, out| {
    if answer.0 == 0 {
        out[..2].fill(0);
    }
    answer
};

const BYTE_AFTER_CHANGED: InBuffer = |answer, out| {
    if let (0, [len]) = answer {
        if let Some(byte) = out.get_mut(len as usize) {
            *byte ^= 1;
        }
    }
    answer
};

const BEGUN_AND_REFUSED: InBuffer = |answer, out| {
    if let (1.., Some(byte)) = (answer.0, out.first_mut()) {
        *byte ^= 1;
    }
    answer
};

#[test]
fn a_difference_is_found() {
    assert!(!is_found(LIBRARY));
    assert!(is_found(Library {
        // Type 7 is let through.
        read_old: |input| match kind(input) {
            7 => (LIBRARY.read)(input),
            _ => (LIBRARY.read_old)(input),
        },
        ..LIBRARY
    }));
    assert!(is_found(Library {
        // Of type 7 the reserved bits come first.
        read_old: |input| match (LIBRARY.read_old)(input) {
            (3, answer) if kind(input) == 7 && input[3] != 0 => (4, answer),
            answer => answer,
        },
        ..LIBRARY
    }));
    assert!(is_found(Library {
        // Places are counted as if there were an empty Repository.
        read_old: |input| match (LIBRARY.read_old)(input) {
            (number @ 5.., mut answer) => {
                answer[0] += 4;
                (number, answer)
            }
            answer => answer,
        },
        ..LIBRARY
    }));
    assert!(is_found(Library {
        // The safe side takes the other reading.
        read_old_safely: LIBRARY.read_safely,
        ..LIBRARY
    }));
    assert!(is_found(Library {
        // What is written has a Repository.
        write: |draft, out| {
            let mut draft = draft.clone();
            draft.edition = Edition::New;
            (LIBRARY.write)(&draft, out)
        },
        ..LIBRARY
    }));

    assert!(is_found(Library {
        // The Repository is checked before the message is read.
        upgrade: |old, repository, out| match of_repository(repository) {
            Some(refusal) if matches!(kind(old), 1 | 2 | 6) => refusal,
            _ => (LIBRARY.upgrade)(old, repository, out),
        },
        ..LIBRARY
    }));
    assert!(is_found(Library {
        // It is checked where it isn't used.
        upgrade: |old, repository, out| match of_repository(repository) {
            Some(refusal) if (LIBRARY.read_old)(old).0 == 0 => refusal,
            _ => (LIBRARY.upgrade)(old, repository, out),
        },
        ..LIBRARY
    }));
    assert!(is_found(Library {
        // The place of its bad byte is that of its length word.
        upgrade: |old, repository, out| match (LIBRARY.upgrade)(old, repository, out) {
            answer @ (7, _) if Some(answer) == of_repository(repository) => (7, [4]),
            answer => answer,
        },
        ..LIBRARY
    }));
    assert!(is_found(Library {
        // That place is counted from the Repository's first byte.
        upgrade: |old, repository, out| match (LIBRARY.upgrade)(old, repository, out) {
            (7, [place]) if of_repository(repository) == Some((7, [place])) => (7, [place - 8]),
            answer => answer,
        },
        ..LIBRARY
    }));
    assert!(is_found(Library {
        // The room is looked at before the Repository.
        upgrade: |old, repository, out| match (LIBRARY.upgrade)(old, repository, out) {
            (5 | 7, _) if out.is_empty() && (LIBRARY.read_old)(old).0 == 0 => (14, [0]),
            answer => answer,
        },
        ..LIBRARY
    }));
    assert!(is_found(Library {
        // Bytes after the message go along.
        upgrade: |old, repository, out| match (LIBRARY.upgrade)(old, repository, out) {
            (0, [len]) => {
                let after = old.len() as u64 - (LIBRARY.read_old)(old).1[0];
                (0, [len + after])
            }
            answer => answer,
        },
        ..LIBRARY
    }));
    assert!(is_found(Library {
        upgrade: |old, repository, out| ID_LOST((LIBRARY.upgrade)(old, repository, out), out),
        ..LIBRARY
    }));
    assert!(is_found(Library {
        upgrade: |old, repository, out| {
            BYTE_AFTER_CHANGED((LIBRARY.upgrade)(old, repository, out), out)
        },
        ..LIBRARY
    }));
    assert!(is_found(Library {
        upgrade: |old, repository, out| {
            BEGUN_AND_REFUSED((LIBRARY.upgrade)(old, repository, out), out)
        },
        ..LIBRARY
    }));

    assert!(is_found(Library {
        // The room is looked at before the type.
        downgrade: |new, out| match (LIBRARY.downgrade)(new, out) {
            (18, _) if out.len() < new.len() => (14, [0]),
            answer => answer,
        },
        ..LIBRARY
    }));
    assert!(is_found(Library {
        // The type is looked at before the rest is read.
        downgrade: |new, out| match (LIBRARY.downgrade)(new, out) {
            (1.., [place]) if place >= 4 && kind(new) == 7 => (18, [0]),
            answer => answer,
        },
        ..LIBRARY
    }));
    assert!(is_found(Library {
        // Places are counted in the old message.
        downgrade: |new, out| match (LIBRARY.downgrade)(new, out) {
            (number @ 1.., [place]) if place >= 8 => (number, [place - 4]),
            answer => answer,
        },
        ..LIBRARY
    }));
    assert!(is_found(Library {
        // The first bytes of the Repository stay.
        downgrade: |new, out| {
            let answer = (LIBRARY.downgrade)(new, out);
            if answer.0 == 0 && matches!(kind(new), 1 | 2 | 6) {
                out[4..8].copy_from_slice(&new[4..8]);
            }
            answer
        },
        ..LIBRARY
    }));
    assert!(is_found(Library {
        downgrade: |new, out| ID_LOST((LIBRARY.downgrade)(new, out), out),
        ..LIBRARY
    }));
    assert!(is_found(Library {
        downgrade: |new, out| BYTE_AFTER_CHANGED((LIBRARY.downgrade)(new, out), out),
        ..LIBRARY
    }));
    assert!(is_found(Library {
        downgrade: |new, out| BEGUN_AND_REFUSED((LIBRARY.downgrade)(new, out), out),
        ..LIBRARY
    }));
}
