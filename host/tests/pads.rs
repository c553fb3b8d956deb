//! A pad byte that isn't zero, in every string and opaque: 6 at the first such byte, by the library and by
//! the reference.

mod reference;
mod support;

use std::io::Write;
use support::compare::Compared;
use support::draft::{Body, Draft};
use support::encode::{Encoding, Field, File, What};
use support::library::{Answer, LIBRARY};

/// The calls of one side. Faults are planted by taking others.
struct Side {
    name: &'static str,
    read: fn(&[u8]) -> Answer<1>,
    write: fn(&Draft, &mut [u8]) -> Answer<1>,
}

const LIBRARY_SIDE: Side = Side {
    name: "library",
    read: |input| {
        let (number, answer) = (LIBRARY.read)(input);
        (number, [answer[0]])
    },
    write: LIBRARY.write,
};

const SIDES: [Side; 2] = [
    LIBRARY_SIDE,
    Side {
        name: "reference",
        read: |input| words(reference::read(input).map(|message| message.end)),
        write: |draft, out| words(draft.write_with_reference(out)),
    },
];

fn words(answer: Result<usize, reference::Refusal>) -> Answer<1> {
    match answer {
        Ok(len) => (0, [len as u64]),
        Err(refusal) => (refusal.number, [refusal.place as u64]),
    }
}

/// Messages with every string and opaque there is, each of `len` bytes.
fn messages(len: usize) -> Vec<Draft> {
    let string = vec![b'x'; len];
    let file = File {
        name: string.clone(),
        flags: 0,
        modified: 0,
        version: 0,
        blocks: vec![],
    };
    let (mut files, mut options) = (Encoding::new(), Encoding::new());
    files.files(&[file.clone(), file]);
    options.options(&[
        (string.clone(), string.clone()),
        (string.clone(), string.clone()),
    ]);
    let index = |update| Body::Index {
        update,
        repository: string.clone(),
        files: files.clone(),
    };
    let request = Body::Request {
        repository: string.clone(),
        name: string.clone(),
        offset: 0,
        length: 1,
        hash: vec![0; 32],
    };
    let response = Body::Response {
        data: vec![0xFF; len],
    };
    let bodies = [
        index(false),
        index(true),
        request,
        response,
        Body::Options { options },
    ];
    bodies.map(|body| Draft::new(1, body)).to_vec()
}

/// Pads of this length: of two bytes all there are, of three every value of each byte beside some values
/// of the others.
fn pads(len: usize) -> Vec<Vec<u8>> {
    const SOME: [u8; 4] = [0, 1, 0x80, 0xFF];
    let all = 0..=255u8;
    match len {
        1 => all.map(|byte| vec![byte]).collect(),
        2 => (0..=u16::MAX)
            .map(|pad| pad.to_be_bytes().to_vec())
            .collect(),
        _ => all
            .flat_map(|byte| SOME.map(|other| (byte, other)))
            .flat_map(|(byte, other)| SOME.map(|third| (byte, other, third)))
            .flat_map(|(byte, other, third)| {
                [
                    vec![byte, other, third],
                    vec![other, byte, third],
                    vec![other, third, byte],
                ]
            })
            .collect(),
    }
}

/// What follows from a pad at this place: 6 at its first byte that isn't zero, or as many bytes as there
/// are.
fn expected(pad: &[u8], at: usize, len: usize) -> Answer<1> {
    let zeros = pad.iter().take_while(|&&byte| byte == 0).count();
    match zeros == pad.len() {
        true => (0, [len as u64]),
        false => (6, [(at + zeros) as u64]),
    }
}

/// The pads among the fields of an encoding.
fn pads_of(encoding: &Encoding) -> Vec<Field> {
    let fields = encoding.fields.iter().copied();
    fields.filter(|field| field.what == What::Pad).collect()
}

/// Compares a side's answers, and gives how many.
fn compare(side: &Side, lens: impl Iterator<Item = usize>) -> Result<u64, String> {
    let mut compared = 0;
    for draft in lens.flat_map(messages) {
        let message = draft.encode();
        for field in pads_of(&message) {
            for pad in pads(field.len) {
                compare_reading(side, &message, field, &pad)?;
                compared += 1;
            }
        }
        compared += compare_array(side, draft)?;
    }
    Ok(compared)
}

fn compare_reading(side: &Side, message: &Encoding, field: Field, pad: &[u8]) -> Compared {
    let mut input = message.bytes.clone();
    input[field.at..field.at + field.len].copy_from_slice(pad);
    let answer = (side.read)(&input);
    match answer == expected(pad, field.at, input.len()) {
        true => Ok(()),
        false => Err(format!("the {} reads {input:02x?}: {answer:?}", side.name)),
    }
}

/// The array of a message that has one.
fn array_of(draft: &mut Draft) -> Option<&mut Encoding> {
    match &mut draft.body {
        Body::Index { files: array, .. } | Body::Options { options: array } => Some(array),
        _ => None,
    }
}

/// Compares writing a message with each pad in its array, and gives how many.
fn compare_array(side: &Side, mut draft: Draft) -> Result<u64, String> {
    let len = draft.encode().bytes.len();
    let Some(array) = array_of(&mut draft) else {
        return Ok(0);
    };
    let start = len - array.bytes.len();
    let mut compared = 0;
    for Field { at, len, .. } in pads_of(array) {
        for pad in pads(len) {
            put(&mut draft, at, &pad);
            compare_writing(side, &draft, start + at, &pad)?;
            compared += 1;
        }
        put(&mut draft, at, &[0; 3][..len]);
    }
    Ok(compared)
}

/// Changes a pad of a message's array.
fn put(draft: &mut Draft, at: usize, pad: &[u8]) {
    let array = array_of(draft).expect("it has one");
    array.bytes[at..at + pad.len()].copy_from_slice(pad);
}

fn compare_writing(side: &Side, draft: &Draft, at: usize, pad: &[u8]) -> Compared {
    let mut out = [0xD7; 128];
    let answer = (side.write)(draft, &mut out);
    let len = draft.encode().bytes.len();
    if answer != expected(pad, at, len) {
        return Err(format!("the {} writes {draft:02x?}: {answer:?}", side.name));
    }
    match answer.0 != 0 && out != [0xD7; 128] {
        true => Err(format!("the {} changes what is lent", side.name)),
        false => Ok(()),
    }
}

#[test]
fn a_bad_pad_is_refused_at_its_first_byte_that_is_not_zero() {
    for side in SIDES {
        let compared = compare(&side, 1..=8).unwrap();
        let text = format!("{compared} pads by the {}: no difference", side.name);
        let _ = writeln!(std::io::stderr(), "{text}");
    }
}

#[test]
fn a_difference_is_found() {
    /// Where the pad that has its first bad byte at this place ends: pads end words.
    fn end(place: u64) -> usize {
        (place as usize + 1).next_multiple_of(4)
    }
    let faults = [
        ("none", Side { ..LIBRARY_SIDE }, false),
        (
            "the place is the length word",
            Side {
                read: |input| match (LIBRARY_SIDE.read)(input) {
                    (6, [place]) => (6, [place / 4 * 4 - 4]),
                    answer => answer,
                },
                ..LIBRARY_SIDE
            },
            true,
        ),
        (
            "the place is where the pad begins",
            Side {
                read: |input| match (LIBRARY_SIDE.read)(input) {
                    (6, [place]) => {
                        let before = &input[..place as usize];
                        let zeros = before.iter().rev().take_while(|&&byte| byte == 0).count();
                        (6, [place - zeros as u64])
                    }
                    answer => answer,
                },
                ..LIBRARY_SIDE
            },
            true,
        ),
        (
            "the place is the last bad byte",
            Side {
                read: |input| match (LIBRARY_SIDE.read)(input) {
                    (6, [place]) => {
                        let last = input[..end(place)].iter().rposition(|&byte| byte != 0);
                        (6, [last.unwrap() as u64])
                    }
                    answer => answer,
                },
                ..LIBRARY_SIDE
            },
            true,
        ),
        (
            "in writing, the place is the pad's end",
            Side {
                write: |draft, out| match (LIBRARY_SIDE.write)(draft, out) {
                    (6, [place]) => (6, [end(place) as u64]),
                    answer => answer,
                },
                ..LIBRARY_SIDE
            },
            true,
        ),
        (
            "in writing, the header doesn't count",
            Side {
                write: |draft, out| match (LIBRARY_SIDE.write)(draft, out) {
                    (6, [place]) => (6, [place - 4]),
                    answer => answer,
                },
                ..LIBRARY_SIDE
            },
            true,
        ),
    ];
    for (fault, side, is_found) in faults {
        assert_eq!(compare(&side, 1..=3).is_err(), is_found, "{fault}");
    }
}
