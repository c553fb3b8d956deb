//! Known answers: each check of reading and writing at its place, for the reference and the library.

mod reference;
mod support;

use reference::{Body as Read, Message, Refusal, Span};
use support::compare::read_words;
use support::draft::{Body, Draft};
use support::encode::{Block, Encoding, File};
use support::library::LIBRARY;

/// Both read `input` and give this: the bytes used, or a number and a place.
#[track_caller]
fn reads(input: &[u8], expected: Result<usize, (u32, usize)>) {
    let read = reference::read(input);
    let given = read.map(|message| message.end);
    assert_eq!(
        given.map_err(|refusal| (refusal.number, refusal.place)),
        expected
    );
    assert_eq!((LIBRARY.read)(input), read_words(&read));
    assert_eq!((LIBRARY.read_safely)(input), read_words(&read));
}

/// Both read `input` and give this message.
#[track_caller]
fn reads_as(input: &[u8], expected: Message) {
    assert_eq!(reference::read(input), Ok(expected));
    assert_eq!((LIBRARY.read)(input), read_words(&Ok(expected)));
    assert_eq!((LIBRARY.read_safely)(input), read_words(&Ok(expected)));
}

/// Both refuse to write the draft, whatever the room, and leave the buffer as it was.
#[track_caller]
fn refuses(draft: &Draft, number: u32, place: usize) {
    for room in [0, 4, 200_000] {
        let mut out = vec![0xD7; room];
        let refusal = draft.write_with_reference(&mut out).unwrap_err();
        assert_eq!(refusal, Refusal { number, place });
        assert_eq!(draft.write_with_library(&mut out), Err((number, place)));
        assert!(out.iter().all(|&byte| byte == 0xD7));
    }
}

/// Both write `expected`, need room for all of it, and change no byte after it.
#[track_caller]
fn writes(draft: &Draft, expected: &[u8]) {
    let len = expected.len();
    for write in [with_reference, Draft::write_with_library] {
        for room in [len, len + 1, len + 100] {
            let mut out = vec![0xD7; room];
            assert_eq!(write(draft, &mut out), Ok(len));
            assert_eq!(&out[..len], expected);
            assert!(out[len..].iter().all(|&byte| byte == 0xD7));
        }
        for room in [0, len / 2, len - 1] {
            let mut out = vec![0xD7; room];
            assert_eq!(write(draft, &mut out), Err((14, 0)));
            assert!(out.iter().all(|&byte| byte == 0xD7));
        }
    }
}

fn with_reference(draft: &Draft, out: &mut [u8]) -> Result<usize, (u32, usize)> {
    let written = draft.write_with_reference(out);
    written.map_err(|refusal| (refusal.number, refusal.place))
}

const NOTHING: Span = Span { start: 8, len: 0 };

#[test]
fn the_nine_known_messages() {
    let empty_index = Read::Index {
        repository: NOTHING,
        files: Span { start: 8, len: 4 },
        count: 0,
    };
    let message = |id, end, body| Message { id, end, body };
    reads_as(&[0, 0, 4, 0], message(0, 4, Read::Ping));
    reads_as(&[0x0F, 0xFF, 5, 0], message(4095, 4, Read::Pong));
    reads(&[0x10, 0, 8, 1], Err((2, 0)));
    reads(&[0, 0, 8, 0], Err((3, 0)));
    reads(&[0, 0, 4, 1], Err((4, 0)));
    reads(&[0, 0, 4], Err((1, 0)));
    let input = [0, 1, 1, 0, 0, 0, 0, 0, 0, 0, 0, 0];
    reads_as(&input, message(1, 12, empty_index));
    reads(&[0, 1, 1, 0, 0, 0, 0, 1, 0x61, 0, 0, 1], Err((6, 11)));
    let response = Read::Response { data: NOTHING };
    reads_as(&[0, 2, 3, 0, 0, 0, 0, 0], message(2, 8, response));
}

#[test]
fn header() {
    reads(&[], Err((1, 0)));
    reads(&[0xFF, 0xFF, 0xFF], Err((1, 0)));
    for bit in [0x10, 0x20, 0x40, 0x80] {
        reads(&[bit, 0, 4, 0], Err((2, 0)));
    }
    for kind in [0, 8, 9, 0x81, 0xFF] {
        reads(&[0, 0, kind, 0xFF], Err((3, 0)));
    }
    for bit in 0..8 {
        reads(&[0, 0, 1, 1 << bit], Err((4, 0)));
    }
    reads(&[0, 0, 4, 0, 0xFF, 0xFF], Ok(4));
}

/// An Options message whose single option has the key in `bytes`, given with length word and pad.
fn with_key(bytes: &[u8]) -> Vec<u8> {
    let mut message = vec![0, 0, 7, 0, 0, 0, 0, 1];
    message.extend_from_slice(bytes);
    message
}

#[test]
fn strings() {
    reads(&with_key(b""), Err((1, 8)));
    reads(&with_key(b"\0\0\0"), Err((1, 8)));
    reads(&with_key(b"\0\0\0\x41"), Err((5, 8)));
    reads(&with_key(b"\xFF\xFF\xFF\xFFabcd"), Err((5, 8)));
    reads(&with_key(b"\0\0\0\x04abc"), Err((1, 8)));
    reads(&with_key(b"\0\0\0\x01a\0\0"), Err((1, 8)));
    // A missing pad byte comes before a wrong one, and both before the text.
    reads(&with_key(b"\0\0\0\x01\x80\x01\0"), Err((1, 8)));
    reads(&with_key(b"\0\0\0\x01\x80\0\x01\0"), Err((6, 14)));
    reads(&with_key(b"\0\0\0\x01\x80\0\0\0"), Err((7, 12)));
    // An empty key is no fault, and the value comes next.
    reads(&with_key(b"\0\0\0\0"), Err((1, 12)));
    reads(&with_key(b"\0\0\0\0\0\0\x01\0"), Err((5, 12)));
    reads(&with_key(b"\0\0\0\0\0\0\0\x02ab\0\x01"), Err((6, 19)));
    reads(&with_key(b"\0\0\0\0\0\0\0\x02a\xC0\0\0"), Err((7, 17)));
    reads(&with_key(b"\0\0\0\0\0\0\0\0"), Ok(16));
}

#[test]
fn text() {
    let read = |text: &[u8]| {
        let mut message = Encoding::new();
        message
            .header(7, 0)
            .count(1, 64)
            .string(text, 64)
            .string(b"", 255);
        let read = reference::read(&message.bytes);
        assert_eq!((LIBRARY.read)(&message.bytes), read_words(&read));
        match read {
            Ok(_) => true,
            Err(refusal) => {
                let error = std::str::from_utf8(text).unwrap_err();
                let place = 12 + error.valid_up_to();
                assert_eq!((refusal.number, refusal.place), (7, place), "{text:x?}");
                false
            }
        }
    };
    for lead in 0..=255 {
        let followers = match lead {
            0x00..=0x7F => Some(0),
            0xC2..=0xDF => Some(1),
            0xE0..=0xEF => Some(2),
            0xF0..=0xF4 => Some(3),
            _ => None,
        };
        for count in 0..=4 {
            for follower in [0x80, 0xBF] {
                let mut text = vec![lead];
                text.resize(1 + count, follower);
                let narrowed =
                    matches!((lead, follower), (0xE0 | 0xF0, 0x80) | (0xED | 0xF4, 0xBF));
                let passes = followers == Some(count) && !narrowed;
                assert_eq!(read(&text), passes, "{text:x?}");
            }
        }
    }
    for byte in [0x00, 0x7F, 0xC0, 0xFF] {
        assert!(!read(&[0xC3, byte]));
        assert!(!read(&[0xE3, 0x80, byte]));
        assert!(!read(&[0xF3, 0x80, 0x80, byte]));
    }
    // Overlong forms, surrogates and what lies above Unicode don't pass; what stands beside them does.
    assert!(!read(b"\xC0\xAF"));
    assert!(!read(b"\xE0\x9F\xBF") && read(b"\xE0\xA0\x80"));
    assert!(read(b"\xED\x9F\xBF") && !read(b"\xED\xA0\x80"));
    assert!(!read(b"\xF0\x8F\xBF\xBF") && read(b"\xF0\x90\x80\x80"));
    assert!(read(b"\xF4\x8F\xBF\xBF") && !read(b"\xF4\x90\x80\x80"));
    assert!(read(b"\0"));
}

#[test]
fn the_bad_byte_of_a_text() {
    let refused_at = |text: &[u8], place| refused(&request(text, b"n", 1, 32), 7, place);
    // A byte that can't lead, after nothing, a letter, and a whole sequence.
    refused_at(b"\x80", 8);
    refused_at(b"a\xC0\xAF", 9);
    refused_at(b"\xC3\xA4\x80", 10);
    refused_at(b"\xF0\x90\x80\x80\xF5", 12);
    // The lead, whichever byte can't follow it.
    refused_at(b"a\xC2a", 9);
    refused_at(b"a\xE1\x80a", 9);
    refused_at(b"a\xF1\x80\x80a", 9);
    refused_at(b"a\xE0\x9F\x80", 9);
    refused_at(b"a\xC2\xC2\x80", 9);
    // The lead, also where the end cuts its sequence off.
    refused_at(b"ab\xC2", 10);
    refused_at(b"ab\xF1\x80\x80", 10);
    // The first of several.
    refused_at(b"a\xFF\xFE", 9);
    refused_at(b"\xC2a\x80", 8);
}

#[test]
fn the_bad_byte_of_a_pad() {
    let response = |bytes: [u8; 4], len| {
        let [a, b, c, d] = bytes;
        [0, 2, 3, 0, 0, 0, 0, len, a, b, c, d]
    };
    for (bytes, len, place) in [
        ([0xFF, 1, 0, 0], 1, 9),
        ([0xFF, 0, 1, 0], 1, 10),
        ([0xFF, 0, 0, 1], 1, 11),
        ([0xFF, 1, 1, 1], 1, 9),
        ([0xFF, 0, 0x80, 1], 1, 10),
        ([0xFF, 0xFF, 1, 0], 2, 10),
        ([0xFF, 0xFF, 0, 0xFF], 2, 11),
        ([0xFF, 0xFF, 0xFF, 1], 3, 11),
    ] {
        reads(&response(bytes, len), Err((6, place)));
    }
    reads(&response([0xFF; 4], 4), Ok(12));
}

fn file() -> File {
    File {
        name: b"a".to_vec(),
        flags: 0o644,
        modified: 7,
        version: 1,
        blocks: vec![],
    }
}

fn block() -> Block {
    Block {
        length: 1,
        hash: [0xFF; 32],
    }
}

/// An Index without a Repository: the array begins at 8 and its first file at 12.
fn index(files: &[File]) -> Draft {
    let mut encoding = Encoding::new();
    encoding.files(files);
    let body = Body::Index {
        update: false,
        repository: vec![],
        files: encoding,
    };
    Draft::new(1, body)
}

/// Both read the draft's message and, given its fields, write it.
#[track_caller]
fn accepted(draft: &Draft) {
    let message = draft.encode().bytes;
    reads(&message, Ok(message.len()));
    writes(draft, &message);
}

/// Both refuse the draft's message in reading and its fields in writing.
#[track_caller]
fn refused(draft: &Draft, number: u32, place: usize) {
    reads(&draft.encode().bytes, Err((number, place)));
    refuses(draft, number, place);
}

/// The draft with its array changed.
fn with_array(draft: &Draft, change: impl FnOnce(&mut Vec<u8>)) -> Draft {
    let mut draft = draft.clone();
    let (Body::Index { files: array, .. } | Body::Options { options: array }) = &mut draft.body
    else {
        panic!("no array");
    };
    change(&mut array.bytes);
    draft
}

#[test]
fn repository() {
    let with = |update, repository: &[u8]| {
        let mut draft = index(&[]);
        let Body::Index {
            update: is_update,
            repository: field,
            ..
        } = &mut draft.body
        else {
            unreachable!()
        };
        *is_update = update;
        *field = repository.to_vec();
        draft
    };
    for update in [false, true] {
        accepted(&with(update, &[b'r'; 64]));
        refused(&with(update, &[b'r'; 65]), 5, 4);
        refused(&with(update, b"r\xFF"), 7, 9);
        // The array comes after it.
        refused(&with_array(&with(update, b"rep"), Vec::clear), 1, 12);
    }
    reads(&[0, 0, 1, 0], Err((1, 4)));
    reads(&[0, 0, 6, 0], Err((1, 4)));
}

#[test]
fn files_cut_anywhere() {
    let mut with_block = file();
    with_block.blocks = vec![block()];
    let draft = index(&[with_block, file()]);
    // Where each field of the array begins in the message.
    let fields = [8, 12, 20, 24, 32, 36, 40, 44, 80, 88, 92, 100, 104, 108];
    let whole = draft.encode().bytes;
    assert_eq!(whole.len(), 108);
    accepted(&draft);
    for cut in 8..whole.len() {
        let place = fields.into_iter().rfind(|&place| place <= cut).unwrap();
        refused(
            &with_array(&draft, |array| array.truncate(cut - 8)),
            1,
            place,
        );
    }
    // Bytes after the array's end don't count.
    writes(&with_array(&draft, |array| array.extend(b"more")), &whole);
}

#[test]
fn names() {
    let with = |name: &[u8]| {
        index(&[File {
            name: name.to_vec(),
            ..file()
        }])
    };
    accepted(&with(&[b'n'; 255]));
    refused(&with(&[b'n'; 256]), 5, 12);
    refused(&with(b"\x80"), 7, 16);
    refused(&with(b""), 8, 12);
    refused(&with_array(&with(b"n"), |array| array[11] = 1), 6, 19);
    // Any order will do, and names may stand twice.
    accepted(&index(&[file(), file()]));
}

/// What begins or ends with a slash, has two together, a part that is exactly `.` or `..`, or a zero byte.
const NO_PATHS: [&[u8]; 16] = [
    b"../show.mov",
    b"/",
    b"/a",
    b"a/",
    b"a//b",
    b".",
    b"..",
    b"./a",
    b"a/.",
    b"a/./b",
    b"a/..",
    b"a/../b",
    b"\0",
    b"\0a",
    b"a\0",
    b"a\0b",
];

/// What only looks so.
const PATHS: [&[u8]; 10] = [
    b"...", b"a/.../b", b"a/b/c", b".a", b"a.", b"..a/b..", b". ", b"\\", b"..\\a", b"c:",
];

fn named(name: &[u8]) -> File {
    File {
        name: name.to_vec(),
        ..file()
    }
}

#[test]
fn names_are_plain_paths() {
    for name in NO_PATHS {
        refused(&index(&[named(name)]), 24, 12);
        refused(&index(&[file(), named(name)]), 24, 40);
        refused(&request(b"repository", name, 1, 32), 24, 20);
    }
    for name in PATHS {
        accepted(&index(&[named(name)]));
        accepted(&request(b"repository", name, 1, 32));
    }
    // Other strings are held to no such rule.
    accepted(&request(b"../r\0//", b"n", 1, 32));
}

#[test]
fn a_name_that_is_no_plain_path_comes_after_all_else_in_it() {
    // Its limit, its bytes, its pad, its text, and whether it is empty.
    let long = [&[b'a'; 255][..], b"/"].concat();
    refused(&index(&[named(&long)]), 5, 12);
    refused(&index(&[named(&long[1..])]), 24, 12);
    let slash = index(&[named(b"a/")]);
    refused(&with_array(&slash, |array| array.truncate(11)), 1, 12);
    refused(&with_array(&slash, |array| array[11] = 1), 6, 19);
    refused(&index(&[named(b"\xFF/")]), 7, 16);
    refused(&request(b"r", b"/\xC0\xAF", 0, 0), 7, 17);
    refused(&request(b"r", b"", 0, 0), 8, 12);
    // The next field comes later, one before it earlier.
    refused(&request(b"r", b"/", 0, 0), 24, 12);
    refused(&with_array(&slash, |array| array[12] = 0xFF), 24, 12);
    refused(&request(b"\xFF", b"/", 1, 32), 7, 8);
    let flags = 0x4000;
    refused(&index(&[File { flags, ..file() }, named(b"/")]), 11, 20);
}

#[test]
fn flags() {
    let with = |flags, blocks: usize| {
        index(&[File {
            flags,
            blocks: vec![block(); blocks],
            ..file()
        }])
    };
    for flags in [0, 0xFFF, 0x1000, 0x2000, 0x3FFF] {
        accepted(&with(flags, 0));
    }
    accepted(&with(0x2FFF, 1));
    for bit in 14..32 {
        refused(&with(1 << bit, 0), 11, 20);
    }
    refused(&with(0x1000, 1), 12, 36);
    refused(&with(0x3FFF, 1024), 12, 36);
    refused(&with(0x1000, 1025), 5, 36);
    // A flag at fault comes before the fields after it.
    refused(
        &with_array(&with(0x4000, 0), |array| array.truncate(16)),
        11,
        20,
    );
    // Modified and Version may be anything.
    accepted(&index(&[File {
        modified: i64::MIN,
        version: u32::MAX,
        ..file()
    }]));
}

#[test]
fn blocks() {
    let with = |blocks: Vec<Block>| index(&[File { blocks, ..file() }, file()]);
    let long = |length| Block { length, ..block() };
    accepted(&with(vec![block(); 1024]));
    refused(&with(vec![block(); 1025]), 5, 36);
    accepted(&with(vec![long(1), long(131_072)]));
    refused(&with(vec![long(0)]), 10, 40);
    refused(&with(vec![long(131_073)]), 10, 40);
    refused(&with(vec![block(), long(u32::MAX)]), 10, 80);
    let two = with(vec![block(), block()]);
    for len in [0, 31, 33, 0xFF] {
        refused(&with_array(&two, |array| array[39] = len), 9, 44);
        refused(&with_array(&two, |array| array[79] = len), 9, 84);
        // The length of a hash comes before its bytes.
        let cut = with_array(&two, |array| {
            array[79] = len;
            array.truncate(80);
        });
        refused(&cut, 9, 84);
    }
    // A Length at fault comes before the hash.
    let both = with_array(&two, |array| {
        array[35] = 0;
        array[39] = 31;
    });
    refused(&both, 10, 40);
}

#[test]
fn number_of_files() {
    let files = |count| index(&vec![file(); count]);
    accepted(&files(0));
    accepted(&files(512));
    refused(&files(513), 5, 8);
    // A count asks for nothing in advance, but one above its limit is at fault at once.
    refused(&with_array(&files(0), |array| array[3] = 1), 1, 12);
    refused(&with_array(&files(0), |array| array[0] = 1), 5, 8);
}

fn request(repository: &[u8], name: &[u8], length: u32, hash_len: usize) -> Draft {
    let body = Body::Request {
        repository: repository.to_vec(),
        name: name.to_vec(),
        offset: u64::MAX,
        length,
        hash: vec![0xFF; hash_len],
    };
    Draft::new(4095, body)
}

#[test]
fn requests() {
    let draft = request(b"r", b"n", 131_072, 32);
    accepted(&draft);
    let whole = draft.encode().bytes;
    assert_eq!(whole.len(), 68);
    let expected = Message {
        id: 4095,
        end: 68,
        body: Read::Request {
            repository: Span { start: 8, len: 1 },
            name: Span { start: 16, len: 1 },
            offset: u64::MAX,
            length: 131_072,
            hash: Span { start: 36, len: 32 },
        },
    };
    reads_as(&whole, expected);
    let fields = [0, 4, 12, 20, 28, 32];
    for cut in 0..whole.len() {
        let place = fields.into_iter().rfind(|&place| place <= cut).unwrap();
        reads(&whole[..cut], Err((1, place)));
    }
    accepted(&request(b"", &[b'n'; 255], 1, 32));
    accepted(&request(&[b'r'; 64], b"n", 1, 32));
    refused(&request(&[b'r'; 65], b"n", 1, 32), 5, 4);
    refused(&request(b"r\xC3", b"n", 1, 32), 7, 9);
    refused(&request(b"r", &[b'n'; 256], 1, 32), 5, 12);
    refused(&request(b"r", b"\xF8", 1, 32), 7, 16);
    refused(&request(b"r", b"", 1, 32), 8, 12);
    for length in [0, 131_073, u32::MAX] {
        refused(&request(b"r", b"n", length, 32), 10, 28);
    }
    for hash_len in [0, 31, 33, 64] {
        refused(&request(b"r", b"n", 1, hash_len), 9, 32);
    }
    // The first fault from the left counts.
    refused(&request(b"\xFF", b"", 0, 0), 7, 8);
    refused(&request(b"r", b"", 0, 0), 8, 12);
    refused(&request(b"r", b"n", 0, 0), 10, 28);
    let mut pad = whole;
    pad[17] = 1;
    reads(&pad, Err((6, 17)));
}

#[test]
fn responses() {
    let response = |len| {
        let data = vec![0xFF; len];
        Draft::new(2, Body::Response { data })
    };
    for len in [0, 1, 2, 3, 4, 5, 131_071, 131_072] {
        accepted(&response(len));
    }
    refused(&response(131_073), 5, 4);
    reads(&[0, 2, 3, 0], Err((1, 4)));
    reads(&[0, 2, 3, 0, 0, 0, 0, 1, 0x80, 0, 0], Err((1, 4)));
    reads(&[0, 2, 3, 0, 0, 0, 0, 1, 0x80, 0, 0, 1], Err((6, 11)));
    // Data is no text.
    reads(&[0, 2, 3, 0, 0, 0, 0, 1, 0x80, 0, 0, 0], Ok(12));
}

#[test]
fn options() {
    let with = |key: &[u8], value: &[u8], count| {
        let mut options = Encoding::new();
        options.options(&vec![(key.to_vec(), value.to_vec()); count]);
        Draft::new(3, Body::Options { options })
    };
    accepted(&with(b"", b"", 64));
    accepted(&with(&[b'k'; 64], &[b'v'; 255], 64));
    refused(&with(b"", b"", 65), 5, 4);
    refused(&with(&[b'k'; 65], b"", 1), 5, 8);
    refused(&with(b"\xC3", b"", 1), 7, 12);
    refused(&with(b"key", &[b'v'; 256], 1), 5, 16);
    refused(&with(b"key", b"\x80", 1), 7, 20);
    refused(
        &with_array(&with(b"key", b"v", 1), |array| array[11] = 1),
        6,
        15,
    );
    refused(
        &with_array(&with(b"key", b"v", 1), |array| array[17] = 1),
        6,
        21,
    );
    let draft = with(b"key", b"v", 1);
    for (cut, place) in [(0, 4), (3, 4), (4, 8), (11, 8), (12, 16), (19, 16)] {
        refused(&with_array(&draft, |array| array.truncate(cut)), 1, place);
    }
    writes(
        &with_array(&draft, |array| array.push(0)),
        &draft.encode().bytes,
    );
}

#[test]
fn ids() {
    let mut options = Encoding::new();
    options.options(&[]);
    let drafts = [
        index(&[]),
        Draft::new(
            0,
            Body::Index {
                update: true,
                repository: vec![],
                files: options.clone(),
            },
        ),
        request(b"r", b"n", 1, 32),
        Draft::new(0, Body::Response { data: vec![] }),
        Draft::new(0, Body::Ping),
        Draft::new(0, Body::Pong),
        Draft::new(0, Body::Options { options }),
    ];
    for mut draft in drafts {
        for id in [0, 1, 255, 256, 4095] {
            draft.id = id;
            accepted(&draft);
        }
        for id in [4096, 0x1_0000, 0x1000_0000, u32::MAX] {
            draft.id = id;
            refuses(&draft, 5, 0);
        }
    }
    // The ID comes before all fields.
    let mut wrong = request(b"", b"", 0, 0);
    wrong.id = 4096;
    refuses(&wrong, 5, 0);
}
