//! Messages off streams that give few bytes at a time, and errors between them.

mod reference;
mod support;

use fordtrumpet::{Reader, Refusal};
use reference::{read_as, Edition};
use std::io::{self, ErrorKind, Read};
use support::damage;
use support::draft::Draft;
use support::generate;
use support::random::Random;

const STREAMS: u64 = 5_000;
const SEED: u64 = 0x57EA_0000_0000_0000;

/// A stream that gives any number of bytes at a time, and now and then an error.
struct Radio<'a> {
    bytes: &'a [u8],
    random: Random,
}

impl Read for Radio<'_> {
    fn read(&mut self, out: &mut [u8]) -> io::Result<usize> {
        let most = match self.random.below(8) {
            0 => return Err(ErrorKind::Interrupted.into()),
            1 => return Err(ErrorKind::WouldBlock.into()),
            2 => self.bytes.len(),
            _ => 1 + self.random.below(40),
        };
        let most = most.min(out.len());
        self.bytes.read(&mut out[..most])
    }
}

/// A message that is whole, of this edition.
fn whole(edition: Edition, random: &mut Random) -> Draft {
    loop {
        let mut draft = generate::draft(random);
        draft.edition = edition;
        // The old edition has no Options.
        if (edition, draft.kind()) != (Edition::Old, 7) {
            return draft;
        }
    }
}

fn open<R: Read>(edition: Edition, stream: R) -> Reader<R> {
    match edition {
        Edition::New => Reader::open(stream),
        Edition::Old => Reader::open_old(stream),
    }
}

/// What comes off a stream next: a message, its end, or an error other than that it has to wait.
fn next(reader: &mut Reader<Radio>) -> io::Result<Option<Vec<u8>>> {
    loop {
        match reader.next_message() {
            Err(error) if error.kind() == ErrorKind::WouldBlock => {}
            message => return message.map(|message| message.map(<[u8]>::to_vec)),
        }
    }
}

/// Number and place of the refusal that an error holds.
fn refusal(error: &io::Error) -> Option<(u32, usize)> {
    let refusal: &Refusal = error.get_ref()?.downcast_ref()?;
    Some((refusal.number(), refusal.place()))
}

#[test]
fn messages_come_off_streams_as_they_were_sent() {
    let (mut ended, mut cut, mut refused) = (0, 0, 0);
    for number in 0..STREAMS {
        let mut random = Random::new(SEED ^ number.wrapping_mul(0xD134_2543_DE82_EF95));
        let edition = random.pick(&[Edition::Old, Edition::New]);
        let mut bytes = Vec::new();
        for _ in 0..random.below(6) {
            bytes.extend(whole(edition, &mut random).encode().bytes);
        }
        let mut last = whole(edition, &mut random).encode();
        if !random.once_in(3) {
            damage::encoding(&mut last, &mut random);
        }
        bytes.extend(last.bytes);

        let mut reader = open(
            edition,
            Radio {
                bytes: &bytes,
                random,
            },
        );
        let mut rest = &bytes[..];
        loop {
            let next = next(&mut reader);
            match read_as(edition, rest) {
                Ok(message) => {
                    let (message, after) = rest.split_at(message.end);
                    assert_eq!(next.unwrap().as_deref(), Some(message), "stream {number}");
                    rest = after;
                }
                Err(_) if rest.is_empty() => {
                    assert_eq!(next.unwrap(), None, "stream {number}");
                    ended += 1;
                    break;
                }
                Err(expected) if expected.number == 1 => {
                    let kind = next.unwrap_err().kind();
                    assert_eq!(kind, ErrorKind::UnexpectedEof, "stream {number}");
                    cut += 1;
                    break;
                }
                Err(expected) => {
                    let expected = Some((expected.number, expected.place));
                    assert_eq!(refusal(&next.unwrap_err()), expected, "stream {number}");
                    // It stays so.
                    let again = self::next(&mut reader).unwrap_err();
                    assert_eq!(refusal(&again), expected, "stream {number}");
                    refused += 1;
                    break;
                }
            }
        }
    }
    // A run that meets one of them too seldom says little about it.
    assert!(
        ended > 500 && cut > 500 && refused > 500,
        "{ended} {cut} {refused}"
    );
}

#[test]
fn a_message_above_the_limit_is_refused_and_one_at_the_limit_taken() {
    for draft in generate::short_messages() {
        let message = draft.encode().bytes;
        let two = message.repeat(2);
        let mut reader = open(draft.edition, &two[..]).limit(message.len());
        for _ in 0..2 {
            assert_eq!(reader.next_message().unwrap(), Some(&message[..]));
        }
        assert_eq!(reader.next_message().unwrap(), None);

        let mut reader = open(draft.edition, &two[..]).limit(message.len() - 1);
        for _ in 0..2 {
            let error = reader.next_message().unwrap_err();
            assert_eq!(error.kind(), ErrorKind::InvalidData);
            assert_eq!(refusal(&error), None);
            let text = format!("a message is longer than {} bytes", message.len() - 1);
            assert_eq!(error.to_string(), text);
        }
    }
    // A limit that is set when more has come.
    let mut reader = Reader::open(&[0, 1, 3, 0, 0, 0][..]);
    let error = reader.next_message().unwrap_err();
    assert_eq!(error.kind(), ErrorKind::UnexpectedEof);
    let error = reader.limit(5).next_message().unwrap_err();
    assert_eq!(error.kind(), ErrorKind::InvalidData);
}
