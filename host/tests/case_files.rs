//! Runs the files in `cases/`, each case by the library and by the reference.

mod reference;
mod support;

use reference::{Edition, List, Reason, PEERS};
use std::io::Write;
use std::{fmt, iter};
use support::case_file::{bytes, cases, number, Case};
use support::compare::{expected, read_words};
use support::draft::{Body, Draft};
use support::encode::{Encoding, File};
use support::feeding::{self, told_words};
use support::library::{Answer as Words, LIBRARY};
use support::queue_calls::{
    as_lent, place_of, queue_of, Lent as Queue, QueueCalls, Wanted, Windows, QUEUE_CALLS,
    REFERENCE_CALLS,
};
use support::table_calls::TABLE_CALLS;
use support::why_calls::{self, details_words};

/// What a call answers.
#[derive(Debug, PartialEq, Eq)]
enum Answer {
    Yes,
    No,
    Served,
    Data,
    NotAvailable,
    WrongSize,
    WrongContent,
    /// A message's type, ID and number of bytes.
    Read(u64, u64, u64),
    /// What a lent buffer was filled with.
    Filled(Vec<u8>),
    /// A number and a place.
    Refused(u32, u64),
    /// A number, with the place that it has wherever such a field stands.
    RefusedWith(u32),
    /// What each run of bytes gets.
    Runs(Vec<Run>),
    /// Why a block isn't coming.
    Why(Reason),
    /// The entries of a request list: file, block, offset, length, peer.
    Entries(Vec<[u64; 5]>),
    /// What each call at a queue gets, and the lists of the queue that the last one hands back: those of
    /// all peers, or that of one.
    Calls(Vec<Called>, Vec<List>),
    /// The hash of some bytes.
    Hash([u8; 32]),
}

/// What a run of bytes gets, and how many of its bytes are taken.
#[derive(Debug, PartialEq, Eq)]
enum Run {
    Wait(u64),
    End(u64, u64),
    /// Refused with a number and a place.
    No(u32, u64, u64),
}

/// What a call at a queue gets.
#[derive(Debug, PartialEq, Eq)]
enum Called {
    /// Of an opening or a drop.
    Ok,
    /// Issued with this ID.
    Id(u64),
    /// Issued with this ID, and the Request written.
    Request(u64, Vec<u8>),
    Data,
    NotAvailable,
    WrongSize,
    WrongContent,
    /// Refused with a number and a place.
    No(u32, u64),
}

/// In the words of the files.
impl fmt::Display for Answer {
    fn fmt(&self, f: &mut fmt::Formatter<'_>) -> fmt::Result {
        match self {
            Answer::Yes => f.write_str("yes"),
            Answer::No => f.write_str("no"),
            Answer::Served => f.write_str("served"),
            Answer::Data => f.write_str("data"),
            Answer::NotAvailable => f.write_str("none"),
            Answer::WrongSize => f.write_str("size"),
            Answer::WrongContent => f.write_str("content"),
            Answer::Read(kind, id, end) => write!(f, "yes {kind} {id} {end}"),
            Answer::Filled(bytes) => {
                f.write_str("yes ")?;
                write_hex(f, bytes)
            }
            Answer::Refused(number, place) => write!(f, "no {number} {place}"),
            Answer::RefusedWith(number) => write!(f, "no {number}"),
            Answer::Runs(runs) => {
                let runs: Vec<String> = runs.iter().map(Run::to_string).collect();
                f.write_str(&runs.join(" "))
            }
            Answer::Why(Reason::NoSuchName) => f.write_str("no-name"),
            Answer::Why(Reason::Deleted) => f.write_str("deleted"),
            Answer::Why(Reason::Invalid) => f.write_str("invalid"),
            Answer::Why(Reason::NoSuchBlock) => f.write_str("no-block"),
            Answer::Why(Reason::Held { record, block }) => write!(f, "held {record} {block}"),
            Answer::Why(Reason::Wanted { peer }) => write!(f, "wanted {peer}"),
            Answer::Entries(entries) => {
                f.write_str("yes")?;
                entries.iter().try_for_each(|entry| {
                    let words = entry.map(|word| word.to_string());
                    write!(f, " {}", words.join(","))
                })
            }
            Answer::Calls(calls, lists) => {
                calls.iter().try_for_each(|called| write!(f, "{called} "))?;
                f.write_str("desk")?;
                let between = iter::once(":").chain(iter::repeat("/"));
                let mut lists = between.zip(lists);
                lists.try_for_each(|(between, list)| write_list(f, between, list))
            }
            Answer::Hash(hash) => write_hex(f, hash),
        }
    }
}

fn write_hex(f: &mut fmt::Formatter<'_>, bytes: &[u8]) -> fmt::Result {
    bytes.iter().try_for_each(|byte| write!(f, "{byte:02x}"))
}

fn write_list(f: &mut fmt::Formatter<'_>, between: &str, list: &List) -> fmt::Result {
    write!(f, "{between}{}:{}", list.window, list.next)?;
    list.outstanding().iter().try_for_each(|request| {
        write!(f, ":{},{},", request.id, request.length)?;
        write_hex(f, &request.hash)
    })
}

impl fmt::Display for Called {
    fn fmt(&self, f: &mut fmt::Formatter<'_>) -> fmt::Result {
        match self {
            Called::Ok => f.write_str("ok"),
            Called::Id(id) => write!(f, "id:{id}"),
            Called::Request(id, request) => {
                write!(f, "id:{id}:")?;
                write_hex(f, request)
            }
            Called::Data => f.write_str("data"),
            Called::NotAvailable => f.write_str("none"),
            Called::WrongSize => f.write_str("size"),
            Called::WrongContent => f.write_str("content"),
            Called::No(number, place) => write!(f, "no:{number}:{place}"),
        }
    }
}

impl fmt::Display for Run {
    fn fmt(&self, f: &mut fmt::Formatter<'_>) -> fmt::Result {
        match self {
            Run::Wait(taken) => write!(f, "wait:{taken}"),
            Run::End(end, taken) => write!(f, "end:{end}:{taken}"),
            Run::No(number, place, taken) => write!(f, "no:{number}:{place}:{taken}"),
        }
    }
}

/// The answer that a case asks for to a run.
fn run_answer(word: &str) -> Result<Run, String> {
    let parts: Vec<&str> = word.split(':').collect();
    Ok(match *parts {
        ["wait", taken] => Run::Wait(number(taken)?),
        ["end", end, taken] => Run::End(number(end)?, number(taken)?),
        ["no", refusal, place, taken] => Run::No(number(refusal)?, number(place)?, number(taken)?),
        _ => return Err(format!("{word} is no answer to a run")),
    })
}

/// The entry of a request list that a case asks for.
fn list_entry(word: &str) -> Result<[u64; 5], String> {
    let words: Result<Vec<u64>, _> = word.split(',').map(number).collect();
    <[u64; 5]>::try_from(words?).map_err(|_| format!("{word} is no entry of a list"))
}

/// The answer that a case asks for to a call at a queue.
fn called(word: &str, rules: Rules) -> Result<Called, String> {
    let parts: Vec<&str> = word.split(':').collect();
    Ok(match *parts {
        ["ok"] => Called::Ok,
        ["id", id] => Called::Id(number(id)?),
        ["id", id, request] => Called::Request(number(id)?, bytes(request)?),
        // The data are zeros, and what is asked for isn't their hash.
        ["data"] if rules < Rules::Hashes => Called::WrongContent,
        ["data"] => Called::Data,
        ["none"] => Called::NotAvailable,
        ["size"] => Called::WrongSize,
        ["content"] => Called::WrongContent,
        ["no", refusal, place] => Called::No(number(refusal)?, number(place)?),
        _ => return Err(format!("{word} is no answer to a call at a desk")),
    })
}

/// The hash that a file without hashes asks for.
const ONES: [u8; 32] = [0x11; 32];

/// The lists that `desk:LIST/LIST/LIST/LIST` stands for, or `desk:LIST` in a file of one peer.
fn desk(word: &str, rules: Rules) -> Result<Vec<List>, String> {
    let told = || format!("{word} is no desk");
    let words = word.strip_prefix("desk:").ok_or_else(told)?;
    let lists: Option<Vec<List>> = words.split('/').map(|word| list(word, rules)).collect();
    let count = match rules {
        Rules::FourPeers => PEERS,
        _ => 1,
    };
    lists.filter(|lists| lists.len() == count).ok_or_else(told)
}

/// The list that `WINDOW:NEXT:ID,LENGTH,HASH:..` stands for. Entries that aren't used are zeros.
fn list(word: &str, rules: Rules) -> Option<List> {
    let parts: Vec<&str> = word.split(':').collect();
    let [window, next, requests @ ..] = &parts[..] else {
        return None;
    };
    let mut list = List {
        window: number(window).ok()?,
        next: number(next).ok()?,
        count: requests.len() as u32,
        ..List::default()
    };
    let mut entries = list.requests.iter_mut();
    for request in requests {
        let fields: Vec<&str> = request.split(',').collect();
        let (id, length, hash) = match *fields {
            [id, length, hash] if rules >= Rules::Hashes => (id, length, whole_hash(hash).ok()?),
            [id, length] if rules < Rules::Hashes => (id, length, ONES),
            _ => return None,
        };
        let entry = entries.next()?;
        (entry.id, entry.length, entry.hash) = (number(id).ok()?, number(length).ok()?, hash);
    }
    Some(list)
}

/// The windows that `open:W,W,W,W` states; or `open` and `open:W` in a file of one peer, which is given.
fn opening(word: &str, only: Option<u32>) -> Result<Windows, String> {
    let windows: Vec<&str> = match word.split_once(':') {
        Some((_, windows)) => windows.split(',').collect(),
        None => Vec::new(),
    };
    let mut stated = [None; PEERS];
    match (only, &windows[..]) {
        (Some(_), []) => {}
        (Some(peer), [window]) => stated[place_of(peer)] = Some(number(window)?),
        (None, windows) if windows.len() == PEERS => {
            for (stated, window) in stated.iter_mut().zip(windows) {
                *stated = match *window {
                    "-" => None,
                    window => Some(number(window)?),
                };
            }
        }
        _ => return Err(format!("{word} is no opening")),
    }
    Ok(Windows::new(stated))
}

fn whole_hash(word: &str) -> Result<[u8; 32], String> {
    let hash = bytes(word)?.try_into();
    hash.map_err(|_| format!("{word} is no hash"))
}

/// The answer that a case asks for.
fn answer(words: &[&str], rules: Rules) -> Result<Answer, String> {
    Ok(match *words {
        ["yes", ref entries @ ..] if entries.iter().any(|word| word.contains(',')) => {
            let entries: Result<_, _> = entries.iter().map(|word| list_entry(word)).collect();
            Answer::Entries(entries?)
        }
        [ref calls @ .., last] if last.starts_with("desk:") => {
            let calls: Result<_, _> = calls.iter().map(|word| called(word, rules)).collect();
            Answer::Calls(calls?, desk(last, rules)?)
        }
        ["no-name"] => Answer::Why(Reason::NoSuchName),
        ["deleted"] => Answer::Why(Reason::Deleted),
        ["invalid"] => Answer::Why(Reason::Invalid),
        ["no-block"] => Answer::Why(Reason::NoSuchBlock),
        ["held", record, block] => {
            let (record, block) = (number(record)?, number(block)?);
            Answer::Why(Reason::Held { record, block })
        }
        ["wanted", peer] => Answer::Why(Reason::Wanted {
            peer: number(peer)?,
        }),
        [first, ..] if first.contains(':') => {
            let runs: Result<_, _> = words.iter().map(|word| run_answer(word)).collect();
            Answer::Runs(runs?)
        }
        ["yes"] => Answer::Yes,
        ["no"] => Answer::No,
        ["served"] => Answer::Served,
        ["data"] => Answer::Data,
        ["none"] => Answer::NotAvailable,
        ["size"] => Answer::WrongSize,
        ["content"] => Answer::WrongContent,
        [hash] if hash.len() == 64 => Answer::Hash(whole_hash(hash)?),
        ["yes", filled] => Answer::Filled(bytes(filled)?),
        ["yes", kind, id, end] => Answer::Read(number(kind)?, number(id)?, number(end)?),
        ["no", refusal, place] => Answer::Refused(number(refusal)?, number(place)?),
        ["no", refusal] => Answer::RefusedWith(number(refusal)?),
        _ => return Err("no answer that is known".to_string()),
    })
}

/// The rules that a file was written under, as far as later requests changed what it says.
#[derive(Clone, Copy, PartialEq, Eq, PartialOrd, Ord)]
enum Rules {
    /// Before request §5: 6 and 7 have their place at the length word. Such a file tells the number and
    /// which string is at fault; at which of its bytes is told by `bad_byte.txt`.
    LengthWord,
    /// Before request §6: their place is at the bad byte. A queue keeps no hashes: each request asks for the
    /// same one, which no data have that come.
    BadByte,
    /// Before request §7: a queue keeps hashes. It has one peer, whom any of the four can stand for.
    Hashes,
    /// A queue has four peers.
    FourPeers,
}

impl Rules {
    /// Whether an answer is the one that a file under these rules asks for.
    fn agree(self, answer: &Answer, expected: &Answer) -> bool {
        match (answer, expected) {
            (&Answer::Refused(number @ (6 | 7), place), &Answer::Refused(asked, word))
                if self == Rules::LengthWord =>
            {
                // No string has more than 256 bytes with its pad.
                number == asked && (word + 4..word + 4 + 256).contains(&place)
            }
            _ => answer == expected,
        }
    }
}

/// A call that is given three slices and a buffer.
type OfThree = fn(&[u8], &[u8], &[u8], &mut [u8]) -> Words<1>;

/// The reason for a block: tables, name, block. An error is the number of the refusal.
type Why = fn([&[u8]; 5], &[u8], u32) -> Result<Reason, u32>;

/// The calls of one side. One that fills a buffer gives the number of bytes, or number and place.
struct Side {
    name: &'static str,
    read: fn(&[u8]) -> Words<11>,
    read_old: fn(&[u8]) -> Words<11>,
    runs: fn(Edition, &[Vec<u8>]) -> Vec<Run>,
    write: fn(&Draft, &mut [u8]) -> Words<1>,
    /// Message, repository, buffer.
    upgrade: fn(&[u8], &[u8], &mut [u8]) -> Words<1>,
    downgrade: fn(&[u8], &mut [u8]) -> Words<1>,
    is_good: fn(&[u8]) -> bool,
    merge: fn(&[u8], &[u8], &mut [u8]) -> Words<1>,
    /// Old table, message, repository, buffer.
    accept: OfThree,
    list: fn([&[u8]; 5], &mut [u8]) -> Words<1>,
    why: Why,
    /// Tables, file, block.
    details: fn([&[u8]; 5], u32, u32) -> Words<6>,
    /// Table, repository, message, buffer. Where the Request is served it fills none.
    serve: OfThree,
    queue: QueueCalls,
    hash: fn(&[u8]) -> [u8; 32],
    /// Bytes, and how many of them come in a run.
    hash_in_runs: fn(&[u8], usize) -> [u8; 32],
}

const SIDES: [Side; 2] = [
    Side {
        name: "library",
        read: LIBRARY.read_safely,
        read_old: LIBRARY.read_old_safely,
        runs: |edition, runs| {
            let mut words = feeding::open(edition);
            let fed = runs.iter().map(|run| feeding::feed(&mut words, run));
            fed.map(|(number, [first, taken])| run_of(number, first, taken))
                .collect()
        },
        write: LIBRARY.write,
        upgrade: LIBRARY.upgrade,
        downgrade: LIBRARY.downgrade,
        is_good: TABLE_CALLS.is_good,
        merge: TABLE_CALLS.merge,
        accept: TABLE_CALLS.accept,
        list: |[local, peers @ ..], out| match fordtrumpet::raw::request_list(local, peers, out) {
            Ok(list) => (0, [list.as_bytes().len() as u64]),
            Err(refusal) => (refusal.number(), [refusal.place() as u64]),
        },
        why: why_calls::by_reason,
        details: why_calls::details,
        serve: |table, repository, message, out| match fordtrumpet::raw::serve(
            table, repository, message, out,
        ) {
            Ok(fordtrumpet::Serving::Served { .. }) => (0, [0]),
            Ok(fordtrumpet::Serving::Replied(len)) => (0, [len as u64]),
            Err(refusal) => (refusal.number(), [refusal.place() as u64]),
        },
        queue: QUEUE_CALLS,
        hash: fordtrumpet::sha256,
        hash_in_runs: |bytes, len| {
            let mut hash = fordtrumpet::Sha256::new();
            bytes.chunks(len).for_each(|run| hash.update(run));
            hash.finish()
        },
    },
    Side {
        name: "reference",
        read: |input| read_words(&reference::read(input)),
        read_old: |input| read_words(&reference::read_as(Edition::Old, input)),
        runs: |edition, runs| {
            let mut feed = reference::Runs::open(edition);
            let told = runs.iter().map(|run| told_words(feed.feed(run)));
            told.map(|(number, first, taken)| run_of(number, first.unwrap_or(0), taken))
                .collect()
        },
        write: |draft, out| expected(draft.write_with_reference(out)),
        upgrade: |message, repository, out| expected(reference::upgrade(message, repository, out)),
        downgrade: |message, out| expected(reference::downgrade(message, out)),
        is_good: reference::is_good,
        merge: |a, b, out| expected(reference::merge(a, b, out)),
        accept: |old, message, repository, out| {
            expected(reference::accept(old, message, repository, out))
        },
        list: |tables, out| expected(reference::request_list(tables, out)),
        why: |tables, name, block| {
            reference::why(tables, name, block).map_err(|refusal| refusal.number)
        },
        details: |tables, file, block| details_words(reference::details(tables, file, block)),
        serve: |table, repository, message, out| {
            let ruling = reference::serve(table, repository, message, out);
            expected(ruling.map(|ruling| match ruling {
                reference::Serving::Served { .. } => 0,
                reference::Serving::Replied(len) => len,
            }))
        },
        queue: REFERENCE_CALLS,
        hash: reference::sha256,
        hash_in_runs: |bytes, len| {
            let mut hash = reference::Sha256::new();
            bytes.chunks(len).for_each(|run| hash.update(run));
            hash.finish()
        },
    },
];

/// The answer to a run by its number, its end or place, and the bytes taken.
fn run_of(number: u32, first: u64, taken: u64) -> Run {
    match number {
        0 => Run::End(first, taken),
        1 => Run::Wait(taken),
        _ => Run::No(number, first, taken),
    }
}

impl Side {
    /// What a call answers.
    fn run(&self, given: &[&str], rules: Rules) -> Result<Answer, String> {
        match *given {
            ["text", contents] => self.text(bytes(contents)?),
            ["name", contents] => self.name(&bytes(contents)?),
            ["read", message] => Ok(self.read(&bytes(message)?)),
            ["read-old", message] => Ok(read_answer((self.read_old)(&bytes(message)?))),
            ["new", ref runs @ ..] => self.runs(Edition::New, runs),
            ["old", ref runs @ ..] => self.runs(Edition::Old, runs),
            [call, id, ref fields @ .., room] if call.starts_with("write-") => {
                let draft = Draft::new(number(id)?, body(call, fields)?);
                self.write(&draft, number(room)?)
            }
            [call, id, ref fields @ .., room] if call.starts_with("old-") => {
                let draft = Draft {
                    id: number(id)?,
                    edition: Edition::Old,
                    body: old_body(call, fields)?,
                };
                self.write(&draft, number(room)?)
            }
            ["up", message, repository, room] => {
                let (message, repository) = (bytes(message)?, bytes(repository)?);
                fill(number(room)?, |out| {
                    (self.upgrade)(&message, &repository, out)
                })
            }
            ["down", message, room] => {
                let message = bytes(message)?;
                fill(number(room)?, |out| (self.downgrade)(&message, out))
            }
            ["good", table] => self.good(&bytes(table)?),
            ["merge", a, b, room] => {
                let (a, b) = (bytes(a)?, bytes(b)?);
                fill(number(room)?, |out| (self.merge)(&a, &b, out))
            }
            ["accept", old, message, repository, room] => {
                let (old, message, repository) = (bytes(old)?, bytes(message)?, bytes(repository)?);
                fill(number(room)?, |out| {
                    (self.accept)(&old, &message, &repository, out)
                })
            }
            ["list", a, b, c, d, e, room] => {
                let tables = five([a, b, c, d, e])?;
                let tables = tables.each_ref().map(|table| &table[..]);
                fill(number(room)?, |out| (self.list)(tables, out))
            }
            ["list", a, b, c, d, e] => self.entries(&five([a, b, c, d, e])?),
            ["why", a, b, c, d, e, name, block] => {
                self.why(&five([a, b, c, d, e])?, &bytes(name)?, number(block)?)
            }
            ["serve", table, repository, message, room] => {
                let (table, repository) = (bytes(table)?, bytes(repository)?);
                self.serve(&table, &repository, &bytes(message)?, number(room)?)
            }
            ["issue", ref fields @ .., room] => {
                self.issue(body("write-request", fields)?, number(room)?)
            }
            ["answer", message] => self.answer(&bytes(message)?),
            ["sha", message] => self.hash(&bytes(message)?),
            [first, ref calls @ ..] if ["open", "desk"].contains(&before_colon(first)) => {
                self.calls(first, calls, rules)
            }
            _ => Err("no call that is known".to_string()),
        }
    }

    /// Whether a string may have these contents: as the Value of an option, read and written.
    fn text(&self, contents: Vec<u8>) -> Result<Answer, String> {
        let mut options = Encoding::new();
        options.options(&[(Vec::new(), contents.clone())]);
        let body = Body::Options { options };
        let draft = Draft::new(0, body);
        let message = draft.encode().bytes;
        let answers = [self.read(&message), self.write(&draft, message.len())?];
        match answers.map(|answer| without_place(answer, 12, &contents)) {
            [Ok(Answer::Yes), Ok(Answer::Yes)] => Ok(Answer::Yes),
            [Ok(Answer::RefusedWith(7)), Ok(Answer::RefusedWith(7))] => Ok(Answer::No),
            [read, written] => Err(format!("read {read:?}, written {written:?}")),
        }
    }

    /// Whether a Name may have these contents: in each message that has one, read, written and issued,
    /// and in a table.
    fn name(&self, contents: &[u8]) -> Result<Answer, String> {
        let [index, update, request] = with_name(contents);
        let mut answers = Vec::new();
        for (draft, place) in [(&index, 12), (&update, 12), (&request, 8)] {
            let message = draft.encode().bytes;
            for answer in [self.read(&message), self.write(draft, message.len())?] {
                answers.push(without_place(answer, place, contents)?);
            }
        }
        let answer = without_place(self.issue(request.body, 400)?, 8, contents)?;
        if answers.iter().any(|other| *other != answer) {
            return Err(format!("issued {answer}, and otherwise {answers:?}"));
        }
        let Body::Index { files: table, .. } = index.body else {
            unreachable!()
        };
        match (self.good(&table.bytes)?, &answer) {
            (Answer::Yes, Answer::Yes) | (Answer::No, Answer::RefusedWith(_)) => Ok(answer),
            (good, _) => Err(format!("{answer} in messages, {good} in a table")),
        }
    }

    fn read(&self, message: &[u8]) -> Answer {
        read_answer((self.read)(message))
    }

    fn runs(&self, edition: Edition, runs: &[&str]) -> Result<Answer, String> {
        let runs: Result<Vec<_>, _> = runs.iter().map(|run| bytes(run)).collect();
        Ok(Answer::Runs((self.runs)(edition, &runs?)))
    }

    fn write(&self, draft: &Draft, room: usize) -> Result<Answer, String> {
        fill(room, |out| (self.write)(draft, out))
    }

    fn serve(
        &self,
        table: &[u8],
        repository: &[u8],
        message: &[u8],
        room: usize,
    ) -> Result<Answer, String> {
        let answer = fill(room, |out| (self.serve)(table, repository, message, out))?;
        Ok(match answer {
            Answer::Filled(reply) if reply.is_empty() => Answer::Served,
            answer => answer,
        })
    }

    /// The entries of a request list that has room. One without entries is only a yes.
    fn entries(&self, tables: &[Vec<u8>; 5]) -> Result<Answer, String> {
        let tables = tables.each_ref().map(|table| &table[..]);
        let room = fordtrumpet::MAX_REQUEST_LIST;
        Ok(match fill(room, |out| (self.list)(tables, out))? {
            Answer::Filled(list) if list.is_empty() => Answer::Yes,
            Answer::Filled(list) => {
                let entries = list.as_chunks().0.iter();
                Answer::Entries(entries.map(entry_words).collect())
            }
            answer => answer,
        })
    }

    fn why(&self, tables: &[Vec<u8>; 5], name: &[u8], block: u64) -> Result<Answer, String> {
        // A block of a greater number can't be asked about.
        let Ok(block) = u32::try_from(block) else {
            return Ok(Answer::No);
        };
        let tables = tables.each_ref().map(|table| &table[..]);
        Ok(match (self.why)(tables, name, block) {
            Ok(reason) => Answer::Why(reason),
            Err(number) => Answer::Refused(number, 0),
        })
    }

    /// A queue just opened, without a stated window.
    fn opened(&self) -> Queue {
        let mut queue = Queue::filled(0xD7);
        let number = (self.queue.open)(&mut queue, &Windows::new([None; PEERS]));
        assert_eq!(number, 0);
        queue
    }

    /// Calls at one queue, by all peers; or in a file of one peer by each of them.
    fn calls(&self, first: &str, calls: &[&str], rules: Rules) -> Result<Answer, String> {
        match rules {
            Rules::FourPeers => self.calls_by(None, first, calls, rules),
            _ => each_peer(|peer| self.calls_by(Some(peer), first, calls, rules)),
        }
    }

    /// Calls at one queue, which is opened or handed in first. They are all by one peer, or each tells by
    /// whom it is.
    fn calls_by(
        &self,
        only: Option<u32>,
        first: &str,
        calls: &[&str],
        rules: Rules,
    ) -> Result<Answer, String> {
        let mut queue = self.opened();
        let mut answers = Vec::new();
        if before_colon(first) == "open" {
            queue = Queue::filled(0xD7);
            let opened = (self.queue.open)(&mut queue, &opening(first, only)?);
            answers.push(verdict(opened));
        } else {
            let mut given = queue_of(&queue);
            let lists = desk(first, rules)?;
            match only {
                Some(peer) => given.lists[place_of(peer)] = lists[0],
                None => given.lists.copy_from_slice(&lists),
            }
            queue = as_lent(&given);
        }
        for call in calls {
            answers.push(self.call_by(only, &mut queue, call, rules)?);
        }
        let lists = queue_of(&queue).lists;
        let lists = match only {
            Some(peer) => vec![lists[place_of(peer)]],
            None => lists.to_vec(),
        };
        Ok(Answer::Calls(answers, lists))
    }

    /// A call at a queue. One that is refused must leave it as it was, and another one the lists of the
    /// other peers.
    fn call_by(
        &self,
        only: Option<u32>,
        queue: &mut Queue,
        call: &str,
        rules: Rules,
    ) -> Result<Called, String> {
        let before = *queue;
        let mut parts: Vec<&str> = call.split(':').collect();
        let peer = match only {
            Some(peer) => peer,
            None if parts.len() > 1 => number(parts.remove(1))?,
            None => return Err(format!("{call} has no peer")),
        };
        let answer = match (rules, &parts[..]) {
            (_, ["drop"]) => verdict((self.queue.drop_link)(queue, peer)),
            (Rules::Hashes | Rules::FourPeers, parts) => self.call(queue, peer, parts)?,
            (_, parts) => self.call_without_hash(queue, peer, parts)?,
        };
        let mut expected = before;
        if !matches!(answer, Called::No(..)) {
            *expected.list(peer) = *queue.list(peer);
            *expected.hashes(peer) = *queue.hashes(peer);
        }
        match *queue == expected {
            true => Ok(answer),
            false => Err(format!("{answer}, but the queue is {queue:?}")),
        }
    }

    /// A call of a peer at a queue.
    fn call(&self, queue: &mut Queue, peer: u32, parts: &[&str]) -> Result<Called, String> {
        match *parts {
            ["issue", length, hash] => {
                let wanted = short_request(number(length)?, bytes(hash)?);
                let issued = self.issue_at(queue, peer, wanted, 68)?;
                Ok(issued.map_or_else(|refused| refused, |(id, _)| Called::Id(id)))
            }
            ["request", repository, name, offset, length, hash, room] => {
                let wanted = Wanted {
                    repository: bytes(repository)?,
                    name: bytes(name)?,
                    offset: number(offset)?,
                    length: number(length)?,
                    hash: bytes(hash)?,
                };
                let issued = self.issue_at(queue, peer, wanted, number(room)?)?;
                Ok(issued.map_or_else(
                    |refused| refused,
                    |(id, request)| Called::Request(id, request),
                ))
            }
            ["answer", id, data] => {
                let data = bytes(data)?;
                let response = Draft::new(number(id)?, Body::Response { data });
                Ok(self.answer_at(queue, peer, &response.encode().bytes))
            }
            ["message", message] => Ok(self.answer_at(queue, peer, &bytes(message)?)),
            _ => Err(format!("{} is no call at a desk", parts.join(":"))),
        }
    }

    /// A call as the files have it that know of no hashes: zeros come in answer.
    fn call_without_hash(
        &self,
        queue: &mut Queue,
        peer: u32,
        parts: &[&str],
    ) -> Result<Called, String> {
        match *parts {
            ["issue", length, ref room @ ..] if room.len() < 2 => {
                let wanted = short_request(number(length)?, ONES.to_vec());
                let room = room.first().map_or(Ok(68), |room| number(room))?;
                let issued = self.issue_at(queue, peer, wanted, room)?;
                Ok(issued.map_or_else(|refused| refused, |(id, _)| Called::Id(id)))
            }
            ["answer", id, size] => {
                let data = vec![0; number(size)?];
                let response = Draft::new(number(id)?, Body::Response { data });
                Ok(self.answer_at(queue, peer, &response.encode().bytes))
            }
            _ => Err(format!("{} is no call at a desk", parts.join(":"))),
        }
    }

    /// Issues a Request and gives its ID and what is written, which must be that Request; or how it is
    /// refused.
    fn issue_at(
        &self,
        queue: &mut Queue,
        peer: u32,
        wanted: Wanted,
        room: usize,
    ) -> Result<Result<(u64, Vec<u8>), Called>, String> {
        let mut id = 0;
        let answer = fill(room, |out| {
            let (number, [first, second]) = (self.queue.issue)(queue, peer, &wanted, out);
            id = second;
            (number, [first])
        })?;
        let body = Body::Request {
            repository: wanted.repository,
            name: wanted.name,
            offset: wanted.offset,
            length: wanted.length,
            hash: wanted.hash,
        };
        match answer {
            Answer::Refused(number, place) => Ok(Err(Called::No(number, place))),
            Answer::Filled(message) if message == Draft::new(id as u32, body).encode().bytes => {
                Ok(Ok((id, message)))
            }
            answer => Err(format!("{answer} is not the Request {id}")),
        }
    }

    fn answer_at(&self, queue: &mut Queue, peer: u32, message: &[u8]) -> Called {
        match (self.queue.answer)(queue, peer, message) {
            (0, [0, ..]) => Called::Data,
            (0, [1, ..]) => Called::NotAvailable,
            (0, [2, ..]) => Called::WrongSize,
            (0, _) => Called::WrongContent,
            (number, [place, ..]) => Called::No(number, place),
        }
    }

    /// Issues at a queue just opened, by each peer. Where that is refused, the queue must stay as it was.
    fn issue(&self, request: Body, room: usize) -> Result<Answer, String> {
        let Body::Request {
            repository,
            name,
            offset,
            length,
            hash,
        } = request
        else {
            unreachable!()
        };
        let wanted = Wanted {
            repository,
            name,
            offset,
            length,
            hash,
        };
        let opened = self.opened();
        each_peer(|peer| {
            let mut queue = opened;
            let answer = fill(room, |out| {
                let (number, [first, _]) = (self.queue.issue)(&mut queue, peer, &wanted, out);
                (number, [first])
            })?;
            match (queue == opened) == matches!(answer, Answer::Refused(..)) {
                true => Ok(answer),
                false => Err(format!("{answer}, but the queue is {queue:?}")),
            }
        })
    }

    /// Answers by each peer at a queue where it has one request, of ID 0 and Length 5, that asks for `abcde`.
    /// It is released, or where the answer is refused the queue must stay as it was.
    fn answer(&self, message: &[u8]) -> Result<Answer, String> {
        each_peer(|peer| {
            let mut before = queue_of(&self.opened());
            let list = &mut before.lists[place_of(peer)];
            (list.next, list.count) = (1, 1);
            list.requests[0].length = 5;
            list.requests[0].hash = (self.hash)(b"abcde");
            let before = as_lent(&before);
            let mut queue = before;
            let answer = match self.answer_at(&mut queue, peer, message) {
                Called::No(number, place) => Answer::Refused(number, place),
                Called::NotAvailable => Answer::NotAvailable,
                Called::WrongSize => Answer::WrongSize,
                Called::WrongContent => Answer::WrongContent,
                _ => Answer::Data,
            };
            let left = match answer {
                Answer::Refused(..) => 1,
                _ => 0,
            };
            match (queue.list(peer)[2] == left, queue == before) {
                (true, same) if same == (left == 1) => Ok(answer),
                _ => Err(format!("{answer}, but the queue is {queue:?}")),
            }
        })
    }

    /// The hash of some bytes, which is the same however they are cut.
    fn hash(&self, message: &[u8]) -> Result<Answer, String> {
        let hash = (self.hash)(message);
        for len in [1, 55, 64, 100, 131_071] {
            let in_runs = (self.hash_in_runs)(message, len);
            if in_runs != hash {
                let (hash, in_runs) = (Answer::Hash(hash), Answer::Hash(in_runs));
                return Err(format!("{hash}, but {in_runs} in runs of {len}"));
            }
        }
        Ok(Answer::Hash(hash))
    }

    /// Whether these bytes are a good table: no call that is given them as a table gives 15, or each.
    fn good(&self, table: &[u8]) -> Result<Answer, String> {
        const EMPTY: &[u8] = &[0; 4];
        let room = 65_536;
        let index = [0, 0, 1, 0, 0, 0, 0, 0, 0, 0, 0, 0];
        let mut request = Encoding::new();
        request.header(2, 0).string(b"", 64).name(b"n");
        request.offset(0).block_length(1).hash(&[0; 32]);
        let mut answers = vec![
            fill(room, |out| (self.merge)(table, EMPTY, out))?,
            fill(room, |out| (self.merge)(EMPTY, table, out))?,
            fill(room, |out| (self.accept)(table, &index, b"", out))?,
            self.serve(table, b"", &request.bytes, room)?,
        ];
        for number in 0..5 {
            let mut tables = [EMPTY; 5];
            tables[number] = table;
            answers.push(fill(room, |out| (self.list)(tables, out))?);
            answers.push(match (self.why)(tables, b"n", 0) {
                Ok(reason) => Answer::Why(reason),
                Err(number) => Answer::Refused(number, 0),
            });
            // 1 is no refusal: there is no such block.
            answers.push(match (self.details)(tables, 0, 0) {
                (0 | 1, _) => Answer::Yes,
                (number, [place, ..]) => Answer::Refused(number, place),
            });
        }
        let refused = |answer: &&Answer| **answer == Answer::Refused(15, 0);
        match (
            (self.is_good)(table),
            answers.iter().filter(refused).count(),
        ) {
            (true, 0) => Ok(Answer::Yes),
            (false, 19) => Ok(Answer::No),
            (good, refused) => Err(format!("{good}, and {refused} of 19 calls give 15")),
        }
    }
}

/// What a call answers whichever of the four peers makes it.
fn each_peer(mut call: impl FnMut(u32) -> Result<Answer, String>) -> Result<Answer, String> {
    let first = call(1)?;
    for peer in 2..=PEERS as u32 {
        let other = call(peer)?;
        if other != first {
            return Err(format!("{first} for peer 1, {other} for peer {peer}"));
        }
    }
    Ok(first)
}

/// The fields of a Request where only Length and hash are given.
fn short_request(length: u32, hash: Vec<u8>) -> Wanted {
    Wanted {
        repository: b"r".to_vec(),
        name: b"n".to_vec(),
        offset: 0,
        length,
        hash,
    }
}

fn before_colon(word: &str) -> &str {
    word.split(':').next().unwrap_or(word)
}

/// What an opening or a drop answers by its number, whose place is 0.
fn verdict(number: u32) -> Called {
    match number {
        0 => Called::Ok,
        _ => Called::No(number, 0),
    }
}

/// The tables that five words stand for.
fn five(words: [&str; 5]) -> Result<[Vec<u8>; 5], String> {
    let [a, b, c, d, e] = words.map(bytes);
    Ok([a?, b?, c?, d?, e?])
}

/// An entry of a request list: file, block, offset, length, peer.
fn entry_words(entry: &[u8; 24]) -> [u64; 5] {
    let word = |at: usize| u32::from_be_bytes(*entry[at..].first_chunk().unwrap());
    let offset = u64::from(word(8)) << 32 | u64::from(word(12));
    let [file, block, length, peer] = [0, 4, 16, 20].map(|at| u64::from(word(at)));
    [file, block, offset, length, peer]
}

/// What a reading answered.
fn read_answer(words: Words<11>) -> Answer {
    match words {
        (0, [end, kind, id, ..]) => Answer::Read(kind, id, end),
        (number, [place, ..]) => Answer::Refused(number, place),
    }
}

/// Messages without a Repository that have this name: an Index and an IndexUpdate, where its place is 12,
/// and a Request, where it is 8.
fn with_name(name: &[u8]) -> [Draft; 3] {
    let mut files = Encoding::new();
    files.files(&[File {
        name: name.to_vec(),
        flags: 0,
        modified: 0,
        version: 0,
        blocks: Vec::new(),
    }]);
    let index = |update| Body::Index {
        update,
        repository: Vec::new(),
        files: files.clone(),
    };
    let request = Body::Request {
        repository: Vec::new(),
        name: name.to_vec(),
        offset: 0,
        length: 1,
        hash: vec![0; 32],
    };
    [index(false), index(true), request].map(|body| Draft::new(0, body))
}

/// What an answer says of a string with these contents whose length word stands at this place. 7 has the
/// place of the first byte that isn't text.
fn without_place(answer: Answer, word: u64, contents: &[u8]) -> Result<Answer, String> {
    let place = match (&answer, std::str::from_utf8(contents)) {
        (Answer::Refused(7, _), Err(error)) => word + 4 + error.valid_up_to() as u64,
        _ => word,
    };
    match answer {
        Answer::Read(..) | Answer::Filled(_) => Ok(Answer::Yes),
        Answer::Refused(number, at) if at == place => Ok(Answer::RefusedWith(number)),
        answer => Err(format!("{answer} where {place} is the place")),
    }
}

/// The fields of a writer, from the words between its ID and its room.
fn body(call: &str, fields: &[&str]) -> Result<Body, String> {
    let array = |word: &str| {
        let mut array = Encoding::new();
        array.bytes = bytes(word)?;
        Ok::<_, String>(array)
    };
    Ok(match (call, fields) {
        ("write-index" | "write-update", [repository, files]) => Body::Index {
            update: call == "write-update",
            repository: bytes(repository)?,
            files: array(files)?,
        },
        ("write-request", [repository, name, offset, length, hash]) => Body::Request {
            repository: bytes(repository)?,
            name: bytes(name)?,
            offset: number(offset)?,
            length: number(length)?,
            hash: bytes(hash)?,
        },
        ("write-response", [data]) => Body::Response { data: bytes(data)? },
        ("write-options", [options]) => Body::Options {
            options: array(options)?,
        },
        _ => return Err("no writer that is known".to_string()),
    })
}

/// The fields of a writer of the old edition, as those of the new one without a Repository.
fn old_body(call: &str, fields: &[&str]) -> Result<Body, String> {
    match (call, fields) {
        ("old-index", &[files]) => body("write-index", &["-", files]),
        ("old-update", &[files]) => body("write-update", &["-", files]),
        ("old-request", &[name, offset, length, hash]) => {
            body("write-request", &["-", name, offset, length, hash])
        }
        ("old-response", _) => body("write-response", fields),
        ("old-ping", []) => Ok(Body::Ping),
        ("old-pong", []) => Ok(Body::Pong),
        _ => Err("no writer that is known".to_string()),
    }
}

/// Lends a call a buffer of `room` bytes. What isn't filled, and where it refuses all of it, must stay
/// as it was.
fn fill(room: usize, call: impl FnOnce(&mut [u8]) -> Words<1>) -> Result<Answer, String> {
    let mut out = vec![0xD7; room];
    let (answer, rest) = match call(&mut out) {
        (0, [len]) => {
            let rest = out.split_off(len as usize);
            (Answer::Filled(out), rest)
        }
        (number, [place]) => (Answer::Refused(number, place), out),
    };
    match rest.iter().all(|&byte| byte == 0xD7) {
        true => Ok(answer),
        false => Err(format!("{answer}, but other bytes have changed")),
    }
}

/// Runs a case by both sides and gives whether they answer so, as they must unless it is open. An error
/// names the line.
fn run(case: &Case, rules: Rules) -> Result<bool, String> {
    let told = |why: String| format!("{}\n{why}", case.line);
    let [given, expected] = [&case.given, &case.answer]
        .map(|words| words.iter().map(|word| &word[..]).collect::<Vec<_>>());
    let expected = answer(&expected, rules).map_err(told)?;
    for side in SIDES {
        let answer = side.run(&given, rules).map_err(told)?;
        if !rules.agree(&answer, &expected) {
            return match case.open {
                true => Ok(false),
                false => Err(told(format!("the {} answers: {answer}", side.name))),
            };
        }
    }
    Ok(true)
}

/// Runs a file and gives how many cases it has, and how many open ones got another answer; or an error
/// for each that fails.
fn run_file(file: &str, rules: Rules) -> Result<(usize, usize), String> {
    let (mut count, mut otherwise, mut failed) = (0, 0, Vec::new());
    for case in cases(file) {
        count += 1;
        match case.and_then(|case| run(&case, rules)) {
            Ok(so) => otherwise += usize::from(!so),
            Err(why) => failed.push(why),
        }
    }
    match failed.is_empty() {
        true => Ok((count, otherwise)),
        false => Err(failed.join("\n")),
    }
}

/// Runs a file, which has so many cases, and says so even when the test passes.
#[track_caller]
fn check_file(name: &str, file: &str, rules: Rules, cases: usize) {
    match run_file(file, rules) {
        Ok((count, otherwise)) => {
            assert_eq!(count, cases, "{name}");
            let text = format!(
                "{name}: {count} cases by library and reference, {otherwise} open ones otherwise"
            );
            let _ = writeln!(std::io::stderr(), "{text}");
        }
        Err(failed) => panic!("{name}:\n{failed}"),
    }
}

#[test]
fn utf8() {
    let file = include_str!("cases/utf8.txt");
    check_file("utf8.txt", file, Rules::LengthWord, 219);
}

#[test]
fn names() {
    let file = include_str!("cases/names.txt");
    check_file("names.txt", file, Rules::LengthWord, 185);
}

#[test]
fn bad_byte() {
    let file = include_str!("cases/bad_byte.txt");
    check_file("bad_byte.txt", file, Rules::BadByte, 180);
}

#[test]
fn old_edition() {
    let file = include_str!("cases/old_edition.txt");
    check_file("old_edition.txt", file, Rules::BadByte, 219);
}

#[test]
fn runs() {
    let file = include_str!("cases/runs.txt");
    check_file("runs.txt", file, Rules::BadByte, 158);
}

#[test]
fn why() {
    let file = include_str!("cases/why.txt");
    check_file("why.txt", file, Rules::BadByte, 153);
}

#[test]
fn default_window() {
    let file = include_str!("cases/default_window.txt");
    check_file("default_window.txt", file, Rules::BadByte, 124);
}

#[test]
fn sha256() {
    let file = include_str!("cases/sha256.txt");
    check_file("sha256.txt", file, Rules::Hashes, 171);
}

#[test]
fn four_peers() {
    let file = include_str!("cases/four_peers.txt");
    check_file("four_peers.txt", file, Rules::FourPeers, 117);
}

#[test]
fn in_a_file_from_before_the_bad_byte_its_string_counts() {
    // The pad byte at 15, and the lead at 13, of the string whose length word stands at 8.
    for (given, number, place) in [
        ("read 00000700.00000001.00000003.6b6b6b07", 6, 15),
        ("read 00000700.00000001.00000002.6bc20000", 7, 13),
    ] {
        let line = |number, place| format!("{given} = no {number} {place}\n");
        assert_eq!(
            run_file(&line(number, 8), Rules::LengthWord),
            Ok((1, 0)),
            "{given}"
        );
        assert_eq!(
            run_file(&line(number, place), Rules::BadByte),
            Ok((1, 0)),
            "{given}"
        );
        for other in [4, 8, place - 1, place + 1] {
            assert!(run_file(&line(number, other), Rules::BadByte).is_err());
        }
        for other in [place - 3, place, place + 1] {
            assert!(run_file(&line(number, other), Rules::LengthWord).is_err());
        }
        assert!(run_file(&line(13 - number, 8), Rules::LengthWord).is_err());
    }
}

/// A line that gives a hash its name.
const HASH: &str =
    "let Habc ba7816bf.8f01cfea.414140de.5dae2223.b00361a3.96177a9c.b410ff61.f20015ad";

/// Checks that a file with this line, between others that pass, fails at it alone.
#[track_caller]
fn is_told(before: &str, line: &str, after: &str, rules: Rules) {
    let told = run_file(&format!("{before}\n{line}\n{after}\n"), rules).unwrap_err();
    assert!(told.starts_with(&format!("{line}\n")), "{told}");
}

#[test]
fn a_line_that_is_not_understood_or_has_another_answer_is_told() {
    assert_eq!(
        run_file(
            "# no case\n\ntext 61*3.c3a4 = yes # a comment\n",
            Rules::BadByte
        ),
        Ok((1, 0))
    );
    for line in [
        "text 61",
        "text 61 = yes = yes",
        "text 61 61 = yes",
        "test 61 = yes",
        "text 6 = yes",
        "text 6G = yes",
        "text 6A = yes",
        "text 61..61 = yes",
        "text 6161*2 = yes",
        "text 61*x = yes",
        "text = yes",
        "text 61 = maybe",
        "text 61 =",
        "write-index 0 72 00000000 = yes 00",
        "write-ping 0 4 = yes 00000400",
        "write-response x - 8 = yes 00000300.00000000",
        "issue - 61 0 1 00*32 = no 14 0",
        "old-index 0 - 00000000 8 = yes 00000100.00000000",
        "old-options 0 00000000 8 = yes 00000700.00000000",
        "old-ping 0 0 4 = yes 00000400",
        "up 00000400 4 = yes 00000400",
        "down 00000400 - 4 = yes 00000400",
        "new = wait:0",
        "new 00000400 = end:4",
        "new 00000400 = wait:4:4",
        "new 0000 0400 = wait:2 4",
        "list 00000000 00000000 00000000 00000000 = yes",
        "list 00000000 00000000 00000000 00000000 00000000 = yes 0,0,0,5",
        "list 00000000 00000000 00000000 00000000 00000000 = yes 0,0,0,5,x",
        "why 00000000 00000000 00000000 00000000 00000000 61 = no-name",
        "why 00000000 00000000 00000000 00000000 00000000 61 x = no-name",
        "why 00000000 00000000 00000000 00000000 00000000 61 0 = held 0",
        "open = ok",
        "open = desk",
        "open = yes desk:4:0",
        "open = ok desk:4:0:0",
        "open = ok desk:4",
        "open:x = ok desk:4:0",
        "open:4:4 = ok desk:4:0",
        "open open = ok ok desk:4:0",
        "open issue = ok id:0 desk:4:1:0,1",
        "open answer:0 = ok no:20:0 desk:4:0",
        "desk:4:0 open = ok desk:4:0",
        "desk:4 drop = ok desk:4:0",
        "drop = ok desk:4:0",
        "sha = e3b0c44298fc1c149afbf4c8996fb92427ae41e4649b934ca495991b7852b855",
        "sha 61 = yes",
        "sha 61 = ca978112",
        "let A",
        "let a 61",
        "let A 61 61",
        "let A 6",
        "let A B",
        "let A B*2.61",
        "text A = yes",
        "text 61.A*2 = yes",
        // Understood, but the answer is another.
        "text c0af = yes",
        "read 00000400 = yes 4 0 5",
        "read 00000400 = no 1 4",
        "write-response 0 - 8 = yes 00000300.00000001",
        "write-response 0 - 7 = yes 00000300.00000000",
        "good 00000000 = no",
        "serve 00000000 - 00000400 8 = no 18 4",
        "name 612f = yes",
        "name 612f = no 8",
        "name 612f = no 24 12",
        "name 61 = no 24",
        "issue - 612f 0 1 00*32 60 = no 24 12",
        "issue - 61 0 1 00*32 63 = no 24 8",
        "answer 00000300.00000000 = data",
        "answer 00000300.00000004.00000000 = none",
        "answer 00010300.00000005.61626364.65000000 = size",
        "answer 00000300.00000005.61626364.65000001 = no 6 4",
        "read-old 00000700.00000000 = yes 7 0 8",
        "read-old 00000100.00000000 = yes 1 0 12",
        "old-index 0 00000000 8 = yes 00000100.00000000.00000000",
        "old-pong 1 4 = yes 00000500",
        "up 00000100.00000000 - 12 = yes 00000100.00000000",
        "up 00010400 ff 4 = no 7 8",
        "down 00000700.00000000 0 = no 14 0",
        "new 0000 0400 = wait:2",
        "new 000004 00 = wait:3 end:1:1",
        "new 00000400.00 = end:4:5",
        "new 000008 00 = wait:3 no:3:0:0",
        "new 00000800 00 = no:3:0:4 no:3:0:1",
        "old 00000700 = wait:4",
        "list 00000000 00000000 00000000 00000000 00000000 = yes 0,0,0,5,1",
        "list 00000000 00000000 00000000 00000000 - = yes",
        "open = ok desk:16:0",
        "open = ok ok desk:4:0",
        "open = no:22:0 desk:4:0",
        "open:5 = ok desk:4:0",
        "open:17 = no:22:0 desk:17:0",
        "open issue:1 = ok id:1 desk:4:1:0,1",
        "open issue:1 = ok id:0 desk:4:1:0,2",
        "open issue:1 = ok id:0 desk:4:1",
        "open issue:1:67 = ok no:16:0 desk:4:0",
        "open issue:5 answer:0:5 = ok id:0 size desk:4:1",
        "desk:4:1:0,5 drop = ok desk:4:0",
        "open issue:5 answer:0:5 = ok id:0 content desk:4:1:0,5",
        "sha 61 = e3b0c44298fc1c149afbf4c8996fb92427ae41e4649b934ca495991b7852b855",
        "why 00000000 00000000 00000000 00000000 00000000 61 0 = no-block",
        "why 00000000 00000000 00000000 00000000 - 61 0 = no-name",
        "why 00000000 00000000 00000000 00000000 00000000 61 4294967296 = no-name",
    ] {
        is_told("text 61 = yes", line, "text - = yes", Rules::BadByte);
    }
    for line in [
        "open issue:3 = ok id:0 desk:4:1",
        "open issue:3:68 = ok id:0 desk:4:1:0,3",
        "open issue:3:Hnone = ok id:0 desk:4:1",
        "open issue:3:Habc = ok id:0 desk:4:1:0,3",
        "open request:72:6e:7:3:Habc = ok no:14:0 desk:4:0",
        "open message = ok no:1:0 desk:4:0",
        "desk:4:1:0,3 drop = ok desk:4:1",
        "desk:4:1:0,3,00 drop = ok desk:4:1",
        // Understood, but the answer is another.
        "open issue:3:Habc = ok id:0 desk:4:1:0,3,00*32",
        "open issue:3:Habc answer:0:616263 = ok id:0 content desk:4:1",
        "open issue:3:Habc answer:0:616264 = ok id:0 data desk:4:1",
        "open issue:3:Habc answer:0:616264 = ok id:0 size desk:4:1",
        "open issue:3:Habc answer:0:616264 = ok id:0 content desk:4:1:0,3,Habc",
        "open issue:3:Habc answer:0:61 = ok id:0 content desk:4:1",
        "open request:72:6e:7:3:Habc:68 = ok id:0:00000200 desk:4:1:0,3,Habc",
        "open request:72:6e:7:3:00:68 = ok no:9:28 desk:4:0",
        "desk:4:1:0,3,00*32 drop = no:22:0 desk:4:1:0,3,00*32",
    ] {
        is_told(HASH, line, "", Rules::Hashes);
    }
    // Where another answer may be right too, it is no fault.
    let open = "text c0af = yes # open\n";
    assert_eq!(run_file(open, Rules::BadByte), Ok((1, 1)));
    assert!(run_file("text c0af = yes # opened\n", Rules::BadByte).is_err());
}

#[test]
fn a_line_of_four_peers_that_is_not_understood_or_has_another_answer_is_told() {
    for line in [
        "open = ok desk:4:0/4:0/4:0/4:0",
        "open:4 = ok desk:4:0/4:0/4:0/4:0",
        "open:-,-,- = ok desk:4:0/4:0/4:0/4:0",
        "open:-,-,-,-,- = ok desk:4:0/4:0/4:0/4:0",
        "open:-,-,-,x = ok desk:4:0/4:0/4:0/4:0",
        "open:-,-,-,- = ok desk:4:0",
        "open:-,-,-,- = ok desk:4:0/4:0/4:0",
        "open:-,-,-,- = ok desk:4:0/4:0/4:0/4:0/4:0",
        "open:-,-,-,- drop = ok ok desk:4:0/4:0/4:0/4:0",
        "open:-,-,-,- drop:x = ok ok desk:4:0/4:0/4:0/4:0",
        "open:-,-,-,- drop:1:1 = ok ok desk:4:0/4:0/4:0/4:0",
        "open:-,-,-,- issue:3:Habc = ok id:0 desk:4:0/4:0/4:1:0,3,Habc/4:0",
        "open:-,-,-,- answer:0:- = ok no:20:0 desk:4:0/4:0/4:0/4:0",
        "desk:4:0 drop:1 = ok desk:4:0/4:0/4:0/4:0",
        // Understood, but the answer is another.
        "open:-,-,-,- = ok desk:4:0/4:0/4:0/5:0",
        "open:1,2,3,4 = ok desk:4:0/3:0/2:0/1:0",
        "open:0,-,-,- = no:22:0 desk:0:0/4:0/4:0/4:0",
        "open:-,-,-,- drop:5 = ok ok desk:4:0/4:0/4:0/4:0",
        "open:0,-,-,- drop:5 = no:22:0 no:22:0 desk:0:0/0:0/0:0/0:0",
        "open:-,-,-,- issue:2:3:Habc = ok id:0 desk:4:1:0,3,Habc/4:0/4:0/4:0",
        "open:-,-,-,- issue:2:3:Habc issue:3:3:Habc drop:2 = ok id:0 id:0 ok desk:4:0/4:1/4:1/4:0",
        "open:-,-,-,- issue:2:3:Habc answer:3:0:616263 = ok id:0 data desk:4:0/4:1/4:0/4:0",
    ] {
        is_told(HASH, line, "", Rules::FourPeers);
    }
}

#[test]
fn names_stand_for_bytes() {
    let run = |file: &str| run_file(file, Rules::BadByte);
    let let_two = "let A 61*3.c3 # an a with two dots\nlet Bb a4.A.a4\nlet None -\n";
    assert_eq!(run(let_two), Ok((0, 0)));
    for (word, hex) in [
        ("A.a4", "616161c3a4"),
        ("Bb.None", "a4616161c3a4"),
        ("None", "-"),
        ("A*2.a4", "616161c3.616161c3.a4"),
        ("62.A*0", "62"),
    ] {
        let file = format!("{let_two}up 00000100.00000000 {word} 40 = no 7 0 # open\n");
        let cases: Result<Vec<_>, _> = cases(&file).collect();
        let given = &cases.unwrap()[0].given[2];
        assert_eq!(bytes(given), bytes(hex), "{word}");
    }
    // Each piece of a word by itself, in answers too.
    let file = format!("{let_two}open issue:3:A.a4 = ok desk:4:1:0,3,Bb:1,3,None.62\n");
    let case = cases(&file).next().unwrap().unwrap();
    assert_eq!(case.given, ["open", "issue:3:616161c3a4"]);
    assert_eq!(case.answer, ["ok", "desk:4:1:0,3,a4616161c3a4:1,3,62"]);
    let file = format!("{let_two}open:-,4 = desk:4:1:0,3,Bb/4:0/4:1:1,3,A.None\n");
    let case = cases(&file).next().unwrap().unwrap();
    assert_eq!(
        case.answer,
        ["desk:4:1:0,3,a4616161c3a4/4:0/4:1:1,3,616161c3"]
    );
    assert!(run("let A 61\nlet A 62\n").is_err());
    assert!(run("text A = yes\nlet A 61\n").is_err());
    assert_eq!(run("let A 61\ntext A = yes\n"), Ok((1, 0)));
}

#[test]
fn a_byte_that_changes_though_it_may_not_is_found() {
    let refused = |out: &mut [u8]| {
        out[7] = 0;
        (14, [0])
    };
    let filled = |out: &mut [u8]| {
        out.fill(0);
        (0, [7])
    };
    assert!(fill(8, refused).is_err());
    assert!(fill(8, filled).is_err());
    assert_eq!(fill(7, filled), Ok(Answer::Filled(vec![0; 7])));
    assert_eq!(fill(8, |_| (14, [0])), Ok(Answer::Refused(14, 0)));
}
