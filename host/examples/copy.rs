//! Two devices that end with the same folder.
//!
//! `cargo run --example copy DIR1 DIR2` copies what is newer in either folder into the other one;
//! without folders it makes two and shows what is copied. Nothing is deleted. The two talk over
//! 127.0.0.1; between machines a TLS stream would stand in place of the TCP stream.
//!
//! Each device sends an Index of what it has, asks for the blocks it lacks, and answers Requests. A block
//! that comes with the wrong content is asked for again. The protocol has no message for the end, but
//! after a change a device sends its Index again. So one that has nothing more to ask sends a second
//! Index, changed or not, and is done once it has got one too.

#[path = "copy/folder.rs"]
pub mod folder;

use folder::{Folder, Incoming, Report};
use fordtrumpet::{
    accept, merge, read, request_list, serve, write_index, write_pong, write_response, Message,
    Outcome, Refusal, RequestQueue, Serving, Table, Wanted, MAX_REQUEST_LIST, MAX_TABLE,
};
use std::collections::{BTreeMap, VecDeque};
use std::io::Write;
use std::net::{Ipv4Addr, Shutdown, TcpListener, TcpStream};
use std::path::{Path, PathBuf};
use std::sync::mpsc::{sync_channel, Receiver};
use std::{env, thread, time::Duration};

const REPOSITORY: &str = "default";

/// Each device has one peer, so that the others of its queue are idle.
const PEER: u32 = 1;

/// A peer that neither sends nor takes anything for so long is given up.
const PATIENCE: Duration = Duration::from_secs(60);

/// So often a block is asked for that comes with the wrong content: a disk that reads badly once may do
/// better the next time.
pub const TRIES: u32 = 3;

/// What an honest peer has under way to us at most: a window of Requests, one of Responses, and a few
/// others. With room for these we always read on, so two that write don't wait for each other.
const UNDER_WAY: usize = 2 * RequestQueue::MAX_WINDOW as usize + 8;

// README: from here on its first example in Rust, line for line.
use fordtrumpet::{Reader, MAX_RESPONSE};
use std::io::{self, Read};

/// The messages of a stream. Nothing of use to us is longer than a Response.
pub fn messages<R: Read>(stream: R) -> Reader<R> {
    Reader::open(stream).limit(MAX_RESPONSE)
}

/// The next message, which has to come.
pub fn next_message(messages: &mut Reader<impl Read>) -> io::Result<Vec<u8>> {
    match messages.next_message()? {
        Some(message) => Ok(message.to_vec()),
        None => Err(io::ErrorKind::UnexpectedEof.into()),
    }
}
// README: to here.

/// One side of the exchange: brings the folder up to what the peer has.
pub fn exchange(folder: Folder, stream: TcpStream) -> io::Result<Report> {
    stream.set_read_timeout(Some(PATIENCE))?;
    stream.set_write_timeout(Some(PATIENCE))?;
    stream.set_nodelay(true)?; // a Request isn't to wait for the next one
    let device = Device {
        folder,
        stream: &stream,
        // A bulk copy states the window of its peer.
        queue: RequestQueue::open_with([Some(RequestQueue::MAX_WINDOW), None, None, None])?,
        asks: VecDeque::new(),
        incoming: BTreeMap::new(),
        indexes: 0,
        report: Report::default(),
        out: vec![0; MAX_RESPONSE],
    };
    let (sender, receiver) = sync_channel(UNDER_WAY);
    let mut messages = messages(&stream);
    thread::scope(|scope| {
        // The first error ends the device, and that ends this.
        scope.spawn(move || while sender.send(next_message(&mut messages)).is_ok() {});
        let report = device.run(receiver);
        // However it went, neither our reader nor the peer is to wait any longer.
        let _ = stream.shutdown(Shutdown::Both);
        report
    })
}

/// A block to ask for, as the request list has it.
struct Ask {
    name: String,
    offset: u64,
    length: u32,
    hash: [u8; 32],
    /// How often it came with the wrong content.
    wrong: u32,
}

impl From<Wanted<'_>> for Ask {
    fn from(wanted: Wanted) -> Self {
        Ask {
            name: wanted.name.to_string(),
            offset: wanted.offset,
            length: wanted.length,
            hash: *wanted.hash,
            wrong: 0,
        }
    }
}

struct Device<'a> {
    folder: Folder,
    stream: &'a TcpStream,
    queue: RequestQueue,
    /// The blocks to ask for. As many as the queue has, from the front, are asked for already.
    asks: VecDeque<Ask>,
    /// The files that are put together, by their names.
    incoming: BTreeMap<String, Incoming>,
    /// How many Indexes came.
    indexes: u32,
    report: Report,
    /// Has room for any message that we send.
    out: Vec<u8>,
}

impl Device<'_> {
    fn run(mut self, messages: Receiver<io::Result<Vec<u8>>>) -> io::Result<Report> {
        let mut asking = true;
        self.send_index()?;
        while asking || self.indexes < 2 {
            let message = messages
                .recv()
                .expect("the reader goes on as long as we do")?;
            let length = self.take(&message)?;
            self.stream.write_all(&self.out[..length])?;
            self.ask()?;
            if asking && self.indexes > 0 && self.asks.is_empty() {
                asking = false;
                self.finish()?;
            }
        }
        Ok(self.report)
    }

    /// Does what a message asks for, and gives the length of the reply in `out`: 0 if there is none.
    fn take(&mut self, message: &[u8]) -> io::Result<usize> {
        match read(message)?.message {
            Message::Index(_) if self.indexes == 0 => self.plan(message)?,
            Message::Index(_) => self.indexes += 1, // what has changed since is for the next time
            Message::Response(_) => self.keep(message)?,
            Message::Request(_) => return self.respond(message),
            Message::Ping(ping) => return Ok(write_pong(ping.id, &mut self.out)?),
            Message::IndexUpdate(_) | Message::Pong(_) | Message::Options(_) => {}
        }
        Ok(0)
    }

    /// Works out which files to copy, and which of their blocks to ask for.
    fn plan(&mut self, index: &[u8]) -> io::Result<()> {
        let (ours, none) = (self.folder.ours(), Table::EMPTY);
        let (mut theirs, mut merged) = (vec![0; MAX_TABLE], vec![0; MAX_TABLE]);
        let theirs = accept(none, index, REPOSITORY, &mut theirs)?;
        for (_, new) in merge(ours, theirs, &mut merged)? {
            let held = ours.find(new.name).is_some_and(|(_, old)| old == new);
            if held || new.flags.is_deleted() || new.flags.is_invalid() {
                continue;
            }
            match self.folder.begin(&new) {
                Ok(file) => drop(self.incoming.insert(new.name.to_string(), file)),
                Err(why) => self.report.note(new.name, Err(why)),
            }
        }
        let mut list = vec![0; MAX_REQUEST_LIST];
        let list = request_list(ours, [theirs, none, none, none], &mut list)?;
        let begun = |wanted: &Wanted| self.incoming.contains_key(wanted.name);
        self.asks = list.iter().filter(begun).map(Ask::from).collect();
        self.indexes = 1;
        Ok(())
    }

    /// Asks for as much as may be outstanding; the rest waits for answers.
    fn ask(&mut self) -> io::Result<()> {
        let mut peer = self.queue.peer(PEER);
        while let Some(ask) = self.asks.get(peer.outstanding()) {
            let (name, offset, length, out) = (&ask.name, ask.offset, ask.length, &mut self.out);
            match peer.issue(REPOSITORY, name, offset, length, &ask.hash, out) {
                Ok(issued) => self.stream.write_all(&self.out[..issued.written])?,
                Err(Refusal::WindowFull | Refusal::AllowanceFull) => break,
                Err(refusal) => return Err(refusal.into()),
            }
        }
        Ok(())
    }

    /// Replies to a Request, with data exactly if our table has that block there.
    fn respond(&mut self, request: &[u8]) -> io::Result<usize> {
        match serve(self.folder.ours(), REPOSITORY, request, &mut self.out)? {
            Serving::Replied(length) => Ok(length),
            Serving::Served {
                id,
                name,
                offset,
                length,
            } => {
                // Where the file is gone since the scan, a Response without data says so.
                let data = self.folder.block(name, offset, length).unwrap_or_default();
                Ok(write_response(id, &data, &mut self.out)?)
            }
        }
    }

    /// Keeps a block that was asked for, if it is the right one; the queue has seen to its hash.
    fn keep(&mut self, response: &[u8]) -> io::Result<()> {
        let outcome = self.queue.peer(PEER).answer(response)?.outcome;
        let mut ask = self.asks.pop_front().expect("the queue has it too");
        let file = self.incoming.get_mut(&ask.name).expect("it was begun");
        match outcome {
            Outcome::Data(data) => {
                self.report.received += data.len();
                file.write(ask.offset, data)?;
            }
            Outcome::NotAvailable => file.fault = Some("a block isn't available"),
            Outcome::WrongSize => file.fault = Some("a block has another length"),
            Outcome::WrongContent => {
                ask.wrong += 1;
                match ask.wrong < TRIES {
                    true => self.asks.push_back(ask),
                    false => file.fault = Some("a block isn't what its hash says"),
                }
            }
        }
        Ok(())
    }

    /// Puts the files in their places, now that no old one is needed for its blocks, and tells of it.
    fn finish(&mut self) -> io::Result<()> {
        for file in self.incoming.values() {
            self.report.note(&file.name, self.folder.finish(file));
        }
        self.folder.scan()?;
        self.send_index()
    }

    fn send_index(&mut self) -> io::Result<()> {
        let files = self.folder.ours().as_bytes();
        let length = write_index(0, REPOSITORY, files, &mut self.out)?;
        self.stream.write_all(&self.out[..length])
    }
}

/// Runs both sides, each in a thread of its own.
pub fn copy(first: &Path, second: &Path) -> io::Result<[Report; 2]> {
    let listener = TcpListener::bind((Ipv4Addr::LOCALHOST, 0))?;
    let near = TcpStream::connect(listener.local_addr()?)?;
    let (far, _) = listener.accept()?;
    let (first, second) = (Folder::open(first)?, Folder::open(second)?);
    thread::scope(|scope| {
        let other = scope.spawn(|| exchange(second, far));
        let report = exchange(first, near)?;
        Ok([report, other.join().expect("it doesn't panic")?])
    })
}

fn main() -> io::Result<()> {
    let mut folders: Vec<PathBuf> = env::args_os().skip(1).map(PathBuf::from).collect();
    if folders.is_empty() {
        folders = folder::samples()?.into();
    }
    let [first, second] = folders.as_slice() else {
        return Err(io::Error::other("name two folders, or none"));
    };
    for (folder, report) in [first, second].into_iter().zip(copy(first, second)?) {
        println!("{}: {} bytes came", folder.display(), report.received);
        report.copied.iter().for_each(|name| println!("  {name}"));
        report.left.iter().for_each(|why| println!("  not {why}"));
    }
    Ok(())
}
