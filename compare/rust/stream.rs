//! A stream in memory for the Rust sessions: it gives what is put in, piece by piece, and keeps all that goes through it.
use std::cell::RefCell;
use std::collections::VecDeque;
use std::fmt;
use std::io::{self, ErrorKind, Read, Write};
use std::rc::Rc;

/// What a read gives.
#[derive(Clone, Debug, PartialEq)]
pub enum Arrival {
    Piece(Vec<u8>),
    /// The read fails.
    Failed,
    /// The connection is closed.
    Closed,
}

/// What went through the stream.
#[derive(Clone, Debug, PartialEq)]
pub enum Event {
    Wrote(Vec<u8>),
    /// A write of these bytes failed.
    WriteFailed(Vec<u8>),
    /// What a read was to give, with its 00 and its pluses.
    Read(Arrival),
    /// A piece of 00 alone, which the read passed over.
    Nulls(Vec<u8>),
}

/// Whose stream it is.
#[derive(Clone, Copy, PartialEq)]
pub enum End {
    /// When nothing is left, the connection is closed. Document 02 §2: the Rust gets "the same pieces without the 00 bytes, those of nothing else left out".
    Client,
    /// When nothing is left, a read would block.
    Server,
}

struct Wire {
    arrivals: VecDeque<Arrival>,
    /// The bytes of the pieces among them, as the session gets them but for 00.
    given: VecDeque<u8>,
    end: End,
    /// How many writes go well before one fails.
    failed_write: Option<usize>,
    events: Vec<Event>,
}

/// One end is the session's, a clone of it the other's.
#[derive(Clone)]
pub struct Stream(Rc<RefCell<Wire>>);

impl Stream {
    pub fn new(end: End) -> Self {
        Stream(Rc::new(RefCell::new(Wire {
            arrivals: VecDeque::new(),
            given: VecDeque::new(),
            end,
            failed_write: None,
            events: Vec::new(),
        })))
    }

    /// What arrives next, and after how many writes one fails; what was left before is gone.
    pub fn load(&self, arrivals: &[Arrival], failed_write: Option<usize>) {
        let mut wire = self.0.borrow_mut();
        wire.arrivals = arrivals.iter().cloned().collect();
        wire.given = bytes(arrivals).into();
        wire.failed_write = failed_write;
    }

    /// The same for a query, whose replies the Rust gets by `without_plus`. A reply goes on to the first piece that holds a prompt, later bytes included.
    pub fn load_replies(&self, arrivals: &[Arrival], failed_write: Option<usize>, framed: bool) {
        self.load(arrivals, failed_write);
        let replies = arrivals.split_inclusive(|arrival| matches!(arrival, Arrival::Piece(bytes) if bytes.contains(&b'>')));
        self.0.borrow_mut().given = replies.flat_map(|reply| without_plus(&bytes(reply), framed)).collect();
    }

    /// What happened since this was last asked for.
    pub fn events(&self) -> Vec<Event> {
        std::mem::take(&mut self.0.borrow_mut().events)
    }

    /// What was written since then.
    pub fn written(&self) -> Vec<u8> {
        let mut all = Vec::new();
        for event in self.events() {
            if let Event::Wrote(bytes) = event {
                all.extend(bytes);
            }
        }
        all
    }

    /// The pieces of 00 alone that are next to arrive.
    pub fn nulls_left(&self) -> Vec<Vec<u8>> {
        let left = &self.0.borrow().arrivals;
        let nulls = |arrival: &Arrival| match arrival {
            Arrival::Piece(bytes) if is_nulls(bytes) => Some(bytes.clone()),
            _ => None,
        };
        left.iter().map_while(nulls).collect()
    }
}

/// The bytes of the pieces, joined.
fn bytes(arrivals: &[Arrival]) -> Vec<u8> {
    let pieces = arrivals.iter().filter_map(|arrival| if let Arrival::Piece(bytes) = arrival { Some(&bytes[..]) } else { None });
    pieces.collect::<Vec<_>>().concat()
}

/// A query's reply as the Rust gets it. Document 02 §4: "Pairs and ids with a plus now count as bad hex", and "the Rust is compared in sessions up to their first reply
/// with a plus". From that reply on it gets `G`, which is bad hex to it too, for each plus where hex is read, and stays compared.
pub fn without_plus(reply: &[u8], framed: bool) -> Vec<u8> {
    let mut given = reply.to_vec();
    for line in given.split_mut(|byte| *byte == b'\r') {
        if is_hex(line, framed) {
            line.iter_mut().filter(|byte| **byte == b'+').for_each(|byte| *byte = b'G');
        }
    }
    given
}

/// Whether hex is read in a line: not where it holds a prompt, nor, framed, where under 5 characters are left of it, which are its data as they are.
fn is_hex(line: &[u8], framed: bool) -> bool {
    let line = without_nulls(line);
    let trimmed = String::from_utf8_lossy(&line);
    let size = trimmed.trim().bytes().filter(|byte| *byte != b' ').count();
    !line.contains(&b'>') && (!framed || 5 <= size)
}

pub fn without_nulls(bytes: &[u8]) -> Vec<u8> {
    bytes.iter().copied().filter(|byte| *byte != 0).collect()
}

/// One or more 00, and nothing else.
fn is_nulls(bytes: &[u8]) -> bool {
    !bytes.is_empty() && bytes.iter().all(|byte| *byte == 0)
}

/// Short, since a session is shown with its stream.
impl fmt::Debug for Stream {
    fn fmt(&self, f: &mut fmt::Formatter<'_>) -> fmt::Result {
        f.write_str("Stream")
    }
}

impl Read for Stream {
    /// A piece that is longer than the buffer is divided first: its 00 count for 128, and for ATZ's 256.
    fn read(&mut self, buffer: &mut [u8]) -> io::Result<usize> {
        let mut wire = self.0.borrow_mut();
        loop {
            let arrival = match (wire.arrivals.pop_front(), wire.end) {
                (Some(arrival), _) => arrival,
                (None, End::Client) => Arrival::Closed,
                (None, End::Server) => return Err(ErrorKind::WouldBlock.into()),
            };
            match arrival {
                Arrival::Piece(mut bytes) => {
                    if buffer.len() < bytes.len() {
                        let rest = bytes.split_off(buffer.len());
                        wire.arrivals.push_front(Arrival::Piece(rest));
                    }
                    let mut given: Vec<u8> = wire.given.drain(..bytes.len()).collect();
                    if wire.end == End::Client && is_nulls(&bytes) {
                        wire.events.push(Event::Nulls(bytes));
                        continue;
                    }
                    if wire.end == End::Client {
                        given = without_nulls(&given);
                    }
                    let n = given.len();
                    buffer[..n].copy_from_slice(&given);
                    wire.events.push(Event::Read(Arrival::Piece(bytes)));
                    return Ok(n);
                }
                Arrival::Failed => {
                    wire.events.push(Event::Read(Arrival::Failed));
                    return Err(ErrorKind::ConnectionReset.into());
                }
                Arrival::Closed => {
                    wire.events.push(Event::Read(Arrival::Closed));
                    return Ok(0);
                }
            }
        }
    }
}

impl Write for Stream {
    fn write(&mut self, bytes: &[u8]) -> io::Result<usize> {
        let mut wire = self.0.borrow_mut();
        match wire.failed_write {
            Some(0) => {
                wire.failed_write = None;
                wire.events.push(Event::WriteFailed(bytes.to_vec()));
                return Err(ErrorKind::BrokenPipe.into());
            }
            Some(n) => wire.failed_write = Some(n - 1),
            None => {}
        }
        wire.events.push(Event::Wrote(bytes.to_vec()));
        Ok(bytes.len())
    }

    fn flush(&mut self) -> io::Result<()> {
        Ok(())
    }
}
