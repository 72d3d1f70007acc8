//! Whole bench runs: the Rust's side of a case. A client session of the Rust is joined to a server session of the Rust, in lock step.
//!
//! Queries without lines (document 02 §13) are compared in full, query by query and in how the run ends. When one is repeated by a bare CR, the Rust's server may hand out
//! an earlier query, or send `?`, after which its client sends all queries in full. Either way the answer is the lines of the query under way, so the values are the same;
//! the commands handed out and repeat support may not be, and the log of a run tells neither.
use crate::client::{config, values};
use crate::driver::{Driver, Log};
use crate::plan::{part_bytes, shown, Expected, Part, Plan};
use crate::server::{put_group, reply_lines, Line, Own};
use crate::shrink::{shorter, Case};
use crate::stream::{Arrival, End, Stream};
use std::cell::RefCell;
use std::collections::VecDeque;
use std::fmt::Write as _;
use std::io::{self, ErrorKind, Read, Write};
use std::rc::Rc;
use tachtalk_elm327_lib::{ClientSession, Command, ServerSession};

/// The numbers of document 01 that the Rust does not have, what it would be if the Rust failed, and the code of a run through all queries.
const TOO_LONG: u8 = 3;
const MALFORMED: u8 = 5;
const RECORD_FULL: u8 = 6;
const FAILED: u8 = 7;
const TOO_MUCH: u8 = 8;
const COMPLETE: u8 = 64;

#[derive(Clone, Debug, PartialEq)]
pub struct Query {
    pub pids: Vec<u8>,
    pub count: Option<u8>,
    pub lines: Vec<Line>,
}

impl Query {
    /// The command by which it is handed out: its text without the space.
    fn command(&self) -> String {
        let pids: String = self.pids.iter().map(|pid| format!("{pid:02X}")).collect();
        format!("01{pids}{}", self.count.map_or(String::new(), |count| count.to_string()))
    }
}

#[derive(Clone)]
pub struct RunCase {
    pub repeat: bool,
    pub script: Vec<u8>,
    /// The lent piece lengths.
    pub pieces: Vec<u8>,
    /// The size of the record buffer.
    pub room: usize,
}

/// A script as document 01 has it, without looking at its limits.
pub fn script(queries: &[Query]) -> Vec<u8> {
    let mut bytes = Vec::new();
    for query in queries {
        put_group(&mut bytes, query.pids.len());
        bytes.extend_from_slice(&query.pids);
        put_group(&mut bytes, query.count.map_or(0, |count| usize::from(count) + 1));
        put_group(&mut bytes, query.lines.len());
        bytes.extend(crate::server::line_list(&query.lines));
    }
    bytes
}

/// A script that is read, from its start.
struct Reader<'a>(&'a [u8]);

impl Reader<'_> {
    fn byte(&mut self) -> Option<u8> {
        let (first, rest) = self.0.split_first()?;
        self.0 = rest;
        Some(*first)
    }

    /// A group number in its shortest form, at most as large as given.
    fn group(&mut self, most: usize) -> Option<usize> {
        let mut n: usize = 0;
        let mut scale: usize = 1;
        let mut more = false;
        loop {
            let byte = usize::from(self.byte()?);
            if byte == 0 && more {
                return None;
            }
            n = n.saturating_add((byte % 128).saturating_mul(scale));
            scale = scale.saturating_mul(128);
            if byte < 128 {
                return (n <= most).then_some(n);
            }
            more = true;
        }
    }

    fn bytes(&mut self, n: usize) -> Option<Vec<u8>> {
        (0..n).map(|_| self.byte()).collect()
    }

    fn query(&mut self) -> Option<Query> {
        let few = self.group(6).filter(|few| 0 < *few)?;
        let pids = self.bytes(few)?;
        let count = self.group(256)?.checked_sub(1).map(|count| count as u8);
        let size = self.group(64)?;
        let lines = (0..size).map(|_| self.line()).collect::<Option<Vec<Line>>>()?;
        Some(Query { pids, count, lines })
    }

    fn line(&mut self) -> Option<Line> {
        let ecu = self.group(4096)?.checked_sub(1).map(|ecu| ecu as u16);
        let size = self.group(255)?;
        Some((ecu, self.bytes(size)?))
    }
}

/// The queries of a script, if it is well formed.
pub fn queries(script: &[u8]) -> Option<Vec<Query>> {
    let mut reader = Reader(script);
    let mut queries = Vec::new();
    while !reader.0.is_empty() {
        queries.push(reader.query()?);
    }
    Some(queries)
}

/// The server's end of the cable, and what is on its way to the client.
struct Far {
    session: ServerSession<Stream>,
    /// The other end of the server's stream.
    stream: Stream,
    /// What the client wrote and the server has not taken.
    written: Vec<u8>,
    /// The query under way.
    query: Query,
    /// Whether ATZ's answer, which is one piece, has been sent.
    reset: bool,
    /// The lent piece lengths that are left.
    lengths: VecDeque<u8>,
    pending: VecDeque<Vec<u8>>,
    /// The longest reply to a command of the query under way.
    longest: usize,
    calls: usize,
    seen: Vec<&'static str>,
}

impl Far {
    fn new(lengths: &[u8]) -> Self {
        let stream = Stream::new(End::Server);
        Far {
            session: ServerSession::new(stream.clone(), Own::usual().identity()),
            stream,
            written: Vec::new(),
            query: Query { pids: Vec::new(), count: None, lines: Vec::new() },
            reset: false,
            lengths: lengths.iter().copied().collect(),
            pending: VecDeque::new(),
            longest: 0,
            calls: 0,
            seen: Vec::new(),
        }
    }

    /// The server takes what was written and answers each command; the client gets all that it sent, cut into pieces.
    fn answer(&mut self) {
        let command = std::mem::take(&mut self.written);
        if command.is_empty() {
            return;
        }
        self.stream.load(&[Arrival::Piece(command)], None);
        loop {
            match self.session.next_command() {
                Ok(Command::At(command)) => command.answer().expect("the stream takes all"),
                Ok(Command::Obd(command)) => {
                    if command.command() != self.query.command() {
                        self.seen.push("repeats that the Rust handed out as an earlier query");
                    }
                    command.reply(&reply_lines(&self.query.lines)).expect("the stream takes all");
                }
                Err(error) => {
                    assert_eq!(error.kind(), ErrorKind::WouldBlock);
                    break;
                }
            }
            self.calls += 2;
        }
        let reply = self.stream.written();
        if reply == b"?\r\r>" {
            self.seen.push("repeats refused");
        }
        self.longest = self.longest.max(reply.len());
        if !self.reset {
            self.reset = true;
            return self.pending.push_back(reply);
        }
        let mut left = &reply[..];
        while !left.is_empty() {
            let size = match self.lengths.pop_front() {
                Some(n) if 1 <= n && n <= 128 => usize::from(n),
                _ => 128,
            };
            let (piece, rest) = left.split_at(size.min(left.len()));
            self.pending.push_back(piece.to_vec());
            left = rest;
        }
    }
}

/// The client's end of the cable.
#[derive(Clone)]
struct Near(Rc<RefCell<Far>>);

impl Read for Near {
    fn read(&mut self, buffer: &mut [u8]) -> io::Result<usize> {
        let mut far = self.0.borrow_mut();
        if far.pending.is_empty() {
            far.answer();
        }
        // A reply without its prompt leaves nothing to read: a closed connection.
        let Some(piece) = far.pending.pop_front() else { return Ok(0) };
        far.calls += 1;
        buffer[..piece.len()].copy_from_slice(&piece);
        Ok(piece.len())
    }
}

impl Write for Near {
    fn write(&mut self, bytes: &[u8]) -> io::Result<usize> {
        let mut far = self.0.borrow_mut();
        assert!(far.pending.is_empty(), "a reply ends with its prompt");
        far.written.extend_from_slice(bytes);
        Ok(bytes.len())
    }

    fn flush(&mut self) -> io::Result<()> {
        Ok(())
    }
}

impl RunCase {
    /// How the run ends, and the parts that stand.
    pub fn through_the_rust(&self, plan: &mut Plan) -> (u8, Vec<Part>) {
        if 16_384 < self.script.len() {
            return (TOO_LONG, Vec::new());
        }
        let Some(queries) = queries(&self.script) else { return (MALFORMED, Vec::new()) };
        let far = Rc::new(RefCell::new(Far::new(&self.pieces)));
        let mut client = ClientSession::new(Near(far.clone()), config(true, self.repeat));
        if client.init().is_err() {
            return (FAILED, Vec::new());
        }
        let mut parts = Vec::new();
        let mut room = self.room;
        let mut code = COMPLETE;
        for query in queries {
            let (pids, count) = (query.pids.clone(), query.count);
            if query.lines.is_empty() {
                plan.seen.push("queries without lines");
            }
            far.borrow_mut().query = query;
            far.borrow_mut().longest = 0;
            let part = match pids[..] {
                [pid] => client.query_pid(pid, count).map(|map| values(map, |lines| lines)),
                _ => client.query_pids(&pids, count).map(|map| values(map, |lines| lines)),
            };
            let Ok(part) = part else { return (FAILED, parts) };
            far.borrow_mut().calls += 2;
            if 4096 < far.borrow().longest {
                code = TOO_MUCH;
                break;
            }
            let size = part_bytes(&part).len();
            if room < size {
                code = RECORD_FULL;
                break;
            }
            room -= size;
            parts.push(part);
        }
        plan.script.calls = far.borrow().calls;
        plan.seen.append(&mut far.borrow_mut().seen);
        (code, parts)
    }
}

impl Case for RunCase {
    fn plan(&self) -> Plan {
        let mut plan = Plan::default();
        let (code, parts) = self.through_the_rust(&mut plan);
        plan.seen.push(match code {
            TOO_LONG => "scripts too long (3)",
            MALFORMED => "scripts malformed (5)",
            RECORD_FULL => "records full (6)",
            FAILED => "runs that failed",
            TOO_MUCH => "replies too long (8)",
            _ => "runs through all queries",
        });
        plan.expected.push((0, Expected::Run { code, parts }));
        plan
    }

    fn run<'a>(&self, driver: &'a mut Driver, _: &Plan) -> Log<'a> {
        driver.bench(self.repeat, &self.script, &self.pieces, self.room)
    }

    fn smaller(&self) -> Vec<Self> {
        let mut cases = Vec::new();
        if let Some(queries) = queries(&self.script) {
            let mut with = |queries: &[Query]| cases.push(RunCase { script: script(queries), ..self.clone() });
            for fewer in shorter(&queries) {
                with(&fewer);
            }
            for (n, query) in queries.iter().enumerate() {
                let mut changed = |query: Query| {
                    let mut queries = queries.clone();
                    queries[n] = query;
                    with(&queries);
                };
                for pids in shorter(&query.pids).into_iter().filter(|pids| !pids.is_empty()) {
                    changed(Query { pids, ..query.clone() });
                }
                for lines in shorter(&query.lines) {
                    changed(Query { lines, ..query.clone() });
                }
                for (k, (ecu, data)) in query.lines.iter().enumerate() {
                    for data in shorter(data) {
                        let mut query = query.clone();
                        query.lines[k] = (*ecu, data);
                        changed(query);
                    }
                }
                if query.count.is_some() {
                    changed(Query { count: None, ..query.clone() });
                }
            }
        } else {
            for script in shorter(&self.script) {
                cases.push(RunCase { script, ..self.clone() });
            }
        }
        for pieces in shorter(&self.pieces) {
            cases.push(RunCase { pieces, ..self.clone() });
        }
        if self.repeat {
            cases.push(RunCase { repeat: false, ..self.clone() });
        }
        if self.room < FULL_ROOM {
            cases.push(RunCase { room: FULL_ROOM, ..self.clone() });
        }
        cases
    }

    fn show(&self) -> String {
        let mut text = format!("bench run, repeat {}, a record of {} bytes, piece lengths {:?}", self.repeat, self.room, self.pieces);
        match queries(&self.script) {
            Some(queries) => {
                for (n, Query { pids, count, lines }) in queries.iter().enumerate() {
                    write!(text, "\n  {n}: PIDs {pids:02X?}, count {count:?}, lines {lines:02X?}").expect("a string takes all");
                }
            }
            None => write!(text, "\n  malformed: {}", shown(&self.script)).expect("a string takes all"),
        }
        text
    }
}

/// A record buffer that a log's two-byte length can tell of.
pub const FULL_ROOM: usize = 65_535;
