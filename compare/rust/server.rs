//! Server sessions: the Rust's side of a case.
use crate::driver::{server as kind, Driver, Log, Script};
use crate::plan::{shown, Expected, Plan};
use crate::shrink::{shorter, Case};
use crate::stream::{Arrival, End, Stream};
use std::fmt::Write;
use std::io::ErrorKind;
use tachtalk_elm327_lib::{ClientState, Command, Identity, ReplyLine, ServerSession};

/// A line of a reply: its ECU, if that is known, and its data.
pub type Line = (Option<u16>, Vec<u8>);

/// What an OBD command is answered with.
#[derive(Clone)]
pub enum Answer {
    Lines(Vec<Line>),
    Text(String),
}

/// An identity string of the session's own; the other is the usual one, ELM327 v1.5 for ATI and ELM327 for AT@1.
#[derive(Clone, Debug)]
pub enum Own {
    Ati(String),
    Device(String),
}

impl Own {
    pub fn usual() -> Own {
        Own::Device("ELM327".to_string())
    }

    pub fn identity(&self) -> Identity {
        match self.clone() {
            Own::Ati(ati) => Identity { ati, ..Identity::default() },
            Own::Device(device_description) => Identity { device_description, ..Identity::default() },
        }
    }

    /// The call of `answer`, and its argument.
    pub fn answer(&self) -> (u8, Vec<u8>) {
        match self {
            Own::Ati(text) => (kind::ANSWER_ATI, text.as_bytes().to_vec()),
            Own::Device(text) => (kind::ANSWER_DEVICE, text.as_bytes().to_vec()),
        }
    }
}

/// What a reader sends, piece by piece, and how the OBD commands in it are answered, over and over.
#[derive(Clone)]
pub struct ServerCase {
    pub own: Own,
    /// The Rattle session is given each byte by a call of its own.
    pub by_byte: bool,
    pub pieces: Vec<Vec<u8>>,
    pub answers: Vec<Answer>,
}

/// A command that was handed out: its phase and text, and the call that answered it.
struct Handed {
    phase: u8,
    text: Vec<u8>,
    call: u8,
    argument: Vec<u8>,
}

/// The last command by document 02 §13: "a query answered NO DATA now becomes the server's last command too; a rejected one still doesn't". It is worked out from the
/// commands that the Rust handed out and from how they were answered.
#[derive(Default)]
struct Due {
    /// Empty where there is none.
    command: Vec<u8>,
    /// Whether the latest reply had no lines: only then may the Rust, which such a reply leaves as it was, have another last command.
    no_data: bool,
}

impl Due {
    fn answered(&mut self, Handed { phase, text, call, argument }: &Handed) {
        match (*phase, *call) {
            (1, _) if text == b"ATZ" => *self = Due::default(),
            (2, kind::REPLY) => *self = Due { command: text.clone(), no_data: argument.is_empty() },
            _ => {}
        }
    }

    /// Whether the Rust has another one, for document 02's reason.
    fn differs(&self, rust: &ClientState) -> bool {
        self.no_data && self.command != last(rust)
    }
}

fn last(of: &ClientState) -> &[u8] {
    of.last_obd_command.as_ref().map_or(b"", |command| command.as_bytes())
}

/// What no command keeps.
fn is_space(byte: &u8) -> bool {
    matches!(byte, 0x09..=0x0D | 0x20)
}

/// The Rust's session is given bytes: the command that they end, if it hands one out.
fn given<'a>(session: &'a mut ServerSession<Stream>, stream: &Stream, bytes: &[u8]) -> Option<Command<'a, Stream>> {
    stream.load(&[Arrival::Piece(bytes.to_vec())], None);
    session.next_command().inspect_err(|error| assert_eq!(error.kind(), ErrorKind::WouldBlock)).ok()
}

/// What only the `Debug` form of a session shows: the line as far as it is read, and how many bytes wait in its buffer.
fn hidden(session: &ServerSession<Stream>, text: &mut String) -> (Vec<u8>, usize) {
    text.clear();
    write!(text, "{session:?}").expect("a string takes all");
    let number = |name: &str| -> usize {
        let at = text.rfind(name).expect("the field is there") + name.len();
        let end = text[at..].find(',').expect("another follows") + at;
        text[at..end].parse().expect("a number")
    };
    let at = text.rfind(", line: [").expect("the line is there") + ", line: [".len();
    let end = text[at..].find(']').expect("the line ends") + at;
    let bytes = text[at..end].split(", ").filter(|n| !n.is_empty());
    let line = bytes.map(|n| n.parse().expect("a byte")).collect();
    (line, number(", len: ") - number(", pos: "))
}

/// A group number of document 01.
pub fn put_group(to: &mut Vec<u8>, mut n: usize) {
    while 128 <= n {
        to.push((n % 128 + 128) as u8);
        n /= 128;
    }
    to.push(n as u8);
}

pub fn line_list(lines: &[Line]) -> Vec<u8> {
    let mut list = Vec::new();
    for (ecu, data) in lines {
        put_group(&mut list, ecu.map_or(0, |ecu| usize::from(ecu) + 1));
        put_group(&mut list, data.len());
        list.extend_from_slice(data);
    }
    list
}

pub fn reply_lines(lines: &[Line]) -> Vec<ReplyLine> {
    lines.iter().map(|(ecu, data)| ReplyLine { ecu: *ecu, data: data[..].into() }).collect()
}

impl ServerCase {
    /// Answers a command that the Rust handed out; so many OBD commands were answered before.
    fn answer(&self, command: Command<Stream>, answered: &mut usize) -> Handed {
        match command {
            Command::At(command) => {
                let text = command.command().as_bytes().to_vec();
                command.answer().expect("the stream takes all");
                let (call, argument) = self.own.answer();
                Handed { phase: 1, text, call, argument }
            }
            Command::Obd(command) => {
                let text = command.command().as_bytes().to_vec();
                let answer = self.answers.get(*answered % self.answers.len().max(1));
                *answered += 1;
                match answer.unwrap_or(&Answer::Lines(Vec::new())) {
                    Answer::Lines(lines) => {
                        command.reply(&reply_lines(lines)).expect("the stream takes all");
                        Handed { phase: 2, text, call: kind::REPLY, argument: line_list(lines) }
                    }
                    Answer::Text(line) => {
                        command.reject(line).expect("the stream takes all");
                        Handed { phase: 2, text, call: kind::REJECT, argument: line.clone().into_bytes() }
                    }
                }
            }
        }
    }

    /// The OBD commands that are handed out, by what is compared.
    pub fn handed(&self) -> Vec<Vec<u8>> {
        let text = |(_, expected): (usize, Expected)| if let Expected::Server { phase: 2, line, .. } = expected { Some(line) } else { None };
        self.plan().expected.into_iter().filter_map(text).collect()
    }

    /// The session is given bytes, of which it takes so many; the last answer is code.
    fn hand_over(&self, plan: &mut Plan, n: usize, bytes: &[u8], taken: usize, code: u8, sent: Vec<u8>) {
        let mut expected = Expected::Calls { calls: 1, code, count: taken, sent };
        if self.by_byte && 0 < taken {
            for byte in &bytes[..taken] {
                plan.script.call(kind::BYTE, &[*byte]);
            }
            if let Expected::Calls { calls, count, .. } = &mut expected {
                (*calls, *count) = (taken, 0);
            }
        } else {
            plan.script.call(kind::BYTES, bytes);
        }
        plan.expected.push((n, expected));
    }
}

/// An entry that shows the session: as the Rust's is, but for the last command where document 02 §13 asks for another.
fn look(plan: &mut Plan, n: usize, of: &ClientState, due: &Due, phase: u8, line: Vec<u8>) {
    let settings = [of.echo_enabled, of.linefeeds_enabled, of.spaces_enabled, of.headers_enabled];
    let by_document = due.differs(of);
    let last = if by_document { &due.command } else { last(of) }.to_vec();
    if by_document {
        plan.seen.push("last commands by document 02 alone");
    }
    plan.script.look(kind::STATE, &[]);
    plan.expected.push((n, Expected::Server { settings, phase, last, by_document, line }));
}

impl Case for ServerCase {
    /// The Rust is given what the reader sends line by line, since whether its last command is the due one shows only when the commands before are answered. At a bare
    /// CR while they differ it gets the due command in full, before the CR: it hands out the same command, and the session is compared to its end.
    fn plan(&self) -> Plan {
        let mut plan = Plan::default();
        let stream = Stream::new(End::Server);
        let mut session = ServerSession::new(stream.clone(), self.own.identity());
        let mut due = Due::default();
        let mut text = String::new();
        let mut answered = 0;
        // The line as far as it is read, its first bytes perhaps in earlier pieces.
        let mut line: Vec<u8> = Vec::new();
        for (n, piece) in self.pieces.iter().enumerate().filter(|(_, piece)| !piece.is_empty()) {
            let mut from = 0;
            let mut to = 0;
            let mut sent = Vec::new();
            for part in piece.split_inclusive(|byte| *byte == b'\r') {
                to += part.len();
                line.extend_from_slice(part);
                let ends = part.ends_with(b"\r");
                let bare = ends && line.iter().all(is_space);
                if ends {
                    line.clear();
                }
                let before = session.client_state().clone();
                let mut left = part;
                if bare && due.differs(&before) {
                    let (spaces, cr) = part.split_at(part.len() - 1);
                    for bytes in [spaces, &due.command].into_iter().filter(|bytes| !bytes.is_empty()) {
                        assert!(given(&mut session, &stream, bytes).is_none(), "only CR ends a line");
                    }
                    // All that was written is their echo: that of the command goes.
                    let mut echoed = stream.written();
                    if before.echo_enabled {
                        assert_eq!(echoed.split_off(spaces.len()), due.command);
                    }
                    sent.extend(echoed);
                    left = cr;
                    plan.seen.push("bare CRs that the Rust got in full");
                }
                let command = given(&mut session, &stream, left);
                sent.extend(stream.written());
                let Some(handed) = command.map(|command| self.answer(command, &mut answered)) else { continue };
                plan.seen.push(if handed.phase == 1 { "AT commands" } else { "OBD commands" });
                if bare {
                    plan.seen.push("repeats");
                }
                self.hand_over(&mut plan, n, &piece[from..], to - from, 64 + handed.phase, std::mem::take(&mut sent));
                look(&mut plan, n, &before, &due, handed.phase, handed.text.clone());
                plan.script.call(handed.call, &handed.argument);
                plan.expected.push((n, Expected::Calls { calls: 1, code: 64, count: 0, sent: stream.written() }));
                due.answered(&handed);
                look(&mut plan, n, session.client_state(), &due, 0, Vec::new());
                from = to;
            }
            self.hand_over(&mut plan, n, &piece[from..], piece.len() - from, 64, sent);
            let (begun, waiting) = hidden(&session, &mut text);
            assert_eq!(waiting, 0);
            look(&mut plan, n, session.client_state(), &due, 0, begun);
        }
        plan
    }

    fn run<'a>(&self, driver: &'a mut Driver, plan: &Plan) -> Log<'a> {
        driver.server(&plan.script, 0, &Script::default())
    }

    fn smaller(&self) -> Vec<Self> {
        let mut cases = Vec::new();
        for pieces in shorter(&self.pieces) {
            cases.push(ServerCase { pieces, ..self.clone() });
        }
        for (n, piece) in self.pieces.iter().enumerate() {
            for bytes in shorter(piece) {
                let mut case = self.clone();
                case.pieces[n] = bytes;
                cases.push(case);
            }
        }
        for answers in shorter(&self.answers) {
            cases.push(ServerCase { answers, ..self.clone() });
        }
        for (n, answer) in self.answers.iter().enumerate() {
            if let Answer::Lines(lines) = answer {
                for lines in shorter(lines) {
                    let mut case = self.clone();
                    case.answers[n] = Answer::Lines(lines);
                    cases.push(case);
                }
                for (k, (ecu, data)) in lines.iter().enumerate() {
                    for data in shorter(data) {
                        let mut case = self.clone();
                        let mut lines = lines.clone();
                        lines[k] = (*ecu, data);
                        case.answers[n] = Answer::Lines(lines);
                        cases.push(case);
                    }
                }
            }
        }
        let (Own::Ati(text) | Own::Device(text)) = &self.own;
        if !text.is_empty() {
            cases.push(ServerCase { own: Own::Device(String::new()), ..self.clone() });
        }
        if self.by_byte {
            cases.push(ServerCase { by_byte: false, ..self.clone() });
        }
        cases
    }

    fn show(&self) -> String {
        let mut text = format!("server session, identity {:?}", self.own);
        if self.by_byte {
            text += ", byte by byte";
        }
        for (n, piece) in self.pieces.iter().enumerate() {
            write!(text, "\n  {n}: piece {}", shown(piece)).expect("a string takes all");
        }
        for answer in &self.answers {
            match answer {
                Answer::Lines(lines) => write!(text, "\n  replied with {lines:02X?}"),
                Answer::Text(line) => write!(text, "\n  rejected with {line:?}"),
            }
            .expect("a string takes all");
        }
        text
    }
}
