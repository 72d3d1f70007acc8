//! Cases whose logs are written by hand: document 01's numbers, at their limits from both sides, with what each leaves in the session, and document 02's order of
//! PIDs, its 00 bytes, its pluses and its last command after NO DATA. No log here is taken from the Rust's answers or from this library's. The state is shown before the
//! first call and after each.
use crate::driver::{client, server, Script};
use crate::every::WORKED;
use crate::plan::{put_call, put_number, put_text};
use crate::stored::{CLIENT, RUN, SERVER};

/// A case: what is run, in the terms of the stored list, and its log.
pub struct Written {
    pub name: &'static str,
    pub kind: u8,
    pub room: usize,
    pub script: Script,
    pub log: Vec<u8>,
}

/// What a call answers: its code, the count that belongs to it, and the bytes to send.
type Said = (u8, usize, Vec<u8>);

fn number(n: u8) -> Said {
    (n, 0, Vec::new())
}

fn sent(text: &[u8]) -> Said {
    (64, 0, text.to_vec())
}

/// So many values.
fn values(count: usize, values: &[u8]) -> Said {
    (64, count, values.to_vec())
}

/// More of a reply is awaited.
fn awaited() -> Said {
    sent(b"")
}

/// A reply is complete, and the next command goes out.
fn next(text: &[u8]) -> Said {
    (65, 0, text.to_vec())
}

/// The initialisation or the raw command is over.
fn over() -> Said {
    (66, 0, Vec::new())
}

/// A query's reply is complete.
fn complete() -> Said {
    (67, 0, Vec::new())
}

/// A byte of a reader is taken, and these are sent back.
fn taken(sent: &[u8]) -> Said {
    (64, 0, sent.to_vec())
}

/// The byte ended an OBD command.
fn handed(sent: &[u8]) -> Said {
    (66, 0, sent.to_vec())
}

/// A state as a log shows it.
trait State {
    /// The argument of the entry that shows it.
    const SHOWN: &'static [u8];
    fn put(&self, log: &mut Vec<u8>);
}

/// What is under way at a client.
const NOTHING: u8 = 0;
const RESET: u8 = 1;
const SETUP: u8 = 2;
const RAW: u8 = 3;
const QUERY: u8 = 4;
const REPEAT: u8 = 5;
const COMPLETE: u8 = 6;

/// Repeat and multi-PID support.
const UNKNOWN: u8 = 0;
const YES: u8 = 1;
const NO: u8 = 2;

/// A client session, with the count of 0C and 1, 0 when not learned.
struct Client {
    framing: bool,
    repeat: u8,
    multi: u8,
    under: u8,
    last: &'static [u8],
    count: usize,
}

impl Client {
    /// With the length of a PID, and its count and 1.
    fn put_with(&self, log: &mut Vec<u8>, length: usize, count: usize) {
        log.extend([u8::from(self.framing), self.repeat, self.multi, self.under]);
        put_text(log, self.last);
        put_number(log, length);
        put_number(log, count);
    }
}

impl State for Client {
    const SHOWN: &'static [u8] = &[0x0C];

    fn put(&self, log: &mut Vec<u8>) {
        // The table's length of 0C.
        self.put_with(log, 2, self.count);
    }
}

/// What a server has handed out.
const READING: u8 = 0;
const AT: u8 = 1;
const OBD: u8 = 2;

/// A server session: the line as far as it is read, or the command handed out.
struct Server {
    echo: bool,
    linefeeds: bool,
    headers: bool,
    phase: u8,
    last: Vec<u8>,
    line: Vec<u8>,
}

impl State for Server {
    const SHOWN: &'static [u8] = &[];

    fn put(&self, log: &mut Vec<u8>) {
        // No case turns spaces off.
        log.extend([self.echo, self.linefeeds, true, self.headers].map(u8::from));
        log.push(self.phase);
        put_text(log, &self.last);
        put_text(log, &self.line);
    }
}

/// A session's calls so far, their log, and the state that they leave.
struct Session<S> {
    kind: u8,
    script: Script,
    log: Vec<u8>,
    now: S,
}

impl<S: State> Session<S> {
    fn new(kind: u8, now: S) -> Self {
        Session { kind, script: Script::default(), log: Vec::new(), now }.shown()
    }

    fn shown(mut self) -> Self {
        self.script.look(client::STATE, S::SHOWN);
        self.now.put(&mut self.log);
        self
    }

    /// A call, what it answers, and what it changes.
    fn call(mut self, kind: u8, argument: &[u8], (code, count, sent): Said, change: impl Fn(&mut S)) -> Self {
        self.script.call(kind, argument);
        put_call(&mut self.log, code, count, &sent);
        change(&mut self.now);
        self.shown()
    }

    /// A call that gets a number and leaves the session as it was.
    fn refused(self, kind: u8, argument: &[u8], n: u8) -> Self {
        self.call(kind, argument, number(n), |_| {})
    }

    fn case(self, name: &'static str) -> Written {
        Written { name, kind: self.kind, room: 0, script: self.script, log: self.log }
    }
}

/// The reply `41 0C 1A F8`, unframed, and the value of 0C that it gives.
const REPLY: &[u8] = b"41 0C 1A F8\r\r>";
const VALUE: &[u8] = &[0x0C, 0x00, 0x04, 0x41, 0x0C, 0x1A, 0xF8];

/// The failures that get 7.
const FAILURES: [u8; 3] = [client::FAILED_READ, client::FAILED_WRITE, client::PIECE];

/// A fresh client session.
fn fresh(framing: bool, repeat: bool) -> Session<Client> {
    let now = Client { framing: false, repeat: if repeat { UNKNOWN } else { NO }, multi: UNKNOWN, under: NOTHING, last: b"", count: 0 };
    Session::new(CLIENT + u8::from(framing) + 2 * u8::from(repeat), now)
}

impl Session<Client> {
    /// A start sends these bytes.
    fn start(self, kind: u8, argument: &[u8], text: &[u8], under: u8) -> Self {
        self.call(kind, argument, sent(text), |c| c.under = under)
    }

    fn query(self) -> Self {
        self.start(client::QUERY_PID, &[0x0C], b"010C\r", QUERY)
    }

    fn repeat(self) -> Self {
        self.start(client::QUERY_PID, &[0x0C], b"\r", REPEAT)
    }

    /// A raw command, which forgets the last query.
    fn raw(self, command: &[u8]) -> Self {
        self.call(client::COMMAND, command, sent(&[command, b"\r"].concat()), |c| (c.under, c.last) = (RAW, b""))
    }

    fn init(self) -> Self {
        self.start(client::INIT, &[], b"ATZ\r", RESET)
    }

    /// The query's reply, and its finish.
    fn replied(self) -> Self {
        self.call(client::PIECE, REPLY, complete(), |c| (c.under, c.last) = (COMPLETE, b"010C"))
            .call(client::FINISH, &[], values(1, VALUE), |c| (c.under, c.count) = (NOTHING, 2))
    }

    /// Framing is turned on.
    fn framed(self) -> Self {
        self.raw(b"ATH1").call(client::PIECE, b">", over(), |c| (c.under, c.framing) = (NOTHING, true))
    }

    /// A query of 0C, sent in full, gets this reply and gives these values; then the count of 0C and 1 is so much.
    fn gives(self, reply: &[u8], records: &[&[u8]], count: usize) -> Self {
        let (all, last) = reply.split_at((reply.len() - 1) / 128 * 128);
        all.chunks(128)
            .fold(self.query(), Self::piece)
            .call(client::PIECE, last, complete(), |c| (c.under, c.last) = (COMPLETE, b"010C"))
            .call(client::FINISH, &[], values(records.len(), &records.concat()), |c| (c.under, c.count) = (NOTHING, count))
    }

    /// Any end of the wait for the ATZ answer: ATE0 goes out, a raw command.
    fn reset(self, kind: u8, piece: &[u8]) -> Self {
        self.call(kind, piece, next(b"ATE0\r"), |c| (c.under, c.last) = (SETUP, b""))
    }

    /// A later command of the initialisation is answered, and the next one goes out.
    fn setup(self, text: &[u8]) -> Self {
        self.call(client::PIECE, b"OK\r\r>", next(text), |_| {})
    }

    fn piece(self, bytes: &[u8]) -> Self {
        self.call(client::PIECE, bytes, awaited(), |_| {})
    }

    /// So many bytes of a reply, in pieces of at most 128.
    fn pieces(mut self, size: usize) -> Self {
        for piece in vec![b'\r'; size].chunks(128) {
            self = self.piece(piece);
        }
        self
    }

    /// So many 00 and nothing else: the reply is awaited as before.
    fn nulls(self, size: usize) -> Self {
        self.piece(&vec![0; size])
    }

    /// The host writes to the front of its store.
    fn host_writes(mut self, bytes: &[u8]) -> Self {
        self.script.look(client::WRITE, bytes);
        self
    }

    /// The reply so far is shown.
    fn so_far(mut self, reply: &[u8]) -> Self {
        self.script.look(client::REPLY, &[]);
        put_text(&mut self.log, reply);
        self
    }

    /// The state is shown with another PID than 0C: its length, and its count and 1.
    fn knows(mut self, pid: u8, length: usize, count: usize) -> Self {
        self.script.look(client::STATE, &[pid]);
        self.now.put_with(&mut self.log, length, count);
        self
    }

    /// A number of the far side: the query or command is over, and the last query forgotten.
    fn failed(self, kind: u8, piece: &[u8], n: u8) -> Self {
        self.call(kind, piece, number(n), |c| (c.under, c.last) = (NOTHING, b""))
    }

    /// The same in a query of `query_pids`, before multi-PID support is known.
    fn failed_untested(self, kind: u8, piece: &[u8], n: u8) -> Self {
        self.call(kind, piece, number(n), |c| (c.under, c.multi, c.last) = (NOTHING, NO, b""))
    }

    /// Something is under way.
    fn no_start(self) -> Self {
        self.refused(client::INIT, &[], 1)
            .refused(client::COMMAND, b"ATI", 1)
            .refused(client::QUERY_PID, &[0x0C], 1)
            .refused(client::QUERY_PIDS, &[0x0C, 0x0D], 1)
    }

    /// No query's reply is complete.
    fn no_finish(self) -> Self {
        self.refused(client::FINISH, &[], 1)
    }

    /// No reply is awaited.
    fn no_piece(self) -> Self {
        self.refused(client::PIECE, b">", 1).refused(client::FAILED_READ, &[], 1).refused(client::FAILED_WRITE, &[], 1)
    }
}

/// A line list of one line, of an unknown ECU, and its reply under fresh settings.
const LINES: &[u8] = &[0x00, 0x03, 0x41, 0x0D, 0x20];
const LINES_SENT: &[u8] = b"41 0D 20\r\n\r\n>";

/// A fresh server session.
fn reading() -> Session<Server> {
    Session::new(SERVER, Server { echo: true, linefeeds: true, headers: false, phase: READING, last: Vec::new(), line: Vec::new() })
}

/// A text, two line endings with linefeeds, and the prompt.
fn chip(text: &[u8]) -> Vec<u8> {
    [text, b"\r\n\r\n>"].concat()
}

impl Session<Server> {
    /// A line with its CR, sent back if echo is on, that hands out a command.
    fn line(self, line: &[u8], command: &[u8], phase: u8) -> Self {
        let said = (64 + phase, line.len(), if self.now.echo { line.to_vec() } else { Vec::new() });
        self.call(server::BYTES, line, said, |s| (s.phase, s.line) = (phase, command.to_vec()))
    }

    fn at(self, command: &[u8]) -> Self {
        self.line(&[command, b"\r"].concat(), command, AT)
    }

    fn obd(self, command: &[u8]) -> Self {
        self.line(&[command, b"\r"].concat(), command, OBD)
    }

    /// A bare CR hands out this command, the last one.
    fn again(self, command: &[u8]) -> Self {
        self.line(b"\r", command, OBD)
    }

    /// A bare CR without a last command, under fresh settings.
    fn nothing_again(self) -> Self {
        self.call(server::BYTES, b"\r", (64, 1, chip(b"\r?")), |_| {})
    }

    /// A setting is changed.
    fn set(self, command: &[u8], text: &[u8], change: impl Fn(&mut Server)) -> Self {
        self.at(command).answer(server::ANSWER_DEVICE, b"ELM327", text, change)
    }

    /// So many bytes of a line, each taken and sent back.
    fn filled(self, byte: u8, size: usize) -> Self {
        let bytes = vec![byte; size];
        self.call(server::BYTES, &bytes, (64, size, bytes.clone()), |s| s.line.extend(&bytes))
    }

    /// A byte that is stored, and sent back.
    fn byte(self, byte: u8) -> Self {
        self.call(server::BYTE, &[byte], taken(&[byte]), |s| s.line.push(byte))
    }

    /// The line ends, and its command, which is the line, is handed out.
    fn ended(self) -> Self {
        self.call(server::BYTE, b"\r", handed(b"\r"), |s| s.phase = OBD)
    }

    /// An answer is sent, and the session reads on.
    fn answer(self, kind: u8, argument: &[u8], text: &[u8], change: impl Fn(&mut Server)) -> Self {
        self.call(kind, argument, sent(text), |s| {
            (s.phase, s.line) = (READING, Vec::new());
            change(s);
        })
    }

    /// A reply makes its command the last one.
    fn reply(self, list: &[u8], text: &[u8]) -> Self {
        self.call(server::REPLY, list, sent(text), |s| (s.phase, s.last) = (READING, std::mem::take(&mut s.line)))
    }

    /// So does one without lines.
    fn no_data(self) -> Self {
        self.reply(&[], &chip(b"NO DATA"))
    }

    /// A rejection leaves the last command, with this text too.
    fn rejected(self) -> Self {
        self.answer(server::REJECT, b"NO DATA", &chip(b"NO DATA"), |_| {})
    }

    fn malformed(self, list: &[u8]) -> Self {
        self.refused(server::REPLY, list, 5)
    }

    /// Both identity strings, one after the other, get a number.
    fn no_identity(self, text: &[u8], n: u8) -> Self {
        self.refused(server::ANSWER_ATI, text, n).refused(server::ANSWER_DEVICE, text, n)
    }

    fn no_at_answer(self) -> Self {
        self.no_identity(b"ELM327", 1)
    }

    fn no_obd_answer(self) -> Self {
        self.refused(server::REPLY, LINES, 1).refused(server::REPLY, &[], 1).refused(server::REJECT, b"?", 1)
    }

    fn no_byte(self) -> Self {
        self.refused(server::BYTE, b"0", 1).refused(server::BYTE, b"\r", 1).refused(server::BYTE, b"\n", 1).refused(server::BYTES, b"01", 1)
    }
}

/// Document 02 §4: "Card 6 becomes no data." Its line without data gives no value, and nothing is learned.
/// Card 13: "Six PIDs pass, seven get 2; byte 128 of a line is stored, the next gets 10."
fn cards() -> Vec<Written> {
    let no_data = fresh(false, false).gives(b"+41\r\r>", &[], 0);
    let seven = [0x0C, 0x0D, 0x05, 0x0F, 0x10, 0x11, 0x2F];
    let pids = fresh(false, true)
        .refused(client::QUERY_PIDS, &seven, 2)
        .refused(client::QUERY_PIDS_COUNT, &[&[1], &seven[..]].concat(), 2)
        .start(client::QUERY_PIDS, &seven[..6], b"010C0D050F1011\r", QUERY);
    let line = reading()
        .filled(b'1', 127)
        .byte(b'2')
        .refused(server::BYTE, b"3", 10)
        .call(server::BYTE, b"\n", taken(b"\n"), |_| {})
        .refused(server::BYTE, b"4", 10)
        .ended();
    vec![no_data.case("no data"), pids.case("seven PIDs"), line.case("byte 129")]
}

fn out_of_turn() -> Vec<Written> {
    let query = fresh(false, true).query().no_start().no_finish().piece(b"41 0C").no_start().no_finish();
    let complete = fresh(false, true)
        .query()
        .call(client::PIECE, REPLY, complete(), |c| (c.under, c.last) = (COMPLETE, b"010C"))
        .no_start()
        .no_piece()
        .call(client::FINISH, &[], values(1, VALUE), |c| (c.under, c.count) = (NOTHING, 2))
        .no_finish()
        .no_piece();
    let repeat = fresh(false, true)
        .query()
        .replied()
        .repeat()
        .no_start()
        .no_finish()
        .call(client::PIECE, b"?\r\r>", next(b"010C\r"), |c| (c.under, c.repeat) = (QUERY, NO))
        .no_start()
        .no_finish();
    let raw = fresh(false, true)
        .raw(b"ATH1")
        .no_start()
        .no_finish()
        .call(client::PIECE, b"OK\r\r>", over(), |c| (c.under, c.framing) = (NOTHING, true))
        .no_finish()
        .no_piece();
    let init = fresh(true, true).init().no_start().no_finish().reset(client::PIECE, b"ELM327 v1.5\r\r>").no_start().no_finish();
    let init = [b"ATL0\r" as &[u8], b"ATS0\r", b"ATSP0\r", b"ATH1\r"].into_iter().fold(init, |init, text| init.setup(text).no_start().no_finish());
    let init = init.call(client::PIECE, b"OK\r\r>", over(), |c| (c.under, c.framing) = (NOTHING, true)).no_finish().no_piece();
    let nothing = reading().no_at_answer().no_obd_answer().filled(b'1', 2).no_at_answer().no_obd_answer();
    let handed = reading()
        .at(b"ATL0")
        .no_byte()
        .no_obd_answer()
        .answer(server::ANSWER_ATI, b"ELM327", b"OK\r\r>", |s| s.linefeeds = false)
        .no_at_answer()
        .obd(b"010D")
        .no_byte()
        .no_at_answer()
        .reply(LINES, b"41 0D 20\r\r>")
        .no_obd_answer();
    vec![
        fresh(false, true).no_piece().no_finish().case("client, nothing under way"),
        query.case("a query"),
        complete.case("a complete query reply"),
        repeat.case("a repeat"),
        raw.case("a raw command"),
        init.case("the initialisation"),
        nothing.case("server, nothing handed out"),
        handed.case("commands handed out"),
    ]
}

fn no_pid() -> Vec<Written> {
    // The last query is still there: the same text is repeated.
    let none = fresh(false, true).query().replied().refused(client::QUERY_PIDS, &[], 2).start(client::QUERY_PIDS, &[0x0C], b"\r", REPEAT);
    let count = fresh(false, true).refused(client::QUERY_PIDS_COUNT, &[1], 2).start(client::QUERY_PIDS_COUNT, &[1, 0x0C], b"010C 1\r", QUERY);
    vec![none.case("no PID"), count.case("no PID, with a count")]
}

fn too_long() -> Vec<Written> {
    let raw = fresh(false, true)
        .query()
        .replied()
        .refused(client::COMMAND, &[b'A'; 65], 3)
        .refused(client::COMMAND, &[&[b'A'; 64], &b"\r"[..]].concat(), 3)
        .raw(&[b'A'; 64])
        .refused(client::PIECE, &[b'>'; 129], 3)
        .call(client::PIECE, &[b'>'; 128], over(), |c| c.under = NOTHING);
    let query = fresh(false, true)
        .query()
        .piece(b"41")
        .refused(client::PIECE, &[b'>'; 129], 3)
        .so_far(b"41")
        .piece(&[b' '; 128])
        .so_far(&[b"41", &[b' '; 128][..]].concat());
    let init = fresh(true, false)
        .init()
        .refused(client::PIECE, &[b'>'; 257], 3)
        .reset(client::PIECE, &[b'>'; 256])
        .refused(client::PIECE, &[b'>'; 129], 3)
        .call(client::PIECE, &[b'>'; 128], next(b"ATL0\r"), |_| {});
    let reject = reading().obd(b"010D").refused(server::REJECT, &[b'x'; 65], 3).answer(server::REJECT, &[b'x'; 64], &chip(&[b'x'; 64]), |_| {});
    let longer = &[b'i'; 33];
    let longest = &longer[..32];
    let identity = reading()
        .at(b"ATI")
        .no_identity(longer, 3)
        .answer(server::ANSWER_ATI, longest, &chip(longest), |_| {})
        .at(b"AT@1")
        .no_identity(longer, 3)
        .answer(server::ANSWER_DEVICE, longest, &chip(longest), |_| {})
        .at(b"ATH1")
        .no_identity(longer, 3)
        .answer(server::ANSWER_DEVICE, longest, &chip(b"OK"), |s| s.headers = true);
    vec![raw.case("a raw command"), query.case("a piece"), init.case("the ATZ answer"), reject.case("a rejection"), identity.case("identity strings")]
}

fn not_ascii() -> Vec<Written> {
    let raw = fresh(false, true).query().replied().refused(client::COMMAND, b"AT\x80", 4).refused(client::COMMAND, b"\xFFATI", 4).raw(b"AT\x7F");
    let reject = reading()
        .obd(b"010D")
        .refused(server::REJECT, b"NO\x80", 4)
        .refused(server::REJECT, b"\xFFNO", 4)
        .answer(server::REJECT, b"NO\x7F", &chip(b"NO\x7F"), |_| {});
    let identity = reading()
        .at(b"ATI")
        .no_identity(b"i\x80", 4)
        .answer(server::ANSWER_ATI, b"i\x7F", &chip(b"i\x7F"), |_| {})
        .at(b"AT@1")
        .no_identity(b"\xFFi", 4)
        .answer(server::ANSWER_DEVICE, b"i\x7F", &chip(b"i\x7F"), |_| {})
        .at(b"ATE0")
        .no_identity(b"\x80", 4)
        .answer(server::ANSWER_ATI, b"", &chip(b"OK"), |s| s.echo = false);
    vec![raw.case("a raw command"), reject.case("a rejection"), identity.case("identity strings")]
}

fn malformed() -> Vec<Written> {
    let ends = reading()
        .obd(b"010D")
        .reply(LINES, LINES_SENT)
        .obd(b"010C")
        .malformed(&[0x80])
        .malformed(&[0x00])
        .malformed(&[0x00, 0x80])
        .malformed(&[0x00, 0x04, 0x41, 0x0D, 0x20])
        .malformed(&[0x00, 0x03, 0x41, 0x0D, 0x20, 0x00])
        .reply(LINES, LINES_SENT);
    // ECU+1 of 4,097 and of 4,096: the id FFF.
    let ids = reading()
        .at(b"ATH1")
        .answer(server::ANSWER_ATI, b"", &chip(b"OK"), |s| s.headers = true)
        .obd(b"010D")
        .malformed(&[0x81, 0x20, 0x00])
        .reply(&[0x80, 0x20, 0x00], b"FFF 00 \r\n\r\n>");
    let lengths = reading()
        .obd(b"010D")
        .malformed(&[&[0x00, 0x80, 0x02], &[0; 256][..]].concat())
        .reply(&[&[0x00, 0xFF, 0x01], &[0; 255][..]].concat(), &[&b"00 ".repeat(254), &b"00\r\n\r\n>"[..]].concat());
    // 0, 3 and 7E8+1 in a byte more than they need, and 2 to the 64, which is not 0.
    let forms = reading()
        .obd(b"010D")
        .malformed(&[0x80, 0x00, 0x03, 0x41, 0x0D, 0x20])
        .malformed(&[0x00, 0x83, 0x00, 0x41, 0x0D, 0x20])
        .malformed(&[0xE9, 0x8F, 0x00, 0x03, 0x41, 0x0D, 0x20])
        .malformed(&[&[0x80; 9], &[0x02, 0x03, 0x41, 0x0D, 0x20][..]].concat())
        .reply(&[0xE9, 0x0F, 0x03, 0x41, 0x0D, 0x20], LINES_SENT);
    let lines = reading().obd(b"010D").malformed(&[0; 130]).reply(&[0; 128], &[&b"\r\n".repeat(64), &b"\r\n>"[..]].concat());
    vec![ends.case("lists that end too soon"), ids.case("ids"), lengths.case("lengths"), forms.case("longer forms"), lines.case("65 lines")]
}

/// Only the record buffer of a bench run can be made small: the worked example twice, in as many bytes as its parts take, and in one less.
fn small_buffer() -> Vec<Written> {
    let part = [0x01, 0x0C, 0xE9, 0x0F, 0x04, 0x41, 0x0C, 0x1A, 0xF8];
    let run = |name, room, code, parts| {
        let mut log = Vec::new();
        put_call(&mut log, code, 0, &part.repeat(parts));
        Written { name, kind: RUN + 1, room, script: Script { bytes: WORKED.repeat(2), calls: 0 }, log }
    };
    vec![run("both parts", 18, 64, 2), run("the first part", 17, 6, 1), run("no part", 8, 6, 0)]
}

fn failures() -> Vec<Written> {
    let mut cases = Vec::new();
    let mut query = fresh(false, true);
    for kind in FAILURES {
        query = query.query().replied().repeat().failed(kind, &[], 7).query().piece(b"41").failed(kind, &[], 7).no_piece();
        let pids = fresh(false, true).start(client::QUERY_PIDS, &[0x0C, 0x0D], b"010C0D\r", QUERY).failed_untested(kind, &[], 7);
        cases.push(pids.case("query_pids, support untested"));
    }
    // A PID that is queried twice counts twice.
    let twice = |found: Session<Client>| found.start(client::QUERY_PIDS, &[0x0C, 0x0C], b"010C0C\r", QUERY);
    let mut found = twice(fresh(false, false))
        .call(client::PIECE, REPLY, complete(), |c| (c.under, c.last) = (COMPLETE, b"010C0C"))
        .call(client::FINISH, &[], values(1, VALUE), |c| (c.under, c.multi, c.count) = (NOTHING, YES, 2));
    let mut raw = fresh(false, true);
    let mut setup = fresh(false, true).framed();
    for kind in FAILURES {
        found = twice(found).failed(kind, &[], 7);
        raw = raw.raw(b"ATH1").piece(b"OK").failed(kind, &[], 7);
        setup = setup.init().reset(client::PIECE, b"ELM327").failed(kind, &[], 7);
    }
    let last = setup.init().reset(client::PIECE, b"ELM327").setup(b"ATL0\r").setup(b"ATS0\r").setup(b"ATSP0\r").setup(b"ATH0\r");
    // A failed write changes nothing but that the initialisation is over: the query is still repeated.
    let reset = fresh(false, true)
        .query()
        .replied()
        .init()
        .call(client::FAILED_WRITE, &[], number(7), |c| c.under = NOTHING)
        .repeat()
        .call(client::PIECE, REPLY, complete(), |c| (c.under, c.repeat) = (COMPLETE, YES))
        .call(client::FINISH, &[], values(1, VALUE), |c| c.under = NOTHING)
        .init()
        .reset(client::FAILED_READ, &[])
        .failed(client::FAILED_WRITE, &[], 7)
        .init()
        .reset(client::PIECE, &[]);
    cases.extend([
        query.case("a query"),
        found.case("query_pids, support found"),
        raw.case("a raw command"),
        last.failed(client::FAILED_READ, &[], 7).case("the initialisation after ATZ"),
        reset.case("the ATZ answer"),
    ]);
    cases
}

fn too_much() -> Vec<Written> {
    let whole = fresh(false, true)
        .query()
        .pieces(4095)
        .call(client::PIECE, b">", complete(), |c| (c.under, c.last) = (COMPLETE, b"010C"))
        .call(client::FINISH, &[], values(0, b""), |c| c.under = NOTHING);
    let pids = fresh(false, true)
        .start(client::QUERY_PIDS, &[0x0C, 0x0D], b"010C0D\r", QUERY)
        .pieces(4096)
        .refused(client::PIECE, &[b'>'; 129], 3)
        .failed_untested(client::PIECE, b">", 8);
    let raw = fresh(false, true).raw(b"ATH1").pieces(4095).failed(client::PIECE, b">\x80", 8);
    vec![whole.case("4,096 bytes"), pids.case("byte 4,097, after 3 for a piece"), raw.case("8 before 9")]
}

fn high_reply() -> Vec<Written> {
    let query = fresh(false, true).query().replied().start(client::QUERY_PID, &[0x0D], b"010D\r", QUERY).piece(b"41\x7F").failed(client::PIECE, b"0D\x80", 9);
    let pids = fresh(false, true).start(client::QUERY_PIDS, &[0x0C, 0x0D], b"010C0D\r", QUERY).failed_untested(client::PIECE, b"\xFF", 9);
    // Bytes after the prompt belong to the reply. The ATZ answer may hold any.
    let raw = fresh(true, true)
        .raw(b"ATH1")
        .failed(client::PIECE, b"OK\r\r>\x80", 9)
        .init()
        .reset(client::PIECE, b"\x80\xFF>")
        .failed(client::PIECE, b"OK\xFF\r\r>", 9);
    // The byte stands in the store alone: found when the next piece arrives, and at the finish.
    let stored = fresh(false, true).query().replied().repeat().piece(b"4").host_writes(b"\x80").failed(client::PIECE, b"1", 9);
    let reply = |session: Session<Client>| session.call(client::PIECE, REPLY, complete(), |c| (c.under, c.last) = (COMPLETE, b"010C0D"));
    let finish = reply(fresh(false, true).start(client::QUERY_PIDS, &[0x0C, 0x0D], b"010C0D\r", QUERY)).host_writes(b"\x80").failed_untested(client::FINISH, &[], 9);
    vec![
        query.case("a query"),
        pids.case("query_pids, support untested"),
        raw.case("a raw command and the initialisation"),
        stored.case("in the store, at a piece"),
        finish.case("in the store, at a finish"),
    ]
}

fn line_full() -> Vec<Written> {
    let spaces = reading()
        .filled(b' ', 128)
        .refused(server::BYTE, b" ", 10)
        .call(server::BYTE, b"\r", taken(b"\r?\r\n\r\n>"), |s| s.line.clear());
    // Without echo, and of a run of bytes 128 are taken.
    let run = reading()
        .at(b"ATE0")
        .answer(server::ANSWER_ATI, b"", &chip(b"OK"), |s| s.echo = false)
        .call(server::BYTES, &[b'1'; 130], (10, 128, Vec::new()), |s| s.line = vec![b'1'; 128])
        .refused(server::BYTES, b"2\r", 10)
        .call(server::BYTES, b"\n\r", (66, 2, Vec::new()), |s| s.phase = OBD);
    vec![spaces.case("128 spaces"), run.case("a run of bytes")]
}

fn high_byte() -> Vec<Written> {
    let bytes = reading().filled(b'0', 2).refused(server::BYTE, b"\x80", 11).refused(server::BYTE, b"\xFF", 11).byte(0x7F).ended();
    let run = reading()
        .call(server::BYTES, b"01\x8D\r", (11, 2, b"01".to_vec()), |s| s.line = b"01".to_vec())
        .refused(server::BYTES, b"\x80\r", 11)
        .call(server::BYTES, b"\x7F\r", (66, 2, b"\x7F\r".to_vec()), |s| (s.phase, s.line) = (OBD, b"01\x7F".to_vec()));
    vec![bytes.case("a reader's bytes"), run.case("a run of bytes")]
}

/// "The first that applies: 1, 2, 3, 4, 5, 6, 7, 8, 9, 11, 10."
fn order() -> Vec<Written> {
    let client = fresh(false, true)
        .refused(client::PIECE, &[b'>'; 129], 1)
        .refused(client::PIECE, &[], 1)
        .refused(client::PIECE, b"\x80", 1)
        .refused(client::COMMAND, &[0x80; 65], 3)
        .query()
        .refused(client::QUERY_PIDS, &[], 1)
        .refused(client::QUERY_PIDS, &[0x0C; 7], 1)
        .refused(client::COMMAND, &[b'A'; 65], 1)
        .refused(client::COMMAND, b"\x80", 1)
        .refused(client::PIECE, &[0x80; 129], 3);
    let nothing = reading()
        .no_identity(&[b'i'; 33], 1)
        .no_identity(b"\x80", 1)
        .refused(server::REJECT, &[b'x'; 65], 1)
        .refused(server::REJECT, b"\x80", 1)
        .refused(server::REPLY, &[0x80], 1);
    let handed = reading()
        .at(b"ATI")
        .refused(server::BYTE, b"\x80", 1)
        .no_identity(&[0x80; 33], 3)
        .answer(server::ANSWER_ATI, b"", &chip(b""), |_| {})
        .obd(&[b'1'; 128])
        .refused(server::BYTE, b"\x80", 1)
        .refused(server::BYTE, b"1", 1)
        .refused(server::REJECT, &[0x80; 65], 3);
    let full = reading().filled(b'1', 128).refused(server::BYTE, b"\x80", 11).refused(server::BYTE, b"\x7F", 10).ended();
    vec![client.case("client"), nothing.case("server, nothing handed out"), handed.case("commands handed out"), full.case("11 before 10")]
}

/// Document 02 §1: "values now stand by rising PID, and within a PID in reply order." The replies, but for those of E0 alone, have another order.
fn rising() -> Vec<Written> {
    let unframed = || fresh(false, false);
    let framed = || fresh(false, false).framed();
    let speed = &[0x0C, 0x00, 0x04, 0x41, 0x0C, 0x1A, 0xF8];
    let kmh = &[0x0D, 0x00, 0x03, 0x41, 0x0D, 0x20];
    let later = &[0x0D, 0x00, 0x03, 0x41, 0x0D, 0x21];
    let none = &[0xE0, 0x00, 0x02, 0x41, 0xE0];
    let lines = unframed().gives(b"410D20\r410C1AF8\r\r>", &[speed, kmh], 2);
    // PIDs are whole bytes: 80 and C0 stand after 0D, though 80 less its top bit is 00.
    let line = unframed().gives(
        b"41 C0 01 02 03 04 80 05 06 07 08 0D 20\r\r>",
        &[kmh, &[0x80, 0x00, 0x06, 0x41, 0x80, 5, 6, 7, 8], &[0xC0, 0x00, 0x06, 0x41, 0xC0, 1, 2, 3, 4]],
        0,
    );
    let ends = unframed().gives(b"41FF0102\r4100BE1FA813\r\r>", &[&[0x00, 0x00, 0x06, 0x41, 0x00, 0xBE, 0x1F, 0xA8, 0x13], &[0xFF, 0x00, 0x04, 0x41, 0xFF, 1, 2]], 0);
    let twice = unframed().gives(b"410D200C1AF80D21\r\r>", &[speed, kmh, later], 2);
    // 7E9's line stands first, and so do its values within each PID.
    let ecus = framed().gives(
        b"7E906410D200C1AF8\r7E806410C00010D21\r\r>",
        &[
            &[0x0C, 0xEA, 0x0F, 0x04, 0x41, 0x0C, 0x1A, 0xF8],
            &[0x0C, 0xE9, 0x0F, 0x04, 0x41, 0x0C, 0x00, 0x01],
            &[0x0D, 0xEA, 0x0F, 0x03, 0x41, 0x0D, 0x20],
            &[0x0D, 0xE9, 0x0F, 0x03, 0x41, 0x0D, 0x21],
        ],
        3,
    );
    // Card 4's line, whose ECU is not known, before one of 7E8.
    let unknown = framed().gives(b"A12\r7E8 03 41 0D 20\r\r>", &[&[0x0D, 0xE9, 0x0F, 0x03, 0x41, 0x0D, 0x20], &[0x31, 0x00, 0x03, 0x41, 0x31, 0x32]], 0);
    let learned = unframed()
        .start(client::QUERY_PID, &[0xE0], b"01E0\r", QUERY)
        .call(client::PIECE, b"41E0\r\r>", complete(), |c| (c.under, c.last) = (COMPLETE, b"01E0"))
        .call(client::FINISH, &[], values(1, none), |c| c.under = NOTHING)
        .gives(b"41E0E0E0\r\r>", &[none, none, none], 0)
        .gives(b"41E00D20E00C1AF8E0\r\r>", &[speed, kmh, none, none, none], 2);
    // Every PID in a line of its own, without data, from FF down.
    let reply: String = (0..=255).rev().map(|pid| format!("41{pid:02X}\r")).collect();
    let records: Vec<[u8; 5]> = (0..=255).map(|pid| [pid, 0x00, 0x02, 0x41, pid]).collect();
    let all = unframed().gives((reply + ">").as_bytes(), &records.iter().map(|record| &record[..]).collect::<Vec<_>>(), 2);
    vec![
        lines.case("0D, 0C"),
        line.case("C0, 80, 0D on a line"),
        ends.case("FF, 00"),
        twice.case("0D, 0C, 0D on a line"),
        ecus.case("two ECUs"),
        unknown.case("31 of an unknown ECU, 0D"),
        learned.case("E0 of length 0"),
        all.case("every PID"),
        rising_run(),
    ]
}

/// The same of a hire record: PIDs 0D and 0C, asked in that order of two ECUs, of which 7E9 has them in it too.
fn rising_run() -> Written {
    let script = vec![
        0x02, 0x0D, 0x0C, 0x00, 0x02, // two lines
        0xEA, 0x0F, 0x06, 0x41, 0x0D, 0x20, 0x0C, 0x1A, 0xF8, //
        0xE9, 0x0F, 0x06, 0x41, 0x0C, 0x00, 0x01, 0x0D, 0x21,
    ];
    let record = [
        &[0x04][..],
        &[0x0C, 0xEA, 0x0F, 0x04, 0x41, 0x0C, 0x1A, 0xF8],
        &[0x0C, 0xE9, 0x0F, 0x04, 0x41, 0x0C, 0x00, 0x01],
        &[0x0D, 0xEA, 0x0F, 0x03, 0x41, 0x0D, 0x20],
        &[0x0D, 0xE9, 0x0F, 0x03, 0x41, 0x0D, 0x21],
    ]
    .concat();
    let mut log = Vec::new();
    put_call(&mut log, 64, 0, &record);
    Written { name: "a bench run", kind: RUN + 1, room: record.len(), script: Script { bytes: script, calls: 0 }, log }
}

/// Document 02 §2: "The client now discards 00 first: it reaches neither the store nor the 4,096, though a piece's 128 still counts it. A piece of one or more 00 and
/// nothing else counts as not arrived, once 1, 3 and 6 have been looked for, and leaves session and buffers untouched, also while the ATZ answer is awaited; an empty
/// piece stays what it was in 01. A 00 that the finish or the line reader meets is skipped."
fn nulls() -> Vec<Written> {
    let kmh = |session: Session<Client>| session.start(client::QUERY_PID, &[0x0D], b"010D\r", QUERY);
    let speed = |session: Session<Client>, piece: &[u8]| {
        session.call(client::PIECE, piece, complete(), |c| (c.under, c.last) = (COMPLETE, b"010D"))
    };
    let given = |session: Session<Client>, value: &[u8]| session.call(client::FINISH, &[], values(1, value), |c| c.under = NOTHING);
    let piece = [0x37, 0x00, 0x45, 0x38, 0x30, 0x33, 0x00, 0x20, 0x34, 0x31, 0x30, 0x44, 0x32, 0x00, 0x30, 0x0D, 0x00, 0x0D, 0x3E];
    let query = kmh(fresh(false, false).framed()).nulls(1).so_far(b"");
    let query = given(speed(query, &piece).so_far(b"7E803 410D20\r\r>"), &[0x0D, 0xE9, 0x0F, 0x03, 0x41, 0x0D, 0x20]);
    // 129 bytes are 3, with a prompt or without; 128 are not.
    let prompt = |size: usize| [vec![0; size], b">".to_vec()].concat();
    let sizes = kmh(fresh(false, true))
        .refused(client::PIECE, &[0; 129], 3)
        .nulls(128)
        .refused(client::PIECE, &prompt(128), 3)
        .so_far(b"");
    let sizes = speed(sizes, &prompt(127)).so_far(b">").call(client::FINISH, &[], values(0, b""), |c| c.under = NOTHING);
    // Byte 4,096 with 127 of 00; then 00 alone is no 8, and another byte is.
    let full = fresh(false, true)
        .start(client::QUERY_PIDS, &[0x0C, 0x0D], b"010C0D\r", QUERY)
        .pieces(4095)
        .nulls(1)
        .piece(&[&[0; 127], &b"\r"[..]].concat())
        .nulls(2)
        .refused(client::PIECE, &[0; 129], 3)
        .nulls(128)
        .failed_untested(client::PIECE, b"\0\r", 8);
    // While the ATZ answer is awaited. The last query is still there after 00 alone, and after the failed write too.
    let reset = fresh(false, true)
        .query()
        .replied()
        .init()
        .nulls(1)
        .nulls(256)
        .refused(client::PIECE, &[0; 257], 3)
        .call(client::FAILED_WRITE, &[], number(7), |c| c.under = NOTHING)
        .repeat()
        .call(client::PIECE, REPLY, complete(), |c| (c.under, c.repeat) = (COMPLETE, YES))
        .call(client::FINISH, &[], values(1, VALUE), |c| c.under = NOTHING)
        .init()
        .nulls(2)
        .reset(client::PIECE, b"\0x")
        .nulls(128)
        .refused(client::PIECE, &[0; 129], 3)
        .call(client::PIECE, b"O\0K\r\r>\0", next(b"ATL0\r"), |_| {})
        .nulls(1)
        .failed(client::PIECE, &[], 7);
    let empty = fresh(true, true).init().nulls(256).reset(client::PIECE, &[]);
    let failed_read = fresh(true, true).init().nulls(1).reset(client::FAILED_READ, &[]);
    // Nothing is awaited: 1, of any size.
    let no_nulls = |session: Session<Client>| session.refused(client::PIECE, b"\0", 1).refused(client::PIECE, &[0; 129], 1).refused(client::PIECE, &[0; 257], 1);
    let idle = no_nulls(speed(kmh(no_nulls(fresh(false, false))), b"410D20\r>"));
    let idle = no_nulls(given(idle, &[0x0D, 0x00, 0x03, 0x41, 0x0D, 0x20]));
    // In a repeat, and in the query that follows it in full; then 7 and 9, which 00 beside them does not change.
    let repeat = fresh(false, true)
        .query()
        .replied()
        .repeat()
        .nulls(3)
        .piece(b"\0?")
        .nulls(1)
        .call(client::PIECE, b"\0\r\0>", next(b"010C\r"), |c| (c.under, c.repeat) = (QUERY, NO))
        .nulls(1)
        .piece(b"4\0")
        .so_far(b"4")
        .call(client::PIECE, b"\x001 0C 1A\0 F8\r\r>", complete(), |c| c.under = COMPLETE)
        .so_far(REPLY)
        .call(client::FINISH, &[], values(1, VALUE), |c| c.under = NOTHING)
        .query()
        .nulls(1)
        .failed(client::PIECE, &[], 7)
        .query()
        .nulls(1)
        .failed(client::PIECE, b"\0\x80", 9);
    let raw = fresh(false, true)
        .raw(b"ATH1")
        .nulls(1)
        .piece(b"\0O\0")
        .nulls(128)
        .call(client::PIECE, b"K\0\r\r>\0", over(), |c| (c.under, c.framing) = (NOTHING, true))
        .so_far(b"OK\r\r>")
        .raw(b"ATI")
        .nulls(1)
        .failed(client::PIECE, &[], 7);
    // What the host wrote to the store is not looked at with 00 alone, and is with the next byte.
    let high = fresh(false, true).query().piece(b"4").host_writes(b"\x80").nulls(1).failed(client::PIECE, b"\x00A", 9);
    let stored_prompt = kmh(fresh(false, true)).piece(b"4").host_writes(b">").nulls(128);
    let stored_prompt = speed(stored_prompt, b"\0\r").so_far(b">\r").call(client::FINISH, &[], values(0, b""), |c| c.under = NOTHING);
    // A finish over 00 that the host wrote: card 4's line, and pairs that close up.
    let card_4 = speed(kmh(fresh(false, false).framed()), b"xxxxxxx>").host_writes(&[0x00, 0x41, 0x31, 0x32, 0x00, 0x00, 0x0D, 0x3E]);
    let card_4 = given(card_4, &[0x31, 0x00, 0x03, 0x41, 0x31, 0x32]);
    let pairs = speed(kmh(fresh(false, false)), b"xxxxxxxxxxx>").host_writes(&[0x34, 0x00, 0x31, 0x20, 0x30, 0x44, 0x20, 0x32, 0x00, 0x30, 0x0D, 0x3E]);
    let pairs = given(pairs, &[0x0D, 0x00, 0x03, 0x41, 0x0D, 0x20]);
    // At both ends of a line 00 goes with white space, in any mixture; a line of both alone is none.
    let ends = speed(kmh(fresh(false, false)), b"xxxxxxxxxxxxxxxxx>").host_writes(b"\0\r\t\0\x0B410D20\0\n \0\r\0>");
    let ends = given(ends, &[0x0D, 0x00, 0x03, 0x41, 0x0D, 0x20]);
    vec![
        query.case("a query of 0D"),
        sizes.case("129 bytes, and 128"),
        full.case("4,096 bytes, and 00 beside them"),
        reset.case("the ATZ answer"),
        empty.case("an empty piece for the ATZ answer"),
        failed_read.case("a failed read for the ATZ answer"),
        idle.case("nothing awaited"),
        repeat.case("a repeat"),
        raw.case("a raw command"),
        high.case("a byte of 80 in the store"),
        stored_prompt.case("a prompt in the store"),
        card_4.case("a finish over card 4's line"),
        pairs.case("a finish over pairs"),
        ends.case("a finish over the ends of lines"),
    ]
}

/// Document 02 §4: "Pairs and ids with a plus now count as bad hex: the pair is skipped, the id becomes 000", and "lengths, counts and values all rest on the new
/// reading". A count of 2 is one ECU.
fn pluses() -> Vec<Written> {
    let unframed = || fresh(false, false);
    let framed = || fresh(false, false).framed();
    // ECU+1 of 7E8 and of 000.
    let kmh = &[0x0D, 0xE9, 0x0F, 0x03, 0x41, 0x0D, 0x20];
    let kmh_of_000 = &[0x0D, 0x01, 0x03, 0x41, 0x0D, 0x20];
    // The pairs after a bad one stay where they are: 1A is the PID.
    let pair = unframed().gives(b"41+C1AF8\r\r>", &[&[0x1A, 0x00, 0x03, 0x41, 0x1A, 0xF8]], 0).knows(0x1A, 2, 2);
    // Card 6's characters as data: its one byte is gone.
    let data = unframed().gives(b"410C+41\r\r>", &[&[0x0C, 0x00, 0x02, 0x41, 0x0C]], 2);
    // 10 C1 AF.
    let first = unframed().gives(b"+410C1AF8\r\r>", &[], 0).knows(0x10, 2, 0);
    let pid = framed().gives(b"7E8 03 41 +D 20\r\r>", &[&[0x20, 0xE9, 0x0F, 0x02, 0x41, 0x20]], 0).knows(0x20, 4, 2).knows(0x0D, 1, 0);
    let id = framed().gives(b"+12 04 41 0D 20\r\r>", &[kmh_of_000], 0).knows(0x0D, 1, 2);
    let ids = framed().gives(b"+1203410D20\r+1303410D21\r\r>", &[kmh_of_000, &[0x0D, 0x01, 0x03, 0x41, 0x0D, 0x21]], 0).knows(0x0D, 1, 2);
    let id_7e8 = framed().gives(b"+E8 03 41 0D 20\r7E8 03 41 0D 20\r\r>", &[kmh_of_000, kmh], 0).knows(0x0D, 1, 3);
    // "length byte (compared with nothing)"
    let length = framed().gives(b"7E8 +3 41 0D 20\r\r>", &[kmh], 0).knows(0x0D, 1, 2);
    // "Under 5 characters: ECU unknown, raw characters as data", and unknown ECUs are not counted.
    let short = framed().gives(b"A+1\r\r>", &[&[0x2B, 0x00, 0x03, 0x41, 0x2B, 0x31]], 0).knows(0x2B, 4, 0).gives(b"+41\r\r>", &[], 0);
    // E0 is learned of length 1, which cuts the line to come: 02, whose table length is 2, has what is left.
    let learned = framed()
        .start(client::QUERY_PID, &[0xE0], b"01E0\r", QUERY)
        .call(client::PIECE, b"7E8 05 41 E0 +1 02\r\r>", complete(), |c| (c.under, c.last) = (COMPLETE, b"01E0"))
        .call(client::FINISH, &[], values(1, &[0xE0, 0xE9, 0x0F, 0x03, 0x41, 0xE0, 0x02]), |c| c.under = NOTHING)
        .knows(0xE0, 1, 2)
        .start(client::QUERY_PIDS, &[0xE0, 0x02], b"01E002\r", QUERY)
        .call(client::PIECE, b"7E8 05 41 E0 01 02 03\r\r>", complete(), |c| (c.under, c.last) = (COMPLETE, b"01E002"));
    let cut = [0x02, 0xE9, 0x0F, 0x03, 0x41, 0x02, 0x03, 0xE0, 0xE9, 0x0F, 0x03, 0x41, 0xE0, 0x01];
    let learned = learned.call(client::FINISH, &[], values(2, &cut), |c| (c.under, c.multi) = (NOTHING, YES)).knows(0xE0, 1, 2);
    // Lines whose lengths agree by document 02's reading alone, and by document 01's alone.
    let agreed = |session: Session<Client>, reply: &[u8], records: &[u8]| {
        session
            .start(client::QUERY_PID, &[0xE0], b"01E0\r", QUERY)
            .call(client::PIECE, reply, complete(), |c| (c.under, c.last) = (COMPLETE, b"01E0"))
            .call(client::FINISH, &[], values(2, records), |c| c.under = NOTHING)
    };
    let agree = agreed(unframed(), b"41E0+102\r41E003\r\r>", &[0xE0, 0x00, 0x03, 0x41, 0xE0, 0x02, 0xE0, 0x00, 0x03, 0x41, 0xE0, 0x03]).knows(0xE0, 1, 3);
    let disagree = agreed(unframed(), b"41E0+1\r41E003\r\r>", &[0xE0, 0x00, 0x02, 0x41, 0xE0, 0xE0, 0x00, 0x03, 0x41, 0xE0, 0x03]).knows(0xE0, 256, 3);
    // A raw command's reply is not read. 00 goes first, and does not part a plus from its digit.
    let raw = unframed().raw(b"ATI").call(client::PIECE, b"+41\r+4\r\r>+", over(), |c| c.under = NOTHING).so_far(b"+41\r+4\r\r>+");
    let nulls = unframed().gives(b"410C+\x001F8\r\r>", &[&[0x0C, 0x00, 0x03, 0x41, 0x0C, 0xF8]], 2);
    vec![
        pair.case("a pair with a plus"),
        data.case("card 6's characters as data"),
        first.case("a plus before 41"),
        pid.case("a PID with a plus"),
        id.case("an id with a plus"),
        ids.case("two ids with a plus"),
        id_7e8.case("an id with a plus, and 7E8"),
        length.case("a length byte with a plus"),
        short.case("framed lines of under 5 characters"),
        learned.case("a length learned past a plus"),
        agree.case("lengths that agree without the pair"),
        disagree.case("lengths that disagree without the pair"),
        raw.case("a raw command"),
        nulls.case("a plus, 00 and a digit"),
    ]
}

/// Document 02 §13: "The datasheet repeats the last command, so a query answered NO DATA now becomes the server's last command too; a rejected one still doesn't."
fn no_data() -> Vec<Written> {
    let speed = || reading().obd(b"010C").reply(LINES, LINES_SENT);
    let none = || reading().obd(b"010D").no_data();
    let after = speed().obd(b"010D").no_data().again(b"010D").reply(LINES, LINES_SENT).again(b"010D");
    // Document 01: `?`. A bare CR that is answered NO DATA leaves the same command.
    let first = none().again(b"010D").no_data().line(b" \t\n\x0B\x0C\r", b"010D", OBD).no_data().again(b"010D");
    let both = none().obd(b"010C").no_data().again(b"010C").rejected().again(b"010C");
    let rejected = speed().obd(b"010D").rejected().again(b"010C").rejected().again(b"010C");
    let rejected_first = reading().obd(b"010D").rejected().nothing_again();
    let rejected_after = none().obd(b"010C").rejected().again(b"010D");
    let reset = none().set(b"ATZ", b"\r\n\r\nELM327 v1.5\r\n\r\n>", |s| s.last.clear()).nothing_again();
    let silent = none().set(b"ATE0", &chip(b"OK"), |s| s.echo = false).again(b"010D").no_data().again(b"010D");
    // Without linefeeds, and with headers, which NO DATA does not have.
    let settings = none()
        .set(b"ATH1", &chip(b"OK"), |s| s.headers = true)
        .again(b"010D")
        .no_data()
        .set(b"ATL0", b"OK\r\r>", |s| s.linefeeds = false)
        .again(b"010D")
        .reply(&[], b"NO DATA\r\r>")
        .again(b"010D")
        .reply(LINES, b"7E8 03 41 0D 20\r\r>");
    let malformed = speed().obd(b"010D").malformed(&[0x00]).malformed(&[0x80, 0x00, 0x00]).no_data().again(b"010D");
    let long: Vec<u8> = (0..128).map(|n| b'0' + n % 10).collect();
    let whole = reading().obd(&long).no_data().again(&long);
    // "The command is the line without 09 to 0D and 20, letters a to z raised": 00 stays.
    let canonical = reading().line(b" 01\0 0d\t7f\x0C\r", b"01\x000D7F", OBD).no_data().again(b"01\x000D7F");
    vec![
        after.case("010C with a line, then 010D"),
        first.case("010D on a fresh server, and bare CRs"),
        both.case("010D, then 010C"),
        rejected.case("010C with a line, then 010D rejected"),
        rejected_first.case("010D rejected on a fresh server"),
        rejected_after.case("010D, then 010C rejected"),
        reset.case("010D, then ATZ"),
        silent.case("010D, then ATE0"),
        settings.case("ATH1 and ATL0"),
        malformed.case("5, then no lines"),
        whole.case("128 bytes"),
        canonical.case("spaces, small letters and 00"),
    ]
}

/// Document 02 §13: "Hire records may now include queries without any line". The part of one is its number of values, 00, and 6 where not one byte is left for it.
fn without_lines() -> Vec<Written> {
    let speed = [0x01, 0x0C, 0xE9, 0x0F, 0x04, 0x41, 0x0C, 0x1A, 0xF8];
    let kmh = [0x01, 0x0D, 0xE9, 0x0F, 0x03, 0x41, 0x0D, 0x20];
    let none: &[u8] = &[0x01, 0x0D, 0x00, 0x00];
    let one: &[u8] = &[0x01, 0x0D, 0x00, 0x01, 0x00, 0x03, 0x41, 0x0D, 0x20];
    let first: &[u8] = &[0x01, 0x0C, 0x00, 0x01, 0x00, 0x04, 0x41, 0x0C, 0x1A, 0xF8];
    let run = |name, repeat, room, queries: &[&[u8]], code, parts: &[&[u8]]| {
        let mut log = Vec::new();
        put_call(&mut log, code, 0, &parts.concat());
        Written { name, kind: RUN + u8::from(repeat), room, script: Script { bytes: queries.concat(), calls: 0 }, log }
    };
    vec![
        run("in between and repeated", true, 100, &[first, none, none, one], 64, &[&speed, &[0], &[0], &kmh]),
        run("in between, repeat off", false, 100, &[first, none, none, one], 64, &[&speed, &[0], &[0], &kmh]),
        run("first", true, 100, &[none, one], 64, &[&[0], &kmh]),
        run("last, in the last byte", true, 10, &[first, none], 64, &[&speed, &[0]]),
        run("last, without a byte for it", true, 9, &[first, none], 6, &[&speed]),
        run("repeated, in one byte", true, 1, &[none, none], 6, &[&[0]]),
        run("first, without a byte for it", true, 0, &[none, one], 6, &[]),
    ]
}

/// The cases, under their headings.
pub fn by_hand() -> Vec<(&'static str, Vec<Written>)> {
    vec![
        ("by hand, cards 6 and 13", cards()),
        ("by hand, out of turn (1)", out_of_turn()),
        ("by hand, no PID (2)", no_pid()),
        ("by hand, too long (3)", too_long()),
        ("by hand, a text's byte of 80 or more (4)", not_ascii()),
        ("by hand, malformed lines (5)", malformed()),
        ("by hand, a small record buffer (6)", small_buffer()),
        ("by hand, failures and closed connections (7)", failures()),
        ("by hand, a reply over 4,096 bytes (8)", too_much()),
        ("by hand, a reply's byte of 80 or more (9)", high_reply()),
        ("by hand, a full line (10)", line_full()),
        ("by hand, a reader's byte of 80 or more (11)", high_byte()),
        ("by hand, the first that applies", order()),
        ("by hand, PIDs in rising order", rising()),
        ("by hand, 00 bytes", nulls()),
        ("by hand, pluses", pluses()),
        ("by hand, the last command after NO DATA", no_data()),
        ("by hand, bench queries without lines", without_lines()),
    ]
}
