//! The stored list: chosen cases with the logs that the Rust's answers give, and those of `by_hand`, for the program `replay`.
use crate::by_hand::{by_hand, Written};
use crate::client::{Call, ClientCase, Start};
use crate::driver::{Driver, Script};
use crate::every::{self, asked, bench, call, line, piece, query, raw, reader, session, split, Take};
use crate::plan::{shown, Plan};
use crate::random;
use crate::rng::Rng;
use crate::run::{script, Query, RunCase};
use crate::server::{Answer, Line, Own, ServerCase};
use crate::shrink::Case;
use crate::stream::Arrival;
use std::process::exit;

/// The kinds of entries.
const HEADING: u8 = 0;
pub const SERVER: u8 = 1;
pub const CLIENT: u8 = 2;
pub const RUN: u8 = 6;

/// The bytes that `replay` reads at most.
const ROOM: usize = 262_144;

/// The list as it is written, and what `replay` prints of it when nothing differs.
pub struct Store {
    pub list: Vec<u8>,
    pub printed: String,
    driver: Driver,
    heading: Option<(&'static str, usize)>,
    /// One of so many cases is taken.
    every: usize,
    passed: usize,
    /// Entries of more bytes are not.
    most: usize,
}

fn put_text(to: &mut Vec<u8>, size: usize) {
    to.extend_from_slice(&u16::try_from(size).expect("a number of two bytes").to_le_bytes());
}

/// Fails with what follows the bytes that agree unless a log is ours.
fn same_log(source: &str, log: &[u8], ours: &[u8]) -> Result<(), String> {
    if log == ours {
        return Ok(());
    }
    let agreed = ours.iter().zip(log).take_while(|(ours, log)| ours == log).count();
    Err(format!("from byte {agreed} of the log on, {source} {}\n  Rattle gives {}", shown(&log[agreed..]), shown(&ours[agreed..])))
}

impl Store {
    fn new() -> Self {
        Store { list: Vec::new(), printed: String::new(), driver: Driver::new(), heading: None, every: 1, passed: 0, most: 0 }
    }

    fn entry(&mut self, kind: u8, room: usize, pieces: &[u8], script: &[u8], log: &[u8]) {
        self.list.push(kind);
        for number in [room, pieces.len(), script.len(), log.len()] {
            put_text(&mut self.list, number);
        }
        for text in [pieces, script, log] {
            self.list.extend_from_slice(text);
        }
    }

    /// The cases that follow stand under this heading: one of so many, none of more bytes.
    fn head(&mut self, name: &'static str, every: usize, most: usize) {
        self.end();
        self.heading = Some((name, 0));
        (self.every, self.passed, self.most) = (every, 0, most);
        self.entry(HEADING, 0, &[], &[], name.as_bytes());
    }

    fn end(&mut self) {
        if let Some((name, cases)) = self.heading.take() {
            assert_ne!(cases, 0, "a heading without cases");
            self.printed += &format!("{name}: {cases} cases, no difference\n");
        }
    }

    /// Whether it is a case's turn.
    fn turn(&mut self) -> bool {
        self.passed += 1;
        self.passed % self.every == 0
    }

    /// Compares a case, and takes it with the log that the Rust gives, which must be ours: the order of PIDs, which is not compared, shows only here.
    fn add(&mut self, case: &impl Case, plan: &Plan, kind: u8, room: usize, pieces: &[u8], script: &[u8]) {
        let ours = case.run(&mut self.driver, plan);
        let log = plan.log();
        let compared = plan.check(ours.clone()).and_then(|tally| {
            if tally.left_out == 0 {
                same_log("the Rust's values by rising PID give", &log, ours.left())?;
            }
            Ok(tally)
        });
        let tally = compared.unwrap_or_else(|difference| {
            println!("different:\n{}\n  {difference}", case.show());
            exit(1)
        });
        if tally.left_out == 0 && script.len() + log.len() <= self.most {
            self.entry(kind, room, pieces, script, &log);
            self.heading.as_mut().expect("a heading").1 += 1;
        } else {
            // The next one is taken instead.
            self.passed -= 1;
        }
    }

    /// Takes a case with the log that is written by hand, which must be ours.
    fn written(&mut self, Written { name, kind, room, script, log }: &Written) {
        let none = Script::default();
        let ours = match *kind {
            SERVER => self.driver.server(script, 0, &none),
            RUN.. => self.driver.bench(*kind != RUN, &script.bytes, &[], *room),
            kind => self.driver.client((kind - CLIENT) % 2 == 1, 2 <= kind - CLIENT, script, 0, &none),
        }
        .left();
        if let Err(difference) = same_log("by hand", log, ours) {
            println!("different, {}, {name}:\n  {difference}", self.heading.expect("a heading").0);
            exit(1);
        }
        self.entry(*kind, *room, &[], &script.bytes, log);
        self.heading.as_mut().expect("a heading").1 += 1;
    }
}

impl Take for Store {
    fn client(&mut self, case: ClientCase) {
        if self.turn() {
            let plan = case.plan_of(&case.pids_of_interest(), false);
            let kind = CLIENT + u8::from(case.framing) + 2 * u8::from(case.repeat);
            self.add(&case, &plan, kind, 0, &[], &plan.script.bytes);
        }
    }

    fn server(&mut self, case: ServerCase) {
        if self.turn() {
            let plan = ServerCase { by_byte: false, ..case.clone() }.plan();
            self.add(&case, &plan, SERVER, 0, &[], &plan.script.bytes);
        }
    }

    fn run(&mut self, case: RunCase) {
        if self.turn() {
            let plan = case.plan();
            self.add(&case, &plan, RUN + u8::from(case.repeat), case.room, &case.pieces, &case.script);
        }
    }
}

/// A bench card of document 01.
enum Card {
    Client(ClientCase),
    Server(ServerCase),
}

/// The cards, with their numbers and their stars. Card 6 is no data by document 02 §4, and 04 to the Rust: it stands in `by_hand`. Of card 13 the Rust has the halves
/// that pass: it gives no 2 and no 10, which stand there too.
fn cards() -> Vec<(u8, bool, Card)> {
    const STARRED: bool = true;
    const PLAIN: bool = false;
    let reply = |framed: bool, text: &str| Card::Client(session(framed, vec![asked(Start::Pid(0x0C, None), format!("{text}\r\r>").as_bytes())]));
    let values = vec![asked(Start::Pids(vec![0x0C, 0x0D], None), b"41 0C 1A F8 0D 20\r\r>")];
    let answered = |text: &[u8], lines: Vec<Line>| Card::Server(reader(vec![text.to_vec()], vec![Answer::Lines(lines)]));
    let six = vec![asked(Start::Pids(vec![0x0C, 0x0D, 0x05, 0x0F, 0x10, 0x11], None), b"NO DATA\r\r>")];
    vec![
        (1, STARRED, reply(true, "7E8 04 41 0C 1A F8")),
        (2, STARRED, reply(false, "NO DATA")),
        (3, STARRED, reply(true, "NO DATA")),
        (4, STARRED, reply(true, "A12")),
        (5, STARRED, Card::Client(session(false, values))),
        (7, STARRED, answered(b"010D\r", vec![(None, vec![0x41, 0x0D, 0x20])])),
        (8, STARRED, answered(b"ATE0\rATL0\rATS0\rATH1\r010D\r", vec![(None, vec![0x41, 0x0D, 0x20])])),
        (9, STARRED, answered(b"ATH1\r010D\r", vec![(None, Vec::new())])),
        (10, STARRED, answered(b"\r", Vec::new())),
        (11, STARRED, Card::Client(session(true, vec![asked(Start::Pids(vec![0x0C, 0x0D], Some(1)), b"7E806410C1AF80D20\r\r>")]))),
        (12, STARRED, answered(b"ATL0\r", Vec::new())),
        (13, PLAIN, Card::Client(session(false, six))),
        (13, PLAIN, answered(&[&[b'1'; 128], &b"\r"[..]].concat(), vec![(None, vec![0x41])])),
    ]
}

/// Replies that try what a reader of lines may get wrong.
const REPLIES: [&str; 40] = [
    "41 0C 1A F8\r\r>", "410C1AF8\r410D20\r\r>", "41\t0C 1A F8\r\r>", "41 0C\t1A F8\r\r>", "\t41 0C 1A F8\t\r\r>", "41 0C\n1A F8\r\r>", "\n41 0C 1A F8\n\r\n\r\n>",
    "410C1A\0F8\r>", "\0410C1AF8\r>", "410C1AF8\0\r>", "41 +C 1A F8\r>", "+1 0C 1A F8\r>", "410C+AF+\r>", "41 0C 1A F\r>", "410C1AF810\r>", "41 0c 1a f8\r>", "41GG0C1AF8\r>",
    ">410C1AF8\r", ">\r410D20\r", "410C1AF8>\r410D20\r", "410C1AF8\r>410D20\r410C0001\r", "7E8 04 41 0C 1A F8\r\r>", "7E8FF410C1AF8\r\r>", "7E800410C1AF8\r\r>",
    "+E804410C1AF8\r>", "7+804410C1AF8\r>", "++804410C1AF8\r>", "7G804410C1AF8\r>", "7E8+4410C1AF8\r>", "7E8\t04410C1AF8\r>", "7 E 8 0 4 4 1 0 C 1 A F 8\r>", "A12\r>", "A1\r>", "A\r>",
    "AA12\r>", "7E804\r>", "7E80441\r>", "SEARCHING...\r7E804410C1AF8\r\r>", "7E804410C1AF8\r7E904410C1B00\r7E804410C1AF9\r\r>", "\x0b\x0c7E803410D20\x0b\x0c\r>",
];

fn replies(to: &mut Store) {
    for text in REPLIES {
        for framed in [false, true] {
            to.client(session(framed, vec![asked(Start::Pids(vec![0x0C, 0x0D], None), text.as_bytes())]));
        }
    }
}

/// PIDs outside the table: lengths that agree, disagree, are 0, and are used afterwards; counts of several ECUs.
fn learning(to: &mut Store) {
    let texts: [&[&str]; 9] = [
        &["41E0010203\r41E0040506\r"],
        &["41E0010203\r41E00405\r"],
        &["41E0\r"],
        &["41E0\r41E001\r"],
        &["41E1010203\r41E00405\r"],
        &["41E00102030D20\r"],
        &["41E00102\r", "41E001020D20\r"],
        &["41E0010203\r", "41E0010D20\r", "41E001020D20\r"],
        &["NO DATA\r", "41E001\r"],
    ];
    for lines in texts {
        for framed in [false, true] {
            let framing = |text: &str| {
                let mut ecu = 0x7E7;
                let mut all = String::new();
                for line in text.split_inclusive('\r') {
                    ecu += 1;
                    all += &if framed { format!("{ecu:03X}{:02X}{line}", line.len() / 2) } else { line.to_string() };
                }
                all + "\r>"
            };
            let mut calls: Vec<Call> = lines.iter().map(|text| asked(Start::Pid(0xE0, None), framing(text).as_bytes())).collect();
            calls.push(asked(Start::Pids(vec![0xE0, 0x0D], Some(1)), framing("41E00102030D20\r").as_bytes()));
            to.client(session(framed, calls));
        }
    }
}

/// Replies whose PIDs do not rise, on a line and from line to line: the answer has them in their order, and each PID's values as they came.
fn falling(to: &mut Store) {
    let unframed = ["410D200C1AF80D21\r410C00010D22\r\r>", "41FF01\r41800A0B0C0D\r417F02\r418D03\r410D20\r4100BE1FA813\r\r>"];
    let framed = ["7E906410D200C1AF8\r7E806410C00010D21\r\r>", "7E80341FF01\rA12\r7E903410D20\r7E90341FF02\r7E806410000000000\r\r>"];
    for (how, texts) in [(false, unframed), (true, framed)] {
        for text in texts {
            to.client(session(how, vec![asked(Start::Pids(vec![0x0D, 0x0C], None), text.as_bytes())]));
        }
    }
    let lines = [line(0x7EA, &[0x41, 0x0D, 0x20, 0x0C, 0x1A, 0xF8]), line(0, &[0x41, 0x0C, 0x00, 0x01, 0x0D, 0x21]), line(0x7EA, &[0x41, 0xFF, 0x01]), line(0, &[0x41, 0x00])];
    for first in 0..lines.len() {
        let lines = [&lines[first..], &lines[..first]].concat();
        to.run(bench(true, &vec![query(&[0xFF, 0x0D, 0x0C, 0x00], None, lines); 2], &[]));
    }
}

/// Repeats: taken, refused, after a failure, after a raw command, with another count.
fn repeats(to: &mut Store) {
    let reply = b"7E804410C1AF8\r\r>";
    let query = || asked(Start::Pid(0x0C, Some(1)), reply);
    let refused = || call(Start::Pid(0x0C, Some(1)), [split(b"?\r\r>", 2), split(reply, 9)].concat());
    let failed = || call(Start::Pid(0x0C, Some(1)), vec![piece(b"7E8"), Arrival::Failed]);
    let other = || asked(Start::Pid(0x0C, None), reply);
    let late = || asked(Start::Pid(0x0C, Some(1)), b"\r>?");
    let plural = || asked(Start::Pids(vec![0x0C], Some(1)), reply);
    let lists = [
        vec![query(), query(), query()],
        vec![query(), refused(), query()],
        vec![query(), query(), refused(), query()],
        vec![query(), failed(), query(), query()],
        vec![query(), raw(b"ATH1"), query()],
        vec![query(), other(), other(), query()],
        vec![query(), late(), query()],
        vec![query(), plural(), query()],
        vec![query(), call(Start::Pid(0x0C, Some(1)), vec![piece(b"?"), Arrival::Closed]), query()],
    ];
    for calls in lists {
        for repeat in [false, true] {
            to.client(ClientCase { framing: true, repeat, calls: [vec![raw(b"ATH1")], calls.clone()].concat() });
        }
    }
}

/// Initialisations: whole, cut off, with a failed write, and what framing they leave.
fn initialisations(to: &mut Store) {
    let mut whole = vec![piece(b"ATZ\r\r\rELM327 v1.5\r\r>")];
    whole.extend((0..5).flat_map(|_| split(b"OK\r\r>", 3)));
    for framing in [false, true] {
        every::cut_off(to, framing, call(Start::Init, whole.clone()));
    }
}

/// 00 in the pieces of a query that learns a length, of a repeat that is refused and of an initialisation, with pieces of 00 alone between them, before the first and
/// after the last; and a reply of 4,096 bytes beside its 00.
fn nulls(to: &mut Store) {
    let between = |arrivals: Vec<Arrival>| arrivals.into_iter().flat_map(|arrival| [piece(b"\0"), arrival]).chain([piece(b"\0\0")]).collect::<Vec<Arrival>>();
    let learned = || call(Start::Pid(0xE0, None), between(split(b"\x0041E0\x0001\r4\x001E\x0002\r\0\r\0>\0", 5)));
    let refused = || call(Start::Pid(0xE0, None), between([split(b"\0?\0\r\r>", 2), split(b"41E0\x0003\r\r>", 4)].concat()));
    to.client(session(false, vec![learned(), learned(), refused(), learned()]));
    let whole = [vec![piece(b"\0ATZ\r\r\rELM327\0 v1.5\r\r>\0")], split(&b"O\0K\r\r\0>".repeat(5), 7)].concat();
    let speed = || call(Start::Pids(vec![0x0C, 0x0D], Some(2)), between(split(b"7E8 06\0 41 0C 1A F8 0D\0 20\r\0\x007E9 03 41 0D 2\x001\r\r>", 9)));
    for framing in [false, true] {
        let calls = vec![call(Start::Init, between(whole.clone())), speed(), speed(), call(Start::Init, between(whole[..3].to_vec())), speed()];
        to.client(ClientCase { framing, repeat: true, calls });
    }
    let mut full = b"410C1AF8\r".to_vec();
    full.resize(4095, b'\r');
    full.push(b'>');
    let filled = |part: &[u8]| Arrival::Piece([&[0; 14], part, &[0; 14]].concat());
    let mut arrivals: Vec<Arrival> = full.chunks(100).map(filled).collect();
    arrivals.insert(40, Arrival::Piece(vec![0; 128]));
    to.client(session(false, vec![call(Start::Pid(0x0C, None), arrivals)]));
}

/// Replies to which the host adds 00: at the ends of lines with white space, inside pairs, ids and lengths, before a tab that is a bad digit, as lines of their own.
const HOST_REPLIES: [&str; 12] = [
    "\0\t410C1AF8\n\0\r>", "\t\0\x0b410C1AF8\x0c\0 \r>", "4\x001 0\0C 1A\0F\x008\r>", "41\0\t0C1AF8\r>", "41\t\x000C1AF8\r>", "A\x0012\r>", "\0A\x001\x002\0\r>", "A1\x0023\r>", "7\0E8\x000\x004410C1AF8\r>",
    "\0\r \0\r7E8\x0004410C1AF8\r\0\r>", "410C1A\0>\r410D20\0\r", "+\x001 0C\r41\0+D20\r>",
];

fn host_replies(to: &mut Store) {
    for text in HOST_REPLIES {
        for framed in [false, true] {
            let query = Call { host_writes: true, ..asked(Start::Pids(vec![0x0C, 0x0D], None), text.as_bytes()) };
            to.client(session(framed, vec![query]));
        }
    }
}

/// AT commands: each of the list, between commands that show the settings.
fn at_commands(to: &mut Store) {
    for command in random::AT {
        let text = format!("{command}\r010D\r");
        to.server(reader(vec![text.into_bytes()], vec![Answer::Lines(vec![(Some(0x7EA), vec![0x41, 0x0D, 0x20])])]));
    }
    for command in ["ATZ", "ATE1", "ATL1", "ATS1", "ATH0", "ATI", "ATRV", "AT"] {
        let text = format!("ATE0\rATL0\rATS0\rATH1\r010D\r{command}\r\r");
        to.server(reader(vec![text.into_bytes()], vec![Answer::Lines(vec![(Some(0x7EA), vec![0x41, 0x0D, 0x20])])]));
    }
}

/// What a reader may send: letters and spaces of all kinds, LF, 00, empty lines, lines in several pieces.
fn reader_lines(to: &mut Store) {
    let lines: [&[u8]; 18] = [
        b"010c\r", b" 0 1 0 C \r", b"\t010C\x0b\x0c\r", b"01\n0C\r\n", b"\n\r", b" \r", b"\t\x0b\x0c\r", b"010C\0\r", b"\0\r", b"at z\r", b"a t i\r", b"AT @1\r", b"TA\r", b"A\r", b"0902\r", b"\x7f\r",
        b"010C\r\r\r\r", b"ATE0\r010C\r\n\r",
    ];
    for line in lines {
        let answers = vec![Answer::Lines(vec![(None, vec![0x41, 0x0C, 0x1A, 0xF8])]), Answer::Text("NO DATA".to_string()), Answer::Lines(Vec::new())];
        to.server(reader(vec![line.to_vec(), b"\r".to_vec(), b"\r".to_vec()], answers.clone()));
        to.server(reader(line.iter().map(|byte| vec![*byte]).collect(), answers));
    }
}

/// Document 02 §13: replies without lines make their command the last one. Bare CRs after them, in one piece and over several, with white space and without echo;
/// a rejection, ATZ and a reply with a line after them; and the longest command.
fn last_commands(to: &mut Store) {
    let line = || Answer::Lines(vec![(Some(0x7E9), vec![0x41, 0x0D, 0x20])]);
    let none = || Answer::Lines(Vec::new());
    let rejected = || Answer::Text("NO DATA".to_string());
    to.server(reader(vec![b"010C\r010D\r\r010C\r\r".to_vec()], vec![line(), none(), none(), line(), line()]));
    to.server(reader(vec![b"010D\r \n".to_vec(), b"\t".to_vec(), b"\r\r\r".to_vec()], vec![none(), rejected(), line(), none()]));
    to.server(reader(vec![b"ATE0\r010d\r010C\r \r\r".to_vec()], vec![none(), rejected(), none(), line()]));
    to.server(reader(vec![b"010D\r\rATZ\r\r".to_vec()], vec![none()]));
    to.server(reader(b"0 1\0c\r\r".iter().map(|byte| vec![*byte]).collect(), vec![none(), line()]));
    to.server(reader(vec![[&[b'2'; 127], &b"3\r\r"[..]].concat()], vec![none(), line()]));
}

/// Lengths at and next to the limits: lines, identity strings, rejections, data, and lists of lines.
fn server_limits(to: &mut Store) {
    let one = || Answer::Lines(vec![(Some(0xFFF), vec![0x41, 0x0D, 0x20])]);
    for size in [0, 1, 127, 128] {
        let line = [vec![b'2'; size], b"\r\r".to_vec()].concat();
        to.server(reader(vec![line], vec![one()]));
    }
    for size in [0, 1, 31, 32] {
        for own in [Own::Ati("a".repeat(size)), Own::Device("d".repeat(size))] {
            to.server(ServerCase { own, ..reader(vec![b"ATI\rAT@1\rATZ\r".to_vec()], Vec::new()) });
        }
    }
    for setup in ["", "ATL0\rATS0\rATH1\r"] {
        let asked = |answer| reader(vec![format!("{setup}010C\r").into_bytes()], vec![answer]);
        for size in [0, 1, 64] {
            to.server(asked(Answer::Text("x".repeat(size))));
            to.server(asked(Answer::Lines(vec![(None, vec![0x41]); size])));
        }
        for size in [0, 1, 255] {
            to.server(asked(Answer::Lines(vec![(Some(0x7E9), vec![0xA5; size])])));
        }
        for ecu in [None, Some(0), Some(0x7E8), Some(0xFFF)] {
            to.server(asked(Answer::Lines(vec![(ecu, vec![0x41, 0x0D, 0x20]), (ecu, vec![0x00, 0xFF])])));
        }
    }
}

/// Raw commands and replies at and next to their limits.
fn client_limits(to: &mut Store) {
    for size in [0, 1, 63, 64] {
        to.client(session(false, vec![raw(&vec![b'A'; size])]));
    }
    for command in [b"ATH1" as &[u8], b"ath1", b"ATH1\r", b" ATH1", b"ATH0", b"ATZ", b"atZ", b"ATZ\r", b"\r", b"ATH10"] {
        for framed in [false, true] {
            to.client(session(framed, vec![raw(command)]));
        }
    }
    for size in [1, 2, 127, 128, 129, 255, 256, 257] {
        for framed in [false, true] {
            let mut reply = if framed { b"7E806410C1AF80D20\r".repeat(20) } else { b"410C1AF8\r".repeat(30) };
            reply.truncate(size - 1);
            reply.push(b'>');
            to.client(session(framed, vec![asked(Start::Pid(0x0C, None), &reply)]));
        }
    }
}

/// A reply of 4,096 bytes, more ids than a byte can count, and as many occurrences as it can.
fn long_replies(to: &mut Store) {
    let mut full = b"7E8FF410C1AF8\r".repeat(300);
    full.truncate(4095);
    full.push(b'>');
    to.client(session(true, vec![asked(Start::Pid(0x0C, None), &full)]));
    let ids: String = (0..256).map(|id| format!("{id:03X}02410D\r")).collect();
    to.client(session(true, vec![asked(Start::Pid(0x0D, None), (ids + "\r>").as_bytes())]));
    to.client(session(false, vec![asked(Start::Pid(0x0D, None), ("410D\r".repeat(255) + "\r>").as_bytes())]));
}

/// Bench runs that are chosen by hand.
fn runs(to: &mut Store) {
    let worked = || RunCase { script: every::WORKED.to_vec(), ..bench(true, &[], &[]) };
    to.run(worked());
    for size in 0..every::WORKED.len() {
        to.run(RunCase { script: every::WORKED[..size].to_vec(), ..worked() });
    }
    let drive = every::drive();
    for pieces in [&[][..], &[1; 300], &[0, 129, 255, 128, 1, 2, 3], &[7; 40]] {
        for repeat in [false, true] {
            to.run(bench(repeat, &drive, pieces));
        }
    }
    for room in [0, 16, 17, 18, 100, 200] {
        to.run(RunCase { room, ..bench(true, &drive, &[]) });
    }
    let none = || query(&[0x05], None, Vec::new());
    let speed = |pid: u8| query(&[pid], None, vec![line(0, &[0x41, pid, 0x1A, 0xF8])]);
    let lists: [Vec<Query>; 6] = [
        vec![none(), none()],
        vec![speed(0x0C), none(), none(), speed(0x0C)],
        vec![none(), none(), speed(0x05), speed(0x05)],
        vec![speed(0xE0), speed(0xE0)],
        vec![query(&[0x0C, 0x0C], Some(2), vec![line(1, &[0x41, 0x0C, 1, 2, 0x0C, 3, 4])]); 2],
        vec![query(&[0x0D], None, vec![line(0, &[0x41, 0x0D, 9]); 64])],
    ];
    for queries in lists {
        for repeat in [false, true] {
            to.run(bench(repeat, &queries, &[5]));
        }
    }
    for script in [&[0x00][..], &[7, 1, 2, 3, 4, 5, 6, 7, 0, 0], &[1, 0x0C, 0x80, 0x00, 0], &[1, 0x0C, 0x80, 0x02, 0], &[1, 0x0C, 0x81, 0x02, 0], &[1, 0x0C, 0, 1, 0x80, 0x20, 0], &[1, 0x0C, 0, 1, 0x81, 0x20, 0]] {
        to.run(RunCase { script: script.to_vec(), ..worked() });
    }
    // A reply of 8 lines of 255 bytes has more than 4,096.
    to.run(bench(true, &[speed(0x0C), query(&[0x0D], None, vec![line(0, &[0x41; 255]); 8])], &[]));
    to.run(RunCase { script: script(&[query(&[0x0D], None, vec![line(0, &[0x41; 255]); 65])]), ..worked() });
}

/// So many random sessions.
fn random_cases(to: &mut Store, name: &'static str, cases: u64, most: usize, add: impl Fn(&mut Store, &mut Rng)) {
    to.head(name, 1, most);
    let mut session = 0;
    while to.heading.as_ref().is_some_and(|heading| (heading.1 as u64) < cases) {
        add(to, &mut Rng::new(1_000_001, session));
        session += 1;
    }
}

pub fn stored() -> Store {
    let mut to = Store::new();
    for (name, star) in [("bench cards with a star", true), ("bench cards without one", false)] {
        to.head(name, 1, 2000);
        for (_, _, card) in cards().into_iter().filter(|(_, starred, _)| *starred == star) {
            match card {
                Card::Client(case) => to.client(case),
                Card::Server(case) => to.server(case),
            }
        }
    }
    to.head("short replies", 3607, 500);
    every::short_replies(&mut to);
    to.head("digits and ids", 1201, 500);
    every::digits(&mut to);
    to.head("tabs, LF, 00, + and bytes after the prompt", 1, 500);
    replies(&mut to);
    to.head("+ at every place of a reply", 131, 500);
    every::pluses(&mut to);
    to.head("every PID", 1201, 500);
    every::every_pid(&mut to);
    to.head("lengths and counts learned", 1, 900);
    learning(&mut to);
    to.head("PIDs that do not rise in a reply", 1, 900);
    falling(&mut to);
    to.head("texts of queries", 29, 900);
    every::queries(&mut to);
    to.head("repeats and ?", 1, 900);
    repeats(&mut to);
    to.head("commands and replies at their limits", 1, 1500);
    client_limits(&mut to);
    to.head("long replies and large counts", 1, 9000);
    long_replies(&mut to);
    to.head("failures", 37, 900);
    every::failures(&mut to);
    to.head("initialisations cut off", 7, 900);
    initialisations(&mut to);
    to.head("00 bytes in long exchanges", 1, 9000);
    nulls(&mut to);
    to.head("00 bytes at every place", 61, 900);
    every::nulls(&mut to);
    to.head("short replies and answers to ATZ with 00", 401, 500);
    every::short_nulls(&mut to);
    to.head("00 bytes that the host writes", 1, 500);
    host_replies(&mut to);
    to.head("short replies with 00 that the host writes", 1601, 500);
    every::stored_nulls(&mut to);
    to.head("AT commands", 1, 900);
    at_commands(&mut to);
    to.head("a reader's lines", 1, 900);
    reader_lines(&mut to);
    to.head("last commands from NO DATA on", 1, 1500);
    last_commands(&mut to);
    to.head("server at its limits", 1, 3000);
    server_limits(&mut to);
    to.head("bench runs", 1, 4000);
    runs(&mut to);
    to.head("bench scripts of every form", 311, 900);
    every::forms(&mut to);
    random_cases(&mut to, "random client sessions", 30, 600, |to, rng| to.client(random::client(rng)));
    random_cases(&mut to, "random server sessions", 30, 700, |to, rng| to.server(random::server(rng)));
    random_cases(&mut to, "random bench runs", 25, 500, |to, rng| to.run(random::run(rng)));
    for (name, cases) in by_hand() {
        to.head(name, 1, 0);
        cases.iter().for_each(|case| to.written(case));
    }
    to.end();
    assert!(to.list.len() <= ROOM, "the list is longer than the program's buffer");
    to
}
