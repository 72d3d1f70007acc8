//! Cases that go through every input of a kind: all short texts, all PIDs, every length up to its limit, failures at every point.
use crate::client::{Call, ClientCase, Start};
use crate::plan::Values;
use crate::run::{script, Query, RunCase, FULL_ROOM};
use crate::server::{put_group, Answer, Line, Own, ServerCase};
use crate::shrink::Case;
use crate::stream::Arrival;

/// Takes the cases, one after the other.
pub trait Take {
    fn client(&mut self, case: ClientCase);

    /// A client session of which a document says what its last query gives, whatever the Rust does.
    fn client_gives(&mut self, case: ClientCase, values: Values) {
        assert_eq!(case.values(), values, "another answer than the document's is compared:\n{}", case.show());
        self.client(case);
    }

    fn server(&mut self, case: ServerCase);

    /// A server session of which a document says what OBD commands it hands out, whatever the Rust does.
    fn server_hands(&mut self, case: ServerCase, commands: &[Vec<u8>]) {
        assert_eq!(case.handed(), commands, "other commands than the document's are compared:\n{}", case.show());
        self.server(case);
    }

    fn run(&mut self, case: RunCase);
}

pub fn piece(text: &[u8]) -> Arrival {
    Arrival::Piece(text.to_vec())
}

pub fn split(text: &[u8], size: usize) -> Vec<Arrival> {
    text.chunks(size).map(piece).collect()
}

pub fn call(start: Start, arrivals: Vec<Arrival>) -> Call {
    Call { start, arrivals, failed_write: None, host_writes: false }
}

pub fn asked(start: Start, reply: &[u8]) -> Call {
    call(start, split(reply, 128))
}

pub fn raw(command: &[u8]) -> Call {
    asked(Start::Command(command.to_vec()), b"OK\r\r>")
}

/// A session whose calls come after a raw ATH1 or ATH0.
pub fn session(framed: bool, calls: Vec<Call>) -> ClientCase {
    let mut all = vec![raw(if framed { b"ATH1" } else { b"ATH0" })];
    all.extend(calls);
    ClientCase { framing: false, repeat: true, calls: all }
}

pub fn reader(pieces: Vec<Vec<u8>>, answers: Vec<Answer>) -> ServerCase {
    ServerCase { own: Own::usual(), by_byte: false, pieces, answers }
}

/// All texts of at most so many of these bytes.
fn texts(bytes: &[u8], most: usize, take: &mut impl FnMut(&[u8])) {
    let mut text = Vec::new();
    fn longer(bytes: &[u8], left: usize, text: &mut Vec<u8>, take: &mut impl FnMut(&[u8])) {
        take(text);
        if left == 0 {
            return;
        }
        for byte in bytes {
            text.push(*byte);
            longer(bytes, left - 1, text, take);
            text.pop();
        }
    }
    longer(bytes, most, &mut text, take);
}

/// Short replies to a query of one PID and to one of two.
pub fn short_replies(to: &mut impl Take) {
    texts(b"014C+ \t\n\r>?\0Gaf", 4, &mut |text| {
        let mut reply = text.to_vec();
        reply.extend_from_slice(b"\r>");
        for framed in [false, true] {
            let one = asked(Start::Pid(0x0C, None), &reply);
            let two = asked(Start::Pids(vec![0x0C, 0x41], None), &reply);
            to.client(session(framed, vec![one, two]));
        }
    });
}

/// A reply with one value, or without any where it cannot be read.
fn one_value(read: bool, ecu: u16, data: &[u8]) -> Values {
    read.then(|| (data[1], vec![(ecu, data.to_vec())])).into_iter().collect()
}

/// Document 02 §4: "Pairs and ids with a plus now count as bad hex: the pair is skipped, the id becomes 000."
fn pair(to: &mut impl Take, framed: bool, pair: [u8; 2]) {
    let start: &[u8] = if framed { b"7E803410D" } else { b"410D" };
    let case = session(framed, vec![asked(Start::Pid(0x0D, None), &[start, &pair, b"\r>"].concat())]);
    if !pair.contains(&b'+') {
        return to.client(case);
    }
    // A line that holds a prompt is none.
    to.client_gives(case, one_value(!pair.contains(&b'>'), if framed { 0x7E9 } else { 0 }, &[0x41, 0x0D]));
}

fn id(to: &mut impl Take, id: &[u8]) {
    let case = session(true, vec![asked(Start::Pid(0x0C, None), &[id, b"04410C1AF8\r>"].concat())]);
    if !id.contains(&b'+') {
        return to.client(case);
    }
    // With fewer characters the id ends in the digits after it, and what is left does not start with 41.
    let whole = id.len() == 3 && !id.iter().any(|byte| b" \0>".contains(byte)) && !b"\t\n".contains(&id[0]);
    to.client_gives(case, one_value(whole, 1, &[0x41, 0x0C, 0x1A, 0xF8]));
}

/// Every pair of bytes where a reply has a pair of digits, and some of three bytes where it has an id.
pub fn digits(to: &mut impl Take) {
    for first in 0..128 {
        for second in 0..128 {
            pair(to, false, [first, second]);
            pair(to, true, [first, second]);
        }
    }
    texts(b"/09:@AFG`afg+- \t\n\0>z", 3, &mut |text| id(to, text));
}

/// A plus in the place of each one and each two characters of a reply that a length and counts are learned from, also after a refused repeat; a query that uses them;
/// and a raw command with the same reply.
pub fn pluses(to: &mut impl Take) {
    for (framed, text) in [(false, b"41E00102\r41E003040D20\r\r>" as &[u8]), (true, b"7E8 04 41 E0 01 02\r7E904 41E00304\rA12\r\tA 1 2\n\r\r>")] {
        for (first, second) in (0..text.len()).flat_map(|first| (first..text.len()).map(move |second| (first, second))) {
            let mut reply = text.to_vec();
            (reply[first], reply[second]) = (b'+', b'+');
            let learned = |refused: &[u8]| call(Start::Pid(0xE0, None), [split(refused, 2), split(&reply, 7)].concat());
            let used = asked(Start::Pids(vec![0xE0, 0x02], None), if framed { b"7E805 41E0010203\r\r>" } else { b"41E0010203\r\r>" });
            to.client(session(framed, vec![learned(b""), learned(b"?+\r>"), used, asked(Start::Command(b"ATI".to_vec()), &reply)]));
        }
    }
}

/// Every PID, with two lines of each two lengths, and the query once more.
pub fn every_pid(to: &mut impl Take) {
    for pid in 0..=255 {
        for framed in [false, true] {
            for (a, b) in (0..7).flat_map(|a| (0..7).map(move |b| (a, b))) {
                let line = |id: &str, n: usize| {
                    let head = if framed { format!("{id}{:02X}", n + 2) } else { String::new() };
                    format!("{head}41{pid:02X}{}\r", "5A".repeat(n))
                };
                let first = line("7E8", a) + &line("7E9", b) + "\r>";
                let then = format!("{}\r>", line("7EA", 9));
                let two = asked(Start::Pids(vec![pid, 0x0D], None), then.as_bytes());
                to.client(session(framed, vec![asked(Start::Pid(pid, None), first.as_bytes()), two]));
            }
        }
    }
}

/// The texts of queries: every PID, every count, every number of PIDs.
pub fn queries(to: &mut impl Take) {
    let reply = b"410C1AF8\r\r>";
    for n in 0..=255 {
        let counts = [None, Some(n)];
        let pid = counts.map(|count| asked(Start::Pid(0x0C, count), reply));
        let pids = counts.map(|count| asked(Start::Pids(vec![n, 0x0C], count), reply));
        let own = asked(Start::Pid(n, None), reply);
        to.client(session(false, pid.into_iter().chain(pids).chain([own]).collect()));
    }
    for size in 1..=6 {
        let pids = vec![0x0C; size];
        to.client(session(false, vec![asked(Start::Pids(pids.clone(), None), reply), asked(Start::Pids(pids, Some(255)), reply)]));
    }
}

/// Raw commands and replies of every length around the limits, in pieces of several sizes.
pub fn client_lengths(to: &mut impl Take) {
    for size in 0..=64 {
        to.client(session(false, vec![raw(&vec![b'A'; size])]));
    }
    for size in (1..=300).chain(4000..=4096) {
        for framed in [false, true] {
            for at in [1, 2, 127, 128] {
                let mut reply = if framed { b"7E8064100".repeat(455) } else { b"410C1AF8\r".repeat(456) };
                reply.truncate(size - 1);
                reply.push(b'>');
                to.client(session(framed, vec![call(Start::Pid(0x0C, None), split(&reply, at))]));
            }
        }
    }
    let reply = b"7E8 06 41 0C 1A F8 0D 20\r7E9 04 41 0C 1B 00\r\r>";
    for first in 1..reply.len() {
        for second in first..reply.len() {
            let parts = [&reply[..first], &reply[first..second], &reply[second..]];
            let arrivals = parts.iter().filter(|part| !part.is_empty()).map(|part| piece(part)).collect();
            to.client(session(true, vec![call(Start::Pids(vec![0x0C, 0x0D], None), arrivals)]));
        }
    }
}

/// What a byte can count: ids and occurrences of a PID, and the bytes of a length to be learned, each around 255. And answers to ATZ of every size up to 256.
pub fn around_255(to: &mut impl Take) {
    for n in (250..=260).chain([300, 400]) {
        let ids: String = (0..n).map(|id| format!("{id:03X}02410D\r")).collect();
        let same = "410D\r".repeat(n);
        for (framed, lines) in [(true, ids), (false, same)] {
            to.client(session(framed, vec![asked(Start::Pid(0x0D, None), (lines + "\r>").as_bytes())]));
        }
        for framed in [false, true] {
            let line = |n: usize| format!("{}41FE{}\r", if framed { "7E8FF" } else { "" }, "11".repeat(n));
            for lines in [line(n), line(n) + &line(3), line(3) + &line(n) + &line(3), line(n) + &line(n + 1)] {
                let query = || asked(Start::Pid(0xFE, None), format!("{lines}>").as_bytes());
                to.client(session(framed, vec![query(), query()]));
            }
        }
    }
    for size in 1..=256 {
        let mut arrivals = vec![piece(&vec![0xFF; size])];
        arrivals.extend((0..5).map(|_| piece(b"OK\r\r>")));
        to.client(ClientCase { framing: true, repeat: true, calls: vec![call(Start::Init, arrivals)] });
    }
}

/// A call that is cut off at every point, in every way, between two others like it.
pub fn cut_off(to: &mut impl Take, framing: bool, whole: Call) {
    let query = || asked(Start::Pids(vec![0x0C, 0x0D], Some(1)), b"7E806410C1AF80D20\r\r>");
    let mut take = |call: Call| {
        let calls = vec![query(), call, query(), query()];
        to.client(ClientCase { framing, repeat: true, calls: calls.clone() });
        to.client(ClientCase { framing, repeat: false, calls });
    };
    for at in 0..=whole.arrivals.len() {
        take(Call { arrivals: whole.arrivals[..at].to_vec(), ..whole.clone() });
        for failure in [Arrival::Failed, Arrival::Closed] {
            let mut arrivals = whole.arrivals.clone();
            arrivals.insert(at, failure);
            take(Call { arrivals, ..whole.clone() });
        }
    }
    for at in 0..8 {
        take(Call { failed_write: Some(at), ..whole.clone() });
    }
}

pub fn failures(to: &mut impl Take) {
    let ok = || split(b"OK\r\r>", 3);
    let mut init = vec![piece(b"ATZ\r\r\rELM327 v1.5\r\r>")];
    for _ in 0..5 {
        init.extend(ok());
    }
    let refused = [split(b"?\r\r>", 2), split(b"7E806410C1AF80D20\r\r>", 9)].concat();
    for framing in [false, true] {
        cut_off(to, framing, call(Start::Init, init.clone()));
        for command in [b"ATH1" as &[u8], b"ATH0", b"ATZ", b"ATI"] {
            cut_off(to, framing, call(Start::Command(command.to_vec()), ok()));
        }
        for start in [Start::Pids(vec![0x0C, 0x0D], Some(1)), Start::Pids(vec![0x0C], None), Start::Pid(0x0C, None)] {
            cut_off(to, framing, call(start.clone(), split(b"7E806410C1AF80D20\r\r>", 4)));
            cut_off(to, framing, call(start, refused.clone()));
        }
    }
}

/// Calls whose replies come in several pieces: an initialisation, a raw command, a query, and one that is refused as a repeat.
fn in_pieces() -> Vec<Call> {
    let reply = || split(b"7E806410C1AF80D20\r\r>", 8);
    let query = Start::Pids(vec![0x0C, 0x0D], Some(1));
    vec![
        call(Start::Init, [vec![piece(b"ELM327 v1.5\r\r>")], split(b"OK\r\r>OK\r\r>OK\r\r>OK\r\r>OK\r\r>", 5)].concat()),
        call(Start::Command(b"ATH1".to_vec()), split(b"OK\r\r>", 2)),
        call(query.clone(), reply()),
        call(query, [split(b"?\r\r>", 2), reply()].concat()),
    ]
}

/// The most bytes that a piece of a call may have.
fn most(call: &Call, at: usize) -> usize {
    if call.start == Start::Init && at == 0 {
        return 256;
    }
    128
}

/// 00 slipped into each piece at every place, one and as many as the piece may have; pieces of 00 alone at every place; and all of it cut off at every point.
pub fn nulls(to: &mut impl Take) {
    let query = || asked(Start::Pids(vec![0x0C, 0x0D], Some(1)), b"7E806410C1AF80D20\r\r>");
    for framing in [false, true] {
        for whole in in_pieces() {
            let mut take = |arrivals: Vec<Arrival>| {
                let call = Call { arrivals, ..whole.clone() };
                to.client(ClientCase { framing, repeat: true, calls: vec![query(), call, query()] });
            };
            for (k, arrival) in whole.arrivals.iter().enumerate() {
                let Arrival::Piece(bytes) = arrival else { continue };
                for at in 0..=bytes.len() {
                    for size in [1, most(&whole, k) - bytes.len()] {
                        let mut arrivals = whole.arrivals.clone();
                        arrivals[k] = Arrival::Piece([&bytes[..at], &vec![0; size], &bytes[at..]].concat());
                        take(arrivals);
                    }
                }
            }
            for at in 0..=whole.arrivals.len() {
                for size in [1, 2, most(&whole, at) - 1, most(&whole, at)] {
                    let mut arrivals = whole.arrivals.clone();
                    arrivals.insert(at, Arrival::Piece(vec![0; size]));
                    take(arrivals);
                }
            }
            let between = whole.arrivals.iter().flat_map(|arrival| [piece(b"\0\0"), arrival.clone()]).chain([piece(b"\0")]);
            cut_off(to, framing, Call { arrivals: between.collect(), ..whole.clone() });
        }
    }
}

/// Short replies of single bytes, 00 among them, to a query and to its repeat; answers to ATZ with 00, in one piece and byte by byte; pieces of 00 alone of every size.
pub fn short_nulls(to: &mut impl Take) {
    texts(b"\x004\r>?", 5, &mut |text| {
        let query = |arrivals| call(Start::Pid(0x0C, None), arrivals);
        let reply = || split(&[text, b">"].concat(), 1);
        to.client(session(false, vec![query(split(b"410C1AF8\r>", 128)), query([reply(), reply()].concat()), query(reply())]));
    });
    let init = |arrivals: Vec<Arrival>| ClientCase { framing: true, repeat: true, calls: vec![call(Start::Init, [arrivals, split(&b"OK\r\r>".repeat(5), 5)].concat())] };
    texts(b"\0x\xFF", 5, &mut |text| to.client(init(split(text, 256))));
    texts(b"\0x", 7, &mut |text| to.client(init(split(text, 1))));
    for size in 1..=256 {
        to.client(init(vec![Arrival::Piece(vec![0; size]), piece(b"ELM327")]));
        to.client(init(vec![Arrival::Piece([vec![0; size - 1], b"x".to_vec()].concat())]));
        if size <= 128 {
            let arrivals = [vec![Arrival::Piece(vec![0; size])], split(b"410C1AF8\r>", 4), vec![Arrival::Piece(vec![0; size])]].concat();
            to.client(session(false, vec![call(Start::Pid(0x0C, None), arrivals)]));
        }
    }
}

/// Replies of nearly 4,096 bytes that are not 00, so many in a piece, each piece filled with 00 at its front, its end or both; and pieces of 00 alone around the last.
pub fn full_with_nulls(to: &mut impl Take) {
    for size in 4090..=4096 {
        for framed in [false, true] {
            for (few, front) in [(127, 0), (127, 1), (100, 0), (100, 28), (64, 30), (7, 100)] {
                let mut reply = if framed { b"7E8064100".repeat(455) } else { b"410C1AF8\r".repeat(456) };
                reply.truncate(size - 1);
                reply.push(b'>');
                let filled = |part: &[u8]| {
                    let mut bytes = vec![0; front];
                    bytes.extend_from_slice(part);
                    bytes.resize(128, 0);
                    Arrival::Piece(bytes)
                };
                let mut arrivals: Vec<Arrival> = reply.chunks(few).map(filled).collect();
                let last = arrivals.len() - 1;
                arrivals.insert(last, Arrival::Piece(vec![0; 128]));
                arrivals.push(piece(b"\0"));
                let query = call(Start::Pid(0x0C, None), arrivals.clone());
                let raw = call(Start::Command(b"ATI".to_vec()), arrivals);
                to.client(session(framed, vec![query, raw]));
            }
        }
    }
}

/// Replies to which the host adds 00 in the store: short ones, and 00 at every place of a longer one.
pub fn stored_nulls(to: &mut impl Take) {
    let mut take = |framed: bool, text: &[u8]| {
        let reply = [text, b"\r>"].concat();
        let asked = |start: Start| Call { host_writes: true, ..asked(start, &reply) };
        to.client(session(framed, vec![asked(Start::Pid(0x0C, None)), asked(Start::Pids(vec![0x0C, 0x41], None))]));
    };
    texts(b"014C+ \t\r>\0Ga", 4, &mut |text| {
        if text.contains(&0) {
            take(false, text);
            take(true, text);
        }
    });
    for text in [b"410C 1AF8\r 41 0D\t20 \rA12" as &[u8], b"7E8 04 41 0C 1A F8\r\t7E9 03 41\t0D 20\r+E8A1\r41 0C"] {
        for first in 0..=text.len() {
            for second in first..=text.len() {
                let with_nulls = [&text[..first], b"\0", &text[first..second], b"\0\0", &text[second..]].concat();
                take(false, &with_nulls);
                take(true, &with_nulls);
            }
        }
    }
}

/// Commands to the server: all short lines, all short AT commands.
pub fn commands(to: &mut impl Take) {
    let mut piece = Vec::new();
    let mut lines = 0;
    let mut take = |start: &[u8], text: &[u8], to: &mut dyn FnMut(ServerCase)| {
        piece.extend_from_slice(start);
        piece.extend_from_slice(text);
        piece.push(b'\r');
        lines += 1;
        if lines % 32 == 0 {
            let answer = Answer::Lines(vec![(Some(0x7E8), vec![0x41, 0x0C, 0x1A, 0xF8])]);
            to(reader(vec![std::mem::take(&mut piece)], vec![answer, Answer::Lines(Vec::new())]));
        }
    };
    let mut to = |case| to.server(case);
    texts(b"ABCDEFGHIJKLMNOPQRSTUVWXYZ0123456789@ ", 3, &mut |text| take(b"AT", text, &mut to));
    texts(&(0..128).collect::<Vec<u8>>(), 2, &mut |text| take(b"", text, &mut to));
    for _ in 0..32 {
        take(b"ATI", b"", &mut to);
    }
}

/// Document 02 §13: "a query answered NO DATA now becomes the server's last command too; a rejected one still doesn't." Every session of up to four steps, so that the
/// Rust's last command is another than the due one and the same again in every way, whole, byte by byte, and in pieces of one byte.
pub fn last_commands(to: &mut impl Take) {
    let line = || Some(Answer::Lines(vec![(None, vec![0x41, 0x0C, 0x1A, 0xF8])]));
    let none = || Some(Answer::Lines(Vec::new()));
    let steps: [(&[u8], Option<Answer>); 9] = [
        (b"010C\r", line()),
        (b"010D\r", line()),
        (b"010C\r", none()),
        (b"01 0d\r", none()),
        (b"0105\r", Some(Answer::Text("NO DATA".to_string()))),
        (b"\r", line()),
        (b" \n\t\r", none()),
        (b"ATZ\r", None),
        (b"ATE0\r", None),
    ];
    texts(&[0, 1, 2, 3, 4, 5, 6, 7, 8], 4, &mut |numbers| {
        let mut text = Vec::new();
        let mut answers = Vec::new();
        let mut handed = Vec::new();
        let mut last: Option<Vec<u8>> = None;
        for (line, answer) in numbers.iter().map(|n| &steps[usize::from(*n)]) {
            text.extend_from_slice(line);
            let command: Vec<u8> = line.iter().filter(|byte| !byte.is_ascii_whitespace()).map(u8::to_ascii_uppercase).collect();
            let Some(answer) = answer else {
                last = last.filter(|_| command != b"ATZ");
                continue;
            };
            // A bare CR without a last command is answered `?`, and hands out nothing.
            let Some(command) = (if command.is_empty() { last.clone() } else { Some(command) }) else { continue };
            handed.push(command.clone());
            answers.push(answer.clone());
            if let Answer::Lines(_) = answer {
                last = Some(command);
            }
        }
        let whole = reader(vec![text.clone()], answers);
        to.server_hands(whole.clone(), &handed);
        to.server_hands(ServerCase { by_byte: true, ..whole.clone() }, &handed);
        to.server_hands(ServerCase { pieces: text.chunks(1).map(<[u8]>::to_vec).collect(), ..whole }, &handed);
    });
}

/// Every length of a line, of an identity string, of a rejection, of a reply's data and of a list of lines, under all settings.
pub fn server_lengths(to: &mut impl Take) {
    for size in 0..=128 {
        for by_byte in [false, true] {
            let mut line = vec![b'1'; size];
            line.push(b'\r');
            to.server(ServerCase { by_byte, ..reader(vec![line.clone(), line], vec![Answer::Lines(vec![(None, vec![0x41])])]) });
        }
    }
    for size in 0..=32 {
        for own in [Own::Ati("a".repeat(size)), Own::Device("d".repeat(size))] {
            let pieces = vec![b"ATI\rAT@1\rATZ\rATL0\rATI\rAT@1\rATZ\r".to_vec()];
            to.server(ServerCase { own, ..reader(pieces, Vec::new()) });
        }
    }
    for settings in 0..8 {
        let bit = |n: usize| settings >> n & 1;
        let setup = format!("ATL{}\rATS{}\rATH{}\r", bit(0), bit(1), bit(2)).into_bytes();
        let pieces = vec![setup, b"010C\r\r".to_vec()];
        for size in 0..=64 {
            to.server(reader(pieces.clone(), vec![Answer::Text("x".repeat(size))]));
            to.server(reader(pieces.clone(), vec![Answer::Lines(vec![(Some(size as u16 * 63), vec![0x41]); size])]));
        }
        for size in 0..=255 {
            let data: Vec<u8> = (0..size).map(|n| n as u8).collect();
            to.server(reader(pieces.clone(), vec![Answer::Lines(vec![(None, data.clone()), (Some(0xFFF), data)])]));
        }
        let full: Vec<u8> = (0..=254).collect();
        to.server(reader(pieces, vec![Answer::Lines(vec![(Some(0x7E8), full); 64])]));
    }
}

/// A line of a known or unknown ECU.
pub fn line(ecu: u16, data: &[u8]) -> Line {
    (ecu.checked_sub(1), data.to_vec())
}

pub fn query(pids: &[u8], count: Option<u8>, lines: Vec<Line>) -> Query {
    Query { pids: pids.to_vec(), count, lines }
}

/// A run with a large record buffer.
pub fn bench(repeat: bool, queries: &[Query], pieces: &[u8]) -> RunCase {
    RunCase { repeat, script: script(queries), pieces: pieces.to_vec(), room: FULL_ROOM }
}

/// Document 01's worked example.
pub const WORKED: &[u8] = &[0x01, 0x0C, 0x02, 0x01, 0x00, 0x04, 0x41, 0x0C, 0x1A, 0xF8];

/// A drive: several ECUs, an unknown one, repeats, a query without lines before and after a repeat, PIDs outside the table, a line that does not start with 41.
pub fn drive() -> Vec<Query> {
    let speed = |value: u8| query(&[0x0C], Some(1), vec![line(0x7E9, &[0x41, 0x0C, 0x1A, value]), line(0x7EA, &[0x41, 0x0C, 0x1B, value])]);
    let pair = || query(&[0x0C, 0x0D], None, vec![line(0, &[0x41, 0x0C, 0x1A, 0xF8, 0x0D, 0x20])]);
    let none = || query(&[0x05], Some(0), Vec::new());
    let learned = |value: u8| query(&[0xE0], None, vec![line(0x7E9, &[0x41, 0xE0, value, 2, 3]), line(0, &[0x41, 0xE0, 4, 5, 6])]);
    let disagreeing = || query(&[0xE1], None, vec![line(1, &[0x41, 0xE1, 1]), line(0x1000, &[0x41, 0xE1, 2, 3])]);
    let mixed = || query(&[0xE0, 0xE1, 0x0D, 0x0D], Some(255), vec![line(0, &[0x41, 0xE0, 1, 2, 3, 0x0D, 0x30, 0xE1, 9, 9]), line(0, &[0x7F, 1, 0x12])]);
    vec![speed(1), speed(2), speed(2), none(), none(), speed(3), pair(), pair(), learned(1), learned(2), disagreeing(), disagreeing(), mixed(), mixed()]
}

/// A script with one more group number in place of another, of every form: each is malformed unless it is in reach and in its shortest form.
pub fn forms(to: &mut impl Take) {
    let mut numbers: Vec<Vec<u8>> = Vec::new();
    for n in (0..=300).chain(4090..=4100).chain([16_383, 16_384, 2_097_152]) {
        let mut short = Vec::new();
        put_group(&mut short, n);
        let mut long = short.clone();
        *long.last_mut().expect("a number has a byte") += 128;
        long.push(0);
        numbers.push(short);
        numbers.push(long);
    }
    numbers.push(vec![0xFF; 12]);
    numbers.push([vec![0xFF; 12], vec![1]].concat());
    numbers.push([vec![0x80; 12], vec![1]].concat());
    numbers.push([vec![0x82], vec![0x80; 11], vec![0]].concat());
    for number in numbers {
        let pids = [&number[..], &[0x0C; 7]].concat();
        let count = [&[1, 0x0C], &number[..], &[1, 0, 4, 0x41, 0x0C, 0x1A, 0xF8]].concat();
        let lines = [&[1, 0x0C, 0], &number[..], &[0, 3, 0x41, 0x0D, 0x20].repeat(64)].concat();
        let exactly = [&[1, 0x0C, 0], &number[..], &[0, 3, 0x41, 0x0D, 0x20].repeat(usize::from(number[0]))].concat();
        let ecu = [&[1, 0x0C, 0, 1], &number[..], &[4, 0x41, 0x0C, 0x1A, 0xF8]].concat();
        let size = [&[1, 0x0C, 0, 1, 0], &number[..], &[0x41, 0x0C, 0x1A, 0xF8]].concat();
        let filled = [&[1, 0xE0, 0, 1, 0], &number[..], &vec![0x41; usize::from(number[0] % 128) + 128 * usize::from(*number.get(1).unwrap_or(&0))]].concat();
        for script in [pids, count, lines, exactly, ecu, size, filled] {
            to.run(RunCase { script, ..bench(true, &[], &[]) });
        }
    }
}

/// Whole bench runs: scripts cut off at every point, every record buffer up to one that is large enough, every length of a piece, numbers of lines and of bytes around
/// their limits, replies around 4,096 bytes, scripts around 16,384.
pub fn runs(to: &mut impl Take) {
    let drive = drive();
    let all = script(&drive);
    for repeat in [false, true] {
        for script in [WORKED, &all] {
            for size in 0..=script.len() {
                to.run(RunCase { script: script[..size].to_vec(), ..bench(repeat, &[], &[]) });
            }
        }
        for room in 0..=260 {
            to.run(RunCase { room, ..bench(repeat, &drive, &[]) });
        }
        for length in 0..=255 {
            for times in [1, 7, 200] {
                to.run(bench(repeat, &drive, &vec![length; times]));
            }
        }
        for count in (0..=255).map(Some).chain([None]) {
            for few in 1..=6 {
                let asked = query(&[0x0C, 0x0D, 0x05, 0x0C, 0xE0, 0xE0][..few], count, vec![line(0x7E9, &[0x41, 0x0D, 0x20, 0x0C, 1, 2])]);
                to.run(bench(repeat, &[asked.clone(), asked], &[3, 0, 1]));
            }
        }
        // The lines of a reply are of an even length each: 5 digits, two for each byte, and CR.
        for last in 230..=250 {
            let mut lines = vec![line(0x7E9, &[0x41; 255]); 7];
            lines.push(line(0x7E9, &vec![0x41; last]));
            let long = query(&[0x41], None, lines);
            let short = || query(&[0x0C], None, vec![line(0, &[0x41, 0x0C, 1, 2])]);
            to.run(bench(repeat, &[short(), short(), long.clone(), short(), long], &[128, 127]));
        }
        for size in 0..=64 {
            let many = query(&[0x0D], None, vec![line(0, &[0x41, 0x0D, size as u8]); size]);
            to.run(bench(repeat, &[many.clone(), many], &[]));
        }
        for size in 0..=255 {
            let data: Vec<u8> = [0x41, 0xE0].into_iter().chain(0..=255).take(size).collect();
            let long = query(&[0xE0], None, vec![line(0, &data), line(0x800, &data)]);
            to.run(bench(repeat, &[long.clone(), long], &[100]));
        }
        for size in 16_380..=16_390 {
            let mut script: Vec<u8> = [0x01, 0x0D, 0x00, 0x00].repeat(4096);
            script.resize(size, 0);
            to.run(RunCase { script, ..bench(repeat, &[], &[]) });
        }
    }
    forms(to);
}

/// Document 02 §13: "Hire records may now include queries without any line". Every list of up to four queries of two PIDs, each with a line or without, so that those
/// without stand first, in between, repeated and last.
pub fn without_lines(to: &mut impl Take) {
    texts(&[0, 1, 2, 3], 4, &mut |kinds| {
        // Each line has data of its own.
        let asked = |(n, kind): (usize, &u8)| {
            let pid = [0x05, 0x0D][usize::from(kind % 2)];
            query(&[pid], None, if *kind < 2 { vec![line(0, &[0x41, pid, n as u8])] } else { Vec::new() })
        };
        let queries: Vec<Query> = kinds.iter().enumerate().map(asked).collect();
        for repeat in [false, true] {
            to.run(bench(repeat, &queries, &[]));
        }
    });
}

pub fn every(to: &mut impl Take) {
    queries(to);
    client_lengths(to);
    around_255(to);
    failures(to);
    nulls(to);
    short_nulls(to);
    full_with_nulls(to);
    stored_nulls(to);
    server_lengths(to);
    commands(to);
    last_commands(to);
    digits(to);
    pluses(to);
    every_pid(to);
    short_replies(to);
    runs(to);
    without_lines(to);
}
