//! Random cases: what an ELM327 and its reader say, and damaged copies of it.
use crate::client::{Call, ClientCase, Start};
use crate::rng::Rng;
use crate::run::{script, Query, RunCase, FULL_ROOM};
use crate::server::{Answer, Line, Own, ServerCase};
use crate::stream::Arrival;
use tachtalk_elm327_lib::MODE01_PID_DATA_LENGTHS;

/// PIDs of the table, of each length, and PIDs outside it.
const KNOWN: [u8; 12] = [0x00, 0x04, 0x05, 0x0C, 0x0D, 0x1C, 0x20, 0x40, 0x65, 0x80, 0xA0, 0xC0];
const UNKNOWN: [u8; 6] = [0x66, 0x7F, 0x81, 0xA1, 0xFE, 0xFF];

/// Bytes that a reader of replies or of lines treats in some way of its own, and neighbours of theirs.
const SPECIAL: &[u8] = b"\0\x01\x08\t\n\x0b\x0c\r\x0e\x1b\x1f !+-/09:>?@AFGZ[`afgz{\x7f";

const TEXTS: [&str; 19] = [
    "NO DATA", "SEARCHING...", "?", "STOPPED", "UNABLE TO CONNECT", "A12", "+41", "41", "4", "7F 01 12", "BUS INIT: OK", "CAN ERROR", "OK",
    "41 +C 1A", "+E8 04 41 0C", "A+1", "A+", "A + 1", "ELM327 v1.5",
];

fn byte(rng: &mut Rng) -> u8 {
    if rng.chance(60) {
        return *rng.pick(SPECIAL);
    }
    rng.below(128) as u8
}

fn pid(rng: &mut Rng) -> u8 {
    match rng.below(10) {
        0 => rng.below(256) as u8,
        1..=3 => *rng.pick(&UNKNOWN),
        _ => *rng.pick(&KNOWN),
    }
}

fn count(rng: &mut Rng) -> Option<u8> {
    match rng.below(10) {
        0 => Some(rng.below(256) as u8),
        1..=4 => Some(rng.from(1, 4) as u8),
        _ => None,
    }
}

fn ecu(rng: &mut Rng) -> u16 {
    if rng.chance(15) {
        return rng.below(4096) as u16;
    }
    *rng.pick(&[0x7E8, 0x7E8, 0x7E9, 0x7EA, 0x000, 0xFFF])
}

/// How the lines of one reply are written.
struct Style {
    framed: bool,
    spaces: bool,
    lower: bool,
    ending: &'static [u8],
    /// The length of every PID outside the table.
    unknown: usize,
    /// Some of the characters arrive as a plus.
    bad_contact: bool,
}

/// Mostly a style that fits the session's framing.
fn style(rng: &mut Rng, framed: bool) -> Style {
    Style {
        framed: framed != rng.chance(15),
        spaces: rng.chance(50),
        lower: rng.chance(15),
        ending: *rng.pick(&[b"\r" as &[u8], b"\r", b"\r", b"\r\n", b"\n\r", b"\r\r", b" \r", b"\t\r"]),
        unknown: rng.below(7),
        bad_contact: rng.chance(15),
    }
}

fn put_hex(rng: &mut Rng, style: &Style, data: &[u8], to: &mut Vec<u8>) {
    for (i, byte) in data.iter().enumerate() {
        if style.spaces && 0 < i {
            to.push(b' ');
        }
        let pair = if style.lower || rng.chance(1) { format!("{byte:02x}") } else { format!("{byte:02X}") };
        to.extend_from_slice(pair.as_bytes());
    }
}

/// The data of a line that answers some of the PIDs.
fn data(rng: &mut Rng, style: &Style, pids: &[u8]) -> Vec<u8> {
    let mut data = vec![if rng.chance(95) { 0x41 } else { rng.below(256) as u8 }];
    for &asked in pids {
        if rng.chance(10) {
            continue;
        }
        let given = if rng.chance(95) { asked } else { pid(rng) };
        let size = match MODE01_PID_DATA_LENGTHS[usize::from(given)] {
            Some(n) => usize::from(n),
            None => style.unknown,
        };
        let size = if rng.chance(95) { size } else { rng.below(9) };
        data.push(given);
        data.extend((0..size).map(|_| rng.below(256) as u8));
    }
    data
}

fn put_line(rng: &mut Rng, style: &Style, pids: &[u8], to: &mut Vec<u8>) {
    if rng.chance(10) {
        to.extend_from_slice(rng.pick(&TEXTS).as_bytes());
    } else {
        let data = data(rng, style, pids);
        if style.framed != rng.chance(2) {
            let space = if style.spaces { " " } else { "" };
            let size = if rng.chance(90) { data.len() as u8 } else { rng.below(256) as u8 };
            to.extend_from_slice(format!("{:03X}{space}{size:02X}{space}", ecu(rng)).as_bytes());
        }
        put_hex(rng, style, &data, to);
    }
    to.extend_from_slice(if rng.chance(97) { style.ending } else { b"\r" });
}

/// A few bytes changed, left out, put in or repeated.
fn damage(rng: &mut Rng, text: &mut Vec<u8>) {
    for _ in 0..rng.from(1, 4) {
        let at = rng.below(text.len() + 1);
        match rng.below(5) {
            0 if at < text.len() => text[at] = byte(rng),
            1 if at < text.len() => {
                text.remove(at);
            }
            2 => {
                let end = text.len().min(at + rng.below(12));
                let part = text[at..end].to_vec();
                text.splice(at..at, part);
            }
            3 if at < text.len() => text[at] ^= 0x20,
            _ => text.insert(at, byte(rng)),
        }
    }
}

/// A reply of at most 4,096 bytes, mostly with its prompt.
fn reply(rng: &mut Rng, style: &Style, pids: &[u8]) -> Vec<u8> {
    let mut text = Vec::new();
    let lines = match rng.below(20) {
        0 => 0,
        1..=9 => 1,
        10..=13 => 2,
        14..=18 => rng.from(3, 8),
        _ => rng.from(9, 60),
    };
    for _ in 0..lines {
        put_line(rng, style, pids, &mut text);
    }
    if rng.chance(25) {
        damage(rng, &mut text);
    }
    if style.bad_contact {
        text.iter_mut().filter(|byte| byte.is_ascii_hexdigit() && rng.chance(5)).for_each(|byte| *byte = b'+');
    }
    if rng.chance(80) {
        text.extend_from_slice(style.ending);
    }
    if rng.chance(97) {
        text.push(b'>');
    }
    if rng.chance(10) {
        text.extend((0..rng.below(20)).map(|_| byte(rng)));
    }
    // A reply of nearly the most bytes there can be, with lines before or after its own.
    if rng.chance(2) {
        let size = rng.from(4080, 4096);
        let mut filled = Vec::new();
        while filled.len() + text.len() < size {
            put_line(rng, style, pids, &mut filled);
        }
        filled.truncate(size.saturating_sub(text.len()));
        filled.extend_from_slice(&text);
        text = filled;
    }
    text.truncate(4096);
    text
}

/// The sizes in which bytes arrive, of at most so many.
fn size(rng: &mut Rng, mode: usize, most: usize) -> usize {
    match mode {
        0 => most,
        1 => 1,
        2 => rng.from(1, 8),
        3 => rng.from(most - 1, most),
        _ => rng.from(1, most),
    }
}

fn pieces(rng: &mut Rng, text: &[u8], most: usize) -> Vec<Vec<u8>> {
    let mode = if 600 < text.len() { *rng.pick(&[0, 3, 4]) } else { rng.below(6) };
    let mut pieces = Vec::new();
    let mut left = text;
    while !left.is_empty() {
        let n = left.len().min(size(rng, mode, most));
        pieces.push(left[..n].to_vec());
        left = &left[n..];
    }
    pieces
}

/// A read that fails or a connection that closes, after so many arrivals at least.
fn interrupt(rng: &mut Rng, arrivals: &mut Vec<Arrival>, from: usize) {
    let at = rng.from(from.min(arrivals.len()), arrivals.len());
    let failure = if rng.chance(50) { Arrival::Failed } else { Arrival::Closed };
    arrivals.insert(at, failure);
}

/// How 00 bytes are slipped into what arrives: not at all, a few, in runs, or before a third of the others.
#[derive(Clone, Copy, PartialEq)]
enum Nulls {
    None,
    Few,
    Runs,
    Many,
}

/// In more than a third of the sessions there are some.
fn nulls(rng: &mut Rng) -> Nulls {
    *rng.pick(&[Nulls::None, Nulls::None, Nulls::None, Nulls::None, Nulls::None, Nulls::Few, Nulls::Runs, Nulls::Many])
}

/// A text with 00 bytes slipped in.
fn slipped(rng: &mut Rng, nulls: Nulls, text: &[u8]) -> Vec<u8> {
    let mut all = text.to_vec();
    let mut put = |rng: &mut Rng, size: usize| {
        let at = rng.below(all.len() + 1);
        all.splice(at..at, std::iter::repeat_n(0, size));
    };
    match nulls {
        Nulls::None => {}
        Nulls::Few => (0..rng.from(1, 3)).for_each(|_| put(rng, 1)),
        Nulls::Runs => (0..rng.from(1, 3)).for_each(|_| {
            let size = if rng.chance(10) { *rng.pick(&[127, 128, 129, 300]) } else { rng.from(2, 5) };
            put(rng, size);
        }),
        Nulls::Many => all = text.iter().flat_map(|byte| [vec![0; rng.below(6) / 4], vec![*byte]].concat()).collect(),
    }
    all
}

/// Pieces of 00 alone among those that arrive for a call, and after them. Those before the answer to ATZ may be as long as it.
fn add_nulls(rng: &mut Rng, call: &mut Call) {
    for _ in 0..rng.from(0, 4) {
        let at = rng.below(call.arrivals.len() + 1);
        let most = if call.start == Start::Init && at == 0 { 256 } else { 128 };
        let size = match rng.below(4) {
            0 => most,
            1 => rng.from(1, most),
            _ => rng.from(1, 3),
        };
        call.arrivals.insert(at, Arrival::Piece(vec![0; size]));
    }
}

fn arrivals(rng: &mut Rng, nulls: Nulls, text: &[u8]) -> Vec<Arrival> {
    let text = slipped(rng, nulls, text);
    pieces(rng, &text, 128).into_iter().map(Arrival::Piece).collect()
}

/// What arrives during an initialisation: an answer to ATZ and five replies.
fn init_arrivals(rng: &mut Rng, nulls: Nulls) -> Vec<Arrival> {
    let mut all = Vec::new();
    let banner: Vec<u8> = match rng.below(4) {
        0 => (0..rng.from(1, 256)).map(|_| rng.below(256) as u8).collect(),
        _ => b"ATZ\r\r\rELM327 v1.5\r\r>".to_vec(),
    };
    let with_nulls = slipped(rng, nulls, &banner);
    all.push(Arrival::Piece(if with_nulls.len() <= 256 { with_nulls } else { banner }));
    if rng.chance(10) {
        all[0] = if rng.chance(50) { Arrival::Failed } else { Arrival::Closed };
    }
    for _ in 0..5 {
        let mut text = b"OK\r\r>".to_vec();
        if rng.chance(10) {
            damage(rng, &mut text);
        }
        all.extend(arrivals(rng, nulls, &text));
    }
    if rng.chance(20) {
        all.truncate(rng.below(all.len() + 1));
    }
    all
}

fn raw(rng: &mut Rng) -> Vec<u8> {
    match rng.below(12) {
        0..=2 => b"ATH1".to_vec(),
        3..=4 => b"ATH0".to_vec(),
        5 => b"ATZ".to_vec(),
        6 => rng.pick(&[b"ath1" as &[u8], b"aTh0", b"AtZ", b"atz"]).to_vec(),
        7 => rng.pick(&[b"ATH1\r" as &[u8], b"ATZ\r", b"ATH0\r", b" ATH1", b"AT H1", b"ATH1 ", b"ATH10", b"ATH", b"ATZ0"]).to_vec(),
        8 => rng.pick(&[b"" as &[u8], b"\r", b"\r\r", b"010C", b"0100\r"]).to_vec(),
        9 => (0..rng.from(60, 64)).map(|_| byte(rng)).collect(),
        _ => (0..rng.from(0, 64)).map(|_| byte(rng)).collect(),
    }
}

fn query(rng: &mut Rng) -> Start {
    if rng.chance(50) {
        return Start::Pid(pid(rng), count(rng));
    }
    let n = if rng.chance(20) { 1 } else { rng.from(2, 6) };
    let mut pids: Vec<u8> = (0..n).map(|_| pid(rng)).collect();
    if 1 < n && rng.chance(10) {
        pids[1] = pids[0];
    }
    Start::Pids(pids, count(rng))
}

/// A client session of some calls.
pub fn client(rng: &mut Rng) -> ClientCase {
    let mut case = ClientCase { framing: rng.chance(60), repeat: rng.chance(60), calls: Vec::new() };
    let mut last: Option<Start> = None;
    // Whether the session is framed, if all goes well.
    let mut framed = false;
    let mut like = style(rng, framed);
    let nulls = nulls(rng);
    for _ in 0..rng.from(1, 16) {
        if rng.chance(20) || (like.framed != framed && rng.chance(80)) {
            like = style(rng, framed);
        }
        let mut call = Call { start: Start::Init, arrivals: Vec::new(), failed_write: None, host_writes: false };
        match rng.below(100) {
            0..=6 => {
                call.arrivals = init_arrivals(rng, nulls);
                framed = case.framing;
            }
            7..=19 => {
                let command = raw(rng);
                let text = if rng.chance(70) { b"OK\r\r>".to_vec() } else { reply(rng, &like, &[0x0C]) };
                match &command.to_ascii_uppercase()[..] {
                    b"ATH1" => framed = true,
                    b"ATH0" | b"ATZ" => framed = false,
                    _ => {}
                }
                call.start = Start::Command(command);
                call.arrivals = arrivals(rng, nulls, &text);
            }
            _ => {
                let again = if rng.chance(45) { last.clone() } else { None };
                let start = again.unwrap_or_else(|| query(rng));
                last = Some(start.clone());
                let pids = match &start {
                    Start::Pid(pid, _) => vec![*pid],
                    Start::Pids(pids, _) => pids.clone(),
                    Start::Init | Start::Command(_) => Vec::new(),
                };
                call.start = start;
                let mut refused: &[u8] = b"";
                if rng.chance(8) {
                    refused = *rng.pick(&[b"?\r\r>" as &[u8], b"?>", b">?", b"\r?\r\r>41"]);
                    call.arrivals = arrivals(rng, nulls, refused);
                }
                // What is left of the refusal belongs to the reply after it: together they have at most 4,096 bytes.
                let mut text = reply(rng, &like, &pids);
                text.truncate(4096 - refused.len());
                call.arrivals.extend(arrivals(rng, nulls, &text));
                // The host's 00 stand in the store, which has 4,096 bytes.
                let size: usize = call.arrivals.iter().map(|arrival| if let Arrival::Piece(bytes) = arrival { bytes.len() } else { 0 }).sum();
                call.host_writes = size <= 4096 && rng.chance(if nulls == Nulls::None { 2 } else { 25 });
            }
        }
        if rng.chance(6) {
            // The answer to ATZ stays the first to arrive: it alone may hold bytes of 80 and more.
            let from = if call.start == Start::Init { 1 } else { 0 };
            interrupt(rng, &mut call.arrivals, from);
        }
        if rng.chance(4) {
            call.failed_write = Some(rng.below(7));
        }
        if nulls != Nulls::None && !call.host_writes {
            add_nulls(rng, &mut call);
        }
        case.calls.push(call);
    }
    case
}

fn word(rng: &mut Rng, most: usize) -> String {
    let n = rng.from(0, most);
    (0..n).map(|_| char::from(byte(rng))).collect()
}

fn line(rng: &mut Rng) -> Line {
    let ecu = if rng.chance(40) { None } else { Some(ecu(rng)) };
    let size = match rng.below(20) {
        0 => 0,
        1 => rng.from(250, 255),
        2 => rng.below(256),
        _ => rng.from(1, 8),
    };
    (ecu, (0..size).map(|_| rng.below(256) as u8).collect())
}

fn answer(rng: &mut Rng) -> Answer {
    match rng.below(20) {
        0..=1 => Answer::Lines(Vec::new()),
        2 => Answer::Text(rng.pick(&["?", "NO DATA", "UNABLE TO CONNECT", ""]).to_string()),
        3 => Answer::Text(word(rng, 64)),
        4 => Answer::Lines((0..rng.from(60, 64)).map(|_| line(rng)).collect()),
        _ => Answer::Lines((0..rng.from(1, 4)).map(|_| line(rng)).collect()),
    }
}

pub const AT: [&str; 28] = [
    "ATZ", "ATE0", "ATE1", "ATL0", "ATL1", "ATS0", "ATS1", "ATH0", "ATH1", "ATRV", "ATSP0", "ATSP6", "ATSPA", "ATST64", "ATAT1", "ATAT2", "ATAT0",
    "ATDP", "ATDPN", "ATDPX", "ATI", "AT@1", "AT", "AT?", "ATZZ", "ATE", "ATE2", "ATIS",
];

/// A line as a reader sends it, at most 128 bytes before its CR.
fn command(rng: &mut Rng, to: &mut Vec<u8>) {
    let mut text: Vec<u8> = match rng.below(20) {
        0..=9 => rng.pick(&AT).as_bytes().to_vec(),
        10..=14 => format!("01{:02X}", pid(rng)).into_bytes(),
        15..=16 => Vec::new(),
        17 => rng.pick(&["010C0D 1", " 0 1 0 c ", "0902", "a t z", "\t\u{b}\u{c}", "TA"]).as_bytes().to_vec(),
        18 => (0..rng.from(120, 128)).map(|_| byte(rng)).filter(|b| *b != b'\r').collect(),
        _ => word(rng, 40).into_bytes(),
    };
    if rng.chance(15) {
        text.make_ascii_lowercase();
    }
    if rng.chance(15) {
        let at = rng.below(text.len() + 1);
        text.insert(at, *rng.pick(b" \t\n\0"));
    }
    if rng.chance(5) {
        damage(rng, &mut text);
    }
    text.truncate(128);
    to.extend_from_slice(&text);
    to.push(b'\r');
    if rng.chance(15) {
        to.push(b'\n');
    }
}

/// What a reader sends, so that no line has more than 128 bytes.
fn within_lines(text: &mut Vec<u8>) {
    let mut size = 0;
    text.retain(|&byte| {
        match byte {
            b'\r' => size = 0,
            b'\n' => {}
            _ if size == 128 => return false,
            _ => size += 1,
        }
        true
    });
}

/// A server session of some lines.
pub fn server(rng: &mut Rng) -> ServerCase {
    let mut text = Vec::new();
    for _ in 0..rng.from(1, 12) {
        command(rng, &mut text);
    }
    if rng.chance(10) {
        text.pop();
    }
    within_lines(&mut text);
    ServerCase {
        own: match rng.below(8) {
            0 => Own::Ati(word(rng, 32)),
            1 => Own::Device(word(rng, 32)),
            _ => Own::usual(),
        },
        by_byte: rng.chance(40),
        pieces: pieces(rng, &text, 200),
        answers: (0..rng.from(0, 3)).map(|_| answer(rng)).collect(),
    }
}

/// A line of a script: mostly values of the PIDs, a known or an unknown ECU.
fn script_line(rng: &mut Rng, style: &Style, pids: &[u8]) -> Line {
    if rng.chance(5) {
        return line(rng);
    }
    let ecu = if rng.chance(35) { None } else { Some(ecu(rng)) };
    let mut data = data(rng, style, pids);
    if rng.chance(3) {
        data.resize(rng.from(0, 255), 0x0D);
    }
    data.truncate(255);
    (ecu, data)
}

fn script_query(rng: &mut Rng, style: &Style, last: Option<&Query>) -> Query {
    let (pids, count) = match (last, query(rng)) {
        (Some(last), _) if rng.chance(45) => (last.pids.clone(), last.count),
        (_, Start::Pids(pids, count)) => (pids, count),
        (_, Start::Pid(pid, count)) => (vec![pid], count),
        _ => (vec![pid(rng)], count(rng)),
    };
    let size = match rng.below(40) {
        0..=4 => 0,
        5..=20 => 1,
        21..=37 => rng.from(2, 5),
        38 => rng.from(6, 64),
        _ => rng.from(62, 64),
    };
    let lines = (0..size).map(|_| script_line(rng, style, &pids)).collect();
    Query { pids, count, lines }
}

/// Lengths of pieces: none, short ones, all bytes, and such as mean 128.
fn lengths(rng: &mut Rng) -> Vec<u8> {
    let mode = rng.below(5);
    let size = if rng.chance(50) { rng.below(8) } else { rng.below(400) };
    let length = |rng: &mut Rng| match mode {
        1 => 1,
        2 => rng.from(1, 8) as u8,
        3 => *rng.pick(&[0, 1, 127, 128, 129, 255]),
        _ => rng.below(256) as u8,
    };
    if mode == 0 {
        return Vec::new();
    }
    (0..size).map(|_| length(rng)).collect()
}

/// A bench run of some queries; some scripts are damaged or cut off.
pub fn run(rng: &mut Rng) -> RunCase {
    let style = style(rng, true);
    let mut queries: Vec<Query> = Vec::new();
    for _ in 0..rng.from(0, 12) {
        let next = script_query(rng, &style, queries.last());
        queries.push(next);
    }
    let mut script = script(&queries);
    match rng.below(40) {
        0 => script.truncate(rng.below(script.len() + 1)),
        1 => {
            let at = rng.below(script.len() + 1);
            script.splice(at..at, [rng.below(256) as u8]);
        }
        2 if !script.is_empty() => {
            let at = rng.below(script.len());
            script[at] = rng.below(256) as u8;
        }
        _ => {}
    }
    let room = match rng.below(20) {
        0 => rng.below(20),
        1..=2 => rng.below(300),
        _ => FULL_ROOM,
    };
    RunCase { repeat: rng.chance(70), script, pieces: lengths(rng), room }
}
