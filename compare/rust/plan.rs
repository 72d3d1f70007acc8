//! What the Rust gave in one case, beside the script by which the Rattle session is asked for the same.
use crate::driver::{Log, Script};
use crate::server::put_group;
use std::collections::BTreeMap;

/// Values by PID, each PID's in reply order: ECU+1 (0 when unknown) and data. The map is walked by rising PID.
pub type Values = BTreeMap<u8, Vec<(u16, Vec<u8>)>>;

/// A query's part of a hire record.
pub type Part = Values;

/// What is known of a PID: its length, 256 when unknown, and its count and 1, 0 when not learned.
pub type Known = (usize, usize);

/// What the log has to say, entry by entry.
#[derive(Clone)]
pub enum Expected {
    /// So many calls. All but the last answer 64, the last one answers code and count; all together send these bytes.
    Calls { calls: usize, code: u8, count: usize, sent: Vec<u8> },
    /// A server session: echo, linefeeds, spaces and headers, the phase, the last command, whether document 02 §13 asks for that one and the Rust has another, the line
    /// or the command handed out.
    Server { settings: [bool; 4], phase: u8, last: Vec<u8>, by_document: bool, line: Vec<u8> },
    /// A finish, and whether the client's session is framed.
    Values { values: Values, framed: bool },
    /// A client session at rest: framing, repeat and multi-PID support, the last query, and what is known of the PIDs that are shown.
    Client { framing: bool, repeat: u8, multi: u8, last: Vec<u8>, known: Vec<(u8, Known)> },
    /// A piece of 00 alone gets this code and sends nothing; the state and the reply so far, which are shown before and after it, are the same.
    Untouched { code: u8 },
    /// The reply to a raw command.
    Reply(Vec<u8>),
    /// A bench run: how it ended, and the parts of its record.
    Run { code: u8, parts: Vec<Part> },
}

#[derive(Default)]
pub struct Plan {
    pub script: Script,
    /// With the number of the case's call or piece.
    pub expected: Vec<(usize, Expected)>,
    /// What came about in this case.
    pub seen: Vec<&'static str>,
    /// What the store of a client session's replies holds in the end.
    pub store: Vec<u8>,
}

/// What was compared.
#[derive(Default)]
pub struct Tally {
    pub sessions: usize,
    pub calls: usize,
    pub states: usize,
    /// Parts of records.
    pub queries: usize,
    pub values: usize,
    /// Counts left out, as docs/DIFFERENCES.md says: unframed, of a PID that occurs more than 255 times.
    pub left_out: usize,
    /// How often each thing came about.
    pub seen: BTreeMap<&'static str, usize>,
}

impl Tally {
    pub fn add(&mut self, other: &Tally) {
        self.sessions += other.sessions;
        self.calls += other.calls;
        self.states += other.states;
        self.queries += other.queries;
        self.values += other.values;
        self.left_out += other.left_out;
        for (name, times) in &other.seen {
            *self.seen.entry(name).or_default() += times;
        }
    }
}

pub fn shown(bytes: &[u8]) -> String {
    format!("\"{}\"", bytes.escape_ascii())
}

/// Fails with both sides' answers unless they are the same.
fn same<T: PartialEq>(what: &str, rust: T, rattle: T, show: impl Fn(&T) -> String) -> Result<(), String> {
    if rust == rattle {
        return Ok(());
    }
    Err(format!("{what}: the Rust gives {}, Rattle gives {}", show(&rust), show(&rattle)))
}

fn same_bytes(what: &str, rust: &[u8], rattle: &[u8]) -> Result<(), String> {
    same(what, rust, rattle, |bytes| shown(bytes))
}

fn number(bytes: &[u8], at: &mut usize) -> Option<usize> {
    let mut n = 0;
    let mut scale = 1;
    loop {
        let byte = usize::from(*bytes.get(*at)?);
        *at += 1;
        n += byte % 128 * scale;
        scale *= 128;
        if byte < 128 {
            return Some(n);
        }
    }
}

/// A value record of document 01: the PID, ECU+1 and the data.
fn read_value(bytes: &[u8], at: &mut usize) -> Option<(u8, (u16, Vec<u8>))> {
    let pid = *bytes.get(*at)?;
    *at += 1;
    let ecu = u16::try_from(number(bytes, at)?).ok()?;
    let size = number(bytes, at)?;
    let data = bytes.get(*at..*at + size)?.to_vec();
    *at += size;
    Some((pid, (ecu, data)))
}

/// Values as far as the bytes reach, by PID.
fn read_values(bytes: &[u8]) -> Option<Values> {
    let mut values = Values::new();
    let mut at = 0;
    while at < bytes.len() {
        let (pid, value) = read_value(bytes, &mut at)?;
        values.entry(pid).or_default().push(value);
    }
    Some(values)
}

/// The parts of a hire record, each with its number of values.
fn read_parts(bytes: &[u8]) -> Option<Vec<(usize, Part)>> {
    let mut parts = Vec::new();
    let mut at = 0;
    while at < bytes.len() {
        let count = number(bytes, &mut at)?;
        let mut part = Part::new();
        for _ in 0..count {
            let (pid, value) = read_value(bytes, &mut at)?;
            part.entry(pid).or_default().push(value);
        }
        parts.push((count, part));
    }
    Some(parts)
}

/// Compares values PID by PID, and their number.
fn same_values(rust: &Values, ours: &Values, count: usize) -> Result<(), String> {
    for pid in 0..=255 {
        let none = Vec::new();
        let theirs = rust.get(&pid).unwrap_or(&none);
        same(&format!("values of {pid:02X}"), theirs, ours.get(&pid).unwrap_or(&none), |v| format!("{v:02X?}"))?;
    }
    same("number of values", total(rust), count, |n| n.to_string())
}

fn total(values: &Values) -> usize {
    values.values().map(Vec::len).sum()
}

impl Plan {
    /// Compares a log with what the Rust gave; the first difference, if there is one.
    pub fn check(&self, mut log: Log) -> Result<Tally, String> {
        let mut tally = Tally { sessions: 1, calls: self.script.calls, ..Tally::default() };
        // PIDs that occurred more than 255 times in the reply just finished, and those whose counts are left out from then on.
        let mut often = [false; 256];
        let mut out = [false; 256];
        for (n, expected) in &self.expected {
            check_entry(expected, &mut log, &mut tally, &mut often, &mut out).map_err(|what| format!("at {n}: {what}"))?;
        }
        if !log.is_read() {
            return Err("the log goes on".to_string());
        }
        if self.store != log.store {
            let agreed = self.store.iter().zip(log.store).take_while(|(rust, rattle)| rust == rattle).count();
            let part = |store: &[u8]| shown(&store[agreed..store.len().min(agreed + 16)]);
            return Err(format!("the store from byte {agreed} on: {} is due, Rattle has {}", part(&self.store), part(log.store)));
        }
        for name in &self.seen {
            *tally.seen.entry(name).or_default() += 1;
        }
        Ok(tally)
    }
}

fn check_entry(
    expected: &Expected,
    log: &mut Log,
    tally: &mut Tally,
    often: &mut [bool; 256],
    out: &mut [bool; 256],
) -> Result<(), String> {
    match expected {
        Expected::Calls { calls, code, count, sent } => {
            let mut all = Vec::new();
            for left in (0..*calls).rev() {
                let answer = log.answer();
                all.extend_from_slice(answer.sent);
                let rust = if left == 0 { (*code, *count) } else { (64, 0) };
                same("answer and count", rust, (answer.code, answer.count), |pair| format!("{pair:?}"))?;
            }
            same_bytes("sent", sent, &all)
        }
        Expected::Server { settings, phase, last, by_document, line } => {
            tally.states += 1;
            let ours = [log.byte() == 1, log.byte() == 1, log.byte() == 1, log.byte() == 1];
            same("echo, linefeeds, spaces, headers", *settings, ours, |s| format!("{s:?}"))?;
            same("phase", *phase, log.byte(), |p| p.to_string())?;
            let ours = log.text();
            if *by_document && ours != last {
                return Err(format!("last command: by document 02 §13 it is {}, Rattle gives {}", shown(last), shown(ours)));
            }
            same_bytes("last command", last, ours)?;
            same_bytes("line", line, log.text())
        }
        Expected::Values { values, framed } => {
            let answer = log.answer();
            same("finish", 64, answer.code, |code| code.to_string())?;
            let ours = read_values(answer.sent).ok_or("the values are no values")?;
            tally.values += total(values);
            for pid in 0..=255 {
                often[usize::from(pid)] = !framed && values.get(&pid).is_some_and(|found| 255 < found.len());
            }
            same_values(values, &ours, answer.count)
        }
        Expected::Client { framing, repeat, multi, last, known } => {
            tally.states += 1;
            same("framing", *framing, log.byte() == 1, |f| f.to_string())?;
            same("repeat (0 unknown, 1 yes, 2 no)", *repeat, log.byte(), |r| r.to_string())?;
            same("multi-PID support (0 unknown, 1 yes, 2 no)", *multi, log.byte(), |m| m.to_string())?;
            same("under way", 0, log.byte(), |u| u.to_string())?;
            same_bytes("last query", last, log.text())?;
            for &(pid, (length, count)) in known {
                same(&format!("length of {pid:02X}"), length, log.number(), |n| n.to_string())?;
                let ours = log.number();
                let pid = usize::from(pid);
                if often[pid] && ours == 256 && !out[pid] {
                    out[pid] = true;
                    tally.left_out += 1;
                }
                if !out[pid] {
                    same(&format!("count and 1 of {pid:02X}"), count, ours, |n| n.to_string())?;
                }
            }
            *often = [false; 256];
            Ok(())
        }
        Expected::Untouched { code } => {
            let shown = |log: &mut Log| [log.bytes(4).to_vec(), log.text().to_vec(), log.text().to_vec()];
            let before = shown(log);
            let answer = log.answer();
            if (answer.code, answer.count, answer.sent) != (*code, 0, &[]) {
                return Err(format!("a piece of 00 alone: {code} and no bytes to send are due, Rattle gives {answer:?}"));
            }
            let after = shown(log);
            if before != after {
                return Err(format!("a piece of 00 alone changes the session, the last query or the reply from {before:02X?} to {after:02X?}"));
            }
            Ok(())
        }
        Expected::Reply(reply) => same_bytes("reply", reply, log.text()),
        Expected::Run { code, parts } => {
            let answer = log.answer();
            same("end of the run (64, or a number)", (*code, 0), (answer.code, answer.count), |pair| format!("{pair:?}"))?;
            let ours = read_parts(answer.sent).ok_or("the record is no record")?;
            for (n, (part, (count, our_part))) in parts.iter().zip(&ours).enumerate() {
                same_values(part, our_part, *count).map_err(|what| format!("query {n}: {what}"))?;
                tally.queries += 1;
                tally.values += total(part);
            }
            same("number of parts", parts.len(), ours.len(), |n| n.to_string())
        }
    }
}

/// What stands in a log: numbers of two bytes, the lower first, and texts after their lengths.
pub fn put_number(to: &mut Vec<u8>, n: usize) {
    to.extend_from_slice(&u16::try_from(n).expect("a number of two bytes").to_le_bytes());
}

pub fn put_text(to: &mut Vec<u8>, text: &[u8]) {
    put_number(to, text.len());
    to.extend_from_slice(text);
}

pub fn put_call(to: &mut Vec<u8>, code: u8, count: usize, sent: &[u8]) {
    to.push(code);
    put_number(to, count);
    put_text(to, sent);
}

/// The Rust's values as records. Document 02 §1: by rising PID, which is the order that the map is walked in, and within a PID in reply order.
fn put_values(to: &mut Vec<u8>, values: &Values) {
    for (pid, found) in values {
        for (ecu, data) in found {
            to.push(*pid);
            put_group(to, usize::from(*ecu));
            put_group(to, data.len());
            to.extend_from_slice(data);
        }
    }
}

/// A query's part as it stands in a hire record: the number of its values, and the values.
pub fn part_bytes(part: &Part) -> Vec<u8> {
    let mut bytes = Vec::new();
    put_group(&mut bytes, total(part));
    put_values(&mut bytes, part);
    bytes
}

impl Plan {
    /// The log that the Rust's answers give. The order of PIDs, which the Rust's maps do not have, and a server's last command from NO DATA on are document 02's; nothing
    /// is taken from this library's log.
    pub fn log(&self) -> Vec<u8> {
        let mut log = Vec::new();
        for (_, expected) in &self.expected {
            match expected {
                Expected::Calls { calls, code, count, sent } => {
                    assert_eq!(*calls, 1, "the Rust does not tell the bytes that it sent for each of several calls");
                    put_call(&mut log, *code, *count, sent);
                }
                Expected::Server { settings, phase, last, line, .. } => {
                    log.extend(settings.map(u8::from));
                    log.push(*phase);
                    put_text(&mut log, last);
                    put_text(&mut log, line);
                }
                Expected::Values { values, .. } => {
                    let mut sent = Vec::new();
                    put_values(&mut sent, values);
                    put_call(&mut log, 64, total(values), &sent);
                }
                Expected::Client { framing, repeat, multi, last, known } => {
                    log.extend([u8::from(*framing), *repeat, *multi, 0]);
                    put_text(&mut log, last);
                    for (_, (length, count)) in known {
                        put_number(&mut log, *length);
                        put_number(&mut log, *count);
                    }
                }
                Expected::Untouched { .. } => unreachable!("the Rust does not tell what a session holds during a call"),
                Expected::Reply(reply) => put_text(&mut log, reply),
                Expected::Run { code, parts } => put_call(&mut log, *code, 0, &parts.iter().flat_map(part_bytes).collect::<Vec<u8>>()),
            }
        }
        log
    }
}
