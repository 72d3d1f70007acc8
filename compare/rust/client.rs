//! Client sessions: the Rust's side of a case.
use crate::driver::{client as kind, empty_store, Driver, Log, Script};
use crate::plan::{shown, Expected, Plan, Values};
use crate::shrink::{shorter, Case};
use crate::stream::{without_nulls, without_plus, Arrival, End, Event, Stream};
use std::collections::HashMap;
use std::fmt::Write;
use std::io;
use std::iter::repeat_n;
use std::time::Duration;
use tachtalk_elm327_lib::{ClientConfig, ClientSession, FeatureSupport, ReplyLine, MODE01_PID_DATA_LENGTHS};

#[derive(Clone, PartialEq)]
pub enum Start {
    Init,
    Command(Vec<u8>),
    Pid(u8, Option<u8>),
    Pids(Vec<u8>, Option<u8>),
}

/// A call of the Rust: what it starts, what then arrives, and after how many writes one fails.
#[derive(Clone)]
pub struct Call {
    pub start: Start,
    /// The Rust gets the pieces without their 00, and in a query with `G` for each plus where hex is read.
    pub arrivals: Vec<Arrival>,
    pub failed_write: Option<usize>,
    /// In a query: the Rattle session is handed another byte for each 00, and the host writes the reply with its 00 to the store before the finish.
    pub host_writes: bool,
}

#[derive(Clone)]
pub struct ClientCase {
    pub framing: bool,
    pub repeat: bool,
    pub calls: Vec<Call>,
}

/// What a call of the Rust came to.
enum Outcome {
    Failed,
    Initialised,
    Reply(Vec<u8>),
    Values(Values),
}

pub fn config(framing: bool, repeat: bool) -> ClientConfig {
    ClientConfig { framing, repeat, reset_wait: Duration::ZERO, timeout: Duration::ZERO }
}

/// The values of an answer.
pub fn values<L>(map: HashMap<u8, L>, lines: impl Fn(&L) -> &[ReplyLine]) -> Values {
    let value = |line: &ReplyLine| (line.ecu.map_or(0, |ecu| ecu + 1), line.data.to_vec());
    map.iter().map(|(pid, found)| (*pid, lines(found).iter().map(value).collect())).collect()
}

fn outcome<L>(result: io::Result<HashMap<u8, L>>, lines: impl Fn(&L) -> &[ReplyLine]) -> Outcome {
    result.map_or(Outcome::Failed, |map| Outcome::Values(values(map, lines)))
}

fn call(session: &mut ClientSession<Stream>, start: &Start) -> Outcome {
    match start {
        Start::Init => session.init().map_or(Outcome::Failed, |()| Outcome::Initialised),
        Start::Command(command) => session.command(command).map_or(Outcome::Failed, |reply| Outcome::Reply(reply.to_vec())),
        Start::Pid(pid, count) => outcome(session.query_pid(*pid, *count), |lines| lines),
        Start::Pids(pids, count) => outcome(session.query_pids(pids, *count), |lines| lines),
    }
}

fn support(of: FeatureSupport) -> u8 {
    match of {
        FeatureSupport::Unknown => 0,
        FeatureSupport::Yes => 1,
        FeatureSupport::No => 2,
    }
}

/// The last query, which only the `Debug` form of a session shows.
fn last_query(session: &ClientSession<Stream>, text: &mut String) -> Vec<u8> {
    text.clear();
    write!(text, "{session:?}").expect("a string takes all");
    let at = text.rfind("last_command: ").expect("the field is there") + "last_command: ".len();
    let digits = text[at..].split(|c: char| !c.is_ascii_digit()).filter(|n| !n.is_empty());
    digits.map(|n| n.parse().expect("a byte")).collect()
}

fn state(session: &ClientSession<Stream>, pids: &[u8], text: &mut String) -> Expected {
    let server = session.server_state();
    let known = |pid| {
        let length = server.data_length(pid).map_or(256, usize::from);
        let count = server.ecu_count(pid).map_or(0, |count| usize::from(count) + 1);
        (length, count)
    };
    Expected::Client {
        framing: server.framing(),
        repeat: support(server.repeat()),
        multi: support(server.multi_pid()),
        last: last_query(session, text),
        known: pids.iter().map(|pid| (*pid, known(*pid))).collect(),
    }
}

/// What arrived since the last write, with its 00 and its pluses.
fn last_reply(events: &[Event]) -> Vec<u8> {
    let mut reply = Vec::new();
    for event in events {
        match event {
            Event::Wrote(_) => reply.clear(),
            Event::Read(Arrival::Piece(bytes)) | Event::Nulls(bytes) => reply.extend_from_slice(bytes),
            _ => {}
        }
    }
    reply
}

/// Document 02 §4: "lengths, counts and values all rest on the new reading". From the first reply that is counted under this name on they are counted apart.
const WITH_PLUS: &str = "replies with a plus, which the Rust gets with G";

/// The pluses of a query's reply: where hex is read, and in framed lines of under 5 characters.
fn seen_pluses(plan: &mut Plan, reply: &[u8], framed: bool, values: &Values) {
    let given = without_plus(reply, framed);
    if given != reply {
        plan.seen.push(WITH_PLUS);
    }
    let short = given.split(|byte| *byte == b'\r').filter(|line| !line.contains(&b'>'));
    plan.seen.extend(repeat_n("pluses in short framed lines", short.flatten().filter(|byte| **byte == b'+').count()));
    if plan.seen.contains(&WITH_PLUS) {
        plan.seen.extend(repeat_n("values past a plus", values.values().map(Vec::len).sum()));
    }
}

/// What a call brought about, by the session before and after it.
fn seen(plan: &mut Plan, start: &Start, outcome: &Outcome, events: &[Event], before: &Expected, after: &Expected) {
    plan.seen.push(match (start, outcome) {
        (Start::Init, Outcome::Failed) => "initialisations cut off",
        (Start::Init, _) => "initialisations",
        (Start::Command(_), Outcome::Failed) => "raw commands that failed",
        (Start::Command(_), _) => "raw commands",
        (_, Outcome::Failed) => "queries that failed",
        (_, Outcome::Values(values)) if values.is_empty() => "queries without values",
        _ => "queries with values",
    });
    let queried = matches!(start, Start::Pid(..) | Start::Pids(..));
    if queried && events.first() == Some(&Event::Wrote(b"\r".to_vec())) {
        let writes = events.iter().filter(|event| !matches!(event, Event::Read(_) | Event::Nulls(_))).count();
        plan.seen.push(if writes == 1 { "repeats" } else { "repeats refused" });
    }
    let Expected::Client { framing, multi, known, .. } = before else { return };
    let Expected::Client { framing: framed, multi: decided, known: learned, .. } = after else { return };
    if framing != framed {
        plan.seen.push("framing changed");
    }
    if multi != decided {
        plan.seen.push(if *decided == 1 { "multi-PID support confirmed" } else { "multi-PID support refused" });
    }
    if let Outcome::Values(values) = outcome {
        seen_pluses(plan, &last_reply(events), *framing, values);
    }
    let past = usize::from(plan.seen.contains(&WITH_PLUS));
    for ((_, (length, count)), (_, (length_after, count_after))) in known.iter().zip(learned) {
        if length != length_after {
            plan.seen.extend(["lengths learned", "lengths learned past a plus"].into_iter().take(1 + past));
        }
        if count != count_after {
            plan.seen.extend(["counts learned", "counts learned past a plus"].into_iter().take(1 + past));
        }
    }
}

/// The call of the Rattle session that starts what the Rust's call does.
pub fn started(script: &mut Script, start: &Start) {
    match start {
        Start::Init => script.call(kind::INIT, &[]),
        Start::Command(command) => script.call(kind::COMMAND, command),
        Start::Pid(pid, None) => script.call(kind::QUERY_PID, &[*pid]),
        Start::Pid(pid, Some(count)) => script.call(kind::QUERY_PID, &[*pid, *count]),
        Start::Pids(pids, None) => script.call(kind::QUERY_PIDS, pids),
        Start::Pids(pids, Some(count)) => script.call(kind::QUERY_PIDS_COUNT, &[&[*count], &pids[..]].concat()),
    }
}

/// The answer to what happened last, by what happens next: the bytes that are sent, more that is read, or the end of the call.
fn answer(next: Option<&Event>, sent: u8, end: u8) -> Expected {
    let (code, sent) = match next {
        Some(Event::Wrote(bytes) | Event::WriteFailed(bytes)) => (sent, bytes.clone()),
        Some(Event::Read(_) | Event::Nulls(_)) => (64, Vec::new()),
        None => (end, Vec::new()),
    };
    Expected::Calls { calls: 1, code, count: 0, sent }
}

/// A piece of 00 alone, of which the Rust knows nothing: this code, and nothing changes. Around it the session and the reply so far are shown if they are to be.
fn nulls_alone(plan: &mut Plan, n: usize, bytes: &[u8], code: u8, around: bool) {
    let show = |plan: &mut Plan| {
        plan.script.look(kind::STATE, &[]);
        plan.script.look(kind::REPLY, &[]);
    };
    let mut expected = Expected::Calls { calls: 1, code, count: 0, sent: Vec::new() };
    if around {
        expected = Expected::Untouched { code };
        show(plan);
    }
    plan.script.call(kind::PIECE, bytes);
    if around {
        show(plan);
    }
    plan.expected.push((n, expected));
}

/// A text with another byte in the place of each 00.
fn without_gaps(bytes: &[u8]) -> Vec<u8> {
    bytes.iter().map(|byte| if *byte == 0 { b'x' } else { *byte }).collect()
}

/// Bytes are stored from a place on, which is then past them.
fn append(store: &mut [u8], at: &mut usize, bytes: &[u8]) {
    store[*at..*at + bytes.len()].copy_from_slice(bytes);
    *at += bytes.len();
}

impl ClientCase {
    /// A plan that shows what is known of these PIDs, and, if told so, the session before and after each piece of 00 alone.
    pub fn plan_of(&self, pids: &[u8], around: bool) -> Plan {
        let mut plan = Plan { store: empty_store(), ..Plan::default() };
        let stream = Stream::new(End::Client);
        let mut session = ClientSession::new(stream.clone(), config(self.framing, self.repeat));
        let mut text = String::new();
        let mut before = state(&session, pids, &mut text);
        for (n, Call { start, arrivals, failed_write, host_writes }) in self.calls.iter().enumerate() {
            let queried = matches!(start, Start::Pid(..) | Start::Pids(..));
            let host_writes = *host_writes && queried;
            if queried {
                stream.load_replies(arrivals, *failed_write, session.server_state().framing());
            } else {
                stream.load(arrivals, *failed_write);
            }
            let outcome = call(&mut session, start);
            let events = stream.events();
            let end = match outcome {
                Outcome::Failed => 7,
                Outcome::Initialised | Outcome::Reply(_) => 66,
                Outcome::Values(_) => 67,
            };
            let after = state(&session, pids, &mut text);
            seen(&mut plan, start, &outcome, &events, &before, &after);
            before = after.clone();
            started(&mut plan.script, start);
            plan.expected.push((n, answer(events.first(), 64, end)));
            // How many bytes of the reply the store has.
            let mut got = 0;
            let mut writes = 0;
            for (i, event) in events.iter().enumerate() {
                match event {
                    Event::Wrote(_) => {
                        got = 0;
                        writes += 1;
                        continue;
                    }
                    Event::WriteFailed(_) => plan.script.call(kind::FAILED_WRITE, &[]),
                    Event::Read(Arrival::Piece(bytes)) | Event::Nulls(bytes) if host_writes => {
                        let handed = without_gaps(bytes);
                        append(&mut plan.store, &mut got, &handed);
                        plan.script.call(kind::PIECE, &handed);
                    }
                    Event::Read(Arrival::Piece(bytes)) => {
                        let kept = without_nulls(bytes);
                        plan.seen.extend(repeat_n("bytes of 00 in other pieces", bytes.len() - kept.len()));
                        // The answer to ATZ is not stored.
                        if *start != Start::Init || writes != 1 {
                            append(&mut plan.store, &mut got, &kept);
                        }
                        plan.script.call(kind::PIECE, bytes);
                    }
                    Event::Nulls(bytes) => {
                        plan.seen.push("pieces of 00 alone");
                        nulls_alone(&mut plan, n, bytes, 64, around);
                        continue;
                    }
                    Event::Read(Arrival::Failed) => plan.script.call(kind::FAILED_READ, &[]),
                    Event::Read(Arrival::Closed) => plan.script.call(kind::PIECE, &[]),
                }
                plan.expected.push((n, answer(events.get(i + 1), 65, end)));
            }
            for bytes in stream.nulls_left() {
                plan.seen.push("pieces of 00 alone out of turn");
                nulls_alone(&mut plan, n, &bytes, 1, around);
            }
            match outcome {
                Outcome::Failed | Outcome::Initialised => {}
                Outcome::Reply(reply) => {
                    plan.script.look(kind::REPLY, &[]);
                    plan.expected.push((n, Expected::Reply(reply)));
                }
                Outcome::Values(values) => {
                    if host_writes {
                        let arrived = last_reply(&events);
                        plan.seen.extend(repeat_n("bytes of 00 in the store", arrived.len() - without_nulls(&arrived).len()));
                        append(&mut plan.store, &mut 0, &arrived);
                        plan.script.look(kind::WRITE, &arrived);
                    }
                    plan.script.call(kind::FINISH, &[]);
                    plan.expected.push((n, Expected::Values { values, framed: session.server_state().framing() }));
                }
            }
            plan.script.look(kind::STATE, pids);
            plan.expected.push((n, after));
        }
        let has_null = |arrival: &Arrival| matches!(arrival, Arrival::Piece(bytes) if bytes.contains(&0));
        if self.calls.iter().any(|call| call.arrivals.iter().any(has_null)) {
            plan.seen.push("sessions with 00");
        }
        plan
    }

    /// What the last query gives.
    pub fn values(&self) -> Values {
        let given = |(_, expected)| if let Expected::Values { values, .. } = expected { Some(values) } else { None };
        self.plan_of(&[], false).expected.into_iter().rev().find_map(given).expect("a query that is answered")
    }

    /// The PIDs that are queried, and those of which something is learned.
    pub fn pids_of_interest(&self) -> Vec<u8> {
        let all: Vec<u8> = (0..=255).collect();
        let mut interest = [false; 256];
        for call in &self.calls {
            match &call.start {
                Start::Pid(pid, _) => interest[usize::from(*pid)] = true,
                Start::Pids(pids, _) => pids.iter().for_each(|pid| interest[usize::from(*pid)] = true),
                Start::Init | Start::Command(_) => {}
            }
        }
        for (_, expected) in &self.plan_of(&all, false).expected {
            if let Expected::Client { known, .. } = expected {
                for (pid, (length, count)) in known {
                    let table = MODE01_PID_DATA_LENGTHS[usize::from(*pid)].map_or(256, usize::from);
                    interest[usize::from(*pid)] |= (*length, *count) != (table, 0);
                }
            }
        }
        all.into_iter().filter(|pid| interest[usize::from(*pid)]).collect()
    }
}

impl Case for ClientCase {
    fn plan(&self) -> Plan {
        self.plan_of(&(0..=255).collect::<Vec<u8>>(), true)
    }

    fn run<'a>(&self, driver: &'a mut Driver, plan: &Plan) -> Log<'a> {
        driver.clear_store();
        driver.client(self.framing, self.repeat, &plan.script, 0, &Script::default())
    }

    fn smaller(&self) -> Vec<Self> {
        let mut cases = Vec::new();
        for calls in shorter(&self.calls) {
            cases.push(ClientCase { calls, ..*self });
        }
        for (n, call) in self.calls.iter().enumerate() {
            let mut with = |call: Call| {
                let mut case = self.clone();
                case.calls[n] = call;
                cases.push(case);
            };
            if call.failed_write.is_some() {
                with(Call { failed_write: None, ..call.clone() });
            }
            if call.host_writes {
                with(Call { host_writes: false, ..call.clone() });
            }
            for arrivals in shorter(&call.arrivals) {
                with(Call { arrivals, ..call.clone() });
            }
            for (k, arrival) in call.arrivals.iter().enumerate() {
                if let Arrival::Piece(bytes) = arrival {
                    for bytes in shorter(bytes).into_iter().filter(|bytes| !bytes.is_empty()) {
                        let mut call = call.clone();
                        call.arrivals[k] = Arrival::Piece(bytes);
                        with(call);
                    }
                }
            }
            match &call.start {
                Start::Command(command) => {
                    for command in shorter(command) {
                        with(Call { start: Start::Command(command), ..call.clone() });
                    }
                }
                Start::Pid(pid, Some(_)) => with(Call { start: Start::Pid(*pid, None), ..call.clone() }),
                Start::Pids(pids, count) => {
                    for pids in shorter(pids).into_iter().filter(|pids| !pids.is_empty()) {
                        with(Call { start: Start::Pids(pids, *count), ..call.clone() });
                    }
                }
                Start::Init | Start::Pid(_, None) => {}
            }
        }
        if self.framing {
            cases.push(ClientCase { framing: false, ..self.clone() });
        }
        if self.repeat {
            cases.push(ClientCase { repeat: false, ..self.clone() });
        }
        cases
    }

    fn show(&self) -> String {
        let mut text = format!("client session, framing {}, repeat {}", self.framing, self.repeat);
        for (n, call) in self.calls.iter().enumerate() {
            let start = match &call.start {
                Start::Init => "init".to_string(),
                Start::Command(command) => format!("command {}", shown(command)),
                Start::Pid(pid, count) => format!("query_pid {pid:02X}, count {count:?}"),
                Start::Pids(pids, count) => format!("query_pids {pids:02X?}, count {count:?}"),
            };
            write!(text, "\n  {n}: {start}").expect("a string takes all");
            if let Some(k) = call.failed_write {
                write!(text, ", write {k} fails").expect("a string takes all");
            }
            if call.host_writes {
                text += ", the host writes the reply to the store";
            }
            for arrival in &call.arrivals {
                match arrival {
                    Arrival::Piece(bytes) => write!(text, "\n     piece {}", shown(bytes)),
                    Arrival::Failed => write!(text, "\n     failed read"),
                    Arrival::Closed => write!(text, "\n     closed"),
                }
                .expect("a string takes all");
            }
        }
        text
    }
}
