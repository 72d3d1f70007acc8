//! Times: the same exchanges through both sides, each timed in turn, in one run.
use crate::client::{config, started, Start};
use crate::driver::{client, server, Driver, Script};
use crate::plan::Plan;
use crate::run::{script, Query, RunCase, FULL_ROOM};
use crate::server::{line_list, reply_lines, Line, Own};
use std::hint::black_box;
use std::io::{self, Read, Write};
use std::time::Instant;
use tachtalk_elm327_lib::{ClientSession, Command, Identity, ServerSession};

/// A stream that gives the same pieces over and over, from the first one after each write if told so, and drops what is written.
struct Loop {
    pieces: Vec<Vec<u8>>,
    next: usize,
    from_write: bool,
}

impl Read for Loop {
    #[inline]
    fn read(&mut self, buffer: &mut [u8]) -> io::Result<usize> {
        let piece = &self.pieces[self.next];
        self.next = if self.next + 1 == self.pieces.len() { 0 } else { self.next + 1 };
        buffer[..piece.len()].copy_from_slice(piece);
        Ok(piece.len())
    }
}

impl Write for Loop {
    #[inline]
    fn write(&mut self, bytes: &[u8]) -> io::Result<usize> {
        if self.from_write {
            self.next = 0;
        }
        Ok(black_box(bytes).len())
    }

    fn flush(&mut self) -> io::Result<()> {
        Ok(())
    }
}

/// One thing done by each side so many times.
struct Pair<'a> {
    rust: Box<dyn FnMut(usize) + 'a>,
    rattle: Box<dyn FnMut(usize) + 'a>,
}

/// Nanoseconds for one time, of the best of some runs of either side, one after the other.
fn times(mut pair: Pair) -> (f64, f64) {
    let time = |run: &mut Box<dyn FnMut(usize) + '_>, n: usize| {
        let start = Instant::now();
        run(n);
        start.elapsed().as_secs_f64() * 1e9 / n as f64
    };
    // So many times that a run takes some milliseconds.
    let mut n = 1;
    while time(&mut pair.rust, n) * (n as f64) < 4e6 {
        n *= 2;
    }
    let mut best = (f64::MAX, f64::MAX);
    for _ in 0..15 {
        best.0 = best.0.min(time(&mut pair.rust, n));
        best.1 = best.1.min(time(&mut pair.rattle, n));
    }
    best
}

fn pieces(text: &[u8], size: usize) -> Vec<Vec<u8>> {
    text.chunks(size).map(<[u8]>::to_vec).collect()
}

/// A call of the Rust's client and its reply, in pieces.
fn client_pair(framed: bool, start: Start, reply: &[u8], size: usize) -> Pair<'static> {
    let setup: &[u8] = if framed { b"ATH1" } else { b"ATH0" };
    let parts = pieces(reply, size);
    let stream = Loop { pieces: vec![b"OK\r\r>".to_vec()], next: 0, from_write: true };
    let mut session = ClientSession::new(stream, config(false, false));
    session.command(setup).expect("the stream goes well");
    session.get_mut().pieces = parts.clone();
    let mut script = Script::default();
    script.call(client::COMMAND, setup);
    script.call(client::PIECE, b"OK\r\r>");
    let mut again = Script::default();
    started(&mut again, &start);
    for part in &parts {
        again.call(client::PIECE, part);
    }
    if !matches!(start, Start::Command(_)) {
        again.call(client::FINISH, &[]);
    }
    let mut driver = Driver::silent();
    Pair {
        rust: Box::new(move |n| {
            for _ in 0..n {
                match &start {
                    Start::Command(command) => drop(black_box(session.command(black_box(command)))),
                    Start::Pid(pid, count) => drop(black_box(session.query_pid(black_box(*pid), *count))),
                    Start::Pids(pids, count) => drop(black_box(session.query_pids(black_box(pids), *count))),
                    Start::Init => {}
                }
            }
        }),
        rattle: Box::new(move |n| drop(black_box(driver.client(false, false, &script, n, &again)))),
    }
}

/// A line to the server, in pieces, and its answer: with lines, or by itself where it is an AT command.
fn server_pair(setup: &[&[u8]], line: &[u8], size: usize, by_byte: bool, lines: &[Line]) -> Pair<'static> {
    let (answer, identity) = Own::usual().answer();
    let mut script = Script::default();
    for command in setup {
        script.call(server::BYTES, command);
        script.call(answer, &identity);
    }
    let mut again = Script::default();
    for part in pieces(line, size) {
        if by_byte {
            part.iter().for_each(|byte| again.call(server::BYTE, &[*byte]));
        } else {
            again.call(server::BYTES, &part);
        }
    }
    if line.starts_with(b"AT") {
        again.call(answer, &identity);
    } else {
        again.call(server::REPLY, &line_list(lines));
    }
    let stream = Loop { pieces: setup.iter().map(|command| command.to_vec()).collect(), next: 0, from_write: false };
    let mut session = ServerSession::new(stream, Identity::default());
    let lines = reply_lines(lines);
    let once = move |session: &mut ServerSession<Loop>| match session.next_command() {
        Ok(Command::At(command)) => drop(black_box(command.answer())),
        Ok(Command::Obd(command)) => drop(black_box(command.reply(black_box(&lines)))),
        Err(error) => panic!("{error}"),
    };
    for _ in setup {
        once(&mut session);
    }
    session.get_mut().pieces = pieces(line, size);
    session.get_mut().next = 0;
    let mut driver = Driver::silent();
    Pair {
        rust: Box::new(move |n| (0..n).for_each(|_| once(&mut session))),
        rattle: Box::new(move |n| drop(black_box(driver.server(&script, n, &again)))),
    }
}

/// A whole bench run of so many queries, each answered by so many lines with six PIDs or with 0C alone.
fn run_pair(queries: usize, usual: bool, lines: usize) -> Pair<'static> {
    let six = [0x0C, 0x0D, 0x05, 0x04, 0x33, 0x0F];
    let data = if usual { "410C1AF80D200550041133450F44" } else { "410C1AF8" };
    let data: Vec<u8> = (0..data.len() / 2).map(|i| u8::from_str_radix(&data[2 * i..2 * i + 2], 16).expect("hex")).collect();
    let query = Query {
        pids: if usual { six.to_vec() } else { vec![0x0C] },
        count: None,
        lines: (0..lines).map(|n| (Some(0x7E8 + n as u16 % 8), data.clone())).collect(),
    };
    let case = RunCase { repeat: true, script: script(&vec![query; queries]), pieces: Vec::new(), room: FULL_ROOM };
    let same = case.clone();
    let mut driver = Driver::silent();
    Pair {
        rust: Box::new(move |n| (0..n).for_each(|_| drop(black_box(case.through_the_rust(&mut Plan::default()))))),
        rattle: Box::new(move |n| {
            for _ in 0..n {
                black_box(driver.bench_in(same.repeat, &same.script, &same.pieces, same.room));
            }
        }),
    }
}

/// Lines of so many ECUs, up to so many bytes with the prompt: each line has six PIDs, or 0C alone.
fn reply(framed: bool, usual: bool, ecus: usize, lines: usize, most: usize) -> Vec<u8> {
    let data = if usual { "410C1AF80D200550041133450F44" } else { "410C1AF8" };
    let mut text = Vec::new();
    for n in 0..lines {
        let head = if framed { format!("{:03X}{:02X}", 0x7E8 + n % ecus, data.len() / 2) } else { String::new() };
        let line = format!("{head}{data}\r");
        if most < text.len() + line.len() + 2 {
            break;
        }
        text.extend_from_slice(line.as_bytes());
    }
    text.extend_from_slice(b"\r>");
    text
}

/// Every PID from FF down, each in a line of its own and without data, over and over up to 4,096 bytes with the prompt.
fn falling(framed: bool) -> Vec<u8> {
    let head = if framed { "7E802" } else { "" };
    let line = format!("{head}41FF\r").len();
    let lines = (0..=255).rev().cycle().take((4096 - 2) / line).map(|pid| format!("{head}41{pid:02X}\r"));
    (lines.collect::<String>() + "\r>").into_bytes()
}

fn print(name: &str, (rust, rattle): (f64, f64)) {
    println!("{name:<64} {rust:>10.0} {rattle:>10.0} {:>8.2}", rust / rattle);
}

pub fn bench() {
    println!("{:<64} {:>10} {:>10} {:>8}", "nanoseconds", "Rust", "Rattle", "ratio");
    let six = vec![0x0C, 0x0D, 0x05, 0x04, 0x33, 0x0F];
    let many = usize::MAX;
    for framed in [false, true] {
        let how = if framed { "framed" } else { "unframed" };
        let short = reply(framed, false, 1, 1, many);
        let usual = reply(framed, true, 2, 2, many);
        let full = reply(framed, true, 8, many, 4096);
        let single = reply(framed, false, 8, many, 4096);
        let falling = falling(framed);
        for (name, start, text) in [
            ("short", Start::Pid(0x0C, None), &short),
            ("usual", Start::Pids(six.clone(), None), &usual),
            ("full", Start::Pids(six.clone(), None), &full),
            ("one-PID", Start::Pid(0x0C, None), &single),
            ("falling", Start::Pids(six.clone(), None), &falling),
        ] {
            let query = times(client_pair(framed, start, text, 128));
            let raw = times(client_pair(framed, Start::Command(b"010C".to_vec()), text, 128));
            print(&format!("query, {name} reply ({} bytes), {how}", text.len()), query);
            print("  its finish: less a raw command with that reply", (query.0 - raw.0, query.1 - raw.1));
        }
    }
    for (size, at) in [(64, 64), (64, 1), (1024, 128), (4096, 128)] {
        let mut text = vec![b'4'; size - 1];
        text.push(b'>');
        let raw = times(client_pair(false, Start::Command(b"ATI".to_vec()), &text, at));
        print(&format!("raw command, reply of {size} bytes in {} pieces", size.div_ceil(at)), raw);
    }
    let one: Vec<Line> = vec![(Some(0x7E8), vec![0x41, 0x0C, 0x1A, 0xF8])];
    let lists: Vec<Line> = vec![(Some(0x7E8), (0..=254).collect()); 64];
    let bare: [&[u8]; 4] = [b"ATE0\r", b"ATL0\r", b"ATS0\r", b"ATH1\r"];
    print("server, 010C in one piece, one line, fresh settings", times(server_pair(&[], b"010C\r", 64, false, &one)));
    print("server, 010C in one piece, one line, as after init", times(server_pair(&bare, b"010C\r", 64, false, &one)));
    print("server, 010C in one piece, 64 lines of 255 bytes, fresh settings", times(server_pair(&[], b"010C\r", 64, false, &lists)));
    print("server, 010C in one piece, 64 lines of 255 bytes, as after init", times(server_pair(&bare, b"010C\r", 64, false, &lists)));
    print("server, 010C0D05041133 1 byte by byte (byte), one line", times(server_pair(&[], b"010C0D05041133 1\r", 1, true, &one)));
    print("server, 010C0D05041133 1 byte by byte (bytes), one line", times(server_pair(&[], b"010C0D05041133 1\r", 1, false, &one)));
    print("server, 010C0D05041133 1 in one piece, one line", times(server_pair(&[], b"010C0D05041133 1\r", 64, false, &one)));
    print("server, ATRV in one piece", times(server_pair(&[], b"ATRV\r", 64, false, &[])));
    print("bench run, one query, one line", times(run_pair(1, false, 1)));
    print("bench run, 20 queries, two lines of six PIDs each", times(run_pair(20, true, 2)));
    print("bench run, 10 queries, 64 lines of six PIDs each", times(run_pair(10, true, 64)));
    for framed in [false, true] {
        for size in [64, 128, 256, 512, 1024, 2048, 4096] {
            let text = reply(framed, true, 8, many, size);
            let name = format!("query, {} bytes, {}", text.len(), if framed { "framed" } else { "unframed" });
            print(&name, times(client_pair(framed, Start::Pids(six.clone(), None), &text, 128)));
        }
    }
}
