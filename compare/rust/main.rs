//! The Rust library beside the Rattle one: the same sessions through both.
mod bench;
mod by_hand;
mod client;
mod driver;
mod every;
mod plan;
mod random;
mod rng;
mod run;
mod server;
mod shrink;
mod stored;
mod stream;

use driver::Driver;
use every::Take;
use plan::Tally;
use rng::Rng;
use shrink::Case;
use std::process::exit;
use std::time::Instant;

fn number(words: &[String], name: &str, default: u64) -> u64 {
    let Some(at) = words.iter().position(|word| word == name) else { return default };
    words.get(at + 1).and_then(|word| word.parse().ok()).unwrap_or_else(|| {
        eprintln!("{name} wants a number");
        exit(2)
    })
}

/// Both sides' sessions, compared.
struct Comparison {
    driver: Driver,
    clients: Tally,
    servers: Tally,
    runs: Tally,
    /// What is compared.
    name: String,
}

/// A difference is printed with the smallest case found, and ends the program.
fn compare(case: impl Case, driver: &mut Driver, tally: &mut Tally, name: &str) {
    match case.compare(driver) {
        Ok(more) => tally.add(&more),
        Err(difference) => {
            let (case, difference) = case.shrunk(driver, difference);
            println!("different, in {name}:\n{}\n  {difference}", case.show());
            exit(1);
        }
    }
}

impl every::Take for Comparison {
    fn client(&mut self, case: client::ClientCase) {
        compare(case, &mut self.driver, &mut self.clients, &self.name);
    }

    fn server(&mut self, case: server::ServerCase) {
        compare(case, &mut self.driver, &mut self.servers, &self.name);
    }

    fn run(&mut self, case: run::RunCase) {
        compare(case, &mut self.driver, &mut self.runs, &self.name);
    }
}

impl Comparison {
    fn new() -> Self {
        Comparison { driver: Driver::new(), clients: Tally::default(), servers: Tally::default(), runs: Tally::default(), name: String::new() }
    }

    fn calls(&self) -> usize {
        self.clients.calls + self.servers.calls + self.runs.calls
    }

    /// Prints what was compared.
    fn report(&self, what: &str) {
        for (name, tally) in [("client", &self.clients), ("server", &self.servers), ("bench", &self.runs)] {
            let Tally { sessions, calls, states, queries, values, left_out, .. } = tally;
            if name == "bench" {
                println!("{what}, {name}: {sessions} runs, {calls} calls, {queries} queries whose parts stand, {values} values");
            } else {
                println!("{what}, {name}: {sessions} sessions, {calls} calls, {states} states, {values} values; {left_out} counts left out");
            }
            let seen: Vec<String> = tally.seen.iter().map(|(name, times)| format!("{times} {name}")).collect();
            println!("  {}", seen.join(", "));
        }
    }
}

/// Writes the list of `replay`, and what it prints, to a folder.
fn write_stored(folder: &str) {
    let stored = stored::stored();
    println!("{}{} bytes", stored.printed, stored.list.len());
    std::fs::write(format!("{folder}/stdin"), stored.list).expect("the list is written");
    std::fs::write(format!("{folder}/stdout"), stored.printed).expect("the text is written");
}

fn main() {
    let words: Vec<String> = std::env::args().skip(1).collect();
    if words.iter().any(|word| word == "bench") {
        return bench::bench();
    }
    if let Some(at) = words.iter().position(|word| word == "store") {
        return write_stored(&words[at + 1]);
    }
    let seed = number(&words, "--seed", 1);
    let calls = number(&words, "--calls", 1_000_000) as usize;
    let start = Instant::now();
    let mut total = 0;
    if number(&words, "--every", 1) != 0 {
        let mut every = Comparison::new();
        every.name = "the cases that go through every input".to_string();
        every::every(&mut every);
        every.report("every input");
        total += every.calls();
    }
    let mut random = Comparison::new();
    let mut session = number(&words, "--from", 0);
    while random.calls() < calls {
        random.name = format!("session {session} of seed {seed}");
        random.client(random::client(&mut Rng::new(seed, 2 * session)));
        random.server(random::server(&mut Rng::new(seed, 2 * session + 1)));
        random.run(random::run(&mut Rng::new(!seed, session)));
        session += 1;
    }
    random.report(&format!("seed {seed}"));
    total += random.calls();
    println!("{total} calls in {:.1} s: no difference", start.elapsed().as_secs_f64());
}
