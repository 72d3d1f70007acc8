//! The Rattle side: scripts of calls, run by the static library of the crate `driver_c`, and the log that it writes.

extern "C" {
    fn driver_server(
        script: *const u8,
        script_len: usize,
        rounds: usize,
        again: *const u8,
        again_len: usize,
        out: *mut u8,
        out_len: usize,
        log: *mut u8,
        log_len: usize,
    ) -> usize;

    fn driver_client(
        framing: bool,
        repeat: bool,
        script: *const u8,
        script_len: usize,
        rounds: usize,
        again: *const u8,
        again_len: usize,
        store: *mut u8,
        store_len: usize,
        out: *mut u8,
        out_len: usize,
        log: *mut u8,
        log_len: usize,
    ) -> usize;

    fn driver_bench(
        repeat: bool,
        script: *const u8,
        script_len: usize,
        pieces: *const u8,
        pieces_len: usize,
        buffer: *mut u8,
        buffer_len: usize,
        log: *mut u8,
        log_len: usize,
    ) -> usize;
}

/// The kinds of calls on a server session.
pub mod server {
    pub const STATE: u8 = 0;
    pub const BYTE: u8 = 1;
    pub const BYTES: u8 = 2;
    pub const REPLY: u8 = 3;
    /// `answer` with ELM327 v1.5 for ATI, and the argument for AT@1.
    pub const ANSWER_DEVICE: u8 = 4;
    pub const REJECT: u8 = 5;
    /// `answer` with the argument for ATI, and ELM327 for AT@1.
    pub const ANSWER_ATI: u8 = 6;
}

/// The kinds of calls on a client session.
pub mod client {
    pub const STATE: u8 = 0;
    pub const COMMAND: u8 = 1;
    pub const QUERY_PID: u8 = 2;
    pub const QUERY_PIDS: u8 = 3;
    pub const PIECE: u8 = 4;
    pub const FINISH: u8 = 5;
    pub const INIT: u8 = 6;
    pub const QUERY_PIDS_COUNT: u8 = 7;
    pub const FAILED_READ: u8 = 8;
    pub const FAILED_WRITE: u8 = 9;
    pub const REPLY: u8 = 10;
    /// The host writes the argument to the front of the store; the log has no entry of it.
    pub const WRITE: u8 = 11;
}

/// A script of calls. Entries that only look at a session are no calls, and are not counted.
#[derive(Default)]
pub struct Script {
    pub bytes: Vec<u8>,
    pub calls: usize,
}

impl Script {
    fn entry(&mut self, kind: u8, argument: &[u8]) {
        let size = u16::try_from(argument.len()).expect("an argument of less than 65,536 bytes");
        self.bytes.push(kind);
        self.bytes.extend_from_slice(&size.to_le_bytes());
        self.bytes.extend_from_slice(argument);
    }

    pub fn call(&mut self, kind: u8, argument: &[u8]) {
        self.entry(kind, argument);
        self.calls += 1;
    }

    pub fn look(&mut self, kind: u8, argument: &[u8]) {
        self.entry(kind, argument);
    }
}

/// What a call answered: its code (a number of document 01, or 64 and more for a result), a count that belongs to it, and the bytes to send.
#[derive(Debug, PartialEq)]
pub struct Answer<'a> {
    pub code: u8,
    pub count: usize,
    pub sent: &'a [u8],
}

/// A log, read from its start.
#[derive(Clone)]
pub struct Log<'a> {
    left: &'a [u8],
    /// The store of a client session's replies.
    pub store: &'a [u8],
}

impl<'a> Log<'a> {
    pub fn byte(&mut self) -> u8 {
        self.bytes(1)[0]
    }

    pub fn number(&mut self) -> usize {
        let bytes = self.bytes(2);
        usize::from(bytes[0]) + 256 * usize::from(bytes[1])
    }

    pub fn bytes(&mut self, n: usize) -> &'a [u8] {
        let (taken, left) = self.left.split_at(n);
        self.left = left;
        taken
    }

    pub fn text(&mut self) -> &'a [u8] {
        let n = self.number();
        self.bytes(n)
    }

    pub fn answer(&mut self) -> Answer<'a> {
        Answer { code: self.byte(), count: self.number(), sent: self.text() }
    }

    pub fn left(&self) -> &'a [u8] {
        self.left
    }

    pub fn is_read(&self) -> bool {
        self.left.is_empty()
    }
}

/// A store that holds no reply.
pub fn empty_store() -> Vec<u8> {
    vec![0xEE; 4096]
}

/// The buffers that are lent to the sessions. They keep what they held from one session to the next.
pub struct Driver {
    store: Vec<u8>,
    out: Vec<u8>,
    log: Vec<u8>,
}

impl Driver {
    pub fn new() -> Self {
        Driver { store: empty_store(), out: vec![0xEE; 65_536], log: vec![0xEE; 16 << 20] }
    }

    /// The store as it is at first.
    pub fn clear_store(&mut self) {
        self.store = empty_store();
    }

    /// One whose log takes nothing.
    pub fn silent() -> Self {
        Driver { log: Vec::new(), ..Driver::new() }
    }

    /// A script on a new server session, and then another for so many rounds; the log of the last.
    pub fn server(&mut self, script: &Script, rounds: usize, again: &Script) -> Log<'_> {
        let (script, again) = (&script.bytes, &again.bytes);
        // Safety: each pointer comes with the length of its buffer, and the function asks nothing more.
        let end = unsafe {
            driver_server(
                script.as_ptr(),
                script.len(),
                rounds,
                again.as_ptr(),
                again.len(),
                self.out.as_mut_ptr(),
                self.out.len(),
                self.log.as_mut_ptr(),
                self.log.len(),
            )
        };
        Log { left: &self.log[..end], store: &[] }
    }

    /// The same on a client session.
    pub fn client(&mut self, framing: bool, repeat: bool, script: &Script, rounds: usize, again: &Script) -> Log<'_> {
        let (script, again) = (&script.bytes, &again.bytes);
        // Safety: as above.
        let end = unsafe {
            driver_client(
                framing,
                repeat,
                script.as_ptr(),
                script.len(),
                rounds,
                again.as_ptr(),
                again.len(),
                self.store.as_mut_ptr(),
                self.store.len(),
                self.out.as_mut_ptr(),
                self.out.len(),
                self.log.as_mut_ptr(),
                self.log.len(),
            )
        };
        Log { left: &self.log[..end], store: &self.store }
    }

    /// A bench run whose record goes to the first bytes of a buffer: where its log ends. Nothing is looked at.
    pub fn bench_in(&mut self, repeat: bool, script: &[u8], pieces: &[u8], room: usize) -> usize {
        let buffer = &mut self.out[..room];
        // Safety: as above.
        unsafe {
            driver_bench(
                repeat,
                script.as_ptr(),
                script.len(),
                pieces.as_ptr(),
                pieces.len(),
                buffer.as_mut_ptr(),
                buffer.len(),
                self.log.as_mut_ptr(),
                self.log.len(),
            )
        }
    }

    /// A bench run with a record buffer of so many bytes.
    pub fn bench(&mut self, repeat: bool, script: &[u8], pieces: &[u8], room: usize) -> Log<'_> {
        self.out[..room].fill(0xEE);
        let end = self.bench_in(repeat, script, pieces, room);
        let log = Log { left: &self.log[..end], store: &[] };
        let stands = log.clone().answer().sent;
        let buffer = &self.out[..room];
        assert!(buffer.starts_with(stands) && buffer[stands.len()..].iter().all(|byte| *byte == 0xEE), "past its parts the record keeps what it held");
        log
    }
}
