//! The part's end of the wire: replies by a script, and the list of what was sent. Each side has its own; a reply goes by
//! what was sent so far, so both sides get the same as long as they send the same.
use crate::source::mix;
use std::rc::Rc;

/// What the memory holds where nothing was written.
#[derive(Clone, Copy, PartialEq, Debug)]
pub enum Memory {
    Mixed,
    Erased,
    /// FF but for one byte of each reply: the last, the first, any.
    LastOdd,
    FirstOdd,
    OneOdd,
}

#[derive(Clone, Copy, PartialEq, Debug)]
pub enum Harm {
    None,
    Fails,
    Short(u32),
    Long(u32),
    Flip(u32, u8),
    Fill(u8),
}

/// What goes wrong with one transaction, counted from 0.
#[derive(Clone, Copy, PartialEq, Debug)]
pub struct Fault {
    pub at: u32,
    pub harm: Harm,
}

pub const NO_FAULT: Fault = Fault { at: u32::MAX, harm: Harm::None };
pub const NEVER: u32 = u32::MAX;

#[derive(Clone)]
pub struct Script {
    pub seed: u64,
    pub memory: Memory,
    /// Page writes do not take.
    pub deaf: bool,
    /// The most busy polls of a wait that ends, or the number of each.
    pub busy: u32,
    pub busy_exact: bool,
    /// A status byte has no bit but the one that tells busy or ready.
    pub calm: bool,
    /// The first wait, from 0, that never ends.
    pub stuck_from: u32,
    /// So many 7F start an ID reply.
    pub id_7f: u32,
    /// Bytes of a read after a write that are changed.
    pub differs: [u32; 2],
    pub faults: [Fault; 2],
    /// The SFDP area from address 0, and a table further off. FF elsewhere.
    pub area: Vec<u8>,
    pub far: Option<(u32, Vec<u8>)>,
}

impl Script {
    pub fn plain(seed: u64) -> Script {
        Script {
            seed,
            memory: Memory::Mixed,
            deaf: false,
            busy: 0,
            busy_exact: false,
            calm: true,
            stuck_from: NEVER,
            id_7f: 0,
            differs: [NEVER; 2],
            faults: [NO_FAULT; 2],
            area: Vec::new(),
            far: None,
        }
    }
}

/// One transaction: where its sent bytes start in the log, reply length asked, delay after it, bytes replied (-1: it failed).
#[derive(Clone, Copy, PartialEq, Debug)]
pub struct Sent {
    pub start: u32,
    pub wanted: u64,
    pub delay: u64,
    pub given: i64,
}

#[derive(Clone, Default)]
pub struct Log {
    pub bytes: Vec<u8>,
    pub list: Vec<Sent>,
    /// The sum of the first bytes of the replies, for the order of inputs alone.
    pub sum: u64,
}

impl Log {
    pub fn same(&self, other: &Log) -> bool {
        self.bytes == other.bytes && self.list == other.list
    }

    pub fn sent(&self, i: usize) -> &[u8] {
        let end = self.list.get(i + 1).map_or(self.bytes.len(), |next| next.start as usize);
        &self.bytes[self.list[i].start as usize..end]
    }

    fn is_status(&self, i: usize) -> bool {
        self.list[i].wanted == 1 && matches!(self.sent(i), [0x05] | [0x70])
    }

    /// The status polls, as docs/SCOPE.md counts them: a 05 right after a read is the one after a mismatch.
    pub fn polls(&self) -> u64 {
        let after_read = |i: usize| i > 0 && self.sent(i - 1)[0] == 0x0B && self.list[i - 1].wanted > 0;
        (0..self.list.len()).filter(|&i| self.is_status(i) && !(self.sent(i) == [0x05] && after_read(i))).count() as u64
    }

    /// The most status reads in a row.
    pub fn longest_wait(&self) -> u64 {
        let mut row = 0;
        let rows = (0..self.list.len()).map(|i| {
            row = if self.is_status(i) { row + 1 } else { 0 };
            row
        });
        rows.max().unwrap_or(0)
    }

    pub fn bytes_replied(&self) -> u64 {
        self.list.iter().map(|sent| sent.given.max(0) as u64).sum()
    }
}

pub enum Given<'r> {
    Reply(&'r [u8]),
    Failed,
    Cut,
}

/// More than any case has; the longest reply asked.
const MOST: usize = 200_000;
const LONGEST: u64 = 1 << 20;
const NOISE: usize = 1 << 16;

pub struct Wire {
    noise: Rc<Vec<u8>>,
    script: Rc<Script>,
    address_bytes: usize,
    limit: u32,
    row: u32,
    waits: u32,
    reply: Vec<u8>,
    pub log: Log,
    writes: Vec<usize>,
    /// The replies, where they are kept for showing.
    pub kept: Option<Vec<Option<Vec<u8>>>>,
}

/// Random bytes, enough for the longest reply from any place.
pub fn noise() -> Rc<Vec<u8>> {
    Rc::new((0..NOISE as u64 + LONGEST + 64).map(|i| mix(i) as u8).collect())
}

impl Wire {
    pub fn new(noise: &Rc<Vec<u8>>) -> Wire {
        Wire {
            noise: noise.clone(),
            script: Rc::new(Script::plain(0)),
            address_bytes: 3,
            limit: 0,
            row: 0,
            waits: 0,
            reply: Vec::new(),
            log: Log::default(),
            writes: Vec::new(),
            kept: None,
        }
    }

    pub fn begin(&mut self, script: &Rc<Script>, address_bytes: u8, limit: u32) {
        self.script = script.clone();
        self.address_bytes = address_bytes as usize;
        self.limit = limit;
        self.row = 0;
        self.waits = 0;
        self.log.bytes.clear();
        self.log.list.clear();
        self.log.sum = 0;
        self.writes.clear();
    }

    pub fn address_bytes(&self) -> usize {
        self.address_bytes
    }

    /// A wait that never ends is cut two polls after the limit.
    fn is_cut(&self, status: bool, wanted: u64) -> bool {
        let endless = status && self.waits > self.script.stuck_from && self.row >= self.limit.saturating_add(2);
        endless || self.log.list.len() >= MOST || wanted > LONGEST
    }

    /// One transaction. The delay is one that follows it unless it fails.
    pub fn send(&mut self, head: &[u8], payload: &[u8], wanted: u64, delay: u64) -> Given<'_> {
        let status = wanted == 1 && payload.is_empty() && matches!(head, [0x05] | [0x70]);
        if status && self.row == 0 {
            self.waits += 1;
        }
        if self.is_cut(status, wanted) {
            return Given::Cut;
        }
        let index = self.log.list.len();
        let start = self.log.bytes.len();
        self.log.bytes.extend_from_slice(head);
        self.log.bytes.extend_from_slice(payload);
        self.make_reply(start, status, wanted as usize, index);
        self.row = if status { self.row + 1 } else { 0 };
        let failed = self.harmed(index);
        let given = if failed { -1 } else { self.reply.len() as i64 };
        self.log.list.push(Sent { start: start as u32, wanted, delay: if failed { 0 } else { delay }, given });
        self.log.sum += self.reply.iter().take(64).map(|&byte| byte as u64).sum::<u64>();
        self.keep(failed);
        if failed {
            return Given::Failed;
        }
        if self.log.bytes[start] == 0x02 && wanted == 0 {
            self.writes.push(index);
        }
        Given::Reply(&self.reply)
    }

    fn keep(&mut self, failed: bool) {
        if let Some(kept) = &mut self.kept {
            kept.push(if failed { None } else { Some(self.reply.clone()) });
        }
    }

    /// A delay that the Rust asks for after a transaction.
    pub fn delay(&mut self, micros: u64) {
        match self.log.list.last_mut() {
            Some(last) => last.delay += micros,
            None => panic!("a delay before any transaction"),
        }
    }

    fn make_reply(&mut self, start: usize, status: bool, wanted: usize, index: usize) {
        let opcode = self.log.bytes[start];
        self.reply.clear();
        if status {
            let byte = self.status(opcode, index);
            self.reply.push(byte);
        } else if wanted > 0 {
            match opcode {
                0x5A => self.area(start, wanted),
                0x9F => self.id(wanted, index),
                _ => self.memory(start, wanted, index),
            }
        }
    }

    fn noise_from(&self, salt: u64) -> usize {
        (mix(self.script.seed ^ salt) % NOISE as u64) as usize
    }

    fn status(&self, opcode: u8, index: usize) -> u8 {
        let stuck = self.waits > self.script.stuck_from;
        let most = self.script.busy as u64;
        let any = mix(self.script.seed.wrapping_add(self.waits as u64)) % (most + 1);
        let busy = stuck || (self.row as u64) < if self.script.busy_exact { most } else { any };
        let byte = if self.script.calm { 0 } else { mix(self.script.seed ^ (index as u64) << 20) as u8 };
        match opcode {
            0x05 => byte & 0xFE | busy as u8,
            _ => byte & 0x7F | ((!busy as u8) << 7),
        }
    }

    fn area(&mut self, start: usize, wanted: usize) {
        let at = &self.log.bytes[start + 1..start + 4];
        let from = (at[0] as usize) << 16 | (at[1] as usize) << 8 | at[2] as usize;
        self.reply.resize(wanted, 0xFF);
        let script = self.script.clone();
        lay(&mut self.reply, from, &script.area, 0);
        if let Some((place, table)) = &script.far {
            lay(&mut self.reply, from, table, *place as usize);
        }
    }

    fn id(&mut self, wanted: usize, index: usize) {
        let from = self.noise_from(index as u64);
        self.reply.extend_from_slice(&self.noise[from..from + wanted]);
        let many = (self.script.id_7f as usize).min(wanted);
        self.reply[..many].fill(0x7F);
    }

    fn address(&self, index_start: usize) -> u64 {
        let end = (index_start + 1 + self.address_bytes).min(self.log.bytes.len());
        self.log.bytes[index_start + 1..end].iter().fold(0, |a, b| a << 8 | *b as u64)
    }

    fn memory(&mut self, start: usize, wanted: usize, index: usize) {
        let address = self.address(start);
        let from = ((address ^ self.script.seed) % NOISE as u64) as usize;
        if self.script.memory == Memory::Mixed {
            self.reply.extend_from_slice(&self.noise[from..from + wanted]);
        } else {
            self.reply.resize(wanted, 0xFF);
            self.one_odd(wanted, index);
        }
        if !self.script.deaf {
            self.written(address as usize);
        }
        if !self.writes.is_empty() {
            for place in self.script.differs {
                if (place as usize) < wanted {
                    self.reply[place as usize] ^= 1 << (self.script.seed & 7);
                }
            }
        }
    }

    fn one_odd(&mut self, wanted: usize, index: usize) {
        let odd = mix(self.script.seed ^ index as u64);
        let place = match self.script.memory {
            Memory::LastOdd => wanted - 1,
            Memory::FirstOdd => 0,
            Memory::OneOdd => (odd >> 8) as usize % wanted,
            Memory::Mixed | Memory::Erased => return,
        };
        self.reply[place] = (odd % 255) as u8;
    }

    /// The bytes that page writes left are laid over the reply, which starts at an address.
    fn written(&mut self, address: usize) {
        for i in 0..self.writes.len() {
            let index = self.writes[i];
            let place = self.address(self.log.list[index].start as usize) as usize;
            let sent = self.log.sent(index);
            let data = sent.get(1 + self.address_bytes..).unwrap_or(&[]);
            lay(&mut self.reply, address, data, place);
        }
    }

    /// The faults of this transaction. Yes: it fails.
    fn harmed(&mut self, index: usize) -> bool {
        let mut failed = false;
        for fault in self.script.clone().faults.iter().filter(|fault| fault.at as usize == index) {
            let length = self.reply.len();
            match fault.harm {
                Harm::None => {}
                Harm::Fails => failed = true,
                Harm::Short(n) => self.reply.truncate(length.saturating_sub(n as usize)),
                Harm::Long(n) => {
                    let from = self.noise_from(index as u64 + 7);
                    self.reply.extend_from_slice(&self.noise[from..from + n as usize]);
                }
                Harm::Flip(place, bits) => {
                    if let Some(byte) = self.reply.get_mut(place as usize) {
                        *byte ^= bits;
                    }
                }
                Harm::Fill(byte) => self.reply.fill(byte),
            }
        }
        failed
    }
}

/// Lays data, whose first byte stands at `place`, over bytes whose first stands at `from`.
fn lay(bytes: &mut [u8], from: usize, data: &[u8], place: usize) {
    let low = from.max(place);
    let high = (from + bytes.len()).min(place + data.len());
    if low < high {
        bytes[low - from..high - from].copy_from_slice(&data[low - place..high - place]);
    }
}
