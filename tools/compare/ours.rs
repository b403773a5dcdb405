//! Our side: the archive for C, driven as include/moss_flash.h says. The parameters are read from the session's bytes by the
//! table at the head of crates/packed/specs/Layout.antt.
use crate::case::{Case, Entry, Inst, Kind, Outcome, Params, Setter, Settings, CUT, ODD};
use crate::wire::{Given, Wire};
use std::convert::TryInto;

#[link(name = "moss_flash", kind = "static")]
extern "C" {
    fn moss_flash_new(session: *mut u8, session_len: usize) -> u8;
    fn moss_flash_set_address_bytes(session: *mut u8, session_len: usize, n: u8) -> u8;
    fn moss_flash_set_page_size(session: *mut u8, session_len: usize, n: u64) -> u8;
    fn moss_flash_set_erase_size(session: *mut u8, session_len: usize, n: u64) -> u8;
    fn moss_flash_set_erase_opcode(session: *mut u8, session_len: usize, opcode: u8) -> u8;
    fn moss_flash_set_poll_limit(session: *mut u8, session_len: usize, n: u32) -> u8;
    fn moss_flash_set_capacity(session: *mut u8, session_len: usize, n: u64) -> u8;
    fn moss_flash_clear_capacity(session: *mut u8, session_len: usize) -> u8;
    fn moss_flash_settings(session: *const u8, session_len: usize, settings: *mut u8, settings_len: usize) -> u8;
    fn moss_flash_read(
        session: *mut u8, session_len: usize, address: u32, length: u64, room: u64, event: *mut u8, event_len: usize,
    ) -> u8;
    fn moss_flash_legacy_read(
        session: *mut u8, session_len: usize, address: u32, length: u64, room: u64, event: *mut u8, event_len: usize,
    ) -> u8;
    fn moss_flash_read_params(session: *mut u8, session_len: usize, room: u64, event: *mut u8, event_len: usize) -> u8;
    fn moss_flash_erase(session: *mut u8, session_len: usize, event: *mut u8, event_len: usize) -> u8;
    fn moss_flash_erase_sectors(
        session: *mut u8, session_len: usize, address: u32, length: u64, event: *mut u8, event_len: usize,
    ) -> u8;
    fn moss_flash_program(
        session: *mut u8, session_len: usize, address: u32, data: *const u8, data_len: usize, verify: u8,
        work: *mut u8, work_len: usize, event: *mut u8, event_len: usize,
    ) -> u8;
    fn moss_flash_program_data(
        session: *mut u8, session_len: usize, address: u32, data: *const u8, data_len: usize,
        work: *mut u8, work_len: usize, event: *mut u8, event_len: usize,
    ) -> u8;
    fn moss_flash_reset(session: *mut u8, session_len: usize, event: *mut u8, event_len: usize) -> u8;
    fn moss_flash_read_jedec_id(session: *mut u8, session_len: usize, event: *mut u8, event_len: usize) -> u8;
    fn moss_flash_is_busy(session: *mut u8, session_len: usize, event: *mut u8, event_len: usize) -> u8;
    fn moss_flash_is_protected(session: *mut u8, session_len: usize, event: *mut u8, event_len: usize) -> u8;
    fn moss_flash_step(
        session: *mut u8, session_len: usize, failed: u8, reply: *const u8, reply_len: usize,
        work: *mut u8, work_len: usize, event: *mut u8, event_len: usize,
    ) -> u8;
    fn moss_flash_make_erase_plan(
        session: *const u8, session_len: usize, address: u32, length: u64,
        entries: *mut u8, entries_len: usize, event: *mut u8, event_len: usize,
    ) -> u8;
}

const SEND: u8 = 255;
/// The most room that is lent.
pub const ROOM: u64 = 1 << 17;
/// These stand after what is lent, and must be there afterwards.
const GUARD: [u8; 32] = [0xA5; 32];

pub struct Ours {
    session: [u8; 256],
    event: [u8; 64],
    work: Vec<u8>,
    pub wire: Wire,
}

fn le32(bytes: &[u8], at: usize) -> u32 {
    u32::from_le_bytes(bytes[at..at + 4].try_into().unwrap())
}

fn le64(bytes: &[u8], at: usize) -> u64 {
    u64::from_le_bytes(bytes[at..at + 8].try_into().unwrap())
}

impl Ours {
    pub fn new(wire: Wire) -> Ours {
        Ours { session: [0; 256], event: [0; 64], work: vec![0; ROOM as usize + GUARD.len()], wire }
    }

    /// A fresh session.
    pub fn renew(&mut self) {
        assert_eq!(0, unsafe { moss_flash_new(self.session.as_mut_ptr(), 256) });
    }

    fn set(&mut self, setter: Setter) -> u8 {
        let s = self.session.as_mut_ptr();
        unsafe {
            match setter {
                Setter::AddressBytes(n) => moss_flash_set_address_bytes(s, 256, n),
                Setter::Capacity(n) => moss_flash_set_capacity(s, 256, n),
                Setter::NoCapacity => moss_flash_clear_capacity(s, 256),
                Setter::PageSize(n) => moss_flash_set_page_size(s, 256, n),
                Setter::EraseSize(n) => moss_flash_set_erase_size(s, 256, n),
                Setter::EraseOpcode(n) => moss_flash_set_erase_opcode(s, 256, n),
                Setter::PollLimit(n) => moss_flash_set_poll_limit(s, 256, n),
            }
        }
    }

    /// The setters, then the command with exactly the room that it needs.
    pub fn play(&mut self, case: &Case, need: u64) -> Outcome {
        for &setter in &case.setters {
            let before = self.session;
            let answer = self.set(setter);
            if answer != if setter.is_taken() { 0 } else { 10 } || (answer != 0 && before != self.session) {
                return self.odd(1);
            }
        }
        let settings = self.settings();
        let limit = self.poll_limit();
        self.wire.begin(&case.script, settings.address_bytes, limit);
        match case.kind {
            Kind::Plan => self.plan(case, settings),
            Kind::Range => self.range(case, settings),
            _ => self.run(case, need as usize),
        }
    }

    /// The loop of host/moss_flash_host.c.
    fn run(&mut self, case: &Case, need: usize) -> Outcome {
        let before = self.session;
        self.work[need..need + GUARD.len()].copy_from_slice(&GUARD);
        let mut told = self.start(case, need);
        if told != SEND && matches!(told, 5 | 6 | 7 | 11 | 13) && before != self.session {
            return self.odd(2);
        }
        let mut polls = 0;
        while told == SEND {
            polls += self.event[36] as u64;
            told = match self.step(need) {
                Some(told) => told,
                None => return self.outcome(CUT, polls, &[]),
            };
        }
        if told != self.event[0] || polls != le64(&self.event, 40) {
            return self.odd(3);
        }
        if self.work[need..need + GUARD.len()] != GUARD {
            return self.odd(4);
        }
        let read = match case.kind {
            Kind::Read | Kind::LegacyRead if told == 0 => self.work[..case.length as usize].to_vec(),
            _ => Vec::new(),
        };
        self.outcome(told, polls, &read)
    }

    fn start(&mut self, case: &Case, need: usize) -> u8 {
        let (s, e, w) = (self.session.as_mut_ptr(), self.event.as_mut_ptr(), self.work.as_mut_ptr());
        let (d, n) = (case.data.as_ptr(), case.data.len());
        // Any byte but 0 is yes.
        let verify = if case.verify { case.script.seed as u8 | 1 } else { 0 };
        let (at, length) = (case.address, case.length);
        unsafe {
            match case.kind {
                Kind::Read => moss_flash_read(s, 256, at, length, need as u64, e, 64),
                Kind::LegacyRead => moss_flash_legacy_read(s, 256, at, length, need as u64, e, 64),
                Kind::ReadParams => moss_flash_read_params(s, 256, need as u64, e, 64),
                Kind::Erase => moss_flash_erase(s, 256, e, 64),
                Kind::EraseSectors => moss_flash_erase_sectors(s, 256, at, length, e, 64),
                Kind::Program => moss_flash_program(s, 256, at, d, n, verify, w, need, e, 64),
                Kind::ProgramData => moss_flash_program_data(s, 256, at, d, n, w, need, e, 64),
                Kind::Reset => moss_flash_reset(s, 256, e, 64),
                Kind::ReadId => moss_flash_read_jedec_id(s, 256, e, 64),
                Kind::IsBusy => moss_flash_is_busy(s, 256, e, 64),
                Kind::IsProtected => moss_flash_is_protected(s, 256, e, 64),
                Kind::Plan | Kind::Range => unreachable!(),
            }
        }
    }

    /// One transaction and its step. None: the wire was cut.
    fn step(&mut self, need: usize) -> Option<u8> {
        let head = self.event[1] as usize;
        let (from, length) = (le64(&self.event, 16) as usize, le64(&self.event, 24) as usize);
        let payload = if length == 0 { &[] } else { &self.work[from..from + length] };
        let delay = le32(&self.event, 32) as u64;
        let given = self.wire.send(&self.event[2..2 + head], payload, le64(&self.event, 8), delay);
        // The reply of a transaction that failed is not looked at.
        let (failed, reply) = match given {
            Given::Reply(reply) => (0, reply),
            Given::Failed => (self.event[32] | 1, &GUARD[..self.event[2] as usize % 4]),
            Given::Cut => return None,
        };
        let (s, e, w) = (self.session.as_mut_ptr(), self.event.as_mut_ptr(), self.work.as_mut_ptr());
        Some(unsafe { moss_flash_step(s, 256, failed, reply.as_ptr(), reply.len(), w, need, e, 64) })
    }

    fn outcome(&mut self, number: u8, polls: u64, read: &[u8]) -> Outcome {
        let answered = number < ODD;
        Outcome {
            number,
            a: if answered { le64(&self.event, 48) } else { 0 },
            b: if answered { le64(&self.event, 56) } else { 0 },
            polls,
            read: read.to_vec(),
            plan: Vec::new(),
            log: std::mem::take(&mut self.wire.log),
            settings: self.settings(),
        }
    }

    /// 1: a setter's answer, or a refused one changed the session. 2: a refused start changed the session. 3: the event record
    /// does not tell the answer, or its poll count is not the number of transactions marked as polls. 4: bytes beyond what was
    /// lent changed. 5: the two ways of asking for a plan, or for a range, do not fit.
    fn odd(&mut self, what: u64) -> Outcome {
        let mut outcome = self.outcome(ODD, 0, &[]);
        outcome.a = what;
        outcome
    }

    /// Asked twice: without slots, which tells how many are needed, and with exactly these.
    fn plan(&mut self, case: &Case, settings: Settings) -> Outcome {
        let before = self.session;
        let first = self.ask_plan(case, 0);
        let need = le64(&self.event, 48) as usize;
        if first != 11 {
            let outcome = self.outcome(first, 0, &[]);
            return if self.session == before { outcome } else { self.odd(5) };
        }
        let end = 16 * need;
        self.work[end..end + GUARD.len()].copy_from_slice(&GUARD);
        self.work[..16].fill(0x5A);
        let short = self.ask_plan(case, end - 1);
        let untouched = self.work[..16] == [0x5A; 16];
        let told = self.ask_plan(case, end);
        let count = le64(&self.event, 48) as usize;
        let stands = self.work[end..end + GUARD.len()] == GUARD && self.session == before;
        if (short, told, count) != (11, 0, need) || !untouched || !stands {
            return self.odd(5);
        }
        let plan = self.work[..end].chunks_exact(16).map(entry_of).collect();
        let log = std::mem::take(&mut self.wire.log);
        Outcome { number: 0, a: 0, b: 0, polls: 0, read: Vec::new(), plan, log, settings }
    }

    fn ask_plan(&mut self, case: &Case, room: usize) -> u8 {
        let (s, e, w) = (self.session.as_ptr(), self.event.as_mut_ptr(), self.work.as_mut_ptr());
        unsafe { moss_flash_make_erase_plan(s, 256, case.address, case.length, w, room, e, 64) }
    }

    /// A read into no room: 11 tells that the range is accepted.
    fn range(&mut self, case: &Case, settings: Settings) -> Outcome {
        let before = self.session;
        let (s, e) = (self.session.as_mut_ptr(), self.event.as_mut_ptr());
        let told = match case.address % 2 {
            0 => unsafe { moss_flash_read(s, 256, case.address, case.length, 0, e, 64) },
            _ => unsafe { moss_flash_legacy_read(s, 256, case.address, case.length, 0, e, 64) },
        };
        if self.session != before || (told == 11 && le64(&self.event, 48) != case.length) {
            return self.odd(5);
        }
        if told == 11 {
            let log = std::mem::take(&mut self.wire.log);
            return Outcome { number: 0, a: 0, b: 0, polls: 0, read: Vec::new(), plan: Vec::new(), log, settings };
        }
        self.outcome(told, 0, &[])
    }

    fn record(&self) -> [u8; 32] {
        let mut record = [0; 32];
        assert_eq!(0, unsafe { moss_flash_settings(self.session.as_ptr(), 256, record.as_mut_ptr(), 32) });
        record
    }

    fn poll_limit(&self) -> u32 {
        le32(&self.record(), 4) & 0xFFFF
    }

    fn settings(&self) -> Settings {
        let record = self.record();
        let unless_0 = |n: u32| if n == 0 { None } else { Some(n as u64) };
        Settings {
            address_bytes: record[0],
            capacity: if record[1] == 1 { Some(le64(&record, 8)) } else { None },
            page: unless_0(le32(&record, 16)),
            erase_size: unless_0(le32(&record, 20)),
            opcode: record[2],
            params: if record[3] == 1 { Some(params_in(&self.session)) } else { None },
        }
    }
}

fn entry_of(record: &[u8]) -> Entry {
    Entry {
        opcode: record[0],
        size: le32(record, 4) as u64,
        base: le32(record, 8),
        time: if record[1] == 1 { Some(le32(record, 12) as u64) } else { None },
    }
}

fn params_in(session: &[u8; 256]) -> Params {
    let at = |word: usize, byte: usize| session[4 * word + byte];
    let yes = |word: usize, byte: usize| at(word, byte) == 1;
    let time = |word: usize| (le32(session, 4 * word) as u64, le64(session, 4 * word + 4));
    let mut out = Params {
        major: at(6, 0),
        minor: at(6, 1),
        addressing: at(6, 2),
        volatility: at(6, 3),
        density: le64(session, 28),
        small: yes(9, 0),
        small_opcode: at(9, 1),
        write_enable: at(9, 2),
        protect_volatile: yes(9, 3),
        granularity: yes(10, 0),
        extended: yes(10, 1),
        flag: yes(10, 2),
        status: yes(10, 3),
        reset_f0: yes(11, 0),
        reset_66: yes(11, 1),
        page: le32(session, 48),
        times: [time(35), time(38), time(41), time(44)],
        ..Params::default()
    };
    for (i, inst) in out.insts.iter_mut().enumerate() {
        let word = 15 + 5 * i;
        let (typical, most) = time(word + 2);
        *inst = Inst { opcode: at(word, 0), size: le32(session, 4 * word + 4), timed: yes(word, 1), typical, most };
    }
    out
}
