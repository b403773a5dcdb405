//! Times the proved functions (the archives of target/staticlib/) against the Rust. docs/BENCH.md says how to read it.
//! The Rust is compiled with the oracle's stub of `log`, whose macros do nothing: no time goes into logging.
//! A further bench: its inputs, a function of an input for each side, and in `main` one line `agree` and one `compare`.
use spi_flash::{FlashParams, SFDPAddressBytes, SFDPEraseInst, SFDPStatus1Volatility, SFDPTiming};
use std::convert::TryInto;
use std::hint::black_box;
use std::time::{Duration, Instant};

#[link(name = "bench", kind = "static")]
extern "C" {
    fn mg_bench_sfdp_shared(minor: u8, plen: u8, data: *const u8, len: usize) -> u64;
    fn mg_bench_sfdp(minor: u8, plen: u8, data: *const u8, len: usize) -> u64;
    fn mg_bench_plan(small: u32, middle: u32, large: u32, last: u32) -> u64;
}

#[link(name = "bench_steps", kind = "static")]
extern "C" {
    fn mg_bench_program(address: u32, data: *const u8, len: usize, work: *mut u8, room: usize) -> u64;
}

#[link(name = "bench_parts", kind = "static")]
extern "C" {
    fn mg_bench_blank(bytes: *const u8, len: usize, n: u64) -> u64;
    fn mg_bench_pack(session: *const u8, len: usize, out: *mut u8, room: usize, turns: u32);
    fn mg_bench_unpack(session: *const u8, len: usize) -> u64;
}

#[link(name = "moss_flash", kind = "static")]
extern "C" {
    fn moss_flash_new(session: *mut u8, len: usize) -> u8;
    fn moss_flash_set_erase_size(session: *mut u8, len: usize, n: u64) -> u8;
    fn moss_flash_set_capacity(session: *mut u8, len: usize, n: u64) -> u8;
    fn moss_flash_program(
        session: *mut u8, len: usize, address: u32, data: *const u8, data_len: usize, verify: u8,
        work: *mut u8, work_len: usize, event: *mut u8, event_len: usize,
    ) -> u8;
    fn moss_flash_event(session: *const u8, len: usize, event: *mut u8, event_len: usize) -> u8;
    fn moss_flash_read_params(session: *mut u8, len: usize, room: u64, event: *mut u8, event_len: usize) -> u8;
    fn moss_flash_make_erase_plan(
        session: *const u8, len: usize, address: u32, length: u64,
        entries: *mut u8, entries_len: usize, event: *mut u8, event_len: usize,
    ) -> u8;
    fn moss_flash_step(
        session: *mut u8, len: usize, failed: u8, reply: *const u8, reply_len: usize,
        work: *mut u8, work_len: usize, event: *mut u8, event_len: usize,
    ) -> u8;
}

fn main() {
    let tables = tables();
    let part = [Table::new(6, &MX66L1G45G)];
    // Before anything is timed: both sides give the same values on every input.
    for list in [&tables[..], &part[..]] {
        assert!(list.iter().all(|t| FlashParams::from_bytes(1, t.minor, &t.data).is_ok()));
        agree(list, |t| rust_sfdp(t, micros), ours_sfdp_shared);
        agree(list, |t| rust_sfdp(t, micros).wrapping_add(own_fields(t)), ours_sfdp);
    }
    agree(&PLANS, rust_plan, ours_plan);
    let session = with_params();
    agree(&PLANS, rust_plan, |n| plan_records(&session, n));
    let writes = [Write::new(0x1000, 4096), Write::new(0x2F10, 200), Write::new(0x3000, 16), Write::new(0x3FF0, 16)];
    agree(&writes, rust_program, ours_program);
    agree(&writes, rust_program, packed_program);
    let blanks = [Blank::new(4096, 0xFF), Blank::new(65_536, 0xFF), Blank::new(4096, 0), Blank::new(65_536, 0)];
    agree(&blanks, rust_blank, ours_blank);
    let runs = [Run::new(Write::new(0x1000, 4096))];
    assert!(runs[0].sessions.len() == 51 && runs[0].pack() == runs[0].middle());
    assert!(runs[0].unpack() == 51 && runs[0].events() == 51 * 255);
    println!("{:<35} {:>6}   {}", "name", "ratio", "spread");
    compare("sfdp table, mx66l1g45g", &part, |t| rust_sfdp(t, parts), ours_sfdp);
    compare("sfdp table, a mix", &tables, |t| rust_sfdp(t, parts), ours_sfdp);
    compare("the same part, the Rust's fields", &part, |t| rust_sfdp(t, parts), ours_sfdp_shared);
    compare("the same mix, the Rust's fields", &tables, |t| rust_sfdp(t, parts), ours_sfdp_shared);
    compare("plan of 16 MiB, three types", &PLANS[..1], rust_plan, ours_plan);
    compare("plan of 16 MiB less 1, three types", &PLANS[1..], rust_plan, ours_plan);
    compare("program of a sector, by steps", &writes[..1], rust_program, ours_program);
    compare("program of 200 bytes, by steps", &writes[1..2], rust_program, ours_program);
    compare("program of 16 bytes, FF after them", &writes[2..3], rust_program, ours_program);
    compare("program of 16 bytes, FF before them", &writes[3..], rust_program, ours_program);
    compare("all-FF test, 4,096 bytes", &blanks[..1], rust_blank, ours_blank);
    compare("all-FF test, 65,536 bytes", &blanks[1..2], rust_blank, ours_blank);
    compare("4,096 bytes, the last one 00", &blanks[2..3], rust_blank, ours_blank);
    compare("65,536 bytes, the last one 00", &blanks[3..], rust_blank, ours_blank);
    compare("program of a sector, by 256 bytes", &writes[..1], rust_program, packed_program);
    compare("program of 200 bytes, by 256 bytes", &writes[1..2], rust_program, packed_program);
    compare("plan of 16 MiB, as records for C", &PLANS[..1], rust_plan, |n| plan_records(&session, n));
    println!("to ours by value:");
    compare("sector, by 256 bytes", &writes[..1], ours_program, packed_program);
    compare("200 bytes, by 256 bytes", &writes[1..2], ours_program, packed_program);
    compare("sector, its 51 sessions packed", &runs, |r| ours_program(&r.write), |r| r.pack()[0] as u64);
    compare("sector, its 51 sessions unpacked", &runs, |r| ours_program(&r.write), Run::unpack);
    compare("sector, its 51 events told again", &runs, |r| ours_program(&r.write), Run::events);
}

// ---------------------------------------------------------------- measuring

const ROUNDS: usize = 201;
/// Each side runs so many times in a round, by turns, and its least time counts: the machine may be shared.
const TURNS: usize = 15;
/// How long the Rust runs at a turn, at least.
const TURN: Duration = Duration::from_micros(100);

fn agree<I>(inputs: &[I], rust: impl Fn(&I) -> u64, ours: impl Fn(&I) -> u64) {
    for (i, input) in inputs.iter().enumerate() {
        assert_eq!(rust(input), ours(input), "input {}", i);
    }
}

/// The time of so many passes over the inputs.
fn time<I>(passes: usize, inputs: &[I], f: &impl Fn(&I) -> u64) -> f64 {
    let start = Instant::now();
    for _ in 0..passes {
        for input in inputs {
            black_box(f(black_box(input)));
        }
    }
    start.elapsed().as_secs_f64()
}

/// One round's ratio, ours/Rust.
fn round<I>(passes: usize, inputs: &[I], rust: &impl Fn(&I) -> u64, ours: &impl Fn(&I) -> u64) -> f64 {
    let (mut r, mut o) = (f64::MAX, f64::MAX);
    for _ in 0..TURNS {
        r = r.min(time(passes, inputs, rust));
        o = o.min(time(passes, inputs, ours));
    }
    o / r
}

/// Prints the median of the rounds' ratios, the least and the greatest.
fn compare<I>(name: &str, inputs: &[I], rust: impl Fn(&I) -> u64, ours: impl Fn(&I) -> u64) {
    let mut passes = 1;
    while time(passes, inputs, &rust) < TURN.as_secs_f64() {
        passes *= 2;
    }
    let mut ratios: Vec<f64> = (0..ROUNDS).map(|_| round(passes, inputs, &rust, &ours)).collect();
    ratios.sort_by(|a, b| a.partial_cmp(b).unwrap());
    let (least, greatest) = (ratios[0], ratios[ROUNDS - 1]);
    println!("{:<35} {:>6.2}   {:.2} to {:.2}", name, ratios[ROUNDS / 2], least, greatest);
}

// ---------------------------------------------------------------- a command, transaction by transaction

struct Write {
    address: u32,
    data: Vec<u8>,
}

impl Write {
    fn new(address: u32, length: usize) -> Write {
        Write { address, data: (0..length).map(|i| (i * 7 % 251) as u8).collect() }
    }
}

/// A part of 64 KiB that is all FF and always ready. It folds what is sent as the other side does.
#[derive(Default)]
struct Wire {
    folded: u64,
    polls: u64,
}

struct Failed;

impl From<Failed> for spi_flash::Error {
    fn from(_: Failed) -> spi_flash::Error {
        spi_flash::Error::Access
    }
}

impl spi_flash::FlashAccess for Wire {
    type Error = Failed;

    fn write(&mut self, data: &[u8]) -> Result<(), Failed> {
        self.fold(data, 0);
        Ok(())
    }

    fn exchange(&mut self, data: &[u8]) -> Result<Vec<u8>, Failed> {
        let reply = match data[0] {
            0x05 => 1,
            0x0B => data.len() - 5,
            _ => 0,
        };
        self.fold(&data[..data.len() - reply], reply as u64);
        let mut back = vec![0xFF; data.len()];
        if data[0] == 0x05 {
            self.polls += 1;
            back[1] = 0;
        }
        Ok(back)
    }
}

impl Wire {
    fn fold(&mut self, sent: &[u8], reply: u64) {
        let address = if sent.len() < 4 { 0 } else { u32::from_be_bytes([0, sent[1], sent[2], sent[3]]) };
        let part = if sent[0] == 0x02 { &sent[4..] } else { &[] };
        let ends = match part {
            [] => 0,
            _ => part[0] as u64 + 2 * part[part.len() - 1] as u64,
        };
        let tail = then(reply, part.len() as u64 + ends);
        self.folded = self.folded.wrapping_add(then(sent[0] as u64, then(address as u64, tail)));
    }
}

fn rust_program(w: &Write) -> u64 {
    let mut wire = Wire::default();
    let mut flash = spi_flash::Flash::new(&mut wire);
    flash.set_erase_size(4096);
    flash.set_capacity(65_536);
    assert!(flash.program(w.address, &w.data, false).is_ok());
    wire.folded.wrapping_add(wire.polls)
}

/// The working buffer is the caller's, and lives on.
static mut WORK: [u8; 4096] = [0; 4096];

fn ours_program(w: &Write) -> u64 {
    unsafe { mg_bench_program(w.address, w.data.as_ptr(), w.data.len(), std::ptr::addr_of_mut!(WORK) as *mut u8, 4096) }
}

/// The same by the exports: the session is packed and unpacked at each call.
fn packed_program(w: &Write) -> u64 {
    by_bytes(w, |_| ())
}

/// `each` sees the session's bytes before each step.
fn by_bytes(w: &Write, mut each: impl FnMut(&[u8; 256])) -> u64 {
    let (mut session, mut event) = ([0u8; 256], [0u8; 64]);
    let (s, e) = (session.as_mut_ptr(), event.as_mut_ptr());
    let work = std::ptr::addr_of_mut!(WORK) as *mut u8;
    let erased = [0xFFu8; 4096];
    let ready = [0u8; 1];
    let mut folded = 0u64;
    unsafe {
        assert_eq!(0, moss_flash_new(s, 256) | moss_flash_set_erase_size(s, 256, 4096) | moss_flash_set_capacity(s, 256, 65_536));
        let mut told = moss_flash_program(s, 256, w.address, w.data.as_ptr(), w.data.len(), 0, work, 4096, e, 64);
        while told == 255 {
            let number = |at: usize| u64::from_le_bytes(event[at..at + 8].try_into().unwrap());
            let (reply, from, len) = (number(8) as usize, number(16) as usize, number(24) as usize);
            let address = if event[1] < 4 { 0 } else { u32::from_be_bytes([0, event[3], event[4], event[5]]) };
            let ends = match len {
                0 => 0,
                _ => *work.add(from) as u64 + 2 * *work.add(from + len - 1) as u64,
            };
            let tail = then(reply as u64, len as u64 + ends);
            folded = folded.wrapping_add(then(event[2] as u64, then(address as u64, tail)));
            let bytes = if event[36] == 1 { ready.as_ptr() } else { erased.as_ptr() };
            each(&session);
            told = moss_flash_step(s, 256, 0, bytes, reply, work, 4096, e, 64);
        }
        assert_eq!(0, told);
    }
    folded.wrapping_add(u64::from_le_bytes(event[40..48].try_into().unwrap()))
}

// ---------------------------------------------------------------- a session packed and unpacked

/// A program, and the session's bytes before each of its steps.
struct Run {
    write: Write,
    sessions: Vec<[u8; 256]>,
}

impl Run {
    fn new(write: Write) -> Run {
        let mut sessions = Vec::new();
        by_bytes(&write, |s| sessions.push(*s));
        Run { write, sessions }
    }

    fn middle(&self) -> [u8; 256] {
        self.sessions[self.sessions.len() / 2]
    }

    /// One of them, packed as many times as there are steps.
    fn pack(&self) -> [u8; 256] {
        let (session, mut out) = (self.middle(), [0u8; 256]);
        unsafe { mg_bench_pack(session.as_ptr(), 256, out.as_mut_ptr(), 256, self.sessions.len() as u32) };
        out
    }

    /// The event of each told again: an unpacking and an event record.
    fn events(&self) -> u64 {
        let mut event = [0u8; 64];
        self.sessions.iter().map(|s| unsafe { moss_flash_event(s.as_ptr(), 256, event.as_mut_ptr(), 64) as u64 }).sum()
    }

    /// Each of them unpacked, with the tests: how many are sessions.
    fn unpack(&self) -> u64 {
        self.sessions.iter().map(|s| unsafe { mg_bench_unpack(s.as_ptr(), 256) }).sum()
    }
}

// ---------------------------------------------------------------- the all-FF test

struct Blank(Vec<u8>);

impl Blank {
    /// All FF but for the last byte.
    fn new(length: usize, last: u8) -> Blank {
        let mut bytes = vec![0xFF; length];
        bytes[length - 1] = last;
        Blank(bytes)
    }
}

/// The Rust's test, as `read_erase_postamble` has it.
#[inline(never)]
fn rust_blank(b: &Blank) -> u64 {
    b.0.iter().all(|x| *x == 0xFF) as u64
}

fn ours_blank(b: &Blank) -> u64 {
    unsafe { mg_bench_blank(b.0.as_ptr(), b.0.len(), b.0.len() as u64) }
}

// ---------------------------------------------------------------- plans

/// The length of the range, which starts at 0. The types are 4, 32 and 64 KiB.
const PLANS: [usize; 2] = [16_777_216, 16_777_215];

fn rust_plan(length: &usize) -> u64 {
    let insts = [(65_536, 0xD8, None), (4_096, 0x20, None), (32_768, 0x52, None)];
    spi_flash::probe::plan(&insts, *length, |opcode, size, base| {
        then(opcode as u64, then(size as u64, then(base as u64, 0)))
    })
}

fn ours_plan(length: &usize) -> u64 {
    unsafe { mg_bench_plan(4_096, 32_768, 65_536, (*length - 1) as u32) }
}

/// The same by the export, whose session has the three types from a part's table. The times are left out of the fold.
fn plan_records(session: &[u8; 256], length: &usize) -> u64 {
    let (mut entries, mut event) = ([0u8; 4096], [0u8; 64]);
    let (list, e) = (entries.as_mut_ptr(), event.as_mut_ptr());
    assert_eq!(0, unsafe { moss_flash_make_erase_plan(session.as_ptr(), 256, 0, *length as u64, list, 4096, e, 64) });
    let word = |r: &[u8], at: usize| u32::from_le_bytes(r[at..at + 4].try_into().unwrap()) as u64;
    entries.chunks(16).fold(0, |sum, r| sum.wrapping_add(then(r[0] as u64, then(word(r, 4), word(r, 8)))))
}

/// A session that has read the parameters of the mx66l1g45g.
fn with_params() -> [u8; 256] {
    let (mut session, mut event, mut work) = ([0u8; 256], [0u8; 64], [0u8; 2056]);
    let (s, e, w) = (session.as_mut_ptr(), event.as_mut_ptr(), work.as_mut_ptr());
    let mut area = vec![0x53, 0x46, 0x44, 0x50, 6, 1, 0, 0xFF, 0, 6, 1, 16, 16, 0, 0, 0xFF];
    area.extend(MX66L1G45G.iter().flat_map(|d| d.to_le_bytes().to_vec()));
    unsafe {
        assert_eq!(0, moss_flash_new(s, 256));
        let mut told = moss_flash_read_params(s, 256, 2056, e, 64);
        while told == 255 {
            let (from, reply) = (event[5] as usize, event[8] as usize);
            told = moss_flash_step(s, 256, 0, area[from..].as_ptr(), reply, w, 2056, e, 64);
        }
        assert_eq!(0, told);
    }
    session
}

// ---------------------------------------------------------------- SFDP tables: the inputs

struct Table {
    minor: u8,
    plen: u8,
    data: Vec<u8>,
}

impl Table {
    fn new(minor: u8, dwords: &[u32]) -> Table {
        Table {
            minor,
            plen: dwords.len() as u8,
            data: dwords.iter().flat_map(|d| d.to_le_bytes().to_vec()).collect(),
        }
    }
}

const MX25L25635E: [u32; 9] = [
    0xFFF320E5, 0x0FFFFFFF, 0x6B08EB44, 0xBB043B08, 0xFFFFFFEE, 0xFF00FFFF, 0xFF00FFFF, 0x520F200C, 0xFF00D810,
];
const MX66L1G45G: [u32; 16] = [
    0xFFFB20E5, 0x3FFFFFFF, 0x6B08EB44, 0xBB043B08, 0xFFFFFFFE, 0xFF00FFFF, 0xEB44FFFF, 0x520F200C, 0xFF00D810,
    0x00C549D6, 0xE304DF85, 0x38670344, 0xB030B030, 0x5CD5BDF7, 0xFF299E4A, 0x85F950F0,
];
const N25Q256A: [u32; 9] = [
    0xFFFB20E5, 0x0FFFFFFF, 0x6B27EB29, 0xBB273B08, 0xFFFFFFFF, 0xBB27FFFF, 0xEB29FFFF, 0xD810200C, 0x00000000,
];
const W25Q256: [u32; 9] = [
    0xFFF320E5, 0x0FFFFFFF, 0x6B08EB44, 0xBB423B08, 0xFFFFFFFE, 0x0000FFFF, 0xEB21FFFF, 0x520F200C, 0x0000D810,
];

/// splitmix64, the source of the lists of tools/oracle.
struct Source(u64);

impl Source {
    fn below(&mut self, n: u64) -> u32 {
        self.0 = self.0.wrapping_add(0x9E3779B97F4A7C15);
        let z = (self.0 ^ (self.0 >> 30)).wrapping_mul(0xBF58476D1CE4E5B9);
        let z = (z ^ (z >> 27)).wrapping_mul(0x94D049BB133111EB);
        ((z ^ (z >> 31)) % n) as u32
    }

    /// Two erase types: exponents below 32, a third of them absent.
    fn erase_types(&mut self) -> u32 {
        let mut one = || match self.below(3) {
            0 => 0,
            _ => self.below(32) + 256 * self.below(256),
        };
        one() + 65536 * one()
    }
}

/// The four real parts, and tables of 9 to 23 dwords that both sides accept and read alike. (They part where a shift is
/// too far, where minor 5 has fewer than 16 dwords, and where more than one bit says the volatility.)
fn tables() -> Vec<Table> {
    let mut list = vec![
        Table::new(0, &MX25L25635E),
        Table::new(6, &MX66L1G45G),
        Table::new(0, &N25Q256A),
        Table::new(0, &W25Q256),
    ];
    let mut rnd = Source(0xBE9C);
    while list.len() < 256 {
        let count = [9, 16, 16, 16, 20, 23][rnd.below(6) as usize];
        let minor = if count < 16 { rnd.below(5) } else { rnd.below(9) };
        let mut dwords: Vec<u32> = (0..count).map(|_| rnd.below(1 << 32)).collect();
        dwords[1] = match rnd.below(2) {
            0 => dwords[1] & 0x7FFF_FFFF,
            _ => 0x8000_0000 + rnd.below(64),
        };
        dwords[7] = rnd.erase_types();
        dwords[8] = rnd.erase_types();
        if count >= 16 {
            dwords[15] = (dwords[15] & !31) | [0, 1, 2, 4, 8, 16][rnd.below(6) as usize];
        }
        list.push(Table::new(minor as u8, &dwords));
    }
    list
}

// ---------------------------------------------------------------- SFDP tables: ours

fn ours_sfdp(t: &Table) -> u64 {
    unsafe { mg_bench_sfdp(t.minor, t.plen, t.data.as_ptr(), t.data.len()) }
}

fn ours_sfdp_shared(t: &Table) -> u64 {
    unsafe { mg_bench_sfdp_shared(t.minor, t.plen, t.data.as_ptr(), t.data.len()) }
}

// ---------------------------------------------------------------- SFDP tables: the Rust

/// The Rust allocates a Vec for the dwords: that is what its user pays.
fn rust_sfdp(t: &Table, time: impl Fn(Duration) -> u64) -> u64 {
    match FlashParams::from_bytes(1, t.minor, &t.data) {
        Ok(p) => fold_shared(&p, time),
        Err(_) => 4,
    }
}

/// A time as ours gives it. For `agree` alone.
fn micros(d: Duration) -> u64 {
    d.as_micros() as u64
}

/// A time as the Rust gives it: no conversion is timed.
fn parts(d: Duration) -> u64 {
    then(d.as_secs(), d.subsec_nanos() as u64)
}

// The folds of crates/bench, field by field. No two fields have the same weight.

fn sum(parts: &[u64]) -> u64 {
    parts.iter().fold(0, |a, b| a.wrapping_add(*b))
}

fn times(x: u64, n: u64) -> u64 {
    x.wrapping_mul(n)
}

fn then(first: u64, later: u64) -> u64 {
    first.wrapping_add(times(later, 3))
}

fn known(bit: Option<bool>) -> u64 {
    bit.map_or(0, |b| b as u64)
}

fn address_code(a: SFDPAddressBytes) -> u64 {
    match a {
        SFDPAddressBytes::Three => 0,
        SFDPAddressBytes::ThreeOrFour => 1,
        SFDPAddressBytes::Four => 2,
        SFDPAddressBytes::Reserved => 3,
    }
}

fn volatility_code(v: Option<SFDPStatus1Volatility>) -> u64 {
    match v {
        Some(SFDPStatus1Volatility::NonVolatile06) => 0,
        Some(SFDPStatus1Volatility::Volatile06) => 1,
        Some(SFDPStatus1Volatility::Volatile50) => 2,
        Some(SFDPStatus1Volatility::NonVolatile06Volatile50) => 3,
        Some(SFDPStatus1Volatility::Mixed06) => 4,
        Some(SFDPStatus1Volatility::Reserved) | None => 5,
    }
}

fn fold_inst(inst: &Option<SFDPEraseInst>, time: &impl Fn(Duration) -> u64) -> u64 {
    let i = match inst {
        Some(i) => i,
        None => return 0,
    };
    let typ = then(i.time_typ.map_or(0, time), i.time_max.map_or(0, time));
    let timed = then(i.time_typ.is_some() as u64, typ);
    then(i.opcode as u64, then(i.size as u64, timed))
}

fn fold_times(t: &SFDPTiming, time: &impl Fn(Duration) -> u64) -> u64 {
    let page = then(time(t.page_prog_time_typ), time(t.page_prog_time_max));
    let succ = then(time(t.succ_byte_prog_time_typ), then(time(t.succ_byte_prog_time_max), page));
    let first = then(time(t.first_byte_prog_time_typ), then(time(t.first_byte_prog_time_max), succ));
    then(time(t.chip_erase_time_typ), then(time(t.chip_erase_time_max), first))
}

fn fold_legacy(p: &FlashParams) -> u64 {
    let granularity = then(p.legacy_byte_write_granularity as u64, p.density);
    let protect = then(p.legacy_block_protect_volatile as u64, granularity);
    let flags = then(p.legacy_4kb_erase_supported as u64, protect);
    let insts = then(p.legacy_volatile_write_en_inst as u64, flags);
    let addressed = then(address_code(p.address_bytes), then(p.legacy_4kb_erase_inst as u64, insts));
    then(p.version_major as u64, then(p.version_minor as u64, addressed))
}

fn fold_later(p: &FlashParams) -> u64 {
    let page = then(p.timing.is_some() as u64, p.page_size.unwrap_or(0) as u64);
    let codes = then(volatility_code(p.status_1_vol), page);
    let resets = then(known(p.reset_inst_f0), then(known(p.reset_inst_66_99), codes));
    then(known(p.busy_poll_flag), then(known(p.busy_poll_status), resets))
}

fn fold_shared(p: &FlashParams, time: impl Fn(Duration) -> u64) -> u64 {
    let inst = |i: usize| times(fold_inst(&p.erase_insts[i], &time), 5 << i);
    let timing = p.timing.as_ref().map_or(0, |t| fold_times(t, &time));
    let back = sum(&[times(timing, 7), times(fold_later(p), 35)]);
    sum(&[fold_legacy(p), inst(0), inst(1), inst(2), inst(3), back])
}

// ---------------------------------------------------------------- SFDP tables: what only ours reads

/// The fields that the Rust does not have, read from the bytes. For `agree` alone.
fn own_fields(t: &Table) -> u64 {
    if t.minor < 5 || t.plen < 16 {
        return 0;
    }
    let dword = |n: usize| t.data[4 * n - 4..4 * n].iter().rev().fold(0, |d, b| 256 * d + *b as u64);
    let bits = |d: u64, low: u32, width: u32| (d >> low) % (1 << width);
    let (d8, d9, d10, d11, d16) = (dword(8), dword(9), dword(10), dword(11), dword(16));
    let raw = |d: u64, low: u32, at: u32| match bits(d, low, 8) * bits(d, low + 8, 8) {
        0 => 0,
        _ => bits(d10, at, 7),
    };
    let page = then(bits(d11, 24, 7), bits(d11, 8, 6));
    let bytes = then(bits(d11, 14, 5), then(bits(d11, 19, 5), page));
    let multipliers = then(bits(d10, 0, 4), then(bits(d11, 0, 4), bytes));
    let modes = then(bits(d16, 14, 1), then(bits(d16, 24, 1), multipliers));
    let back = then(raw(d9, 0, 18), then(raw(d9, 16, 25), modes));
    times(then(raw(d8, 0, 4), then(raw(d8, 16, 11), back)), 14)
}
