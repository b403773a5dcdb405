//! What a case is, and what comes of it on any side.
use crate::wire::{Log, Script};
use std::rc::Rc;

#[derive(Clone, Copy, PartialEq, Eq, Debug)]
pub enum Kind {
    Read,
    LegacyRead,
    ReadParams,
    Erase,
    EraseSectors,
    Program,
    ProgramData,
    Reset,
    ReadId,
    IsBusy,
    IsProtected,
    Plan,
    Range,
}

pub const KINDS: [(Kind, &str); 13] = [
    (Kind::Read, "read"),
    (Kind::LegacyRead, "legacy_read"),
    (Kind::ReadParams, "read_params"),
    (Kind::Erase, "erase"),
    (Kind::EraseSectors, "erase_sectors"),
    (Kind::Program, "program"),
    (Kind::ProgramData, "program_data"),
    (Kind::Reset, "reset"),
    (Kind::ReadId, "read_jedec_id"),
    (Kind::IsBusy, "is_busy"),
    (Kind::IsProtected, "is_protected"),
    (Kind::Plan, "make_erase_plan"),
    (Kind::Range, "check_address_length"),
];

#[derive(Clone, Copy, PartialEq, Debug)]
pub enum Setter {
    AddressBytes(u8),
    Capacity(u64),
    NoCapacity,
    PageSize(u64),
    EraseSize(u64),
    EraseOpcode(u8),
    PollLimit(u32),
}

impl Setter {
    /// docs/SCOPE.md's limits.
    pub fn is_taken(&self) -> bool {
        match *self {
            Setter::AddressBytes(n) => (1..=4).contains(&n),
            Setter::PageSize(n) => (1..=32_768).contains(&n),
            Setter::EraseSize(n) => (1..=2_147_483_648).contains(&n),
            Setter::PollLimit(n) => (1..=65_535).contains(&n),
            Setter::Capacity(_) | Setter::NoCapacity | Setter::EraseOpcode(_) => true,
        }
    }
}

/// Setters, then one command over one script of replies, from a state that both sides are in.
#[derive(Clone)]
pub struct Case {
    pub setters: Vec<Setter>,
    pub kind: Kind,
    pub address: u32,
    /// Of program and program_data: the data's.
    pub length: u64,
    pub data: Vec<u8>,
    pub verify: bool,
    pub script: Rc<Script>,
}

impl Case {
    /// The setter outside its limits that the Rust has too. It comes last, and there is at most one.
    pub fn bad_setter(&self) -> Option<Setter> {
        let last = self.setters.last().copied()?;
        match last {
            Setter::PollLimit(_) => None,
            _ if last.is_taken() => None,
            _ => Some(last),
        }
    }
}

/// An erase type of the parameters; size 0 where the table has none. Times in µs.
#[derive(Clone, Copy, PartialEq, Default, Debug)]
pub struct Inst {
    pub opcode: u8,
    pub size: u32,
    pub timed: bool,
    pub typical: u64,
    pub most: u64,
}

/// The parameters, as both sides have them. Without dwords 10 to 16 what comes from them is 0, the volatility 5.
#[derive(Clone, Copy, PartialEq, Default, Debug)]
pub struct Params {
    pub major: u8,
    pub minor: u8,
    pub addressing: u8,
    pub density: u64,
    pub small: bool,
    pub small_opcode: u8,
    pub write_enable: u8,
    pub protect_volatile: bool,
    pub granularity: bool,
    pub extended: bool,
    pub flag: bool,
    pub status: bool,
    pub reset_f0: bool,
    pub reset_66: bool,
    pub volatility: u8,
    pub page: u32,
    pub insts: [Inst; 4],
    /// Typical and maximum: chip erase, first byte, later byte, page.
    pub times: [(u64, u64); 4],
}

#[derive(Clone, PartialEq, Debug)]
pub struct Settings {
    pub address_bytes: u8,
    pub capacity: Option<u64>,
    pub page: Option<u64>,
    pub erase_size: Option<u64>,
    pub opcode: u8,
    pub params: Option<Params>,
}

/// The settings and what else a session knows. The Rust has no poll limit.
#[derive(Clone)]
pub struct State {
    pub settings: Settings,
    pub limit: u32,
    /// A header and the table that the parameters came from.
    pub area: Option<Rc<Vec<u8>>>,
}

impl State {
    pub fn fresh() -> State {
        let settings =
            Settings { address_bytes: 3, capacity: None, page: None, erase_size: None, opcode: 0x20, params: None };
        State { settings, limit: 65_535, area: None }
    }

    pub fn set(&mut self, setter: Setter) {
        let s = &mut self.settings;
        match setter {
            Setter::AddressBytes(n) => s.address_bytes = n,
            Setter::Capacity(n) => s.capacity = Some(n),
            Setter::NoCapacity => s.capacity = None,
            Setter::PageSize(n) => s.page = Some(n),
            Setter::EraseSize(n) => s.erase_size = Some(n),
            Setter::EraseOpcode(n) => s.opcode = n,
            Setter::PollLimit(n) => self.limit = n,
        }
    }
}

#[derive(Clone, Copy, PartialEq, Debug)]
pub struct Entry {
    pub opcode: u8,
    pub size: u64,
    pub base: u32,
    pub time: Option<u64>,
}

/// Numbers beside docs/SCOPE.md's answers.
pub const PANIC: u8 = 255;
/// The access was cut off: the Rust polls on.
pub const CUT: u8 = 254;
/// Ours did something that no outcome stands for; the second number says what.
pub const ODD: u8 = 253;

/// What came of a case. `a` and `b` are the answer's numbers as the event record has them.
#[derive(Clone)]
pub struct Outcome {
    pub number: u8,
    pub a: u64,
    pub b: u64,
    pub polls: u64,
    pub read: Vec<u8>,
    pub plan: Vec<Entry>,
    pub log: Log,
    pub settings: Settings,
}

impl Outcome {
    /// The parts in which two outcomes differ, by name. None: they are the same.
    pub fn unlike(&self, other: &Outcome) -> Vec<&'static str> {
        let mut out = Vec::new();
        let parts = [
            (self.number == other.number, "answer"),
            (self.a == other.a && self.b == other.b, "the answer's numbers"),
            (self.log.same(&other.log), "transactions"),
            (self.polls == other.polls, "poll count"),
            (self.read == other.read, "bytes read"),
            (self.plan == other.plan, "plan"),
            (self.settings == other.settings, "settings or parameters"),
        ];
        out.extend(parts.iter().filter(|part| !part.0).map(|part| part.1));
        out
    }

    pub fn same(&self, other: &Outcome) -> bool {
        self.number == other.number
            && self.a == other.a
            && self.b == other.b
            && self.polls == other.polls
            && self.log.same(&other.log)
            && self.read == other.read
            && self.plan == other.plan
            && self.settings == other.settings
    }
}
