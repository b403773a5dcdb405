//! The counts of a run, and each class's smallest input.
use crate::case::{Case, Kind, Outcome, Setter, State, CUT, KINDS, PANIC};
use crate::classes::{Class, CLASSES};
use crate::limits::Limits;
use crate::wire::{Harm, NEVER};

/// The order of inputs: faults and long waits, bytes (area, data, replies), settings, transactions, numbers, the bytes' sums.
pub type Size = [u64; 9];

#[derive(Clone, Default)]
struct Row {
    count: u64,
    /// The Rust's outcomes, by number.
    rust: Vec<u64>,
    smallest: Option<(Size, String)>,
}

pub struct Tally {
    pub cases: u64,
    pub transactions: u64,
    pub limits: Limits,
    cases_of: [u64; KINDS.len()],
    ours: Vec<u64>,
    rust: Vec<u64>,
    /// Of each command, by the answer: where both agree.
    agreed: Vec<Vec<u64>>,
    classes: Vec<Row>,
}

fn size_of_area(state: &State) -> (u64, u64) {
    state.area.as_ref().map_or((0, 0), |area| (area.len() as u64, area.iter().map(|&byte| byte as u64).sum()))
}

/// The size of an input that ours and the Rust answered so.
pub fn size_of(case: &Case, state: &State, ours: &Outcome, rust: &Outcome) -> Size {
    let (area, sum) = size_of_area(state);
    let mut now = state.clone();
    case.setters.iter().filter(|setter| setter.is_taken()).for_each(|&setter| now.set(setter));
    let s = &now.settings;
    let set = [s.address_bytes != 3, s.capacity.is_some(), s.page.is_some(), s.erase_size.is_some(), s.opcode != 0x20];
    let numbers = [s.capacity, s.page, s.erase_size].iter().flatten().fold(0u64, |a, &b| a.saturating_add(b));
    let bad = match case.bad_setter() {
        Some(Setter::PageSize(n)) | Some(Setter::EraseSize(n)) => n.saturating_add(1),
        Some(Setter::AddressBytes(n)) => n as u64 + 1,
        _ => 0,
    };
    let words = set.iter().filter(|&&yes| yes).count() as u64 + (bad > 0) as u64;
    let replied = ours.log.bytes_replied().max(rust.log.bytes_replied());
    let harms = case.script.faults.iter().filter(|fault| fault.harm != Harm::None).count();
    let waits = case.script.busy > 0 || case.script.stuck_from != NEVER;
    [
        harms as u64 + waits as u64,
        area + case.data.len() as u64 + replied,
        words,
        ours.log.list.len().max(rust.log.list.len()) as u64,
        case.length,
        case.address as u64,
        numbers.saturating_add(s.address_bytes as u64).saturating_add(bad),
        sum + ours.log.sum.max(rust.log.sum) + case.data.iter().map(|&byte| byte as u64).sum::<u64>(),
        now.limit as u64,
    ]
}

impl Tally {
    pub fn new() -> Tally {
        Tally {
            cases: 0,
            transactions: 0,
            limits: Limits::default(),
            cases_of: [0; KINDS.len()],
            ours: vec![0; 256],
            rust: vec![0; 256],
            agreed: vec![vec![0; 256]; KINDS.len()],
            classes: vec![Row { count: 0, rust: vec![0; 256], smallest: None }; CLASSES.len()],
        }
    }

    pub fn count(&mut self, kind: Kind, ours: &Outcome, rust: &Outcome, same: bool) {
        self.cases += 1;
        self.transactions += ours.log.list.len() as u64;
        self.cases_of[kind as usize] += 1;
        self.ours[ours.number as usize] += 1;
        self.rust[rust.number as usize] += 1;
        self.agreed[kind as usize][ours.number as usize] += same as u64;
    }

    /// Yes: the input is smaller than any of its class so far.
    pub fn classed(&mut self, class: Class, rust: &Outcome, size: &Size) -> bool {
        let row = &mut self.classes[class as usize];
        row.count += 1;
        row.rust[rust.number as usize] += 1;
        row.smallest.as_ref().map_or(true, |(least, _)| size < least)
    }

    pub fn smallest(&mut self, class: Class, size: Size, text: String) {
        self.classes[class as usize].smallest = Some((size, text));
    }

    pub fn print(&self) {
        println!("{:<22}{:>12}{:>12}{:>12}", "command", "cases", "agree", "differ");
        for (kind, name) in KINDS.iter() {
            let (cases, agree) = (self.cases_of[*kind as usize], self.agreed[*kind as usize].iter().sum::<u64>());
            println!("{:<22}{:>12}{:>12}{:>12}", name, cases, agree, cases - agree);
        }
        println!();
        println!("{:<22}{:>12}{:>12}{:>12}", "answer", "ours", "the Rust", "both agree");
        for number in (0..=255u8).filter(|&n| self.ours[n as usize] + self.rust[n as usize] > 0) {
            let n = number as usize;
            let agreed: u64 = self.agreed.iter().map(|row| row[n]).sum();
            println!("{:<22}{:>12}{:>12}{:>12}", outcome_name(number), self.ours[n], self.rust[n], agreed);
        }
        println!();
        self.print_agreed();
        println!();
        self.limits.print();
        println!();
        for (class, name, text) in CLASSES.iter() {
            self.print_class(&self.classes[*class as usize], name, text);
        }
    }

    fn print_agreed(&self) {
        const ANSWERS: [usize; 10] = [0, 1, 2, 3, 4, 5, 6, 7, 8, 12];
        let line = |name: &str, cells: Vec<String>| println!("{:<22}{}", name, cells.concat());
        line("agree, by answer", ANSWERS.iter().map(|n| format!("{:>9}", n)).collect());
        for (kind, name) in KINDS.iter() {
            let row = &self.agreed[*kind as usize];
            line(name, ANSWERS.iter().map(|&n| format!("{:>9}", row[n])).collect());
        }
    }

    fn print_class(&self, row: &Row, name: &str, text: &str) {
        println!("{:<4}{:<56}{:>10}", name, text, row.count);
        let told = (0..=255u8).filter(|&n| row.rust[n as usize] > 0);
        let told: Vec<String> = told.map(|n| format!("{} {}", outcome_name(n), row.rust[n as usize])).collect();
        if !told.is_empty() {
            println!("    the Rust: {}", told.join(", "));
        }
        if let Some((_, smallest)) = &row.smallest {
            println!("    smallest: {}", smallest);
        }
    }
}

fn outcome_name(number: u8) -> String {
    const NAMES: [&str; 14] = [
        "Done", "ReadbackError", "InvalidManufacturer", "InvalidSFDPHeader", "InvalidSFDPParams", "InvalidAddress",
        "NoResetInstruction", "NoEraseInstruction", "Access", "Busy", "BadSetting", "NoRoom", "NoSFDP", "BadSession",
    ];
    match number {
        PANIC => "panic".to_string(),
        CUT => "polls on".to_string(),
        n => format!("{} {}", n, NAMES.get(n as usize).unwrap_or(&"odd")),
    }
}

/// For the words of a failure.
pub fn outcome_text(outcome: &Outcome) -> String {
    let mut words = vec![outcome_name(outcome.number), format!("{:#x} {:#x}", outcome.a, outcome.b), "|".to_string()];
    for (i, sent) in outcome.log.list.iter().enumerate().take(40) {
        words.push(format!("{}/{}", crate::show::hex(outcome.log.sent(i)), sent.wanted));
        if sent.delay > 0 {
            words.push(format!("~{}", sent.delay));
        }
    }
    words.push(format!("| {} polls, {} bytes read, {:?}", outcome.polls, outcome.read.len(), outcome.settings));
    words.join(" ")
}

pub fn poll_limit(case: &Case, state: &State) -> u32 {
    let set = case.setters.iter().rev().find_map(|setter| match setter {
        Setter::PollLimit(n) if setter.is_taken() => Some(*n),
        _ => None,
    });
    set.unwrap_or(state.limit)
}
