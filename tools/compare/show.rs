//! A case in the words of docs/ORACLE.md.
use crate::case::{Case, Kind, Setter, State, KINDS};
use crate::rules::{refused, Rules};
use crate::wire::Wire;
use std::rc::Rc;

pub fn hex(bytes: &[u8]) -> String {
    if bytes.is_empty() {
        return "-".to_string();
    }
    if bytes.len() > 4 && bytes.iter().all(|byte| *byte == bytes[0]) {
        return format!("{:02x}*{}", bytes[0], bytes.len());
    }
    bytes.iter().map(|byte| format!("{:02x}", byte)).collect()
}

/// The state that a fresh session is in once the area of this one was read.
fn after_area(state: &State, noise: &Rc<Vec<u8>>) -> State {
    let area = match &state.area {
        Some(area) => area,
        None => return State::fresh(),
    };
    let mut script = crate::wire::Script::plain(0);
    script.area = area.to_vec();
    let case = Case {
        setters: Vec::new(),
        kind: Kind::ReadParams,
        address: 0,
        length: 0,
        data: Vec::new(),
        verify: false,
        script: Rc::new(script),
    };
    let mut wire = Wire::new(noise);
    let mut rules = Rules::new(State::fresh(), &mut wire, false);
    rules.play(&case);
    rules.state
}

fn given<T: ToString>(name: &str, value: Option<T>) -> String {
    format!("{}={}", name, value.map_or("-".to_string(), |n| n.to_string()))
}

/// The settings before the command: the area, then what was set besides.
fn settings(case: &Case, state: &State, noise: &Rc<Vec<u8>>) -> Vec<String> {
    let base = after_area(state, noise).settings;
    let mut now = state.clone();
    case.setters.iter().filter(|setter| setter.is_taken()).for_each(|&setter| now.set(setter));
    let now = now.settings;
    let mut words = Vec::new();
    words.extend(state.area.iter().map(|area| format!("area={}", hex(area))));
    if now.address_bytes != base.address_bytes {
        words.push(format!("ab={}", now.address_bytes));
    }
    if now.capacity != base.capacity {
        words.push(given("cap", now.capacity));
    }
    if now.page != base.page {
        words.push(given("page", now.page));
    }
    if now.erase_size != base.erase_size {
        words.push(given("esize", now.erase_size));
    }
    if now.opcode != base.opcode {
        words.push(format!("eop={:02x}", now.opcode));
    }
    words.extend(case.bad_setter().map(|setter| match setter {
        Setter::AddressBytes(n) => format!("ab={}", n),
        Setter::PageSize(n) => format!("page={}", n),
        Setter::EraseSize(n) => format!("esize={}", n),
        _ => String::new(),
    }));
    words
}

fn name(kind: Kind) -> &'static str {
    KINDS.iter().find(|entry| entry.0 == kind).map_or("?", |entry| entry.1)
}

fn address(n: u32) -> String {
    if n < 10_000 { n.to_string() } else { format!("{:#x}", n) }
}

fn command(case: &Case) -> String {
    let at = address(case.address);
    match case.kind {
        Kind::Read | Kind::LegacyRead | Kind::EraseSectors => format!("{} {} {}", name(case.kind), at, case.length),
        Kind::Program => format!("program {} {} {}", at, hex(&case.data), case.verify as u8),
        Kind::ProgramData => format!("program_data {} {}", at, hex(&case.data)),
        Kind::Plan => format!("{} {}", at, case.length),
        _ => name(case.kind).to_string(),
    }
}

/// The replies that a run by the rules gets: docs/SCOPE.md's way, or the Rust's.
fn replies(case: &Case, state: &State, noise: &Rc<Vec<u8>>, rust: bool) -> Vec<Option<Vec<u8>>> {
    let mut wire = Wire::new(noise);
    wire.kept = Some(Vec::new());
    Rules::new(state.clone(), &mut wire, rust).play(case);
    wire.kept.unwrap_or_default()
}

fn reply_words(replies: &[Option<Vec<u8>>]) -> Vec<String> {
    let word = |reply: &Option<Vec<u8>>| reply.as_ref().map_or("!".to_string(), |bytes| hex(bytes));
    let mut words: Vec<(u32, String)> = Vec::new();
    for reply in replies {
        let next = word(reply);
        match words.last_mut() {
            Some((times, last)) if *last == next => *times += 1,
            _ => words.push((1, next)),
        }
    }
    words
        .into_iter()
        .flat_map(|(times, text)| match times {
            1..=2 => vec![text; times as usize],
            _ => vec![format!("{}@{}", times, text)],
        })
        .collect()
}

/// The state with every setter applied, one outside its limits too.
fn set(case: &Case, state: &State) -> State {
    let mut now = state.clone();
    case.setters.iter().for_each(|&setter| now.set(setter));
    now
}

fn range(case: &Case, state: &State) -> String {
    let now = set(case, state);
    let capacity = now.settings.capacity.map_or("-".to_string(), |n| n.to_string());
    format!("range {} {} {} {}", now.settings.address_bytes, capacity, address(case.address), case.length)
}

/// The question that puts the case to the Rust.
pub fn question(case: &Case, state: &State, noise: &Rc<Vec<u8>>) -> String {
    let form = match case.kind {
        // `mplan` does not check the range.
        Kind::Plan if case.bad_setter().is_none() && refused(&set(case, state), case.address, case.length) => {
            return range(case, state)
        }
        Kind::Plan => "mplan",
        Kind::Range => return range(case, state),
        _ => "run",
    };
    let mut words = vec![form.to_string()];
    words.extend(settings(case, state, noise));
    words.push(command(case));
    if form == "run" {
        words.push(":".to_string());
        let by_01 = replies(case, state, noise, false);
        let by_rust = replies(case, state, noise, true);
        words.extend(reply_words(if by_01.len() > by_rust.len() { &by_01 } else { &by_rust }));
    }
    words.join(" ")
}
