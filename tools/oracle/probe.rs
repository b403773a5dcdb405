//! The oracle's questions. This module sits inside the crate, so it reaches its private items.
//! docs/ORACLE.md describes the questions and the answers.
extern crate std;

use self::std::boxed::Box;
use self::std::format;
use self::std::panic::{catch_unwind, resume_unwind, AssertUnwindSafe};
use self::std::string::{String, ToString};
use self::std::vec::Vec;
use core::time::Duration;

use crate::erase_plan::ErasePlan;
use crate::{Error, Flash, FlashAccess, FlashParams, SFDPAddressBytes, SFDPStatus1Volatility};

type Answer = core::result::Result<String, String>;

/// Answers one question. A panic outside a caught place is answered `panic`.
pub fn answer(line: &str) -> String {
    let words: Vec<&str> = line.split_whitespace().collect();
    match catch_unwind(AssertUnwindSafe(|| ask(&words))) {
        Ok(Ok(text)) => text,
        Ok(Err(why)) => format!("bad question: {}", why),
        Err(_) => "panic".to_string(),
    }
}

fn ask(words: &[&str]) -> Answer {
    match words {
        ["area", area] => ask_area(area),
        ["table", minor, data] => ask_table(minor, data),
        ["range", ab, cap, address, length] => ask_range(ab, cap, address, length),
        ["plan", types, start, length] => ask_plan(types, start, length),
        ["mplan", rest @ ..] => ask_mplan(rest),
        ["run", rest @ ..] => ask_run(rest),
        _ => Err("unknown form".to_string()),
    }
}

// ---------------------------------------------------------------- the access

/// What the access fails with.
pub struct Failed;

impl From<Failed> for Error {
    fn from(_: Failed) -> Error {
        Error::Access
    }
}

/// Thrown when the scripted replies have run out.
struct Stuck;

#[derive(Clone)]
enum Reply {
    Bytes(Vec<u8>),
    Fails,
}

/// The other end of the wire: serves an SFDP area, or the scripted replies one by one.
#[derive(Default)]
struct Wire {
    area: Option<Vec<u8>>,
    replies: Vec<Reply>,
    address_bytes: usize,
    sent: usize,
    trace: String,
}

impl Wire {
    fn note(&mut self, what: &str) {
        if !self.trace.is_empty() {
            self.trace.push(' ');
        }
        self.trace.push_str(what);
    }

    fn transaction(&mut self, head: &[u8], wanted: usize) -> core::result::Result<Vec<u8>, Failed> {
        if let Some(area) = &self.area {
            if head.len() != 5 || head[0] != 0x5A {
                return Err(Failed);
            }
            let at = u32::from_be_bytes([0, head[1], head[2], head[3]]) as usize;
            return Ok((at..at + wanted)
                .map(|i| area.get(i).copied().unwrap_or(0xFF))
                .collect());
        }
        let text = format!("{}/{}", hex(head), wanted);
        self.note(&text);
        self.sent += 1;
        match self.replies.get(self.sent - 1) {
            Some(Reply::Bytes(bytes)) => Ok(bytes.clone()),
            Some(Reply::Fails) => Err(Failed),
            None => resume_unwind(Box::new(Stuck)),
        }
    }
}

impl FlashAccess for Wire {
    type Error = Failed;

    fn write(&mut self, data: &[u8]) -> core::result::Result<(), Failed> {
        self.transaction(data, 0).map(|_| ())
    }

    fn exchange(&mut self, data: &[u8]) -> core::result::Result<Vec<u8>, Failed> {
        // The crate sends a zero byte for each byte that it wants back, so the command says where
        // the sent part ends. 5A's dummy byte is counted as sent; so is that of 0B.
        let head = match data[0] {
            0x0B => 2 + self.address_bytes,
            0x03 => 1 + self.address_bytes,
            0x5A => 5,
            0x02 => data.len(),
            _ => 1,
        };
        let reply = self.transaction(&data[..head], data.len() - head)?;
        let mut full = self::std::vec![0u8; head];
        full.extend(reply);
        Ok(full)
    }

    fn delay(&mut self, duration: Duration) {
        let text = format!("~{}", duration.as_micros());
        if duration.subsec_nanos() % 1000 != 0 {
            panic!("a delay that is no whole number of microseconds");
        }
        self.note(&text);
    }
}

// ---------------------------------------------------------------- reading text

fn number(text: &str) -> core::result::Result<u64, String> {
    let value = match text.strip_prefix("0x") {
        Some(digits) => u64::from_str_radix(digits, 16),
        None => text.parse(),
    };
    value.map_err(|_| format!("not a number: {}", text))
}

fn optional(text: &str) -> core::result::Result<Option<usize>, String> {
    if text == "-" {
        Ok(None)
    } else {
        number(text).map(|n| Some(n as usize))
    }
}

fn address(text: &str) -> core::result::Result<u32, String> {
    let n = number(text)?;
    if n > 0xFFFF_FFFF {
        return Err(format!("not an address: {}", text));
    }
    Ok(n as u32)
}

fn byte(text: &str) -> core::result::Result<u8, String> {
    u8::from_str_radix(text, 16).map_err(|_| format!("not a byte: {}", text))
}

/// `-` for none, `0a0b` as they stand, `ff*256` a pattern so many times.
fn bytes(text: &str) -> core::result::Result<Vec<u8>, String> {
    if text == "-" {
        return Ok(Vec::new());
    }
    let (digits, times) = match text.find('*') {
        Some(i) => (&text[..i], number(&text[i + 1..])? as usize),
        None => (text, 1),
    };
    if digits.len() % 2 != 0 || !digits.is_ascii() {
        return Err(format!("not bytes: {}", text));
    }
    let mut one = Vec::new();
    for i in (0..digits.len()).step_by(2) {
        one.push(byte(&digits[i..i + 2])?);
    }
    Ok(one.repeat(times))
}

fn hex(data: &[u8]) -> String {
    data.iter().map(|b| format!("{:02x}", b)).collect()
}

fn or_dash<T: ToString>(value: Option<T>) -> String {
    value.map(|v| v.to_string()).unwrap_or_else(|| "-".to_string())
}

fn micros(time: Option<Duration>) -> String {
    or_dash(time.map(|t| t.as_micros()))
}

// ---------------------------------------------------------------- showing results

fn show_error(error: Error) -> String {
    match error {
        Error::ReadbackError {
            address,
            wrote,
            read,
        } => format!("err 1 {} {:02x} {:02x}", address, wrote, read),
        Error::InvalidManufacturer => "err 2".to_string(),
        Error::InvalidSFDPHeader => "err 3".to_string(),
        Error::InvalidSFDPParams => "err 4".to_string(),
        Error::InvalidAddress { address } => format!("err 5 {}", address),
        Error::NoResetInstruction => "err 6".to_string(),
        Error::NoEraseInstruction => "err 7".to_string(),
        Error::Access => "err 8".to_string(),
    }
}

fn show_flag(value: Option<bool>) -> String {
    or_dash(value.map(|b| b as u8))
}

fn show_params(p: &FlashParams) -> String {
    let address_bytes = match p.address_bytes {
        SFDPAddressBytes::Three => 0,
        SFDPAddressBytes::ThreeOrFour => 1,
        SFDPAddressBytes::Four => 2,
        SFDPAddressBytes::Reserved => 3,
    };
    let erase: Vec<String> = p
        .erase_insts
        .iter()
        .map(|inst| match inst {
            Some(i) => format!(
                "{:02x}:{}:{}:{}",
                i.opcode,
                i.size,
                micros(i.time_typ),
                micros(i.time_max)
            ),
            None => "-".to_string(),
        })
        .collect();
    let timing = match &p.timing {
        Some(t) => format!(
            "{}:{}:{}:{}:{}:{}:{}:{}",
            t.chip_erase_time_typ.as_micros(),
            t.chip_erase_time_max.as_micros(),
            t.first_byte_prog_time_typ.as_micros(),
            t.first_byte_prog_time_max.as_micros(),
            t.succ_byte_prog_time_typ.as_micros(),
            t.succ_byte_prog_time_max.as_micros(),
            t.page_prog_time_typ.as_micros(),
            t.page_prog_time_max.as_micros()
        ),
        None => "-".to_string(),
    };
    let volatility = p.status_1_vol.map(|v| match v {
        SFDPStatus1Volatility::NonVolatile06 => 0,
        SFDPStatus1Volatility::Volatile06 => 1,
        SFDPStatus1Volatility::Volatile50 => 2,
        SFDPStatus1Volatility::NonVolatile06Volatile50 => 3,
        SFDPStatus1Volatility::Mixed06 => 4,
        SFDPStatus1Volatility::Reserved => 5,
    });
    let sector = match p.sector_erase() {
        Some((size, opcode)) => format!("{:02x}:{}", opcode, size),
        None => "-".to_string(),
    };
    let mut text = format!(
        "major={} minor={} addr={} density={} capacity={}",
        p.version_major,
        p.version_minor,
        address_bytes,
        p.density,
        p.capacity_bytes()
    );
    text += &format!(
        " 4k={} 4kop={:02x} wren={:02x} bpvol={} gran={}",
        p.legacy_4kb_erase_supported as u8,
        p.legacy_4kb_erase_inst,
        p.legacy_volatile_write_en_inst,
        p.legacy_block_protect_volatile as u8,
        p.legacy_byte_write_granularity as u8
    );
    text += &format!(
        " erase={} sector={} timing={} ppage={} flag={} status={} f0={} 6699={} vol={}",
        erase.join(","),
        sector,
        timing,
        or_dash(p.page_size),
        show_flag(p.busy_poll_flag),
        show_flag(p.busy_poll_status),
        show_flag(p.reset_inst_f0),
        show_flag(p.reset_inst_66_99),
        or_dash(volatility)
    );
    text
}

fn show_settings(flash: &Flash<Wire>) -> String {
    format!(
        "ab={} cap={} page={} esize={} eop={:02x}",
        flash.address_bytes,
        or_dash(flash.capacity),
        or_dash(flash.page_size),
        or_dash(flash.erase_size),
        flash.erase_opcode
    )
}

fn show_plan(plan: &ErasePlan) -> String {
    if plan.0.is_empty() {
        return "ok -".to_string();
    }
    let entries: Vec<String> = plan
        .0
        .iter()
        .map(|(opcode, size, base, time)| {
            format!("{:02x}:{}:{}:{}", opcode, size, base, micros(*time))
        })
        .collect();
    format!("ok {}", entries.join(","))
}

// ---------------------------------------------------------------- SFDP

/// Runs `read_params` over the area. `Ok` holds the outcome's text, `ok` with the fields.
fn read_area(flash: &mut Flash<Wire>, area: Vec<u8>) -> String {
    flash.access.area = Some(area);
    let outcome = catch_unwind(AssertUnwindSafe(|| flash.read_params()));
    flash.access.area = None;
    match outcome {
        Ok(Ok(Some(params))) => format!("ok {}", show_params(&params)),
        Ok(Ok(None)) => "none".to_string(),
        Ok(Err(error)) => show_error(error),
        Err(_) => "panic".to_string(),
    }
}

fn ask_area(area: &str) -> Answer {
    let mut wire = Wire::default();
    let mut flash = Flash::new(&mut wire);
    let text = read_area(&mut flash, bytes(area)?);
    if text.starts_with("ok") {
        Ok(format!("{} {}", text, show_settings(&flash)))
    } else {
        Ok(text)
    }
}

fn ask_table(minor: &str, data: &str) -> Answer {
    let minor = number(minor)?;
    if minor > 255 {
        return Err("minor above 255".to_string());
    }
    match FlashParams::from_bytes(1, minor as u8, &bytes(data)?) {
        Ok(params) => Ok(format!("ok {}", show_params(&params))),
        Err(error) => Ok(show_error(error)),
    }
}

// ---------------------------------------------------------------- ranges and plans

fn ask_range(ab: &str, cap: &str, at: &str, length: &str) -> Answer {
    let mut wire = Wire::default();
    let mut flash = Flash::new(&mut wire);
    flash.set_address_bytes(number(ab)? as u8);
    flash.capacity = optional(cap)?;
    match flash.check_address_length(address(at)?, number(length)? as usize) {
        Ok(()) => Ok("ok".to_string()),
        Err(Error::InvalidAddress { address }) => Ok(format!("bad {}", address)),
        Err(error) => Ok(show_error(error)),
    }
}

fn ask_plan(types: &str, start: &str, length: &str) -> Answer {
    let mut list = Vec::new();
    for text in types.split(',') {
        let parts: Vec<&str> = text.split(':').collect();
        match parts.as_slice() {
            [size, opcode, time] => list.push((
                number(size)? as usize,
                byte(opcode)?,
                match *time {
                    "-" => None,
                    t => Some(Duration::from_micros(number(t)?)),
                },
            )),
            _ => return Err(format!("not a type: {}", text)),
        }
    }
    let plan = ErasePlan::new(&list, number(start)? as usize, number(length)? as usize);
    Ok(show_plan(&plan))
}

/// Takes the leading `key=value` words, in the order written, and gives back the other words.
fn settings<'w, 'q>(
    flash: &mut Flash<Wire>,
    words: &'w [&'q str],
) -> core::result::Result<&'w [&'q str], String> {
    for (i, word) in words.iter().enumerate() {
        let (key, value) = match word.find('=') {
            Some(at) => (&word[..at], &word[at + 1..]),
            None => return Ok(&words[i..]),
        };
        match key {
            "ab" => flash.set_address_bytes(number(value)? as u8),
            "cap" => flash.capacity = optional(value)?,
            "page" => flash.page_size = optional(value)?,
            "esize" => flash.erase_size = optional(value)?,
            "eop" => flash.set_erase_opcode(byte(value)?),
            "area" => {
                let text = read_area(flash, bytes(value)?);
                if !text.starts_with("ok") {
                    return Err(format!("area gives {}", text));
                }
            }
            _ => return Err(format!("unknown setting {}", key)),
        }
    }
    Ok(&[])
}

fn ask_mplan(words: &[&str]) -> Answer {
    let mut wire = Wire::default();
    let mut flash = Flash::new(&mut wire);
    match settings(&mut flash, words)? {
        [at, length] => match flash.make_erase_plan(address(at)?, number(length)? as usize) {
            Ok(plan) => Ok(show_plan(&plan)),
            Err(error) => Ok(show_error(error)),
        },
        _ => Err("mplan takes settings, address and length".to_string()),
    }
}

// ---------------------------------------------------------------- commands

/// One scripted reply: `!` fails, `3@X` is X three times, else bytes.
fn replies(words: &[&str]) -> core::result::Result<Vec<Reply>, String> {
    let mut list = Vec::new();
    for word in words {
        let (times, one) = match word.find('@') {
            Some(i) => (number(&word[..i])? as usize, &word[i + 1..]),
            None => (1, *word),
        };
        let reply = if one == "!" {
            Reply::Fails
        } else {
            Reply::Bytes(bytes(one)?)
        };
        for _ in 0..times {
            list.push(reply.clone());
        }
    }
    Ok(list)
}

fn ask_run(words: &[&str]) -> Answer {
    let mut wire = Wire::default();
    let mut flash = Flash::new(&mut wire);
    let rest = settings(&mut flash, words)?;
    let colon = rest
        .iter()
        .position(|w| *w == ":")
        .ok_or("no colon before the replies")?;
    let command = &rest[..colon];
    flash.access.replies = replies(&rest[colon + 1..])?;
    flash.access.address_bytes = flash.address_bytes as usize;

    let outcome = catch_unwind(AssertUnwindSafe(|| run(&mut flash, command)));
    let text = match outcome {
        Ok(result) => match result? {
            Ok(text) => text,
            Err(error) => show_error(error),
        },
        Err(thrown) if thrown.is::<Stuck>() => format!("stuck {}", flash.access.sent),
        Err(_) => "panic".to_string(),
    };
    let trace = match flash.access.trace.as_str() {
        "" => "-",
        trace => trace,
    };
    Ok(format!("{} | {} | {}", text, trace, show_settings(&flash)))
}

fn done(_: ()) -> String {
    "ok".to_string()
}

fn yes_no(value: bool) -> String {
    format!("ok {}", if value { "yes" } else { "no" })
}

fn data(value: Vec<u8>) -> String {
    if value.is_empty() {
        "ok -".to_string()
    } else {
        format!("ok {}", hex(&value))
    }
}

/// The outer result tells a bad question, the inner one is the crate's.
fn run(
    flash: &mut Flash<Wire>,
    command: &[&str],
) -> core::result::Result<crate::Result<String>, String> {
    Ok(match command {
        ["read", at, length] => flash
            .read(address(at)?, number(length)? as usize)
            .map(data),
        ["legacy_read", at, length] => flash
            .legacy_read(address(at)?, number(length)? as usize)
            .map(data),
        ["read_params"] => flash.read_params().map(|params| match params {
            Some(params) => format!("ok {}", show_params(&params)),
            None => "none".to_string(),
        }),
        ["erase"] => flash.erase().map(done),
        ["erase_sectors", at, length] => flash
            .erase_sectors(address(at)?, number(length)? as usize)
            .map(done),
        ["program", at, payload, verify] => flash
            .program(address(at)?, &bytes(payload)?, number(verify)? != 0)
            .map(done),
        ["program_data", at, payload] => flash
            .program_data(address(at)?, &bytes(payload)?)
            .map(done),
        ["reset"] => flash.reset().map(done),
        ["read_jedec_id"] => flash
            .read_jedec_id()
            .map(|(bank, maker, device)| format!("ok {} {:02x} {:04x}", bank, maker, device)),
        ["is_busy"] => flash.is_busy().map(yes_no),
        ["is_protected"] => flash.is_protected().map(yes_no),
        _ => return Err("unknown command".to_string()),
    })
}
