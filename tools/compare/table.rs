//! docs/SCOPE.md's reading of the basic parameter table, with the Rust's slips beside it.
use crate::case::{Inst, Params};
use crate::classes::Class;
use crate::rules::{panics, End, Rules, Run};

fn bits(dword: u32, low: u32, width: u32) -> u32 {
    (dword >> low) & ((1 << width) - 1)
}

pub fn read(rules: &mut Rules, minor: u8, data: &[u8]) -> Run<Params> {
    let dwords: Vec<u32> = data.chunks_exact(4).map(|b| u32::from_le_bytes([b[0], b[1], b[2], b[3]])).collect();
    let many = dwords.len();
    if data.len() % 4 != 0 || many < 9 {
        return Err(End(4, 0, 0));
    }
    if minor > 5 && many < 16 && rules.slip(Class::S4) {
        return Err(End(4, 0, 0));
    }
    let mut params = Params { major: 1, minor, volatility: 5, ..Params::default() };
    first_dword(&mut params, dwords[0]);
    params.density = density(rules, dwords[1])?;
    for i in 0..4 {
        let pair = bits(dwords[7 + i / 2], 16 * (i as u32 % 2), 16);
        params.insts[i] = inst(rules, pair)?;
    }
    if minor == 5 && many < 16 && rules.slip(Class::S3) {
        return panics();
    }
    if minor >= 5 && many >= 16 {
        params.extended = true;
        times(&mut params, dwords[9], dwords[10]);
        params.page = 1 << bits(dwords[10], 4, 4);
        params.flag = bits(dwords[13], 3, 1) == 1;
        params.status = bits(dwords[13], 2, 1) == 1;
        params.reset_f0 = bits(dwords[15], 11, 1) == 1;
        params.reset_66 = bits(dwords[15], 12, 1) == 1;
        params.volatility = volatility(rules, bits(dwords[15], 0, 5));
    }
    Ok(params)
}

fn first_dword(params: &mut Params, dword: u32) {
    params.small = bits(dword, 0, 2) == 1;
    params.granularity = bits(dword, 2, 1) == 1;
    params.protect_volatile = bits(dword, 3, 1) == 1;
    params.write_enable = if bits(dword, 4, 1) == 1 { 0x06 } else { 0x50 };
    params.small_opcode = bits(dword, 8, 8) as u8;
    params.addressing = bits(dword, 17, 2) as u8;
}

fn density(rules: &mut Rules, dword: u32) -> Run<u64> {
    let number = bits(dword, 0, 31);
    if bits(dword, 31, 1) == 0 {
        return Ok(number as u64 + 1);
    }
    if number < 64 {
        return Ok(1 << number);
    }
    if rules.slip(Class::S1) {
        return panics();
    }
    Err(End(4, 0, 0))
}

fn inst(rules: &mut Rules, pair: u32) -> Run<Inst> {
    let (exponent, opcode) = (bits(pair, 0, 8), bits(pair, 8, 8) as u8);
    if exponent == 0 || opcode == 0 {
        return Ok(Inst::default());
    }
    if exponent < 32 {
        return Ok(Inst { opcode, size: 1 << exponent, ..Inst::default() });
    }
    if rules.slip(Class::S2) {
        return panics();
    }
    Err(End(4, 0, 0))
}

/// Low bits plus 1, times the unit that the upper bits choose.
fn time(field: u32, width: u32, units: &[u64]) -> u64 {
    (bits(field, 0, width) as u64 + 1) * units[(field >> width) as usize]
}

fn times(params: &mut Params, tenth: u32, eleventh: u32) {
    let erases = 2 * (bits(tenth, 0, 4) as u64 + 1);
    let programs = 2 * (bits(eleventh, 0, 4) as u64 + 1);
    for (i, inst) in params.insts.iter_mut().enumerate().filter(|(_, inst)| inst.size > 0) {
        inst.timed = true;
        inst.typical = time(bits(tenth, 4 + 7 * i as u32, 7), 5, &[1_000, 16_000, 128_000, 1_000_000]);
        inst.most = erases * inst.typical;
    }
    let chip = time(bits(eleventh, 24, 7), 5, &[16_000, 256_000, 4_000_000, 64_000_000]);
    let first = time(bits(eleventh, 14, 5), 4, &[1, 8]);
    let later = time(bits(eleventh, 19, 5), 4, &[1, 8]);
    let page = time(bits(eleventh, 8, 6), 5, &[8, 64]);
    params.times = [(chip, erases * chip), (first, programs * first), (later, programs * later), (page, programs * page)];
}

/// Exactly one of the five bits, else Reserved. The Rust takes the lowest.
fn volatility(rules: &mut Rules, field: u32) -> u8 {
    match field.count_ones() {
        0 => 5,
        1 => field.trailing_zeros() as u8,
        _ if rules.slip(Class::S6) => field.trailing_zeros() as u8,
        _ => 5,
    }
}

/// The smallest type, the lowest opcode on a tie. The Rust takes the first of the table.
pub fn smallest(rules: &mut Rules, params: &Params) -> Option<(u32, u8)> {
    let there = || params.insts.iter().filter(|inst| inst.size > 0);
    let lowest = there().min_by_key(|inst| (inst.size, inst.opcode))?;
    let first = there().min_by_key(|inst| inst.size)?;
    if first.opcode != lowest.opcode && rules.slip(Class::S7) {
        return Some((first.size, first.opcode));
    }
    Some((lowest.size, lowest.opcode))
}
