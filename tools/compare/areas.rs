//! SFDP areas: real tables, tables in order, damaged ones.
use crate::source::Source;

const MX25L25635E: [u32; 9] = [
    0xFFF320E5, 0x0FFFFFFF, 0x6B08EB44, 0xBB043B08, 0xFFFFFFEE, 0xFF00FFFF, 0xFF00FFFF, 0x520F200C, 0xFF00D810,
];
const MX66L1G45G: [u32; 16] = [
    0xFFFB20E5, 0x3FFFFFFF, 0x6B08EB44, 0xBB043B08, 0xFFFFFFFE, 0xFF00FFFF, 0xEB44FFFF, 0x520F200C, 0xFF00D810,
    0x00C549D6, 0xE304DF85, 0x38670344, 0xB030B030, 0x5CD5BDF7, 0xFF299E4A, 0x85F950F0,
];
const N25Q256A: [u32; 9] = [
    0xFFFB20E5, 0x0FFFFFFF, 0x6B27EB29, 0xBB273B08, 0xFFFFFFFF, 0xBB27FFFF, 0xEB29FFFF, 0xD810200C, 0x00000000,
];
const W25Q256: [u32; 9] = [
    0xFFF320E5, 0x0FFFFFFF, 0x6B08EB44, 0xBB423B08, 0xFFFFFFFE, 0x0000FFFF, 0xEB21FFFF, 0x520F200C, 0x0000D810,
];

/// An area: bytes from address 0 on, and a table further off where the pointer goes there.
pub struct Area {
    pub bytes: Vec<u8>,
    pub far: Option<(u32, Vec<u8>)>,
}

/// What an area is made of.
struct Plan {
    dwords: Vec<u32>,
    minor: u8,
    count: u8,
    pointer: u32,
    header: [u8; 8],
    major: u8,
    id: u16,
}

impl Plan {
    fn new(dwords: Vec<u32>, minor: u8) -> Plan {
        let count = dwords.len() as u8;
        Plan { dwords, minor, count, pointer: 16, header: *b"SFDP\x06\x01\x00\xFF", major: 1, id: 0xFF00 }
    }

    fn build(&self) -> Area {
        let table: Vec<u8> = self.dwords.iter().flat_map(|d| d.to_le_bytes().to_vec()).collect();
        let p = self.pointer.to_le_bytes();
        let first = [self.id as u8, self.minor, self.major, self.count, p[0], p[1], p[2], (self.id >> 8) as u8];
        let mut bytes = self.header.to_vec();
        bytes.extend_from_slice(&first);
        if self.pointer > 4096 {
            return Area { bytes, far: Some((self.pointer & 0xFF_FFFF, table)) };
        }
        let place = self.pointer as usize;
        if bytes.len() < place + table.len() {
            bytes.resize(place + table.len(), 0xFF);
        }
        // The header stays whole where the table would lie over it.
        for (i, &byte) in table.iter().enumerate().filter(|(i, _)| place + i >= 16) {
            bytes[place + i] = byte;
        }
        Area { bytes, far: None }
    }
}

fn capacity(bytes: u64) -> u32 {
    if bytes > 0 && bytes < 1 << 28 {
        (8 * bytes - 1) as u32
    } else {
        0x8000_0000 | (bytes.max(1).trailing_zeros() + 3)
    }
}

fn opcode(rnd: &mut Source) -> u32 {
    match rnd.below(4) {
        0 => rnd.between(1, 255) as u32,
        _ => rnd.pick(&[0x20, 0x52, 0xD8, 0x81, 0xDC, 0xFF, 0x01, 0x02]),
    }
}

/// One to four types, some of equal size, in any order and any slot.
fn types(rnd: &mut Source, low: u64, high: u64) -> [u32; 2] {
    let mut pairs = [0u32; 4];
    let many = rnd.between(1, 4);
    for _ in 0..many {
        let exponent = rnd.between(low, high) as u32;
        pairs[rnd.below(4) as usize] = exponent | opcode(rnd) << 8;
    }
    if rnd.chance(8) {
        let (from, to) = (rnd.below(4) as usize, rnd.below(4) as usize);
        pairs[to] = pairs[from] & 0xFF | opcode(rnd) << 8;
    }
    if rnd.chance(5) {
        pairs[rnd.below(4) as usize] = rnd.pick(&[0x00, 0x1F, 0x2000, 0x0100, 0xFF00]);
    }
    [pairs[0] | pairs[1] << 16, pairs[2] | pairs[3] << 16]
}

/// Dwords 10 to 16.
fn later(rnd: &mut Source, page: u32, dwords: &mut Vec<u32>) {
    dwords.push(rnd.dword());
    dwords.push(rnd.dword() & !0xF0 | page << 4);
    dwords.push(rnd.dword());
    dwords.push(rnd.dword());
    dwords.push(rnd.dword());
    dwords.push(rnd.dword());
    let volatility = if rnd.chance(92) { [0, 1, 2, 4, 8, 16][rnd.below(6) as usize] } else { rnd.below(128) as u32 };
    dwords.push(rnd.dword() & !0x7F | volatility);
}

/// A table in order with types of 2^low to 2^high bytes.
fn ordered(rnd: &mut Source, low: u64, high: u64) -> Plan {
    let mut dwords = vec![0; 9];
    dwords[0] = rnd.dword() & !0x0006_FF03 | rnd.pick(&[0, 0, 1, 2, 2, 3]) << 17;
    if rnd.chance(40) {
        dwords[0] |= 1 | rnd.pick(&[0x20, 0x20, 0xFF, 0x00, 0xD7]) << 8;
    }
    let top = 1u64 << rnd.between(8, 33);
    dwords[1] = capacity(rnd.pick(&[256, 1024, 4096, 65_536, 1 << 24, 1 << 20, top, 1000, 200]));
    if rnd.chance(90) {
        let pairs = types(rnd, low, high);
        dwords[7] = pairs[0];
        dwords[8] = pairs[1];
    }
    let extended = rnd.chance(70);
    if extended {
        let page = rnd.pick(&[0, 1, 2, 3, 4, 4, 5, 8, 8, 15]);
        later(rnd, page, &mut dwords);
    }
    while rnd.chance(10) {
        dwords.push(rnd.dword());
    }
    let minor = if extended { rnd.pick(&[5, 5, 6, 6, 7, 8, 255]) } else { rnd.pick(&[0, 0, 0, 1, 4]) };
    Plan::new(dwords, minor)
}

fn real(rnd: &mut Source) -> Plan {
    match rnd.below(4) {
        0 => Plan::new(MX25L25635E.to_vec(), 0),
        1 => Plan::new(MX66L1G45G.to_vec(), 6),
        2 => Plan::new(N25Q256A.to_vec(), 0),
        _ => Plan::new(W25Q256.to_vec(), 0),
    }
}

/// Nine dwords that say the least: 4 KiB or not, a capacity, a type or not.
fn plain(rnd: &mut Source) -> Plan {
    let mut dwords = vec![0; 9];
    dwords[0] = rnd.pick(&[0xFF01, 0xFF01, 0x2001, 0]);
    dwords[1] = capacity(rnd.pick(&[256, 4096, 8192]));
    dwords[7] = rnd.pick(&[0, 0, 0x2001, 0x2004, 0x200C]);
    Plan::new(dwords, 0)
}

/// An area that most likely is accepted: for what comes after it.
pub fn good(rnd: &mut Source, exponents: (u64, u64)) -> Area {
    match rnd.below(20) {
        0..=2 => real(rnd).build(),
        3 => plain(rnd).build(),
        _ => ordered(rnd, exponents.0, exponents.1).build(),
    }
}

/// Nearly all zeros.
fn sparse(rnd: &mut Source) -> Plan {
    let count = rnd.pick(&[9, 9, 9, 16, 16, 10, 15, 8, 17, 1, 0]);
    let mut dwords = vec![0; count];
    for _ in 0..rnd.below(3) {
        if count > 0 {
            let any = rnd.below(count as u64) as usize;
            let place = rnd.pick(&[0, 1, 7, 7, 8, 9, 10, 13, 15, 15, any]) % count;
            dwords[place] = match rnd.below(5) {
                0 => 1 << rnd.below(32),
                1 => 3 << rnd.below(31),
                2 => 0x8000_0000 | rnd.pick(&[0, 3, 31, 32, 35, 36, 63, 64, 65, 255, 0x7FFF_FFFF]),
                3 => rnd.pick(&[0x120, 0x11F, 0x1FF, 0x0101_0201, 0x0201_0101, 0xFF01, 0x0120_0000, 0x0101, 0x2001]),
                _ => rnd.dword(),
            };
        }
    }
    let minor = rnd.pick(&[0, 0, 4, 5, 5, 6, 7, 255]);
    Plan::new(dwords, minor)
}

/// Minors and counts around their limits, far and near pointers, more headers.
fn limits(rnd: &mut Source) -> Plan {
    let mut plan = ordered(rnd, 1, 31);
    if rnd.chance(50) {
        plan.minor = rnd.pick(&[0, 4, 5, 6, 7, 8, 255]);
    }
    if rnd.chance(60) {
        plan.count = rnd.pick(&[0, 1, 8, 9, 10, 15, 16, 17, 20, 64, 255]);
    }
    if rnd.chance(40) {
        plan.pointer = match rnd.below(4) {
            0 => rnd.between(0, 200) as u32,
            1 => rnd.pick(&[0, 8, 12, 16, 24, 0xFF_FFFF, 0xFF_FFC0, 0x80_0000, 0x10000, 0x100]),
            _ => rnd.between(16, 100) as u32,
        };
    }
    if rnd.chance(30) {
        let any = rnd.byte();
        plan.header[6] = rnd.pick(&[1, 2, 3, 7, 127, 254, 255, any]);
    }
    if rnd.chance(20) {
        plan.dwords[1] = 0x8000_0000 | rnd.pick(&[0, 2, 3, 31, 32, 34, 35, 36, 62, 63, 64, 65, 128, 0x7FFF_FFFF]);
    }
    plan
}

/// A header that is wrong somewhere.
fn wrong_header(rnd: &mut Source) -> Plan {
    let mut plan = if rnd.chance(50) { sparse(rnd) } else { ordered(rnd, 1, 16) };
    match rnd.below(5) {
        0 => plan.header[rnd.below(4) as usize] ^= 1 << rnd.below(8),
        1 => plan.header[7] = rnd.pick(&[0, 1, 0x7F, 0xFE, 0xFA]),
        2 => plan.id ^= 1 << rnd.below(16),
        3 => plan.major = rnd.pick(&[0, 2, 3, 0x81, 255]),
        _ => plan.header[4 + rnd.below(3) as usize] = rnd.byte(),
    }
    plan
}

/// A good area with some bits or bytes changed.
fn damaged(rnd: &mut Source) -> Area {
    let mut area = if rnd.chance(40) { real(rnd).build() } else { ordered(rnd, 1, 20).build() };
    let length = area.bytes.len() as u64;
    for _ in 0..rnd.between(1, 3) {
        let (place, any) = (rnd.below(length) as usize, rnd.byte());
        match rnd.below(3) {
            0 => area.bytes[place] = rnd.pick(&[0, 1, 0x7F, 0x80, 0xFE, 0xFF, any]),
            _ => area.bytes[place] ^= 1 << rnd.below(8),
        }
    }
    if rnd.chance(15) {
        area.bytes.truncate(rnd.below(length) as usize);
    }
    area
}

fn garbage(rnd: &mut Source) -> Area {
    let length = rnd.pick(&[0, 8, 16, 52, 80, 128]);
    let mut bytes: Vec<u8> = match rnd.below(3) {
        0 => vec![0xFF; length],
        1 => vec![0; length],
        _ => (0..length).map(|_| rnd.byte()).collect(),
    };
    if rnd.chance(60) && length >= 16 {
        bytes[..8].copy_from_slice(b"SFDP\x06\x01\x00\xFF");
        bytes[8..16].copy_from_slice(&[0, rnd.below(9) as u8, 1, rnd.between(7, 20) as u8, 16, 0, 0, 0xFF]);
    }
    Area { bytes, far: None }
}

/// Any area.
pub fn any(rnd: &mut Source) -> Area {
    match rnd.below(20) {
        0..=4 => ordered(rnd, 1, 12).build(),
        5 => ordered(rnd, 1, 31).build(),
        6 => real(rnd).build(),
        7..=9 => sparse(rnd).build(),
        10..=12 => limits(rnd).build(),
        13..=14 => wrong_header(rnd).build(),
        15..=18 => damaged(rnd),
        _ => garbage(rnd),
    }
}
