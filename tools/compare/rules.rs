//! docs/SCOPE.md's commands, straight through. Beside each rule that the Rust breaks stands the class of docs/DIFFERENCES.md and
//! the Rust's way, which is taken if `rust` is set. So a run gives docs/SCOPE.md's outcome, which ours must equal in every case;
//! or docs/SCOPE.md's outcome with the listed slips, which the Rust must equal in every case, and the class of the first
//! slip that was met.
use crate::case::{Case, Entry, Kind, Outcome, Params, Setter, State, CUT, PANIC};
use crate::classes::Class;
use crate::table;
use crate::wire::{Given, Wire};
use std::rc::Rc;

/// An answer: its number and its two numbers.
pub struct End(pub u8, pub u64, pub u64);
pub type Run<T> = Result<T, End>;

pub const DONE: End = End(0, 0, 0);
const PANICS: End = End(PANIC, 0, 0);

/// Size, opcode, typical time.
pub type Type = (u64, u8, Option<u64>);

pub struct Rules<'a> {
    pub state: State,
    wire: &'a mut Wire,
    rust: bool,
    /// For the self-test: a class that is taken off the list.
    pub unlisted: Option<Class>,
    /// The first slip that was met.
    pub class: Option<Class>,
    /// The room that the command needs.
    pub need: u64,
    polls: u64,
    read: Vec<u8>,
    plan: Vec<Entry>,
}

impl<'a> Rules<'a> {
    pub fn new(state: State, wire: &'a mut Wire, rust: bool) -> Rules<'a> {
        Rules {
            state,
            wire,
            rust,
            unlisted: None,
            class: None,
            need: 0,
            polls: 0,
            read: Vec::new(),
            plan: Vec::new(),
        }
    }

    /// Whether the Rust's way is taken, here where it is another.
    pub fn slip(&mut self, class: Class) -> bool {
        let taken = self.rust && self.unlisted != Some(class);
        if taken && self.class.is_none() {
            self.class = Some(class);
        }
        taken
    }

    pub fn play(&mut self, case: &Case) -> Outcome {
        let End(number, a, b) = match self.set(case).and_then(|()| self.command(case)) {
            Ok(()) => DONE,
            Err(end) => end,
        };
        Outcome {
            number,
            a,
            b,
            polls: self.polls,
            read: std::mem::take(&mut self.read),
            plan: std::mem::take(&mut self.plan),
            log: std::mem::take(&mut self.wire.log),
            settings: self.state.settings.clone(),
        }
    }

    /// A setter outside its limits changes nothing. The Rust's address bytes panic, and its other setters take any value.
    fn set(&mut self, case: &Case) -> Run<()> {
        for &setter in &case.setters {
            let slips = !setter.is_taken() && !matches!(setter, Setter::PollLimit(_)) && self.slip(Class::C12);
            if slips && matches!(setter, Setter::AddressBytes(_)) {
                return Err(PANICS);
            }
            if setter.is_taken() || slips {
                self.state.set(setter);
            }
        }
        self.wire.begin(&case.script, self.state.settings.address_bytes, self.state.limit);
        Ok(())
    }

    fn command(&mut self, case: &Case) -> Run<()> {
        match case.kind {
            Kind::Read => self.read(0x0B, case),
            Kind::LegacyRead => self.read(0x03, case),
            Kind::ReadParams => self.read_params(),
            Kind::Erase => self.erase(),
            Kind::EraseSectors => self.erase_sectors(case.address, case.length),
            Kind::Program => self.program(case),
            Kind::ProgramData => self.program_data(case),
            Kind::Reset => self.reset(),
            Kind::ReadId => self.read_id(),
            Kind::IsBusy => self.poll().and_then(|yes| Err(End(0, yes as u64, 0))),
            Kind::IsProtected => self.is_protected(),
            Kind::Plan => self.check(case.address, case.length).and_then(|()| {
                self.plan = self.make_plan(case.address, case.length)?;
                Ok(())
            }),
            Kind::Range => self.check(case.address, case.length),
        }
    }

    // ------------------------------------------------------------ ranges and plans

    pub fn check(&mut self, address: u32, length: u64) -> Run<()> {
        let end = address as u128 + length as u128;
        let reach = 1u128 << (8 * self.state.settings.address_bytes);
        let within = self.state.settings.capacity.map_or(true, |capacity| end <= capacity as u128);
        if end == 0 && self.slip(Class::R2) || end >= 1 << 64 && self.slip(Class::R3) {
            return Err(PANICS);
        }
        let one_more = address == 0 && end == reach + 1 && within && self.slip(Class::R1);
        if length >= 1 && within && (end <= reach || one_more) {
            return Ok(());
        }
        Err(End(5, (end.wrapping_sub(1) as u32) as u64, 0))
    }

    /// The erase types, sorted.
    pub fn types(&mut self) -> Run<Vec<Type>> {
        let settings = &self.state.settings;
        let by_hand: Vec<Type> = settings.erase_size.iter().map(|&size| (size, settings.opcode, None)).collect();
        let types = match settings.params {
            None => by_hand,
            Some(params) => match of_params(&params) {
                types if !types.is_empty() => types,
                _ if !params.small => by_hand,
                _ => {
                    let small = vec![(4096, params.small_opcode, None)];
                    let barred = params.small_opcode == 0xFF && by_hand != small;
                    if barred && !self.slip(Class::P2) {
                        by_hand
                    } else {
                        small
                    }
                }
            },
        };
        match types.is_empty() {
            true => Err(End(7, 0, 0)),
            false => Ok(types),
        }
    }

    fn make_plan(&mut self, address: u32, length: u64) -> Run<Vec<Entry>> {
        let types = self.types()?;
        if types[0].0 == 0 {
            // The Rust took an erase size of 0.
            return Err(PANICS);
        }
        Ok(plan_of(&types, address, length))
    }

    // ------------------------------------------------------------ transactions

    fn ask(&mut self, head: &[u8], payload: &[u8], wanted: u64, delay: u64) -> Run<Vec<u8>> {
        let reply = match self.wire.send(head, payload, wanted, delay) {
            Given::Reply(reply) => reply.to_vec(),
            Given::Failed => return Err(End(8, 0, 0)),
            Given::Cut => return Err(End(CUT, 0, 0)),
        };
        if reply.len() as u64 != wanted && !self.slip(Class::C9) {
            return Err(End(8, 0, 0));
        }
        Ok(reply)
    }

    /// The command byte, the address with the highest byte first, a dummy 00 where there is one.
    fn head(&self, opcode: u8, address: u32, dummy: bool) -> Vec<u8> {
        let mut head = vec![opcode];
        head.extend_from_slice(&address.to_be_bytes()[4 - self.state.settings.address_bytes as usize..]);
        if dummy {
            head.push(0);
        }
        head
    }

    fn fast_read(&mut self, address: u32, length: u64) -> Run<Vec<u8>> {
        let head = self.head(0x0B, address, true);
        self.ask(&head, &[], length, 0)
    }

    fn extended(&self) -> Option<Params> {
        self.state.settings.params.filter(|params| params.extended)
    }

    /// One poll: yes is busy.
    fn poll(&mut self) -> Run<bool> {
        let flag = self.extended().map_or(false, |params| params.flag);
        self.polls += 1;
        let reply = match self.ask(&[if flag { 0x70 } else { 0x05 }], &[], 1, 0) {
            Err(End(CUT, a, b)) => {
                self.polls -= 1;
                return Err(End(CUT, a, b));
            }
            other => other?,
        };
        let status = byte(&reply, 0)?;
        Ok(if flag { status < 0x80 } else { status % 2 == 1 })
    }

    fn wait(&mut self) -> Run<()> {
        let mut polled = 0;
        while self.poll()? {
            polled += 1;
            if polled == self.state.limit && !self.slip(Class::C10) {
                return Err(End(9, 0, 0));
            }
        }
        Ok(())
    }

    // ------------------------------------------------------------ commands

    fn read(&mut self, opcode: u8, case: &Case) -> Run<()> {
        self.check(case.address, case.length)?;
        self.need = case.length;
        let head = self.head(opcode, case.address, opcode == 0x0B);
        self.read = self.ask(&head, &[], case.length, 0)?;
        Ok(())
    }

    fn erase(&mut self) -> Run<()> {
        self.ask(&[0x06], &[], 0, 0)?;
        self.ask(&[0xC7], &[], 0, 0)?;
        self.wait()
    }

    fn run_plan(&mut self, plan: &[Entry]) -> Run<()> {
        for entry in plan {
            self.ask(&[0x06], &[], 0, 0)?;
            let head = self.head(entry.opcode, entry.base, false);
            self.ask(&head, &[], 0, entry.time.map_or(0, |time| time / 2))?;
            self.wait()?;
        }
        Ok(())
    }

    fn erase_sectors(&mut self, address: u32, length: u64) -> Run<()> {
        self.check(address, length)?;
        let plan = self.make_plan(address, length)?;
        let (base, top) = span(&plan);
        let mut end = address as u64 + length;
        if end >= 1 << 32 {
            // The Rust cuts the length to 32 bits and adds it in 32 bits.
            let cut = address as u64 + length % (1 << 32);
            if cut >= 1 << 32 && self.slip(Class::C1) {
                return Err(PANICS);
            }
            if cut < 1 << 32 && self.slip(Class::C2) {
                end = cut;
            }
        }
        if base < address {
            return Err(End(5, address as u64, 0));
        }
        if top != end {
            return Err(End(5, end % (1 << 32), 0));
        }
        self.run_plan(&plan)
    }

    fn program(&mut self, case: &Case) -> Run<()> {
        self.check(case.address, case.length)?;
        let plan = self.make_plan(case.address, case.length)?;
        let (base, top) = span(&plan);
        self.check_span(base, top, case)?;
        self.need = top - base as u64;
        let mut whole = Vec::new();
        if base < case.address {
            whole = self.fast_read(base, (case.address - base) as u64)?;
        }
        let after = self.after(case, top)?;
        whole.extend_from_slice(&case.data);
        if !after.iter().all(|&byte| byte == 0xFF) {
            whole.extend_from_slice(&after);
        }
        self.run_plan(&plan)?;
        self.write_pages(base, &whole, Class::C8)?;
        match case.verify {
            true => self.verify(base, &whole),
            false => Ok(()),
        }
    }

    /// docs/SCOPE.md checks the span before anything is read; the Rust when it reads what is after the data.
    fn check_span(&mut self, base: u32, top: u64, case: &Case) -> Run<()> {
        let end = case.address as u64 + case.length;
        let class = if end < 1 << 32 { Class::C4 } else { Class::C3 };
        if refused(&self.state, base, top - base as u64) && !self.slip(class) {
            return self.check(base, top - base as u64);
        }
        Ok(())
    }

    fn after(&mut self, case: &Case, top: u64) -> Run<Vec<u8>> {
        let end = case.address as u64 + case.length;
        // 2^32 bytes at address 0, where the Rust does not panic, are too large to play.
        if end >= 1 << 32 && self.slip(Class::C3) {
            return Err(PANICS);
        }
        if end == top {
            return Ok(Vec::new());
        }
        if self.rust {
            self.check(end as u32, top - end)?;
        }
        self.fast_read(end as u32, top - end)
    }

    fn verify(&mut self, base: u32, whole: &[u8]) -> Run<()> {
        if self.rust {
            self.check(base, whole.len() as u64)?;
        }
        let reply = self.fast_read(base, whole.len() as u64)?;
        let differs = whole.iter().zip(&reply).position(|(wrote, read)| wrote != read);
        if let Some(i) = differs {
            let status = self.ask(&[0x05], &[], 1, 0)?;
            byte(&status, 0)?;
            return Err(End(1, base as u64 + i as u64, whole[i] as u64 + 256 * reply[i] as u64));
        }
        Ok(())
    }

    fn program_data(&mut self, case: &Case) -> Run<()> {
        if case.length > 0 && refused(&self.state, case.address, case.length) && !self.slip(Class::C5) {
            return self.check(case.address, case.length);
        }
        self.need = case.length;
        self.write_pages(case.address, &case.data, if case.length == 0 { Class::C7 } else { Class::C6 })
    }

    fn write_pages(&mut self, address: u32, data: &[u8], inside: Class) -> Run<()> {
        let page = self.state.settings.page.unwrap_or(256);
        if page == 0 {
            // The Rust took a page size of 0.
            return Err(PANICS);
        }
        let first = page - address as u64 % page;
        if first != page && (data.len() as u64) < first && self.slip(inside) {
            return Err(PANICS);
        }
        let mut done = 0;
        while done < data.len() {
            let at = address as u64 + done as u64;
            if at >= 1 << 32 {
                // Only the Rust comes here: program_data past the limits, or a reply that is too long.
                return Err(PANICS);
            }
            let part = (page - at % page).min((data.len() - done) as u64) as usize;
            self.write_page(at as u32, &data[done..done + part])?;
            done += part;
        }
        Ok(())
    }

    fn write_page(&mut self, address: u32, data: &[u8]) -> Run<()> {
        let time = self.extended().map_or(0, |params| params.times[3].0);
        self.ask(&[0x06], &[], 0, 0)?;
        let head = self.head(0x02, address, false);
        self.ask(&head, data, 0, if time > 1000 { time / 2 } else { 0 })?;
        self.wait()
    }

    fn reset(&mut self) -> Run<()> {
        let (by_66, by_f0) = self.extended().map_or((true, false), |params| (params.reset_66, params.reset_f0));
        if by_66 {
            self.ask(&[0x66], &[], 0, 0)?;
            self.ask(&[0x99], &[], 0, 0)?;
        } else if by_f0 {
            self.ask(&[0xF0], &[], 0, 0)?;
        } else {
            return Err(End(6, 0, 0));
        }
        Ok(())
    }

    fn read_id(&mut self) -> Run<()> {
        let mut reply = self.ask(&[0x9F], &[], 3, 0)?;
        let mut n = 0;
        if byte(&reply, 0)? == 0x7F {
            reply = self.ask(&[0x9F], &[], 16, 0)?;
            n = 1;
            while byte(&reply, n)? == 0x7F {
                n += 1;
                if n == 14 {
                    return Err(End(2, 0, 0));
                }
            }
        }
        let device = byte(&reply, n + 1)? as u64 * 256 + byte(&reply, n + 2)? as u64;
        Err(End(0, n as u64, reply[n] as u64 + 256 * device))
    }

    fn is_protected(&mut self) -> Run<()> {
        let reply = self.ask(&[0x05], &[], 1, 0)?;
        Err(End(0, (byte(&reply, 0)? & 0x1C != 0) as u64, 0))
    }

    // ------------------------------------------------------------ SFDP

    fn sfdp(&mut self, at: &[u8; 3], wanted: u64) -> Run<Vec<u8>> {
        self.ask(&[0x5A, at[0], at[1], at[2], 0], &[], wanted, 0)
    }

    fn read_params(&mut self) -> Run<()> {
        self.need = 2056;
        let reply = self.sfdp(&[0; 3], 8)?;
        let count = byte(&reply, 6)? as u64 + 1;
        let reply = self.sfdp(&[0; 3], 8 + 8 * count)?;
        self.check_header(&reply)?;
        let first = match reply.get(8..16) {
            Some(first) => first,
            None => return panics(),
        };
        if first[7] != 0xFF || first[0] != 0x00 || first[2] != 1 {
            return Err(End(3, 0, 0));
        }
        let (minor, dwords) = (first[1], first[3]);
        let data = self.sfdp(&[first[6], first[5], first[4]], 4 * dwords as u64)?;
        let params = table::read(self, minor, &data)?;
        self.adopt(&params);
        let mut area = vec![0x53, 0x46, 0x44, 0x50, 6, 1, 0, 0xFF, 0, minor, 1, dwords, 16, 0, 0, 0xFF];
        area.extend_from_slice(&data);
        self.state.area = Some(Rc::new(area));
        Ok(())
    }

    /// The signature. The Rust looks at more.
    fn check_header(&mut self, reply: &[u8]) -> Run<()> {
        byte(reply, 3)?;
        if reply[0..4] != [0x53, 0x46, 0x44, 0x50] {
            return Err(End(12, 0, 0));
        }
        if byte(reply, 7)? != 0xFF && self.slip(Class::S5) {
            return Err(End(12, 0, 0));
        }
        if reply.len() < 8 * (reply[6] as usize + 2) && self.slip(Class::C11) {
            return Err(End(12, 0, 0));
        }
        match reply.len() % 8 {
            0 => Ok(()),
            // Only the Rust comes here: a reply of another length.
            _ => Err(PANICS),
        }
    }

    fn adopt(&mut self, params: &Params) {
        let sector = table::smallest(self, params);
        let settings = &mut self.state.settings;
        settings.params = Some(*params);
        settings.address_bytes = if params.addressing == 2 { 4 } else { 3 };
        settings.capacity = Some(params.density / 8);
        if params.extended {
            settings.page = Some(params.page as u64);
        }
        if let Some((size, opcode)) = sector {
            settings.erase_size = Some(size as u64);
            settings.opcode = opcode;
        } else if params.small && params.small_opcode != 0xFF {
            settings.erase_size = Some(4096);
            settings.opcode = params.small_opcode;
        }
    }
}

/// A byte of a reply. The Rust panics where the reply is too short; ours never comes here with one.
pub fn byte(reply: &[u8], i: usize) -> Run<u8> {
    reply.get(i).copied().ok_or(PANICS)
}

pub fn panics<T>() -> Run<T> {
    Err(PANICS)
}

fn of_params(params: &Params) -> Vec<Type> {
    let time = |typical: u64, timed: bool| if timed { Some(typical) } else { None };
    let there = params.insts.iter().filter(|inst| inst.size > 0);
    let mut types: Vec<Type> = there.map(|i| (i.size as u64, i.opcode, time(i.typical, i.timed))).collect();
    types.sort();
    types
}

/// Whether docs/SCOPE.md refuses a range.
pub fn refused(state: &State, address: u32, length: u64) -> bool {
    let end = address as u128 + length as u128;
    let settings = &state.settings;
    let over = settings.capacity.map_or(false, |capacity| end > capacity as u128);
    length == 0 || end > 1 << (8 * settings.address_bytes) || over
}

/// The first base, and where the last entry ends.
pub fn span(plan: &[Entry]) -> (u32, u64) {
    let last = plan[plan.len() - 1];
    (plan[0].base, last.base as u64 + last.size)
}

/// docs/SCOPE.md's plan. The types are sorted.
pub fn plan_of(types: &[Type], address: u32, length: u64) -> Vec<Entry> {
    let end = address as u64 + length;
    let mut at = address as u64;
    let mut plan = Vec::new();
    while at < end {
        let (covered, entry) = best(types, at, end);
        at += covered;
        plan.push(entry);
    }
    plan
}

fn best(types: &[Type], at: u64, end: u64) -> (u64, Entry) {
    let mut best = (0, Entry { opcode: 0, size: 0, base: 0, time: None });
    for &(size, opcode, time) in types {
        let base = at - at % size;
        let covered = (base + size).min(end) - at;
        if covered > best.0 {
            best = (covered, Entry { opcode, size, base: base as u32, time });
        }
    }
    best
}
