//! Makes the cases: settings around their limits, arguments around every limit, replies right and damaged.
use crate::areas;
use crate::case::{Case, Kind, Setter, State};
use crate::ours::ROOM;
use crate::rules::{plan_of, refused, span, Rules, Type};
use crate::source::Source;
use crate::wire::{Fault, Harm, Memory, Script, Wire, NEVER};
use std::rc::Rc;

/// How large the sizes of a session are.
#[derive(Clone, Copy, PartialEq)]
enum Scale {
    /// Nothing is set: what is smallest.
    Bare,
    Tiny,
    Small,
    Real,
    Wild,
}

pub struct Maker {
    rnd: Source,
    scale: Scale,
    with_area: bool,
    first: bool,
}

const ENTRIES: u64 = 200;
const PAGES: u64 = 64;

impl Maker {
    pub fn new(mut rnd: Source) -> Maker {
        let scale = match rnd.below(20) {
            0..=1 => Scale::Bare,
            2..=8 => Scale::Tiny,
            9..=15 => Scale::Small,
            16 | 17 => Scale::Real,
            _ => Scale::Wild,
        };
        let with_area = scale != Scale::Bare && rnd.chance(50);
        Maker { rnd, scale, with_area, first: true }
    }

    /// How many cases the session has at most.
    pub fn count(&mut self) -> u64 {
        self.rnd.between(1, 8)
    }

    pub fn next(&mut self, state: &State, wire: &mut Wire) -> Case {
        if self.first && self.with_area {
            self.first = false;
            return self.setup();
        }
        if self.first && self.scale == Scale::Wild && self.rnd.chance(2) {
            self.first = false;
            return self.whole();
        }
        let mut case = self.blank(Kind::Reset);
        match self.scale {
            Scale::Bare => self.few_setters(&mut case.setters),
            _ => self.setters(state, &mut case.setters),
        }
        let mut after = state.clone();
        case.setters.iter().filter(|setter| setter.is_taken()).for_each(|&setter| after.set(setter));
        case.kind = self.kind(&case);
        case.script = Rc::new(self.script(&case, &after));
        self.arguments(&mut case, &after, wire);
        self.first = false;
        case
    }

    fn blank(&mut self, kind: Kind) -> Case {
        let script = Rc::new(Script::plain(0));
        Case { setters: Vec::new(), kind, address: 0, length: 0, data: Vec::new(), verify: false, script }
    }

    /// An erase of all that 4 address bytes reach.
    fn whole(&mut self) -> Case {
        let mut case = self.blank(Kind::EraseSectors);
        case.setters = vec![Setter::AddressBytes(4), Setter::EraseSize(1 << self.rnd.between(26, 31))];
        case.length = self.rnd.pick(&[1 << 32, 1 << 32, (1 << 32) + 1, (1 << 32) - 1]);
        case.script = Rc::new(self.script(&case, &State::fresh()));
        case
    }

    /// An area that is read before anything else.
    fn setup(&mut self) -> Case {
        let exponents = match self.scale {
            Scale::Bare | Scale::Tiny => (1, 5),
            Scale::Small => (1, 9),
            Scale::Real => (8, 16),
            Scale::Wild => (1, 31),
        };
        let area = areas::good(&mut self.rnd, exponents);
        let mut case = self.blank(Kind::ReadParams);
        let mut script = Script::plain(self.rnd.next());
        script.area = area.bytes;
        script.far = area.far;
        case.script = Rc::new(script);
        case
    }

    // ------------------------------------------------------------ settings

    fn setters(&mut self, state: &State, list: &mut Vec<Setter>) {
        let often = if self.first { 80 } else if state.settings.params.is_some() { 12 } else { 25 };
        if self.rnd.chance(often) {
            list.push(Setter::AddressBytes(self.rnd.between(1, 4) as u8));
        }
        if self.rnd.chance(often) {
            list.push(Setter::PageSize(self.page()));
        }
        if self.rnd.chance(if state.settings.erase_size.is_none() { 85 } else { often }) {
            list.push(Setter::EraseSize(self.erase_size()));
        }
        if self.rnd.chance(often / 2) {
            list.push(Setter::EraseOpcode(self.rnd.byte()));
        }
        if self.rnd.chance(often * 2 / 3) {
            let mut after = state.clone();
            list.iter().for_each(|&setter| after.set(setter));
            let capacity = self.capacity(&after);
            list.push(capacity);
        }
        if self.rnd.chance(often.max(40)) {
            let limit = self.poll_limit();
            list.push(limit);
        }
        if self.rnd.chance(2) {
            let bad = self.bad_setter();
            list.push(bad);
        }
    }

    fn few_setters(&mut self, list: &mut Vec<Setter>) {
        if self.rnd.chance(30) {
            let limit = self.poll_limit();
            list.push(limit);
        }
        if self.rnd.chance(4) {
            let bad = self.bad_setter();
            list.push(bad);
        }
    }

    fn page(&mut self) -> u64 {
        match self.scale {
            Scale::Bare | Scale::Tiny => self.rnd.pick(&[1, 2, 3, 4, 5, 7, 8, 8, 16, 16]),
            Scale::Small => self.rnd.pick(&[4, 8, 16, 16, 32, 64, 100, 128, 256, 256]),
            Scale::Real => self.rnd.pick(&[256, 256, 256, 512, 1024]),
            Scale::Wild => self.rnd.pick(&[1, 2, 3, 16, 255, 256, 257, 4096, 32_767, 32_768]),
        }
    }

    fn erase_size(&mut self) -> u64 {
        match self.scale {
            Scale::Bare | Scale::Tiny => self.rnd.pick(&[1, 1, 2, 2, 3, 4, 4, 5, 7, 8, 16, 16]),
            Scale::Small => self.rnd.pick(&[16, 16, 32, 48, 64, 64, 100, 128, 255, 256, 256, 257, 512]),
            Scale::Real => self.rnd.pick(&[4096, 4096, 4096, 32_768, 65_536]),
            Scale::Wild => match self.rnd.below(3) {
                0 => 1 << self.rnd.below(32),
                1 => self.rnd.pick(&[2_147_483_648, 2_147_483_647, 1 << 30, 1 << 24, 1 << 20, 1_000_003, 129, 65_537]),
                _ => self.rnd.between(1, 70_000),
            },
        }
    }

    fn capacity(&mut self, state: &State) -> Setter {
        let reach = 1u64 << (8 * state.settings.address_bytes);
        let size = state.settings.erase_size.unwrap_or(16);
        let blocks = size.saturating_mul(self.rnd.between(1, 9));
        let near = self.rnd.between(0, 4);
        Setter::Capacity(match self.rnd.below(12) {
            0 | 1 => return Setter::NoCapacity,
            2 | 3 => reach,
            4 => (reach + near).wrapping_sub(2),
            5 => self.rnd.pick(&[reach / 2, reach * 2]),
            6..=8 => blocks,
            9 => (blocks + near).saturating_sub(2),
            10 => self.rnd.below(300),
            _ => self.rnd.pick(&[0, 1, 7, 1 << 32, (1 << 32) + 1, u64::MAX, u64::MAX - 1, 1 << 63, 1 << 40]),
        })
    }

    fn poll_limit(&mut self) -> Setter {
        Setter::PollLimit(match self.rnd.below(400) {
            0 => self.rnd.pick(&[255, 256, 257, 1000]),
            1 => self.rnd.pick(&[65_534, 65_535]),
            2 => self.rnd.pick(&[0, 65_536, 65_537, u32::MAX]),
            _ => self.rnd.between(1, 6) as u32,
        })
    }

    /// A setter outside its limits.
    fn bad_setter(&mut self) -> Setter {
        match self.rnd.below(3) {
            0 => Setter::AddressBytes(self.rnd.pick(&[0, 5, 6, 8, 255])),
            1 => Setter::PageSize(self.rnd.pick(&[0, 0, 32_769, 65_536, 1 << 32, (1 << 32) + 256, u64::MAX])),
            _ => Setter::EraseSize(self.rnd.pick(&[0, 0, (1 << 31) + 1, 1 << 32, (1 << 32) + 4096, 1 << 40, u64::MAX])),
        }
    }

    // ------------------------------------------------------------ commands

    fn kind(&mut self, case: &Case) -> Kind {
        match case.bad_setter() {
            Some(Setter::PageSize(_)) => return self.rnd.pick(&[Kind::ProgramData, Kind::ProgramData, Kind::IsBusy]),
            Some(Setter::EraseSize(_)) => return self.rnd.pick(&[Kind::EraseSectors, Kind::Plan, Kind::Reset]),
            _ => {}
        }
        match self.rnd.below(100) {
            0..=7 => Kind::Read,
            8..=11 => Kind::LegacyRead,
            12..=24 => Kind::ReadParams,
            25..=28 => Kind::Erase,
            29..=43 => Kind::EraseSectors,
            44..=66 => Kind::Program,
            67..=79 => Kind::ProgramData,
            80..=82 => Kind::Reset,
            83..=86 => Kind::ReadId,
            87..=88 => Kind::IsBusy,
            89..=90 => Kind::IsProtected,
            91..=95 => Kind::Plan,
            _ => Kind::Range,
        }
    }

    fn arguments(&mut self, case: &mut Case, state: &State, wire: &mut Wire) {
        match case.kind {
            Kind::Read | Kind::LegacyRead | Kind::Range => self.range(case, state),
            Kind::EraseSectors | Kind::Plan => self.sectors(case, state, wire),
            Kind::Program => self.program(case, state, wire),
            Kind::ProgramData => self.data(case, state),
            _ => {}
        }
    }

    fn range(&mut self, case: &mut Case, state: &State) {
        case.length = self.length(state, 16);
        case.address = self.place(state, case.length, 16, 30);
        // So long a read is only asked for where both sides refuse it.
        if case.kind != Kind::Range && case.length > 70_000 && case.length <= (1 << 32) + 1 {
            case.kind = Kind::Range;
        }
        if case.kind != Kind::Range && case.length > 600 && case.length <= 70_000 && !self.rnd.chance(10) {
            case.length = self.rnd.below(600);
        }
    }

    /// A length of any kind, the limits too.
    fn length(&mut self, state: &State, size: u64) -> u64 {
        let reach = 1u64 << (8 * state.settings.address_bytes);
        let near = self.rnd.below(5);
        match self.rnd.below(20) {
            0 => 0,
            1..=4 => self.rnd.between(1, 3),
            5..=9 => self.rnd.below(64),
            10..=12 => (size + near).saturating_sub(2),
            13 => (reach + near) - 2,
            14 => reach + 1,
            15 => state.settings.capacity.map_or(1, |capacity| capacity.wrapping_add(near).wrapping_sub(2)),
            16 => self.rnd.pick(&[1 << 31, (1 << 32) - 1, 1 << 32, (1 << 32) + 1, 1 << 63, 1 << 33]),
            17 => u64::MAX - self.rnd.below(300),
            18 => 0u64.wrapping_sub(1 << 32).wrapping_add(self.rnd.below(4)),
            _ => self.rnd.below(5000),
        }
    }

    /// An address that the range fits at, or any.
    fn place(&mut self, state: &State, length: u64, size: u64, inside: u64) -> u32 {
        let reach = 1u64 << (8 * state.settings.address_bytes);
        let top = state.settings.capacity.map_or(reach, |capacity| reach.min(capacity));
        if length == 0 || length > top || !self.rnd.chance(inside) {
            return self.any_place(state, length, size);
        }
        let at = self.rnd.below(top - length + 1);
        match self.rnd.below(4) {
            0 => at as u32,
            1 => (at - at % size + self.rnd.below(2)).min(top - length) as u32,
            _ => (at - at % size) as u32,
        }
    }

    /// An address near a limit, on or near a block's end, or anywhere.
    fn any_place(&mut self, state: &State, length: u64, size: u64) -> u32 {
        let reach = 1u64 << (8 * state.settings.address_bytes);
        let capacity = state.settings.capacity.unwrap_or(reach);
        let top = reach.min(capacity).max(1);
        let near = self.rnd.below(5);
        let size = size.max(1);
        let at = match self.rnd.below(16) {
            0 | 1 => reach.wrapping_sub(length),
            2 => reach.wrapping_sub(length).wrapping_add(near).wrapping_sub(2),
            3 => capacity.wrapping_sub(length),
            4 => capacity.wrapping_sub(length).wrapping_add(near).wrapping_sub(2),
            5..=7 => self.rnd.below((top / size).max(1)) * size,
            8 | 9 => self.rnd.below((top / size).max(1)).min(8) * size + self.rnd.below(size.min(4096)),
            10 => (self.rnd.below((top / size).max(1)) * size).wrapping_add(near).wrapping_sub(2),
            11 | 12 => self.rnd.below(4),
            13 => (1u64 << 32).wrapping_sub(length),
            14 => self.rnd.pick(&[0xFFFF_FFFF, 0xFFFF_FFFE, 0x100_0000, 0xFF_FFFF, 0x1_0000, 0x100, 0xFF, 0x8000_0000]),
            _ => self.rnd.below(top),
        };
        if at < 1 << 32 { at as u32 } else { self.rnd.below(16) as u32 }
    }

    /// The sizes that either side may plan with.
    fn sizes(&mut self, state: &State, wire: &mut Wire) -> Vec<Vec<Type>> {
        let mut lists = Vec::new();
        for &rust in &[false, true] {
            if let Ok(types) = Rules::new(state.clone(), wire, rust).types() {
                lists.push(types);
            }
        }
        lists
    }

    fn one_size(&mut self, lists: &[Vec<Type>]) -> u64 {
        match lists.last() {
            Some(types) => types[self.rnd.below(types.len() as u64) as usize].0,
            None => 16,
        }
    }

    fn sectors(&mut self, case: &mut Case, state: &State, wire: &mut Wire) {
        let lists = self.sizes(state, wire);
        let (size, other) = (self.one_size(&lists), self.one_size(&lists));
        case.length = match self.rnd.below(10) {
            0 => self.length(state, size),
            1 => (size * self.rnd.between(1, 3) + self.rnd.below(3)).saturating_sub(1),
            2 => size + other * self.rnd.below(4),
            _ => size * self.rnd.pick(&[1, 1, 1, 2, 2, 3, 4, 8, 11]),
        };
        if self.scale == Scale::Wild && self.rnd.chance(20) {
            case.length = 1 << 32;
        }
        case.address = self.place(state, case.length, size, 50);
        let most = ENTRIES.saturating_mul(lists.iter().map(|types| types[types.len() - 1].0).min().unwrap_or(u64::MAX));
        let runs = !refused(state, case.address, case.length) || (case.address == 0 && case.length <= (1 << 32) + 1);
        if runs && case.length > most {
            case.length = size;
            case.address = self.place(state, size, size, 50);
        }
    }

    fn bytes(&mut self, length: u64) -> Vec<u8> {
        match self.rnd.below(6) {
            0 => vec![0; length as usize],
            1 => vec![0xFF; length as usize],
            _ => (0..length).map(|_| self.rnd.byte()).collect(),
        }
    }

    fn program(&mut self, case: &mut Case, state: &State, wire: &mut Wire) {
        let lists = self.sizes(state, wire);
        let size = self.one_size(&lists);
        let page = state.settings.page.unwrap_or(256);
        let most = (PAGES * page).min(8 * size).min(if self.scale == Scale::Real { 20_000 } else { 1200 });
        let length = match self.rnd.below(12) {
            0 => self.rnd.below(2),
            1..=3 => self.rnd.between(1, 3),
            4 | 5 => (size + self.rnd.below(3)).saturating_sub(1),
            6 => (page + self.rnd.below(3)).saturating_sub(1),
            7 => self.rnd.pick(&[255, 256, 257]),
            8 => 2 * size,
            _ => self.rnd.between(1, size.min(1 << 20)),
        };
        case.length = length.min(most);
        case.verify = self.rnd.chance(50);
        case.address = self.place(state, case.length.max(1), size, 50);
        if !self.fits(case, state, &lists, page) {
            case.kind = Kind::Plan;
            return;
        }
        case.data = self.bytes(case.length);
    }

    /// Whether the spans of both sides are small enough to be played.
    fn fits(&self, case: &Case, state: &State, lists: &[Vec<Type>], page: u64) -> bool {
        let one_more = case.address == 0 && case.length <= (1 << 32) + 1;
        if refused(state, case.address, case.length) && !one_more {
            return true;
        }
        lists.iter().filter(|_| case.length > 0).all(|types| {
            let entries = case.length / types[types.len() - 1].0;
            if entries > ENTRIES {
                return false;
            }
            let plan = plan_of(types, case.address, case.length);
            let (base, top) = span(&plan);
            let whole = top - base as u64;
            let before = (case.address - base) as u64;
            let refused = refused(state, base, whole);
            let pages = whole / page;
            before < ROOM / 2 && (refused || (whole <= ROOM && pages <= 3 * PAGES))
        })
    }

    fn data(&mut self, case: &mut Case, state: &State) {
        let page = state.settings.page.unwrap_or(256);
        let length = match self.rnd.below(10) {
            0 => 0,
            1..=3 => self.rnd.between(1, 3),
            4 | 5 => (page + self.rnd.below(3)).saturating_sub(1),
            6 => 2 * page + self.rnd.below(3),
            _ => self.rnd.below(4 * page + 1),
        };
        case.length = length.min(if self.scale == Scale::Real { 9000 } else { 1200 });
        case.address = self.place(state, case.length, page, 40);
        case.data = self.bytes(case.length);
    }

    // ------------------------------------------------------------ replies

    fn script(&mut self, case: &Case, state: &State) -> Script {
        let mut script = Script::plain(self.rnd.next());
        script.memory =
            self.rnd.pick(&[Memory::Mixed, Memory::Mixed, Memory::Erased, Memory::LastOdd, Memory::FirstOdd, Memory::OneOdd]);
        script.deaf = self.rnd.chance(5);
        script.calm = self.rnd.chance(30);
        if state.limit <= 1000 {
            self.waits(state, &mut script);
        } else if case.kind == Kind::Erase && self.rnd.below(400) == 0 {
            // The default limit: 65,535 polls.
            script.busy = state.limit + self.rnd.below(3) as u32 - 1;
            script.busy_exact = true;
        }
        script.id_7f = self.rnd.pick(&[0, 0, 1, 2, 3, 7, 12, 13, 14, 14, 15, 16]);
        if self.rnd.chance(25) {
            script.differs = [self.near_start(), if self.rnd.chance(50) { self.near_start() } else { NEVER }];
        }
        if case.kind == Kind::ReadParams {
            let area = areas::any(&mut self.rnd);
            script.area = area.bytes;
            script.far = area.far;
        }
        if self.rnd.chance(38) {
            script.faults[0] = self.fault(case);
        }
        if self.rnd.chance(5) {
            script.faults[1] = self.fault(case);
        }
        script
    }

    fn near_start(&mut self) -> u32 {
        match self.rnd.below(3) {
            0 => self.rnd.below(3) as u32,
            1 => self.rnd.below(20) as u32,
            _ => self.rnd.below(400) as u32,
        }
    }

    /// How long the waits are, around the limit.
    fn waits(&mut self, state: &State, script: &mut Script) {
        script.busy_exact = self.rnd.chance(30);
        match self.rnd.below(20) {
            0..=11 => {}
            12..=17 => script.busy = self.rnd.below(state.limit as u64 + 2) as u32,
            18 => script.busy = state.limit + self.rnd.below(2) as u32,
            _ => script.stuck_from = self.rnd.below(5) as u32,
        }
    }

    fn fault(&mut self, case: &Case) -> Fault {
        let reads = matches!(case.kind, Kind::ReadParams | Kind::ReadId | Kind::Reset);
        let at = match self.rnd.below(10) {
            _ if reads => self.rnd.below(3),
            0..=4 => self.rnd.below(4),
            5..=7 => self.rnd.below(12),
            _ => self.rnd.below(60),
        };
        let some = self.rnd.pick(&[1, 1, 1, 2, 3, 4, 7, 8, 9, 16, 36, 300]);
        let harm = match self.rnd.below(10) {
            0..=2 => Harm::Fails,
            3 | 4 => Harm::Short(some),
            5 => Harm::Long(some),
            6..=8 => Harm::Flip(self.flip_place(case, at), 1 << self.rnd.below(8)),
            _ => Harm::Fill(self.rnd.pick(&[0x00, 0xFF, 0x7F, 0x01, 0x80])),
        };
        Fault { at: at as u32, harm }
    }

    fn flip_place(&mut self, case: &Case, at: u64) -> u32 {
        let any = self.rnd.below(16) as u32;
        match (case.kind, at) {
            (Kind::ReadParams, 1) => self.rnd.pick(&[6, 6, 7, 0, 8, 10, 11, any]),
            (Kind::ReadParams, 0) => self.rnd.pick(&[6, 6, 0, any / 2]),
            _ => self.near_start(),
        }
    }
}
