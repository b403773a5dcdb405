//! How often the cases stand one below, at and one above each limit.
use crate::case::{Case, Kind, Outcome, Setter, State};

const ROWS: [&str; 20] = [
    "length and 1",
    "length and 2^32",
    "range's end and what the address bytes reach",
    "range's end and the capacity",
    "range's end and 2^32",
    "range's end and 2^64",
    "data's start and a page's start",
    "data's end and a page's end",
    "polls of the longest wait and the poll limit",
    "dwords of the table and 9",
    "dwords of the table and 16",
    "7F at the start of the ID and 14",
    "set_address_bytes and 1",
    "set_address_bytes and 4",
    "set_page_size and 1",
    "set_page_size and 32,768",
    "set_erase_size and 1",
    "set_erase_size and 2,147,483,648",
    "set_poll_limit and 1",
    "set_poll_limit and 65,535",
];

#[derive(Default)]
pub struct Limits([[u64; 3]; ROWS.len()]);

impl Limits {
    fn note(&mut self, row: usize, value: i128, limit: i128) {
        if let -1..=1 = value - limit {
            self.0[row][(value - limit + 1) as usize] += 1;
        }
    }

    /// A place beside a multiple of a size.
    fn note_beside(&mut self, row: usize, place: i128, size: i128) {
        let over = place % size;
        self.note(row, if size > 2 && over == size - 1 { -1 } else { over }, 0);
    }

    /// `state` is the one that the command ran in.
    pub fn count(&mut self, case: &Case, state: &State, rust: &Outcome) {
        case.setters.iter().for_each(|&setter| self.setter(setter));
        match case.kind {
            Kind::Read | Kind::LegacyRead | Kind::EraseSectors | Kind::Plan | Kind::Range => self.range(case, state),
            Kind::Program | Kind::ProgramData => {
                self.range(case, state);
                self.pages(case, state);
            }
            Kind::ReadParams if rust.log.list.len() > 2 => {
                let dwords = rust.log.list[2].wanted as i128 / 4;
                self.note(9, dwords, 9);
                self.note(10, dwords, 16);
            }
            Kind::ReadId => self.note(11, case.script.id_7f as i128, 14),
            _ => {}
        }
        if rust.polls > 0 {
            self.note(8, rust.log.longest_wait() as i128, state.limit as i128);
        }
    }

    fn range(&mut self, case: &Case, state: &State) {
        let length = case.length as i128;
        let end = case.address as i128 + length;
        self.note(0, length, 1);
        self.note(1, length, 1 << 32);
        self.note(2, end, 1 << (8 * state.settings.address_bytes));
        if let Some(capacity) = state.settings.capacity {
            self.note(3, end, capacity as i128);
        }
        self.note(4, end, 1 << 32);
        self.note(5, end, 1 << 64);
    }

    fn pages(&mut self, case: &Case, state: &State) {
        let page = state.settings.page.unwrap_or(256) as i128;
        self.note_beside(6, case.address as i128, page);
        self.note_beside(7, case.address as i128 + case.length as i128, page);
    }

    fn setter(&mut self, setter: Setter) {
        let (row, value, most) = match setter {
            Setter::AddressBytes(n) => (12, n as i128, 4),
            Setter::PageSize(n) => (14, n as i128, 32_768),
            Setter::EraseSize(n) => (16, n as i128, 2_147_483_648),
            Setter::PollLimit(n) => (18, n as i128, 65_535),
            _ => return,
        };
        self.note(row, value, 1);
        self.note(row + 1, value, most);
    }

    pub fn print(&self) {
        println!("{:<46}{:>10}{:>10}{:>10}", "beside a limit", "one below", "at it", "one above");
        for (name, [below, at, above]) in ROWS.iter().zip(&self.0) {
            println!("{:<46}{:>10}{:>10}{:>10}", name, below, at, above);
        }
    }
}
