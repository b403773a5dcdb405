//! For the self-test: one recorded thing of an outcome is altered, and the comparison must see it.
use crate::case::Outcome;
use crate::wire::Log;

pub const BREAKS: [&str; 16] = [
    "a poll left out",
    "the last transaction left out",
    "the lowest bit of an address changed",
    "a byte of a payload changed",
    "a reply length one more",
    "a delay one microsecond longer",
    "the poll count one more",
    "answer 8 told as Done",
    "the reported address of answer 5 one more",
    "the byte read of answer 1 changed",
    "the ID's device, or a yes, changed",
    "a byte read out changed",
    "the base of a plan's last entry changed",
    "the page size left is another",
    "the erase opcode left is another",
    "a maximum time of the parameters one more",
];

fn drop_one(log: &mut Log, i: usize) {
    let length = log.sent(i).len();
    let start = log.list[i].start as usize;
    log.bytes.drain(start..start + length);
    log.list.remove(i);
    log.list[i..].iter_mut().for_each(|sent| sent.start -= length as u32);
}

/// The transaction that has an address, or a payload behind 3 address bytes.
fn find(log: &Log, payload: bool) -> Option<usize> {
    (0..log.list.len()).find(|&i| match log.sent(i) {
        [0x02, rest @ ..] => !payload || rest.len() > 4,
        sent => !payload && sent.len() > 1,
    })
}

fn changed<T>(value: Option<T>, change: impl Fn(T)) -> bool {
    value.map(change).is_some()
}

/// Alters the outcome; no where it has no such thing.
pub fn alter(number: usize, outcome: &mut Outcome) -> bool {
    let Outcome { log, settings, .. } = outcome;
    match number {
        1 => match (0..log.list.len()).rev().find(|&i| matches!(log.sent(i), [0x05] | [0x70])) {
            Some(i) => drop_one(log, i),
            None => return false,
        },
        2 if !log.list.is_empty() => drop_one(log, log.list.len() - 1),
        3 | 4 => match find(log, number == 4) {
            Some(i) => {
                let place = log.list[i].start as usize + if number == 4 { log.sent(i).len() - 1 } else { 1 };
                log.bytes[place] ^= 1;
            }
            None => return false,
        },
        5 => return changed(log.list.last_mut(), |sent| sent.wanted += 1),
        6 => return changed(log.list.iter_mut().find(|sent| sent.delay > 0), |sent| sent.delay += 1),
        7 => outcome.polls += 1,
        8 if outcome.number == 8 => outcome.number = 0,
        9 if outcome.number == 5 => outcome.a += 1,
        10 if outcome.number == 1 => outcome.b ^= 256,
        11 if outcome.number == 0 && outcome.a + outcome.b > 0 => outcome.b ^= 256,
        12 => return changed(outcome.read.last_mut(), |byte| *byte ^= 1),
        13 => return changed(outcome.plan.last_mut(), |entry| entry.base ^= 1),
        14 => settings.page = Some(settings.page.unwrap_or(256) + 1),
        15 => settings.opcode ^= 1,
        16 => return changed(settings.params.as_mut(), |params| params.times[0].1 += 1),
        _ => return false,
    }
    true
}
