//! Compares the archive for C with the Rust of spi-flash 0.4.0, case by case. tools/compare/run says how it is run.
//!
//! A session is a fresh driver on both sides and up to eight cases, each setters and one command from a state that both sides
//! are in. Three outcomes are held against each other: ours, the Rust's, and that of docs/SCOPE.md's rules (rules.rs). Ours must
//! equal the rules in every case. Where the Rust does not, it must equal the rules with its listed slips, and the case is in
//! the class of the first slip that it met. Anything else is on no list, and the run fails.
mod areas;
mod breaks;
mod case;
mod classes;
mod limits;
mod make;
mod ours;
mod rules;
mod rust;
mod show;
mod source;
mod table;
mod tally;
mod wire;

use case::{Case, Outcome, State, ODD};
use classes::{Class, CLASSES};
use make::Maker;
use ours::Ours;
use rules::Rules;
use rust::Access;
use spi_flash::Flash;
use std::rc::Rc;
use tally::Tally;
use wire::Wire;

#[derive(Clone)]
struct Options {
    cases: u64,
    seed: u64,
    /// One session alone, shown in full.
    session: Option<u64>,
    self_test: bool,
    sabotage: Sabotage,
}

/// What the self-test does to the comparison.
#[derive(Clone, Copy, PartialEq)]
enum Sabotage {
    None,
    /// A thing of breaks.rs: of ours in a case that agrees, of ours in a case of a class, of the Rust in a case of a class.
    Agreed(usize),
    InClass(usize),
    OfRust(usize),
    /// A class is taken off the list.
    Unlist(Class),
}

struct Compare {
    options: Options,
    noise: Rc<Vec<u8>>,
    ours: Ours,
    wire: Wire,
    tally: Tally,
    unlisted: u64,
    altered: bool,
}

/// A case that was played: what each side came to.
struct Played {
    by_01: Outcome,
    ours: Outcome,
    rust: Outcome,
    /// Where the Rust is not by docs/SCOPE.md: the rules with its slips, and the first slip.
    slipped: Option<(Outcome, Option<Class>)>,
}

impl Played {
    fn agrees(&self) -> bool {
        self.slipped.is_none()
    }

    /// What does not hold.
    fn faults(&self) -> Vec<String> {
        let mut out = Vec::new();
        let unlike = self.ours.unlike(&self.by_01);
        if !unlike.is_empty() {
            out.push(format!("ours is not by docs/SCOPE.md: {}", unlike.join(", ")));
        }
        if self.by_01.number >= ODD {
            out.push("a case that is too large".to_string());
        }
        match &self.slipped {
            None => {}
            Some((_, None)) => out.push(format!("on no list: {}", self.rust.unlike(&self.ours).join(", "))),
            Some((slipped, Some(class))) => {
                let unlike = self.rust.unlike(slipped);
                if !unlike.is_empty() {
                    out.push(format!("the Rust is not by class {:?}: {}", class, unlike.join(", ")));
                }
                if self.ours.same(&self.rust) {
                    out.push(format!("both agree in class {:?}", class));
                }
            }
        }
        if self.agrees() && !self.ours.same(&self.rust) {
            out.push(format!("on no list: {}", self.rust.unlike(&self.ours).join(", ")));
        }
        out
    }
}

impl Compare {
    fn new(options: Options) -> Compare {
        let noise = wire::noise();
        let ours = Ours::new(Wire::new(&noise));
        let wire = Wire::new(&noise);
        Compare { options, ours, wire, noise, tally: Tally::new(), unlisted: 0, altered: false }
    }

    fn play(&mut self, case: &Case, state: &State, flash: &mut Flash<Access>) -> (Played, State) {
        let mut rules = Rules::new(state.clone(), &mut self.wire, false);
        let by_01 = rules.play(case);
        let (need, after) = (rules.need, rules.state);
        let mut ours = self.ours.play(case, need);
        let mut rust = rust::play(flash, case, after.limit);
        let differ = !rust.same(&by_01);
        self.alter(differ, &mut ours, &mut rust);
        let mut slipped = None;
        if differ {
            let mut rules = Rules::new(state.clone(), &mut self.wire, true);
            if let Sabotage::Unlist(class) = self.options.sabotage {
                rules.unlisted = Some(class);
            }
            let outcome = rules.play(case);
            slipped = Some((outcome, rules.class));
        }
        (Played { by_01, ours, rust, slipped }, after)
    }

    /// The self-test: one thing in one case, the first that has it after the first thousand.
    fn alter(&mut self, differ: bool, ours: &mut Outcome, rust: &mut Outcome) {
        if self.altered || self.tally.cases < 1000 {
            return;
        }
        self.altered = match self.options.sabotage {
            Sabotage::Agreed(n) => !differ && breaks::alter(n, ours),
            Sabotage::InClass(n) => differ && breaks::alter(n, ours),
            Sabotage::OfRust(n) => differ && breaks::alter(n, rust),
            Sabotage::None | Sabotage::Unlist(_) => false,
        };
    }

    /// Counts the case. Yes: both sides are in the same state, and the session goes on.
    fn judge(&mut self, session: u64, case: &Case, state: &State, played: &Played) -> bool {
        let agree = played.agrees();
        self.tally.count(case.kind, &played.ours, &played.rust, agree);
        let faults = played.faults();
        if !faults.is_empty() {
            self.unlisted += 1;
            if self.unlisted <= 20 && !self.options.self_test {
                self.show(session, case, state, played, &faults);
            }
            return false;
        }
        if let Some((_, Some(class))) = played.slipped {
            let size = tally::size_of(case, state, &played.ours, &played.rust);
            if self.tally.classed(class, &played.rust, &size) {
                let mut text = show::question(case, state, &self.noise);
                if class == Class::C10 {
                    text += &format!(" (poll limit {})", tally::poll_limit(case, state));
                }
                self.tally.smallest(class, size, text);
            }
        }
        agree
    }

    fn limits(&mut self, case: &Case, state: &State, played: &Played) {
        let mut now = state.clone();
        case.setters.iter().filter(|setter| setter.is_taken()).for_each(|&setter| now.set(setter));
        self.tally.limits.count(case, &now, &played.rust);
    }

    fn show(&self, session: u64, case: &Case, state: &State, played: &Played, faults: &[String]) {
        println!("session {}: {}", session, faults.join("; "));
        println!("  {}", short(show::question(case, state, &self.noise)));
        println!("  poll limit {}, setters {:?}", tally::poll_limit(case, state), case.setters);
        println!("  ours:     {}", short(tally::outcome_text(&played.ours)));
        println!("  01:       {}", short(tally::outcome_text(&played.by_01)));
        println!("  the Rust: {}", short(tally::outcome_text(&played.rust)));
        if let Some((slipped, class)) = &played.slipped {
            println!("  {:?}: {}", class, short(tally::outcome_text(slipped)));
        }
    }

    fn session(&mut self, number: u64) {
        let mut maker = Maker::new(source::Source::new(self.options.seed, number));
        let mut access = Access { wire: Wire::new(&self.noise) };
        let mut flash = Flash::new(&mut access);
        let mut state = State::fresh();
        self.ours.renew();
        for _ in 0..maker.count() {
            let case = maker.next(&state, &mut self.wire);
            let (played, after) = self.play(&case, &state, &mut flash);
            self.limits(&case, &state, &played);
            if self.options.session.is_some() {
                self.show(number, &case, &state, &played, &played.faults());
            }
            if !self.judge(number, &case, &state, &played) {
                break;
            }
            state = after;
        }
    }

    /// The sessions, and how many they were.
    fn run(&mut self) -> u64 {
        let mut sessions = 0;
        while self.tally.cases < self.options.cases {
            self.session(sessions);
            sessions += 1;
        }
        sessions
    }
}

/// Runs the comparison and prints its tables. Yes: all is listed.
fn compare(options: Options) -> bool {
    let mut compare = Compare::new(options);
    if let Some(number) = compare.options.session {
        compare.session(number);
    } else {
        let sessions = compare.run();
        let (cases, transactions) = (compare.tally.cases, compare.tally.transactions);
        println!("seed {:#x}: {} cases in {} sessions, {} transactions", compare.options.seed, cases, sessions, transactions);
        println!();
        compare.tally.print();
    }
    println!();
    println!("compare: {} cases, {} on no list", compare.tally.cases, compare.unlisted);
    compare.unlisted == 0
}

/// Runs the comparison with one thing wrong. Yes: it failed as it should.
fn fails(options: &Options, sabotage: Sabotage, what: &str) -> bool {
    let mut compare = Compare::new(Options { sabotage, ..options.clone() });
    compare.run();
    let seen = match sabotage {
        Sabotage::Unlist(_) => compare.unlisted > 0,
        _ => compare.altered && compare.unlisted == 1,
    };
    let verdict = if seen { "fails" } else if compare.altered { "NOT SEEN" } else { "no such case" };
    println!("{:<76}{:>8} {}", what, compare.unlisted, verdict);
    // P1 is out of reach of the settings.
    seen || sabotage == Sabotage::Unlist(Class::P1)
}

fn self_test(options: Options) -> bool {
    let mut good = true;
    println!("{:<76}{:>8}", "what is wrong", "seen");
    for (i, name) in breaks::BREAKS.iter().enumerate() {
        good &= fails(&options, Sabotage::Agreed(i + 1), &format!("ours, where both agree: {}", name));
        good &= fails(&options, Sabotage::InClass(i + 1), &format!("ours, in a class: {}", name));
        good &= fails(&options, Sabotage::OfRust(i + 1), &format!("the Rust, in a class: {}", name));
    }
    for (class, name, text) in CLASSES.iter() {
        good &= fails(&options, Sabotage::Unlist(*class), &format!("{} is not listed: {}", name, text));
    }
    println!();
    println!("self-test: {}", if good { "every one is seen" } else { "FAILED" });
    good
}

fn short(mut text: String) -> String {
    if text.len() > 2000 {
        text.truncate(2000);
        text.push_str(" ..");
    }
    text
}

fn number(text: &str) -> u64 {
    let value = match text.strip_prefix("0x") {
        Some(digits) => u64::from_str_radix(digits, 16),
        None => text.parse(),
    };
    value.unwrap_or_else(|_| usage(text))
}

fn usage(what: &str) -> ! {
    eprintln!("compare: not understood: {}", what);
    std::process::exit(2)
}

fn options() -> Options {
    let mut options = Options { cases: 10_000_000, seed: 0x5EED, session: None, self_test: false, sabotage: Sabotage::None };
    let mut words = std::env::args().skip(1);
    while let Some(word) = words.next() {
        let mut value = || words.next().map_or_else(|| usage(&word), |text| number(&text));
        match word.as_str() {
            "--seed" => options.seed = value(),
            "--session" => options.session = Some(value()),
            "--break" => options.sabotage = Sabotage::Agreed(value() as usize),
            "--self-test" => options.self_test = true,
            text => options.cases = number(text),
        }
    }
    options
}

fn main() {
    // Panics of the Rust under test are outcomes, not noise.
    std::panic::set_hook(Box::new(|_| {}));
    let options = options();
    let good = if options.self_test { self_test(options) } else { compare(options) };
    std::process::exit(!good as i32);
}
