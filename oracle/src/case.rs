//! One input of one call: it is checked on both sides and, where they differ,
//! made smaller for as long as they still do.

use crate::degrees::Angle;
use crate::settings::Border;
use std::fmt::{self, Debug, Display};

/// What a comparison found.
pub enum Verdict {
    Alike,
    /// Alike with a border that the Rust has not: left out of the runs against it.
    Wrap,
    /// Answered or refused as it must be with an angle that has no direction: left out of the runs against the Rust.
    NoDirection,
    /// Both refuse, or the document's number is given where the Rust has no such refusal.
    Refused,
    /// Left out by rule: a tie of direction.
    LeftOut,
    Differs(String),
}

impl Verdict {
    /// Alike in a call with this border.
    pub fn alike(border: Border) -> Self {
        match border.theirs() {
            Some(_) => Self::Alike,
            None => Self::Wrap,
        }
    }

    /// Refused in a call with this angle.
    pub fn refused(radians: f64) -> Self {
        match Angle::of(radians) {
            Some(_) => Self::Refused,
            None => Self::NoDirection,
        }
    }
}

pub trait Case: Clone + Debug {
    fn check(&self) -> Verdict;
    /// Inputs that are simpler than this one.
    fn smaller(&self) -> Vec<Self>;
}

/// How many inputs of a call were answered alike, also with Wrap, had an angle without a direction, were refused as
/// they must be, and were left out.
pub struct Tally {
    name: &'static str,
    alike: usize,
    wrap: usize,
    no_direction: usize,
    refused: usize,
    left_out: usize,
}

impl Tally {
    pub fn new(name: &'static str) -> Self {
        Self { name, alike: 0, wrap: 0, no_direction: 0, refused: 0, left_out: 0 }
    }

    pub fn add(&mut self, other: &Self) {
        self.alike += other.alike;
        self.wrap += other.wrap;
        self.no_direction += other.no_direction;
        self.refused += other.refused;
        self.left_out += other.left_out;
    }

    /// Checks a case; at a difference prints the smallest one found and ends the run.
    pub fn check<C: Case>(&mut self, case: C) {
        match case.check() {
            Verdict::Alike => self.alike += 1,
            Verdict::Wrap => self.wrap += 1,
            Verdict::NoDirection => self.no_direction += 1,
            Verdict::Refused => self.refused += 1,
            Verdict::LeftOut => self.left_out += 1,
            Verdict::Differs(_) => {
                let (least, words) = shrink(case);
                eprintln!("{}: {words}\n{least:#?}", self.name);
                std::process::exit(1);
            }
        }
    }
}

impl Display for Tally {
    fn fmt(&self, f: &mut fmt::Formatter<'_>) -> fmt::Result {
        let Self { name, alike, wrap, no_direction, refused, left_out } = self;
        write!(f, "{name:<28} {alike:>10} {wrap:>10} {no_direction:>12} {refused:>10} {left_out:>10}")
    }
}

/// The smallest case on the way down that still differs, with the words of its difference.
fn shrink<C: Case>(mut case: C) -> (C, String) {
    let words = |case: &C| match case.check() {
        Verdict::Differs(words) => Some(words),
        _ => None,
    };
    while let Some(next) = case.smaller().into_iter().find(|next| words(next).is_some()) {
        case = next;
    }
    let words = words(&case).unwrap_or_default();
    (case, words)
}
