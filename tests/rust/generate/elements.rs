//! Holds the elements of formats, and spells their numbers and forms.

use crate::plans::Plan;
use crate::random::Random;
use crate::records::HIGHEST_INDEX;
use crate::tables::Form;

/// An element as written, with what an update's record buffer has to hold for it.
pub(crate) struct Element {
    pub(crate) written: Vec<u8>,
    pub(crate) skipped: usize,
    pub(crate) named: Option<Named>,
}

#[derive(Clone, Copy)]
pub(crate) struct Named {
    pub(crate) first: usize,
    pub(crate) end: usize,
    pub(crate) occurrences: (usize, usize),
    pub(crate) values: (usize, usize),
    pub(crate) form: Option<Form>,
}

fn meet(a: (usize, usize), b: (usize, usize)) -> bool {
    a.0 <= b.1 && b.0 <= a.1
}

impl Named {
    pub(crate) fn meets(&self, other: &Named) -> bool {
        meet((self.first, self.end - 1), (other.first, other.end - 1))
            && meet(self.occurrences, other.occurrences)
            && meet(self.values, other.values)
    }
}

/// Indexes of an element.
#[derive(Clone, Copy, PartialEq, Eq)]
pub(crate) enum Indexes {
    Numbers(usize, usize),
    /// N.
    Last,
    /// 1-N.
    All,
}

impl Indexes {
    /// The numbers that an update is made for, which is refused where N stands.
    pub(crate) fn numbers(self) -> (usize, usize) {
        match self {
            Indexes::Numbers(low, high) => (low, high),
            Indexes::Last | Indexes::All => (1, 1),
        }
    }

    pub(crate) fn spell(self, random: &mut Random) -> String {
        match self {
            Indexes::Numbers(low, high) => spell_range(random, (low, high)),
            Indexes::Last => "N".to_string(),
            Indexes::All => spell(random, 1) + "-N",
        }
    }
}

/// An index or range; one made for a full room goes high.
pub(crate) fn range(random: &mut Random, plan: Plan) -> (usize, usize) {
    let high = plan == Plan::Room && random.chance(50);
    let low = match random.below(40) {
        0 => HIGHEST_INDEX,
        _ if high => random.between(100, HIGHEST_INDEX),
        1 => random.between(1, HIGHEST_INDEX),
        _ => random.between(1, 4),
    };
    match random.below(30) {
        0 if random.chance(30) => (1, HIGHEST_INDEX),
        1 => (low, random.between(low, HIGHEST_INDEX)),
        2..=9 => (low, (low + random.below(3)).min(HIGHEST_INDEX)),
        _ => (low, low),
    }
}

pub(crate) fn spell(random: &mut Random, number: usize) -> String {
    match random.below(20) {
        0 => format!("{:03}", number),
        1 => format!("{:02}", number),
        _ => number.to_string(),
    }
}

fn spell_range(random: &mut Random, (low, high): (usize, usize)) -> String {
    if low == high && random.chance(90) {
        return spell(random, low);
    }
    format!("{}-{}", spell(random, low), spell(random, high))
}

pub(crate) fn spell_form(random: &mut Random, form: Form, standard: Form) -> String {
    let comma = |random: &mut Random| random.pick(&[",", ",", ",", " ,", ", ", " , "]);
    let mut written = String::new();
    if form.length != standard.length || random.chance(30) {
        written += comma(random);
        written += &spell(random, form.length.into());
    }
    if form.format != standard.format || random.chance(20) {
        written += comma(random);
        written.push(form.format.into());
    }
    written
}
