//! Makes the elements of a format.

use crate::bytes::{encode, APOSTROPHE, PERIOD, SPACE};
use crate::elements::{range, spell, spell_form, Element, Indexes, Named};
use crate::plans::Plan;
use crate::random::Random;
use crate::records::HIGHEST_INDEX;
use crate::tables::{length_for, Entry, Form, FORMATS};
use crate::values::capacity;

/// The elements of one format as they are made. Of the MU fields outside `indexed` percent get an index, and of the
/// indexes `with_n` percent are N.
pub(crate) struct Maker<'a> {
    pub(crate) table: &'a [Entry],
    plan: Plan,
    pub(crate) update: bool,
    pub(crate) indexed: usize,
    pub(crate) with_n: usize,
    last: Vec<usize>,
    pub(crate) elements: Vec<Element>,
}

impl Maker<'_> {
    pub(crate) fn make(random: &mut Random, table: &[Entry], plan: Plan, update: bool) -> Vec<Element> {
        let count = match random.below(40) {
            0 => random.between(20, 60),
            1 if random.chance(20) => 600,
            2..=9 => random.between(5, 12),
            _ => random.between(1, 4),
        };
        let with_n = match plan {
            _ if !update => 40,
            Plan::Syntax | Plan::Name | Plan::Use | Plan::Twice => 4,
            _ => 0,
        };
        let last = vec![0; table.len()];
        let mut maker = Maker { table, plan, update, indexed: 40, with_n, last, elements: Vec::new() };
        let odd = random.below(count.min(4));
        for i in 0..count {
            match plan {
                Plan::Use if i == odd && update && random.chance(25) => maker.add_n(random),
                Plan::Use if i == odd => maker.misuse(random),
                Plan::Name if i == odd => maker.unknown(random),
                Plan::Syntax if i == odd && random.chance(70) => maker.misspell(random),
                Plan::Twice if i > 0 && random.chance(60) => maker.again(random),
                Plan::Bare if i == 0 => maker.add_bare(random),
                _ => maker.add(random),
            }
        }
        if plan == Plan::Twice {
            maker.again(random);
        }
        maker.elements
    }

    pub(crate) fn put(&mut self, written: &str, skipped: usize) {
        self.elements.push(Element { written: encode(written), skipped, named: None });
    }

    pub(crate) fn add(&mut self, random: &mut Random) {
        let i = random.below(self.table.len());
        match random.below(16) {
            0 => {
                let number = random.pick(&[1, 2, 3, 10, 255]);
                let written = spell(random, number) + "X";
                self.put(&written, number);
            }
            1 => self.add_text(random),
            2 | 3 => self.add_count(random, i),
            4 => self.add_series(random, i),
            _ => self.add_values(random, i),
        }
    }

    fn add_text(&mut self, random: &mut Random) {
        let length = random.pick(&[1, 2, 3, 8, 8, 255]);
        let byte = |random: &mut Random| random.pick(&[PERIOD, 0xC1, SPACE, 0x6B, 0x00, 0xFF, 0x81]);
        let mut written = vec![APOSTROPHE];
        written.extend((0..length).map(|_| byte(random)));
        written.push(APOSTROPHE);
        self.elements.push(Element { written, skipped: length, named: None });
    }

    pub(crate) fn add_count(&mut self, random: &mut Random, i: usize) {
        let entry = &self.table[i];
        let written = match (entry.is_multiple(), entry.periodic) {
            (true, Some(_)) if random.chance(self.with_n) => format!("{}NC", entry.name),
            (true, Some(_)) => {
                let index = range(random, self.plan).0;
                format!("{}{}C", entry.name, spell(random, index))
            }
            (false, Some(group)) => format!("{}C", self.table[group].name),
            (true, None) => format!("{}C", entry.name),
            (false, None) => return self.add_values(random, i),
        };
        self.put(&written, 1);
    }

    fn add_series(&mut self, random: &mut Random, first: usize) {
        let shut_out = |entry: &&Entry| !entry.is_multiple() && !entry.is_periodic();
        let run = self.table[first..].iter().take_while(shut_out).count();
        if run == 0 || self.table[first].is_group() || self.table[first].periodic.is_some() {
            return self.add_values(random, first);
        }
        let last = first + random.below(run.min(6));
        if self.table[last].is_group() {
            return self.add_values(random, first);
        }
        let written = format!("{}-{}", self.table[first].name, self.table[last].name);
        self.name(&written, Named { first, end: last + 1, occurrences: (1, 1), values: (1, 1), form: None });
    }

    pub(crate) fn add_values(&mut self, random: &mut Random, i: usize) {
        let entry = &self.table[i];
        let members = &self.table[i..entry.end];
        if entry.is_group() && members.iter().any(|entry| entry.is_multiple() || entry.is_variable()) {
            return self.add_values(random, i + 1);
        }
        let (mut occurrences, mut values, mut written) = ((1, 1), (1, 1), entry.name.clone());
        if entry.periodic.is_some() {
            let indexes = self.indexes(random);
            occurrences = indexes.numbers();
            written += &indexes.spell(random);
            if entry.is_multiple() && indexes != Indexes::All && random.chance(60) {
                let indexes = self.indexes(random);
                values = indexes.numbers();
                written += &format!("({})", indexes.spell(random));
            }
        } else if entry.is_multiple() {
            values = (self.last[i] + 1, self.last[i] + 1);
            if values.0 > HIGHEST_INDEX || random.chance(self.indexed) {
                let indexes = self.indexes(random);
                values = indexes.numbers();
                written += &indexes.spell(random);
            }
        }
        let form = if entry.is_group() { None } else { self.choose_form(random, entry.form()) };
        if let Some(form) = form {
            written += &spell_form(random, form, entry.form());
        }
        let named = Named { first: i, end: entry.end, occurrences, values, form };
        if self.name(&written, named) {
            self.last[i] = values.1;
        }
    }

    fn indexes(&self, random: &mut Random) -> Indexes {
        if random.chance(self.with_n) {
            return random.pick(&[Indexes::Last, Indexes::All]);
        }
        let (low, high) = range(random, self.plan);
        Indexes::Numbers(low, high)
    }

    /// Names an MU field outside periodic groups up to five times, if there is one; in an update by its bare name.
    fn add_bare(&mut self, random: &mut Random) {
        let outside = |&i: &usize| self.table[i].is_multiple() && self.table[i].periodic.is_none();
        let fields: Vec<usize> = (0..self.table.len()).filter(outside).collect();
        if fields.is_empty() {
            return self.add(random);
        }
        let i = random.pick(&fields);
        if self.update {
            self.indexed = 0;
        }
        for _ in 0..random.between(1, 5) {
            self.add_values(random, i);
        }
        self.indexed = 40;
    }

    /// Adds an element, unless an update would name an occurrence twice by it.
    fn name(&mut self, written: &str, named: Named) -> bool {
        let twice = |element: &Element| element.named.map_or(false, |other| other.meets(&named));
        if self.update && self.elements.iter().any(twice) {
            return false;
        }
        self.elements.push(Element { written: encode(written), skipped: 0, named: Some(named) });
        true
    }

    /// A length and format in effect: mostly one that holds what the standard ones hold.
    fn choose_form(&self, random: &mut Random, standard: Form) -> Option<Form> {
        let any = self.plan == Plan::Misfit;
        if !any && random.chance(60) {
            return None;
        }
        let own = standard.format == b'A' || any && random.chance(25);
        let format = if own { standard.format } else { random.pick(&FORMATS[1..]) };
        for _ in 0..8 {
            let form = Form { format, length: length_for(random, format, true) };
            let holds = match format {
                b'A' => form.length == 0 || (form.length >= standard.length && standard.length > 0),
                b'B' if standard.format != b'B' => false,
                _ => capacity(form, false) >= capacity(standard, false).min(99_999),
            };
            if any || holds || random.chance(4) {
                return Some(form);
            }
        }
        None
    }
}
