//! Makes elements that are mostly refused.

use crate::elements::Named;
use crate::maker::Maker;
use crate::random::Random;
use crate::tables::make_name;

impl Maker<'_> {
    /// Names something in an update with N, if anything takes an index.
    pub(crate) fn add_n(&mut self, random: &mut Random) {
        let takes_index = |&i: &usize| self.table[i].is_multiple() || self.table[i].periodic.is_some();
        let entries: Vec<usize> = (0..self.table.len()).filter(takes_index).collect();
        if entries.is_empty() {
            return self.misuse(random);
        }
        let i = random.pick(&entries);
        let (with_n, counted) = (self.with_n, self.table[i].is_multiple() && self.table[i].periodic.is_some());
        self.indexed = 100;
        self.with_n = 100;
        self.update = false;
        if counted && random.chance(30) {
            self.add_count(random, i);
        } else {
            self.add_values(random, i);
        }
        self.indexed = 40;
        self.with_n = with_n;
        self.update = true;
    }

    /// Names a field again that has been named.
    pub(crate) fn again(&mut self, random: &mut Random) {
        let named: Vec<Named> = self.elements.iter().filter_map(|element| element.named).collect();
        if named.is_empty() {
            return self.add(random);
        }
        let old = random.pick(&named);
        let i = random.between(old.first, old.end - 1);
        self.update = false;
        self.add_values(random, i);
        self.update = true;
    }

    pub(crate) fn unknown(&mut self, random: &mut Random) {
        const SUFFIXES: [&str; 14] =
            ["", "", "1", "0", "C", "1C", "1-2(3)", "N", "1-N", "NC", "1(N)", ",5", ",5,U", ",U"];
        let name = make_name(random, self.table);
        let known = self.table[random.below(self.table.len())].name.clone();
        let written = match random.below(5) {
            0 => format!("{}-{}", name, known),
            1 => format!("{}-{}", known, name),
            _ => name + random.pick(&SUFFIXES),
        };
        self.put(&written, 1);
    }

    /// Puts something after a name that few entries take.
    pub(crate) fn misuse(&mut self, random: &mut Random) {
        const SUFFIXES: [&str; 56] = [
            "", "1", "0", "000", "192", "999", "2-1", "0-1", "1-192", "2-2", "C", "1C", "0C", "192C", "1(1)", "1(0)",
            "1(2-1)", "1(192)", "1-2(3)", "0(1)", ",0", ",1", ",3", ",16", ",30", ",127", ",254", ",255", ",G", ",W",
            ",A", ",B", ",F", ",P", ",U", ",4,F", ",5,G", ",0,B", "1,2", "1,P", "N", "1-N", "NC", "N(1)", "N(N)",
            "N(1-N)", "1(N)", "1(1-N)", "0(N)", "192(1-N)", "2-1(N)", "N(0)", "N(2-1)", "N(192)", "N,3", "1-N,U",
        ];
        let name = |random: &mut Random| self.table[random.below(self.table.len())].name.clone();
        let written = match random.chance(20) {
            true => format!("{}-{}", name(random), name(random)),
            false => name(random) + random.pick(&SUFFIXES),
        };
        self.put(&written, 4);
    }

    /// Puts an element that is none of the forms. The sign # stands for a name.
    pub(crate) fn misspell(&mut self, random: &mut Random) {
        const FORMS: [&str; 59] = [
            "", "#0X", "0X", "256X", "1234X", "5 X", "''", "'A''B'", "'A", "#(1)", "#1-2C", "#1(1)C", "#1C(1)", "#1-",
            "#-1", "# 1", "#1 (1)", "#1(1", "#1()", "#1(1-)", "#1234", "#,256", "#,1000", "#,U,5", "#,5,5", "#,X",
            "#,5,N", "#,AU,", "E5", "#-E1", "#,E1", "#S", "C", "#,5,", "#C,1", "#-#,5", "#2-N", "#0-N", "#N-N", "#N-2",
            "#0001-N", "#1-NC", "#1-N(1)", "#01-N(N)", "#N(N)C", "#NC(1)", "#NC,1", "#(N)", "#1(2-N)", "#1(N-N)",
            "#N(1-N", "#N()", "# N", "#N (1)", "#NN", "#N1", "#1N", "#-N", "#N,N",
        ];
        let name = &self.table[random.below(self.table.len())].name;
        let written = random.pick(&FORMS).replace('#', name);
        self.put(&written, 4);
    }
}
