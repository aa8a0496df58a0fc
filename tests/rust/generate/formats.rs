//! Writes formats, good ones and bad ones.

use crate::bytes::{damage, ebcdic, PERIOD, SPACE};
use crate::elements::Element;
use crate::random::Random;

const MOST_FORMAT: usize = 2048;

pub(crate) fn write_format(random: &mut Random, elements: &[Element]) -> Vec<u8> {
    let spaced = random.chance(30);
    let spaces = |random: &mut Random| vec![SPACE; if spaced { random.pick(&[0, 0, 1, 3]) } else { 0 }];
    let mut format = spaces(random);
    for (i, element) in elements.iter().enumerate() {
        if i > 0 {
            format.extend(spaces(random));
            format.push(ebcdic(b','));
            format.extend(spaces(random));
        }
        format.extend(&element.written);
    }
    format.extend(spaces(random));
    format.push(PERIOD);
    if random.chance(5) {
        format.extend((0..random.below(9)).map(|_| random.byte()));
    }
    if random.chance(1) && format.len() < MOST_FORMAT {
        format.resize(MOST_FORMAT, SPACE);
    }
    format
}

/// A format that is damaged, random, too long or without a period.
pub(crate) fn bad_format(random: &mut Random, mut format: Vec<u8>) -> Vec<u8> {
    let character = |random: &mut Random| match random.below(30) {
        0 => random.byte(),
        _ => ebcdic(random.pick(b"AABCDEFGNUX0123456789.,,-()' ")),
    };
    match random.below(4) {
        0 => format = (0..random.between(0, 30)).map(|_| character(random)).collect(),
        1 if random.chance(10) => format.resize(random.pick(&[MOST_FORMAT + 1, 3000]), SPACE),
        1 => format.retain(|&byte| byte != PERIOD),
        _ => damage(random, &mut format, character),
    }
    format
}
