//! Numbers with more bytes than they need, beside the same ones in as few as they need and
//! beside others that need as many: each kind of number, each length.

use super::encode::Writer;
use super::make_body::make_body;
use super::random::Random;
use super::thin::about_body;
use super::written::Number;
use super::{allocates, draft_section, sized, write_body, SMALL_BODY};
use crate::lines::hex;

/// Bytes and where their numbers stand.
pub struct Written {
    pub bytes: Vec<u8>,
    pub numbers: Vec<Number>,
}

/// A section, the number of a function of it, and a body of that function, all accepted.
pub struct Pair {
    pub section: Written,
    pub function: u32,
    pub body: Written,
}

impl Pair {
    pub fn make(random: &mut Random, small: bool) -> Pair {
        let draft = draft_section(random, small);
        let room = if small { SMALL_BODY } else { usize::MAX };
        let body = sized(
            random,
            |random| make_body(random, &draft, small),
            |body| allocates(body) && write_body(&mut Random::new(0), body).len() < room,
        );
        let mut writer = Writer::faultless(random);
        writer.section(&draft.groups);
        let section = Written { bytes: writer.bytes, numbers: writer.numbers };
        let mut writer = Writer::faultless(random);
        writer.locals(&body.locals[body.parameters..]);
        body.code.iter().for_each(|instruction| writer.instruction(instruction));
        let body = Written { bytes: writer.bytes, numbers: writer.numbers };
        Pair { section, function: draft.function, body }
    }
}

impl Written {
    /// A number of a kind that is there, each kind as likely as another.
    fn any_number(&self, random: &mut Random) -> Number {
        let mut kinds: Vec<_> = self.numbers.iter().map(|number| number.what).collect();
        kinds.sort();
        kinds.dedup();
        let what = random.pick(&kinds);
        let of_kind: Vec<Number> =
            self.numbers.iter().filter(|number| number.what == what).copied().collect();
        random.pick(&of_kind)
    }

    /// Left as it is, padded within the greatest length or beyond it, or made greater.
    fn changed(&self, random: &mut Random) -> Vec<u8> {
        let number = self.any_number(random);
        let within = number.length < number.greatest;
        match random.below(10) {
            0 | 1 => self.bytes.clone(),
            2 if within => number.grown(&self.bytes),
            3 => number.padded(&self.bytes, number.greatest + 1),
            4 if within => number.padded(&self.bytes, number.greatest),
            _ if within => {
                let length = random.between(number.length + 1, number.greatest);
                number.padded(&self.bytes, length)
            }
            _ => self.bytes.clone(),
        }
    }
}

pub fn padded(random: &mut Random, small: bool) -> String {
    let pair = Pair::make(random, small);
    let function = pair.function as usize;
    if random.one_in(2) {
        let body = pair.body.changed(random);
        return about_changed(random, &pair.section.bytes, function, &body);
    }
    let section = pair.section.changed(random);
    match random.below(4) {
        0 => format!("T {} 0", hex(&section)),
        1 | 2 => about_changed(random, &section, function, &pair.body.bytes),
        _ => format!("S {}", hex(&section)),
    }
}

/// Judged more often than run: most of them are refused, and a run is then refused likewise.
fn about_changed(random: &mut Random, section: &[u8], function: usize, body: &[u8]) -> String {
    if random.one_in(2) {
        return about_body(random, section, function, body);
    }
    format!("B {} {function} {}", hex(section), hex(body))
}
