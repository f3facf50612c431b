//! Operands taken from the top: the one wanted and the one found (20, and 31 where only null is wrong), and those that are
//! left at `end` (28).

use super::body::Check;
use super::order::Fit;
use super::stack::Operand;
use super::{counted, Cause, Operands, Wanted};
use crate::syntax::{Instruction, Item, Plain};

const OPERAND: u64 = 20;
const VALUES_LEFT: u64 = 28;
const ONLY_NULL: u64 = 31;

/// What is said of 31, behind what was wanted and found.
const WITHOUT_NULL: &str = "only null is wrong: this operand may be null, a non-null one is wanted";

impl Check<'_> {
    /// With those that were taken already.
    fn operands_told(&self, wanted: &[Wanted], taken: &[Operand]) -> Operands {
        Operands {
            wanted: wanted.to_vec(),
            there: [self.own(), taken].concat(),
            unreachable: self.frame().unreachable,
        }
    }

    /// Operands from the top: those that were there, bottom first.
    pub fn take_all(
        &mut self,
        at: usize,
        instruction: &Instruction,
        wanted: &[Wanted],
    ) -> Result<Vec<Operand>, Cause> {
        for (index, &want) in wanted.iter().rev().enumerate() {
            let own = self.own();
            let found = own.len().checked_sub(index + 1).map(|place| own[place]);
            let fit = match found {
                Some(operand) => operand.kind.fits(self.types, want),
                None if self.frame().unreachable => Fit::Fits,
                None => Fit::DoesNotFit,
            };
            match fit {
                Fit::Fits => (),
                Fit::ButForNull | Fit::DoesNotFit => {
                    return Err(self.unfit(at, instruction, wanted, (index, fit)))
                }
            }
        }
        let left = self.operands.len().saturating_sub(wanted.len()).max(self.frame().height);
        Ok(self.operands.split_off(left))
    }

    /// 20 or 31: the operand wanted and the one found.
    fn unfit(
        &self,
        at: usize,
        instruction: &Instruction,
        wanted: &[Wanted],
        (index, fit): (usize, Fit),
    ) -> Cause {
        let want = wanted[wanted.len() - 1 - index];
        let where_ = match index {
            0 => "on top".to_string(),
            1 => "below the top".to_string(),
            _ => format!("{index} below the top"),
        };
        let own = self.own();
        let name = instruction.name();
        let mut cause = match own.len().checked_sub(index + 1).map(|place| own[place]) {
            Some(found) => {
                let words = format!("{name} wants {want} {where_} and finds {found}");
                let cause = match fit {
                    Fit::ButForNull => self.but_for_null(at, found, words),
                    Fit::Fits | Fit::DoesNotFit => self.cause(OPERAND, at, words),
                };
                self.with_part(cause, found.by, &format!(", which put {found} there"))
            }
            None => {
                let around = self.operands.len() - own.len();
                let has = match (own.len(), around) {
                    (0, 0) => "its block has no operand".to_string(),
                    (0, _) => {
                        let around = counted(around, "operand");
                        format!(
                            "its block has none; {around} of the blocks around it cannot be taken"
                        )
                    }
                    (count, _) => format!("its block has only {}", counted(count, "operand")),
                };
                self.cause(OPERAND, at, format!("{name} wants {want} {where_}, and {has}"))
            }
        };
        cause.operands = Some(Box::new(self.operands_told(wanted, &[])));
        cause
    }

    /// 31, with where ref.as_non_null has to stand: right behind what put the operand there, while it is on top.
    fn but_for_null(&self, at: usize, found: Operand, words: String) -> Cause {
        let by = &self.parts[found.by];
        let mend = match found.above {
            0 => format!("ref.as_non_null after byte {} would do", by.bytes.end - 1),
            above => format!(
                "{} of byte {} put {} above it at once: they have to go to locals, and back after a \
                 ref.as_non_null",
                self.name_of(found.by),
                by.bytes.start,
                counted(above, "operand")
            ),
        };
        let mut cause = self.cause(ONLY_NULL, at, format!("{words}; {WITHOUT_NULL}; {mend}"));
        cause.non_null_at = (found.above == 0).then_some(by.bytes.end);
        cause
    }

    fn name_of(&self, at: usize) -> &'static str {
        match self.parts[at].what {
            Item::Instruction(instruction) => instruction.name(),
            Item::Entries(_) | Item::Locals(..) => "a local",
        }
    }

    /// 28: what is left at `end`.
    pub fn values_left(
        &self,
        at: usize,
        instruction: &Instruction,
        wanted: &[Wanted],
        taken: &[Operand],
    ) -> Result<(), Cause> {
        let Instruction::Plain(Plain::End) = instruction else { return Ok(()) };
        let own = self.own();
        let Some(last) = own.last() else { return Ok(()) };
        let left = match own.len() {
            1 => "1 value is left".to_string(),
            count => format!("{count} values are left"),
        };
        let words = format!("{left} at `end` below its {}", counted(wanted.len(), "result"));
        let mut cause = self.cause(VALUES_LEFT, at, words);
        cause = self.with_part(cause, last.by, &format!(", which put {last} there"));
        cause.operands = Some(Box::new(self.operands_told(wanted, taken)));
        Err(cause)
    }
}
