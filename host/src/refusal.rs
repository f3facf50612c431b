//! A refusal and a trap: numbers of documents 01 and 02, with a name for each.

use core::error::Error;
use core::fmt;

/// Why a section, a body or a run is refused, and where.
#[derive(Clone, Copy, Debug, PartialEq, Eq, Hash)]
pub struct Refusal {
    /// The number in document 01 or 02, which [`Refusal::reason`] names.
    pub number: u64,
    /// A byte's offset in an input, or a type's number: [`Reason`] says which.
    pub place: u64,
    /// The section of which the place is a byte. None for a type's number, for a place in a body, and for the 0 of 14, of 27
    /// and of a run's own refusals.
    pub input: Option<Input>,
}

/// One of the two type sections that a call is handed.
#[derive(Clone, Copy, Debug, PartialEq, Eq, Hash)]
pub enum Input {
    /// The library, whose types come first.
    Library,
    /// The add-on's own section.
    Addon,
}

impl Input {
    /// The input of a number in an answer; None for 0, which stands for no section, and for a number that is not known.
    pub(crate) fn of_number(number: u64) -> Option<Input> {
        match number {
            1 => Some(Input::Library),
            2 => Some(Input::Addon),
            _ => None,
        }
    }
}

/// As the lines of docs/LAYOUT.md write it.
impl fmt::Display for Input {
    fn fmt(&self, to: &mut fmt::Formatter) -> fmt::Result {
        to.pad(match self {
            Input::Library => "library",
            Input::Addon => "addon",
        })
    }
}

impl Refusal {
    /// No number of the documents: the archive gave an answer that this wrapper does not know, and that is no yes. The place
    /// is what its call returned.
    pub const UNKNOWN: u64 = 0;

    pub(crate) fn unknown(returned: u64) -> Refusal {
        Refusal { number: Refusal::UNKNOWN, place: returned, input: None }
    }

    /// What the number stands for; None for a number that documents 01 and 02 do not have.
    pub fn reason(&self) -> Option<Reason> {
        Reason::ALL.into_iter().find(|reason| reason.number() == self.number)
    }
}

impl fmt::Display for Refusal {
    fn fmt(&self, to: &mut fmt::Formatter) -> fmt::Result {
        let Refusal { number, place, input } = self;
        let of = match input {
            Some(Input::Library) => " of the library",
            Some(Input::Addon) => " of the add-on's section",
            None => "",
        };
        match self.reason() {
            Some(reason) => write!(to, "refusal {number} at {place}{of}: {reason}"),
            None if *number == Refusal::UNKNOWN => {
                write!(to, "an answer that is not known ({place}), taken as a no")
            }
            None => write!(to, "refusal {number} at {place}{of}, a number that is not known"),
        }
    }
}

impl Error for Refusal {}

/// A table of numbered names: the enum, its numbers, and their words.
macro_rules! numbered {
    ($(#[$of_the_enum:meta])* $name:ident: $($(#[$doc:meta])* $case:ident = $number:literal, $words:literal;)*) => {
        $(#[$of_the_enum])*
        #[derive(Clone, Copy, Debug, PartialEq, Eq, PartialOrd, Ord, Hash)]
        pub enum $name {
            $($(#[$doc])* $case = $number,)*
        }

        impl $name {
            /// All of them, by rising number.
            pub const ALL: [$name; [$($number),*].len()] = [$($name::$case),*];

            /// The number in document 01, or in document 02.
            pub const fn number(self) -> u64 {
                self as u64
            }
        }

        impl fmt::Display for $name {
            fn fmt(&self, to: &mut fmt::Formatter) -> fmt::Result {
                to.write_str(match self {
                    $($name::$case => $words,)*
                })
            }
        }
    };
}

numbered! {
    /// What a refusal's number stands for, by the names of `crates/scope/specs/Refusals.antt`, and what its place is. There
    /// is no 15 to 19, no 26 and no 30.
    Reason:
    /// At the item's first byte.
    BytesEnd = 1, "the bytes end inside an item";
    /// At the number's first byte.
    BadNumber = 2, "a number is too long or out of range";
    /// At the byte, or at an FB number's or a type number's first byte.
    NotListed = 3, "a byte that is not listed";
    /// At a byte: the first of the entry or the instruction that goes beyond; 0 for a whole input or a budget. It can be a
    /// type's number too, where its chain of supertypes is too long; then the refusal has no input.
    Oversize = 4, "a size is exceeded";
    /// At the first byte left over.
    LeftOver = 5, "bytes are left over";
    /// Of a section at the type's number, with no input, and for a type that is asked for at the number asked; of a body at the
    /// instruction or at the first byte of the entry of locals.
    OutOfReach = 6, "a type number is out of reach";
    /// At the type's number.
    BadSupertype = 7, "the supertype is not earlier, not open, or not the only one";
    /// At the type's number.
    NoMatch = 8, "the type does not match its supertype";
    /// At the type's number.
    ClauseNotOnStruct = 9, "a clause stands on no struct";
    /// At the type's number.
    DescribesNotEarlier = 10, "describes names no earlier type";
    /// At the type's number.
    ClausesDisagree = 11, "clauses disagree";
    /// At the type's number.
    BadDescriptor = 12, "the supertype's descriptor is not the supertype of the type's";
    /// At the type's number.
    BadDescribes = 13, "the type and its supertype do not both describe, or not a type and its supertype";
    /// At 0.
    BufferTooSmall = 14, "a lent buffer is under its size";
    /// At the instruction.
    BadOperand = 20, "an operand is missing or wrong";
    /// At the instruction.
    Absent = 21, "a label or a local is absent";
    /// At the instruction.
    NotSet = 22, "a local is not set";
    /// At the instruction.
    BadStruct = 23, "not a struct, no such field, or a descriptor missing or unwanted";
    /// At the instruction.
    FieldFixed = 24, "the field is fixed";
    /// At the instruction.
    BadBranch = 25, "a branching cast breaks its rule, or its label has no types";
    /// At 0.
    NotAFunction = 27, "not a function type's number";
    /// At the instruction, an `end`.
    ValuesLeft = 28, "values are left at an end";
    /// At the instruction; at 0 for a run's parameters.
    NoDefault = 29, "there is no default";
    /// At the instruction.
    OnlyNull = 31, "an operand would fit if it could not be null";
    /// At the number's first byte.
    Padded = 32, "a number has more bytes than it needs";
}

numbered! {
    /// What a trap's number stands for. Its place is that of the trapping instruction.
    Trap:
    /// An instruction that always traps.
    Unreachable = 41, "unreachable";
    /// By get, set, as_non_null or ref.get_desc.
    Null = 42, "null used";
    /// Looked at before the object and before room.
    NullDescriptor = 43, "null descriptor";
    /// A reference is not of the type asked for.
    Cast = 44, "cast failed";
    /// No object is left, or too few cells.
    NoRoom = 45, "no room on the heap";
    /// The add-on was accepted; the run does add, sub, eqz and comparisons of integers, and comparisons, neg, add, sub, mul
    /// and div of floats.
    OtherNumeric = 46, "a numeric code that the trial run does not do";
}

impl Trap {
    /// The trap of a number; None for a number that documents 01 and 02 do not have.
    pub fn of_number(number: u64) -> Option<Trap> {
        Trap::ALL.into_iter().find(|trap| trap.number() == number)
    }
}

impl Error for Trap {}

#[cfg(test)]
mod tests {
    use super::*;

    #[test]
    fn a_refusal_says_itself_in_words() {
        let refusal = Refusal { number: 11, place: 1, input: None };
        assert_eq!(refusal.reason(), Some(Reason::ClausesDisagree));
        let error: Box<dyn Error> = refusal.into();
        assert_eq!(error.to_string(), "refusal 11 at 1: clauses disagree");
        let only_null = Refusal { number: 31, place: 3, input: None };
        assert_eq!(only_null.reason(), Some(Reason::OnlyNull));
        assert_eq!(
            only_null.to_string(),
            "refusal 31 at 3: an operand would fit if it could not be null"
        );
        let padded = Refusal { number: 32, place: 2, input: None };
        assert_eq!(padded.reason(), Some(Reason::Padded));
        assert_eq!(padded.to_string(), "refusal 32 at 2: a number has more bytes than it needs");
        let absent = Refusal { number: 26, place: 7, input: None };
        assert_eq!(absent.reason(), None);
        assert_eq!(absent.to_string(), "refusal 26 at 7, a number that is not known");
        assert_eq!(
            Refusal::unknown(9).to_string(),
            "an answer that is not known (9), taken as a no"
        );
    }

    #[test]
    fn a_refusal_says_in_which_section_its_byte_lies() {
        let at = |input| Refusal { number: 3, place: 1, input }.to_string();
        assert_eq!(at(None), "refusal 3 at 1: a byte that is not listed");
        assert_eq!(
            at(Some(Input::Library)),
            "refusal 3 at 1 of the library: a byte that is not listed"
        );
        assert_eq!(
            at(Some(Input::Addon)),
            "refusal 3 at 1 of the add-on's section: a byte that is not listed"
        );
    }

    #[test]
    fn traps_have_their_numbers() {
        assert_eq!(Trap::of_number(43), Some(Trap::NullDescriptor));
        assert_eq!(Trap::of_number(46), Some(Trap::OtherNumeric));
        assert_eq!([40, 47].map(Trap::of_number), [None, None]);
    }
}
