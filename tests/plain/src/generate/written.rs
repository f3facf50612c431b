//! Where a number stands among written bytes, what it says, and how it looks with more
//! bytes than it needs.

/// Every kind of number that a section or a body has.
#[derive(Clone, Copy, Debug, PartialEq, Eq, PartialOrd, Ord)]
pub enum What {
    Groups,
    Definitions,
    Supertypes,
    Supertype,
    Describes,
    Descriptor,
    Fields,
    Parameters,
    Results,
    Heap,
    Exact,
    Entries,
    Locals,
    Label,
    CastLabel,
    Local,
    Constant32,
    Constant64,
    AfterPrefix,
    Type,
    Field,
}

pub const IN_SECTIONS: [What; 11] = [
    What::Groups,
    What::Definitions,
    What::Supertypes,
    What::Supertype,
    What::Describes,
    What::Descriptor,
    What::Fields,
    What::Parameters,
    What::Results,
    What::Heap,
    What::Exact,
];

pub const IN_BODIES: [What; 12] = [
    What::Heap,
    What::Exact,
    What::Entries,
    What::Locals,
    What::Label,
    What::CastLabel,
    What::Local,
    What::Constant32,
    What::Constant64,
    What::AfterPrefix,
    What::Type,
    What::Field,
];

#[derive(Clone, Copy, Debug)]
pub struct Number {
    pub what: What,
    /// Its first byte's place, and how many bytes it has.
    pub first: usize,
    pub length: usize,
    pub greatest: usize,
    /// Seven bits that say nothing new behind it.
    pub fill: u8,
}

impl Number {
    /// The same bytes with this number in so many; every byte more says what `more` does.
    fn in_bytes(&self, bytes: &[u8], length: usize, more: u8) -> Vec<u8> {
        let end = self.first + self.length;
        let mut number = bytes[self.first..end].to_vec();
        number.resize(length, more);
        let last = length - 1;
        number[..last].iter_mut().for_each(|byte| *byte |= 0x80);
        [&bytes[..self.first], &number, &bytes[end..]].concat()
    }

    /// The same number in more bytes than it has.
    pub fn padded(&self, bytes: &[u8], length: usize) -> Vec<u8> {
        self.in_bytes(bytes, length, self.fill)
    }

    /// One byte more, and another number that needs it; a tenth byte is then out of range.
    pub fn grown(&self, bytes: &[u8]) -> Vec<u8> {
        self.in_bytes(bytes, self.length + 1, self.fill ^ 0x01)
    }
}
