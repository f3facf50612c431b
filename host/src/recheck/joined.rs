//! The types of both sections in one list, and how a sentence speaks of one of them. Numbers are those of the joined list.

use super::counted;
use crate::read::section::Section;
use crate::sections::{self, Sections};
use crate::syntax::Type;
use chelbugan::Input;

pub struct Joined {
    pub types: Vec<Type>,
    /// How many of them came before those that are judged: the library's, while the add-on is.
    pub before: usize,
    /// Whose types follow these and cannot be named: the add-on's, while the library is judged.
    pub after: usize,
    /// The section that is judged, in a sentence.
    section: &'static str,
}

impl Joined {
    /// The library by itself, and how many types the add-on has after it.
    pub fn library(library: &Section, addon: &Section) -> Joined {
        Joined {
            types: library.types.clone(),
            before: 0,
            after: addon.types.len(),
            section: sections::words(Input::Library),
        }
    }

    /// The library's types, then the add-on's.
    pub fn both(sections: &Sections, library: Section, addon: Section) -> Joined {
        Joined {
            before: library.types.len(),
            types: [library.types, addon.types].concat(),
            after: 0,
            section: match sections.has_library() {
                true => sections::words(Input::Addon),
                false => "the section",
            },
        }
    }

    /// The numbers of the types that are judged.
    pub fn judged(&self) -> std::ops::Range<usize> {
        self.before..self.types.len()
    }

    pub fn type_of(&self, number: u64) -> Option<&Type> {
        self.types.get(usize::try_from(number).ok()?)
    }

    /// In a sentence: "type 5", "type 0 of the library".
    pub fn name(&self, number: impl TryInto<usize>) -> String {
        let number = number.try_into().unwrap_or(usize::MAX);
        match number < self.before {
            true => format!("type {number} of the library"),
            false => format!("type {number}"),
        }
    }

    /// Beside its bytes: "type 0", "type 5, the add-on's type 2".
    pub fn label(&self, number: impl TryInto<usize>) -> String {
        let number = number.try_into().unwrap_or(usize::MAX);
        match self.own_number(number) {
            Some(own) => format!("type {number}, the add-on's type {own}"),
            None => format!("type {number}"),
        }
    }

    /// A type's number in its own section where that is another one.
    pub fn own_number(&self, number: usize) -> Option<usize> {
        number.checked_sub(self.before).filter(|&own| own != number && number < self.types.len())
    }

    /// Whether the one is the add-on's and the other the library's.
    pub fn across(&self, number: usize, other: u32) -> bool {
        number >= self.before && (other as usize) < self.before
    }

    /// "the section has 2 types", "the library has 3 types and the add-on 2".
    pub fn has(&self) -> String {
        match self.before {
            0 => format!("{} has {}", self.section, counted(self.types.len(), "type")),
            before => {
                let own = self.types.len() - before;
                format!("the library has {} and the add-on {own}", counted(before, "type"))
            }
        }
    }

    /// "there is no type 7; the section has 2 types"
    pub fn lacks(&self, number: impl std::fmt::Display) -> String {
        format!("there is no type {number}; {}", self.has())
    }
}
