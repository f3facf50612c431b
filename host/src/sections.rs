//! The two inputs that types come from: the library, which comes first, and the add-on's section, whose types run on after the
//! library's.

use chelbugan::{Input, EMPTY_LIBRARY};

#[derive(Clone, Debug)]
pub struct Sections {
    /// None where nobody named one: then the loader is asked with the library of no types, and no answer speaks of it.
    library: Option<Vec<u8>>,
    addon: Vec<u8>,
}

impl Sections {
    pub fn new(library: Option<Vec<u8>>, addon: Vec<u8>) -> Sections {
        Sections { library, addon }
    }

    pub fn has_library(&self) -> bool {
        self.library.is_some()
    }

    pub fn library(&self) -> &[u8] {
        self.library.as_deref().unwrap_or(EMPTY_LIBRARY)
    }

    pub fn addon(&self) -> &[u8] {
        &self.addon
    }

    pub fn of(&self, input: Input) -> &[u8] {
        match input {
            Input::Library => self.library(),
            Input::Addon => self.addon(),
        }
    }
}

/// How a sentence speaks of an input.
pub fn words(input: Input) -> &'static str {
    match input {
        Input::Library => "the library",
        Input::Addon => "the add-on",
    }
}
