//! A crate of questions beside the definitions: each request is a type that holds the packed answer, with a hole for its
//! proof, and the checker prints what the type computes to.

use crate::request::{Asked, Request};
use crate::words;
use std::fmt::Write as _;
use std::path::{Path, PathBuf};
use std::process::Command;

/// A copy of the definitions in a folder of its own, proved once.
pub struct Checker {
    folder: PathBuf,
}

const CRATES: &str = "scope:\nfacts_words: scope\nasked: scope facts_words\n";

/// What a crate is proved from; beside it are its edits and what rt keeps.
const PARTS: [&str; 3] = ["src", "specs", "proofs"];

const OPENING: &str = "use Rattle.std.specs.Prelude.{ℕ, List, [], ◌∷◌, ◌++◌}
use Rattle.facts_words.specs.Words.{section_words, type_words, body_words, run_words, packed}
use Rattle.scope.proofs.Computes.{computes}

data Shows : ℕ → Type 0 where
  shown : (x : ℕ) → Shows x
";

impl Checker {
    pub fn over(repository: &str) -> Result<Checker, String> {
        let folder = std::env::temp_dir().join(format!("definitions-{}", std::process::id()));
        let checker = Checker { folder };
        checker.copy(Path::new(repository)).map_err(|why| format!("{repository}: {why}"))?;
        let (well, said) = checker.check("facts_words", &[]).map_err(|why| format!("rt: {why}"))?;
        if !well {
            return Err(format!("the definitions are not proved:\n{said}"));
        }
        Ok(checker)
    }

    fn copy(&self, repository: &Path) -> std::io::Result<()> {
        for name in ["scope", "facts_words"] {
            for part in PARTS {
                copy_folder(&repository.join("crates").join(name).join(part), &self.folder.join("crates").join(name).join(part))?;
            }
        }
        let asked = self.folder.join("crates/asked");
        for part in PARTS {
            std::fs::create_dir_all(asked.join(part))?;
        }
        std::fs::write(self.folder.join("crates.txt"), CRATES)?;
        std::fs::write(asked.join("src/lib.rt"), "#![tactic(auto)]\n")?;
        std::fs::write(asked.join("specs/Lib.antt"), "")?;
        std::fs::write(asked.join("proofs/Lib.antt"), "pub mod Asked\n")
    }

    /// Whether rt holds the crate for proved, and what it says.
    fn check(&self, name: &str, words: &[&str]) -> std::io::Result<(bool, String)> {
        let folder = self.folder.join("crates").join(name);
        let said = Command::new("rt").arg("check").args(words).current_dir(folder).output()?;
        let text = String::from_utf8_lossy(&said.stdout).into_owned() + &String::from_utf8_lossy(&said.stderr);
        Ok((said.status.success(), text))
    }

    /// The words of each answer, in order; none where the checker printed none.
    pub fn compute(&self, requests: &[&Request]) -> Vec<Option<Vec<u64>>> {
        let mut text = OPENING.to_string();
        for (i, request) in requests.iter().enumerate() {
            let _ = write!(text, "\nq{i} : Shows (packed 1 ({}))\nunfolding computes packed\nq{i} = ?q{i}\n", call(request));
        }
        let file = self.folder.join("crates/asked/proofs/Asked.antt");
        let asked = std::fs::write(file, text).and_then(|()| self.check("asked", &["--allow-holes"]));
        let said = asked.map(|(_, said)| said).unwrap_or_default();
        (0..requests.len()).map(|i| shown(&said, i)).collect()
    }
}

impl Drop for Checker {
    fn drop(&mut self) {
        let _ = std::fs::remove_dir_all(&self.folder);
    }
}

fn copy_folder(from: &Path, to: &Path) -> std::io::Result<()> {
    std::fs::create_dir_all(to)?;
    for entry in std::fs::read_dir(from)? {
        let entry = entry?;
        let target = to.join(entry.file_name());
        if entry.file_type()?.is_dir() {
            copy_folder(&entry.path(), &target)?;
        } else {
            std::fs::copy(entry.path(), target)?;
        }
    }
    Ok(())
}

/// The definition that answers the request, applied to it.
fn call(request: &Request) -> String {
    let sections = format!("{} {}", list(request.library()), list(&request.section));
    match &request.asked {
        Asked::Section => format!("section_words {sections}"),
        Asked::Type { number } => format!("type_words {sections} {number}"),
        Asked::Body { number, body } => format!("body_words {sections} {number} {}", list(body)),
        Asked::Run { number, body, budget } => format!("run_words {sections} {number} {} {budget}", list(body)),
    }
}

/// The bytes as a list, in runs of 128 so that no term nests as deep as the input is long.
fn list(bytes: &[u8]) -> String {
    let runs: Vec<String> = bytes.chunks(128).map(|run| format!("({}[])", run.iter().map(|b| format!("{b} ∷ ")).collect::<String>())).collect();
    match runs.len() {
        0 => "[]".to_string(),
        _ => format!("({}{})", runs.join(" ++ ("), ")".repeat(runs.len() - 1)),
    }
}

/// What the goal of question i computes to. The checker prints the goal as it was asked, as it computes, or both; only
/// what it computes to has a number behind the word.
fn shown(said: &str, i: usize) -> Option<Vec<u64>> {
    let goal = said.split_once(&format!("goal ?q{i} in"))?.1;
    let goal = goal.split("goal ?q").next()?;
    let number = goal.split("Shows ").find(|text| text.starts_with(|c: char| c.is_ascii_digit()))?;
    let decimal: String = number.chars().take_while(|c| c.is_ascii_digit()).collect();
    words::unpack(&decimal)
}
