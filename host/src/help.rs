//! The words of `chelbugan help`, and those for a call that misses something.

/// The commands that take a section, and so a library before it.
pub const WITH_LIBRARY: [&str; 7] = ["check", "run", "type", "dump", "print", "assemble", "lines"];

pub const LIBRARY_USE: &str =
    "use: --library FILE, the type section that comes before SECTION, once";

/// The commands that make bytes or text.
pub const WITH_OUTPUT: [&str; 4] = ["type", "dump", "print", "assemble"];

pub const OUTPUT_USE: &str =
    "use: -o FILE, where what is made goes instead of standard output, once";

/// What the command line takes besides its words. A shell's completions and the manual are made from this list.
pub struct Flag {
    pub name: &'static str,
    pub short: Option<&'static str>,
    /// What follows it.
    pub value: Option<&'static str>,
    /// None for every command.
    pub commands: Option<&'static [&'static str]>,
    /// In a few words.
    pub does: &'static str,
}

pub const FLAGS: &[Flag] = &[
    Flag {
        name: "--library",
        short: None,
        value: Some("FILE"),
        commands: Some(&WITH_LIBRARY),
        does: "the type section that comes before SECTION",
    },
    Flag {
        name: "--output",
        short: Some("-o"),
        value: Some("FILE"),
        commands: Some(&WITH_OUTPUT),
        does: "write what is made to FILE, not to standard output",
    },
    flag("--raw", None, Some(&["assemble"]), "write the bytes as they are, not in hex"),
    flag("--page", None, Some(&["explain"]), "print docs/REFUSALS.md"),
    flag("--fail-on-trap", None, Some(&["run"]), "a trap is exit status 1"),
    flag("--trace", None, Some(&["run"]), "show each instruction with the operands that it found"),
    flag("--comments", None, Some(&["lines"]), "pass over blank lines, and what follows # in a line"),
    flag(
        "--quiet",
        Some("-q"),
        Some(&["check", "run", "type", "dump"]),
        "say nothing; the exit status is the answer",
    ),
    flag("--json", None, None, "write the answer as JSON, an object a line"),
    flag("--help", Some("-h"), None, "the page of the command, or of the program"),
    flag("--version", Some("-V"), None, "the version of the program"),
];

const fn flag(
    name: &'static str,
    short: Option<&'static str>,
    commands: Option<&'static [&'static str]>,
    does: &'static str,
) -> Flag {
    Flag { name, short, value: None, commands, does }
}

impl Flag {
    pub fn is_of(&self, command: &str) -> bool {
        self.commands.is_none_or(|commands| commands.contains(&command))
    }
}

/// Whether a command takes an option of the list.
pub fn takes(command: &str, option: &str) -> bool {
    FLAGS.iter().any(|flag| flag.name == option && flag.is_of(command))
}

pub struct Command {
    pub name: &'static str,
    /// How it is called, a way a line.
    pub uses: &'static [&'static str],
    /// In a few words.
    pub does: &'static str,
    pub page: &'static str,
}

pub const COMMANDS: &[Command] = &[
    Command {
        name: "check",
        uses: &["check SECTION", "check SECTION BODY TYPE", "check FILE..."],
        does: "judge a section, a body against the function type of a number, or many sections",
        page: "\
A section: its types, or why it is refused. A body: its count of instructions, or why it is refused. Of several files, each a \
section, a line each; the exit status is the worst of them. --quiet says nothing, the exit status is the answer. With --library \
the library is judged first, by itself, then each section after it; TYPE and all numbers in the answer are those of the joined \
list.",
    },
    Command {
        name: "run",
        uses: &["run SECTION BODY TYPE BUDGET"],
        does: "make a trial run of at most BUDGET steps",
        page: "\
How the run ended and the state that it left, or why the add-on is refused. An add-on that traps or spends its budget was \
accepted: exit status 0; with --fail-on-trap a trap is exit status 1. --trace shows, before the ending, each instruction with \
the operands that it found, the topmost last; of a long run the last 1,000 instructions. Each line is a run of its own from \
the first instruction on, so that 1,000 lines of a run of 1,000,000 steps cost 1,000 such runs. With --library, TYPE is a number of the joined list.",
    },
    Command {
        name: "type",
        uses: &["type SECTION NUMBER"],
        does: "the bytes of a type's definition, in hex",
        page: "\
The section is judged first, the library before it. With --library NUMBER is one of the joined list, and a comment after the \
bytes says which of the two sections holds them.",
    },
    Command {
        name: "explain",
        uses: &["explain N", "explain accepted", "explain"],
        does: "what a refusal or a trap means, with an example and its mend",
        page: "\
Without N, all of them, a line each. explain accepted prints docs/ACCEPTED.md: every instruction, type and section that is \
accepted, by its bytes, and what is not. --page prints docs/REFUSALS.md.",
    },
    Command {
        name: "dump",
        uses: &["dump section SECTION", "dump body BODY"],
        does: "list every byte with its offset; judges nothing",
        page: "\
The exit status is 1 where the listing breaks off at a byte that fits nowhere; the bytes after it are listed too. A padded \
number is listed with its shortest writing. With --library the library is listed first, and the section's types are numbered on \
after those of the library that could be read. A body defines no types, so dump body takes no library.",
    },
    Command {
        name: "print",
        uses: &["print section SECTION", "print body BODY"],
        does: "write it in WebAssembly's text; judges nothing",
        page: "\
assemble makes the same bytes of it; where numbers are padded, which the loader refuses, it makes bytes without padding. With \
--library the section's types are numbered on after the library's, which are named by their numbers and not printed.",
    },
    Command {
        name: "assemble",
        uses: &["assemble section TEXT", "assemble body TEXT"],
        does: "make bytes of WebAssembly's text; judges nothing",
        page: "\
TEXT is the name of a file, - for standard input, or the text itself: it begins with a parenthesis or has white space in it. A section is a list of \
(rec ..) and (type ..), a body a (func ..) with flat or folded instructions. A (module ..) holds both, types and one function, \
and then the function names types and fields: assemble section and assemble body of the same text. A float is decimal or hex digits, inf, nan, or nan:0x and its payload. The bytes are written in hex, or as they are with --raw. With --library \
the first (type ..) has the number after the library's last, and the library's types are named by their numbers.",
    },
    Command {
        name: "lines",
        uses: &["lines"],
        does: "answer requests, one a line, from standard input (docs/LAYOUT.md)",
        page: "\
Requests are S SECTION, T SECTION NUMBER, B SECTION TYPE BODY and R SECTION TYPE BODY BUDGET, bytes in hex, - for none. The \
library's section may come before SECTION; then rows, bytes and places say in which of the two they lie, by the word library or \
addon. A line may end in CR LF. A line that is no request, a blank one too, is answered by error and why, and the exit status \
is 1 after the last. With --comments blank lines are passed over, and what follows # in a line. With --library, a request that has no library of its own is answered as if it had the bytes of FILE.",
    },
    Command {
        name: "help",
        uses: &["help", "help COMMAND", "help man", "help bash|zsh|fish"],
        does: "this page, or that of a command",
        page: "\
COMMAND --help is the same. help man is the manual, for man; help bash, help zsh and help fish are that shell's completions. make \
install puts all four where they are looked for.",
    },
];

pub const INPUTS: &str = "\
SECTION and BODY are hex digits, as 014E00 or '01 4E 00' or 0x01,0x4E,0x00; '' for no bytes; - for standard input, hex digits or
the bytes themselves; or the name of a file. A file holds the bytes themselves; one whose name ends in .hex holds hex digits in
pairs, white space, commas, and comments from # to the end of a line. ./NAME is always a file, hex:DIGITS always bytes.";

const LIBRARY_OPTION: &str = "\
--library FILE  the library: a type section that comes before SECTION, as hex digits, a file or -, like SECTION of check.
                Types are numbered through both, the library's first. Without it there is no library.";

const OUTPUT_OPTION: &str = "\
-o FILE         write what is made to FILE, not to standard output: bytes as they are, or hex digits where the name ends in .hex.";

const OPTIONS: &str = "\
--json          write the answer as JSON, an object a line (docs/JSON.md)
--quiet         say nothing; the exit status is the answer
--help          this page, or after a command that command's
--version       the program's version";

pub const STATUS: &str =
    "exit status: 0 yes, 1 no, 2 bad usage or unreadable input; an add-on that traps or spends its budget was accepted: 0";

pub fn version() -> &'static str {
    env!("CARGO_PKG_VERSION")
}

/// The whole page.
pub fn all() -> String {
    let mut text = String::new();
    for command in COMMANDS {
        for (index, one) in command.uses.iter().enumerate() {
            let before = if text.is_empty() { "use:" } else { "    " };
            let does = if index == 0 { command.does } else { "" };
            text += format!("{before} chelbugan {one:<30} {does}").trim_end();
            text.push('\n');
        }
    }
    format!("{text}\n{INPUTS}\n\n{LIBRARY_OPTION}\n{OUTPUT_OPTION}\n{OPTIONS}\n\n{STATUS}\n")
}

pub fn command(name: &str) -> Option<&'static Command> {
    COMMANDS.iter().find(|command| command.name == name)
}

/// The page of a command.
pub fn page(command: &Command) -> String {
    let uses = command.uses.iter().map(|one| format!("use: chelbugan {one}\n"));
    let uses = uses.collect::<String>();
    let inputs = match command.name {
        "check" | "run" | "type" | "dump" | "print" => format!("\n{INPUTS}\n"),
        _ => String::new(),
    };
    let library = match WITH_LIBRARY.contains(&command.name) {
        true => format!("\n{LIBRARY_OPTION}\n"),
        false => String::new(),
    };
    let output = match WITH_OUTPUT.contains(&command.name) {
        true => format!("{OUTPUT_OPTION}\n"),
        false => String::new(),
    };
    let does = capital(command.does);
    let words = wrapped(command.page);
    format!("{uses}\n{does}.\n\n{words}\n{inputs}{library}{output}\n{STATUS}\n")
}

fn capital(words: &str) -> String {
    let mut characters = words.chars();
    let first = characters.next().map_or(String::new(), |first| first.to_uppercase().to_string());
    first + characters.as_str()
}

const WIDTH: usize = 120;

fn wrapped(words: &str) -> String {
    let mut text = String::new();
    let mut length = 0;
    for word in words.split(' ') {
        if length > 0 && length + word.len() >= WIDTH {
            text.push('\n');
            length = 0;
        } else if length > 0 {
            text.push(' ');
            length += 1;
        }
        text += word;
        length += word.len();
    }
    text
}

/// One line: how a command is called.
pub fn use_of(name: &str) -> String {
    match command(name) {
        Some(command) => {
            let uses: Vec<String> =
                command.uses.iter().map(|one| format!("chelbugan {one}")).collect();
            format!("use: {}; chelbugan help {name} says more", uses.join(", or "))
        }
        None => "use: chelbugan help lists the commands".to_string(),
    }
}

/// "run SECTION needs BODY, TYPE and BUDGET", and how it is called.
pub fn missing(name: &str, given: &[&str], wanted: &[&str]) -> String {
    let wanted = match wanted {
        [one] => one.to_string(),
        [all @ .., last] => format!("{} and {last}", all.join(", ")),
        [] => "nothing".to_string(),
    };
    let called: Vec<&str> = [name].into_iter().chain(given.iter().copied()).collect();
    format!("{} needs {wanted}\n{}", called.join(" "), use_of(name))
}

pub fn too_many(name: &str, extra: &str) -> String {
    format!("{name} takes no further argument: `{extra}`\n{}", use_of(name))
}

/// A command that is meant, where one letter or two are amiss.
pub fn near(name: &str) -> Option<&'static str> {
    let close = |command: &&Command| distance(command.name, name) <= 2;
    COMMANDS.iter().find(close).map(|command| command.name)
}

/// How many letters are put in, left out or changed.
fn distance(one: &str, other: &str) -> usize {
    let other: Vec<char> = other.chars().collect();
    let mut row: Vec<usize> = (0..=other.len()).collect();
    for (line, letter) in one.chars().enumerate() {
        let mut corner = row[0];
        row[0] = line + 1;
        for at in 0..other.len() {
            let changed = corner + (letter != other[at]) as usize;
            corner = row[at + 1];
            row[at + 1] = changed.min(row[at] + 1).min(corner + 1);
        }
    }
    row[other.len()]
}
