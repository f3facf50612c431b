//! The program's words: inputs, options, help, and what is said of a call that misses something.

mod common;

use common::{chelbugan, chelbugan_fed, misused, no, yes, OwnFile};
use std::process::{Command, Stdio};

const F1: &str = "02 4E 02 4D 01 5F 00 4C 00 5F 00 60 00 01 64 62 00";

/// No bytes at all is '', - is standard input: bytes, or hex digits in text.
#[test]
fn standard_input_and_no_bytes() {
    assert!(no(&["check", ""]).starts_with("no: refusal 1 at byte 0\n"));
    for input in [&b"\x01\x5F\x00"[..], b"01 5F 00\n", b"\xEF\xBB\xBF0x01,0x5f, 00 # a struct\r\n"]
    {
        let said = chelbugan_fed(&["check", "-"], input);
        assert_eq!((said.status, said.out.lines().next()), (0, Some("yes: 1 type")));
    }
    assert!(chelbugan_fed(&["check", "-"], b"").out.starts_with("no: refusal 1 at byte 0\n"));
    let said = chelbugan_fed(&["check", "-"], b"01 5F 0\n");
    assert_eq!(said.status, 2);
    assert!(said.err.contains("standard input: line 1, column 7"), "{}", said.err);
    let body = chelbugan_fed(&["check", "01600000", "-", "0"], b"\0\x0b");
    assert_eq!(body.out, "yes: 1 instruction\n");
    let digits = chelbugan_fed(&["check", "hex:-"], b"015F00");
    assert_eq!(digits.status, 0);
    let twice = chelbugan_fed(&["check", "-", "-", "0"], b"00");
    assert!(twice.err.contains("standard input can stand for one input alone"), "{}", twice.err);
}

/// Both readings are named, and both ways out lead there.
#[test]
fn a_name_that_is_a_file_and_hex_digits_is_refused() {
    let folder = std::env::temp_dir().join(format!("chelbugan-words-{}", std::process::id()));
    std::fs::create_dir_all(&folder).expect("a folder");
    std::fs::write(folder.join("015F00"), [0x00]).expect("a file");
    std::fs::write(folder.join("abc"), [0x00]).expect("a file");
    let here = |arguments: &[&str]| {
        let mut program = Command::new(env!("CARGO_BIN_EXE_chelbugan"));
        let said = program.args(arguments).current_dir(&folder).output().expect("it runs");
        let text = |bytes: Vec<u8>| String::from_utf8(bytes).expect("text");
        (said.status.code().expect("a status"), text(said.stdout), text(said.stderr))
    };
    let (status, out, err) = here(&["check", "015F00"]);
    assert_eq!((status, out.as_str()), (2, ""));
    assert!(err.contains("./015F00 for the file, hex:015F00 for the bytes"), "{err}");
    assert!(here(&["check", "./015F00"]).1.starts_with("yes: 0 types\n"));
    assert!(here(&["check", "hex:015F00"]).1.starts_with("yes: 1 type\n"));
    // Three digits are no bytes: the file is meant.
    assert!(here(&["check", "abc"]).1.starts_with("yes: 0 types\n"));
    std::fs::remove_dir_all(&folder).expect("it was there");
}

#[test]
fn hex_is_read_in_pairs() {
    let wanted = yes(&["check", F1]);
    let ways = [
        F1.replace(' ', ""),
        F1.replace(' ', ","),
        F1.replace(' ', ", "),
        F1.split(' ').map(|pair| format!("0x{pair} ")).collect(),
        format!("{F1} # and why"),
        format!("hex:{F1}"),
    ];
    for way in ways {
        assert_eq!(yes(&["check", &way]), wanted, "{way}");
    }
    let file = OwnFile::new("marked.hex", format!("\u{FEFF}# F1\r\n{F1} # here\r\n").as_bytes());
    assert_eq!(yes(&["check", file.name()]), wanted);
    let pairs = misused(&["check", "1 5F 0"]);
    assert!(pairs.contains("line 1, column 1: `1` is one hex digit; a byte is two"), "{pairs}");
    let odd = misused(&["check", "014"]);
    assert!(odd.contains("line 1, column 1: the number of hex digits is odd"), "{odd}");
    let file = OwnFile::new("bad.hex", b"01 5F\n  0g 00");
    let bad = misused(&["check", file.name()]);
    assert!(bad.contains("bad.hex: line 2, column 4: `g` is no hex digit"), "{bad}");
    let slip = misused(&["check", "01 5G 00"]);
    assert!(slip.contains("no such file, and not hex digits (line 1, column 5"), "{slip}");
}

/// A file of hex digits under another name is refused as the bytes that it holds, with a word on what they look like.
#[test]
fn a_file_of_digits_without_its_ending_is_recognised() {
    let file = OwnFile::new("digits.txt", b"01 5F 00\n");
    let said = no(&["check", file.name()]);
    assert!(said.contains("these bytes are hex digits in text"), "{said}");
}

#[test]
fn help_and_version() {
    assert_eq!(yes(&["--version"]), format!("chelbugan {}\n", env!("CARGO_PKG_VERSION")));
    assert_eq!(yes(&["-V"]), yes(&["--version"]));
    let all = yes(&["help"]);
    assert!(all.starts_with("use: chelbugan check SECTION"), "{all}");
    assert_eq!(yes(&["--help"]), all);
    assert_eq!(yes(&["-h"]), all);
    for command in ["check", "run", "type", "explain", "dump", "print", "assemble", "lines", "help"]
    {
        assert!(all.contains(&format!(" chelbugan {command}")), "{all}");
        let page = yes(&["help", command]);
        assert!(page.starts_with(&format!("use: chelbugan {command}")), "{page}");
        assert_eq!(yes(&[command, "--help"]), page);
    }
    for command in ["check", "run", "type", "dump", "print", "assemble", "lines"] {
        let page = yes(&["help", command]);
        assert!(page.contains("\n--library FILE  the library: a type section"), "{page}");
        assert!(page.matches("--library").count() > 1, "its own words on it: {page}");
    }
    for command in ["explain", "help"] {
        assert!(!yes(&["help", command]).contains("--library"), "{command}");
    }
    assert!(all.contains("\n--library FILE  the library: a type section"), "{all}");
    assert!(misused(&["help", "chekc"]).contains("there is no command chekc; check is one"));
    assert!(all.lines().all(|line| line.len() <= 130), "{all}");
}

/// What is missing is named, in two lines.
#[test]
fn bad_usage_is_told_in_two_lines() {
    let cases: [(&[&str], &str); 36] = [
        (&[], "no command was given"),
        (&["chekc", "00"], "there is no command chekc; check is one"),
        (&["frobnicate"], "there is no command frobnicate"),
        (&["check"], "check needs SECTION"),
        (&["check", "00", "00"], "check SECTION BODY needs TYPE"),
        (&["run"], "run needs SECTION, BODY, TYPE and BUDGET"),
        (&["run", "00"], "run SECTION needs BODY, TYPE and BUDGET"),
        (&["run", "00", "00", "0"], "run SECTION BODY TYPE needs BUDGET"),
        (&["run", "00", "00", "0", "1", "2"], "run takes no further argument: `2`"),
        (&["type", "00"], "type SECTION needs NUMBER"),
        (&["type", "00", "0", "1"], "type takes no further argument: `1`"),
        (&["lines", "00"], "lines takes no further argument: `00`"),
        (&["dump"], "dump needs section or body and its bytes"),
        (&["dump", "00"], "dump needs section or body before its bytes, and 00 is neither"),
        (&["dump", "section"], "dump section needs SECTION"),
        (&["print", "body"], "print body needs BODY"),
        (&["assemble", "section"], "assemble section needs TEXT"),
        (&["explain", "26"], "there is no refusal or trap 26"),
        (&["check", "--loud", "00"], "there is no option --loud"),
        (&["check", "00", "--library"], "--library needs FILE"),
        (&["check", "--library", "00"], "check needs SECTION"),
        (&["check", "--library", "00", "--library=00", "00"], "--library can be given once"),
        (&["print", "section", "00", "-o"], "-o needs FILE"),
        (&["print", "-o", "a", "--output=b", "section", "00"], "-o can be given once"),
        (&["check", "-o", "a", "00"], "check has no option -o"),
        (&["check", "--librar", "00", "00"], "there is no option --librar"),
        (&["check", "--library", "00", "00", "00"], "check SECTION BODY needs TYPE"),
        (&["run", "--library", "00", "00"], "run SECTION needs BODY, TYPE and BUDGET"),
        (&["explain", "--library", "00", "1"], "explain has no option --library"),
        (&["help", "--library", "00"], "help has no option --library"),
        (&["dump", "--library", "00"], "dump needs section or body and its bytes"),
        (&["dump", "body", "--library", "00", "000b"], "dump body takes no library"),
        (&["print", "body", "--library", "00", "000b"], "print body takes no library"),
        (
            &["assemble", "body", "--library", "00", "(func nop)"],
            "assemble body takes a library with a (module ..) alone",
        ),
        (&["lines", "--library", "-"], "lines reads its requests from standard input"),
        (&["lines", "--library", "hex:-"], "lines reads its requests from standard input"),
    ];
    for (arguments, words) in cases {
        let said = misused(arguments);
        assert!(said.starts_with(&format!("chelbugan: {words}")), "{arguments:?}: {said}");
        assert_eq!(said.lines().count(), 2, "{arguments:?}: {said}");
    }
    for (arguments, words) in [
        (&["check", "00", "00", "x"][..], "x: a number is decimal digits"),
        (&["type", "00", "-1"], "-1: a number is decimal digits"),
        (&["check", "00", "no/such/body", "0"], "no/such/body: no such file, and not hex digits"),
        (&["check", "/"], "/: cannot be read"),
        (&["explain", "1", "2"], "explain takes no further argument: `2`"),
        (&["assemble", "body", "no-such"], "no-such: no such file\n"),
        (
            &["assemble", "section", "(memory 1)"],
            "`(type` or `(rec` is wanted here, and not `(memory`",
        ),
        (&["explain", "x"], "x: a number is decimal digits"),
        (&["print", "--quiet", "section", "00"], "print has no option --quiet"),
        (&["check", "--library", "no/such", "00"], "no/such: no such file, and not hex digits"),
        (&["check", "--library", "1 5F", "00", "00", "00"], "`1` is one hex digit; a byte is two"),
        (&["check", "--library", "-", "-"], "standard input can stand for one input alone"),
        (&["lines", "--library", "no/such"], "no/such: no such file, and not hex digits"),
        (&["assemble", "section", "--library", "01 7B", ""], "byte 1 of the library: 7b is"),
    ] {
        let said = misused(arguments);
        assert!(said.contains(words), "{arguments:?}: {said}");
    }
    let both = chelbugan(&["check", "--quiet", "--json", "00"]);
    assert_eq!(both.status, 2);
    assert!(both.out.contains("--quiet and --json cannot both be obeyed"), "{}", both.out);
    assert!(yes(&["check", "--", "00"]).starts_with("yes: 0 types"));
}

/// A line each, and the worst exit status.
#[test]
fn many_files_have_a_line_each() {
    let good = OwnFile::new("good.hex", b"01 5F 00");
    let bad = OwnFile::new("bad-section.hex", b"00 00");
    let both = chelbugan(&["check", bad.name(), good.name()]);
    let lines = format!(
        "{}: no: refusal 5 at byte 1: 1 byte is left over\n{}: yes: 1 type\n",
        bad.name(),
        good.name()
    );
    assert_eq!((both.status, both.out, both.err.as_str()), (1, lines, ""));
    assert_eq!(chelbugan(&["check", good.name(), good.name()]).status, 0);
    let four = chelbugan(&["check", good.name(), "no/such/file", bad.name(), good.name()]);
    assert_eq!((four.status, four.out.lines().count()), (2, 3), "{}", four.out);
    assert_eq!(four.err, "chelbugan: no/such/file: no such file, and not hex digits\n");
    let none = chelbugan(&["check", good.name(), "no/such/file"]);
    assert_eq!((none.status, none.out.lines().count()), (2, 1), "{}", none.out);
    // Two files of which the second is no section: a body whose type was forgotten.
    let forgotten = chelbugan(&["check", good.name(), bad.name()]);
    assert_eq!((forgotten.status, forgotten.out.lines().count()), (1, 2));
    assert!(forgotten.err.contains("check SECTION BODY needs TYPE"), "{}", forgotten.err);
}

#[test]
fn quiet_says_nothing() {
    let cases: [(&[&str], i32); 7] = [
        (&["check", "--quiet", F1], 0),
        (&["check", "-q", "00 00"], 1),
        (&["check", "-q", F1, "00 FB 00 01 FB 20 00 0B", "2"], 0),
        (&["check", "-q", F1, "00 FB 00 00 0B", "2"], 1),
        (&["run", "-q", F1, "00 FB 00 01 FB 20 00 0B", "2", "10"], 0),
        (&["type", "-q", F1, "7"], 1),
        (&["dump", "-q", "section", "01 FF"], 1),
    ];
    for (arguments, status) in cases {
        let said = chelbugan(arguments);
        assert_eq!((said.status, said.out.as_str(), said.err.as_str()), (status, "", ""));
    }
}

/// A reader that goes away at once: no words, and the verdict's exit status.
#[test]
fn a_closed_pipe_ends_it_quietly() {
    let many: Vec<String> = vec!["00 00".to_string(); 2_000];
    let many = many.iter().map(String::as_str).collect::<Vec<_>>();
    let nested = format!("00 {}{}", "02 40 ".repeat(8_000), "0B ".repeat(8_001));
    let cases: [(Vec<&str>, i32); 6] = [
        (vec!["check", F1], 0),
        (vec!["check", "00 00"], 1),
        (vec!["explain", "--page"], 0),
        (vec!["dump", "body", &nested], 0),
        (vec!["dump", "section", "01 FF"], 1),
        (["check"].into_iter().chain(many).collect(), 1),
    ];
    for (arguments, status) in cases {
        let mut program = Command::new(env!("CARGO_BIN_EXE_chelbugan"));
        program.args(&arguments).stdin(Stdio::null());
        let mut running =
            program.stdout(Stdio::piped()).stderr(Stdio::piped()).spawn().expect("it starts");
        drop(running.stdout.take());
        let ended = running.wait_with_output().expect("it ends");
        let err = String::from_utf8(ended.stderr).expect("text");
        assert_eq!((ended.status.code(), err.as_str()), (Some(status), ""), "{}", arguments[0]);
    }
    let mut program = Command::new(env!("CARGO_BIN_EXE_chelbugan"));
    program.arg("lines").stdin(Stdio::piped()).stdout(Stdio::piped()).stderr(Stdio::piped());
    let mut running = program.spawn().expect("it starts");
    drop(running.stdout.take());
    let mut requests = running.stdin.take().expect("a pipe");
    let _ = std::io::Write::write_all(&mut requests, "S 00\n".repeat(10_000).as_bytes());
    drop(requests);
    let ended = running.wait_with_output().expect("it ends");
    assert_eq!((ended.status.code(), ended.stderr), (Some(0), Vec::new()));
}

/// Where standard output is a terminal and NO_COLOR is not set. `script` gives a terminal where it is there.
#[test]
fn colour_is_for_a_terminal() {
    assert!(!no(&["check", "00 00"]).contains('\u{1b}'));
    let on_terminal = |no_color: Option<&str>| {
        let mut program = Command::new("script");
        let command = format!("{} check '00 00'", env!("CARGO_BIN_EXE_chelbugan"));
        program.args(["-qec", &command, "/dev/null"]).env("TERM", "xterm").env_remove("NO_COLOR");
        if let Some(value) = no_color {
            program.env("NO_COLOR", value);
        }
        let said = program.stdin(Stdio::null()).output().ok()?;
        Some(String::from_utf8_lossy(&said.stdout).to_string())
    };
    let Some(coloured) = on_terminal(None).filter(|said| said.contains("refusal 5")) else {
        return;
    };
    assert!(coloured.contains("\u{1b}[31mno:"), "{coloured:?}");
    assert!(on_terminal(Some("")).expect("again").contains('\u{1b}'));
    assert!(!on_terminal(Some("1")).expect("again").contains('\u{1b}'));
}

/// What is made goes to the file and nothing to standard output; a file of bytes is read again as it was written.
#[test]
fn what_is_made_goes_to_a_file() {
    let file = OwnFile::new("made", b"");
    let digits = OwnFile::new("made.hex", b"");
    let read = |file: &OwnFile| std::fs::read(file.name()).expect("it was written");
    let text = "(type (struct))";
    assert_eq!(yes(&["assemble", "section", text, "-o", file.name()]), "");
    assert_eq!(read(&file), [0x01, 0x5F, 0x00]);
    assert_eq!(yes(&["assemble", "section", text, "--output", digits.name()]), "");
    assert_eq!(read(&digits), b"01 5f 00\n");
    assert!(yes(&["check", file.name(), digits.name()]).contains(": yes: 1 type\n"));
    assert_eq!(yes(&["assemble", "--raw", "section", text, "-o", digits.name()]), "");
    assert_eq!(read(&digits), [0x01, 0x5F, 0x00]);
    assert_eq!(yes(&["type", "01 5F 00", "0", &format!("--output={}", file.name())]), "");
    assert_eq!(read(&file), [0x5F, 0x00]);
    for made in [&["print", "section", "01 5F 00"][..], &["dump", "section", "01 5F 00"]] {
        assert_eq!(yes(&[made, &["-o", file.name()]].concat()), "");
        assert_eq!(String::from_utf8(read(&file)).expect("text"), yes(made));
        assert_eq!(yes(&[made, &["-o", "-"]].concat()), yes(made));
    }
    // Where nothing is made, nothing is written.
    let before = read(&file);
    assert!(no(&["type", "00 00", "0", "-o", file.name()]).starts_with("no: refusal 5"));
    assert!(misused(&["assemble", "body", "(func nopp)", "-o", file.name()]).contains("nopp"));
    assert_eq!(read(&file), before);
    assert!(
        misused(&["print", "section", "00", "-o", "/no/such/file"]).contains("cannot be written")
    );
    let said = chelbugan(&["print", "section", "00", "--json", "-o", file.name()]);
    assert!(said.out.contains("--json and -o cannot both be obeyed"), "{}", said.out);
    assert!(misused(&["dump", "--quiet", "section", "00", "-o", file.name()])
        .contains("--quiet and -o cannot both be obeyed"));
}

/// A name is bytes; what is no text is shown with marks.
#[test]
fn names_of_files_need_not_be_text() {
    use std::ffi::{OsStr, OsString};
    use std::os::unix::ffi::OsStrExt;
    let named = |name: &[u8]| {
        let folder = std::env::temp_dir();
        let own = [format!("chelbugan-{}-", std::process::id()).as_bytes(), name].concat();
        folder.join(OsStr::from_bytes(&own))
    };
    let run = |arguments: &[&OsStr]| {
        let mut program = std::process::Command::new(env!("CARGO_BIN_EXE_chelbugan"));
        let ended = program.args(arguments).output().expect("the program starts");
        let text = |bytes| String::from_utf8(bytes).expect("it writes text");
        (ended.status.code(), text(ended.stdout), text(ended.stderr))
    };
    let word = OsStr::new;
    let (made, absent) = (named(b"\xFF.hex"), named(b"\xFE"));
    let (status, out, err) = run(&[
        word("assemble"),
        word("section"),
        word("(type (struct))"),
        word("-o"),
        made.as_os_str(),
    ]);
    assert_eq!((status, out.as_str(), err.as_str()), (Some(0), "", ""));
    let (status, out, _) = run(&[word("check"), made.as_os_str()]);
    assert_eq!(status, Some(0), "{out}");
    assert!(out.starts_with("yes: 1 type\n"), "{out}");
    let mut library = OsString::from("--library=");
    library.push(&made);
    let (status, out, _) = run(&[word("check"), &library, word("00")]);
    assert_eq!(status, Some(0), "{out}");
    assert!(out.starts_with("yes: 1 type, 1 of the library\n"), "{out}");
    let (status, _, err) = run(&[word("check"), absent.as_os_str()]);
    assert_eq!(status, Some(2), "{err}");
    assert!(err.contains("\u{FFFD}: no such file"), "{err}");
    // Errors of usage are JSON too, where --json stands before `--`.
    let (status, out, err) = run(&[word("check"), absent.as_os_str(), word("--json")]);
    assert_eq!((status, err.as_str()), (Some(2), ""));
    assert!(out.starts_with("{\"answer\":\"error\",\"message\":"), "{out}");
    let (status, out, err) = run(&[word("check"), word("--"), word("--json")]);
    assert_eq!((status, out.as_str()), (Some(2), ""), "{err}");
    std::fs::remove_file(made).expect("it can be removed");
}
