//! docs/EMBEDDING.md's hosts are compiled as they stand there, run, and held to what the page says.

use std::path::{Path, PathBuf};
use std::process::{Command, Output};

/// F1's struct with its descriptor, as a library.
const LIBRARY: [u8; 11] = [0x01, 0x4E, 0x02, 0x4D, 0x01, 0x5F, 0x00, 0x4C, 0x00, 0x5F, 0x00];

/// F1's function, type 2: it gives a (ref (exact 0)).
const SECTION: [u8; 7] = [0x01, 0x60, 0x00, 0x01, 0x64, 0x62, 0x00];

/// Its clauses disagree: 11, type 1.
const DISAGREE: [u8; 13] =
    [0x01, 0x4E, 0x03, 0x5F, 0x00, 0x4D, 0x02, 0x5F, 0x00, 0x4C, 0x00, 0x5F, 0x00];

/// Of type 2: 3 instructions.
const BODY: [u8; 8] = [0x00, 0xFB, 0x00, 0x01, 0xFB, 0x20, 0x00, 0x0B];

/// A struct with a descriptor made without one: 23 at 1.
const WITHOUT: [u8; 5] = [0x00, 0xFB, 0x00, 0x00, 0x0B];

/// An object asked for with a null descriptor: trap 43 at 4, the second step.
const NULL: [u8; 8] = [0x00, 0xD0, 0x62, 0x01, 0xFB, 0x20, 0x00, 0x0B];

fn root() -> PathBuf {
    Path::new(env!("CARGO_MANIFEST_DIR")).join("../..").canonicalize().expect("the repository")
}

/// The one block of the page that is marked with a language.
fn block(language: &str) -> String {
    let page = std::fs::read_to_string(root().join("docs/EMBEDDING.md")).expect("the page");
    let blocks: Vec<&str> = page.split(&format!("\n```{language}\n")).skip(1).collect();
    assert_eq!(blocks.len(), 1, "one block of {language}");
    blocks[0].split("```\n").next().expect("its end").to_string()
}

fn folder(name: &str) -> PathBuf {
    let folder = Path::new(env!("CARGO_TARGET_TMPDIR")).join(name);
    std::fs::create_dir_all(&folder).expect("a folder for the host");
    folder
}

/// The host with these inputs as files beside it.
fn run(program: &Path, sections: [&[u8]; 2], body: &[u8], numbers: [&str; 2]) -> Output {
    let file = |name: &str, content: &[u8]| {
        let path = program.with_extension(name);
        std::fs::write(&path, content).expect("an input's file");
        path
    };
    let mut host = Command::new(program);
    let [library, section] = sections;
    host.arg(file("library", library)).arg(file("section", section));
    host.arg(file("body", body)).args(numbers);
    host.output().expect("the host starts")
}

/// What the page says that a host prints, and its status.
fn held_to_the_page(program: &Path) {
    let said_of = |sections, body: &[u8], numbers: [&str; 2]| {
        let output = run(program, sections, body, numbers);
        (String::from_utf8_lossy(&output.stdout).to_string(), output.status.code())
    };
    let said = |body: &[u8], numbers| said_of([&LIBRARY, &SECTION], body, numbers);
    let page = block("text");
    let (types, body) = page.split_at(page.find("the body").expect("the body's line"));
    let (accepted, objects) = body.split_at(body.find("object").expect("the objects"));
    assert_eq!(accepted, "the body has 3 instructions\nthe run: done after 3 steps, 1 results\n");
    assert_eq!(said(&BODY, ["2", "100"]), (page.clone(), Some(0)));
    let run = |line: &str, objects: &str, status: i32| {
        (format!("{types}the body has 3 instructions\nthe run: {line}\n{objects}"), Some(status))
    };
    assert_eq!(said(&BODY, ["2", "2"]), run("spent after 2 steps", objects, 0));
    assert_eq!(said(&NULL, ["2", "100"]), run("trap 43 at 4, after 2 steps", "", 0));
    assert_eq!(said(&BODY, ["2", "1000001"]), run("refusal 4 at 0", "", 1));
    let below_the_types = |line: &str| (format!("{types}{line}\n"), Some(1));
    assert_eq!(said(&WITHOUT, ["2", "1"]), below_the_types("the body: refusal 23 at 1"));
    assert_eq!(said(&BODY, ["0", "1"]), below_the_types("the body: refusal 27 at 0"));
    assert_eq!(said(&[0; 40_000], ["2", "1"]), below_the_types("the body: refusal 4 at 0"));
    let of = |library, section| said_of([library, section], &BODY, ["2", "1"]);
    let alone = |line: &str| (format!("{line}\n"), Some(1));
    let (none, long): (&[u8], &[u8]) = (&[0x00], &[0x00; 32_769]);
    assert_eq!(of(none, &DISAGREE), alone("the section: refusal 11 at 1"));
    assert_eq!(of(&DISAGREE, none), alone("the section: refusal 11 at 1"));
    assert_eq!(of(&LIBRARY, long), alone("the section: refusal 4 at 0 of the add-on"));
    assert_eq!(of(long, &SECTION), alone("the section: refusal 4 at 0 of the library"));
    let absent = Command::new(program).args(["no", "such", "file", "2", "1"]).output();
    let absent = absent.expect("it starts");
    assert_ne!(absent.status.code(), Some(0));
}

#[test]
fn the_host_in_c() {
    let folder = folder("c");
    std::fs::write(folder.join("host.c"), block("c")).expect("the host's source");
    let compiled = Command::new("cc")
        .args(["-std=c99", "-Wall", "-Wextra", "-Werror", "-pedantic", "-I"])
        .arg(root().join("include"))
        .arg(folder.join("host.c"))
        .arg(env!("CHELBUGAN_ARCHIVE"))
        .arg("-o")
        .arg(folder.join("host"))
        .status();
    assert!(compiled.expect("a C compiler").success());
    held_to_the_page(&folder.join("host"));
}

/// `make install`, or another target that takes its words.
fn make(target: &str, below: &Path, words: &[&str]) {
    let archive = Path::new(env!("CHELBUGAN_ARCHIVE")).parent().expect("its folder");
    let made = Command::new("make")
        .args(["--silent", target])
        .args(words)
        .arg(format!("DESTDIR={}", below.display()))
        .arg(format!("CHELBUGAN_LIB_DIR={}", archive.display()))
        .current_dir(root())
        .output()
        .expect("make");
    assert!(made.status.success(), "{}", String::from_utf8_lossy(&made.stderr));
}

/// What is said for `Cflags:` or `Libs:`, with the variables' values in place, and split as a shell does it: a part between
/// quotes is no end of a word.
fn flags(words: &str, name: &str, below: &Path) -> Vec<String> {
    let value = |name: &str| words.lines().find_map(|line| line.strip_prefix(name)).expect(name);
    let prefix = value("prefix=");
    let libdir = value("libdir=").replace("${prefix}", prefix);
    let includedir = value("includedir=").replace("${prefix}", prefix);
    let under = |folder: &str| format!("{}{folder}", below.display());
    let line = value(name)
        .replace("${libdir}", &under(&libdir))
        .replace("${includedir}", &under(&includedir));
    let mut parts = vec![String::new()];
    for (index, part) in line.split('"').enumerate() {
        for (count, word) in part.split(|end| end == ' ' && index % 2 == 0).enumerate() {
            if count > 0 {
                parts.push(String::new());
            }
            *parts.last_mut().expect("a part") += word;
        }
    }
    parts.into_iter().filter(|part| !part.is_empty()).collect()
}

/// What `make install` puts below a folder is all that a host in C needs, by the words of its pkg-config file; and `make
/// uninstall` leaves no file of it.
fn installed(name: &str, words: &[&str], library: &str, first_lines: &str) {
    let (below, folder) = (folder(name), folder(&format!("c_{name}")));
    make("install", &below, words);
    let config = below.join(library.trim_start_matches('/')).join("pkgconfig/chelbugan.pc");
    let config = std::fs::read_to_string(config).expect("the pkg-config file");
    assert!(config.starts_with(first_lines), "{config}");
    let version = chelbugan::calls::version();
    let [major, minor, patch] = [version / 10_000, version / 100 % 100, version % 100];
    assert!(config.contains(&format!("\nVersion: {major}.{minor}.{patch}\n")), "{config}");
    std::fs::write(folder.join("host.c"), block("c")).expect("the host's source");
    let compiled = Command::new("cc")
        .args(flags(&config, "Cflags:", &below))
        .arg(folder.join("host.c"))
        .args(flags(&config, "Libs:", &below))
        .arg("-o")
        .arg(folder.join("host"))
        .status();
    assert!(compiled.expect("a C compiler").success());
    held_to_the_page(&folder.join("host"));
    make("uninstall", &below, words);
    assert_eq!(files_below(&below), [PathBuf::new(); 0]);
}

fn files_below(folder: &Path) -> Vec<PathBuf> {
    let entries =
        std::fs::read_dir(folder).expect("a folder").map(|entry| entry.expect("it").path());
    let (folders, mut files): (Vec<_>, Vec<_>) = entries.partition(|path| path.is_dir());
    files.extend(folders.iter().flat_map(|folder| files_below(folder)));
    files
}

#[test]
fn the_host_in_c_with_what_is_installed() {
    let lines = "prefix=/opt/some\nlibdir=${prefix}/lib\nincludedir=${prefix}/include\n";
    installed("installed", &["PREFIX=/opt/some"], "/opt/some/lib", lines);
}

#[test]
fn installed_where_names_have_spaces_and_the_library_lies_elsewhere() {
    let lines = "prefix=/opt/some where\nlibdir=${prefix}/lib 64\nincludedir=${prefix}/include\n";
    let words = ["PREFIX=/opt/some where", "LIBDIR=/opt/some where/lib 64"];
    installed("installed here", &words, "/opt/some where/lib 64", lines);
    let lines = "prefix=/opt/some\nlibdir=/usr/lib/x\nincludedir=${prefix}/include\n";
    let words = ["PREFIX=/opt/some", "LIBDIR=/usr/lib/x"];
    installed("installed_elsewhere", &words, "/usr/lib/x", lines);
}

#[test]
fn the_host_in_rust() {
    let beside = folder("rust");
    let folder = beside.join("some_host");
    std::fs::create_dir_all(folder.join("src")).expect("a folder for its source");
    // This test's folder lies in another package, of which the host is no part.
    let package = block("toml") + "\n[workspace]\n";
    std::fs::write(folder.join("Cargo.toml"), package).expect("the host's package");
    std::fs::write(folder.join("src/main.rs"), block("rust")).expect("the host's source");
    let link = beside.join("chelbugan");
    let _ = std::fs::remove_file(&link);
    std::os::unix::fs::symlink(root(), &link).expect("the repository beside the host");
    let built = Command::new(env!("CARGO"))
        .args(["build", "--release", "--quiet", "--offline", "--target-dir"])
        .arg(folder.join("target"))
        .current_dir(&folder)
        .status();
    assert!(built.expect("cargo").success());
    held_to_the_page(&folder.join("target/release/some_host"));
}
