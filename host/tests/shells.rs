//! The completions and the manual of host/share, as the shells and man read them.

use std::path::{Path, PathBuf};
use std::process::{Command, Output};

fn file(name: &str) -> PathBuf {
    Path::new(env!("CARGO_MANIFEST_DIR")).join("share").join(name)
}

/// What bash offers for the last word of a call.
fn offered(call: &[&str]) -> Vec<String> {
    let script = "source \"$1\"; shift; COMP_WORDS=(\"$@\"); COMP_CWORD=$(($# - 1)); _chelbugan; printf '%s\\n' \"${COMPREPLY[@]}\"";
    let ended = Command::new("bash")
        .args(["--norc", "-uc", script, "bash"])
        .arg(file("chelbugan.bash"))
        .arg("chelbugan")
        .args(call)
        .output()
        .expect("bash");
    assert!(ended.status.success(), "{}", String::from_utf8_lossy(&ended.stderr));
    let said = String::from_utf8_lossy(&ended.stdout).to_string();
    said.lines().filter(|line| !line.is_empty()).map(String::from).collect()
}

#[test]
fn bash_offers_commands_options_and_words() {
    assert_eq!(offered(&["as"]), ["assemble"]);
    assert_eq!(offered(&[""]).len(), 9);
    assert_eq!(offered(&["dump", ""]), ["section", "body"]);
    assert_eq!(offered(&["--json", "dump", "--library", "x", "s"]), ["section"]);
    assert_eq!(offered(&["explain", "4"]), ["4", "41", "42", "43", "44", "45", "46"]);
    assert_eq!(offered(&["run", "--fa"]), ["--fail-on-trap"]);
    assert_eq!(offered(&["run", "a.hex", "--t"]), ["--trace"]);
    assert_eq!(offered(&["help", "fi"]), ["fish"]);
}

/// Where nothing is offered bash takes the names of files.
#[test]
fn bash_leaves_files_to_itself() {
    for call in [&["check", ""][..], &["dump", "section", ""], &["type", "-o", "se"]] {
        assert_eq!(offered(call), [""; 0], "{call:?}");
    }
    assert_eq!(offered(&["check", "--fa"]), [""; 0]);
}

/// Without a complaint, by those that are installed.
#[test]
fn each_reads_its_own() {
    let reads = [
        ("bash", &["-n"][..], "chelbugan.bash"),
        ("zsh", &["-n"], "_chelbugan"),
        ("fish", &["-n"], "chelbugan.fish"),
        ("man", &["--warnings", "-E", "UTF-8", "-l", "-Z"], "chelbugan.1"),
    ];
    for (program, options, name) in reads {
        let read: Option<Output> =
            Command::new(program).args(options).arg(file(name)).output().ok();
        let Some(read) = read else { continue };
        let said = String::from_utf8_lossy(&read.stderr).to_string();
        assert!(read.status.success() && said.is_empty(), "{program}: {said}");
    }
}
