//! include/chelbugan_host.h, compiled as C and as C++: its functions answer as the calls of chelbugan.h do and leave the same
//! words, its words are docs/REFUSALS.md's, and its struct has the size of docs/EMBEDDING.md.

use host_tests::requests::{generated, Asked, Request};
use std::collections::BTreeMap;
use std::io::Write;
use std::path::{Path, PathBuf};
use std::process::{Command, Stdio};

const LANGUAGES: [(&str, &str); 3] = [("c", "-std=c99"), ("c", "-std=c11"), ("c++", "-std=c++11")];

fn root() -> PathBuf {
    Path::new(env!("CARGO_MANIFEST_DIR")).join("../..").canonicalize().expect("the repository")
}

fn page(name: &str) -> String {
    std::fs::read_to_string(root().join("docs").join(name)).expect("the page")
}

/// The program of a source with the archive. None for C++ where the C compiler has none beside it.
fn built(source: &Path, (language, standard): (&str, &str)) -> Option<PathBuf> {
    let name = source.file_stem().expect("a name").to_string_lossy();
    let program = Path::new(env!("CARGO_TARGET_TMPDIR")).join(format!("{name}{standard}"));
    let ended = Command::new("cc")
        .args(["-O1", "-Wall", "-Wextra", "-Werror", "-pedantic", standard, "-I"])
        .arg(root().join("include"))
        .args(["-x", language])
        .arg(source)
        .args(["-x", "none", env!("CHELBUGAN_ARCHIVE"), "-o"])
        .arg(&program)
        .output()
        .expect("a C compiler");
    let said = String::from_utf8_lossy(&ended.stderr).to_string();
    let cannot = language == "c++" && said.contains("cc1plus");
    assert!(ended.status.success() || cannot, "{standard}: {said}");
    ended.status.success().then_some(program)
}

/// What it prints; its status must be 0.
fn answered(program: &Path, input: &[u8]) -> String {
    let mut running = Command::new(program)
        .stdin(Stdio::piped())
        .stdout(Stdio::piped())
        .spawn()
        .expect("the program starts");
    // It stops reading where the two differ.
    let _ = running.stdin.take().expect("its input").write_all(input);
    let ended = running.wait_with_output().expect("it ends");
    let said = String::from_utf8_lossy(&ended.stdout).to_string();
    assert!(ended.status.success(), "{}: {said}", program.display());
    said
}

/// As struct_calls.c reads it.
fn written(request: &Request) -> Vec<u8> {
    let (letter, number, body, budget): (u8, u64, &[u8], u64) = match &request.asked {
        Asked::Section => (b'S', 0, &[], 0),
        Asked::Type(number) => (b'T', *number, &[], 0),
        Asked::Body(number, body) => (b'B', *number, body, 0),
        Asked::Run(number, body, budget) => (b'R', *number, body, *budget),
    };
    let inputs = [request.library(), &request.section, body];
    let lengths = inputs.map(|input| input.len() as u64);
    let mut bytes = vec![letter, u8::from(request.library.is_some())];
    bytes.extend([number, budget].into_iter().chain(lengths).flat_map(u64::to_le_bytes));
    bytes.extend(inputs.concat());
    bytes
}

#[test]
fn the_functions_answer_as_the_calls_do() {
    let requests: Vec<u8> = generated(29).take(4_000).flat_map(|it| written(&it)).collect();
    let source = root().join("tests/host/struct_calls.c");
    for program in LANGUAGES.into_iter().filter_map(|language| built(&source, language)) {
        let said = answered(&program, &requests);
        let lines: Vec<Vec<u64>> = said
            .lines()
            .map(|line| line.split(' ').filter_map(|word| word.parse().ok()).collect())
            .collect();
        let [section, of_type, body, run, size] = &lines[..] else { panic!("{said}") };
        for (kind, returned) in [(section, 2), (of_type, 2), (body, 2), (run, 4)] {
            assert!(kind[..returned].iter().all(|&times| times > 10), "too few of one: {said}");
            assert!(kind[returned..].iter().all(|&times| times == 0), "{said}");
        }
        let row = format!("| All of it as one struct | {} bytes", with_commas(size[0]));
        assert!(page("EMBEDDING.md").contains(&row), "docs/EMBEDDING.md has no row {row}");
    }
}

fn with_commas(number: u64) -> String {
    match number {
        0..1_000 => number.to_string(),
        _ => format!("{},{:03}", with_commas(number / 1_000), number % 1_000),
    }
}

/// The table of docs/REFUSALS.md, which a test of the program holds to `chelbugan explain`.
fn titles() -> BTreeMap<(bool, u64), String> {
    let page = page("REFUSALS.md");
    let rows = page.lines().filter_map(|line| line.strip_prefix("| ["));
    let of_row = |row: &str| {
        let (number, rest) = row.split_once("](#").expect("a link");
        let title = rest.split(" | ").nth(1).expect("the words");
        ((rest.starts_with("trap")), number.parse().expect("a number"), title.to_string())
    };
    rows.map(of_row).map(|(trap, number, title)| ((trap, number), title)).collect()
}

#[test]
fn the_words_are_the_pages() {
    let titles = titles();
    assert_eq!(titles.len(), 31);
    let source = Path::new(env!("CARGO_TARGET_TMPDIR")).join("words.c");
    let program = "#include <stdio.h>\n#include \"chelbugan_host.h\"\nint main(void) {\n\
        for (uint64_t n = 0; n < 300; n++)\n\
        printf(\"%s\\n%s\\n\", chelbugan_refusal_text(n), chelbugan_trap_text(n));\n\
        printf(\"%s%s\", chelbugan_refusal_text(UINT64_MAX), chelbugan_trap_text(UINT64_MAX));\n\
        return 0;\n}\n";
    std::fs::write(&source, program).expect("the program's file");
    let wanted: String = (0..300)
        .flat_map(|number| [(false, number), (true, number)])
        .map(|of| titles.get(&of).map_or("\n".to_string(), |title| format!("{title}\n")))
        .collect();
    for program in LANGUAGES.into_iter().filter_map(|language| built(&source, language)) {
        assert_eq!(answered(&program, &[]), wanted);
    }
}
