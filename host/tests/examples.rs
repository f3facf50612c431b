//! Each example says its answer, and how its run ends where it is to be run; the program and the plain checker say the same.

mod common;

use common::{asked, chelbugan};
use std::path::{Path, PathBuf};

fn folder() -> PathBuf {
    Path::new(env!("CARGO_MANIFEST_DIR")).join("../examples")
}

fn examples() -> Vec<PathBuf> {
    let files = std::fs::read_dir(folder()).expect("the examples");
    let files = files.map(|file| file.expect("a file").path());
    files.filter(|file| file.extension().is_some_and(|end| end == "hex")).collect()
}

/// A file's bytes as a request line has them, without its comments.
fn bytes(text: &str) -> String {
    let lines = text.lines().map(|line| line.split_once('#').map_or(line, |(bytes, _)| bytes));
    lines.collect::<String>().split_whitespace().collect()
}

struct Example {
    name: String,
    /// As the file promises it.
    answer: String,
    /// The plain checker's request.
    request: String,
    /// The program's arguments after `check`.
    arguments: Vec<String>,
    is_body: bool,
    /// Of its section, or of its body's.
    library: Option<PathBuf>,
    /// The budget and how the run ends.
    run: Option<(String, String)>,
}

/// What stands after some words at the start of a line.
fn said<'t>(text: &'t str, words: &str) -> Option<&'t str> {
    text.lines().find_map(|line| line.strip_prefix(words))
}

fn content(file: &Path) -> String {
    std::fs::read_to_string(file).expect("the example")
}

fn name(file: &Path) -> String {
    file.to_str().expect("a name").to_string()
}

/// The library that a section's text names, as a request's word and as an option.
fn library_of(section: &str) -> (Option<PathBuf>, String, Vec<String>) {
    let library = said(section, "# After the library ").map(|name| folder().join(name));
    let word = library.iter().map(|file| bytes(&content(file)) + " ").collect();
    let option = library.iter().flat_map(|file| ["--library".to_string(), name(file)]).collect();
    (library, word, option)
}

fn read(file: &Path) -> Example {
    let text = content(file);
    let answer = said(&text, "# Answer: ").expect("its answer").to_string();
    let own = name(file);
    let Some(body_of) = said(&text, "# Body of type ") else {
        let (library, word, mut arguments) = library_of(&text);
        let request = format!("S {word}{}", bytes(&text));
        arguments.push(own.clone());
        let run = None;
        return Example { name: own, answer, request, arguments, is_body: false, library, run };
    };
    let run = said(&text, "# Run with a budget of ").and_then(|run| run.split_once(": "));
    let run = run.map(|(budget, ending)| (budget.to_string(), ending.to_string()));
    let (number, section) = body_of.split_once(" of ").expect("a type's number and a section");
    let section = folder().join(section);
    let types = content(&section);
    let (library, word, mut arguments) = library_of(&types);
    let request = format!("B {word}{} {number} {}", bytes(&types), bytes(&text));
    arguments.extend([name(&section), own.clone(), number.to_string()]);
    Example { name: own, answer, request, arguments, is_body: true, library, run }
}

/// The first line that a person reads, and the exit status.
fn wanted(example: &Example) -> (i32, String) {
    let parts: Vec<&str> = example.answer.split(' ').collect();
    match parts[..] {
        ["yes", count] if example.is_body => (0, format!("yes: {count} instructions")),
        ["yes", count] if example.library.is_some() => {
            (0, format!("yes: {count} types, 4 of the library"))
        }
        ["yes", count] => (0, format!("yes: {count} types")),
        ["no", number, place] if example.is_body => {
            (1, format!("no: refusal {number} at byte {place} of the body"))
        }
        ["no", number, place] if number.parse::<u32>().unwrap() <= 5 => {
            (1, format!("no: refusal {number} at byte {place}"))
        }
        ["no", number, place] if example.library.is_some() => {
            let own = place.parse::<u32>().expect("a number") - 4;
            (1, format!("no: refusal {number} at type {place}, the add-on's type {own}"))
        }
        ["no", number, place] => (1, format!("no: refusal {number} at type {place}")),
        _ => panic!("{}: {}", example.name, example.answer),
    }
}

#[test]
fn examples_are_answered_as_they_say() {
    let examples: Vec<Example> = examples().iter().map(|file| read(file)).collect();
    assert!(examples.iter().filter(|example| example.is_body).count() >= 4);
    assert!(examples.iter().filter(|example| !example.is_body).count() >= 5);
    assert!(examples.iter().filter(|example| example.library.is_some()).count() >= 4);
    for example in examples {
        let Example { name, answer, request, arguments, .. } = &example;
        let plain = plain::lines::answer(request);
        // A section's yes goes on with the rows.
        assert!(plain == *answer || plain.starts_with(&format!("{answer} ")), "{name}: {plain}");
        let arguments = arguments.iter().map(String::as_str);
        let said = chelbugan(&["check"].into_iter().chain(arguments).collect::<Vec<_>>());
        let wanted = wanted(&example);
        assert_eq!((said.status, said.out.lines().next()), (wanted.0, Some(&*wanted.1)), "{name}");
    }
}

/// The first words that a person reads of a run.
fn ending(promised: &str) -> String {
    let parts: Vec<&str> = promised.split(' ').collect();
    match parts[..] {
        ["done", steps, _] => format!("done after {steps} steps, results: "),
        ["trap", number, place, steps] => {
            format!("trap {number} at byte {place} of the body, after {steps} steps\n")
        }
        ["spent", steps] => format!("spent after {steps} steps\n"),
        _ => panic!("{promised}"),
    }
}

#[test]
fn examples_run_as_they_say() {
    let examples: Vec<Example> = examples().iter().map(|file| read(file)).collect();
    let runs = examples.iter().filter_map(|example| Some((example, example.run.as_ref()?)));
    let mut endings = Vec::new();
    for (Example { name, request, arguments, .. }, (budget, promised)) in runs {
        let request = request.replacen("B ", "R ", 1) + " " + budget;
        let plain = plain::lines::answer(&request);
        assert!(plain.starts_with(&format!("{promised} | ")), "{name}: {plain}");
        let arguments = arguments.iter().map(String::as_str).chain([budget.as_str()]);
        let said = chelbugan(&["run"].into_iter().chain(arguments).collect::<Vec<_>>());
        assert_eq!(said.status, 0, "{name}");
        assert!(said.out.starts_with(&ending(promised)), "{name}: {}", said.out);
        endings.push(promised.split(' ').next().expect("a word").to_string());
    }
    for word in ["done", "trap", "spent"] {
        assert!(endings.iter().any(|ending| ending == word), "no example is {word}");
    }
}

/// The options that print and assemble of an example's section have: a body's text needs no library.
fn options(example: &Example) -> Vec<String> {
    match (&example.library, example.is_body) {
        (Some(file), false) => vec!["--library".to_string(), name(file)],
        _ => Vec::new(),
    }
}

/// An example that is there in WebAssembly's text too is assembled to the same bytes, and printed bytes come back.
#[test]
fn examples_in_text_are_the_same_bytes() {
    let texts = [("1-routes", "section"), ("6-incident", "body"), ("16-ferry", "section")];
    for (name, kind) in texts {
        let file = |end: &str| folder().join(format!("{name}.{end}"));
        let example = read(&file("hex"));
        let options = options(&example);
        let text = file("wat");
        let said = asked(&["assemble", kind], &options, &[text.to_str().expect("a name")]);
        assert_eq!(said.status, 0, "{}", said.err);
        let wanted = bytes(&content(&file("hex"))).to_lowercase();
        assert_eq!(said.out.split_whitespace().collect::<String>(), wanted);
    }
    // One text that holds both.
    let module = folder().join("20-incident.wat");
    for (kind, name) in [("section", "1-routes.hex"), ("body", "6-incident.hex")] {
        let said = asked(&["assemble", kind], &[], &[module.to_str().expect("a name")]);
        let wanted = bytes(&content(&folder().join(name))).to_lowercase();
        assert_eq!(said.out.split_whitespace().collect::<String>(), wanted, "{}", said.err);
    }
    for example in examples().iter().map(|file| read(file)) {
        let kind = if example.is_body { "body" } else { "section" };
        let options = options(&example);
        let printed = asked(&["print", kind], &options, &[&example.name]);
        if printed.status == 1 {
            assert_eq!((printed.out.as_str(), example.answer.as_str()), ("", "no 1 16"));
            continue;
        }
        let options = options.iter().map(String::as_str);
        let arguments: Vec<&str> = ["assemble", kind, "-"].into_iter().chain(options).collect();
        let back = common::chelbugan_fed(&arguments, printed.out.as_bytes());
        let digits = back.out.split_whitespace().collect::<String>();
        let wanted = bytes(&content(Path::new(&example.name))).to_lowercase();
        assert_eq!(digits, wanted, "{}", example.name);
    }
}

/// Requests in lines about the examples stand in examples/requests.txt too, those of the library among them, and the plain
/// checker answers each.
#[test]
fn requests_are_answered_by_both() {
    let requests = content(&folder().join("requests.txt"));
    let said = common::chelbugan_fed(&["lines"], requests.as_bytes());
    let plain: Vec<String> = requests.lines().map(plain::lines::answer).collect();
    assert_eq!(said.out.lines().collect::<Vec<_>>(), plain);
    for example in examples().iter().map(|file| read(file)).filter(|it| it.library.is_some()) {
        let request = example.request.to_lowercase();
        let asked = |line: &str| {
            let line = line.to_lowercase();
            let run = example.run.as_ref().map(|(budget, _)| format!(" {budget}"));
            line == request
                || run.is_some_and(|budget| line[1..] == request[1..].to_string() + &budget)
        };
        assert!(requests.lines().any(asked), "{}", example.name);
    }
}
