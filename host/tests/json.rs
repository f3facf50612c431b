//! `--json` of every command, held to docs/answers.schema.json.

mod common;

use common::json::{fault, read, Json};
use common::{chelbugan, chelbugan_fed, OwnFile, Said};
use plain::generate;

const F1: &str = "02 4E 02 4D 01 5F 00 4C 00 5F 00 60 00 01 64 62 00";

fn schema() -> Json {
    let file = concat!(env!("CARGO_MANIFEST_DIR"), "/../docs/answers.schema.json");
    read(&std::fs::read_to_string(file).expect("the schema"))
}

/// Each line, held to the schema.
fn answers(schema: &Json, said: &Said) -> Vec<Json> {
    assert_eq!(said.err, "");
    let answers: Vec<Json> = said.out.lines().map(read).collect();
    for (answer, line) in answers.iter().zip(said.out.lines()) {
        if let Some(why) = fault(answer, schema, schema) {
            panic!("{why}\n{line}");
        }
    }
    answers
}

#[test]
fn every_command_has_its_answer() {
    let schema = schema();
    let long = OwnFile::new("long-json", &[0; 40_000]);
    let (open, below) = ("01 50 00 5F 00", "01 4F 01 00 5F 00");
    let cases: [(&[&str], i32, &str); 48] = [
        (&["check", F1], 0, "yes"),
        (&["check", "00 00"], 1, "no"),
        (&["check", ""], 1, "no"),
        (&["check", long.name()], 1, "no"),
        (&["check", "01 4D 00 5F 00"], 1, "no"),
        (&["check", F1, "00 FB 00 01 FB 20 00 0B", "2"], 0, "yes"),
        (&["check", F1, "00 FB 00 00 0B", "2"], 1, "no"),
        (&["check", F1, "01 01 63 09 0B", "2"], 1, "no"),
        (&["check", F1, "00 0B", "0"], 1, "no"),
        (&["check", "00 00", "00 0B", "0"], 1, "no"),
        (&["check", F1, long.name(), "2"], 1, "no"),
        (&["check"], 2, "error"),
        (&["check", "no/such"], 2, "error"),
        (&["check", "1 5F"], 2, "error"),
        (&["run", F1, "00 FB 00 01 FB 20 00 0B", "2", "10"], 0, "yes"),
        (&["run", F1, "00 FB 00 01 FB 20 00 0B", "2", "2"], 0, "yes"),
        (&["run", F1, "00 D0 62 01 FB 20 00 0B", "2", "10"], 0, "yes"),
        (&["run", "02 5F 01 7F 00 60 00 00", "02 01 7F 01 64 00 03 40 0B 0B", "1", "1"], 0, "yes"),
        (&["run", "--trace", F1, "00 D0 62 01 FB 20 00 0B", "2", "10"], 0, "yes"),
        (&["run", "--fail-on-trap", F1, "00 D0 62 01 FB 20 00 0B", "2", "10"], 1, "yes"),
        (&["run", F1, "00 00 0B", "2", "1000001"], 1, "no"),
        (&["run", "02 5F 00 60 01 64 00 00", "00 0B", "1", "1"], 1, "no"),
        (&["type", F1, "0"], 0, "yes"),
        (&["type", F1, "18446744073709551615"], 1, "no"),
        (&["dump", "section", F1], 0, "yes"),
        (&["dump", "section", "01 7B"], 1, "no"),
        (&["dump", "body", "00 02 40 0B 0B"], 0, "yes"),
        (&["print", "section", F1], 0, "yes"),
        (&["print", "body", "00 FF"], 1, "no"),
        (&["assemble", "section", "(type (struct))"], 0, "yes"),
        (&["assemble", "body", "(func nopp)"], 2, "error"),
        (&["explain", "26"], 2, "error"),
        (&["check", "--library", open, below], 0, "yes"),
        (&["check", "--library", open, "01 7B"], 1, "no"),
        (&["check", "--library", "01 7B", below], 1, "no"),
        (&["check", "--library", "01 5F 00", below], 1, "no"),
        (&["check", "--library", long.name(), below], 1, "no"),
        (&["check", "--library", "01 60 00 00", below, "00 0B", "0"], 1, "no"),
        (&["check", "--library", "01 60 00 00", "01 5F 00", "00 0B", "0"], 0, "yes"),
        (&["run", "--library", "01 60 00 00", "01 5F 00", "00 FB 00 01 1A 0B", "0", "9"], 0, "yes"),
        (&["run", "--library", "00 00", "01 60 00 00", "00 0B", "0", "9"], 1, "no"),
        (&["type", "--library", open, below, "1"], 0, "yes"),
        (&["type", "--library", open, below, "2"], 1, "no"),
        (&["dump", "--library", open, "section", below], 0, "yes"),
        (&["dump", "--library", "01 7B", "section", below], 1, "no"),
        (&["print", "--library", open, "section", below], 0, "yes"),
        (&["print", "--library", "01 7B", "section", below], 1, "no"),
        (&["assemble", "--library", "01 7B", "section", "(type (struct))"], 2, "error"),
    ];
    for (arguments, status, answer) in cases {
        let said = chelbugan(&[arguments, &["--json"]].concat());
        assert_eq!(said.status, status, "{arguments:?}: {}", said.out);
        let answers = answers(&schema, &said);
        assert_eq!(answers.len(), 1, "{}", said.out);
        assert_eq!(answers[0].text("answer"), answer, "{}", said.out);
        if answer != "error" {
            assert_eq!(answers[0].text("command"), arguments[0]);
        }
    }
    for arguments in [
        &["help"][..],
        &["--help"],
        &["help", "run"],
        &["--version"],
        &["explain"],
        &["explain", "23"],
        &["explain", "accepted"],
    ] {
        let said = chelbugan(&[arguments, &["--json"]].concat());
        assert_eq!((said.status, answers(&schema, &said).len()), (0, 1), "{}", said.out);
    }
}

#[test]
fn many_files_have_an_object_each() {
    let good = OwnFile::new("good-json.hex", b"01 5F 00");
    let bad = OwnFile::new("bad-json.hex", b"00 00");
    let said = chelbugan(&["check", "--json", good.name(), bad.name(), "no/such", good.name()]);
    let answers = answers(&schema(), &said);
    assert_eq!(said.status, 2);
    let told: Vec<&str> = answers.iter().map(|answer| answer.text("answer")).collect();
    assert_eq!(told, ["yes", "no", "error", "yes"]);
    assert_eq!(answers[1].text("input"), bad.name());
}

/// One library for all; `input` beside `answer` is the file, `of` the section at fault.
#[test]
fn many_files_after_a_library() {
    let library = OwnFile::new("library-json.hex", b"01 50 00 5F 00");
    let good = OwnFile::new("after-json.hex", b"01 4F 01 00 5F 00");
    let bad = OwnFile::new("cut-json.hex", b"01 4F 01 00");
    let option = format!("--library={}", library.name());
    let said = chelbugan(&["check", "--json", &option, good.name(), bad.name()]);
    let answers = answers(&schema(), &said);
    assert_eq!((said.status, answers.len()), (1, 2));
    assert_eq!(answers[0].text("input"), good.name());
    let Some(Json::List(types)) = answers[0].get("types") else { panic!("{:?}", answers[0]) };
    let lie: Vec<&str> = types.iter().map(|row| row.text("input")).collect();
    assert_eq!(lie, ["library", "addon"]);
    assert_eq!((answers[1].text("input"), answers[1].text("of")), (bad.name(), "addon"));
}

/// Each member that a library adds, and that none of them is there without one.
#[test]
fn a_library_shows_in_the_answers() {
    let schema = schema();
    let told = |arguments: &[&str]| {
        let said = chelbugan(&[arguments, &["--json"]].concat());
        answers(&schema, &said).remove(0)
    };
    let number = |answer: &Json, name: &str| match answer.get(name) {
        Some(Json::Number(number)) => number.clone(),
        other => panic!("{name} is {other:?}"),
    };
    let (open, below) = ("01 50 00 5F 00", "02 60 00 00 4F 01 00 5F 00");
    let of_addon = told(&["type", "--library", open, below, "2"]);
    assert_eq!((of_addon.text("bytes"), of_addon.text("input")), ("4f01005f00", "addon"));
    let of_library = told(&["type", "--library", open, below, "0"]);
    assert_eq!((of_library.text("bytes"), of_library.text("input")), ("50005f00", "library"));
    assert_eq!(told(&["type", below, "0"]).get("input"), None);

    let rule = told(&["check", "--library", "01 5F 00", below]);
    assert_eq!((rule.text("of"), rule.text("place_is")), ("addon", "type"));
    assert_eq!((number(&rule, "place"), number(&rule, "own_number")), ("2".into(), "1".into()));
    let own = told(&["check", "--library", "01 4C 00 60 00 00", below]);
    assert_eq!((own.text("of"), own.text("place_is")), ("library", "type"));
    assert_eq!((number(&own, "place"), own.get("own_number")), ("0".into(), None));
    let byte = told(&["check", "--library", "01 7B", below]);
    assert_eq!((byte.text("of"), byte.text("place_is")), ("library", "byte"));
    let absent = told(&["type", "--library", open, below, "3"]);
    assert_eq!((absent.text("of"), absent.get("own_number")), ("section", None));
    assert_eq!(told(&["check", "01 7B"]).text("of"), "section");

    let listed = told(&["dump", "--library", open, "section", "01 5F 00"]);
    let library = listed.get("library").expect("its listing");
    assert_eq!((number(&listed, "length"), number(library, "length")), ("3".into(), "5".into()));
    assert_eq!(told(&["dump", "section", "01 5F 00"]).get("library"), None);
    let unread = told(&["print", "--library", "01 7B", "section", "01 5F 00"]);
    assert_eq!((unread.text("of"), number(&unread, "place")), ("library", "1".into()));
}

/// The cause is the words of the explanation, and no other.
#[test]
fn the_cause_is_the_explanations() {
    let arguments = ["check", F1, "00 FB 00 00 0B", "2"];
    let said = chelbugan(&[&arguments[..], &["--json"]].concat());
    let cause = answers(&schema(), &said)[0].text("cause").to_string();
    assert_eq!(cause, "type 0 has descriptor 1, struct.new takes none that has");
    assert!(chelbugan(&arguments).out.contains(&format!("\n  {cause}\n")));
}

/// docs/JSON.md's examples.
#[test]
fn the_page_shows_what_is_printed() {
    let file = concat!(env!("CARGO_MANIFEST_DIR"), "/../docs/JSON.md");
    let page = std::fs::read_to_string(file).expect("the page");
    let shown = page.lines().filter(|line| line.starts_with("    {")).map(str::trim);
    let of_body = chelbugan(&["check", "--json", F1, "00 FB 00 00 0B", "2"]);
    let after = ["--library", "01 5F 00", "01 4F 01 00 5F 00"];
    let of_library = chelbugan(&[&["check", "--json"], &after[..]].concat());
    let said = [of_body.out.trim_end(), of_library.out.trim_end()];
    assert_eq!(said.to_vec(), shown.collect::<Vec<_>>());
}

/// The same answers as the lines have, on generated requests.
#[test]
fn lines_as_objects() {
    let requests: Vec<String> = generate::requests(77, 400, true).collect();
    let fed = requests.join("\n") + "\nQ 00\n";
    let objects = chelbugan_fed(&["lines", "--json"], fed.as_bytes());
    let lines = chelbugan_fed(&["lines"], fed.as_bytes());
    let answers = answers(&schema(), &objects);
    assert_eq!(answers.len(), requests.len() + 1);
    for (answer, line) in answers.iter().zip(lines.out.lines()) {
        let word = line.split(' ').next().expect("a word");
        let wanted = if matches!(word, "done" | "trap" | "spent") { "yes" } else { word };
        assert_eq!(answer.text("answer"), wanted, "{line}");
        if word == "no" {
            let (Some(Json::Number(number)), Some(Json::Number(place))) =
                (answer.get("refusal"), answer.get("place"))
            else {
                panic!("{answer:?}")
            };
            let lies = match answer.get("input") {
                Some(Json::Text(input)) => format!(" {input}"),
                _ => String::new(),
            };
            assert_eq!(line, format!("no {number} {place}{lies}"));
        }
    }
}
