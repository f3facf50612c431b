//! `chelbugan run SECTION BODY TYPE BUDGET` as a person meets it. States were worked out by hand from document 01 and
//! docs/LAYOUT.md.

mod common;

use common::{asked, assert_marked, hex, misused, no, section_arguments, yes, OwnFile};
use plain::generate;
use plain::lines::{read_request, Asked};

const F1: &str = "02 4E 02 4D 01 5F 00 4C 00 5F 00 60 00 01 64 62 00";

/// A function type of nothing to nothing.
const V: &str = "01 60 00 00";

/// A struct of a mutable i32, and a function of nothing to nothing.
const FIELD: &str = "02 5F 01 7F 01 60 00 00";

/// Document 01's starred run, whole.
#[test]
fn a_run_that_is_done() {
    let said = yes(&["run", F1, "00 FB 00 01 FB 20 00 0B", "2", "3"]);
    let wanted = "\
done after 3 steps, results: object 1

  place     8, the body's end
  heap      object 0: type 1
            object 1: type 0, descriptor object 0
  locals    nothing
  operands  object 1
  blocks    nothing
";
    assert_eq!(said, wanted);
    let nothing = yes(&["run", V, "000b", "0", "1"]);
    assert!(nothing.starts_with("done after 1 step, results: nothing\n"), "{nothing}");
}

/// The worked state of docs/LAYOUT.md that has every part in use.
#[test]
fn a_run_that_is_spent() {
    let section = "02 5F 01 7F 00 60 00 00";
    let body = "01 01 7F 41 7B FB 00 00 02 40 41 07 1A 0B 1A 0B";
    let wanted = "\
spent after 4 steps
  the next instruction would be
    12  1a                      drop

  place     12, the next instruction
  heap      object 0: type 0, fields (i32 -5)
  locals    local 0: i32 0
  operands  object 0, i32 7
  blocks    block opened at 8, 1 operand below it
";
    assert_eq!(yes(&["run", section, body, "1", "4"]), wanted);
    let looping = yes(&["run", F1, "00 03 40 0C 00 0B 00 0B", "2", "10"]);
    assert!(looping.starts_with("spent after 10 steps\n"), "{looping}");
    assert!(looping.contains("     3  0c 00                   br 0\n"), "{looping}");
    assert!(looping.contains("  blocks    loop opened at 1, 0 operands below it\n"), "{looping}");
    let at_once = yes(&["run", V, "000b", "0", "0"]);
    assert!(at_once.starts_with("spent after 0 steps\n"), "{at_once}");
    assert!(at_once.contains("  place     1, the next instruction\n"), "{at_once}");
}

/// Number, place, steps, document 01's words, the mark and the instruction, for each trap.
#[test]
fn traps_are_explained() {
    let cases = [
        (V, "01 01 7F 01 00 0B", "0", ("41", 4, 2), "unreachable", "00", "unreachable"),
        (
            FIELD,
            "00 D0 00 FB 02 00 00 1A 0B",
            "1",
            ("42", 3, 2),
            "struct.get found null",
            "fb 02 00 00",
            "struct.get 0 0",
        ),
        (
            F1,
            "00 D0 62 01 FB 20 00 0B",
            "2",
            ("43", 4, 2),
            "struct.new_desc found null as the descriptor",
            "fb 20 00",
            "struct.new_desc 0",
        ),
        (
            F1,
            "00 FB 00 01 FB 16 62 00 0B",
            "2",
            ("44", 4, 2),
            "object 0 is of type 1, which is not below exactly type 0",
            "fb 16 62 00",
            "ref.cast (ref (exact 0))",
        ),
        (
            V,
            "00 43 01 00 C0 FF 91 1A 0B",
            "0",
            ("46", 6, 2),
            "f32.sqrt is a numeric code that the trial run does not do",
            "91",
            "f32.sqrt",
        ),
    ];
    for (section, body, number, (trap, place, steps), words, marked, instruction) in cases {
        let said = yes(&["run", section, body, number, "100"]);
        let first = format!("trap {trap} at byte {place} of the body, after {steps} steps\n");
        assert!(said.starts_with(&first), "{said}");
        assert!(said.contains(words), "{said}");
        assert_marked(&said, &body.to_lowercase(), marked);
        assert!(said.contains(&format!("  {marked:<24}{instruction}\n")), "{said}");
        assert!(said.contains(&format!("  place     {place}, the trapping instruction\n")));
    }
}

/// 1,024 objects without a field: the loop, then three steps for each, and the one that traps. Not all are shown.
#[test]
fn a_full_heap_is_not_shown_whole() {
    let section = "02 5F 00 60 00 00";
    let said = yes(&["run", section, "00 03 40 FB 00 00 1A 0C 00 0B 0B", "1", "1000000"]);
    assert!(said.starts_with("trap 45 at byte 3 of the body, after 3074 steps\n"), "{said}");
    assert!(said.contains("1,024 objects exist, the most that there may be"), "{said}");
    assert!(said.contains("            object 15: type 0\n            and 1008 more\n"), "{said}");
    assert!(!said.contains("object 16"), "{said}");
}

/// What each cast found, and a heap without cells for another object.
#[test]
fn traps_say_what_was_found() {
    let cases = [
        (V, "00 D0 6E FB 16 6E 1A 0B", "0", "null, and (ref any) is not null"),
        (
            F1,
            "00 FB 00 01 FB 20 00 FB 00 01 FB 23 62 00 0B",
            "2",
            "object 1 has descriptor object 0, and object 2 was given",
        ),
        (
            F1,
            "00 FB 00 01 FB 00 01 FB 23 62 00 0B",
            "2",
            "object 0 has no descriptor, and object 1 was given",
        ),
        (F1, "00 D0 71 FB 00 01 FB 23 62 00 0B", "2", "null, and (ref (exact 0)) is not null"),
    ];
    for (section, body, number, cause) in cases {
        let said = yes(&["run", section, body, number, "100"]);
        assert!(said.starts_with("trap 44 at byte "), "{said}");
        assert!(said.contains(&format!("\n  {cause}\n")), "{said}");
    }
    // Five fields each: 819 objects have 4,095 cells.
    let section = format!("02 5F 05 {} 60 00 00", "7F 00 ".repeat(5));
    let said = yes(&["run", &section, "00 03 40 FB 01 00 1A 0C 00 0B 0B", "1", "1000000"]);
    assert!(said.starts_with("trap 45 at byte 3 of the body, after 2459 steps\n"), "{said}");
    assert!(said.contains("its fields need more cells than are left: 1 of 4,096"), "{said}");
}

/// Every kind of value, in a local; the last of them holds none.
#[test]
fn values_are_told() {
    let section = "02 5F 00 60 00 00";
    let body = "06 01 7F 01 7E 01 7D 01 7C 01 6E 02 64 00 FB 00 00 21 05 41 7B 21 00 0B";
    let said = yes(&["run", section, body, "1", "4"]);
    for local in [
        "  locals    local 0: i32 -5\n",
        "            local 1: i64 0\n",
        "            local 2: f32 0.0\n",
        "            local 3: f64 0.0\n",
        "            local 4: null\n",
        "            local 5: object 0\n",
        "            local 6: no value\n",
    ] {
        assert!(said.contains(local), "{local:?} is not in\n{said}");
    }
}

/// Ten operands below each other: the eight on top are shown.
#[test]
fn operands_are_told_from_the_top() {
    let body = format!("00 {}00 0B", "41 01 ".repeat(10));
    let said = yes(&["run", V, &body, "0", "10"]);
    let shown = ["i32 1"; 8].join(", ");
    assert!(said.contains(&format!("  operands  2 more, {shown}\n")), "{said}");
}

/// A run's own refusals: their place is no byte, and nothing is marked.
#[test]
fn budget_and_parameters_are_told_apart_from_bytes() {
    let budget = no(&["run", V, "000b", "0", "1000001"]);
    assert!(budget.starts_with("no: refusal 4 at 0, for the budget\n"), "{budget}");
    assert!(budget.contains("the budget is more than 1,000,000"), "{budget}");
    // Parameters i32, (ref 0), (ref null 0), (ref any).
    let section = "02 5F 00 60 04 7F 64 00 63 00 64 6E 00";
    let parameters = no(&["run", section, "000b", "1", "1"]);
    assert!(parameters.starts_with("no: refusal 29 at 0, for the parameters\n"), "{parameters}");
    assert!(parameters.contains("a run starts with zero or null parameters"), "{parameters}");
    assert!(
        parameters.contains("parameter 1 is (ref 0), parameter 3 is (ref any)"),
        "{parameters}"
    );
    let shown = "     6  64 00                   type 1: parameter 1: (ref 0)\n    \
                 10  64 6e                   type 1: parameter 3: (ref any)\n";
    assert!(parameters.ends_with(shown), "{parameters}");
    for said in [&budget, &parameters] {
        assert!(!said.contains("^^"), "{said}");
    }
    let both = no(&["run", section, "000b", "1", "1000001"]);
    assert!(both.starts_with("no: refusal 4 at 0, for the budget\n"), "{both}");
}

/// The body's refusals come before the run's, and are explained as for `check`.
#[test]
fn refusals_of_the_body_are_explained_as_by_check() {
    let whole = OwnFile::new("long-run", &[0; 40_000]);
    let cases = [
        (F1, "00 FB 00 00 0B", "2"),
        (F1, "00 FB 00 01 FB 20 00 0B", "0"),
        (F1, "01 01 64 01 FB 00 01 21 00 20 00 FB 20 00 0B", "2"),
        ("02 5F 01 64 00 00 60 00 00", "00 FB 01 00 1A 0B", "1"),
        (V, "00", "0"),
        (V, "", "0"),
        (V, whole.name(), "0"),
        ("00 00", "000b", "0"),
    ];
    for (section, body, number) in cases {
        let said = no(&["run", section, body, number, "1000001"]);
        assert_eq!(said, no(&["check", section, body, number]), "{section}, {body}");
    }
}

#[test]
fn bad_usage_of_run_is_told() {
    assert!(misused(&["run"]).contains("run needs SECTION, BODY, TYPE and BUDGET"));
    assert!(misused(&["run", V, "000b", "0"]).contains("run SECTION BODY TYPE needs BUDGET"));
    assert!(misused(&["run", V, "000b", "0", "-1"]).contains("-1: a number is decimal digits"));
    assert!(misused(&["run", V, "000b", "x", "1"]).contains("x: a number is decimal digits"));
    assert!(misused(&["run", V, "00b", "0", "1"]).contains("the number of hex digits is odd"));
    assert!(misused(&["run", V, "no/such", "0", "1"]).contains("no/such: no such file"));
    assert!(misused(&["run", "no/such", "000b", "0", "1"]).contains("no/such: no such file"));
    let huge = "99999999999999999999";
    assert!(misused(&["run", V, "000b", "0", huge]).contains("a number is below 2 to the 64"));
}

/// Generated runs, short enough for a command line: the first line says what the plain checker says of the same request.
#[test]
fn generated_runs_are_told() {
    let lines = generate::requests(41, usize::MAX, true).filter(|line| line.len() < 2_000);
    let requests = lines.map(|line| read_request(&line).expect("a request"));
    let runs = requests.filter_map(|request| match request.asked.clone() {
        Asked::Run(number, body, budget) => Some((request, number, body, budget)),
        _ => None,
    });
    let mut told = [[0; 4]; 2];
    for (request, number, body, budget) in runs.take(800) {
        let rest = [hex(&body), number.to_string(), budget.to_string()];
        let rest: Vec<&str> = rest.iter().map(String::as_str).collect();
        let said = asked(&["run"], &section_arguments(&request), &rest);
        let answer = plain::lines::answer(&request.to_string());
        let (status, first, kind) = first_line(&answer);
        assert_eq!((said.status, said.err.as_str()), (status, ""), "{request}\n{}", said.out);
        assert!(said.out.starts_with(&first), "{request}\n{answer}\n{}", said.out);
        told[request.library.is_some() as usize][kind] += 1;
    }
    let often = told.iter().flatten().all(|&count| count > 15);
    assert!(often, "{told:?} of done, trap, spent, no, without a library and with one");
}

/// The exit status, how the first line begins, and which of the four answers it is.
fn first_line(answer: &str) -> (i32, String, usize) {
    let steps = |count: &str| match count {
        "1" => "1 step".to_string(),
        _ => format!("{count} steps"),
    };
    let parts: Vec<&str> = answer.split(' ').collect();
    match parts[..] {
        ["done", count, ..] => (0, format!("done after {}, results: ", steps(count)), 0),
        ["trap", number, place, count, ..] => {
            (0, format!("trap {number} at byte {place} of the body, after {}\n", steps(count)), 1)
        }
        ["spent", count, ..] => (0, format!("spent after {}\n", steps(count)), 2),
        ["no", number, ..] => (1, format!("no: refusal {number} at "), 3),
        _ => panic!("{answer} is no answer of a run"),
    }
}

/// Floats are told as their text has them: a NaN with its sign and payload.
#[test]
fn numbers_are_told() {
    let section = "01 60 00 04 7E 7D 7C 7D";
    let body = "00 42 80 80 80 80 80 80 80 80 80 7F 43 01 00 C0 FF 44 9A 99 99 99 99 99 B9 3F 43 00 00 00 80 0B";
    let said = yes(&["run", section, body, "0", "9"]);
    let results = "i64 -9223372036854775808, f32 -nan:0x400001, f64 0.1, f32 -0.0";
    assert!(said.starts_with("done after 5 steps, results: "), "{said}");
    for result in results.split(", ") {
        assert!(said.contains(result), "{said}");
    }
    let said = yes(&["run", "--json", section, body, "0", "9"]);
    let values =
        r#"["i64:-9223372036854775808","f32:ffc00001","f64:3fb999999999999a","f32:80000000"]"#;
    assert!(said.contains(&format!("\"results\":{values}")), "{said}");
    let said = yes(&["dump", "body", body]);
    assert!(said.contains("f32.const -nan:0x400001"), "{said}");
}

/// A trap is a yes, unless another exit status is asked for; a run that is spent did not trap.
#[test]
fn a_trap_fails_where_that_is_asked_for() {
    let trapping = ["run", V, "00 00 0B", "0", "9"];
    let plain = yes(&trapping);
    assert_eq!(no(&[&["--fail-on-trap"], &trapping[..]].concat()), plain);
    assert_eq!(no(&[&["--fail-on-trap", "--quiet"], &trapping[..]].concat()), "");
    yes(&["run", "--fail-on-trap", V, "00 0B", "0", "9"]);
    yes(&["run", "--fail-on-trap", V, "00 03 40 0C 00 0B 0B", "0", "9"]);
    assert!(misused(&["check", "--fail-on-trap", V]).contains("check has no option --fail-on-trap"));
}

/// Each instruction with what lies on the stack before it, worked out by hand; then the ending as without a trace.
#[test]
fn a_trace_has_a_line_for_each_instruction() {
    let run = ["run", FIELD, "00 41 7B FB 00 00 02 40 41 07 1A 0B FB 02 00 00 1A 0B", "1", "99"];
    let lines = "    step  place  instruction                     operands that it found
       1      1  i32.const -5                    nothing
       2      3  struct.new 0                    i32 -5
       3      6  block                           object 0
       4      8  i32.const 7                     object 0
       5     10  drop                            object 0, i32 7
       6     11  end                             object 0
       7     12  struct.get 0 0                  object 0
       8     16  drop                            i32 -5
       9     17  end                             nothing

";
    let traced = yes(&[&run[..], &["--trace"]].concat());
    assert_eq!(traced, format!("{lines}{}", yes(&run)));
    // The trapping instruction is the last line; one that was not reached is none.
    let trapped = yes(&["run", "--trace", FIELD, "00 D0 00 FB 02 00 00 1A 0B", "1", "9"]);
    let ending = "       2      3  struct.get 0 0                  null\n\ntrap 42 at byte 3";
    assert!(trapped.contains(ending), "{trapped}");
    let spent = yes(&["run", "--trace", V, "00 01 01 0B", "0", "1"]);
    assert!(spent.contains("       1      1  nop  ") && !spent.contains("       2 "), "{spent}");
    let none = ["run", V, "00 0B", "0", "0"];
    assert_eq!(yes(&[&none[..], &["--trace"]].concat()), yes(&none));
}

/// The last 1,000 instructions: the loop is the first of all, then br 0 alone; with as large a budget as is named, those before.
#[test]
fn a_trace_of_a_long_run_has_its_end() {
    let run = |budget| yes(&["run", "--trace", V, "00 03 40 0C 00 0B 0B", "0", budget]);
    let said = run("1500");
    let head = "the last 1000 instructions; BUDGET 500 shows those before them\n    step  place";
    assert!(said.starts_with(head), "{said}");
    assert!(said.contains("\n     501      3  br 0 ") && said.contains("\n    1500      3  br 0 "));
    assert!(!said.contains("\n     500 "), "{said}");
    let before = run("500");
    assert!(
        before.contains("\n       1      1  loop ") && before.contains("\n     500      3  br 0 ")
    );
}

#[test]
fn a_trace_as_json() {
    let said = yes(&["run", "--json", "--trace", FIELD, "00 D0 00 FB 02 00 00 1A 0B", "1", "9"]);
    let trace = r#""trace":[{"step":1,"place":1,"bytes":"d000","text":"ref.null 0","operands":[]},{"step":2,"place":3,"bytes":"fb020000","text":"struct.get 0 0","operands":["null"]}]}"#;
    assert!(said.trim_end().ends_with(trace), "{said}");
    assert!(misused(&["run", "--quiet", "--trace", V, "000b", "0", "1"])
        .contains("--quiet and --trace cannot both be obeyed"));
}
