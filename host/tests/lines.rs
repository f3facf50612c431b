//! `chelbugan lines` against the plain checker's answers, and the form of the lines themselves.

mod common;

use common::chelbugan_fed;
use plain::generate;

fn answers(requests: &str) -> Vec<String> {
    let said = chelbugan_fed(&["lines"], requests.as_bytes());
    assert_eq!((said.status, said.err.as_str()), (0, ""));
    said.out.lines().map(str::to_string).collect()
}

#[test]
fn thousands_of_answers_are_the_plain_checkers() {
    let requests: Vec<String> = generate::requests(20260102, 6_000, false).collect();
    for kind in ["S ", "T ", "B ", "R "] {
        assert!(requests.iter().filter(|request| request.starts_with(kind)).count() > 100);
    }
    let answered = answers(&(requests.join("\n") + "\n"));
    assert_eq!(answered.len(), requests.len());
    for (request, answer) in requests.iter().zip(answered) {
        assert_eq!(answer, plain::lines::answer(request), "{request}");
    }
}

/// Document 01's sections, with its answers in the form of docs/LAYOUT.md.
#[test]
fn document_01() {
    let f1 = "024e024d015f004c005f00600001646200";
    let f1_rows = "struct final super=- describes=- descriptor=1 3..7;\
                   struct final super=- describes=0 descriptor=- 7..11;\
                   func final super=- describes=- descriptor=- 11..17";
    let cases = [
        ("S 00", "yes 0".to_string()),
        ("S -", "no 1 0".to_string()),
        ("S 0000", "no 5 1".to_string()),
        ("S 014E024C015F004D005F00", "no 10 0".to_string()),
        ("S 014e035f004d025f004c005f00", "no 11 1".to_string()),
        ("S 014c00600000", "no 9 0".to_string()),
        ("S 024e0250004d015f0050004c005f004f01005f00", "no 12 2".to_string()),
        (&format!("S {f1}"), format!("yes 3 {f1_rows}")),
        (&format!("T {f1} 0"), "yes 4d015f00".to_string()),
        (&format!("T {f1} 2"), "yes 600001646200".to_string()),
        (&format!("T {f1} 3"), "no 6 3".to_string()),
        ("T 00 18446744073709551615", "no 6 18446744073709551615".to_string()),
        ("T - 0", "no 1 0".to_string()),
        (&format!("B {f1} 2 00FB0001FB20000B"), "yes 3".to_string()),
        (&format!("B {f1} 2 00fb00000b"), "no 23 1".to_string()),
        (&format!("B {f1} 2 01016401fb000121002000fb20000b"), "no 20 11".to_string()),
        (&format!("B {f1} 2 00d06201fb20000b"), "yes 3".to_string()),
        (&format!("B {f1} 2 0003400c000b000b"), "yes 5".to_string()),
        (&format!("B {f1} 0 -"), "no 27 0".to_string()),
        (&format!("B {f1} 2 -"), "no 1 0".to_string()),
        (&format!("B {f1} 18446744073709551615 000b"), "no 27 0".to_string()),
        ("B - 0 000b", "no 1 0".to_string()),
    ];
    let requests: Vec<&str> = cases.iter().map(|(request, _)| *request).collect();
    let answered = answers(&requests.join("\n"));
    for ((request, wanted), answer) in cases.iter().zip(&answered) {
        assert_eq!(answer, wanted, "{request}");
    }
    assert_eq!(answered.len(), cases.len());
}

/// A line is never skipped: each of these has an answer, and the last request has its own.
#[test]
fn unreadable_lines_are_answered_as_such() {
    let unreadable: [&[u8]; 45] = [
        b"",
        b" ",
        b"S",
        b"S ",
        b"S 0",
        b"S 0g",
        b"S 00 ",
        b"S  00",
        b" S 00",
        b"s 00",
        b"X 00",
        b"S 00 1",
        b"T 00",
        b"T 00 -1",
        b"T 00 +1",
        b"T 00 x",
        b"T 00 18446744073709551616",
        b"S \xC3\xA9\xC3\xA9",
        b"S \xFF\xFF",
        b"S 00\r\r",
        b"S\r00",
        b"# S 00",
        b"B 00",
        b"B 00 0",
        b"B 00 0 ",
        b"B 00 - 00",
        b"B 00 0 0",
        b"B 00 0 00 1",
        b"R 00",
        b"R 00 0 00",
        b"R 00 0 00 ",
        b"R 00 0 00 x",
        b"R 00 0 00 -1",
        b"R 00 0 00 18446744073709551616",
        b"R 00 0 00 1 1",
        b"S 00 00 00",
        b"S 0 00",
        b"S 00  00",
        b"T 00 00 x",
        b"T 00 00 00 0",
        b"B 00 00 00 00 00",
        b"B 00 00 x 00",
        b"R 00 00 0 00 x",
        b"R 00 00 0 00 1 1",
        b"M 00",
    ];
    let input: Vec<u8> = [unreadable.join(&b'\n'), b"\nS 00\n".to_vec()].concat();
    let said = chelbugan_fed(&["lines"], &input);
    let answered: Vec<&str> = said.out.lines().collect();
    assert_eq!(answered.len(), unreadable.len() + 1);
    for (line, answer) in unreadable.iter().zip(&answered) {
        assert!(answer.starts_with("error "), "{line:?} gave {answer}");
    }
    assert_eq!(answered[unreadable.len()], "yes 0");
    assert_eq!(said.status, 1);
}

/// A refusal is an answer like any other; a line that is no request is told by the exit status too.
#[test]
fn the_exit_status_tells_a_bad_line() {
    for (requests, status) in [("", 0), ("S 00", 0), ("S 0000", 0), ("S 00\nx\nS 00", 1), ("\n", 1)]
    {
        for arguments in [&["lines"][..], &["lines", "--json"]] {
            let said = chelbugan_fed(arguments, requests.as_bytes());
            assert_eq!((said.status, said.err.as_str()), (status, ""), "{requests:?}");
            assert_eq!(said.out.lines().count(), requests.lines().count(), "{requests:?}");
        }
    }
}

/// The last line has no end.
#[test]
fn lines_may_end_in_cr_lf() {
    let said = chelbugan_fed(&["lines"], b"S 00\r\nT 015f00 0\r\nS 00\nS 0000");
    assert_eq!((said.out.as_str(), said.status), ("yes 0\nyes 5f00\nyes 0\nno 5 1\n", 0));
    let blank = chelbugan_fed(&["lines"], b"\r\n");
    assert_eq!(blank.out, "error a blank line; lines --comments passes over it\n");
}

/// Passed over only where that is asked for; a line that is no request is none with comments either.
#[test]
fn blank_lines_and_comments() {
    let requests =
        b"# a comment\n\nS 00\n \t\r\nS 0000 # one byte too many\r\n  # S 00\nT 015f00 0#\n";
    let said = chelbugan_fed(&["lines", "--comments"], requests);
    assert_eq!((said.out.as_str(), said.status), ("yes 0\nno 5 1\nyes 5f00\n", 0));
    let said = chelbugan_fed(&["lines"], requests);
    let errors = said.out.lines().filter(|line| line.starts_with("error a ")).count();
    assert_eq!((said.out.lines().count(), errors, said.status), (7, 6, 1), "{}", said.out);
    let said = chelbugan_fed(&["lines", "--comments"], b" S 00\nS  00\n");
    assert_eq!(
        (said.out.as_str(), said.status),
        ("error not a request\nerror no bytes at all are written -\n", 1)
    );
    let said = chelbugan_fed(&["check", "--comments", "00"], b"");
    assert!(said.err.contains("check has no option --comments"), "{}", said.err);
}

/// Each request has its answer.
fn answered(cases: &[(&str, &str)]) {
    let requests: Vec<&str> = cases.iter().map(|(request, _)| *request).collect();
    let said = answers(&requests.join("\n"));
    for ((request, wanted), answer) in cases.iter().zip(&said) {
        assert_eq!(answer, wanted, "{request}");
    }
    assert_eq!(said.len(), cases.len());
}

/// A byte of one of the two sections has a word; a type's number, a place in a body and the 0 of what is asked for have none.
/// Without a library's word in the request there is no word at all.
#[test]
fn where_a_place_lies() {
    answered(&[
        ("S 015f00 017b", "no 3 1 addon"),
        ("S 015f00 014c00600000", "no 9 1"),
        ("S - 00", "no 1 0 library"),
        ("S 00 -", "no 1 0 addon"),
        ("S 017b 017b", "no 3 1 library"),
        ("S 0000 -", "no 5 1 library"),
        ("S 8000 00", "no 32 0 library"),
        ("S 00 8000", "no 32 0 addon"),
        ("S 014c00600000 0000", "no 9 0"),
        ("S 00 00", "yes 0"),
        ("S 017b", "no 3 1"),
        ("T 00 0000 0", "no 5 1 addon"),
        ("T 00 00 18446744073709551615", "no 6 18446744073709551615"),
        ("B 01600000 015f00 0 00fb01021a0b", "no 6 1"),
        ("B 01600000 015f00 0 00fb01011a0b", "yes 3"),
        ("B 01600000 015f00 0 -", "no 1 0"),
        ("B 01600000 015f00 1 000b", "no 27 0"),
        ("B 01600000 015f00 2 000b", "no 27 0"),
        ("B 01600000 017b 0 000b", "no 3 1 addon"),
        ("B 017b 01600000 0 000b", "no 3 1 library"),
        ("B 00 01600000 0 001a0b", "no 20 1"),
        ("R 01600000 015f00 0 000b 1000001", "no 4 0"),
        ("R 01600000 015f00 1 000b 1", "no 27 0"),
        ("R 025f006001640000 00 1 000b 1", "no 29 0"),
        ("R 0000 01600000 0 000b 1", "no 5 1 library"),
    ]);
}

/// A definition's places count in the section that holds it; its bytes are a part of that one.
#[test]
fn rows_and_bytes_of_a_pair() {
    let (library, section) = ("0150005f00", "014f01005f00");
    answered(&[
        (
            &format!("S {library} {section}"),
            "yes 2 struct open super=- describes=- descriptor=- 1..5 library;\
             struct final super=0 describes=- descriptor=- 1..6 addon",
        ),
        (
            &format!("S 00 {library}"),
            "yes 1 struct open super=- describes=- descriptor=- 1..5 addon",
        ),
        (
            &format!("S {library} 00"),
            "yes 1 struct open super=- describes=- descriptor=- 1..5 library",
        ),
        (&format!("S {library}"), "yes 1 struct open super=- describes=- descriptor=- 1..5"),
        (&format!("T {library} {section} 0"), "yes 50005f00 library"),
        (&format!("T {library} {section} 1"), "yes 4f01005f00 addon"),
        (&format!("T {library} {section} 2"), "no 6 2"),
        (&format!("T 00 {library} 0"), "yes 50005f00 addon"),
        (&format!("T {library} 0"), "yes 50005f00"),
        // The library cannot name what comes after it.
        ("S 015f01630100 015f00", "no 6 0"),
        (
            "R 01600000 015f00 0 00fb00011a0b 9",
            "done 3 [] | place=6 heap=[0:type=1,desc=-,fields=()] locals=[] operands=[] blocks=[]",
        ),
    ]);
}

/// Each section has its own 32,768 bytes; 1,024 types are for both together.
#[test]
fn sizes_of_a_pair() {
    let longest = format!("ff7f{}", "4e00".repeat(16_383));
    let beyond = format!("{longest}00");
    let full = format!("8008{}", "5f00".repeat(1_024));
    let row = |from: usize| {
        format!("struct final super=- describes=- descriptor=- {from}..{} library", from + 2)
    };
    let rows: Vec<String> = (0..1_024).map(|number| row(2 + 2 * number)).collect();
    answered(&[
        (&format!("S {longest} {longest}"), "yes 0"),
        (&format!("S {beyond} {longest}"), "no 4 0 library"),
        (&format!("S {longest} {beyond}"), "no 4 0 addon"),
        (&format!("S 017b {beyond}"), "no 3 1 library"),
        (&format!("S 014c00600000 {beyond}"), "no 9 0"),
        (&format!("S {full} 01"), "no 1 1 addon"),
        (&format!("S {full} 0100"), "no 4 1 addon"),
        (&format!("S {full} 014e00"), &format!("yes 1024 {}", rows.join(";"))),
        (&format!("S {full} 014e01"), "no 4 3 addon"),
        (&format!("T {full} 00 1023"), "yes 5f00 library"),
    ]);
}

/// `--library` stands in the requests that have none of their own, and is answered as if it stood there.
#[test]
fn a_library_for_all_lines() {
    let requests = "S 014f01005f00\nS 00 015f00\nT 014f01005f00 0\nS 017b\nB 01600000 1 000b\nx\n";
    let said = chelbugan_fed(&["lines", "--library", "01 50 00 5F 00"], requests.as_bytes());
    let answers: Vec<&str> = said.out.lines().collect();
    let wanted = [
        "yes 2 struct open super=- describes=- descriptor=- 1..5 library;\
         struct final super=0 describes=- descriptor=- 1..6 addon",
        "yes 1 struct final super=- describes=- descriptor=- 1..3 addon",
        "yes 50005f00 library",
        "no 3 1 addon",
        "yes 1",
        "error not a request",
    ];
    assert_eq!((said.status, answers), (1, wanted.to_vec()));
    let objects = chelbugan_fed(&["lines", "--json", "--library", "017B"], b"S 00\nS 00 017b\n");
    let wanted = "{\"answer\":\"no\",\"refusal\":3,\"place\":1,\"input\":\"library\"}\n\
                  {\"answer\":\"no\",\"refusal\":3,\"place\":1,\"input\":\"addon\"}\n";
    assert_eq!(objects.out, wanted);
}

/// Document 01's runs, the line form's own example and docs/LAYOUT.md's worked states.
#[test]
fn runs_worked_out_by_hand() {
    let f1 = "024e024d015f004c005f00600001646200";
    let f2 = "024e024d015f004c005f00600001646201";
    let empty = "heap=[] locals=[] operands=[] blocks=[]";
    let cases = [
        (
            format!("R {f1} 2 00fb0001fb20000b 3"),
            "done 3 [obj:1] | place=8 heap=[0:type=1,desc=-,fields=();1:type=0,desc=0,fields=()] \
             locals=[] operands=[obj:1] blocks=[]"
                .to_string(),
        ),
        (
            format!("R {f1} 2 00fb0001fb20000b 2"),
            "spent 2 | place=7 heap=[0:type=1,desc=-,fields=();1:type=0,desc=0,fields=()] \
             locals=[] operands=[obj:1] blocks=[]"
                .to_string(),
        ),
        (
            format!("R {f1} 2 00d06201fb20000b 10"),
            "trap 43 4 2 | place=4 heap=[] locals=[] operands=[null] blocks=[]".to_string(),
        ),
        (
            format!("R {f2} 2 00d071fb22000b 10"),
            "trap 42 3 2 | place=3 heap=[] locals=[] operands=[null] blocks=[]".to_string(),
        ),
        (
            format!("R {f1} 2 0003400c000b000b 10"),
            "spent 10 | place=3 heap=[] locals=[] operands=[] blocks=[loop@1:height=0]".to_string(),
        ),
        (
            "R 025f017f00600000 1 01017f417bfb0000024041071a0b1a0b 4".to_string(),
            "spent 4 | place=12 heap=[0:type=0,desc=-,fields=(i32:-5)] locals=[i32:0] \
             operands=[obj:0,i32:7] blocks=[block@8:height=1]"
                .to_string(),
        ),
        (
            "R 025f00600000 1 06017f017e017d017c016e0164000b 0".to_string(),
            "spent 0 | place=14 heap=[] \
             locals=[i32:0,i64:0,f32:00000000,f64:0000000000000000,null,unset] operands=[] blocks=[]"
                .to_string(),
        ),
        ("R 01600000 0 000b 0".to_string(), format!("spent 0 | place=1 {empty}")),
        ("R 01600000 0 000b 1".to_string(), format!("done 1 [] | place=2 {empty}")),
        ("R 01600000 0 000b 1000000".to_string(), format!("done 1 [] | place=2 {empty}")),
        ("R 01600000 0 000b 1000001".to_string(), "no 4 0".to_string()),
        ("R 01600000 0 000b 18446744073709551615".to_string(), "no 4 0".to_string()),
        ("R 025f006001640000 1 000b 1".to_string(), "no 29 0".to_string()),
        ("R 025f006001640000 1 000b 1000001".to_string(), "no 4 0".to_string()),
        ("R 025f006001640000 1 001a0b 1000001".to_string(), "no 20 1".to_string()),
        ("R 01600000 1 000b 1000001".to_string(), "no 27 0".to_string()),
        ("R - 0 - 1000001".to_string(), "no 1 0".to_string()),
    ];
    let requests: Vec<&str> = cases.iter().map(|(request, _)| request.as_str()).collect();
    let answered = answers(&requests.join("\n"));
    for ((request, wanted), answer) in cases.iter().zip(&answered) {
        assert_eq!(answer, wanted, "{request}");
    }
    assert_eq!(answered.len(), cases.len());
}

/// docs/DECISIONS.md's points about the run: each request with its answer, which may break off at `..`.
#[test]
fn runs_of_the_decisions() {
    let page = std::path::Path::new(env!("CARGO_MANIFEST_DIR")).join("../docs/DECISIONS.md");
    let page = std::fs::read_to_string(page).expect("the page");
    let shown: Vec<(String, String)> =
        page.split("`R ").skip(1).filter_map(|rest| shown_run(&format!("R {rest}"))).collect();
    assert!(shown.len() >= 13, "{shown:?}");
    for (request, wanted) in shown {
        let answer = answers(&request).remove(0);
        let begins = wanted.split("..").next().expect("what stands before it").trim_end();
        assert!(answer.starts_with(begins), "{request} gave {answer}");
        assert!(wanted.contains("..") || answer == wanted, "{request} gave {answer}");
    }
}

/// `R ..` -> `..`, with the page's short names for sections.
fn shown_run(text: &str) -> Option<(String, String)> {
    let (request, rest) = text.split_once("` -> `")?;
    let answer = rest.split('`').next()?;
    if request.contains('`') {
        return None;
    }
    let f1 = "024e024d015f004c005f00600001646200";
    Some((
        request.replace(" V ", " 01600000 ").replace(" F1 ", &format!(" {f1} ")),
        answer.to_string(),
    ))
}

/// The longest body and one byte more, each with the longest section: lines of some 131,000 characters.
#[test]
fn long_bodies() {
    let section = format!("fe7f{}{}", "600000".repeat(2), "4e00".repeat(16_380));
    assert_eq!(section.len(), 2 * 32_768);
    let body = format!("00{}0b", "01".repeat(32_766));
    assert_eq!(body.len(), 2 * 32_768);
    let answered = answers(&format!(
        "B {section} 0 {body}\nB {section} 0 {body}00\nB {section}00 0 {body}\nB {section} 2 {body}00\n"
    ));
    assert_eq!(answered, ["yes 32767", "no 4 0", "no 4 0", "no 4 0"]);
    let run = answers(&format!("R {section} 0 {body} 1000000\nR {section} 0 {body}00 1000000\n"));
    let state = "place=32768 heap=[] locals=[] operands=[] blocks=[]";
    assert_eq!(run, [&format!("done 32767 [] | {state}"), "no 4 0"]);
}

/// The longest section and one byte more: lines of 65,536 characters and more.
#[test]
fn long_lines() {
    let groups = "4e00".repeat(16_382);
    let longest = format!("ff7f{groups}4e00");
    assert_eq!(longest.len(), 2 * 32_768);
    let answered = answers(&format!(
        "S {longest}\nS fe7f{groups}00\nS feff00{groups}\nS {longest}00\nS {}\n",
        "00".repeat(100_000)
    ));
    // The third has a padded count.
    assert_eq!(answered, ["yes 0", "no 5 32766", "no 32 0", "no 4 0", "no 4 0"]);
}
