//! The form of requests and answers in LINES.md.

use plain::lines::answer;

#[test]
fn unreadable_lines() {
    for line in [
        "",
        " ",
        "S",
        "S 0",
        "S 0g",
        "S 00 ",
        "S  00",
        "s 00",
        "X 00",
        "S 00 1",
        "T 00",
        "T 00 -1",
        "T 00 x",
        "B 00 0",
        "R 00 0 00",
        "R 00 0 00 1 2",
        "S +0",
        "T 00 4294967296",
        "S 00 00 00",
        "S 0 00",
        "S 00 0",
        "S  00 00",
        "T 00 0 0",
        "T 00 00 00 0",
        "T 00 00 x",
        "B 00 00 0",
        "B 00 00 00 0 00",
        "R 00 00 0 00",
        "R 00 00 00 0 00 1",
        "R 00 00 0 00 -1",
    ] {
        assert!(answer(line).starts_with("error "), "{line:?} gave {}", answer(line));
    }
}

#[test]
fn bytes_in_either_case() {
    assert_eq!(answer("S 015F00"), answer("S 015f00"));
    assert_eq!(answer("T 015F00 0"), "yes 5f00");
    assert_eq!(answer("S -"), "no 1 0");
    assert_eq!(answer("B 01600000 0 -"), "no 1 0");
    assert_eq!(answer("T 015F00 015F00 1"), answer("T 015f00 015f00 1"));
}

/// The word for the library may be left out; what is said of a section is then not said.
#[test]
fn with_and_without_a_library() {
    assert_eq!(answer("S 00"), "yes 0");
    assert_eq!(answer("S 00 00"), "yes 0");
    assert_eq!(answer("S 0000"), "no 5 1");
    assert_eq!(answer("S 00 0000"), "no 5 1 addon");
    assert_eq!(answer("S 0000 00"), "no 5 1 library");
    assert_eq!(answer("S - 00"), "no 1 0 library");
    assert_eq!(answer("S 00 -"), "no 1 0 addon");
    assert_eq!(answer("T 015f00 0"), "yes 5f00");
    assert_eq!(answer("T 00 015f00 0"), "yes 5f00 addon");
    assert_eq!(answer("T 015f00 00 0"), "yes 5f00 library");
    assert_eq!(answer("T 00 00"), "no 6 0");
    assert_eq!(answer("B 01600000 0 000b"), "yes 1");
    assert_eq!(answer("B 00 01600000 0 000b"), "yes 1");
    assert_eq!(answer("B 017b 01600000 0 000b"), "no 3 1 library");
    assert_eq!(answer("B 00 017b 0 000b"), "no 3 1 addon");
    assert_eq!(answer("B 017b 0 000b"), "no 3 1");
    let done = "done 1 [] | place=2 heap=[] locals=[] operands=[] blocks=[]";
    assert_eq!(answer("R 01600000 0 000b 9"), done);
    assert_eq!(answer("R 00 01600000 0 000b 9"), done);
    assert_eq!(answer("R 01600000 00 0 000b 9"), done);
    assert_eq!(answer("R 00 01 0 000b 9"), "no 1 1 addon");
    assert_eq!(answer("R 01 0 000b 9"), "no 1 1");
}

#[test]
fn rows() {
    // An open struct; in a group, a final subtype with a descriptor, and it.
    assert_eq!(
        answer("S 0250005f004e024f01004d025f004c015f00"),
        "yes 3 struct open super=- describes=- descriptor=- 1..5;\
         struct final super=0 describes=- descriptor=2 7..14;\
         struct final super=- describes=1 descriptor=- 14..18"
    );
    assert_eq!(answer("S 01500060017f00"), "yes 1 func open super=- describes=- descriptor=- 1..7");
    assert_eq!(
        answer("S 01500060017f00 015f00"),
        "yes 2 func open super=- describes=- descriptor=- 1..7 library;\
         struct final super=- describes=- descriptor=- 1..3 addon"
    );
}
