//! Request 5 of document 02: a type asked for, bodies and runs over a library and an
//! add-on's section. Worked out by hand from the papers.

mod common;
use common::*;

/// An open struct; and one with its descriptor, both open.
const OPEN: &str = "01 50 00 5F 00";
const PAIR: &str = "01 4E 02 50 00 4D 01 5F 00 50 00 4C 00 5F 00";

/// F1 of document 01 in two: its group of two, and its function.
const F1_LIBRARY: &str = "01 4E 02 4D 01 5F 00 4C 00 5F 00";
const F1_ADD_ON: &str = "01 60 00 01 64 62 00";

#[test]
fn a_type_from_whichever_section_holds_it() {
    assert_eq!(type_of(OPEN, "01 4F 01 00 5F 00", 0), "yes 50005f00 library");
    assert_eq!(type_of(OPEN, "01 4F 01 00 5F 00", 1), "yes 4f01005f00 addon");
    assert_eq!(type_of(OPEN, "01 4F 01 00 5F 00", 2), "no 6 2");
    assert_eq!(type_of(OPEN, "01 4F 01 00 5F 00", 4294967295), "no 6 4294967295");
    // Within groups, from their own first byte on.
    let pair_below = "01 4E 02 4F 01 00 4D 03 5F 00 4F 01 01 4C 02 5F 00";
    assert_eq!(type_of(PAIR, pair_below, 0), "yes 50004d015f00 library");
    assert_eq!(type_of(PAIR, pair_below, 1), "yes 50004c005f00 library");
    assert_eq!(type_of(PAIR, pair_below, 2), "yes 4f01004d035f00 addon");
    assert_eq!(type_of(PAIR, pair_below, 3), "yes 4f01014c025f00 addon");
    assert_eq!(type_of(PAIR, pair_below, 4), "no 6 4");
    // One of the two has none.
    assert_eq!(type_of("00", "01 5F 00", 0), "yes 5f00 addon");
    assert_eq!(type_of("01 5F 00", "00", 0), "yes 5f00 library");
    assert_eq!(type_of("00", "00", 0), "no 6 0");
    // Around the boundary of 1,000 and 24, whose places begin again.
    let thousand = format!("E8 07 {} 60 00 00", times(999, "5F 00"));
    let rest = format!("18 60 01 7F 00 {}", times(23, "5F 00"));
    assert_eq!(type_of(&thousand, &rest, 998), "yes 5f00 library");
    assert_eq!(type_of(&thousand, &rest, 999), "yes 600000 library");
    assert_eq!(type_of(&thousand, &rest, 1_000), "yes 60017f00 addon");
    assert_eq!(type_of(&thousand, &rest, 1_001), "yes 5f00 addon");
    assert_eq!(type_of(&thousand, &rest, 1_023), "yes 5f00 addon");
    assert_eq!(type_of(&thousand, &rest, 1_024), "no 6 1024");
}

/// The sections' refusals come first, whatever is asked of them.
#[test]
fn refused_sections() {
    let refused = [
        ("01 7B", "01 5F 00", "no 3 1 library"),
        ("01 7B", "01 7B", "no 3 1 library"),
        ("01 4C 00 60 00 00", "00 00", "no 9 0"),
        ("01 5F 00", "00 00", "no 5 1 addon"),
        ("01 5F 00", "01 4C 00 60 00 00", "no 9 1"),
        ("01 5F 01 63 01 00", "01 5F 00", "no 6 0"),
    ];
    for (library, section, answer) in refused {
        assert_eq!(sections(library, section), answer);
        for number in [0, 1, 7] {
            assert_eq!(type_of(library, section, number), answer);
            // Neither the body's size, nor 27, nor its bytes, nor the budget.
            assert_eq!(body_over(library, section, number, ""), answer);
            assert_eq!(body_over(library, section, number, &times(32_769, "00")), answer);
            assert_eq!(run_over(library, section, number, "00 0B", 1_000_001), answer);
        }
    }
}

/// A place in a body, 27's and a run's 0 lie in no section.
#[test]
fn places_that_lie_in_no_section() {
    let judged = |body: &str| body_over("01 60 00 00", "01 5F 00", 0, body);
    assert_eq!(judged(""), "no 1 0");
    assert_eq!(judged("80 80 80 80 10"), "no 2 0");
    assert_eq!(judged("00 C5"), "no 3 1");
    assert_eq!(judged(&times(32_769, "00")), "no 4 0");
    assert_eq!(judged("00 0B 0B"), "no 5 2");
    assert_eq!(judged("00 FB 01 02 1A 0B"), "no 6 1");
    assert_eq!(judged("01 01 63 02 0B"), "no 6 1");
    assert_eq!(judged("00 1A 0B"), "no 20 1");
    assert_eq!(judged("00 0C 09 0B"), "no 21 1");
    assert_eq!(judged("00 41 80 00 1A 0B"), "no 32 2");
    assert_eq!(body_over("01 60 00 00", "01 5F 00", 1, "00 0B"), "no 27 0");
    assert_eq!(body_over("01 60 00 00", "01 5F 00", 2, "00 0B"), "no 27 0");
    assert_eq!(body_over("00", "00", 0, "00 0B"), "no 27 0");
    assert_eq!(run_over("01 60 00 00", "01 5F 00", 0, "00 0B", 1_000_001), "no 4 0");
    assert_eq!(run_over("01 5F 00", "01 60 01 64 00 00", 1, "00 0B", 9), "no 29 0");
    // After the body's own refusals.
    assert_eq!(run_over("01 5F 00", "01 60 01 64 00 00", 1, "00 1A 0B", 1_000_001), "no 20 1");
}

/// The bench examples of document 01 with F1 in two.
#[test]
fn f1_in_two() {
    let judged = |body: &str| body_over(F1_LIBRARY, F1_ADD_ON, 2, body);
    let run = |body: &str, budget: u64| run_over(F1_LIBRARY, F1_ADD_ON, 2, body, budget);
    assert_eq!(judged("00 FB 00 01 FB 20 00 0B"), "yes 3");
    assert_eq!(
        run("00 FB 00 01 FB 20 00 0B", 3),
        "done 3 [obj:1] | place=8 \
         heap=[0:type=1,desc=-,fields=();1:type=0,desc=0,fields=()] \
         locals=[] operands=[obj:1] blocks=[]"
    );
    assert_eq!(judged("00 FB 00 00 0B"), "no 23 1");
    assert_eq!(judged("01 01 64 01 FB 00 01 21 00 20 00 FB 20 00 0B"), "no 20 11");
    assert_eq!(
        run("00 D0 62 01 FB 20 00 0B", 9),
        "trap 43 4 2 | place=4 heap=[] locals=[] operands=[null] blocks=[]"
    );
    assert_eq!(
        run("00 03 40 0C 00 0B 00 0B", 10),
        "spent 10 | place=3 heap=[] locals=[] operands=[] blocks=[loop@1:height=0]"
    );
}

/// The function may be the library's, and its body name the add-on's types.
#[test]
fn a_function_of_the_library() {
    let judged = |body: &str| body_over("01 60 00 00", "01 5F 01 7F 01", 0, body);
    assert_eq!(judged("00 FB 01 01 1A 0B"), "yes 3");
    assert_eq!(judged("01 01 63 62 01 0B"), "yes 1");
    assert_eq!(judged("00 D0 01 FB 02 01 00 1A 0B"), "yes 4");
    assert_eq!(judged("00 FB 01 00 1A 0B"), "no 23 1");
    assert_eq!(
        run_over("01 60 00 00", "01 5F 01 7F 01", 0, "01 01 63 01 FB 01 01 21 00 0B", 9),
        "done 3 [] | place=10 heap=[0:type=1,desc=-,fields=(i32:0)] \
         locals=[obj:0] operands=[] blocks=[]"
    );
}

/// Objects of the add-on's types are asked for the library's, and the reverse.
#[test]
fn casts_over_the_boundary() {
    // 0 is open; 1, the add-on's, is below it with a field; 2 gives an i32.
    let section = "02 4F 01 00 5F 01 7F 00 60 00 01 7F";
    let run = |body: &str| run_over(OPEN, section, 2, body, 9);
    assert_eq!(
        run("00 FB 01 01 FB 14 00 0B"),
        "done 3 [i32:1] | place=8 heap=[0:type=1,desc=-,fields=(i32:0)] \
         locals=[] operands=[i32:1] blocks=[]"
    );
    assert_eq!(
        run("00 FB 01 00 FB 14 01 0B"),
        "done 3 [i32:0] | place=8 heap=[0:type=0,desc=-,fields=()] \
         locals=[] operands=[i32:0] blocks=[]"
    );
    assert_eq!(outcome(&run("00 FB 01 01 FB 14 62 00 0B")), "done 3 [i32:0]");
    assert_eq!(outcome(&run("00 FB 01 01 FB 14 62 01 0B")), "done 3 [i32:1]");
    assert_eq!(outcome(&run("00 FB 01 00 FB 16 01 1A 41 07 0B")), "trap 44 4 2");
    // A value of the add-on's type stands where the library's is wanted, not the reverse.
    let wanted = |made: &str, result: &str| {
        let section = format!("02 4F 01 00 5F 00 60 00 01 64 {result}");
        body_over(OPEN, &section, 2, &format!("00 FB 01 {made} 0B"))
    };
    assert_eq!(wanted("01", "00"), "yes 2");
    assert_eq!(wanted("01", "62 01"), "yes 2");
    assert_eq!(wanted("00", "01"), "no 20 4");
    assert_eq!(wanted("01", "62 00"), "no 20 4");
}

/// A pair of the add-on's below the library's pair, and a function.
#[test]
fn descriptors_over_the_boundary() {
    let section = |result: &str| {
        format!("02 4E 02 4F 01 00 4D 03 5F 00 4F 01 01 4C 02 5F 00 60 00 01 64 {result}")
    };
    // The add-on's object is asked for its descriptor as the library's type.
    let asked = "00 FB 01 03 FB 21 02 FB 22 00 0B";
    assert_eq!(body_over(PAIR, &section("01"), 4, asked), "yes 4");
    assert_eq!(body_over(PAIR, &section("03"), 4, asked), "no 20 10");
    assert_eq!(
        run_over(PAIR, &section("01"), 4, asked, 9),
        "done 4 [obj:0] | place=11 \
         heap=[0:type=3,desc=-,fields=();1:type=2,desc=0,fields=()] \
         locals=[] operands=[obj:0] blocks=[]"
    );
    let own = "00 FB 01 03 FB 21 02 FB 22 02 0B";
    assert_eq!(body_over(PAIR, &section("62 03"), 4, own), "yes 4");
    // A descriptor of the other section's type is not the one asked for.
    assert_eq!(body_over(PAIR, &section("00"), 4, "00 FB 01 03 FB 21 00 0B"), "no 20 4");
    assert_eq!(body_over(PAIR, &section("00"), 4, "00 FB 01 01 FB 21 02 0B"), "no 20 4");
    assert_eq!(body_over(PAIR, &section("00"), 4, "00 FB 01 01 FB 21 00 0B"), "yes 3");
}

/// Numbers around the boundary and the last of all, in bodies.
#[test]
fn bodies_over_1000_and_24() {
    let library = format!("E8 07 {}", times(1_000, "50 00 5F 00"));
    let section = format!("18 {} 60 00 00", times(23, "4F 01 E7 07 5F 00"));
    let judged = |body: &str| body_over(&library, &section, 1_023, body);
    assert_eq!(judged("00 FB 01 E7 07 1A 0B"), "yes 3");
    assert_eq!(judged("00 FB 01 E8 07 1A 0B"), "yes 3");
    assert_eq!(judged("00 FB 01 FE 07 1A 0B"), "yes 3");
    assert_eq!(judged("00 FB 01 FF 07 1A 0B"), "no 23 1");
    assert_eq!(judged("00 FB 01 80 08 1A 0B"), "no 6 1");
    assert_eq!(judged("01 01 63 FF 07 0B"), "yes 1");
    assert_eq!(judged("01 01 63 80 08 0B"), "no 6 1");
    assert_eq!(body_over(&library, &section, 1_022, "00 0B"), "no 27 0");
    assert_eq!(body_over(&library, &section, 1_024, "00 0B"), "no 27 0");
    // Each of the add-on's structs is below the library's last.
    let test = |made: &str| format!("01 01 7F FB 01 {made} FB 14 E7 07 21 00 0B");
    let run = |made: &str| run_over(&library, &section, 1_023, &test(made), 9);
    assert_eq!(
        run("FE 07"),
        "done 4 [] | place=14 heap=[0:type=1022,desc=-,fields=()] \
         locals=[i32:1] operands=[] blocks=[]"
    );
    assert_eq!(
        run("E6 07"),
        "done 4 [] | place=14 heap=[0:type=998,desc=-,fields=()] \
         locals=[i32:0] operands=[] blocks=[]"
    );
}
