//! Shapes that random trees hardly ever have, worked by hand from document 01.

mod common;
use common::*;

/// A section of this definition after so many empty groups of two bytes and, where it
/// is asked for, a function of three.
fn after_empty(groups: usize, three: bool, definition: &str) -> String {
    let count = groups + usize::from(three) + 1;
    let count = format!("{:02X} {:02X}", count & 0x7F | 0x80, count >> 7);
    let three = if three { "60 00 00" } else { "" };
    format!("{count} {} {three} {definition}", times(groups, "4E 00"))
}

fn row_of_last(start: usize, end: usize) -> String {
    format!("yes 1 struct final super=- describes=- descriptor=- {start}..{end}")
}

fn rows_after_function(start: usize, end: usize) -> String {
    let function = format!("func final super=- describes=- descriptor=- {}..{start}", start - 3);
    format!("yes 2 {function};struct final super=- describes=- descriptor=- {start}..{end}")
}

#[test]
fn ends_above_16_383() {
    assert_eq!(section(&after_empty(8188, true, "5F 00")), rows_after_function(16_381, 16_383));
    assert_eq!(section(&after_empty(8190, false, "5F 00")), row_of_last(16_382, 16_384));
    assert_eq!(section(&after_empty(8189, true, "5F 00")), rows_after_function(16_383, 16_385));
    assert_eq!(section(&after_empty(8191, false, "5F 00")), row_of_last(16_384, 16_386));
    assert_eq!(section(&after_empty(16_382, false, "5F 00")), row_of_last(32_766, 32_768));
    assert_eq!(section(&after_empty(16_382, false, "5F 80 00")), "no 4 0");
    assert_eq!(type_bytes(&after_empty(16_382, false, "5F 00"), 0), "yes 5f00");
    assert_eq!(type_bytes(&after_empty(16_382, false, "5F 00"), 1), "no 6 1");
    assert_eq!(body(&after_empty(8190, false, "60 00 00"), 0, "00 0B"), "yes 1");
}

#[test]
fn faults_above_16_383() {
    assert_eq!(section(&after_empty(8190, false, "5F")), "no 1 16383");
    assert_eq!(section(&after_empty(8190, false, "5F 80 80 80 80 80")), "no 2 16383");
    assert_eq!(section(&after_empty(8190, false, "5F 80 00")), "no 32 16383");
    assert_eq!(section(&after_empty(8191, false, "5E 00")), "no 3 16384");
    assert_eq!(section(&after_empty(8190, false, "5F 00 00")), "no 5 16384");
    assert_eq!(section(&after_empty(8190, false, "50 01 00 5F 00")), "no 7 0");
}

#[test]
fn parameters_with_results() {
    let function = |parameters: usize, results: usize| {
        let list = |count: usize| format!("{count:02X} {}", times(count, "7F"));
        format!("60 {} {}", list(parameters), list(results))
    };
    let row = |end: usize| format!("yes 1 func final super=- describes=- descriptor=- 1..{end}");
    assert_eq!(section(&format!("01 {}", function(50, 51))), row(105));
    assert_eq!(section(&format!("01 {}", function(64, 64))), row(132));
    assert_eq!(section(&format!("01 {}", function(64, 65))), "no 4 132");
    assert_eq!(section(&format!("01 {}", function(65, 64))), "no 4 67");
    let below = |last: &str| {
        let lists = format!("60 40 {} 40 {}", times(64, "7F"), times(63, "7F"));
        format!("02 50 00 {} 50 01 00 {lists} {last}", function(64, 64))
    };
    assert_eq!(count_only(&section(&below("7F"))), "yes 2");
    assert_eq!(section(&below("7E")), "no 8 1");
}

#[test]
fn bodies_of_long_functions() {
    let function = format!("01 60 40 {} 40 {}", times(64, "7F"), times(64, "7F"));
    let gets = |count: usize, local: &str| format!("00 {} 0B", times(count, local));
    assert_eq!(body(&function, 0, &gets(64, "20 3F")), "yes 65");
    assert_eq!(body(&function, 0, &gets(64, "20 40")), "no 21 1");
    assert_eq!(body(&function, 0, &gets(63, "20 3F")), "no 20 127");
    assert_eq!(body(&function, 0, &gets(65, "20 3F")), "no 28 131");
    let done = format!("done 65 [{}]", vec!["i32:0"; 64].join(","));
    assert_eq!(outcome(&run(&function, 0, &gets(64, "20 3F"), 65)), done);
}

/// A struct with this last field after 63 mutable i32, its descriptor, and a function
/// that gives an i32.
fn full_struct(last: &str) -> String {
    let fields = times(63, "7F 01");
    format!("02 4E 02 4D 01 5F 40 {fields} {last} 4C 00 5F 00 60 00 01 7F")
}

/// The object is made at places 4 and 7; its field is set at 16 and read at 22.
fn set_and_read(set: &str, read: &str) -> String {
    format!(
        "01 01 63 00 FB 01 01 FB 21 00 21 00 20 00 41 07 FB 05 00 {set} 20 00 FB 02 00 {read} 0B"
    )
}

#[test]
fn field_63_of_a_struct_with_a_descriptor() {
    let mutable = full_struct("7F 01");
    assert_eq!(body(&mutable, 2, &set_and_read("3F", "3F")), "yes 9");
    let ended = run(&mutable, 2, &set_and_read("3F", "3F"), 9);
    assert_eq!(outcome(&ended), "done 9 [i32:7]");
    let fields = format!("1:type=0,desc=0,fields=({}i32:7)", "i32:0,".repeat(63));
    assert!(ended.contains(&fields), "{ended}");
    assert_eq!(outcome(&run(&mutable, 2, &set_and_read("3F", "3E"), 9)), "done 9 [i32:0]");
    assert_eq!(outcome(&run(&mutable, 2, &set_and_read("3E", "3F"), 9)), "done 9 [i32:0]");
    assert_eq!(body(&mutable, 2, &set_and_read("40", "3F")), "no 23 16");
    assert_eq!(body(&mutable, 2, &set_and_read("3F", "40")), "no 23 22");
    assert_eq!(body(&full_struct("7F 00"), 2, &set_and_read("3F", "3F")), "no 24 16");
    assert_eq!(body(&full_struct("7E 01"), 2, &set_and_read("3F", "3F")), "no 20 16");
    assert_eq!(body(&full_struct("7E 01"), 2, &set_and_read("3E", "3F")), "no 20 26");
    let beyond = format!("01 4E 02 4D 01 5F 41 {} 4C 00 5F 00", times(65, "7F 01"));
    assert_eq!(section(&beyond), "no 4 135");
}

#[test]
fn all_64_fields_given() {
    let numbers: Vec<String> = (0..64).map(|number| format!("41 {number:02X}")).collect();
    let read = |made: &str, field: &str| {
        format!("00 {} {made} FB 20 00 FB 02 00 {field} 0B", numbers.join(" "))
    };
    let section = full_struct("7F 01");
    assert_eq!(outcome(&run(&section, 2, &read("FB 00 01", "3F"), 68)), "done 68 [i32:63]");
    assert_eq!(outcome(&run(&section, 2, &read("FB 00 01", "00"), 68)), "done 68 [i32:0]");
    assert_eq!(outcome(&run(&section, 2, &read("D0 62 01", "3F"), 68)), "trap 43 132 66");
    assert_eq!(body(&section, 2, &read("", "3F")), "no 20 129");
}

#[test]
fn numbers_near_200_and_255() {
    let after = |groups: &str, count: usize, last: &str| {
        format!("{groups} {} {last}", times(count, "50 00 5F 00"))
    };
    let near_200 = |last: &str| count_only(&section(&after("C9 01", 200, last)));
    assert_eq!(near_200("5F 01 63 C8 01 00"), "yes 201");
    assert_eq!(near_200("5F 01 64 62 C8 01 00"), "yes 201");
    assert_eq!(near_200("50 01 C7 01 5F 00"), "yes 201");
    assert_eq!(section(&after("C9 01", 200, "5F 01 63 C9 01 00")), "no 6 200");
    assert_eq!(section(&after("C9 01", 200, "50 01 C8 01 5F 00")), "no 7 200");
    assert_eq!(section(&after("C9 01", 200, "50 01 C9 01 5F 00")), "no 6 200");
    let near_255 = |last: &str| count_only(&section(&after("80 02", 255, last)));
    assert_eq!(near_255("60 01 63 FF 01 00"), "yes 256");
    assert_eq!(near_255("60 00 01 63 62 FF 01"), "yes 256");
    assert_eq!(near_255("50 01 FE 01 5F 00"), "yes 256");
    assert_eq!(section(&after("80 02", 255, "60 01 63 80 02 00")), "no 6 255");
    assert_eq!(section(&after("80 02", 255, "5F 01 63 62 80 02 00")), "no 6 255");
    assert_eq!(section(&after("80 02", 255, "4D 80 02 5F 00")), "no 6 255");
    // Type 254 names 255: in a group with it, and before it.
    let pair = after("FF 01", 254, "4E 02 4D FF 01 5F 00 4C FE 01 5F 00");
    assert_eq!(count_only(&section(&pair)), "yes 256");
    assert_eq!(section(&after("80 02", 254, "5F 01 63 FF 01 00 5F 00")), "no 6 254");
}

#[test]
fn numbers_near_1023() {
    let after = |groups: &str, count: usize, last: &str| {
        format!("{groups} {} {last}", times(count, "50 00 5F 00"))
    };
    let last = |last: &str| count_only(&section(&after("80 08", 1_023, last)));
    assert_eq!(last("60 01 63 FF 07 00"), "yes 1024");
    assert_eq!(last("60 00 01 63 62 FF 07"), "yes 1024");
    assert_eq!(last("50 01 FE 07 5F 00"), "yes 1024");
    assert_eq!(section(&after("80 08", 1_023, "60 01 63 80 08 00")), "no 6 1023");
    assert_eq!(section(&after("80 08", 1_023, "5F 01 63 62 80 08 00")), "no 6 1023");
    assert_eq!(section(&after("80 08", 1_023, "4D 80 08 5F 00")), "no 6 1023");
    assert_eq!(section(&after("80 08", 1_023, "50 01 FF 07 5F 00")), "no 7 1023");
    // Type 1,022 names 1,023: in a group with it, and before it.
    let pair = after("FF 07", 1_022, "4E 02 4D FF 07 5F 00 4C FE 07 5F 00");
    assert_eq!(count_only(&section(&pair)), "yes 1024");
    assert_eq!(section(&after("80 08", 1_022, "5F 01 63 FF 07 00 5F 00")), "no 6 1022");
}

#[test]
fn bodies_that_name_types_near_1023() {
    let types = format!("80 08 {} 60 00 00", times(1_023, "5F 00"));
    assert_eq!(body(&types, 1_023, "00 D0 FF 07 1A 0B"), "yes 3");
    assert_eq!(body(&types, 1_023, "00 D0 80 08 1A 0B"), "no 6 1");
    assert_eq!(body(&types, 1_023, "01 01 63 62 FF 07 0B"), "yes 1");
    assert_eq!(body(&types, 1_023, "01 01 63 80 08 0B"), "no 6 1");
    assert_eq!(outcome(&run(&types, 1_023, "00 FB 01 FE 07 1A 0B", 3)), "done 3 []");
    assert_eq!(body(&types, 1_023, "00 FB 01 FF 07 1A 0B"), "no 23 1");
    assert_eq!(body(&types, 1_023, "00 FB 01 80 08 1A 0B"), "no 6 1");
    assert_eq!(body(&types, 1_022, "00 0B"), "no 27 0");
    assert_eq!(body(&types, 1_024, "00 0B"), "no 27 0");
}

#[test]
fn bodies_that_name_types_near_255() {
    let types = format!("80 02 {} 60 00 00", times(255, "5F 00"));
    assert_eq!(body(&types, 255, "00 D0 FF 01 1A 0B"), "yes 3");
    assert_eq!(body(&types, 255, "00 D0 80 02 1A 0B"), "no 6 1");
    assert_eq!(body(&types, 255, "01 01 63 62 FF 01 0B"), "yes 1");
    assert_eq!(body(&types, 255, "01 01 63 80 02 0B"), "no 6 1");
    assert_eq!(outcome(&run(&types, 255, "00 FB 01 FE 01 1A 0B", 3)), "done 3 []");
    assert_eq!(body(&types, 255, "00 FB 01 FF 01 1A 0B"), "no 23 1");
    assert_eq!(body(&types, 255, "00 FB 01 80 02 1A 0B"), "no 6 1");
    assert_eq!(body(&types, 254, "00 0B"), "no 27 0");
    assert_eq!(body(&types, 256, "00 0B"), "no 27 0");
}

#[test]
fn counts_of_a_function_and_its_supertype() {
    let below = |upper: &str, lower: &str| {
        count_only(&section(&format!("02 50 00 60 {upper} 50 01 00 60 {lower}")))
    };
    assert_eq!(below("01 7F 01 7E", "01 7F 01 7E"), "yes 2");
    assert_eq!(below("01 7F 01 7E", "02 7F 7F 01 7E"), "no 8");
    assert_eq!(below("01 7F 01 7E", "00 01 7E"), "no 8");
    assert_eq!(below("01 7F 01 7E", "01 7F 02 7E 7E"), "no 8");
    assert_eq!(below("01 7F 01 7E", "01 7F 00"), "no 8");
    // As many together, on another side.
    assert_eq!(below("01 7F 01 7F", "02 7F 7F 00"), "no 8");
    assert_eq!(below("01 7F 01 7F", "00 02 7F 7F"), "no 8");
    assert_eq!(below("00 00", "01 7F 00"), "no 8");
    assert_eq!(below("00 00", "00 01 7F"), "no 8");
}

#[test]
fn rule_5_of_an_earlier_type_before_rule_4() {
    let after =
        |types: &str| section(&format!("03 4E 02 50 00 4D 01 5F 00 50 00 4C 00 5F 00 {types}"));
    // Below the descriptor without describing; below the described without a descriptor.
    let (rule_5, rule_4) = ("50 01 01 5F 00", "50 01 00 5F 00");
    assert_eq!(after(&format!("{rule_5} {rule_4}")), "no 13 2");
    assert_eq!(after(&format!("{rule_4} {rule_5}")), "no 12 2");
    assert_eq!(after(&format!("5F 00 {rule_5}")), "no 13 3");
    assert_eq!(after(&format!("5F 00 {rule_4}")), "no 12 3");
    // One type against both: below 1, which describes 0 and has descriptor 2.
    let both =
        "02 4E 03 50 00 4D 01 5F 00 50 00 4C 00 4D 02 5F 00 50 00 4C 01 5F 00 50 01 01 5F 00";
    assert_eq!(section(both), "no 12 3");
}

#[test]
fn rule_4_through_two_supertypes() {
    let two = "50 00 4D 01 5F 00 50 00 4C 00 5F 00 50 01 00 4D 03 5F 00 50 01 01 4C 02 5F 00";
    let judged = |last: &str| section(&format!("01 4E 06 {two} {last}"));
    let chain = |last: &str| count_only(&judged(last));
    assert_eq!(chain("50 01 02 4D 05 5F 00 50 01 03 4C 04 5F 00"), "yes 6");
    // The last one's descriptor is missing, below the first one's, or below none.
    assert_eq!(judged("50 01 02 5F 00 5F 00"), "no 12 4");
    assert_eq!(judged("50 01 02 4D 05 5F 00 50 01 01 4C 04 5F 00"), "no 12 4");
    assert_eq!(judged("50 01 02 4D 05 5F 00 4C 04 5F 00"), "no 12 4");
    // Below the first one: its descriptor stands below the first one's, not the second's.
    assert_eq!(chain("50 01 00 4D 05 5F 00 50 01 01 4C 04 5F 00"), "yes 6");
    assert_eq!(judged("50 01 00 4D 05 5F 00 50 01 03 4C 04 5F 00"), "no 12 4");
}
