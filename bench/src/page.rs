//! docs/BENCH.md.

use crate::measure::Row;

pub fn page(
    measured_on: &str,
    sections: &[Row],
    libraries: &[Row],
    bodies: &[Row],
    numbers: &[Row],
    runs: &[Row],
) -> String {
    format!(
        "# Times

For whoever asks what the proofs cost in speed. `make bench` measures anew and writes this page and its plots.

{measured_on}.

The proved loader and the plain checker of `tests/plain` judge the same inputs, one after the other in turn. A time is the least of 45 samples of 3 ms each (of one call where that takes longer), in three rounds: other work on the machine only adds to it. Buffers are cleared first. The loader clears what it is lent in each call, and that is in its time: 163,840 bytes for a section, 229,376 for a body, 648,020 for a run (DECISIONS, on what is cleared); a refused section is cleared twice. The plain checker allocates its tree and its lists, which is in its time. A ratio below 1 means that the loader is the faster one. In the tables lower is better but for steps a second.

## Sections

- *ordinary*: families of a short and a long kind with their descriptors, and functions over them; accepted.
- *refused late*: the same with one byte left over.
- *hostile*: a chain of 63 steps, and functions whose 128 parameters and results are each compared with one far up it, near the slowest that a section can be ([ARCHITECTURE.md](ARCHITECTURE.md)); accepted.

{}
![Nanoseconds for each byte of a section](bench-sections.svg)

## With a library

A library and a section after it; the bytes are those of both, and of a body the body's alone. All are accepted.

- *ordinary pair*: half of the bytes are a library as the ordinary section above; the other half are kinds below the library's, their descriptors, and functions over them.
- *hostile pair*: a library as the hostile section above, and after it functions that are compared far up the library's chain.
- *small*: a library of five types and a section of two, and a body of theirs. Clearing the lent memory is most of the time.

{}

## Bodies

All are accepted, so that every byte is looked at. The body's section is judged in the same call and is in the time, while the bytes are the body's alone.

- *ordinary*: objects made with their descriptors, fields read and written, tests, casts, loops and blocks.
- *arithmetic*: constants and numeric codes of every kind over locals; conversions.
- *casts up a chain*: each branching cast asks twice for a type 63 supertypes away.
- *blocks, 256 locals*: blocks opened and closed, 63 of them one in the other, with 256 locals that have no default.
- *64 fields given*: structs made of 64 operands, each of a type up to 63 supertypes below its field's.
- *64 fields by default*: structs of 64 fields made by default.
- *br_if with 64 values*: each takes 64 values and gives them back.
- *br_if out of 63 blocks*: each looks for the label that lies furthest out.

{}
![Nanoseconds for each byte of a body](bench-bodies.svg)

## Numbers

Sections and bodies of 32 KB whose LEB numbers are of three lengths, each as short as it can be. All are accepted. The sections are of one shape: structs with a supertype and 64 fields, functions with 64 parameters and 64 results, all of them references to a few types. So are the bodies: constants, locals, fields, br_if, casts, nulls and new objects; they have one section, and bytes and numbers are the body's alone.

- *one-byte numbers*: types, locals and constants have low numbers.
- *two-byte numbers*: types, locals and constants are numbered from 128 on. Lists, labels, fields and the number after FB never need two bytes, and have one.
- *five-byte constants*: as the first, with constants from 2^27 on. Nothing else can need five bytes and be accepted.

{}
{}
## Runs

Each is a loop that goes on until its budget is spent, but for the last, which ends when the heap is full. A step is one instruction. Section and body are judged in the same call, and that is in the time: what a call costs besides its steps shows in the runs of 1,000.

- *br*: a branch to the loop, and nothing else.
- *locals*: local.get, local.set and local.tee.
- *integers*: sums, differences, orders and eqz of i32 and i64.
- *f32*: a product, a sum and an order.
- *f64*: a quotient, a sum, a product, a difference, neg and an order.
- *subnormal f64*: a product and a difference that are subnormal, which many processors take long for.
- *fields*: struct.get and struct.set of an object.
- *casts*: ref.test, ref.cast and ref.as_non_null of an object to its own type.
- *casts up a chain*: ref.test and ref.cast to a type 63 supertypes above the object's.
- *descriptors*: ref.get_desc and ref.cast_desc_eq.
- *blocks*: blocks opened, left by br, br_if and `end`.
- *br out of 62 blocks*: 62 blocks opened, then one branch to the loop around them.
- *objects*: structs of 4 fields made by default until all 1,024 objects and 4,096 cells are taken.

{}
![Millions of steps a second](bench-runs.svg)

{}",
        table("Section", sections),
        table("Input", libraries),
        table("Body", bodies),
        number_table(numbers),
        include_str!("../numbers.md"),
        run_table(runs),
        include_str!("../tried.md")
    )
}

pub fn table(what: &str, rows: &[Row]) -> String {
    let mut text = format!("| {what} | Bytes | Loader, µs | Plain, µs | Loader, ns a byte | Plain, ns a byte | Ratio |\n");
    text += "|---|---|---|---|---|---|---|\n";
    for row in rows {
        text += &format!(
            "| {}, {} | {} | {:.1} | {:.1} | {:.2} | {:.2} | {:.2} |\n",
            row.kind,
            row.size,
            row.amount,
            row.loader / 1000.0,
            row.plain / 1000.0,
            row.for_each(row.loader),
            row.for_each(row.plain),
            row.ratio()
        );
    }
    text
}

pub fn number_table(rows: &[Row]) -> String {
    let mut text = String::from("| Input | Bytes | Numbers | Of one byte | Loader, µs | Plain, µs | Loader, ns a byte | Plain, ns a byte | Loader, ns a number | Plain, ns a number | Ratio |\n");
    text += "|---|---|---|---|---|---|---|---|---|---|---|\n";
    for row in rows {
        let numbers = row.numbers.unwrap_or_default();
        text += &format!(
            "| {}, {} | {} | {} | {} | {:.1} | {:.1} | {:.2} | {:.2} | {:.2} | {:.2} | {:.2} |\n",
            row.what,
            row.kind,
            row.amount,
            numbers.all,
            numbers.of_one_byte,
            row.loader / 1000.0,
            row.plain / 1000.0,
            row.for_each(row.loader),
            row.for_each(row.plain),
            row.loader / numbers.all as f64,
            row.plain / numbers.all as f64,
            row.ratio()
        );
    }
    text
}

pub fn run_table(rows: &[Row]) -> String {
    let mut text = String::from("| Run | Loader, µs | Plain, µs | Loader, million steps a second | Plain, million steps a second | Ratio |\n");
    text += "|---|---|---|---|---|---|\n";
    for row in rows {
        text += &format!(
            "| {}, {} | {:.1} | {:.1} | {:.1} | {:.1} | {:.2} |\n",
            row.kind,
            row.size,
            row.loader / 1000.0,
            row.plain / 1000.0,
            row.speed(row.loader),
            row.speed(row.plain),
            row.ratio()
        );
    }
    text
}
