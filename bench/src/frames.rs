//! How much stack each call of an archive takes: the frames of its machine code, added up along the deepest way.
//!
//! It reads what `llvm-objdump --disassemble --reloc --no-show-raw-insn` writes of an archive for x86-64 or Arm. In each function
//! every instruction gets the depth of the stack at which it is reached; a call then takes its depth, the return address and
//! what the function takes that it calls.

use std::collections::BTreeMap;

/// Bytes for `memset`, which is not in the archive.
const MEMSET: i64 = 64;

/// The one function that calls itself, and how often at most: the walk up the abstract heap types.
const WALK: (&str, i64) = ("type_abstract::up_from", 4);

const CALLS: [&str; 4] = ["judge_section", "ask_type", "judge_body", "try_run"];

/// What an instruction does to the stack and to where the next one is.
#[derive(Clone, Debug, PartialEq, Eq)]
enum Does {
    Other,
    /// Moves the stack down by so much, or up where it is negative.
    Moves(i64),
    /// Another function: its name. A jump to it comes after the own frame is given back.
    Calls(String),
    Leaves(String),
    /// Goes to an address of this function, and to the next instruction too where it is a condition.
    Jumps(u64, bool),
    /// Goes to an address of a table.
    Switches,
    Returns,
}

struct Function {
    name: String,
    code: Vec<(u64, Does)>,
}

/// The bytes by call, or what was not understood.
pub fn of(listing: &str) -> Result<Vec<(&'static str, i64)>, String> {
    let is_arm = listing.contains("elf64-littleaarch64");
    let functions = functions(listing, is_arm);
    let return_address = if is_arm { 0 } else { 8 };
    let mut used = BTreeMap::from([("memset".to_string(), MEMSET)]);
    let mut wanted = CALLS.map(|call| (call, 0));
    for (call, bytes) in &mut wanted {
        let name = format!("chelbugan_{call}");
        *bytes = taken(&name, &functions, return_address, &mut used, &mut Vec::new())?;
    }
    Ok(wanted.to_vec())
}

/// What a function takes below its caller's stack.
fn taken(
    name: &str,
    functions: &BTreeMap<String, Function>,
    return_address: i64,
    known: &mut BTreeMap<String, i64>,
    callers: &mut Vec<String>,
) -> Result<i64, String> {
    if let Some(bytes) = known.get(name) {
        return Ok(*bytes);
    }
    if callers.iter().any(|caller| caller == name) {
        return Err(format!("{name} comes back to itself: {callers:?}"));
    }
    callers.push(name.to_string());
    let function = functions.get(name).ok_or_else(|| format!("there is no function {name}"))?;
    let depths = depths(function);
    let own = depths.iter().copied().max().unwrap_or(0);
    let (mut below, mut walk) = (own, 0);
    for ((_, does), depth) in function.code.iter().zip(&depths) {
        match does {
            Does::Calls(callee) if callee == name && name == WALK.0 => {
                walk = (depth + return_address).max(walk);
            }
            Does::Calls(callee) | Does::Leaves(callee) => {
                let its = taken(callee, functions, return_address, known, callers)?;
                let left = if matches!(does, Does::Leaves(_)) { return_address } else { 0 };
                below = below.max(depth + its - left);
            }
            _ => {}
        }
    }
    callers.pop();
    let bytes = return_address + below + walk * (WALK.1 - 1);
    known.insert(name.to_string(), bytes);
    Ok(bytes)
}

/// The depth of the stack before each instruction. Where a table's jump leads is not read: what nothing else leads to is reached
/// at the depth of the function's deepest such jump.
fn depths(function: &Function) -> Vec<i64> {
    let code = &function.code;
    let mut depths: Vec<Option<i64>> = vec![None; code.len()];
    let at = |address: u64| code.binary_search_by_key(&address, |(own, _)| *own).ok();
    let mut to_do = vec![(0, 0)];
    let mut switched = 0;
    loop {
        while let Some((index, depth)) = to_do.pop() {
            if index >= code.len() || depths[index].is_some() {
                continue;
            }
            depths[index] = Some(depth);
            match &code[index].1 {
                Does::Other | Does::Calls(_) => to_do.push((index + 1, depth)),
                Does::Moves(by) => to_do.push((index + 1, depth + by)),
                Does::Jumps(address, is_condition) => {
                    to_do.extend(at(*address).map(|index| (index, depth)));
                    to_do.extend(is_condition.then_some((index + 1, depth)));
                }
                Does::Switches => switched = switched.max(depth),
                Does::Returns | Does::Leaves(_) => {}
            }
        }
        match depths.iter().position(Option::is_none) {
            Some(index) => to_do.push((index, switched)),
            None => return depths.into_iter().flatten().collect(),
        }
    }
}

fn functions(listing: &str, is_arm: bool) -> BTreeMap<String, Function> {
    let mut functions = BTreeMap::new();
    let mut lines = listing.lines().peekable();
    while let Some(line) = lines.next() {
        let Some(name) = line.split_once(" <").and_then(|(_, rest)| rest.strip_suffix(">:")) else {
            continue;
        };
        let mut function = Function { name: name.to_string(), code: Vec::new() };
        while let Some(line) = lines.next_if(|line| !line.is_empty()) {
            let relocated = lines.next_if(|line| line.contains(":  R_"));
            function.code.extend(instruction(line, relocated, &function, is_arm));
        }
        functions.insert(name.to_string(), function);
    }
    functions
}

/// `  1e:  <tab>bl<tab>0x40 <name+0x40>`, and the line below it where the linker fills in the address.
fn instruction(
    line: &str,
    relocated: Option<&str>,
    of: &Function,
    is_arm: bool,
) -> Option<(u64, Does)> {
    let (address, rest) = line.trim_start().split_once(':')?;
    let address = u64::from_str_radix(address, 16).ok()?;
    let (name, operands) = rest.trim().split_once('\t').unwrap_or((rest.trim(), ""));
    let does = match is_arm {
        true => on_arm(name, operands),
        false => on_x86(name, operands),
    };
    let elsewhere = relocated.and_then(symbol);
    let does = match (does, elsewhere) {
        (Does::Calls(_), Some(symbol)) => Does::Calls(symbol),
        (Does::Calls(_), None) => Does::Calls(of.name.clone()),
        (Does::Jumps(..), Some(symbol)) => Does::Leaves(symbol),
        (does, _) => does,
    };
    Some((address, does))
}

/// The function that a relocation names, as it is or by its section, with what is added to it or without.
fn symbol(relocated: &str) -> Option<String> {
    let symbol = relocated.split('\t').next_back()?;
    let symbol = symbol.strip_suffix("-0x4").unwrap_or(symbol);
    Some(symbol.strip_prefix(".text.").unwrap_or(symbol).to_string())
}

/// What the lister says of an instruction stands after `# `, on Arm after `// `.
fn without_remark<'a>(operands: &'a str, mark: &str) -> &'a str {
    operands.split(mark).next().unwrap_or("").trim_end()
}

fn on_x86(name: &str, operands: &str) -> Does {
    let operands = without_remark(operands, "# ");
    let constant = || operands.strip_prefix('$')?.strip_suffix(", %rsp").and_then(number);
    match name {
        "pushq" | "push" => Does::Moves(8),
        "popq" | "pop" => Does::Moves(-8),
        "subq" => constant().map_or(Does::Other, Does::Moves),
        "addq" => constant().map_or(Does::Other, |by| Does::Moves(-by)),
        "callq" | "call" => Does::Calls(String::new()),
        "retq" | "ret" | "ud2" => Does::Returns,
        _ if name.starts_with('j') && operands.starts_with('*') => Does::Switches,
        _ if name.starts_with('j') => jump(operands, !name.starts_with("jmp")),
        _ => Does::Other,
    }
}

fn on_arm(name: &str, operands: &str) -> Does {
    let operands = without_remark(operands, "// ");
    let parts: Vec<&str> = operands.split(", ").collect();
    match (name, &parts[..]) {
        ("sub", ["sp", "sp", by @ ..]) => Does::Moves(shifted(by)),
        ("add", ["sp", "sp", by @ ..]) => Does::Moves(-shifted(by)),
        ("stp" | "str", [.., "[sp", by]) if by.ends_with("]!") => {
            Does::Moves(-number(by.trim_start_matches('#').trim_end_matches("]!")).unwrap_or(0))
        }
        ("ldp" | "ldr", [.., "[sp]", by]) => {
            Does::Moves(-number(by.trim_start_matches('#')).unwrap_or(0))
        }
        ("bl", _) => Does::Calls(String::new()),
        ("ret" | "brk" | "udf", _) => Does::Returns,
        ("br", _) => Does::Switches,
        ("b", _) => jump(operands, false),
        ("cbz" | "cbnz" | "tbz" | "tbnz", [.., to]) => jump(to, true),
        _ if name.starts_with("b.") => jump(operands, true),
        _ => Does::Other,
    }
}

/// `#16`, or `#1, lsl #12`.
fn shifted(parts: &[&str]) -> i64 {
    let by = parts.first().and_then(|by| number(by.trim_start_matches('#'))).unwrap_or(0);
    match parts.get(1) {
        Some(&"lsl #12") => by << 12,
        _ => by,
    }
}

/// `0x397 <name+0x397>`.
fn jump(operands: &str, is_condition: bool) -> Does {
    let to = operands.split(' ').next().and_then(number);
    to.map_or(Does::Other, |to| Does::Jumps(to as u64, is_condition))
}

fn number(text: &str) -> Option<i64> {
    match text.strip_prefix("0x") {
        Some(digits) => i64::from_str_radix(digits, 16).ok(),
        None => text.parse().ok(),
    }
}

#[cfg(test)]
mod tests {
    use super::*;

    const ON_ARM: &str = "archive: file format elf64-littleaarch64

0000000000000000 <inner>:
       0:      \tstr\tx30, [sp, #-16]!
       4:      \tbl\t0x4 <inner+0x4>
\t\t0000000000000004:  R_AARCH64_CALL26\tmemset
       8:      \tldr\tx30, [sp], #16
       c:      \tret

0000000000000000 <outer>:
       0:      \tcbz\tx0, 0x18 <outer+0x18>
       4:      \tsub\tsp, sp, #1, lsl #12 // =4096
       8:      \tsub\tsp, sp, #32
       c:      \tbl\t0xc <outer+0xc>
\t\t000000000000000c:  R_AARCH64_CALL26\t.text.inner
      10:      \tadd\tsp, sp, #32
      14:      \tadd\tsp, sp, #1, lsl #12
      18:      \tb\t0x18 <outer+0x18>
\t\t0000000000000018:  R_AARCH64_JUMP26\t.text.inner
";

    const ON_X86: &str = "archive: file format elf64-x86-64

0000000000000000 <type_abstract::up_from>:
       0:      \tpushq\t%rbx
       1:      \tcallq\t0x0 <type_abstract::up_from>
       6:      \tpopq\t%rbx
       7:      \tretq

0000000000000000 <outer>:
       0:      \tsubq\t$24, %rsp              # imm = 0x18
       4:      \tpushq\t$1
       6:      \tcallq\t0xb <outer+0xb>
\t\t0000000000000007:  R_X86_64_PLT32\t.text.type_abstract::up_from-0x4
       b:      \taddq\t$32, %rsp
       f:      \tretq
";

    fn of_outer(listing: &str, is_arm: bool, return_address: i64) -> i64 {
        let mut known = BTreeMap::from([("memset".to_string(), MEMSET)]);
        let functions = functions(listing, is_arm);
        taken("outer", &functions, return_address, &mut known, &mut Vec::new()).expect("a way down")
    }

    #[test]
    fn frames_are_added_up_to_the_deepest_call() {
        assert_eq!(of_outer(ON_ARM, true, 0), 4096 + 32 + 16 + 64);
    }

    #[test]
    fn the_walk_is_counted_four_times() {
        assert_eq!(of_outer(ON_X86, false, 8), 8 + 24 + 8 + 4 * (8 + 8));
    }
}
