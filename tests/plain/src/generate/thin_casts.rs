//! Branching casts between any two heap types: of one hierarchy, whether the target is
//! below the source or not, or of two.

use super::encode::Group;
use super::make_body::Maker;
use super::make_section::Draft;
use super::random::Random;
use super::thin::{about_body, body_of, open_function, open_struct, section_of};
use super::value_types::{heaps_above, heaps_below, narrower, random_value_type, wider};
use crate::instruction_rules::carried;
use crate::order::{row_of, top_of};
use crate::syntax::{
    Abstract, BranchingCast, Definition, Heap, Instruction, Reference, Type, ValueType,
};

const TOPS: [Heap; 3] = [
    Heap::Abstract(Abstract::Any),
    Heap::Abstract(Abstract::Func),
    Heap::Abstract(Abstract::Extern),
];

/// The first two are a described struct and one below it; each has its descriptor next.
const DESCRIBED: [u32; 2] = [0, 2];

pub fn branching_casts(random: &mut Random) -> String {
    let mut draft = Draft { groups: kinds(), function: 0 };
    let cast = any_cast(random, &draft.types());
    let label = label_for(random, &draft.types(), &cast);
    draft.function = draft.types().len() as u32;
    let function = open_function(Vec::new(), vec![label]);
    draft.groups.push(Group { alone: true, definitions: vec![function] });
    let left = random.between(1, 6) as isize;
    let mut maker = Maker::new(random, draft.types(), &[], &[label], left);
    if maker.random.one_in(4) {
        cast_and_label(&mut maker, cast, label);
    } else {
        maker.framed(Instruction::Block(Some(label)), vec![label], |maker| {
            cast_and_label(maker, cast, label);
        });
    }
    maker.emit(Instruction::End);
    let (locals, code) = (maker.locals, maker.code);
    let section = section_of(random, &draft.groups);
    let body = body_of(random, &locals, &code);
    about_body(random, &section, draft.function as usize, &body)
}

/// Two described structs, one below the other, a struct and two functions.
fn kinds() -> Vec<Group> {
    let pair = |first: u32, above: Option<u32>, descriptor_above: Option<u32>| {
        [
            Definition { descriptor: Some(first + 1), ..open_struct(above) },
            Definition { describes: Some(first), ..open_struct(descriptor_above) },
        ]
    };
    let described = [pair(0, None, None), pair(2, Some(0), Some(1))].concat();
    let function = open_function(Vec::new(), Vec::new());
    let below = Definition { supertypes: vec![5], ..function.clone() };
    let alone = |definition| Group { alone: true, definitions: vec![definition] };
    vec![
        Group { alone: false, definitions: described },
        alone(open_struct(None)),
        alone(function),
        alone(below),
    ]
}

/// Most of them of one hierarchy.
fn any_cast(random: &mut Random, types: &[Type]) -> BranchingCast {
    let by_descriptor = random.one_in(2);
    let target = any_target(random, types, by_descriptor);
    let source = any_source(random, types, target);
    BranchingCast {
        by_descriptor,
        fail: random.one_in(2),
        label: 0,
        source: Reference { nullable: random.one_in(2), heap: source },
        target: Reference { nullable: random.one_in(2), heap: target },
    }
}

/// Where a descriptor is asked for, the target has one but for a few.
fn any_target(random: &mut Random, types: &[Type], by_descriptor: bool) -> Heap {
    if by_descriptor && !random.one_in(12) {
        let number = random.pick(&DESCRIBED);
        return random.pick(&[Heap::Defined(number), Heap::Defined(number), Heap::Exact(number)]);
    }
    let top = random.pick(&[TOPS[0], TOPS[0], TOPS[1], TOPS[2]]);
    of_hierarchy(random, types, top)
}

fn any_source(random: &mut Random, types: &[Type], target: Heap) -> Heap {
    let own = row_of(top_of(types, target));
    match random.below(16) {
        0..=3 => {
            let top = random.pick(&TOPS);
            of_hierarchy(random, types, top)
        }
        4..=6 => random.pick(&heaps_above(types, target)),
        7..=9 => random.pick(&heaps_below(types, target)),
        10 => Heap::Abstract(own.bottom),
        _ => of_hierarchy(random, types, Heap::Abstract(own.heap)),
    }
}

fn of_hierarchy(random: &mut Random, types: &[Type], top: Heap) -> Heap {
    random.pick(&heaps_below(types, top))
}

/// Mostly one that takes what is carried.
fn label_for(random: &mut Random, types: &[Type], cast: &BranchingCast) -> ValueType {
    let carried = ValueType::Ref(carried(cast));
    match random.below(10) {
        0..=2 => random_value_type(random, types),
        3 => narrower(random, types, carried),
        4 => carried,
        _ => wider(random, types, carried),
    }
}

/// The cast with its operands; where it falls through, another value for the label.
fn cast_and_label(maker: &mut Maker, cast: BranchingCast, label: ValueType) {
    if cast.source.nullable && maker.random.one_in(4) {
        cast_of_null(maker, cast);
    } else {
        maker.branching_cast(cast, 1);
    }
    maker.emit(Instruction::Drop);
    maker.produce(label, 1);
}

fn cast_of_null(maker: &mut Maker, cast: BranchingCast) {
    maker.produce_null(cast.source.heap);
    let descriptor = maker.descriptor_of(cast.target.heap).filter(|_| cast.by_descriptor);
    if let Some(descriptor) = descriptor {
        let asked = maker.descriptor_asked(cast.target.heap, descriptor);
        maker.produce_mostly_object(asked, 1);
    }
    maker.emit(Instruction::BranchingCast(cast));
}
