//! The objective and its slopes against the reference, and against each other.

use crate::arms::all;
use crate::calls::{exact, Call};
use crate::found::{differing, sheet};
use crate::run::{matches, Run};
use crate::sheets::{Lists, Shape};
use crate::source::{Source, READ, WRITTEN};
use crate::tally::Shown;
use crate::target::{Target, OBJECTIVE, SLOPES, TOGETHER};
use sheet_text::Text;

pub fn targets() -> Vec<Target> {
    let target = Target::new;
    vec![
        target("objective", "the objective", OBJECTIVE, WRITTEN, |run| {
            all(run, Call::Objective)
        }),
        target(
            "gradient",
            "slopes by 1e-7, on two blocks",
            SLOPES,
            WRITTEN,
            |run| all(run, Call::Gradient),
        ),
        target(
            "gradient_finite_diff",
            "slopes by 1e-6",
            SLOPES,
            WRITTEN,
            |run| all(run, Call::GradientFiniteDiff),
        ),
        target(
            "gradient_one_block",
            "slopes by 1e-7, on one block, and the record",
            SLOPES,
            WRITTEN,
            |run| all(run, Call::GradientOneBlock),
        ),
        target(
            "gradients_agree",
            "the proved calls for slopes, one against the other",
            TOGETHER,
            READ,
            agree,
        ),
    ]
}

/// The four calls at joints of every sign and at the ends of their range, or on draws
/// with their faults.
fn agree(run: &mut Run) {
    if run.edges() {
        every_sign(run);
    }
    let mut source = Source::new(Call::Objective, run.kind);
    while run.more() {
        let (lists, _) = source.next(&mut run.draw);
        together(run, lists);
    }
}

fn every_sign(run: &mut Run) {
    let shapes: [Shape; 5] = [
        vec![vec![13, 12]],
        vec![vec![0, 13, 12, 11, 36, 23, 15, 16, 0]],
        vec![vec![21, 12, 33, 14]; 4],
        vec![vec![13, 42, 0, 11, 46, 23, 40, 15, 16, 43]],
        vec![vec![41, 12, 33, 44]; 4],
    ];
    for shape in &shapes {
        for v in [64.0, -64.0, 8.0, -8.0, 0.0, -0.0, 0.5] {
            let mut lists = Lists::of(shape, &mut run.draw);
            Call::Objective.renew(&mut lists, &mut run.draw);
            lists.set_joints(v);
            together(run, &lists);
        }
    }
}

const CALLS: [Call; 4] = [
    Call::Objective,
    Call::Gradient,
    Call::GradientFiniteDiff,
    Call::GradientOneBlock,
];

/// All four calls on the same lists: the same number, the same value, and the
/// same slopes by 1e-7 from one block and from two.
fn together(run: &mut Run, lists: &Lists) {
    let read = Call::Objective.lent(lists);
    let mut numbers = [0; 4];
    let mut outputs = CALLS.map(|call| {
        let lengths = exact(call, lists).into_iter();
        lengths.map(|length| vec![0; length]).collect::<Vec<_>>()
    });
    for ((call, number), outputs) in CALLS.iter().zip(&mut numbers).zip(&mut outputs) {
        let mut rooms: Vec<&mut [u8]> = outputs.iter_mut().map(|list| &mut list[..]).collect();
        *number = call.ask(&read, &mut rooms);
    }
    let [single, two, coarse, one] = &outputs;
    // Value, then slopes; two blocks have their scratch list before them.
    let pairs: [[Answer; 2]; 4] = [
        [("objective", &single[0]), ("gradient", &two[1])],
        [("objective", &single[0]), ("finite diff", &coarse[1])],
        [("objective", &single[0]), ("one block", &one[0])],
        [("two blocks", &two[2]), ("one block", &one[1])],
    ];
    let same = numbers.iter().all(|&number| number == numbers[0])
        && pairs.iter().all(|[(_, a), (_, b)]| same_floats(a, b));
    run.answer(numbers[0]);
    run.case(same, || show(numbers, &pairs, &read));
}

/// What a call answered, by its name.
type Answer<'a> = (&'a str, &'a [u8]);

fn show(numbers: [u32; 4], pairs: &[[Answer; 2]], read: &[&[u8]]) -> Shown {
    let mut text = Text::default();
    text.comment(&format!("answered {numbers:?} by {CALLS:?}"));
    for [first, second] in pairs {
        differing(&mut text, 8, *first, *second);
    }
    sheet(&mut text, Call::Objective.read(), read);
    Shown::Sheet(text.finish())
}

/// Bit for bit, a NaN matching a NaN.
fn same_floats(a: &[u8], b: &[u8]) -> bool {
    let float = |bytes: &[u8]| f64::from_le_bytes(bytes.try_into().expect("eight bytes"));
    let mut both = a.chunks_exact(8).zip(b.chunks_exact(8));
    a.len() == b.len() && both.all(|(a, b)| matches(float(a), float(b)))
}
