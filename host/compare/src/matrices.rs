//! The leaves on matrices, which cross as bytes.

use crate::draw::kind::{Kind, Kinds};
use crate::draw::{Draw, NANS, SIGNS};
use crate::run::{matches, show, Run};
use crate::target::Target;
use nalgebra::DMatrix;
use relaxed_ik::bytes::put_floats;
use relaxed_ik::leaves;

const SIDE: usize = 6;
/// An arm has at most this many joints, so J at most this many columns.
const MOST_COLUMNS: usize = 16;

const SQUARE: Kinds = &[
    (Kind::Range, 13),
    (Kind::Border, 6),
    (Kind::Signs, 5),
    (Kind::Small, 2),
    (Kind::Any, 4),
    (Kind::Short, 1),
    (Kind::Nan, 1),
];
const COLUMNS: Kinds = &[(Kind::Range, 7), (Kind::Any, 1)];

pub fn targets() -> Vec<Target> {
    let leaf = Target::leaf;
    vec![
        leaf(
            "determinant",
            "determinant of a 6 by 6 matrix",
            SQUARE,
            determinant,
        ),
        leaf("gram", "an entry of J times J transposed", COLUMNS, gram),
    ]
}

/// Rows first, as the bytes have them.
type Rows = [[f64; SIDE]; SIDE];

fn determinant(run: &mut Run) {
    let mut bytes = Vec::new();
    if run.edges() {
        for rows in special() {
            determinant_of(run, &mut bytes, rows.as_flattened());
        }
        for count in 0..SIDE * SIDE {
            determinant_of(run, &mut bytes, &identity().as_flattened()[..count]);
        }
    }
    while run.more() {
        let rows = matrix(&mut run.draw, run.kind);
        let count = match run.kind {
            Kind::Short => run.draw.below(SIDE * SIDE),
            _ => SIDE * SIDE,
        };
        determinant_of(run, &mut bytes, &rows.as_flattened()[..count]);
    }
}

fn determinant_of(run: &mut Run, bytes: &mut Vec<u8>, entries: &[f64]) {
    put_floats(entries, bytes);
    let proved = leaves::determinant(bytes);
    // Another length is no matrix, and answered with a NaN.
    let reference = if entries.len() == SIDE * SIDE {
        DMatrix::from_fn(SIDE, SIDE, |r, c| entries[r * SIDE + c]).determinant()
    } else {
        f64::NAN
    };
    run.floats(entries, &[proved], &[reference]);
}

fn identity() -> Rows {
    std::array::from_fn(|r| std::array::from_fn(|c| if r == c { 1.0 } else { 0.0 }))
}

/// Permutations with every sign of zero and of one row, a zero column, equal
/// rows, a column of equal absolute values.
fn special() -> Vec<Rows> {
    let mut all = Vec::new();
    let mut orders = vec![Vec::new()];
    for _ in 0..SIDE {
        orders = orders
            .iter()
            .flat_map(|order: &Vec<usize>| {
                (0..SIDE)
                    .filter(|next| !order.contains(next))
                    .map(|next| [&order[..], &[next]].concat())
            })
            .collect();
    }
    for order in &orders {
        for zero in [0.0, -0.0] {
            for sign in [1.0, -1.0] {
                all.push(std::array::from_fn(|r| {
                    std::array::from_fn(|c| match (order[r] == c, r) {
                        (true, 0) => sign,
                        (true, _) => 2.0,
                        (false, _) => zero,
                    })
                }));
            }
        }
    }
    let full: Rows =
        std::array::from_fn(|r| std::array::from_fn(|c| 1.0 / (1.0 + r as f64 + c as f64)));
    for at in 0..SIDE {
        for zero in [0.0, -0.0] {
            let mut rows = full;
            rows.iter_mut().for_each(|row| row[at] = zero);
            all.push(rows);
            rows = full;
            rows[at] = [zero; SIDE];
            all.push(rows);
        }
        for other in 0..SIDE {
            let mut rows = full;
            rows[at] = rows[other];
            all.push(rows);
        }
        for signs in 0..1 << SIDE {
            let mut rows = full;
            for (r, row) in rows.iter_mut().enumerate() {
                row[at] = if signs >> r & 1 == 0 { 0.75 } else { -0.75 };
            }
            all.push(rows);
        }
    }
    all.extend([full, identity(), [[0.0; SIDE]; SIDE], [[1.0; SIDE]; SIDE]]);
    all
}

fn fill(draw: &mut Draw, mut entry: impl FnMut(&mut Draw) -> f64) -> Rows {
    std::array::from_fn(|_| std::array::from_fn(|_| entry(draw)))
}

fn matrix(draw: &mut Draw, kind: Kind) -> Rows {
    match (kind, draw.word() % 6) {
        (Kind::Border, _) => tied(draw),
        (Kind::Signs, 0..2) => fill(draw, |draw| draw.pick(&SIGNS)),
        (Kind::Signs, _) => sparse(draw),
        (Kind::Small, _) => scaled_rows(draw),
        (Kind::Nan, _) => {
            let mut rows = fill(draw, |draw| draw.between(-1.0, 1.0));
            let odd = f64::from_bits(draw.pick(&NANS));
            rows[draw.below(SIDE)][draw.below(SIDE)] =
                draw.pick(&[f64::INFINITY, f64::NEG_INFINITY, odd]);
            rows
        }
        (Kind::Any, 0..3) => fill(draw, Draw::bits),
        (Kind::Any, _) => fill(draw, Draw::any),
        // As manipulability asks: J times J transposed.
        (_, 0..3) => {
            let count = SIDE + draw.below(MOST_COLUMNS - SIDE + 1);
            let columns = jacobian(draw, count);
            let entry = |r: usize, c: usize| columns.iter().map(|j| j[r] * j[c]).sum();
            std::array::from_fn(|r| std::array::from_fn(|c| entry(r, c)))
        }
        _ => fill(draw, |draw| draw.between(-10.0, 10.0)),
    }
}

/// Ties in every column; rows that repeat, or are the sum of two.
fn tied(draw: &mut Draw) -> Rows {
    match draw.word() % 3 {
        0 => fill(draw, |draw| draw.pick(&[1.0, -1.0])),
        1 => fill(draw, |draw| draw.pick(&[-2.0, -1.0, 0.0, 1.0, 2.0])),
        _ => {
            let mut rows = fill(draw, |draw| draw.between(-1.0, 1.0));
            let (to, a, b) = (draw.below(SIDE), draw.below(SIDE), draw.below(SIDE));
            rows[to] = match draw.word() % 2 {
                0 => rows[a],
                _ => std::array::from_fn(|c| rows[a][c] + rows[b][c]),
            };
            rows
        }
    }
}

/// A zero somewhere, or mostly zeros.
fn sparse(draw: &mut Draw) -> Rows {
    let few = draw.word() % 4 == 0;
    let mut rows = fill(draw, |draw| match draw.word() % 4 {
        1 if !few => -0.0,
        2 | 3 if !few => 0.0,
        _ => draw.between(-1.0, 1.0),
    });
    rows[draw.below(SIDE)][draw.below(SIDE)] = draw.pick(&[0.0, -0.0]);
    rows
}

/// Rows of very different size.
fn scaled_rows(draw: &mut Draw) -> Rows {
    let mut rows = fill(draw, |draw| draw.between(-1.0, 1.0));
    for row in &mut rows {
        let scale = draw.small(1000);
        *row = row.map(|v| if scale < 0.0 { v / scale } else { v * scale });
    }
    rows
}

/// Columns as an arm makes them: the cross product's three, then the axis.
fn jacobian(draw: &mut Draw, count: usize) -> Vec<[f64; SIDE]> {
    (0..count)
        .map(|at| match draw.word() % 8 {
            // A column that no turning link filled.
            0 => std::array::from_fn(|r| if r == at { 1.0 } else { 0.0 }),
            1 => std::array::from_fn(|_| draw.pick(&SIGNS)),
            _ => std::array::from_fn(|r| {
                let reach = if r < 3 { 2.0 } else { 1.0 };
                draw.between(-reach, reach)
            }),
        })
        .collect()
}

/// A call answers one entry: of the edges all are asked, of a draw one.
fn gram(run: &mut Run) {
    let mut bytes = Vec::new();
    let edges = if run.edges() {
        edge_columns()
    } else {
        Vec::new()
    };
    for columns in &edges {
        for entry in 0..SIDE * SIDE {
            gram_entry(run, &mut bytes, columns, [entry / SIDE, entry % SIDE]);
        }
    }
    while run.more() {
        let count = run.draw.below(MOST_COLUMNS + 1);
        let columns = match run.kind {
            Kind::Any => (0..count).map(|_| run.draw.anys()).collect(),
            _ => jacobian(&mut run.draw, count),
        };
        let entry = [run.draw.below(SIDE), run.draw.below(SIDE)];
        gram_entry(run, &mut bytes, &columns, entry);
    }
}

/// Row and column are shown before the columns.
fn gram_entry(run: &mut Run, bytes: &mut Vec<u8>, columns: &[[f64; SIDE]], entry: [usize; 2]) {
    let [row, column] = entry;
    put_floats(columns.as_flattened(), bytes);
    let proved = leaves::gram(bytes, row as u32, column as u32);
    let j = DMatrix::from_fn(SIDE, columns.len(), |r, c| columns[c][r]);
    let reference = (j.clone() * j.transpose())[(row, column)];
    run.case(matches(proved, reference), || {
        let input = [&entry.map(|at| at as f64), columns.as_flattened()].concat();
        show(&input, &[proved], &[reference])
    });
}

/// Columns of ones, of counted numbers, of zeros, and of the largest and the
/// smallest floats, for every count.
fn edge_columns() -> Vec<Vec<[f64; SIDE]>> {
    let unit = |at: usize| std::array::from_fn(|r| if r == at { 1.0 } else { 0.0 });
    let counted = |at: usize| std::array::from_fn(|r| (at * SIDE + r) as f64 / 10.0);
    let every = |count: usize| {
        [
            (0..count).map(unit).collect(),
            (0..count).map(counted).collect(),
            vec![[-0.0; SIDE]; count],
            vec![[f64::MAX; SIDE]; count],
            vec![[5e-324; SIDE]; count],
        ]
    };
    (0..=MOST_COLUMNS).flat_map(every).collect()
}
