//! A sequence of calls on the state in which a ring counts on through ten turns to the
//! end of its range. One float further every call is refused and what is kept stays; the
//! slide beside it ends at 8 as before.

use crate::arms::{Lent, List};
use crate::cases::{lent_at, Shape};
use crate::record::Record;
use crate::sequences::{play_exact, State, Step};
use crate::strict::PICKS;
use draw::Draw;

use Step::*;

/// A ring, a boom and a slide.
const SHAPE: Shape = &[&[23, 12, 33]];

/// Where the ring is from one update to the next, at first where it is reset: half of it
/// is 4.5, a whole turn and every tie on the way.
const RING: [f64; 8] = [
    4.0,
    9.0,
    12.566370614359172,
    18.84955592153876,
    31.41592653589793,
    43.982297150257104,
    56.548667764616276,
    64.0,
];

/// Asked wherever the ring is.
const ASKED: [Step; 4] = [Objective, Gradient, GradientFiniteDiff, GradientOneBlock];

/// Those that a block of joints is lent.
const ON_JOINTS: [Step; 9] = [
    Reset,
    Update,
    Frames,
    Pose,
    Manipulability,
    Objective,
    Gradient,
    GradientFiniteDiff,
    GradientOneBlock,
];

/// The lists with the ring and the slide there.
fn at(own: &Lent, ring: f64, slide: f64) -> Lent {
    let mut lists = own.clone();
    lists.set(List::Joints, &[ring, own.floats(List::Joints)[1], slide]);
    lists
}

pub fn all(draw: &mut Draw) -> Vec<Record> {
    let (mut state, mut records) = (State::default(), Vec::new());
    let own = lent_at(SHAPE, draw, |draw, _| draw.between(0.5, 1.0));
    let mut ask = |step, lent: &Lent| records.push(play_exact(&mut state, step, lent));
    for step in [Empty, Load, SetGoals] {
        ask(step, &own);
    }
    for (count, ring) in RING.into_iter().enumerate() {
        let mut lists = at(&own, ring, 0.5);
        ask(if count == 0 { Reset } else { Update }, &lists);
        for (step, pick) in ASKED.into_iter().zip(PICKS) {
            // Either list of objectives in turn.
            lists.set_pick(pick * (count as u16 % 2));
            ask(step, &lists);
        }
    }
    let end = RING[RING.len() - 1];
    for (ring, slide) in [(end.next_up(), 0.5), (-end, 8f64.next_up())] {
        ask(Kept, &own);
        for step in ON_JOINTS {
            ask(step, &at(&own, ring, slide));
        }
    }
    // Nothing has moved; back at the other end both are taken.
    ask(Kept, &own);
    for step in [Update, Pose, GradientOneBlock, Kept] {
        ask(step, &at(&own, -end, -8.0));
    }
    records
}

#[cfg(test)]
mod tests {
    use super::*;

    #[test]
    fn the_ring_is_refused_beyond_its_range_and_nothing_moves() {
        let records = all(&mut Draw::new(crate::SEED));
        let kept = |record: &&Record| record.call == Kept as u16;
        let kept: Vec<&Record> = records.iter().filter(kept).collect();
        assert!(kept[0].lists == kept[1].lists && kept[1].lists == kept[2].lists);
        assert!(kept[2].lists != kept[3].lists);
        // The current block comes behind the goals, and the ring first in it.
        let ring = |record: &Record| record.lists[1][..8].to_vec();
        let ends = [64.0f64, -64.0].map(|end| end.to_le_bytes().to_vec());
        assert_eq!([ring(kept[2]), ring(kept[3])], ends);
        let refused = records.iter().filter(|record| record.number != 0);
        let met: Vec<(u16, u32)> = refused.map(|record| (record.call, record.number)).collect();
        assert_eq!(met, ON_JOINTS.map(|step| (step as u16, 7)).repeat(2));
    }
}
