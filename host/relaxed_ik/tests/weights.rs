//! Weights: which lists are taken, which are refused, and what they do.

mod lists;

use lists::BUILT_IN;
use relaxed_ik::{set_weights, Refusal, WEIGHTS};

/// The built-in list with this value in each place in turn.
fn with(value: f64) -> impl Iterator<Item = [f64; 8]> {
    (0..WEIGHTS.len()).map(move |at| {
        let mut list = BUILT_IN;
        list[at] = value;
        list
    })
}

/// Just outside of 0..1000, and far.
fn outside() -> [f64; 7] {
    let (below, above) = ((-0.0f64).next_down(), 1000.0f64.next_up());
    let (nan, infinity) = (f64::NAN, f64::INFINITY);
    [below, above, -1.0, nan, -nan, infinity, -infinity]
}

#[test]
fn a_weight_is_within_0_to_1000() {
    for list in [0.0, -0.0, 5e-324, 1000.0].into_iter().flat_map(with) {
        assert_eq!(set_weights(&list), Ok(()), "{list:?}");
    }
    for list in outside().into_iter().flat_map(with) {
        assert_eq!(set_weights(&list), Err(Refusal::Weights), "{list:?}");
    }
}

#[test]
fn weights_are_eight() {
    for count in (0..20).filter(|&count| count != 8) {
        let list = vec![1.0; count];
        assert_eq!(set_weights(&list), Err(Refusal::Weights), "{count}");
    }
    assert_eq!(set_weights(&[1.0; 8]), Ok(()));
}

#[cfg(feature = "objective")]
mod objective {
    use super::lists::{chains, Lists, BUILT_IN, GOAL};
    use super::{outside, with};
    use relaxed_ik::{set_weights, Given, ObjectiveList, Refusal, Slopes, NO_TOOLS};

    /// Two arms, of seven joints and of three, bent so that every objective counts.
    fn arms() -> Lists {
        let mut lists = chains(&[vec![13, 12, 11, 13, 0, 12, 11, 13], vec![12, 33, 11]]);
        lists.floats = [0.3, 0.2, 0.5, 1.0, 0.0, 0.0, 0.0].repeat(11);
        lists
    }

    const JOINTS: [f64; 10] = [0.3, -0.5, 0.7, 0.2, -0.4, 0.6, 0.1, 0.9, -0.2, 0.5];

    /// The arms in motion, with these weights, handed to `ask`.
    fn asked<T>(weights: &[f64], ask: impl FnOnce(Given) -> T) -> T {
        let blocks = [0.0, 0.01, 0.03, 0.04].map(|by| JOINTS.map(|v| v - by));
        ask(Given {
            sheet: arms().sheet(),
            goals: &GOAL.repeat(2),
            history: &blocks.concat(),
            weights,
            tools: NO_TOOLS,
            list: ObjectiveList::Tolerance,
        })
    }

    fn value(weights: &[f64]) -> f64 {
        asked(weights, |given| given.objective(&JOINTS)).unwrap()
    }

    /// What all four calls answer, the objective without slopes.
    fn answers(weights: &[f64]) -> [Result<Slopes, Refusal>; 4] {
        let alone = |value| Slopes {
            value,
            slopes: Vec::new(),
        };
        asked(weights, |given| {
            [
                given.objective(&JOINTS).map(alone),
                given.gradient(&JOINTS),
                given.gradient_finite_diff(&JOINTS),
                given.gradient_one_block(&JOINTS).map(|(found, _)| found),
            ]
        })
    }

    /// Value and slopes of all four calls.
    fn bits(weights: &[f64]) -> Vec<u64> {
        let found = answers(weights).map(Result::unwrap);
        let figures = found
            .iter()
            .flat_map(|f| [&[f.value][..], &f.slopes].concat());
        figures.map(f64::to_bits).collect()
    }

    #[test]
    fn the_built_in_list_answers_as_none_does() {
        let none = bits(&[]);
        assert_eq!(none.len(), 4 + 3 * JOINTS.len());
        assert_eq!(bits(&BUILT_IN), none);
        // Any other weight shows.
        for list in with(7.0) {
            assert_ne!(bits(&list), none, "{list:?}");
        }
    }

    #[test]
    fn zero_weights_leave_nothing() {
        assert!(bits(&[0.0; 8]).iter().all(|&bits| bits == 0));
        assert_eq!(value(&[-0.0; 8]), 0.0);
    }

    /// Each kind has a share of its own: twice the weight is twice the share, to the
    /// bit, and the shares make up the whole.
    #[test]
    fn each_weight_counts_for_its_kind() {
        let alone = |at: usize, weight: f64| {
            let mut list = [0.0; 8];
            list[at] = weight;
            value(&list)
        };
        let mut whole = 0.0;
        for (at, weight) in BUILT_IN.into_iter().enumerate() {
            let share = alone(at, weight);
            assert_ne!(share, 0.0, "weight {at}");
            assert_eq!(alone(at, 2.0 * weight), 2.0 * share, "weight {at}");
            whole += share;
        }
        assert!((whole / value(&BUILT_IN) - 1.0).abs() < 1e-12);
    }

    #[test]
    fn every_call_refuses_a_wrong_list() {
        let refused = |list: &[f64]| {
            let all = answers(list).map(Result::unwrap_err);
            assert_eq!(all, [Refusal::Weights; 4], "{list:?}");
        };
        outside()
            .into_iter()
            .flat_map(with)
            .for_each(|list| refused(&list));
        refused(&BUILT_IN[..7]);
        refused(&[1.0; 9]);
    }

    /// 8 before 10.
    #[test]
    fn the_lowest_number_is_answered() {
        let short = |given: Given| {
            let goals = &GOAL[1..];
            Given { goals, ..given }.objective(&JOINTS)
        };
        assert_eq!(asked(&[1.0; 9], short), Err(Refusal::Goals));
    }

    /// Nothing is kept between calls: neither a list that is looked at, nor one that
    /// is refused, nor a load moves the list in force, which is the one lent.
    #[test]
    fn the_list_lent_is_in_force() {
        let own = [20.0, 60.0, 0.1, 0.7, 0.5, 0.3, 1.0, 0.01];
        let (before, none) = (bits(&own), bits(&[]));
        assert_ne!(before, none);
        assert_eq!(set_weights(&[3.0; 8]), Ok(()));
        assert_eq!((bits(&own), bits(&[])), (before.clone(), none.clone()));
        assert_eq!(set_weights(&[3.0; 9]), Err(Refusal::Weights));
        assert_eq!(arms().sheet().load(), Ok(()));
        assert_eq!((bits(&own), bits(&[])), (before, none));
    }
}
