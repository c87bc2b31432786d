//! The corner limit: what is allowed, and calls that answer otherwise with another limit.

use paving::{Job, Options, Paving, Refusal};

/// A leaning plate of four nodes; as one quad its corner values are 0.8.
const PLATE: [f64; 8] = [0.0, 0.0, 5000.0, 0.0, 8000.0, 4000.0, 3000.0, 4000.0];

fn with_limit(corner_limit: f64) -> Job<'static> {
    let job = Job::new(&PLATE, &[4], 1000.0);
    Job { options: Options { corner_limit, ..job.options }, ..job }
}

fn quads_and_fronts(paving: &Paving) -> (u64, u64) {
    (paving.counts().quads, paving.counts().fronts)
}

#[test]
fn two_limits_give_two_answers() {
    assert_eq!(quads_and_fronts(&Paving::job(&with_limit(0.7)).unwrap()), (1, 0));
    assert_eq!(quads_and_fronts(&Paving::job(&with_limit(0.85)).unwrap()), (0, 1));
}

#[test]
fn a_corner_value_has_to_be_above() {
    assert_eq!(quads_and_fronts(&Paving::job(&with_limit(0.8f64.next_down())).unwrap()), (1, 0));
    assert_eq!(quads_and_fronts(&Paving::job(&with_limit(0.8)).unwrap()), (0, 1));
}

#[test]
fn two_calls_on_one_paving_with_two_limits() {
    let mut paving = Paving::sample(&with_limit(0.5)).unwrap();
    paving.close(&with_limit(0.85)).unwrap();
    assert_eq!(quads_and_fronts(&paving), (0, 1));
    paving.close(&with_limit(0.7)).unwrap();
    assert_eq!(quads_and_fronts(&paving), (1, 0));
    // the quad that is there is not tested again
    paving.fan(&with_limit(0.9)).unwrap();
    assert_eq!(quads_and_fronts(&paving), (1, 0));
}

#[test]
fn what_is_allowed() {
    for limit in [0.02, Options::CORNER_LIMIT, 0.9] {
        let mut paving = Paving::sample(&with_limit(limit)).unwrap();
        assert!(Paving::job(&with_limit(limit)).is_ok(), "{limit}");
        assert_eq!(paving.row(&with_limit(limit), 0), Err(Refusal::Row), "four nodes are no row, {limit}");
        assert!(paving.close(&with_limit(limit)).is_ok(), "{limit}");
    }
    let before = Paving::sample(&with_limit(0.5)).unwrap();
    for limit in [0.02f64.next_down(), 0.9f64.next_up(), 0.0, -0.5, 1.0, f64::INFINITY, f64::NEG_INFINITY, f64::NAN] {
        let job = with_limit(limit);
        let mut paving = before.clone();
        assert_eq!(Paving::sample(&job), Err(Refusal::Option), "{limit}");
        assert_eq!(Paving::job(&job), Err(Refusal::Option), "{limit}");
        assert_eq!(paving.row(&job, 0), Err(Refusal::Option), "{limit}");
        assert_eq!(paving.close(&job), Err(Refusal::Option), "{limit}");
        assert_eq!(paving.fan(&job), Err(Refusal::Option), "{limit}");
        assert_eq!(paving, before, "{limit}");
    }
}
