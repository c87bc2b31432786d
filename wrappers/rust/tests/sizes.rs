//! Buffers of other lengths, what a refusal leaves, and calls from several threads.

use paving::lent::{self, Counts, Lent, FRONT_LENGTHS, FRONT_NODES, POINTS, QUADS};
use paving::{Job, Paving, Refusal};

const PLATE: [f64; 8] = [0.0, 0.0, 10000.0, 0.0, 10000.0, 10000.0, 0.0, 10000.0];
const FULL: [usize; 4] = [POINTS, QUADS, FRONT_NODES, FRONT_LENGTHS];

struct Buffers(Vec<f64>, Vec<u16>, Vec<u16>, Vec<u16>, Counts);

impl Buffers {
    /// Of these lengths, with 7 in every place.
    fn noise(lengths: [usize; 4]) -> Buffers {
        let [p, q, n, l] = lengths;
        Buffers(vec![7.0; p], vec![7; q], vec![7; n], vec![7; l], Counts::of([7; 8]))
    }

    fn lend(&mut self) -> Lent<'_> {
        Lent { points: &mut self.0, quads: &mut self.1, front_nodes: &mut self.2, front_lengths: &mut self.3, counts: &mut self.4 }
    }

    fn holds(&self, value: u16) -> bool {
        self.0.iter().all(|&x| x == f64::from(value))
            && [&self.1, &self.2, &self.3].into_iter().flatten().all(|&n| n == value)
            && self.4 == Counts::of([u64::from(value); 8])
    }
}

#[test]
fn another_length_is_refused() {
    let job = Job::new(&PLATE, &[4], 1000.0);
    for buffer in 0..4 {
        for length in [0, 1, FULL[buffer] - 1, FULL[buffer] + 1] {
            let mut lengths = FULL;
            lengths[buffer] = length;
            for call in [lent::sample, lent::job] {
                let mut buffers = Buffers::noise(lengths);
                assert_eq!(call(&job, &mut buffers.lend()), Err(Refusal::Shape), "{lengths:?}");
                assert!(buffers.holds(0), "zeros: {lengths:?}");
            }
            let row = |job: &Job, lent: &mut Lent| lent::row(job, 0, lent);
            for call in [row, lent::close, lent::fan] {
                let mut buffers = Buffers::noise(lengths);
                assert_eq!(call(&job, &mut buffers.lend()), Err(Refusal::Shape), "{lengths:?}");
                assert!(buffers.holds(7), "as it was: {lengths:?}");
            }
        }
    }
}

#[test]
fn shapes_of_a_job() {
    let pairs = vec![0.0; 2 * 2049];
    let shapes: [(&[f64], &[u16]); 7] = [
        (&PLATE, &[]),
        (&PLATE, &[3]),
        (&PLATE, &[5]),
        (&PLATE[..7], &[4]),
        (&PLATE, &[4, 0, 0, 0, 0, 0, 0, 0, 0, 0, 0, 0, 0, 0, 0, 0, 0]),
        (&pairs, &[2049]),
        (&[], &[]),
    ];
    for (coords, loop_lengths) in shapes {
        assert_eq!(Paving::job(&Job::new(coords, loop_lengths, 1000.0)), Err(Refusal::Shape));
    }
}

#[test]
fn noise_counts_for_nothing() {
    let job = Job::new(&PLATE, &[4], 1000.0);
    let mut buffers = Buffers::noise(FULL);
    lent::job(&job, &mut buffers.lend()).unwrap();
    let counts = buffers.4;
    assert_eq!(counts.list(), [72, 48, 1, 48, 0, 2, 3, 48]);
    assert!(buffers.0[2 * 72..].iter().all(|&x| x.to_bits() == 0));
    assert!(buffers.1[4 * 48..].iter().chain(&buffers.2[24..]).chain(&buffers.3[1..]).all(|&n| n == 0));
}

#[test]
fn several_threads() {
    let job = Job::new(&PLATE, &[4], 1000.0);
    let alone = Paving::job(&job).unwrap();
    std::thread::scope(|scope| {
        for _ in 0..4 {
            scope.spawn(|| {
                for _ in 0..50 {
                    assert_eq!(Paving::job(&job).unwrap(), alone);
                }
            });
        }
    });
}
