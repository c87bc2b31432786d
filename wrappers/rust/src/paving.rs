//! A paving that holds its own buffers.

use crate::lent::{self, Counts, Lent, FRONT_LENGTHS, FRONT_NODES, POINTS, QUADS};
use crate::{Job, Refusal};
use std::fmt;

/// Points, quads, remaining fronts and counts: an answer, and the state that further calls work on.
///
/// Its text, by `to_string`, is what the program `pave` writes for an accepted job: see [`Paving::job`].
#[derive(Clone, Debug, PartialEq)]
pub struct Paving {
    points: Vec<f64>,
    quads: Vec<u16>,
    front_nodes: Vec<u16>,
    front_lengths: Vec<u16>,
    counts: Counts,
}

impl Paving {
    fn empty() -> Paving {
        Paving {
            points: vec![0.0; POINTS],
            quads: vec![0; QUADS],
            front_nodes: vec![0; FRONT_NODES],
            front_lengths: vec![0; FRONT_LENGTHS],
            counts: Counts::default(),
        }
    }

    // The buffers and counts, for a call of `lent`.
    fn lend(&mut self) -> Lent<'_> {
        Lent {
            points: &mut self.points,
            quads: &mut self.quads,
            front_nodes: &mut self.front_nodes,
            front_lengths: &mut self.front_lengths,
            counts: &mut self.counts,
        }
    }

    /// The loops sampled into nodes: each is a front, no quad is laid.
    ///
    /// ```
    /// use paving::{Job, Paving};
    ///
    /// let job = Job::new(&[0.0, 0.0, 5400.0, 0.0, 5400.0, 5400.0, 0.0, 5400.0], &[4], 1000.0);
    /// let sampled = Paving::sample(&job)?;
    /// assert_eq!(sampled.points().nth(1), Some([2700.0, 0.0]));
    /// assert_eq!(sampled.fronts().next(), Some(&[0, 1, 2, 3, 4, 5, 6, 7][..]));
    /// # Ok::<(), paving::Refusal>(())
    /// ```
    pub fn sample(job: &Job) -> Result<Paving, Refusal> {
        let mut paving = Paving::empty();
        lent::sample(job, &mut paving.lend())?;
        Ok(paving)
    }

    /// The whole job: sampling, passes of rows, closings.
    ///
    /// ```
    /// use paving::{Job, Paving};
    ///
    /// let job = Job::new(&[0.0, 0.0, 3000.0, 0.0, 3000.0, 3000.0, 0.0, 3000.0], &[4], 1000.0);
    /// let paving = Paving::job(&job)?;
    /// assert_eq!(paving.to_string(), "\
    /// done\t4\t1\t0\t1\t0\t0\t1\t0
    /// p\t0000000000000000\t0000000000000000
    /// p\t40A7700000000000\t0000000000000000
    /// p\t40A7700000000000\t40A7700000000000
    /// p\t0000000000000000\t40A7700000000000
    /// q\t0\t1\t2\t3
    /// ");
    /// # Ok::<(), paving::Refusal>(())
    /// ```
    pub fn job(job: &Job) -> Result<Paving, Refusal> {
        let mut paving = Paving::empty();
        lent::job(job, &mut paving.lend())?;
        Ok(paving)
    }

    /// A state from lists: the coordinates of its points, the node numbers of its quads, its fronts, and the counts. Lists that
    /// do not fit in the buffers are refused with [`Refusal::Shape`], and counts of points, quads or fronts that are not those
    /// of the lists with [`Refusal::State`]. The rest is tested by the call that the state is given to.
    ///
    /// ```
    /// use paving::{Counts, Paving, Refusal};
    ///
    /// let points = [[0.0, 0.0], [3.0, 0.0], [3.0, 3.0], [0.0, 3.0]];
    /// let counts = Counts { points: 4, fronts: 1, ..Counts::default() };
    /// let state = Paving::state(&points, &[], &[&[0, 1, 2, 3]], counts)?;
    /// assert_eq!(state.counts(), counts);
    /// assert_eq!(Paving::state(&points, &[], &[], counts), Err(Refusal::State));
    /// assert_eq!(Paving::state(&[[0.0, 0.0]; 4097], &[], &[], counts), Err(Refusal::Shape));
    /// # Ok::<(), paving::Refusal>(())
    /// ```
    pub fn state(points: &[[f64; 2]], quads: &[[u16; 4]], fronts: &[&[u16]], counts: Counts) -> Result<Paving, Refusal> {
        fn fill<T: Copy>(buffer: &mut [T], list: impl Iterator<Item = T>) -> Result<(), Refusal> {
            let mut places = buffer.iter_mut();
            for element in list {
                *places.next().ok_or(Refusal::Shape)? = element;
            }
            Ok(())
        }
        let mut paving = Paving::empty();
        fill(&mut paving.points, points.iter().flatten().copied())?;
        fill(&mut paving.quads, quads.iter().flatten().copied())?;
        fill(&mut paving.front_nodes, fronts.iter().copied().flatten().copied())?;
        // A front's length is at most FRONT_NODES here, so it is a u16.
        fill(&mut paving.front_lengths, fronts.iter().map(|front| front.len() as u16))?;
        let given = [points.len() as u64, quads.len() as u64, fronts.len() as u64];
        if given != [counts.points, counts.quads, counts.fronts] {
            return Err(Refusal::State);
        }
        paving.counts = counts;
        Ok(paving)
    }

    /// One row laid on front `front`, counted from 0; the new front takes its place. Refused: nothing is changed.
    ///
    /// ```
    /// use paving::{Job, Paving, Refusal};
    ///
    /// let job = Job::new(&[0.0, 0.0, 10000.0, 0.0, 10000.0, 10000.0, 0.0, 10000.0], &[4], 1000.0);
    /// let mut paving = Paving::sample(&job)?;
    /// paving.row(&job, 0)?;
    /// assert_eq!(paving.counts().quads, 24);
    /// assert_eq!(paving.row(&job, 1), Err(Refusal::NoSuchFront));
    /// # Ok::<(), paving::Refusal>(())
    /// ```
    pub fn row(&mut self, job: &Job, front: u64) -> Result<(), Refusal> {
        lent::row(job, front, &mut self.lend())
    }

    /// The fronts of four and six nodes closed, where the quads pass the corner test; the others are kept. Refused: nothing is
    /// changed.
    ///
    /// ```
    /// use paving::{Job, Paving};
    ///
    /// let job = Job::new(&[0.0, 0.0, 3000.0, 0.0, 3000.0, 3000.0, 0.0, 3000.0], &[4], 1000.0);
    /// let mut paving = Paving::sample(&job)?;
    /// paving.close(&job)?;
    /// assert_eq!(paving.quads().collect::<Vec<_>>(), [[0, 1, 2, 3]]);
    /// # Ok::<(), paving::Refusal>(())
    /// ```
    pub fn close(&mut self, job: &Job) -> Result<(), Refusal> {
        lent::close(job, &mut self.lend())
    }

    /// The one front filled by quads round a centre; with no front it is done and adds nothing. Refused: nothing is changed.
    ///
    /// ```
    /// use paving::{Job, Paving};
    ///
    /// // an octagon
    /// let coords = [1., 0., 2., 0., 3., 1., 3., 2., 2., 3., 1., 3., 0., 2., 0., 1.].map(|x: f64| 1000.0 * x);
    /// let job = Job::new(&coords, &[8], 1000.0);
    /// let mut paving = Paving::sample(&job)?;
    /// paving.fan(&job)?;
    /// assert_eq!(paving.points().last(), Some([1500.0, 1500.0]));
    /// assert_eq!(paving.quads().next(), Some([8, 0, 1, 2]));
    /// assert_eq!(paving.counts().core_quads, 4);
    /// assert_eq!(paving.fronts().count(), 0);
    /// # Ok::<(), paving::Refusal>(())
    /// ```
    pub fn fan(&mut self, job: &Job) -> Result<(), Refusal> {
        lent::fan(job, &mut self.lend())
    }

    pub fn counts(&self) -> Counts {
        self.counts
    }

    /// The points, numbered from 0.
    pub fn points(&self) -> impl Iterator<Item = [f64; 2]> + '_ {
        self.points.chunks_exact(2).map(|p| [p[0], p[1]]).take(self.counts.points as usize)
    }

    /// The quads, each the numbers of its four points. The first `laid` are those of rows.
    pub fn quads(&self) -> impl Iterator<Item = [u16; 4]> + '_ {
        self.quads.chunks_exact(4).map(|q| [q[0], q[1], q[2], q[3]]).take(self.counts.quads as usize)
    }

    /// The fronts that remain, each the numbers of its points.
    pub fn fronts(&self) -> impl Iterator<Item = &[u16]> + '_ {
        let mut rest = &self.front_nodes[..];
        self.front_lengths.iter().take(self.counts.fronts as usize).map(move |&n| {
            let (front, behind) = rest.split_at(rest.len().min(n as usize));
            rest = behind;
            front
        })
    }
}

impl fmt::Display for Paving {
    fn fmt(&self, f: &mut fmt::Formatter) -> fmt::Result {
        write!(f, "done")?;
        for n in self.counts.list() {
            write!(f, "\t{n}")?;
        }
        writeln!(f)?;
        for p in self.points() {
            writeln!(f, "p\t{:016X}\t{:016X}", p[0].to_bits(), p[1].to_bits())?;
        }
        for q in self.quads() {
            writeln!(f, "q\t{}\t{}\t{}\t{}", q[0], q[1], q[2], q[3])?;
        }
        for front in self.fronts() {
            write!(f, "f")?;
            for node in front {
                write!(f, "\t{node}")?;
            }
            writeln!(f)?;
        }
        Ok(())
    }
}
