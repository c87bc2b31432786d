//! Requests in a text, many in one run.
//!
//! A request is a head line, the lines of a job and, for a row, the closings
//! and the fan, those of a state; `end` closes it. Fields are parted by tabs or
//! spaces. A number is a decimal, or x and the 16 hexadecimal digits of its bits.
//!
//!     job | sample | row FRONT | close | fan      the answer is pave's text, then `end`
//!     area | contains X Y | distance X Y | new    of the job's domain; one line
//!     call NAME NUMBER..                          one line, no `end` awaited
//!
//!     size H
//!     options CORNER_MARGIN MIN_EDGE_FRACTION FRONT_GAP PASSES SEAM CORNER_LIMIT    (left out: the defaults)
//!     outer | hole
//!     at X Y
//!     counts POINTS QUADS FRONTS ROW_QUADS CORE_QUADS ROW_ROUNDS PASSES LAID
//!     p X Y
//!     q A B C D
//!     f A B ..
//!     lengths N ..           loop lengths other than the points after each `outer` and `hole`
//!     more X ..              further coordinates
//!     lent P Q N L           lengths of the lent buffers other than document 01's
//!
//! Options of five fields, without CORNER_LIMIT, are read too and have the default limit; none are written so.
//! After `refused`, a row, the closings and the fan say with `left` which counts the state then has.

use crate::calls::{self, default_options, Buffers, Counts, Job};
use crate::compare::Call;
use crate::functions as f;
use crate::quality::CORNER_LIMIT;
use crate::states::State;
use crate::{text, Options};

/// One call with all that it is given.
#[derive(Clone)]
pub struct Case {
    pub call: Call,
    pub job: Job,
    pub state: State,
}

fn number(field: &str) -> Result<f64, String> {
    let fault = || format!("not a number: {field}");
    match field.strip_prefix('x') {
        Some(bits) => u64::from_str_radix(bits, 16).map(f64::from_bits).map_err(|_| fault()),
        None => field.parse().map_err(|_| fault()),
    }
}

fn natural(field: &str) -> Result<usize, String> {
    field.parse().map_err(|_| format!("not a count: {field}"))
}

fn bits(x: f64) -> String {
    format!("{:016X}", x.to_bits())
}

/// A number as it stands in a request, by its bits.
pub fn by_bits(x: f64) -> String {
    format!("x{}", bits(x))
}

/// The lines of a job, options and all, by bits.
pub fn job_lines(job: &Job) -> String {
    let o = &job.options;
    let mut out = format!(
        "size\t{}\noptions\t{}\t{}\t{}\t{}\t{}\t{}\n",
        by_bits(job.h), by_bits(o.corner_margin), by_bits(o.min_edge_fraction),
        by_bits(o.front_gap), o.max_row_rounds, o.seam, by_bits(o.corner_limit)
    );
    let mut pairs = job.xy.chunks_exact(2);
    for (i, &n) in job.lengths.iter().enumerate() {
        out += if i == 0 { "outer\n" } else { "hole\n" };
        for p in pairs.by_ref().take(n) {
            out += &format!("at\t{}\t{}\n", by_bits(p[0]), by_bits(p[1]));
        }
    }
    out
}

/// The lines of a state, by bits; of a state that is large or not sound, the counts and front lengths alone.
pub fn state_lines(b: &Buffers, c: &Counts) -> String {
    let mut out = text::counts("counts", c);
    let sound = b.fits() && c.points <= 200 && c.quads <= 200 && c.fronts <= 16;
    if !sound || b.front_lengths[..c.fronts].iter().map(|&n| n as usize).sum::<usize>() > calls::FRONT_NODES {
        return out + &format!("front lengths {:?}\n", b.front_lengths);
    }
    for i in 0..c.points {
        let p = b.point(i);
        out += &format!("p\t{}\t{}\n", by_bits(p[0]), by_bits(p[1]));
    }
    for (word, nodes) in (0..c.quads).map(|i| ("q", b.quad(i).to_vec())).chain(b.fronts(c).into_iter().map(|f| ("f", f))) {
        let words: Vec<String> = nodes.iter().map(usize::to_string).collect();
        out += &format!("{word}\t{}\n", words.join("\t"));
    }
    out
}

/// What stands between a head and `end`.
struct Body {
    job: Job,
    buffers: Buffers,
    counts: Counts,
    lent: Option<[usize; 4]>,
}

impl Body {
    fn new() -> Body {
        Body {
            job: Job { xy: Vec::new(), lengths: Vec::new(), h: f64::NAN, options: default_options() },
            buffers: Buffers { points: vec![], quads: vec![], front_nodes: vec![], front_lengths: vec![] },
            counts: Counts::default(),
            lent: None,
        }
    }

    fn line(&mut self, fields: &[&str]) -> Result<(), String> {
        let rest = &fields[1..];
        match (fields[0], rest.len()) {
            ("size", 1) => self.job.h = number(rest[0])?,
            ("options", 5 | 6) => {
                let o = &mut self.job.options;
                o.corner_margin = number(rest[0])?;
                o.min_edge_fraction = number(rest[1])?;
                o.front_gap = number(rest[2])?;
                o.max_row_rounds = natural(rest[3])?;
                o.seam = rest[4] == "true";
                o.corner_limit = rest.get(5).map_or(Ok(CORNER_LIMIT), |field| number(field))?;
            }
            ("outer", 0) | ("hole", 0) => self.job.lengths.push(0),
            ("at", 2) => {
                self.job.xy.push(number(rest[0])?);
                self.job.xy.push(number(rest[1])?);
                *self.job.lengths.last_mut().ok_or("at before outer")? += 1;
            }
            ("counts", 8) => {
                let mut list = [0; 8];
                for (place, field) in list.iter_mut().zip(rest) {
                    *place = natural(field)?;
                }
                self.counts = Counts::of(list);
            }
            ("p", 2) => {
                self.buffers.points.push(number(rest[0])?);
                self.buffers.points.push(number(rest[1])?);
            }
            ("lengths", _) => self.job.lengths = rest.iter().map(|field| natural(field)).collect::<Result<_, _>>()?,
            ("more", _) => {
                for field in rest {
                    self.job.xy.push(number(field)?);
                }
            }
            ("lent", 4) => self.lent = Some([natural(rest[0])?, natural(rest[1])?, natural(rest[2])?, natural(rest[3])?]),
            ("q", 4) => self.nodes(rest, true)?,
            ("f", _) => {
                self.buffers.front_lengths.push(rest.len() as u16);
                self.nodes(rest, false)?;
            }
            _ => return Err(format!("not a line of a request: {}", fields.join(" "))),
        }
        Ok(())
    }

    fn nodes(&mut self, fields: &[&str], quad: bool) -> Result<(), String> {
        for field in fields {
            let node = field.parse::<u16>().map_err(|_| format!("not a node: {field}"))?;
            if quad { self.buffers.quads.push(node) } else { self.buffers.front_nodes.push(node) }
        }
        Ok(())
    }

    /// The buffers at their lengths; what a request does not give is 0.
    fn fill(&mut self) {
        let b = &mut self.buffers;
        b.points.resize(b.points.len().max(calls::POINTS), 0.0);
        b.quads.resize(b.quads.len().max(calls::QUADS), 0);
        b.front_nodes.resize(b.front_nodes.len().max(calls::FRONT_NODES), 0);
        b.front_lengths.resize(b.front_lengths.len().max(calls::FRONT_LENGTHS), 0);
        if let Some([p, q, n, l]) = self.lent {
            b.points.resize(p, 0.0);
            b.quads.resize(q, 0);
            b.front_nodes.resize(n, 0);
            b.front_lengths.resize(l, 0);
        }
    }

    /// The call that a head names, with the body's job and state.
    fn case(mut self, head: &[&str]) -> Result<Case, String> {
        self.fill();
        let call = match (head[0], head.len()) {
            ("job", 1) => Call::Job,
            ("sample", 1) => Call::Sample,
            ("row", 2) => Call::Row(natural(head[1])?),
            ("close", 1) => Call::Close,
            ("fan", 1) => Call::Fan,
            _ => return Err(format!("not a call: {}", head.join(" "))),
        };
        Ok(Case { call, job: self.job, state: State { buffers: self.buffers, counts: self.counts } })
    }

    fn answer(&mut self, head: &[&str]) -> Result<String, String> {
        self.fill();
        let (job, counts) = (&self.job, self.counts);
        let b = &mut self.buffers;
        let (n, c) = match (head[0], head.len()) {
            ("job", 1) => calls::job(job, b),
            ("sample", 1) => calls::sample(job, b),
            ("row", 2) => calls::row(job, natural(head[1])?, b, counts),
            ("close", 1) => calls::close(job, b, counts),
            ("fan", 1) => calls::fan(job, b, counts),
            ("new", 1) => return Ok(f::domain_new(job) + "\n"),
            ("area", 1) => return Ok(bits(f::domain_area(job)) + "\n"),
            ("contains", 3) => {
                let p = [number(head[1])?, number(head[2])?];
                return Ok(format!("{}\n", f::domain_contains(job, p)));
            }
            ("distance", 3) => {
                let p = [number(head[1])?, number(head[2])?];
                return Ok(bits(f::distance_to_boundary(job, p)) + "\n");
            }
            _ => return Err(format!("not a request: {}", head.join(" "))),
        };
        let mut out = text::answer(n, &c, b);
        if n != 0 && matches!(head[0], "row" | "close" | "fan") {
            out += &text::counts("left", &c);
        }
        Ok(out + "end\n")
    }
}

/// `call NAME NUMBER..`: one function of the Rust.
fn call(fields: &[&str]) -> Result<String, String> {
    let name = *fields.first().ok_or("call what?")?;
    let mut x = Vec::new();
    for field in &fields[1..] {
        x.push(number(field)?);
    }
    let pairs = |from: usize| -> Vec<[f64; 2]> { x[from..].chunks_exact(2).map(|p| [p[0], p[1]]).collect() };
    let four = || -> [[f64; 2]; 4] { [0, 1, 2, 3].map(|i| [x[2 * i], x[2 * i + 1]]) };
    let out = match (name, x.len()) {
        ("sqrt", 1) => bits(f::sqrt(x[0])),
        ("min", 2) => bits(f::min(x[0], x[1])),
        ("max", 2) => bits(f::max(x[0], x[1])),
        ("clamp", 3) => bits(f::clamp(x[0], x[1], x[2])),
        ("round", 1) => bits(f::round(x[0])),
        ("round_as_usize", 1) => f::round_as_usize(x[0]).to_string(),
        ("segment_length", 4) => bits(f::segment_length([x[0], x[1]], [x[2], x[3]])),
        ("signed_area", n) if n % 2 == 0 => bits(f::signed_area(&pairs(0))),
        ("sharp", n) if n >= 7 && n % 2 == 1 => f::sharp(&pairs(1), x[0] as usize).to_string(),
        ("project", 7) => match f::project([x[0], x[1]], [x[2], x[3]], [x[4], x[5]], x[6]) {
            None => "none".to_string(),
            Some(p) => format!("{}\t{}", bits(p[0]), bits(p[1])),
        },
        ("segments_cross", 8) => {
            let p = four();
            f::segments_cross(p[0], p[1], p[2], p[3]).to_string()
        }
        ("loop_is_simple", n) if n % 2 == 0 => f::loop_is_simple(&pairs(0)).to_string(),
        ("paving_segment_distance", 6) => {
            bits(f::paving_segment_distance([x[0], x[1]], [x[2], x[3]], [x[4], x[5]]))
        }
        ("domain_segment_distance", 6) => {
            bits(f::domain_segment_distance([x[0], x[1]], [x[2], x[3]], [x[4], x[5]]))
        }
        ("point_in_polygon", n) if n >= 2 && n % 2 == 0 => {
            f::point_in_polygon([x[0], x[1]], &pairs(2)).to_string()
        }
        ("corner_values", 8) => f::corner_values(four()).map(bits).join("\t"),
        ("least_corner", 8) => bits(f::least_corner(four())),
        ("quad_ok", 8) => f::quad_ok(four()).to_string(),
        ("signed_quad_area", 8) => bits(f::signed_quad_area(four())),
        _ => return Err(format!("not a function with {} numbers: {name}", x.len())),
    };
    Ok(out + "\n")
}

/// The shortest decimal that is read as this number; its bits when there is none.
fn shortest(x: f64) -> String {
    let text = format!("{x:?}");
    let text = text.strip_suffix(".0").unwrap_or(&text).to_string();
    match text.parse::<f64>() {
        Ok(y) if y.to_bits() == x.to_bits() => text,
        _ => by_bits(x),
    }
}

fn options(o: &Options) -> String {
    let lengths = [o.corner_margin, o.min_edge_fraction, o.front_gap].map(shortest).join("\t");
    format!("{lengths}\t{}\t{}\t{}", o.max_row_rounds, o.seam, shortest(o.corner_limit))
}

/// A case as a request, in decimals. What stands behind the counts is not in it.
pub fn request(case: &Case) -> String {
    let job = &case.job;
    let head = match case.call {
        Call::Sample => "sample".to_string(),
        Call::Job => "job".to_string(),
        Call::Row(front) => format!("row\t{front}"),
        Call::Close => "close".to_string(),
        Call::Fan => "fan".to_string(),
    };
    let mut out = format!("{head}\nsize\t{}\n", shortest(job.h));
    let list = options(&job.options);
    if list != options(&default_options()) {
        out += &format!("options\t{list}\n");
    }
    let sound = job.xy.len() % 2 == 0 && job.lengths.iter().map(|&n| n as u128).sum::<u128>() == (job.xy.len() / 2) as u128;
    let mut pairs = job.xy.chunks_exact(2);
    for (i, &n) in job.lengths.iter().enumerate().take(if sound { usize::MAX } else { 0 }) {
        out += if i == 0 { "outer\n" } else { "hole\n" };
        for p in pairs.by_ref().take(n) {
            out += &format!("at\t{}\t{}\n", shortest(p[0]), shortest(p[1]));
        }
    }
    if !sound {
        let words = |list: Vec<String>| list.iter().map(|w| format!("\t{w}")).collect::<String>();
        out += &format!("more{}\n", words(job.xy.iter().map(|&x| shortest(x)).collect()));
        out += &format!("lengths{}\n", words(job.lengths.iter().map(usize::to_string).collect()));
    }
    let (b, c) = (&case.state.buffers, &case.state.counts);
    if !b.fits() {
        out += &format!("lent\t{}\t{}\t{}\t{}\n", b.points.len(), b.quads.len(), b.front_nodes.len(), b.front_lengths.len());
    }
    if matches!(case.call, Call::Sample | Call::Job) {
        return out + "end\n";
    }
    out += &text::counts("counts", c);
    for p in b.points.chunks_exact(2).take(c.points) {
        out += &format!("p\t{}\t{}\n", shortest(p[0]), shortest(p[1]));
    }
    for q in b.quads.chunks_exact(4).take(c.quads) {
        out += &format!("q\t{}\t{}\t{}\t{}\n", q[0], q[1], q[2], q[3]);
    }
    let mut nodes = b.front_nodes.iter();
    for &n in b.front_lengths.iter().take(c.fronts) {
        out += &nodes.by_ref().take(n as usize).fold("f".to_string(), |line, node| format!("{line}\t{node}"));
        out.push('\n');
    }
    out + "end\n"
}

/// The requests of a text, each with its head.
fn parted(input: &str) -> Result<Vec<(usize, Vec<&str>, Body)>, String> {
    let mut out = Vec::new();
    let mut lines = input.lines().enumerate().filter(|(_, line)| !line.trim().is_empty());
    while let Some((at, line)) = lines.next() {
        let head: Vec<&str> = line.split_whitespace().collect();
        let mut body = Body::new();
        let mut ended = head[0] == "call";
        while !ended {
            let Some((at, line)) = lines.next() else { return Err(format!("line {}: a request without end", at + 1)) };
            let fields: Vec<&str> = line.split_whitespace().collect();
            ended = fields == ["end"];
            if !ended {
                body.line(&fields).map_err(|e| format!("line {}: {e}", at + 1))?;
            }
        }
        out.push((at, head, body));
    }
    Ok(out)
}

/// Answers every request of a text, in order.
pub fn answers(input: &str) -> Result<String, String> {
    let mut out = String::new();
    for (at, head, mut body) in parted(input)? {
        let result = if head[0] == "call" { call(&head[1..]) } else { body.answer(&head) };
        out += &result.map_err(|e| format!("line {}: {e}", at + 1))?;
    }
    Ok(out)
}

/// The requests of a text that ask for one of the five calls on a job or a state.
pub fn cases(input: &str) -> Result<Vec<Case>, String> {
    parted(input)?.into_iter().map(|(at, head, body)| body.case(&head).map_err(|e| format!("line {}: {e}", at + 1))).collect()
}
