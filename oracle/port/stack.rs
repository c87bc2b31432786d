//! How much stack each call takes: it runs in a thread whose stack was painted, and what is no longer paint was used.

use crate::memory::Fenced;
use crate::port::{self, lengths_of, port_job, PortJob};
use crate::work;
use oracle::calls::{Buffers, Counts, Job};
use oracle::compare::Call;
use oracle::extremes;
use oracle::states::State;
use std::ffi::c_void;

extern "C" {
    fn pthread_attr_init(attributes: *mut Attributes) -> i32;
    fn pthread_attr_setstack(attributes: *mut Attributes, start: *mut c_void, bytes: usize) -> i32;
    fn pthread_create(thread: *mut usize, attributes: *const Attributes, entry: extern "C" fn(*mut c_void) -> *mut c_void, given: *mut c_void) -> i32;
    fn pthread_join(thread: usize, result: *mut *mut c_void) -> i32;
}

/// As large as pthread_attr_t on any system that this runs on, and more.
#[repr(C, align(16))]
struct Attributes([u8; 256]);

const PAINT: u8 = 0xA5;

/// The stack of the thread.
const STACK: usize = 256 * 1_024;

struct Task<'a> {
    work: &'a mut dyn FnMut(),
    /// Where the stack stood when the work began.
    at: usize,
}

extern "C" fn entry(given: *mut c_void) -> *mut c_void {
    let mark = 0u8;
    let task = unsafe { &mut *(given as *mut Task) };
    task.at = std::hint::black_box(&mark) as *const u8 as usize;
    (task.work)();
    std::ptr::null_mut()
}

/// The bytes of stack below the thread's own first frame that some work used.
fn used(work: &mut dyn FnMut()) -> usize {
    let stack = Fenced::new(STACK);
    unsafe {
        stack.start().write_bytes(PAINT, stack.bytes());
        let mut attributes = Attributes([0; 256]);
        let mut thread = 0;
        let mut task = Task { work, at: 0 };
        assert!(pthread_attr_init(&mut attributes) == 0);
        assert!(pthread_attr_setstack(&mut attributes, stack.start() as *mut c_void, stack.bytes()) == 0);
        assert!(pthread_create(&mut thread, &attributes, entry, &mut task as *mut Task as *mut c_void) == 0);
        assert!(pthread_join(thread, std::ptr::null_mut()) == 0);
        let bytes = std::slice::from_raw_parts(stack.start(), stack.bytes());
        let low = stack.start() as usize + bytes.iter().position(|&b| b != PAINT).expect("something was used");
        task.at - low
    }
}

struct Asked {
    call: Call,
    lengths: Vec<u16>,
    job: Job,
    given: State,
}

/// A caller in the form of the port's: the frame of the call itself is in what is measured.
fn perform(call: Call, job: &PortJob, b: &mut Buffers, counts: &mut [u64; 8]) -> u32 {
    match call {
        Call::Sample => port::sample(job, b, counts),
        Call::Job => port::job(job, b, counts),
        Call::Row(front) => port::row(job, front as u64, b, counts),
        Call::Close => port::close(job, b, counts),
        Call::Fan => port::fan(job, b, counts),
    }
}

/// Work that uses a known amount: the measuring itself is tried.
#[inline(never)]
fn known<const N: usize>() {
    let mut list = [0u8; N];
    std::hint::black_box(&mut list);
}

const CALLS: [(&str, &str); 5] = [("sample", "pave_sample"), ("job", "pave_job"), ("row", "pave_row"), ("closings", "pave_close"), ("fan", "pave_fan")];

pub fn run(seed: u64, count: u64) -> bool {
    let mut asked: Vec<Asked> = Vec::new();
    let mut rows = Vec::new();
    let empty = State { buffers: Buffers::new(), counts: Counts::default() };
    for case in extremes::named() {
        for call in [Call::Sample, Call::Job] {
            asked.push(Asked { call, lengths: lengths_of(&case.job), job: case.job.clone(), given: empty.clone() });
        }
        let mut s = empty.clone();
        let mut counts = [0; 8];
        if port::sample(&port_job(&case.job, &lengths_of(&case.job)), &mut s.buffers, &mut counts) == 0 {
            s.counts = Counts::of(counts.map(|n| n as usize));
            for call in [Call::Row(0), Call::Close, Call::Fan] {
                asked.push(Asked { call, lengths: lengths_of(&case.job), job: case.job.clone(), given: s.clone() });
            }
        }
    }
    let by_name = asked.len();
    let mut ask = |list: &mut Vec<Asked>| {
        for (word, _) in CALLS {
            let mut calls = 0u64;
            let bytes = used(&mut || {
                for a in list.iter_mut().filter(|a| a.call.word() == word) {
                    let mut counts = a.given.counts.list().map(|n| n as u64);
                    perform(a.call, &port_job(&a.job, &a.lengths), &mut a.given.buffers, &mut counts);
                    calls += 1;
                }
            });
            rows.push((word, bytes, calls));
        }
        list.clear();
    };
    ask(&mut asked);
    work::each(seed, count, |_, _, call, job, given| {
        asked.push(Asked { call, lengths: lengths_of(job), job: job.clone(), given: given.clone() });
        if asked.len() == 1_000 {
            ask(&mut asked);
        }
    });
    ask(&mut asked);
    let (bare, one, ten) = (used(&mut || {}), used(&mut known::<1_000>), used(&mut known::<10_000>));
    println!("the measuring itself: no work {bare} bytes, a list of 1,000 bytes {one}, of 10,000 bytes {ten}");
    let right = one >= 1_000 && one < 1_000 + 512 && ten >= 10_000 && ten < 10_000 + 512;
    println!("call       stack, bytes    calls ({by_name} of them on jobs by name)");
    for (word, name) in CALLS {
        let of = rows.iter().filter(|row| row.0 == word);
        let bytes = of.clone().map(|row| row.1).max().unwrap_or(0);
        let calls: u64 = of.map(|row| row.2).sum();
        println!("{name:<11} {bytes:>11} {calls:>8}");
    }
    let points: Vec<f64> = (0..4_096).map(|i| (i % 61) as f64).collect();
    let nodes: Vec<u16> = (0..2_048).collect();
    let lengths = [1_024u16, 1_024];
    let (p, q) = ([0.5, 0.25], [[0.0, 0.0], [1.0, 0.0], [1.0, 1.0], [0.0, 1.0]]);
    let keep = |x: f64| _ = std::hint::black_box(x);
    let mut measures: Vec<(&str, Box<dyn FnMut() -> f64 + '_>)> = vec![
        ("root", Box::new(|| port::root(2.0))),
        ("side_length", Box::new(|| port::side_length(q[0], q[2]))),
        ("segment_distance", Box::new(|| port::segment_distance(0.0, p, q[0], q[2]))),
        ("segments_cross", Box::new(|| port::segments_cross(q) as u8 as f64)),
        ("corners_pass", Box::new(|| port::corners_pass(q) as u8 as f64)),
        ("least_corner", Box::new(|| port::least_corner(q))),
        ("quad_area", Box::new(|| port::quad_area(q))),
        ("signed_area", Box::new(|| port::signed_area(&points))),
        ("in_polygon", Box::new(|| port::in_polygon(p, &points) as u8 as f64)),
        ("sharp_at", Box::new(|| port::sharp_at(&points, 5) as u8 as f64)),
        ("domain_area", Box::new(|| port::domain_area(&points, &lengths))),
        ("contains", Box::new(|| port::contains(p, &points, &lengths) as u8 as f64)),
        ("distance_to_boundary", Box::new(|| port::distance_to_boundary(p, &points, &lengths))),
        ("front_length", Box::new(|| port::front_length(&points, &nodes))),
        ("front_distance", Box::new(|| port::front_distance(p, &points, &nodes))),
        ("in_front", Box::new(|| port::in_front(p, &points, &nodes) as u8 as f64)),
    ];
    for (name, measure) in measures.iter_mut() {
        let bytes = used(&mut || keep(measure()));
        println!("pave_{name:<20} {bytes:>6}");
    }
    {
        let mut output = vec![0; 270_336];
        let texts: Vec<Vec<u8>> = (0..count).map(|index| oracle::texts::text(seed, index).0).collect();
        let bytes = used(&mut || texts.iter().for_each(|text| _ = crate::text::call(text, &mut output)));
        println!("pave_text   {bytes:>11} {count:>8}");
    }
    println!("every call answered in a thread of {STACK} bytes of stack");
    right
}
