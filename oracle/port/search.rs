//! The search for a field's end, as `oracle/search` has it in a shared library: against a search byte by byte, and, where a second
//! library is named, its time by that one's. The libraries have the same names, so each is opened apart.

use std::ffi::{c_char, c_int, c_void, CString};
use std::hint::black_box;
use std::time::Instant;

extern "C" {
    fn dlopen(file: *const c_char, how: c_int) -> *mut c_void;
    fn dlsym(library: *mut c_void, name: *const c_char) -> *mut c_void;
}

struct Library {
    search: extern "C" fn(*const u8, usize, usize) -> usize,
    read: extern "C" fn(*const u8, usize, *mut f64, usize, *mut u16, usize) -> u32,
}

impl Library {
    fn open(path: &str) -> Library {
        let path = CString::new(path).unwrap();
        // 2: all names are looked up now, and are this library's own
        let library = unsafe { dlopen(path.as_ptr(), 2) };
        assert!(!library.is_null(), "{path:?} opens");
        let named = |name: &str| {
            let name = CString::new(name).unwrap();
            let f = unsafe { dlsym(library, name.as_ptr()) };
            assert!(!f.is_null(), "{name:?} is there");
            f
        };
        unsafe { Library { search: std::mem::transmute(named("search_field")), read: std::mem::transmute(named("read_text")) } }
    }

    fn search(&self, text: &[u8], at: usize) -> usize {
        (self.search)(text.as_ptr(), text.len(), at)
    }

    /// How many fields a text has.
    fn walk(&self, text: &[u8]) -> usize {
        let (mut at, mut fields) = (0, 0);
        while at < text.len() {
            at = self.search(text, at) + 1;
            fields += 1;
        }
        fields
    }

    fn read(&self, text: &[u8]) -> u32 {
        let (mut coords, mut lengths) = ([0.0f64; 4096], [0u16; 16]);
        (self.read)(text.as_ptr(), text.len(), coords.as_mut_ptr(), 4096, lengths.as_mut_ptr(), 16)
    }
}

fn end(text: &[u8], at: usize) -> usize {
    (at..text.len()).find(|i| text[*i] == 9 || text[*i] == 10).unwrap_or(text.len())
}

struct Seen {
    texts: u64,
    searches: u64,
    ends: u64,
    different: u64,
}

impl Seen {
    /// From every place of a text, and from its end.
    fn compare(&mut self, library: &Library, text: &[u8]) {
        self.texts += 1;
        for at in 0..=text.len() {
            let (found, wanted) = (library.search(text, at), end(text, at));
            self.searches += 1;
            self.ends += u64::from(wanted < text.len());
            if found != wanted {
                self.different += 1;
                if self.different < 10 {
                    println!("from {at} of {text:?}: {found}, not {wanted}");
                }
            }
        }
    }

    fn say(&self, what: &str) {
        println!("{what}: {} texts, {} searches, {} of them find an end, {} different", self.texts, self.searches, self.ends, self.different);
    }
}

const NEAR: [u8; 9] = [8, 9, 10, 11, 0x89, 0x8A, 0x80, 0, 255];

/// Every word with one or two of the nine bytes, each at every place, among three other bytes; with 0 to 15 bytes before it and 0 to 17
/// behind it, so that the texts are 0 to 17 bytes longer than eight and than sixteen,
/// each length in between.
fn words(library: &Library) -> u64 {
    let mut seen = Seen { texts: 0, searches: 0, ends: 0, different: 0 };
    for other in [b'5', 0x7F, 0xF6] {
        for before in 0..16 {
            for behind in 0..18 {
                let mut text = vec![other; before + 8 + behind];
                for first in 0..8 {
                    for a in NEAR {
                        text[before + first] = a;
                        seen.compare(library, &text);
                        for second in first + 1..8 {
                            for b in NEAR {
                                text[before + second] = b;
                                seen.compare(library, &text);
                            }
                            text[before + second] = other;
                        }
                    }
                    text[before + first] = other;
                }
            }
        }
    }
    seen.say("words with one or two bytes out of nine");
    seen.different
}

/// Texts of 0 to 99 bytes, each byte one of the nine or any, in shares that differ from text to text.
fn mixed(library: &Library) -> u64 {
    let mut seen = Seen { texts: 0, searches: 0, ends: 0, different: 0 };
    let mut state = 1u64;
    let mut next = |n: u64| {
        state ^= state << 13;
        state ^= state >> 7;
        state ^= state << 17;
        (state >> 11) % n
    };
    for _ in 0..200_000 {
        let ends = next(40);
        let text: Vec<u8> = (0..next(100))
            .map(|_| match next(40) {
                n if n < ends => NEAR[next(9) as usize],
                _ => next(256) as u8,
            })
            .collect();
        seen.compare(library, &text);
    }
    seen.say("mixed texts");
    seen.different
}

fn least(libraries: [&Library; 2], work: impl Fn(&Library)) -> [f64; 2] {
    let mut best = [f64::MAX; 2];
    for _ in 0..2000 {
        for (library, best) in libraries.iter().zip(&mut best) {
            let clock = Instant::now();
            work(library);
            *best = best.min(clock.elapsed().as_nanos() as f64);
        }
    }
    best
}

fn fields(now: &Library, before: &Library, what: &str, length: impl Fn(usize) -> usize) {
    let mut text = Vec::new();
    for k in 0.. {
        if 60_000 < text.len() {
            break;
        }
        text.extend((0..length(k)).map(|i| b'0' + (i % 10) as u8));
        text.push([b'\t', b'\n'][k % 2]);
    }
    let count = now.walk(&text);
    assert!(count == before.walk(&text), "as many fields");
    let [after, earlier] = least([now, before], |library| {
        black_box(library.walk(black_box(&text)));
    });
    println!("a field of {what}: {:.2} ns for {:.2}, ratio {:.2}", after / count as f64, earlier / count as f64, after / earlier);
}

/// As many points as fit into a text, on a circle of this radius, more than a job can have: 1 is answered when all of it is read.
fn reading(now: &Library, before: &Library, radius: f64) {
    let mut text = b"size\t1000\nouter\n".to_vec();
    for i in 0.. {
        let angle = i as f64 * 0.001;
        let line = format!("at\t{}\t{}\n", (radius * angle.cos()) as i64, (radius * angle.sin()) as i64);
        if text.len() + line.len() > 65_536 {
            break;
        }
        text.extend(line.bytes());
    }
    assert!(now.read(&text) == 1 && before.read(&text) == 1, "all of it is read, and has too many points");
    let [after, earlier] = least([now, before], |library| {
        black_box(library.read(black_box(&text)));
    });
    println!("reading {} bytes, radius {radius}: {:.1} us for {:.1}, ratio {:.2}", text.len(), after / 1e3, earlier / 1e3, after / earlier);
}

fn main() {
    let paths: Vec<String> = std::env::args().skip(1).collect();
    let now = Library::open(&paths[0]);
    let different = words(&now) + mixed(&now);
    if let Some(path) = paths.get(1) {
        let before = Library::open(path);
        for n in [1, 2, 4, 8, 16, 64, 4096] {
            fields(&now, &before, &format!("{n} bytes"), |_| n);
        }
        fields(&now, &before, "1 to 7 bytes, mixed", |k| 1 + (k as u64).wrapping_mul(0x9E37_79B9_7F4A_7C15) as usize / 65_536 % 65_521 % 7);
        for radius in [9.0, 900.0, 60_000.0, 900_000.0] {
            reading(&now, &before, radius);
        }
    }
    if different != 0 {
        std::process::exit(1);
    }
}
