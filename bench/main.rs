//! bench root | geometry | sample | rows | closings | fan | job | text | recheck

mod clock;
mod fronts;
mod geometry;
mod job;
#[allow(dead_code)]
#[path = "../oracle/port/port.rs"]
mod port;
mod recheck;
mod root;
mod rows;
mod sample;
mod text;
mod work;

fn main() {
    let words: Vec<String> = std::env::args().skip(1).collect();
    match words.first().map(String::as_str) {
        Some("cases") => return job::cases(),
        Some("once") => return job::once(&words[1..]),
        _ => clock::load(),
    }
    match words.first().map(String::as_str) {
        Some("root") => root::run(),
        Some("geometry") => geometry::run(),
        Some("sample") => sample::run(),
        Some("rows") => rows::run(),
        Some("closings") => fronts::closings(),
        Some("fan") => fronts::fan(),
        Some("job") => job::run(),
        Some("text") => text::run(),
        Some("recheck") => recheck::run(),
        _ => {
            eprintln!("bench root|geometry|sample|rows|closings|fan|job|text|recheck");
            std::process::exit(2)
        }
    }
    clock::load();
}
