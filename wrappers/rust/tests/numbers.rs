//! docs/NUMBERS.md: every number has a section, and each plate that a section names is refused with its number.

mod common;

use paving::Refusal;

/// The sections: a number, and the plates named in its lines that start with "Shown by".
fn sections() -> Vec<(u32, Vec<String>)> {
    let mut sections: Vec<(u32, Vec<String>)> = Vec::new();
    for line in common::read(&common::top().join("docs/NUMBERS.md")).lines() {
        if let Some(title) = line.strip_prefix("## ") {
            if let Some(Ok(number)) = title.split_once('.').map(|(number, _)| number.parse()) {
                sections.push((number, Vec::new()));
            }
        } else if line.starts_with("Shown by") {
            let named = line.split('`').skip(1).step_by(2).filter(|name| name.starts_with("plates/"));
            sections.last_mut().expect("a section").1.extend(named.map(str::to_string));
        }
    }
    sections
}

#[test]
fn every_number_has_a_section() {
    let numbers: Vec<u32> = sections().iter().map(|section| section.0).collect();
    let listed: Vec<u32> = Refusal::ALL.iter().map(|refusal| refusal.number()).collect();
    assert_eq!(numbers, listed);
    assert_eq!(listed, (1..=7).chain(10..=11).chain(20..=27).chain(30..=32).collect::<Vec<_>>());
}

#[test]
fn each_plate_gives_its_number() {
    for (number, plates) in sections() {
        assert!(!plates.is_empty(), "no plate shows {number}");
        for plate in plates {
            let text = common::read(&common::top().join(&plate));
            let wanted = format!("refused\t{number}");
            let job_text = plate.starts_with("plates/jobs/");
            let list = plate.starts_with("plates/lists/");
            let found = if job_text {
                common::pave(&text)
            } else if list {
                common::recheck(&text)
            } else {
                common::request(&text)
            };
            assert_eq!(found.lines().next(), Some(&wanted[..]), "{plate}");
            if let (true, Some(printed)) = (job_text, common::program(&text)) {
                assert_eq!(printed, wanted + "\n", "{plate} by target/bin/pave");
            }
        }
    }
}

#[test]
fn every_refused_plate_is_named() {
    let named: Vec<String> = sections().into_iter().flat_map(|section| section.1).collect();
    for folder in ["plates", "plates/jobs", "plates/lists"] {
        for path in common::texts(folder) {
            let name = format!("{folder}/{}", path.file_name().unwrap().to_str().unwrap());
            assert!(!name.contains("refused") || named.contains(&name), "docs/NUMBERS.md does not name {name}");
        }
    }
}
