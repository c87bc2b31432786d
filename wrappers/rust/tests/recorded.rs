//! Every request and job text of plates/ through the library: the whole answer is the one that the Rust gave.

mod common;

#[test]
fn requests() {
    let paths = common::texts("plates");
    assert!(paths.len() >= 21, "{} requests", paths.len());
    for path in paths {
        assert!(common::request(&common::read(&path)) == common::recorded(&path), "{} is answered otherwise", path.display());
    }
}

#[test]
fn job_texts() {
    let paths = common::texts("plates/jobs");
    assert!(paths.len() >= 20, "{} job texts", paths.len());
    for path in paths {
        assert!(common::pave(&common::read(&path)) == common::recorded(&path), "{} is answered otherwise", path.display());
    }
}

#[test]
fn tile_lists() {
    let paths = common::texts("plates/lists");
    assert!(paths.len() >= 4, "{} tile lists", paths.len());
    for path in paths {
        assert!(common::recheck(&common::read(&path)) == common::recorded(&path), "{} is answered otherwise", path.display());
    }
}

#[test]
fn job_texts_by_the_program() {
    let mut run = 0;
    for path in common::texts("plates/jobs") {
        if let Some(printed) = common::program(&common::read(&path)) {
            assert!(printed == common::recorded(&path), "target/bin/pave answers {} otherwise", path.display());
            run += 1;
        }
    }
    println!("{run} job texts by target/bin/pave");
}

#[cfg(feature = "text")]
#[test]
fn job_texts_by_the_call() {
    let mut output = vec![0; 1 << 20];
    for path in common::texts("plates/jobs") {
        let text = common::read(&path);
        let answer = paving::text::pave(text.as_bytes(), &mut output);
        assert!(answer == common::recorded(&path).as_bytes(), "pave_text answers {} otherwise", path.display());
    }
}
