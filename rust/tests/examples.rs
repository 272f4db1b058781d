//! The cards of examples/ give the reports that stand beside them, and come back with their trials
//! in archive order.

use crate::reference::cards::{card, fields, in_order};
use std::fs;
use std::path::{Path, PathBuf};
use trial_archive::Archive;

/// The example cards.
fn paths() -> Vec<PathBuf> {
    let folder = Path::new(env!("CARGO_MANIFEST_DIR")).join("../examples");
    let entries = fs::read_dir(folder).expect("the examples");
    let mut paths: Vec<PathBuf> = entries.map(|entry| entry.expect("an example").path()).collect();
    paths.retain(|path| path.extension().is_some_and(|extension| extension == "card"));
    assert!(paths.len() >= 3);
    paths
}

#[test]
fn reports_of_the_example_cards() {
    for path in paths() {
        let card = fs::read(&path).expect("a card");
        let expected = fs::read_to_string(path.with_extension("report")).expect("its report");
        let archive = Archive::load_card(&card).expect("an accepted card");
        assert_eq!(archive.audit(), Ok(true));
        assert_eq!(archive.report().as_ref(), Ok(&expected), "{}", path.display());
    }
}

#[test]
fn example_cards_written_back() {
    for path in paths() {
        let given = fs::read(&path).expect("a card");
        let mut lines: Vec<[u64; 4]> = given.chunks(33).map(|l| fields(l).unwrap()).collect();
        in_order(&mut lines);
        let archive = Archive::load_card(&given).expect("an accepted card");
        let written = archive.write_card().expect("its card");
        assert_eq!(written.as_bytes(), card(&lines), "{}", path.display());
        assert_eq!(Archive::load_card(written.as_bytes()), Ok(archive));
    }
}
