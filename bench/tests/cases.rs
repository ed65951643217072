//! Each file of lines in the folders of cases gives exactly the replies beside it.

use std::{fs, path::Path};

use bench::frames::Program;
use bench::schedules::{cases, FOLDERS};

#[test]
fn every_file_gives_its_replies() {
    for folder in FOLDERS {
        let cases = cases(&Path::new(env!("CARGO_MANIFEST_DIR")).join(folder)).unwrap();
        assert!(!cases.is_empty(), "{folder}");
        for case in cases {
            let stored = fs::read(Path::new(&case.name).with_extension("replies")).unwrap();
            let mut given = Vec::new();
            Program::on(case.cells).replay(&case.text, &mut given);
            assert!(given == stored, "{}", case.name);
        }
    }
}
