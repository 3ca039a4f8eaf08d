//! Every case folder under `cases/`, run through the program itself.

use std::path::{Path, PathBuf};
use std::process::Command;

fn folders(of: &Path) -> Vec<PathBuf> {
    let Ok(entries) = std::fs::read_dir(of) else {
        return Vec::new();
    };
    let paths = entries.filter_map(|entry| entry.ok().map(|entry| entry.path()));
    let mut folders: Vec<_> = paths.filter(|path| path.is_dir()).collect();
    folders.sort();
    folders
}

#[test]
fn every_case_prints_its_expected_record() {
    let cases = Path::new(env!("CARGO_MANIFEST_DIR")).join("../cases");
    let mut wrong = Vec::new();
    let mut count = 0;
    for case in folders(&cases).iter().flat_map(|kind| folders(kind)) {
        let Ok(expected) = std::fs::read(case.join("expected")) else {
            wrong.push(format!("{}: no expected record", case.display()));
            continue;
        };
        count += 1;
        let run = Command::new(env!("CARGO_BIN_EXE_second"))
            .arg(&case)
            .output()
            .expect("the program runs");
        if run.stdout != expected || !run.status.success() {
            let printed = String::from_utf8_lossy(&run.stdout);
            wrong.push(format!("{} prints\n{printed}", case.display()));
        }
    }
    assert!(wrong.is_empty(), "{}", wrong.join("\n"));
    assert!(count > 0, "no cases found");
}

#[test]
fn bad_usage_is_status_2() {
    for arguments in [&[][..], &["--random", "x", "1"], &["--none"], &["a", "b"]] {
        let run = Command::new(env!("CARGO_BIN_EXE_second"))
            .args(arguments)
            .output()
            .expect("the program runs");
        assert_eq!(run.status.code(), Some(2));
        assert!(run.stdout.is_empty() && !run.stderr.is_empty());
    }
}

#[test]
fn a_folder_without_files_has_an_empty_query() {
    let run = Command::new(env!("CARGO_BIN_EXE_second"))
        .arg("no such folder")
        .output()
        .expect("the program runs");
    assert_eq!(run.stdout, b"accepted 0\nrefusal 2\n");
}
