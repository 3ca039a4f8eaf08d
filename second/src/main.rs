//! The program `second`; see `README.md` for its commands.

use second::fuzz::campaign::{campaign, one, Counts, Disagreement};
use second::fuzz::{make, stores};
use second::layout::printed;
use second::record::{record, run, Texts};
use std::io::Write;
use std::path::Path;
use std::process::ExitCode;

const USAGE: &str = "usage: second DIR | --sheet LISTFILE | --allowed DIR | --texts DIR | \
--random SEED COUNT | --random-one SEED | --stores SEED COUNT | --make SEED OUTDIR | \
--make-many SEED COUNT OUTDIR | --bench";

fn main() -> ExitCode {
    let arguments: Vec<String> = std::env::args().skip(1).collect();
    let arguments: Vec<&str> = arguments.iter().map(String::as_str).collect();
    match arguments[..] {
        ["--sheet", list] => sheet(Path::new(list)),
        ["--allowed", folder] => allowed(Path::new(folder)),
        ["--texts", folder] => {
            let texts = Texts::of_folder(Path::new(folder));
            print(&printed(&texts.rules, &texts.query))
        }
        ["--random", seed, count] => match (seed.parse(), count.parse()) {
            (Ok(seed), Ok(count)) => random(|counts| campaign(seed, count, counts)),
            _ => usage(),
        },
        ["--random-one", seed] => match seed.parse() {
            Ok(seed) => random(|counts| one(seed, counts)),
            Err(_) => usage(),
        },
        ["--stores", seed, count] => match (seed.parse(), count.parse()) {
            (Ok(seed), Ok(count)) => random_stores(seed, count),
            _ => usage(),
        },
        ["--make", seed, folder] => match seed.parse() {
            Ok(seed) => make_case(seed, Path::new(folder)),
            Err(_) => usage(),
        },
        ["--make-many", seed, count, folder] => match (seed.parse(), count.parse()) {
            (Ok(seed), Ok(count)) => make_cases(seed, count, Path::new(folder)),
            _ => usage(),
        },
        ["--bench"] => print(second::bench::report().as_bytes()),
        [folder] if !folder.starts_with("--") => {
            print(&record(&Texts::of_folder(Path::new(folder))))
        }
        _ => usage(),
    }
}

fn usage() -> ExitCode {
    eprintln!("{USAGE}");
    ExitCode::from(2)
}

fn print(bytes: &[u8]) -> ExitCode {
    match std::io::stdout().write_all(bytes) {
        Ok(()) => ExitCode::SUCCESS,
        Err(_) => ExitCode::FAILURE,
    }
}

/// The record of each folder in a list, after a line `# DIR`.
fn sheet(list: &Path) -> ExitCode {
    let Ok(list) = std::fs::read_to_string(list) else {
        return usage();
    };
    let mut out = Vec::new();
    for folder in list.lines().filter(|line| !line.is_empty()) {
        out.extend_from_slice(format!("# {folder}\n").as_bytes());
        out.extend_from_slice(&record(&Texts::of_folder(Path::new(folder))));
    }
    print(&out)
}

/// The steps that would be accepted after the steps text.
fn allowed(folder: &Path) -> ExitCode {
    let mut checker = match run(&Texts::of_folder(folder)) {
        Ok((checker, ..)) => checker,
        Err(refusal) => {
            eprintln!("refusal {}", refusal.number());
            return ExitCode::FAILURE;
        }
    };
    let mut out = String::new();
    for step in checker.allowed() {
        let (place, argument) = (step.place.0, step.argument.0);
        out.push_str(&format!("{} {place} {argument}\n", step.rule));
    }
    print(out.as_bytes())
}

/// Random runs with all checks; status 1 on a disagreement.
fn random(work: impl FnOnce(&mut Counts) -> Result<(), Box<Disagreement>>) -> ExitCode {
    let mut counts = Counts::default();
    let result = work(&mut counts);
    print!("{}", counts.text());
    match result {
        Ok(()) => {
            println!("disagreements 0");
            ExitCode::SUCCESS
        }
        Err(found) => {
            println!("disagreements 1, again with --random-one {}", found.seed);
            println!("{}", found.what);
            for text in [&found.texts.rules, &found.texts.query, &found.texts.steps] {
                println!("----\n{}", String::from_utf8_lossy(text));
            }
            ExitCode::FAILURE
        }
    }
}

/// Random stores; status 1 where a check fails or a clause never decides.
fn random_stores(seed: u64, count: u64) -> ExitCode {
    let mut counts = stores::Counts::default();
    let result = stores::campaign(seed, count, &mut counts);
    print!("{}", counts.text());
    if let Err(what) = result {
        println!("{what}");
        return ExitCode::FAILURE;
    }
    match &counts.undecided()[..] {
        [] => ExitCode::SUCCESS,
        left => {
            println!("never decided: {left:?}");
            ExitCode::FAILURE
        }
    }
}

fn make_case(seed: u64, folder: &Path) -> ExitCode {
    match make::write(&make::texts(seed), folder) {
        Ok(()) => ExitCode::SUCCESS,
        Err(error) => {
            eprintln!("{}: {error}", folder.display());
            ExitCode::FAILURE
        }
    }
}

/// Folders 00000 and up, from one seed each.
fn make_cases(seed: u64, count: u64, folder: &Path) -> ExitCode {
    for number in 0..count {
        let case = folder.join(format!("{number:05}"));
        let status = make_case(seed.wrapping_mul(1_000_003).wrapping_add(number), &case);
        if status != ExitCode::SUCCESS {
            return status;
        }
    }
    ExitCode::SUCCESS
}
