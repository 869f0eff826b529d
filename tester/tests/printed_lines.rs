//! The program itself on random and damaged files: the one line that it prints
//! is that of the rules.

use std::fs;
use std::path::{Path, PathBuf};
use std::process::Command;
use tzelmaruf_tester::call::{Call, Input};
use tzelmaruf_tester::generate::{seed, Random};
use tzelmaruf_tester::verdict::line;

const CASES: u64 = 1_000;

fn program() -> PathBuf {
    let program = Path::new(env!("CARGO_MANIFEST_DIR")).join("../target/bin/tzelmaruf");
    let is_there = program.is_file();
    assert!(
        is_there,
        "no {}: commands/build tzelmaruf",
        program.display()
    );
    program
}

/// A folder that is there as long as this.
struct Folder(PathBuf);

impl Folder {
    fn new(name: &str) -> Folder {
        let folder = format!("tzelmaruf-{name}-{}", std::process::id());
        let folder = std::env::temp_dir().join(folder);
        fs::create_dir_all(&folder).unwrap();
        Folder(folder)
    }

    /// Puts a file there, or sees to it that there is none.
    fn put(&self, name: &str, bytes: Option<&[u8]>) {
        let file = self.0.join(name);
        match bytes {
            Some(bytes) => fs::write(file, bytes).unwrap(),
            None => {
                let _ = fs::remove_file(file);
            }
        }
    }
}

impl Drop for Folder {
    fn drop(&mut self) {
        let _ = fs::remove_dir_all(&self.0);
    }
}

fn try_call(call: Call, usual_seed: u64) {
    let seed = seed(usual_seed);
    println!("{} seed {seed}: {CASES} cases", call.name());
    let (program, folder) = (program(), Folder::new(call.name()));
    for case in 0..CASES {
        let mut random = Random::of_case(seed, case);
        let input = Input::random(call, &mut random);
        let table = Some(&input.table[..]).filter(|_| !random.once_in(50));
        let paper = Some(&input.second[..]).filter(|_| !random.once_in(50));
        folder.put("table.tab", table);
        folder.put("proof.prf", paper);
        let output = Command::new(&program).current_dir(&folder.0).output();
        let output = output.expect("the program runs");
        let printed = String::from_utf8(output.stdout).unwrap();
        let due = line(table.unwrap_or(&[]), paper.unwrap_or(&[])) + "\n";
        assert_eq!(printed, due, "case {case}\n{}", input.text());
        assert!(output.status.success() && output.stderr.is_empty());
    }
}

#[test]
fn run_lists() {
    try_call(Call::Run, 30_901);
}

#[test]
fn region_lists() {
    try_call(Call::Regions, 30_902);
}
