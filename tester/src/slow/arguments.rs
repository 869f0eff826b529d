//! The arguments of `slow_lists`.

use crate::automaton::GREATEST_EDGES;
use std::path::PathBuf;

pub const USAGE: &str = "\
usage: slow_lists [--refused] [--seed N] [--seconds N] [--edges K] [--folder DIR]
  --refused     seek lists that lack rows and take long to be refused
  --seed N      random numbers of another seed (30701)
  --seconds N   processor time to search for, in seconds (600)
  --edges K     copies of the edge in the table that is written, 1 to 256 (256)
  --folder DIR  where table.tab and proof.prf are written (target/slow_lists)";

const NAMES: [&str; 5] = ["--refused", "--seed", "--seconds", "--edges", "--folder"];

/// What the program is asked to do.
#[derive(Clone, Debug, PartialEq, Eq)]
pub struct Arguments {
    /// Lists that are refused, not such as are accepted.
    pub refused: bool,
    pub seed: u64,
    pub seconds: u64,
    pub edges: usize,
    pub folder: PathBuf,
}

impl Default for Arguments {
    fn default() -> Self {
        Arguments {
            refused: false,
            seed: 30_701,
            seconds: 600,
            edges: GREATEST_EDGES,
            folder: "target/slow_lists".into(),
        }
    }
}

impl Arguments {
    /// Reads the words behind the program's name, or says what is wrong with them.
    pub fn parse(words: &[String]) -> Result<Arguments, String> {
        let mut arguments = Arguments::default();
        let mut seen: Vec<&str> = Vec::new();
        let mut words = words.iter().map(String::as_str);
        while let Some(name) = words.next() {
            if !NAMES.contains(&name) {
                return Err(format!("what is '{name}'?"));
            }
            if seen.contains(&name) {
                return Err(format!("{name} stands twice"));
            }
            seen.push(name);
            if name == "--refused" {
                arguments.refused = true;
                continue;
            }
            let value = words.next().ok_or(format!("{name} needs a value"))?;
            arguments.set(name, value)?;
        }
        Ok(arguments)
    }

    fn set(&mut self, name: &str, value: &str) -> Result<(), String> {
        match name {
            "--seed" => self.seed = number(name, value, 0, u64::MAX)?,
            "--seconds" => self.seconds = number(name, value, 1, u64::from(u32::MAX))?,
            "--edges" => self.edges = number(name, value, 1, GREATEST_EDGES as u64)? as usize,
            _ if value.is_empty() => return Err(format!("{name} needs a name")),
            _ => self.folder = value.into(),
        }
        Ok(())
    }
}

fn number(name: &str, value: &str, least: u64, most: u64) -> Result<u64, String> {
    let number = value.parse().ok();
    number
        .filter(|number| (least..=most).contains(number))
        .ok_or_else(|| format!("{name} needs a number from {least} to {most}, not '{value}'"))
}
