//! Writes scenarios, each under a comment line that begins with `# scenario`.
//!
//!     generate short            all short scenarios of some forms
//!     generate limits           each limit from both sides, each refusal, each output part
//!     generate random SEED N    N scenarios drawn at random
//!     generate fixed grouped    the scenarios of the fixed list with grouped accumulators alone
//!     generate fixed single     those with accumulators without groups

mod cells;
mod chance;
mod chosen;
mod random;
mod short;

use std::io::Write;

use chance::Chance;

/// Writes scenarios under numbers.
struct Writer<W: Write> {
    out: W,
    written: usize,
}

impl<W: Write> Writer<W> {
    /// Writes one scenario; a reader that stopped reading ends the program.
    fn write(&mut self, family: &str, lines: &[String]) {
        self.written += 1;
        let head = format!("# scenario {family} {}", self.written);
        let text = format!("{head}\n{}\n", lines.join("\n"));
        if self.out.write_all(text.as_bytes()).is_err() {
            std::process::exit(0);
        }
    }
}

/// The scenarios of a family, or what is wrong with the words.
fn write_family<W: Write>(words: &[&str], writer: &mut Writer<W>) -> Result<(), String> {
    match words {
        ["short"] => {
            short::one_group(&mut |lines| writer.write("one-group", &lines));
            short::two_groups(&mut |lines| writer.write("two-groups", &lines));
            short::single(&mut |lines| writer.write("single", &lines));
            short::flags(&mut |lines| writer.write("flags", &lines));
            short::texts(&mut |lines| writer.write("texts", &lines));
        }
        ["limits"] => chosen::all(&mut |lines| writer.write("limits", &lines)),
        ["random", seed, count] => {
            let number = |word: &str| {
                word.parse::<u64>()
                    .map_err(|error| format!("{word}: {error}"))
            };
            let mut chance = Chance::new(number(seed)?);
            for _ in 0..number(count)? {
                writer.write("random", &random::scenario(&mut chance));
            }
        }
        ["fixed", form @ ("grouped" | "single")] => chosen::fixed(&mut |family, lines| {
            let single = lines.iter().any(|line| line.contains("make single"));
            if single == (*form == "single") {
                writer.write(family, &lines);
            }
        }),
        _ => {
            return Err(
                "generate short | limits | random SEED N | fixed grouped|single".to_string(),
            );
        }
    }
    Ok(())
}

fn main() {
    let words: Vec<String> = std::env::args().skip(1).collect();
    let words: Vec<&str> = words.iter().map(String::as_str).collect();
    let mut writer = Writer {
        out: std::io::BufWriter::new(std::io::stdout().lock()),
        written: 0,
    };
    if let Err(usage) = write_family(&words, &mut writer) {
        eprintln!("{usage}");
        std::process::exit(2);
    }
}
