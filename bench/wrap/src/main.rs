//! Breaks the paragraphs of a file by textwrap's optimal fit: `wrap COLUMNS FILE` prints the lines; with `time RUNS` behind that, how many lines there are
//! and the least time of so many runs in nanoseconds, the file read before.
use std::borrow::Cow;
use std::env;
use std::error::Error;
use std::fs;
use std::io::{self, BufWriter, Write};
use std::time::Instant;
use textwrap::{wrap, Options, WordSeparator, WordSplitter, WrapAlgorithm};

/// Lines break at spaces alone, as the setter's do.
fn options(columns: usize) -> Options<'static> {
    Options::new(columns)
        .wrap_algorithm(WrapAlgorithm::new_optimal_fit())
        .word_separator(WordSeparator::AsciiSpace)
        .word_splitter(WordSplitter::NoHyphenation)
        .break_words(false)
}

fn broken<'a>(paragraphs: &[&'a str], options: &Options<'a>) -> Vec<Vec<Cow<'a, str>>> {
    paragraphs
        .iter()
        .map(|paragraph| wrap(paragraph, options))
        .collect()
}

fn print(paragraphs: &[&str], options: &Options<'_>) -> io::Result<()> {
    let mut out = BufWriter::new(io::stdout().lock());
    for lines in broken(paragraphs, options) {
        for line in lines {
            writeln!(out, "{line}")?;
        }
        writeln!(out)?;
    }
    out.flush()
}

fn time(paragraphs: &[&str], options: &Options<'_>, runs: usize) {
    let mut count = 0;
    let mut least = u128::MAX;
    for _ in 0..runs {
        let start = Instant::now();
        count = broken(paragraphs, options).iter().map(Vec::len).sum();
        least = least.min(start.elapsed().as_nanos());
    }
    println!("{count} {least}");
}

fn main() -> Result<(), Box<dyn Error>> {
    let args: Vec<String> = env::args().skip(1).collect();
    let args: Vec<&str> = args.iter().map(String::as_str).collect();
    let [columns, file, mode @ ..] = args.as_slice() else {
        return Err("wrap COLUMNS FILE [time RUNS]".into());
    };
    let text = fs::read_to_string(file)?;
    let paragraphs: Vec<&str> = text.split_terminator("\n\n").collect();
    let options = options(columns.parse()?);
    match mode {
        [] => print(&paragraphs, &options)?,
        ["time", runs] => time(&paragraphs, &options, runs.parse()?),
        _ => return Err("only time RUNS can stand behind the file".into()),
    }
    Ok(())
}
