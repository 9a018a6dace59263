//! Shows that `differential` sees wrong planners. Each mutant is the reference
//! with one deliberate error; it is built by itself and put to the comparison,
//! which must fail.
//!
//! `mutants` tries all of them, `mutants WORD…` those with one of the words in
//! their name. It needs the sources of this project and `rustc`, and builds in
//! the folder `mutant` beside this program.
//!
//! `list.txt` has one mutant a paragraph: its name, the file, then after `-`
//! the right text, which stands once in the file, and after `+` the wrong one.
//! Indentation does not count.

use std::io;
use std::path::{Path, PathBuf};
use std::process::{Command, ExitCode, Stdio};
use std::{env, fs};

const LIST: &str = include_str!("list.txt");

/// Where the sources of the reference are.
const SOURCES: &str = concat!(env!("CARGO_MANIFEST_DIR"), "/src");

/// One deliberate error: in this file, the right text becomes the wrong one.
struct Mutant {
    name: &'static str,
    file: &'static str,
    right: String,
    wrong: String,
}

fn main() -> ExitCode {
    let words: Vec<String> = env::args().skip(1).collect();
    let is_wanted =
        |name: &str| words.is_empty() || words.iter().any(|word| name.contains(word.as_str()));
    let mut all_caught = true;
    for mutant in LIST.split("\n\n").map(read_mutant).filter(|mutant| is_wanted(mutant.name)) {
        let verdict = match is_caught(&mutant) {
            Ok(true) => "caught".to_string(),
            Ok(false) => "MISSED".to_string(),
            Err(error) => format!("BROKEN ({error})"),
        };
        println!("{verdict}  {}", mutant.name);
        all_caught &= verdict == "caught";
    }
    if all_caught { ExitCode::SUCCESS } else { ExitCode::FAILURE }
}

fn read_mutant(paragraph: &'static str) -> Mutant {
    let mut lines = paragraph.lines();
    let name = lines.next().unwrap_or_default();
    let file = lines.next().unwrap_or_default();
    let marked = |mark: &str| {
        let texts = paragraph.lines().skip(2).filter_map(|line| line.strip_prefix(mark));
        unindented(&texts.collect::<Vec<_>>().join("\n"))
    };
    Mutant { name, file, right: marked("-"), wrong: marked("+") }
}

fn unindented(text: &str) -> String {
    text.lines().map(str::trim).collect::<Vec<_>>().join("\n")
}

/// Builds the mutant and has it compared.
fn is_caught(mutant: &Mutant) -> io::Result<bool> {
    let folder = env::current_exe()?.with_file_name("mutant");
    copy_sources(mutant, &folder)?;
    let library = folder.join("libreference.rlib");
    build(&folder.join("lib.rs"), &library, &["--crate-type=rlib", "--crate-name=reference"])?;
    let with_library = format!("--extern=reference={}", library.display());
    let program = folder.join("calls");
    build(&folder.join("calls.main.rs"), &program, &["--crate-name=calls", &with_library])?;
    let status = Command::new(env::current_exe()?.with_file_name("differential"))
        .args([Path::new("--"), &program])
        .stdout(Stdio::null())
        .stderr(Stdio::null())
        .status()?;
    Ok(status.code() == Some(1))
}

/// Copies the library and its program, with the mutant's error.
fn copy_sources(mutant: &Mutant, folder: &PathBuf) -> io::Result<()> {
    fs::create_dir_all(folder)?;
    for entry in fs::read_dir(SOURCES)? {
        let entry = entry?;
        if entry.file_type()?.is_file() {
            fs::copy(entry.path(), folder.join(entry.file_name()))?;
        }
    }
    fs::copy(format!("{SOURCES}/bin/reference_calls.rs"), folder.join("calls.main.rs"))?;
    let file = folder.join(mutant.file);
    let source = unindented(&fs::read_to_string(&file)?);
    if source.matches(&mutant.right).count() != 1 {
        return Err(io::Error::other("the right text does not stand once in the file"));
    }
    fs::write(&file, source.replace(&mutant.right, &mutant.wrong))
}

fn build(source: &Path, result: &Path, options: &[&str]) -> io::Result<()> {
    let status = Command::new("rustc")
        .args(["--edition=2024", "-Copt-level=1", "-Awarnings"])
        .args(options)
        .arg("-o")
        .args([result, source])
        .status()?;
    if status.success() { Ok(()) } else { Err(io::Error::other("it does not compile")) }
}
