//! The proved programs that the tool starts beside itself: how each is found and run.

use crate::text::{plain, reason};
use crate::trouble::Trouble;
use std::env;
use std::fs::{self, File};
use std::io::{self, Read};
use std::path::{Path, PathBuf};
use std::process::{Child, ChildStdin, ChildStdout, Command, Stdio};

pub struct Program {
    /// How it is called where it fails.
    called: &'static str,
    /// The name of its file.
    file: &'static str,
    /// The variable that names another program.
    variable: &'static str,
}

/// The engine, which answers calls.
pub const ENGINE: Program =
    Program { called: "the engine", file: "engine", variable: "LINDURASK_ENGINE" };
/// The program that prints the figures of pairs of images.
pub const STATEMENT: Program =
    Program { called: "the program statement", file: "statement", variable: "LINDURASK_STATEMENT" };
/// The program that says what can be salvaged of an image.
pub const SALVAGE: Program =
    Program { called: "the program salvage", file: "salvage", variable: "LINDURASK_SALVAGE" };

/// Where a tool has its programs, seen from the tool's folder: beside itself, or as they are installed.
const BESIDE: [&str; 2] = ["", "../libexec/lindurask/"];
/// Where a repository has the programs that it built, and a file by which it is known.
const BUILT: &str = "target/bin";
const REPOSITORY: &str = "crates.txt";
/// The processor that the programs are built for.
const PROCESSOR: &str = "x86_64";
/// How a program for that processor starts, and where it says so.
const ELF: &[u8] = b"\x7fELF";
const MACHINE_AT: usize = 18;
const X86_64: [u8; 2] = [62, 0];
/// What runs such a program on another processor.
const EMULATOR: &str = "qemu-x86_64";
/// The plainest processor that it has, under which it starts soonest and moves bytes fastest.
const EMULATED: [&str; 2] = ["-cpu", "qemu64"];
const LOADER: &str = "ld-linux-x86-64.so.2";

/// A program that runs, with the pipes to it and from it.
pub struct Running {
    pub child: Child,
    pub input: ChildStdin,
    pub output: ChildStdout,
}

/// The program is for the programs' processor, and this machine has another.
fn is_foreign(program: &Path) -> bool {
    let mut head = [0; MACHINE_AT + X86_64.len()];
    env::consts::ARCH != PROCESSOR
        && File::open(program).and_then(|mut file| file.read_exact(&mut head)).is_ok()
        && head.starts_with(ELF)
        && head.ends_with(&X86_64)
}

/// The kit's tools for this machine, found by the kit's command on the path.
fn kit() -> Option<PathBuf> {
    let path = env::var_os("PATH")?;
    let command =
        env::split_paths(&path).map(|folder| folder.join("rt")).find(|rt| rt.is_file())?;
    let kit = fs::canonicalize(command).ok()?;
    Some(kit.parent()?.parent()?.join("on").join(env::consts::ARCH).join("toolchain"))
}

impl Program {
    /// Says what is wrong with it.
    pub fn wrong(&self, what: impl std::fmt::Display) -> Trouble {
        Trouble::Failed(format!("{} {what}; nothing is changed", self.called))
    }

    /// What it said cannot be what it says.
    pub fn no_answer(&self) -> Trouble {
        self.wrong("says what is no answer")
    }

    /// Nothing can be put to it, or had from it.
    pub fn out_of_reach(&self, e: &io::Error) -> Trouble {
        self.wrong(format!("is out of reach: {}", reason(e)))
    }

    /// Where it is.
    fn find(&self) -> Result<PathBuf, Trouble> {
        let variable = self.variable;
        if let Some(named) = env::var_os(variable).filter(|named| !named.is_empty()) {
            return Ok(named.into());
        }
        let tool = env::current_exe();
        let tool = tool.map_err(|e| self.wrong(format!("is not found: {}", reason(&e))))?;
        let beside = BESIDE.map(|folder| tool.with_file_name(format!("{folder}{}", self.file)));
        let repository = tool.ancestors().filter(|folder| folder.join(REPOSITORY).is_file());
        let built = repository.map(|folder| folder.join(BUILT).join(self.file));
        beside.into_iter().chain(built).find(|place| place.is_file()).ok_or_else(|| {
            let said = "is not there: ./lindurask in the repository builds it";
            self.wrong(format!("{said}, or set {variable}"))
        })
    }

    /// The command that runs it here: by itself, or under an emulator that is installed beside it or in the kit.
    fn command(&self, program: &Path) -> Result<Command, Trouble> {
        if !is_foreign(program) {
            return Ok(Command::new(program));
        }
        let beside = program.with_file_name("emulator");
        let tools = Some(beside).filter(|tools| tools.is_dir()).or_else(kit);
        let tools = tools
            .ok_or_else(|| self.wrong(format!("does not run here: {EMULATOR} is not there")))?;
        let library = tools.join("lib");
        let mut command = Command::new(tools.join("bin").join(EMULATOR));
        command.args(EMULATED).arg(library.join(LOADER));
        command.arg("--library-path").arg(library).arg(program);
        Ok(command)
    }

    pub fn start(&self) -> Result<Running, Trouble> {
        let program = self.find()?;
        let mut command = self.command(&program)?;
        command.stdin(Stdio::piped()).stdout(Stdio::piped()).stderr(Stdio::null());
        let started = command.spawn();
        let mut child = started.map_err(|e| {
            self.wrong(format!("could not be started: {}: {}", plain(&program), reason(&e)))
        })?;
        let input = child.stdin.take().expect("a pipe");
        let output = child.stdout.take().expect("a pipe");
        Ok(Running { child, input, output })
    }
}
