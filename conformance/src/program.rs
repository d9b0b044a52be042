//! A program of the crates: run on some input, and its stored input and output.

use std::fs;
use std::io::{self, Read, Write};
use std::path::{Path, PathBuf};
use std::process::{Command, ExitCode, Stdio};

pub struct Program {
    pub name: &'static str,
}

/// What was compared, in words; or the difference.
pub type Told = Result<String, String>;

fn path(name: &str) -> PathBuf {
    Path::new(env!("CARGO_MANIFEST_DIR")).join("..").join(name)
}

fn told(what: &str) -> impl Fn(io::Error) -> String + '_ {
    move |error| format!("{what}: {error}")
}

/// `--store` writes what is stored; without it the program is compared.
pub fn main(store: impl Fn() -> Told, compare: impl Fn() -> Told) -> ExitCode {
    let stores = std::env::args().any(|word| word == "--store");
    match if stores { store() } else { compare() } {
        Ok(told) => {
            println!("{told}");
            ExitCode::SUCCESS
        }
        Err(why) => {
            println!("DIFFERENCE: {why}");
            ExitCode::FAILURE
        }
    }
}

impl Program {
    fn stored(&self, file: &str) -> PathBuf {
        path("crates").join(self.name).join(file)
    }

    pub fn store(&self, stdin: &[u8], stdout: &[u8]) -> Result<(), String> {
        fs::write(self.stored("stdin"), stdin).map_err(told("stdin"))?;
        fs::write(self.stored("stdout"), stdout).map_err(told("stdout"))
    }

    /// What is stored is this.
    pub fn has_stored(&self, stdin: &[u8], stdout: &[u8]) -> Result<(), String> {
        for (file, expected) in [("stdin", stdin), ("stdout", stdout)] {
            if fs::read(self.stored(file)).map_err(told(file))? != expected {
                let name = self.name;
                return Err(format!("crates/{name}/{file} is not what the model says; `{name} --store` writes it"));
            }
        }
        Ok(())
    }

    /// What it writes for some input.
    pub fn written(&self, input: &[u8]) -> Result<Vec<u8>, String> {
        self.run(input).map_err(told(self.name))
    }

    fn run(&self, bytes: &[u8]) -> io::Result<Vec<u8>> {
        let built = path("crates").join(self.name).join("out").join(self.name);
        let mut program = Command::new(built).stdin(Stdio::piped()).stdout(Stdio::piped()).spawn()?;
        let mut input = program.stdin.take().expect("a pipe to it");
        let mut output = program.stdout.take().expect("a pipe from it");
        let mut text = Vec::new();
        std::thread::scope(|scope| {
            let wrote = scope.spawn(move || input.write_all(bytes));
            let read = output.read_to_end(&mut text);
            wrote.join().expect("the input is written").and(read)
        })?;
        program.wait()?;
        Ok(text)
    }
}
