//! The product as a program: files are written for it, and what it prints is kept.

use crate::source::Source;
use std::io::Write;
use std::path::{Path, PathBuf};
use std::process::{Command, Stdio};

/// What a call of the program came to.
#[derive(Clone, PartialEq, Debug)]
pub struct Said {
    pub status: i32,
    pub out: Vec<u8>,
    pub err: Vec<u8>,
}

/// The program, and a folder of its own for the files of one case at a time.
pub struct Product {
    program: PathBuf,
    folder: PathBuf,
}

/// The command line's words for sources, which stand in files.
pub type Words = Vec<String>;

impl Product {
    pub fn new(program: &Path, folder: &Path) -> std::io::Result<Product> {
        std::fs::create_dir_all(folder)?;
        Ok(Product { program: program.to_path_buf(), folder: folder.to_path_buf() })
    }

    pub fn folder(&self) -> &Path {
        &self.folder
    }

    pub fn file(&self, name: &str) -> String {
        self.folder.join(name).display().to_string()
    }

    fn write(&self, name: &str, bytes: &[u8]) -> std::io::Result<String> {
        let path = self.file(name);
        std::fs::write(&path, bytes)?;
        Ok(path)
    }

    /// Writes the sources, and gives the words that name them.
    pub fn lay(&self, sources: &[Source]) -> std::io::Result<Words> {
        let mut words = Words::new();
        for (k, source) in sources.iter().enumerate() {
            match source {
                Source::Diagram(bytes) => {
                    words.extend(["--diagram".into(), self.write(&format!("diagram{k}"), bytes)?])
                }
                Source::Texts { signals, rule } => {
                    words.push("--rule".into());
                    words.push(self.write(&format!("signals{k}"), signals)?);
                    words.push(self.write(&format!("rule{k}"), rule)?);
                }
            }
        }
        Ok(words)
    }

    /// Writes a book, and gives the words that name it.
    pub fn lay_book(&self, bytes: &[u8]) -> std::io::Result<Words> {
        Ok(vec!["--book".into(), self.write("book", bytes)?])
    }

    pub fn say(&self, words: &[String], input: &[u8]) -> std::io::Result<Said> {
        let mut command = Command::new(&self.program);
        command.args(words).stdout(Stdio::piped()).stderr(Stdio::piped());
        command.stdin(if input.is_empty() { Stdio::null() } else { Stdio::piped() });
        let mut child = command.spawn()?;
        if let Some(mut stdin) = child.stdin.take() {
            // A program that refuses its book ends without reading its calls.
            drop(stdin.write_all(input));
        }
        let output = child.wait_with_output()?;
        Ok(Said { status: output.status.code().unwrap_or(-1), out: output.stdout, err: output.stderr })
    }
}
