//! Pictures as files, for the examples: PPM and PGM read and written, PNG written.

#![allow(dead_code)]

pub mod png;
pub mod pnm;

use std::fmt::Display;
use std::path::Path;
use std::process::ExitCode;

/// Rows of pixels from the top, each from the left; a pixel is red, green and blue, or one grey.
#[derive(Clone, Debug, PartialEq, Eq)]
pub struct Picture {
    pub width: usize,
    pub height: usize,
    /// Values of a pixel: 3, or 1.
    pub channels: usize,
    /// The greatest value, 1 to 65,535.
    pub maximum: u16,
    pub values: Vec<u16>,
}

impl Picture {
    pub fn pixels(&self) -> impl Iterator<Item = &[u16]> {
        self.values.chunks_exact(self.channels)
    }
}

pub fn read_file(path: &str) -> Result<Vec<u8>, String> {
    std::fs::read(path).map_err(|error| said(path, error))
}

/// Reads a picture of so many channels.
pub fn read_picture(path: &str, channels: usize) -> Result<Picture, String> {
    pnm::read(&read_file(path)?, channels).map_err(|refused| said(path, refused))
}

pub fn write_file(path: &str, bytes: &[u8]) -> Result<(), String> {
    std::fs::write(path, bytes).map_err(|error| said(path, error))
}

/// What is wrong, and with what.
pub fn said(of: impl Display, wrong: impl Display) -> String {
    format!("{of}: {wrong}")
}

/// Runs an example with its arguments; says on standard error what is wrong, where anything is.
pub fn run(example: impl Fn(&[&str]) -> Result<(), String>) -> ExitCode {
    let arguments: Vec<String> = std::env::args().collect();
    let arguments: Vec<&str> = arguments.iter().map(String::as_str).collect();
    match example(&arguments[1..]) {
        Ok(()) => ExitCode::SUCCESS,
        Err(wrong) => {
            let name = Path::new(arguments[0]).file_stem().unwrap_or_default().to_string_lossy();
            eprintln!("{name}: {wrong}");
            ExitCode::FAILURE
        }
    }
}
