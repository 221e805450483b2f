//! Standard output. Text is escaped on a terminal, and printed unchanged to a pipe or a file.

use crate::failure::Failure;
use crate::text::{escaped, escaped_bytes, escaped_json, width};
use bestore_types::Value;
use serde::Serialize;
use std::borrow::Cow;
use std::io::{self, BufWriter, StdoutLock, Write};
use std::os::unix::ffi::OsStrExt;
use std::os::unix::io::{AsRawFd, RawFd};
use std::path::Path;

/// Standard output.
#[derive(Debug)]
pub struct Output {
    out: BufWriter<StdoutLock<'static>>,
    /// Whether the output is a terminal, where columns are aligned and have headings.
    terminal: bool,
    escapes: bool,
    /// The byte that ends a line.
    end: u8,
}

impl AsRawFd for Output {
    fn as_raw_fd(&self) -> RawFd {
        self.out.get_ref().as_raw_fd()
    }
}

impl Output {
    pub fn standard() -> Self {
        // SAFETY: isatty doesn't access the program's memory.
        let terminal = unsafe { libc::isatty(libc::STDOUT_FILENO) } == 1;
        Self {
            out: BufWriter::new(io::stdout().lock()),
            terminal,
            escapes: terminal,
            end: b'\n',
        }
    }

    /// Escapes control characters even if the output isn't a terminal.
    pub fn escape(&mut self) {
        self.escapes = true;
    }

    /// Ends lines with a zero byte instead of a line feed.
    pub fn end_with_zero(&mut self) {
        self.end = 0;
    }

    /// Prints bytes.
    pub fn bytes(&mut self, bytes: &[u8]) -> Result<(), Failure> {
        Ok(self.out.write_all(bytes)?)
    }

    /// Prints a line.
    pub fn line(&mut self, line: &[u8]) -> Result<(), Failure> {
        self.bytes(line)?;
        self.bytes(&[self.end])
    }

    /// Prints a line of JSON.
    pub fn json(&mut self, value: &impl Serialize) -> Result<(), Failure> {
        let json = serde_json::to_string(value).map_err(io::Error::from)?;
        match self.escapes {
            true => self.line(escaped_json(&json).as_bytes()),
            false => self.line(json.as_bytes()),
        }
    }

    /// Returns the printed form of the name.
    pub fn name<'a>(&self, name: &'a str) -> Cow<'a, str> {
        match self.escapes {
            true => escaped(name).into(),
            false => name.into(),
        }
    }

    /// Returns the printed form of the value: text, digits, or bytes.
    pub fn value(&self, value: &Value) -> Vec<u8> {
        match value.as_bytes() {
            Some(bytes) if !self.escapes => bytes.to_vec(),
            Some(bytes) => value
                .as_str()
                .map_or_else(|| escaped_bytes(bytes), escaped)
                .into_bytes(),
            None => value.to_string().into_bytes(),
        }
    }

    /// Prints rows, aligned below headings on a terminal, or with tabs between the columns otherwise. Lines that end with a zero byte are
    /// for programs, so they are never aligned.
    pub fn rows(&mut self, headings: &[&str], rows: &[Vec<Vec<u8>>]) -> Result<(), Failure> {
        if !self.terminal || self.end == 0 || headings.len() < 2 {
            return rows.iter().try_for_each(|row| self.line(&row.join(&b'\t')));
        }
        let shown = |row: &Vec<Vec<u8>>| {
            row.iter()
                .map(|cell| String::from_utf8_lossy(cell).into_owned())
                .collect()
        };
        let headings = headings.iter().map(|heading| escaped(heading)).collect();
        let lines: Vec<Vec<String>> = std::iter::once(headings).chain(rows.iter().map(shown)).collect();
        self.aligned(&lines)
    }

    /// Prints lines with their columns aligned.
    pub fn aligned(&mut self, lines: &[Vec<String>]) -> Result<(), Failure> {
        let columns = lines.iter().map(Vec::len).max().unwrap_or(0);
        let widest = |column: usize| {
            lines
                .iter()
                .filter_map(|line| line.get(column))
                .map(|cell| width(cell))
                .max()
        };
        let widths: Vec<usize> = (0..columns).map(|column| widest(column).unwrap_or(0)).collect();
        for line in lines {
            let mut text = String::new();
            for (cell, width_here) in line.iter().zip(&widths) {
                text.push_str(cell);
                text.push_str(&" ".repeat(width_here - width(cell) + 2));
            }
            self.line(text.trim_end_matches(' ').as_bytes())?;
        }
        Ok(())
    }

    /// Prints a path on its own line.
    pub fn path(&mut self, path: &Path) -> Result<(), Failure> {
        let path = self.path_bytes(path);
        self.line(&path)
    }

    /// Returns the printed form of the path.
    pub fn path_bytes(&self, path: &Path) -> Vec<u8> {
        let bytes = path.as_os_str().as_bytes();
        match (self.escapes, path.to_str()) {
            (false, _) => bytes.to_vec(),
            (true, Some(text)) => escaped(text).into_bytes(),
            (true, None) => escaped_bytes(bytes).into_bytes(),
        }
    }

    /// Flushes everything printed so far.
    pub fn flush(&mut self) -> Result<(), Failure> {
        Ok(self.out.flush()?)
    }
}
