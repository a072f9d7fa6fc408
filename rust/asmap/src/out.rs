//! What goes to standard output: aligned text for people, or with `--json` one object a line for scripts.
use crate::failure::Failure;
use console::Term;
use indicatif::{ProgressBar, ProgressStyle};
use serde_json::Value;
use std::fmt;
use std::io::{self, BufWriter, IsTerminal, StdoutLock, Write};

/// A style of text, as the numbers that a terminal takes for it.
#[derive(Clone, Copy, Debug, PartialEq, Eq)]
pub enum Style {
    Good,
    Bad,
    Strong,
    Faint,
}

impl Style {
    fn code(self) -> &'static str {
        match self {
            Style::Good => "32",
            Style::Bad => "31",
            Style::Strong => "1",
            Style::Faint => "2",
        }
    }
}

/// Enough that a million lines are no million writes.
const BUFFER: usize = 64 * 1024;

pub struct Out {
    json: bool,
    colour: bool,
    writer: BufWriter<StdoutLock<'static>>,
}

impl Out {
    /// Colour is for people: on a terminal, without `--json`, and not where NO_COLOR is set to anything.
    pub fn new(json: bool) -> Out {
        let refused = std::env::var_os("NO_COLOR").is_some_and(|value| !value.is_empty());
        let colour = io::stdout().is_terminal() && !json && !refused;
        Out { json, colour, writer: BufWriter::with_capacity(BUFFER, io::stdout().lock()) }
    }

    /// Whether the caller asked for JSON.
    pub fn is_json(&self) -> bool {
        self.json
    }

    /// How wide the terminal is that text goes to, where it goes to one.
    pub fn columns(&self) -> Option<usize> {
        (io::stdout().is_terminal() && !self.json).then(|| usize::from(Term::stdout().size().1))
    }

    /// The text in a style, where there is colour.
    pub fn paint(&self, style: Style, text: &str) -> String {
        if self.colour {
            format!("\x1b[{}m{text}\x1b[0m", style.code())
        } else {
            text.to_string()
        }
    }

    pub fn line(&mut self, text: &str) -> Result<(), Failure> {
        writeln!(self.writer, "{text}").map_err(Failure::output)
    }

    /// An object on a line of its own.
    pub fn object(&mut self, value: &Value) -> Result<(), Failure> {
        self.line(&value.to_string())
    }

    /// Bytes as they are, for `--records` and maps that go to standard output.
    pub fn bytes(&mut self, bytes: &[u8]) -> Result<(), Failure> {
        self.writer.write_all(bytes).map_err(Failure::output)
    }

    /// For `write!` and `writeln!`.
    pub fn write_fmt(&mut self, text: fmt::Arguments) -> Result<(), Failure> {
        self.writer.write_fmt(text).map_err(Failure::output)
    }

    /// Everything written so far goes out.
    pub fn finish(&mut self) -> Result<(), Failure> {
        self.writer.flush().map_err(Failure::output)
    }
}

/// How far it is, on standard error, of so many or of an unknown number. It shows itself where that is a terminal and the answers go to a
/// file or pipe; on a terminal the answers themselves tell. One alone is no progress.
pub fn progress(total: Option<u64>, noun: &str) -> ProgressBar {
    if io::stdout().is_terminal() {
        return ProgressBar::hidden();
    }
    bar(total, noun)
}

/// The same for answers that go to a file by its name, so that a terminal shows none of them whatever standard output is.
pub fn bar(total: Option<u64>, noun: &str) -> ProgressBar {
    if total == Some(1) {
        return ProgressBar::hidden();
    }
    let (bar, template) = match total {
        Some(total) => (ProgressBar::new(total), format!("{{bar:40}} {{human_pos}} of {{human_len}} {noun}")),
        None => (ProgressBar::new_spinner(), format!("{{spinner}} {{human_pos}} {noun}")),
    };
    match ProgressStyle::with_template(&template) {
        Ok(style) => bar.with_style(style),
        Err(_) => bar,
    }
}
