//! The two streams: findings on standard output, errors on standard error, colour only on a terminal or where it is asked for.

use crate::arguments::Color;
use std::env;
use std::io::{self, BufWriter, IsTerminal, Stdout, Write};

/// How a part of a line stands out on a terminal.
#[derive(Clone, Copy)]
pub enum Style {
    Bold,
    Error,
    Warning,
    Caret,
}

pub struct Output {
    out: BufWriter<Stdout>,
    colour: bool,
    progress: bool,
    /// Whether a line of progress stands on the terminal.
    drawn: bool,
    /// Whether findings are left out.
    quiet: bool,
    /// Whether nobody reads standard output any more. That is no error: the work goes on, and its exit status tells.
    closed: bool,
}

impl Output {
    pub fn standard(color: Color) -> Output {
        let capable = env::var_os("TERM").is_none_or(|term| term != "dumb");
        let wanted = env::var_os("NO_COLOR").is_none_or(|value| value.is_empty());
        Output {
            out: BufWriter::new(io::stdout()),
            colour: match color {
                Color::Auto => io::stdout().is_terminal() && capable && wanted,
                Color::Always => true,
                Color::Never => false,
            },
            progress: io::stderr().is_terminal() && capable,
            drawn: false,
            quiet: false,
            closed: false,
        }
    }

    /// Leaves findings out from now on; errors are still told.
    pub fn hush(&mut self) {
        self.quiet = true;
    }

    /// Whether someone watches.
    pub fn is_terminal(&self) -> bool {
        io::stdout().is_terminal()
    }

    /// Writes a line of findings.
    pub fn line(&mut self, text: &str) -> io::Result<()> {
        if self.quiet || self.closed {
            return Ok(());
        }
        self.wipe();
        let done = writeln!(self.out, "{text}");
        self.unless_closed(done)
    }

    /// Writes an error: a sentence behind the command's name.
    pub fn error(&mut self, text: &str) -> io::Result<()> {
        self.flush()?;
        // An error that cannot be told is not worth another.
        let _ = writeln!(io::stderr(), "qewaris: {text}");
        Ok(())
    }

    pub fn flush(&mut self) -> io::Result<()> {
        self.wipe();
        if self.closed {
            return Ok(());
        }
        let done = self.out.flush();
        self.unless_closed(done)
    }

    fn unless_closed(&mut self, done: io::Result<()>) -> io::Result<()> {
        match done {
            Err(error) if error.kind() == io::ErrorKind::BrokenPipe => {
                self.closed = true;
                Ok(())
            }
            done => done,
        }
    }

    /// Text that stands out where there is colour.
    pub fn styled(&self, style: Style, text: &str) -> String {
        let code = match style {
            Style::Bold => "1",
            Style::Error => "1;31",
            Style::Warning => "1;33",
            Style::Caret => "1;32",
        };
        if self.colour {
            format!("\x1b[{code}m{text}\x1b[0m")
        } else {
            text.to_string()
        }
    }

    /// Shows how far the work is, on a terminal only, in a line that the next output wipes away.
    pub fn progress(&mut self, done: usize, total: usize) -> io::Result<()> {
        if self.progress {
            self.flush()?;
            let _ = write!(io::stderr(), "\r\x1b[K{done} of {total} files checked");
            let _ = io::stderr().flush();
            self.drawn = true;
        }
        Ok(())
    }

    fn wipe(&mut self) {
        if self.drawn {
            let _ = write!(io::stderr(), "\r\x1b[K");
            let _ = io::stderr().flush();
            self.drawn = false;
        }
    }
}
