//! Printing rows: as text in columns, as comma-separated values, as JSON.

use clomaverift::{ClockRef, Pid, Timestamp};
use std::io::{self, BufWriter, Stdout, Write};

#[derive(Clone, Copy, PartialEq, Eq)]
pub enum Form {
    Text,
    Csv,
    Json,
}

#[derive(Clone, Copy)]
pub enum Cell {
    Nothing,
    Number(u64),
    Pid(Pid),
    Word(&'static str),
    /// With so many digits after the point.
    Seconds(f64, usize),
}

impl Cell {
    pub fn timestamp(time: Option<Timestamp>, seconds: bool) -> Cell {
        match time {
            None => Cell::Nothing,
            Some(time) if seconds => Cell::Seconds(time.as_seconds(), 6),
            Some(time) => Cell::Number(time.value()),
        }
    }

    pub fn clock(clock: Option<ClockRef>, seconds: bool) -> Cell {
        match clock {
            None => Cell::Nothing,
            Some(clock) if seconds => Cell::Seconds(clock.as_seconds(), 9),
            Some(clock) => Cell::Number(clock.into()),
        }
    }

    fn text(self) -> String {
        match self {
            Cell::Nothing => "-".to_string(),
            Cell::Pid(pid) => pid.to_string(),
            other => other.csv(),
        }
    }

    fn csv(self) -> String {
        match self {
            Cell::Nothing => String::new(),
            Cell::Number(number) => number.to_string(),
            Cell::Pid(pid) => u16::from(pid).to_string(),
            Cell::Word(word) => word.to_string(),
            Cell::Seconds(seconds, digits) => format!("{seconds:.digits$}"),
        }
    }

    /// No word here has a character that JSON escapes.
    fn json(self) -> String {
        match self {
            Cell::Nothing => "null".to_string(),
            Cell::Word(word) => format!("\"{word}\""),
            Cell::Seconds(seconds, _) => format!("{seconds:?}"), // all digits
            other => other.csv(),
        }
    }
}

/// A column: its name, its width as text, and whether it has times.
#[derive(Clone, Copy)]
pub struct Column {
    name: &'static str,
    width: usize,
    times: bool,
}

impl Column {
    pub const fn new(name: &'static str, width: usize) -> Column {
        Column { name, width, times: false }
    }

    pub const fn of_times(name: &'static str, width: usize) -> Column {
        Column { name, width, times: true }
    }

    /// The name for other programs: it says if its times are in seconds.
    fn key(&self, seconds: bool) -> String {
        format!("{}{}", self.name, if self.times && seconds { "_seconds" } else { "" })
    }
}

pub fn standard_output() -> BufWriter<Stdout> {
    BufWriter::with_capacity(1 << 16, io::stdout())
}

/// A table that is printed row by row.
pub struct Table<W: Write> {
    out: W,
    form: Form,
    columns: &'static [Column],
    keys: Vec<String>,
    rows: u64,
}

impl<W: Write> Table<W> {
    pub fn begin(mut out: W, form: Form, columns: &'static [Column], seconds: bool) -> io::Result<Table<W>> {
        let keys: Vec<String> = columns.iter().map(|column| column.key(seconds)).collect();
        match form {
            Form::Text => padded(&mut out, columns, columns.iter().map(|column| column.name.replace('_', " ")))?,
            Form::Csv => writeln!(out, "{}", keys.join(","))?,
            Form::Json => write!(out, "[")?,
        }
        Ok(Table { out, form, columns, keys, rows: 0 })
    }

    pub fn row(&mut self, cells: &[Cell]) -> io::Result<()> {
        match self.form {
            Form::Text => padded(&mut self.out, self.columns, cells.iter().map(|cell| cell.text()))?,
            Form::Csv => {
                let cells: Vec<String> = cells.iter().map(|cell| cell.csv()).collect();
                writeln!(self.out, "{}", cells.join(","))?;
            }
            Form::Json => {
                let before = if self.rows == 0 { "\n" } else { ",\n" };
                let pairs = self.keys.iter().zip(cells).map(|(key, cell)| format!("\"{key}\":{}", cell.json()));
                write!(self.out, "{before}{{{}}}", pairs.collect::<Vec<_>>().join(","))?;
            }
        }
        self.rows += 1;
        Ok(())
    }

    /// The end of the table; the writer is handed back.
    pub fn end(mut self) -> io::Result<W> {
        if self.form == Form::Json {
            write!(self.out, "\n]")?;
        }
        Ok(self.out)
    }
}

/// A line of text in columns, to the right.
fn padded(out: &mut impl Write, columns: &[Column], texts: impl Iterator<Item = String>) -> io::Result<()> {
    let widths = columns.iter().map(|column| column.width);
    let words: Vec<String> = widths.zip(texts).map(|(width, text)| format!("{text:>width$}")).collect();
    writeln!(out, "{}", words.join("  "))
}
