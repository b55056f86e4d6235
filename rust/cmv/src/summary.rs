//! The recording in words, and a row for each PID.

use crate::input::{counted, Failure, Tally};
use crate::options::Options;
use crate::table::{standard_output, Cell, Column, Form, Table};
use crate::times::timestamps;
use clomaverift::{ClockRef, Found, Mark, Mode, Pid, Timestamp};
use std::collections::BTreeMap;
use std::io::{self, Write};

/// How many columns, the last ones, are there in the standard mode alone: in the other one no packet is dropped as a repeat, and no stream
/// announced by a break.
const OF_STANDARD: usize = 2;

const COLUMNS: &[Column] = &[
    Column::new("pid", 6),
    Column::new("packets", 10),
    Column::new("units", 7),
    Column::new("breaks", 7),
    Column::new("scrambled", 9),
    Column::new("damaged", 8),
    Column::of_times("first_pts", 13),
    Column::of_times("last_pts", 13),
    Column::of_times("first_pcr", 15),
    Column::new("repeated", 10),
    Column::new("announced", 9),
];

fn columns(mode: Mode) -> &'static [Column] {
    match mode {
        Mode::Standard => COLUMNS,
        _ => &COLUMNS[..COLUMNS.len() - OF_STANDARD],
    }
}

/// What was found of a PID.
#[derive(Default)]
struct Row {
    packets: u64,
    units: u64,
    breaks: u64,
    scrambled: u64,
    damaged: u64,
    repeated: u64,
    /// Whether the stream was announced, and if so whether by a break.
    announced: Option<bool>,
    given_up: u64,
    first_pts: Option<Timestamp>,
    last_pts: Option<Timestamp>,
    first_pcr: Option<ClockRef>,
}

impl Row {
    fn cells(&self, pid: Pid, seconds: bool) -> [Cell; COLUMNS.len()] {
        [
            Cell::Pid(pid),
            Cell::Number(self.packets),
            Cell::Number(self.units),
            Cell::Number(self.breaks),
            Cell::Number(self.scrambled),
            Cell::Number(self.damaged),
            Cell::timestamp(self.first_pts, seconds),
            Cell::timestamp(self.last_pts, seconds),
            Cell::clock(self.first_pcr, seconds),
            Cell::Number(self.repeated),
            Cell::Word(match self.announced {
                None => "no",
                Some(false) => "start",
                Some(true) => "break",
            }),
        ]
    }
}

type Rows = BTreeMap<Pid, Row>;

fn found(rows: &mut Rows, found: Found<'_>) {
    match found {
        Found::StartStream { pid, by_break, .. } => rows.entry(pid).or_default().announced = Some(by_break),
        Found::Unit(unit) => rows.entry(unit.pid).or_default().units += 1,
        Found::ContinuityError { pid, .. } => rows.entry(pid).or_default().breaks += 1,
        Found::StoreFull { pid, .. } => rows.entry(pid).or_default().given_up += 1,
        Found::Dropped { pid, mark: Mark::Scrambled, .. } => rows.entry(pid).or_default().scrambled += 1,
        Found::Dropped { pid, .. } => rows.entry(pid).or_default().damaged += 1,
        Found::Repeated { pid, .. } => rows.entry(pid).or_default().repeated += 1,
        Found::Clock { pid, pcr, .. } => {
            rows.entry(pid).or_default().first_pcr.get_or_insert(pcr);
        }
        Found::Begin { pid, header, .. } => {
            let row = rows.entry(pid).or_default();
            let (pts, _) = timestamps(&header);
            row.first_pts = row.first_pts.or(pts);
            row.last_pts = pts.or(row.last_pts);
        }
        _ => (),
    }
}

fn words_of_standard(out: &mut impl Write, repeated: u64, by_break: u64) -> io::Result<()> {
    match repeated {
        0 => writeln!(out, "No packet repeats the one before."),
        1 => writeln!(out, "1 packet repeats the one before: dropped."),
        repeated => writeln!(out, "{repeated} packets repeat the one before: dropped."),
    }?;
    match by_break {
        0 => writeln!(out, "No stream was announced by a break."),
        by_break => writeln!(out, "{} announced by a break.", counted(by_break, "stream was", "streams were")),
    }
}

fn words(out: &mut impl Write, tally: &Tally, rows: &Rows, mode: Mode) -> io::Result<()> {
    let sum = |of: fn(&Row) -> u64| rows.values().map(of).sum::<u64>();
    let packets = counted(sum(|row| row.packets), "packet", "packets");
    writeln!(
        out,
        "{packets} of {}, {} in all.",
        counted(rows.len() as u64, "PID", "PIDs"),
        counted(tally.bytes, "byte", "bytes")
    )?;
    let units = counted(sum(|row| row.units), "unit was", "units were");
    writeln!(
        out,
        "{units} read whole; {} in the continuity counters.",
        counted(sum(|row| row.breaks), "break", "breaks")
    )?;
    if mode == Mode::Standard {
        words_of_standard(out, sum(|row| row.repeated), sum(|row| u64::from(row.announced == Some(true))))?;
    }
    match (sum(|row| row.scrambled), sum(|row| row.damaged)) {
        (0, 0) => writeln!(out, "No packet is marked as scrambled or damaged."),
        (scrambled, damaged) => {
            let scrambled = counted(scrambled, "packet is", "packets are");
            writeln!(out, "{scrambled} marked as scrambled and {damaged} as damaged: dropped.")
        }
    }?;
    match tally.refused {
        0 => Ok(()),
        refused => writeln!(out, "{} refused.", counted(refused, "more packet was", "more packets were")),
    }?;
    match sum(|row| row.given_up) {
        0 => Ok(()),
        given_up => writeln!(out, "{} too long to be kept.", counted(given_up, "unit is", "units are")),
    }?;
    writeln!(out)
}

pub fn run(options: Options) -> Result<(), Failure> {
    let (chosen, mode, form, seconds) = (options.pid, options.mode, options.form, options.seconds);
    let mut demux = options.demux();
    let mut rows = Rows::new();
    let tally = options.input.each(|_, bytes, packet| {
        let pid = packet.map(|packet| packet.pid()).filter(|pid| chosen.map_or(true, |chosen| chosen == *pid));
        if let Some(pid) = pid {
            rows.entry(pid).or_default().packets += 1;
        }
        demux.push(bytes, |thing| found(&mut rows, thing));
        Ok(())
    })?;
    demux.finish(|thing| found(&mut rows, thing));

    let mut out = standard_output();
    match form {
        Form::Text => words(&mut out, &tally, &rows, mode)?,
        Form::Csv => (),
        Form::Json => {
            let (packets, refused) = (tally.packets - tally.refused, tally.refused);
            write!(out, "{{\"packets\":{packets},\"refused\":{refused},\"bytes\":{},\"pids\":", tally.bytes)?;
        }
    }
    let columns = columns(mode);
    let mut table = Table::begin(out, form, columns, seconds)?;
    rows.iter().try_for_each(|(pid, row)| table.row(&row.cells(*pid, seconds)[..columns.len()]))?;
    let mut out = table.end()?;
    if form == Form::Json {
        writeln!(out, "}}")?;
    }
    out.flush()?;
    tally.check()
}
