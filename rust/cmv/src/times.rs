//! PCR, PTS and DTS of each packet that has one.

use crate::input::Failure;
use crate::options::Options;
use crate::svg::Picture;
use crate::table::{standard_output, Cell, Column, Form, Table};
use clomaverift::{ClockRef, Found, PesHeader, Pid, PtsDts, Timestamp};
use std::io::Write;

const COLUMNS: &[Column] = &[
    Column::new("packet", 10),
    Column::new("pid", 6),
    Column::of_times("pcr", 15),
    Column::of_times("pts", 13),
    Column::of_times("dts", 13),
];

/// The timestamps of a header, if there are any and they are not refused.
pub fn timestamps(header: &PesHeader<'_>) -> (Option<Timestamp>, Option<Timestamp>) {
    let times = header.contents().parsed().and_then(|contents| contents.pts_dts()).ok();
    (times.as_ref().and_then(PtsDts::pts), times.as_ref().and_then(PtsDts::dts))
}

/// What a packet says of time.
#[derive(Default)]
pub struct Times {
    pub pid: Option<Pid>,
    pub pcr: Option<ClockRef>,
    pub pts: Option<Timestamp>,
    pub dts: Option<Timestamp>,
    pub broken: bool,
}

impl Times {
    fn found(&mut self, found: Found<'_>) {
        match found {
            Found::Clock { pid, pcr, .. } => (self.pid, self.pcr) = (Some(pid), Some(pcr)),
            Found::Begin { pid, header, .. } => {
                (self.pts, self.dts) = timestamps(&header);
                self.pid = self.pid.or_else(|| self.pts.or(self.dts).map(|_| pid));
            }
            Found::ContinuityError { .. } => self.broken = true,
            _ => (),
        }
    }
}

pub fn run(options: Options) -> Result<(), Failure> {
    if options.svg {
        return draw(options);
    }
    let (form, seconds) = (options.form, options.seconds);
    let mut table = Table::begin(standard_output(), form, COLUMNS, seconds)?;
    let mut demux = options.demux();
    let tally = options.input.each(|index, bytes, _| {
        let mut times = Times::default();
        demux.push(bytes, |found| times.found(found));
        if let Some(pid) = times.pid {
            let (pts, dts) = (Cell::timestamp(times.pts, seconds), Cell::timestamp(times.dts, seconds));
            table.row(&[Cell::Number(index), Cell::Pid(pid), Cell::clock(times.pcr, seconds), pts, dts])?;
        }
        Ok(())
    })?;
    let mut out = table.end()?;
    if form == Form::Json {
        writeln!(out)?;
    }
    out.flush()?;
    tally.check()
}

fn draw(options: Options) -> Result<(), Failure> {
    let mut picture = Picture::default();
    let mut demux = options.demux();
    let tally = options.input.each(|index, bytes, _| {
        let mut times = Times::default();
        demux.push(bytes, |found| times.found(found));
        picture.add(index, &times);
        Ok(())
    })?;
    let mut out = standard_output();
    picture.write(tally.packets, &mut out)?;
    out.flush()?;
    tally.check()
}
