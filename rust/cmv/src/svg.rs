//! A picture of the times: packet index to the right, seconds upwards.

use crate::times::Times;
use std::collections::BTreeSet;
use std::io::{self, Write};

const WIDTH: f64 = 900.0;
const HEIGHT: f64 = 420.0;
const LEFT: f64 = 76.0;
const RIGHT: f64 = WIDTH - 24.0;
const TOP: f64 = 48.0;
const BOTTOM: f64 = HEIGHT - 52.0;

/// Of 27 MHz, in which all times are counted here.
const TICKS_PER_MICROSECOND: u64 = 27;
const TICKS_PER_TIMESTAMP: u64 = 300;

/// Colours for light and for dark screens. PTS are discs, DTS squares, PCR upright bars: they differ without colour too.
const STYLE: &str = "<style>
text { font: 12px system-ui, 'Segoe UI', 'DejaVu Sans', sans-serif; fill: #1f2328 }
.right { text-anchor: end }
.middle { text-anchor: middle }
.ground { fill: #ffffff; stroke: #d0d7de }
path { fill: none }
.grid { stroke: #d8dee4 }
.pts { stroke: #0969da; stroke-width: 7; stroke-linecap: round }
.dts { stroke: #bc4c00; stroke-width: 5; stroke-linecap: square }
.pcr { stroke: #1a7f37; stroke-width: 2 }
.break { stroke: #cf222e; stroke-width: 1.5; stroke-dasharray: 5 4 }
@media (prefers-color-scheme: dark) {
text { fill: #e6edf3 }
.ground { fill: #0d1117; stroke: #30363d }
.grid { stroke: #30363d }
.pts { stroke: #58a6ff }
.dts { stroke: #f0883e }
.pcr { stroke: #3fb950 }
.break { stroke: #ff7b72 }
}
</style>";

/// The shapes of a point: its stroke makes a dot a disc or a square.
const DOT: &str = "h.01";
const BAR: &str = "m0-6v12";

/// A packet's index and a time.
type Point = (u64, u64);

#[derive(Default)]
pub struct Picture {
    pts: Vec<Point>,
    dts: Vec<Point>,
    pcr: Vec<Point>,
    breaks: Vec<u64>,
}

impl Picture {
    pub fn add(&mut self, index: u64, times: &Times) {
        self.pts.extend(times.pts.map(|pts| (index, pts.value() * TICKS_PER_TIMESTAMP)));
        self.dts.extend(times.dts.map(|dts| (index, dts.value() * TICKS_PER_TIMESTAMP)));
        self.pcr.extend(times.pcr.map(|pcr| (index, pcr.into())));
        self.breaks.extend(times.broken.then_some(index));
    }

    pub fn write(&self, packets: u64, out: &mut impl Write) -> io::Result<()> {
        let scale = Scale::new(packets, self.pts.iter().chain(&self.dts).chain(&self.pcr).map(|(_, time)| *time));
        writeln!(
            out,
            "<svg xmlns=\"http://www.w3.org/2000/svg\" width=\"{WIDTH}\" height=\"{HEIGHT}\" \
             viewBox=\"0 0 {WIDTH} {HEIGHT}\" role=\"img\">"
        )?;
        writeln!(out, "<title>PTS, DTS and PCR over the recording</title>\n{STYLE}")?;
        let (width, height) = (WIDTH - 1.0, HEIGHT - 1.0);
        writeln!(out, "<rect class=\"ground\" x=\"0.5\" y=\"0.5\" width=\"{width}\" height=\"{height}\" rx=\"8\"/>")?;
        scale.write(out)?;
        self.legend(out)?;
        let breaks = self.breaks.iter().map(|index| (scale.x(*index), BOTTOM));
        path(out, "break", breaks, &format!("V{TOP}"))?;
        path(out, "pcr", scale.places(&self.pcr), BAR)?;
        path(out, "pts", scale.places(&self.pts), DOT)?;
        path(out, "dts", scale.places(&self.dts), DOT)?;
        writeln!(out, "</svg>")
    }

    fn legend(&self, out: &mut impl Write) -> io::Result<()> {
        let rows = [
            ("pts", DOT, "PTS", self.pts.len()),
            ("dts", DOT, "DTS", self.dts.len()),
            ("pcr", BAR, "PCR", self.pcr.len()),
            ("break", "m0-9v18", "break", self.breaks.len()),
        ];
        for (at, (class, shape, name, count)) in rows.into_iter().enumerate() {
            let x = LEFT + 8.0 + 110.0 * at as f64;
            writeln!(
                out,
                "<path class=\"{class}\" d=\"M{x} 24{shape}\"/><text x=\"{}\" y=\"28\">{name}: {count}</text>",
                x + 12.0
            )?;
        }
        Ok(())
    }
}

/// A shape at each of the places. Those within half a pixel are drawn once, so that a long recording has a picture of bounded size.
fn path(out: &mut impl Write, class: &str, places: impl Iterator<Item = (f64, f64)>, shape: &str) -> io::Result<()> {
    let halves: BTreeSet<(i64, i64)> =
        places.map(|(x, y)| ((2.0 * x).round() as i64, (2.0 * y).round() as i64)).collect();
    if halves.is_empty() {
        return Ok(());
    }
    write!(out, "<path class=\"{class}\" d=\"")?;
    halves.iter().try_for_each(|(x, y)| write!(out, "M{} {}{shape}", *x as f64 / 2.0, *y as f64 / 2.0))?;
    writeln!(out, "\"/>")
}

/// Where packets and times are in the picture.
struct Scale {
    /// The last packet, at least 1.
    last: u64,
    /// Microseconds between two lines.
    step: u64,
    /// The lowest and the highest line, in steps.
    low: u64,
    high: u64,
}

impl Scale {
    fn new(packets: u64, times: impl Iterator<Item = u64> + Clone) -> Scale {
        let (low, high) = (times.clone().min().unwrap_or(0), times.max().unwrap_or(0));
        let step = round_step((high - low) / TICKS_PER_MICROSECOND, 6);
        let ticks = step * TICKS_PER_MICROSECOND;
        let (low, high) = (low / ticks, (high + ticks - 1) / ticks);
        Scale { last: packets.max(2) - 1, step, low, high: high.max(low + 1) }
    }

    fn x(&self, index: u64) -> f64 {
        LEFT + 8.0 + (RIGHT - LEFT - 16.0) * index as f64 / self.last as f64
    }

    fn y(&self, time: u64) -> f64 {
        let ticks = self.step * TICKS_PER_MICROSECOND;
        BOTTOM - (BOTTOM - TOP) * (time - self.low * ticks) as f64 / ((self.high - self.low) * ticks) as f64
    }

    fn places<'a>(&'a self, points: &'a [Point]) -> impl Iterator<Item = (f64, f64)> + 'a {
        points.iter().map(|(index, time)| (self.x(*index), self.y(*time)))
    }

    /// Lines and numbers.
    fn write(&self, out: &mut impl Write) -> io::Result<()> {
        for line in self.low..=self.high {
            let y = self.y(line * self.step * TICKS_PER_MICROSECOND);
            writeln!(out, "<path class=\"grid\" d=\"M{LEFT} {y:.1}H{RIGHT}\"/>")?;
            writeln!(
                out,
                "<text class=\"right\" x=\"{}\" y=\"{:.1}\">{}</text>",
                LEFT - 8.0,
                y + 4.0,
                self.seconds(line)
            )?;
        }
        let step = round_step(self.last, 10);
        for index in (0..=self.last).step_by(step as usize) {
            let x = self.x(index);
            writeln!(out, "<path class=\"grid\" d=\"M{x:.1} {TOP}V{BOTTOM}\"/>")?;
            writeln!(out, "<text class=\"middle\" x=\"{x:.1}\" y=\"{}\">{index}</text>", BOTTOM + 18.0)?;
        }
        writeln!(out, "<text class=\"right\" x=\"{}\" y=\"{}\">seconds</text>", LEFT - 8.0, TOP - 16.0)?;
        writeln!(out, "<text class=\"middle\" x=\"{}\" y=\"{}\">packet</text>", (LEFT + RIGHT) / 2.0, BOTTOM + 38.0)
    }

    /// The seconds of a line, with the digits that tell two lines apart.
    fn seconds(&self, line: u64) -> String {
        let zeros = self.step.to_string().chars().rev().take_while(|digit| *digit == '0').count();
        let digits = 6_usize.saturating_sub(zeros);
        let microseconds = line * self.step;
        let (whole, part) = (microseconds / 1_000_000, format!("{:06}", microseconds % 1_000_000));
        if digits == 0 {
            return whole.to_string();
        }
        format!("{whole}.{}", &part[..digits])
    }
}

/// The least of 1, 2, 5, 10, 20, 50 and so on that divides the range into at most so many steps.
fn round_step(range: u64, most: u64) -> u64 {
    let mut power = 1;
    loop {
        for step in [power, 2 * power, 5 * power] {
            if range / step <= most {
                return step;
            }
        }
        power *= 10;
    }
}
