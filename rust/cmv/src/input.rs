//! Reading a recording, and what there is to say of the input itself.

use clomaverift::{Error, Packet, Pid};
use indicatif::{ProgressBar, ProgressDrawTarget, ProgressStyle};
use std::fs::File;
use std::io::{self, ErrorKind, Read, Write};
use std::path::Path;

/// The bytes read at once: whole packets.
const CHUNK: usize = 4096 * Packet::SIZE;

/// Longer input has a progress bar.
const LONG: u64 = 64 << 20;

/// Why the program ends early.
pub enum Failure {
    /// The reader of standard output has gone: nothing is left to do or to say.
    Closed,
    /// All has been said.
    Told,
    /// A sentence for standard error.
    Said(String),
}

/// Of standard output: errors of the input are given with its name.
impl From<io::Error> for Failure {
    fn from(error: io::Error) -> Failure {
        match error.kind() {
            ErrorKind::BrokenPipe => Failure::Closed,
            _ => Failure::Said(format!("standard output: {error}")),
        }
    }
}

/// Writes a sentence to standard error. That it is closed is no reason to stop.
pub fn say(sentence: &str) {
    let _ = writeln!(io::stderr(), "cmv: {sentence}");
}

/// A recording that is open for reading, and the PID that is asked for.
pub struct Input {
    name: String,
    source: Box<dyn Read>,
    length: u64,
    pid: Option<Pid>,
}

/// What the input is, once it has been read.
#[derive(Default)]
pub struct Tally {
    /// Packets, whole or refused.
    pub packets: u64,
    pub bytes: u64,
    pub refused: u64,
    wanted: u64,
    first_refused: Option<(u64, Error)>,
    name: String,
    pid: Option<Pid>,
}

impl Input {
    pub fn open(path: &Path, pid: Option<Pid>) -> Result<Input, Failure> {
        if path.as_os_str() == "-" {
            return Ok(Input { name: "standard input".to_string(), source: Box::new(io::stdin()), length: 0, pid });
        }
        let name = path.display().to_string();
        let opened = File::open(path).and_then(|file| file.metadata().map(|metadata| (file, metadata)));
        match opened {
            Ok((_, metadata)) if metadata.is_dir() => Err(Failure::Said(format!("{name}: is a folder"))),
            Ok((file, metadata)) => Ok(Input { name, source: Box::new(file), length: metadata.len(), pid }),
            Err(error) => Err(unreadable(&name, &error)),
        }
    }

    /// Hands over the packets one after another: index, bytes, and the packet unless it is refused.
    pub fn each(
        mut self,
        mut take: impl FnMut(u64, &[u8], Option<Packet<'_>>) -> Result<(), Failure>,
    ) -> Result<Tally, Failure> {
        let mut tally = Tally { name: self.name, pid: self.pid, ..Tally::default() };
        let mut progress = Progress::new(self.length);
        let mut chunk = vec![0; CHUNK];
        loop {
            let count = fill(&mut self.source, &mut chunk).map_err(|error| unreadable(&tally.name, &error))?;
            for bytes in chunk[..count].chunks(Packet::SIZE) {
                let packet = tally.count(bytes);
                take(tally.packets - 1, bytes, packet)?;
            }
            if count < CHUNK {
                return Ok(tally);
            }
            progress.at(tally.bytes);
        }
    }
}

fn unreadable(name: &str, error: &io::Error) -> Failure {
    Failure::Said(format!("{name}: {error}"))
}

/// Reads until the buffer is full or the input ends: the number of bytes.
fn fill(source: &mut dyn Read, buffer: &mut [u8]) -> io::Result<usize> {
    let mut count = 0;
    while count < buffer.len() {
        match source.read(&mut buffer[count..]) {
            Ok(0) => break,
            Ok(more) => count += more,
            Err(error) if error.kind() == ErrorKind::Interrupted => (),
            Err(error) => return Err(error),
        }
    }
    Ok(count)
}

impl Tally {
    fn count<'a>(&mut self, bytes: &'a [u8]) -> Option<Packet<'a>> {
        let index = self.packets;
        self.packets += 1;
        self.bytes += bytes.len() as u64;
        match Packet::try_new(bytes) {
            Ok(packet) => {
                self.wanted += u64::from(self.pid.map_or(true, |pid| pid == packet.pid()));
                Some(packet)
            }
            Err(error) => {
                self.refused += 1;
                self.first_refused.get_or_insert((index, error));
                None
            }
        }
    }

    /// Fails if the input has no packet that was asked for, or something that is not a packet.
    pub fn check(&self) -> Result<(), Failure> {
        let said = match (self.first_refused, self.pid) {
            _ if self.packets == self.refused => "no packet: a packet has 188 bytes and begins with 0x47".to_string(),
            (_, Some(pid)) if self.wanted == 0 => format!("no packet of PID {pid}"),
            (Some((index, error)), _) => {
                format!(
                    "{}, the first at packet {index}: {error}",
                    counted(self.refused, "packet refused", "packets refused")
                )
            }
            _ => return Ok(()),
        };
        Err(Failure::Said(format!("{}: {said}", self.name)))
    }
}

/// `1 break`, `2 breaks`.
pub fn counted(count: u64, one: &str, many: &str) -> String {
    format!("{count} {}", if count == 1 { one } else { many })
}

/// A bar on standard error, if that is a terminal and the input is long. Where standard output is a terminal too, its lines are the
/// progress.
struct Progress {
    length: u64,
    bar: Option<ProgressBar>,
}

impl Progress {
    fn new(length: u64) -> Progress {
        Progress { length, bar: None }
    }

    fn at(&mut self, bytes: u64) {
        if self.bar.is_none() && self.length.max(bytes) > LONG {
            self.bar = Some(self.draw());
        }
        if let Some(bar) = &self.bar {
            bar.set_position(bytes);
        }
    }

    fn draw(&self) -> ProgressBar {
        if !ProgressDrawTarget::stdout().is_hidden() {
            return ProgressBar::hidden();
        }
        match self.length {
            0 => ProgressBar::new_spinner().with_style(style("{spinner} {bytes}, {bytes_per_sec}")),
            length => ProgressBar::new(length).with_style(style("{bar:40} {bytes} of {total_bytes}, {eta} left")),
        }
    }
}

fn style(template: &str) -> ProgressStyle {
    ProgressStyle::with_template(template).expect("the template is well formed")
}

impl Drop for Progress {
    fn drop(&mut self) {
        if let Some(bar) = &self.bar {
            bar.finish_and_clear();
        }
    }
}
