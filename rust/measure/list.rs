//! The events of standard input, a line each, as the program events prints them, by the oracle's machine.

use crate::event::Event;
use crate::machine::{Machine, Takes};
use mpeg2ts_reader::packet::Packet;
use std::io::{self, BufWriter, Read, Write};

/// How many bytes are read at once: as many as the program events reads.
const BLOCK: usize = 65_536;

pub fn list() -> io::Result<()> {
    let mut machine = Machine::new(Lines(BufWriter::new(io::stdout().lock())));
    machine.taker_mut().line(format_args!("packet event place length"));
    let word = take_all(&mut machine)?;
    let taken = machine.taken();
    match word {
        0 => machine.taker_mut().line(format_args!("packets {taken}")),
        word => machine.taker_mut().line(format_args!("{taken} refused {word}")),
    }
    machine.taker_mut().0.flush()
}

/// Takes the packets of standard input, up to one that is refused. What is left of a block for the next is moved to its start.
fn take_all<W: Write>(machine: &mut Machine<Lines<W>>) -> io::Result<u32> {
    let mut block = vec![0; BLOCK];
    let mut held = 0;
    let mut input = io::stdin().lock();
    loop {
        let filled = held + input.read(&mut block[held..])?;
        if filled == held {
            return Ok(if held == 0 { 0 } else { 1 });
        }
        let word = machine.run(&block[..filled]);
        if word != 0 {
            return Ok(word);
        }
        held = filled % Packet::SIZE;
        block.copy_within(filled - held..filled, 0);
    }
}

struct Lines<W: Write>(W);

impl<W: Write> Lines<W> {
    /// A line that cannot be written is missing: as with the program events.
    fn line(&mut self, text: std::fmt::Arguments) {
        let _ = writeln!(self.0, "{text}");
    }
}

impl<W: Write> Takes for Lines<W> {
    fn take(&mut self, index: u32, event: Event) {
        const NAMES: [&str; 6] = ["", "start", "begin", "continue", "end", "error"];
        let _ = writeln!(self.0, "{index} {} {} {}", NAMES[event.kind as usize], event.place, event.length);
    }
}
