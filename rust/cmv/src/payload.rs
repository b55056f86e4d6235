//! The elementary stream of a PID.

use crate::input::Failure;
use crate::losses::Losses;
use crate::options::Options;
use crate::table::standard_output;
use clomaverift::Found;
use std::io::Write;

pub fn run(options: Options) -> Result<(), Failure> {
    let mut demux = options.demux();
    let mut losses = Losses::default();
    let mut payload = Vec::new();
    let mut out = standard_output();
    let mut keep = |found: Found<'_>, payload: &mut Vec<u8>| {
        if let Some(unit) = losses.unit_of(found) {
            payload.extend(unit.payload);
        }
    };
    let tally = options.input.each(|_, bytes, _| {
        demux.push(bytes, |found| keep(found, &mut payload));
        out.write_all(&payload)?;
        payload.clear();
        Ok(())
    })?;
    demux.finish(|found| keep(found, &mut payload));
    out.write_all(&payload)?;
    out.flush()?;
    let said = losses.say();
    tally.check().and(said)
}
