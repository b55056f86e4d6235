//! The command line.

use crate::input::{Failure, Input};
use crate::table::Form;
use clap::{value_parser, Arg, ArgAction, ArgMatches, Command};
use clomaverift::{Demux, Machine, Marked, Mode, Pid};
use std::path::PathBuf;

const STATUS: &str =
    "Exit status: 0 done, 1 the input has something that could not be read or written as asked, 2 wrong usage.";

const MARKED: &str = "Packets that are marked as scrambled or damaged are dropped.";

const STANDARD: &str = "\
With --standard a packet that repeats the one before on its PID is dropped, and one that announces a discontinuity is no
break. Without it, counters are judged as by the Rust crate mpeg2ts-reader, and both are breaks; and a stream with a
break before its first start flag is not announced.";

const EVENTS: &str = "\
Events: start (first packet with the start flag), begin (of a unit), continue, end (of the unit before), error (the
continuity counter breaks); with --standard also start-break, a start that a break announces because it came first.
Offset and length are those of the payload in its packet.";

const TIMES: &str = "\
PTS and DTS are printed in ticks of 90 kHz, PCR in ticks of 27 MHz. The PCR of a packet that is dropped as a repeat is
printed too. The picture shows all PIDs alike: --pid chooses one.";

const SUMMARY: &str = "\
Units are those that were read whole; the last one of a PID ends with the recording. Breaks are packets whose continuity
counter does not follow the one before. With --standard there are two columns more: the packets dropped as repeats, and
what announced the stream: start (its first start flag), break (a break that came before) or no (neither came).";

const PAYLOAD: &str = "A unit that a break cuts off is left out.";

const REWRITE: &str = "\
Header fields stay as they are. Header stuffing, PES extensions, clock references and tables are not carried over. A unit
that a break cuts off is left out. So is one that the writer does not take, with exit status 1: one of more than 65,536
bytes, or one whose stream id has no header fields.";

/// What a sub-command is asked to do.
pub struct Options {
    pub input: Input,
    pub pid: Option<Pid>,
    pub mode: Mode,
    pub form: Form,
    pub seconds: bool,
    pub svg: bool,
}

impl Options {
    pub fn of(matches: &ArgMatches) -> Result<Options, Failure> {
        let pid = matches.get_one::<Pid>("pid").copied();
        let flag = |name| matches!(matches.try_get_one::<bool>(name), Ok(Some(true)));
        let form = match (flag("json"), flag("csv")) {
            (true, _) => Form::Json,
            (_, true) => Form::Csv,
            _ => Form::Text,
        };
        let mode = if flag("standard") { Mode::Standard } else { Mode::Crate };
        let path = matches.get_one::<PathBuf>("FILE").expect("clap asks for the file");
        let input = Input::open(path, pid)?;
        Ok(Options { input, pid, mode, form, seconds: flag("seconds"), svg: flag("svg") })
    }

    /// Before the first packet of a PID.
    pub fn machine(&self) -> Machine {
        let mut machine = Machine::new();
        machine.set_mode(self.mode);
        machine
    }

    /// Of the PID chosen, or of all but stuffing. Packets that are dropped are reported.
    pub fn demux(&self) -> Demux {
        let demux = Demux::new().mode(self.mode).marked(Marked::Report);
        match self.pid {
            Some(pid) => demux.only(&[pid]),
            None => demux,
        }
    }
}

pub fn command() -> Command {
    let events =
        sub_command("events", "Lists the events of each PID: packet index, PID, event, offset, length", EVENTS);
    let times = sub_command("times", "Lists PCR, PTS and DTS with packet index and PID", TIMES);
    let summary =
        sub_command("summary", "Sums up the recording in words, and in a table with a row for each PID", SUMMARY);
    let payload = sub_command("payload", "Writes the elementary stream of a PID to standard output", PAYLOAD);
    let rewrite =
        sub_command("rewrite", "Writes the units of a PID anew, in the fewest packets, to standard output", REWRITE);
    let svg = flag("svg", "Draw an SVG picture: PTS, DTS and PCR in seconds over the packet index, with breaks");
    Command::new("cmv")
        .version(env!("CARGO_PKG_VERSION"))
        .about("Shows what a transport stream recording (188-byte packets) holds")
        .after_help(STATUS)
        .subcommand_required(true)
        .arg_required_else_help(true)
        .disable_help_subcommand(true)
        .subcommand(with_forms(events))
        .subcommand(with_forms(times).arg(seconds()).arg(svg.conflicts_with_all(["json", "csv", "seconds"])))
        .subcommand(with_forms(summary).arg(seconds()))
        .subcommand(payload.mut_arg("pid", |pid| pid.required(true)))
        .subcommand(rewrite.mut_arg("pid", |pid| pid.required(true)))
}

fn sub_command(name: &'static str, about: &'static str, notes: &str) -> Command {
    let file = Arg::new("FILE").required(true).value_parser(value_parser!(PathBuf));
    let pid = Arg::new("pid").long("pid").value_name("PID").value_parser(parse_pid);
    Command::new(name)
        .about(about)
        .after_help(format!("{notes}\n{MARKED}\n{STANDARD}\n\n{STATUS}"))
        .arg(file.help("The recording; - is standard input"))
        .arg(pid.help("This PID alone, in hexadecimal (0x100) or decimal (256)"))
        .arg(flag("standard", "Judge continuity counters by the standard: for stations that send packets twice"))
}

fn with_forms(command: Command) -> Command {
    command
        .arg(flag("json", "Print JSON, PIDs as numbers").conflicts_with("csv"))
        .arg(flag("csv", "Print comma-separated values, PIDs as numbers"))
}

fn seconds() -> Arg {
    flag("seconds", "Print times in seconds instead of ticks")
}

fn flag(name: &'static str, help: &'static str) -> Arg {
    Arg::new(name).long(name).action(ArgAction::SetTrue).help(help)
}

fn parse_pid(word: &str) -> Result<Pid, String> {
    let number = match word.strip_prefix("0x").or_else(|| word.strip_prefix("0X")) {
        Some(digits) => u16::from_str_radix(digits, 16),
        None => word.parse(),
    };
    let pid = number.ok().and_then(|number| Pid::new(number).ok());
    pid.ok_or_else(|| "a PID is a number from 0 to 8191, in decimal (256) or hexadecimal (0x100)".to_string())
}
