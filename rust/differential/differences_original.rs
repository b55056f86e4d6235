//! The first table of docs/DIFFERENCES.md: functions of which the answers differ. The oracle's answer is as the oracle prints it.

use crate::adaptation;
use crate::differences_calls::{call, listed, machine, made, number_of, read, Bytes, Call};
use crate::differences_calls::{CLOCK, EVERY, FIELD, PACKET, PARTS, PUSHED, STAMP};
use crate::differences_whole::handed_on;
use crate::host::{self, Reader};
use crate::reading::Reading;
use mpeg2ts_reader::packet::{AdaptationField, ClockRef, ContinuityCounter, Packet, Pid};
use mpeg2ts_reader::pes::{EsRate, PesHeader, PesParsedContents, Timestamp};

pub fn calls() -> Vec<Call> {
    let stamp = |name, inputs: &[&'static str], original: fn(&[u8]) -> _, reader: Reader| {
        call(name, STAMP, inputs, move |bytes| format!("{:?}", original(bytes)), move |bytes| read(&reader, bytes))
    };
    let slice = |name, kind, inputs: &[&'static str], original: fn(&[u8]) -> String, reader: Reader| {
        call(name, kind, inputs, move |bytes: &Bytes| original(bytes), move |bytes| read(&reader, bytes))
    };
    vec![
        stamp("Timestamp::from_bytes", &["21 00 01 00", "20"], Timestamp::from_bytes, host::TIMESTAMP_FROM_BYTES),
        stamp("Timestamp::from_pts_bytes", &["00"], Timestamp::from_pts_bytes, host::TIMESTAMP_FROM_PTS_BYTES),
        stamp("Timestamp::from_dts_bytes", &["00"], Timestamp::from_dts_bytes, host::TIMESTAMP_FROM_DTS_BYTES),
        call(
            "Timestamp::from_u64",
            number_of(),
            &["17,179,869,184 (2^34)"],
            |&number| format!("{:?}", Timestamp::from_u64(number)),
            |&number| made(|outs| host::timestamp_from_u64(number, outs)),
        ),
        slice(
            "ClockRef::from_slice",
            CLOCK,
            &["5×00"],
            |bytes| format!("{:?}", ClockRef::from_slice(bytes)),
            host::CLOCK_REF_FROM_SLICE,
        ),
        call(
            "ClockRef::from_parts",
            PARTS,
            &["8,589,934,592 (2^33) and 0", "0 and 512"],
            |&(base, extension)| format!("{:?}", ClockRef::from_parts(base, extension)),
            |&(base, extension)| made(|outs| host::clock_ref_from_parts(base, extension, outs)),
        ),
        call(
            "ContinuityCounter::new",
            number_of(),
            &["16"],
            |&count| format!("{:?}", ContinuityCounter::new(count)),
            |&count| made(|outs| host::continuity_counter_new(count, outs)),
        ),
        call(
            "Pid::new",
            number_of(),
            &["8,192"],
            |&pid| format!("{:?}", Pid::new(pid)),
            |&pid| made(|outs| host::pid_new(pid, outs)),
        ),
        call(
            "Pid::try_from",
            number_of(),
            &["8,192"],
            |&pid: &u16| format!("{:?}", Pid::try_from(pid)),
            |&pid| made(|outs| host::pid_try_from(pid, outs)),
        ),
        call(
            "AdaptationField::new",
            FIELD,
            &["no bytes"],
            |bytes| format!("{:?}", AdaptationField::new(bytes)),
            |bytes| every(&adaptation::FIELD, bytes),
        ),
        slice(
            "PesHeader::from_bytes",
            EVERY,
            &["00 00 01 E0 00", "00 00 00 E0 00 00"],
            |bytes| format!("{:?}", PesHeader::from_bytes(bytes).map(|header| header.stream_id())),
            host::PES_HEADER_FROM_BYTES,
        ),
        slice(
            "PesParsedContents::from_bytes",
            EVERY,
            &["80 00", "C0 00 00", "80 00 01", "80 08 00"],
            |bytes| format!("{:?}", PesParsedContents::from_bytes(bytes)),
            host::PES_CONTENTS_FROM_BYTES,
        ),
        slice(
            "PesParsedContents::additional_copy_info",
            EVERY,
            &["80 04 01 00"],
            |bytes| format!("{:?}", PesParsedContents::from_bytes(bytes).expect("contents").additional_copy_info()),
            host::PES_CONTENTS_ADDITIONAL_COPY_INFO,
        ),
        call(
            "EsRate::new",
            number_of(),
            &["4,194,304 (2^22)"],
            |&rate| format!("{:?}", EsRate::new(rate)),
            |&rate| made(|outs| host::es_rate_new(rate, outs)),
        ),
        slice(
            "Packet::new",
            PACKET,
            &["47 186×FF", "46 187×FF"],
            |bytes| format!("{:?}", Packet::new(bytes).pid()),
            host::PACKET_TRY_NEW,
        ),
        slice(
            "Packet::try_new",
            PACKET,
            &["47 186×FF", "46 187×FF"],
            |bytes| format!("{:?}", Packet::try_new(bytes).map(|packet| packet.pid())),
            host::PACKET_TRY_NEW,
        ),
        call(
            "Demultiplex::push",
            PUSHED,
            &["47 C1 00 10 00 00 01 E0 180×FF", "47 41 00 50 00 00 01 E0 180×FF"],
            |packets| match handed_on(packets) {
                events if events.is_empty() => "dropped".to_string(),
                events => listed(&events.iter().map(|events| events.to_vec()).collect::<Vec<_>>()),
            },
            |packets| machine(packets),
        ),
    ]
}

/// The answer that every reading gives, or all of them.
fn every(readings: &[Reading], bytes: &[u8]) -> String {
    let mut answers: Vec<String> = readings.iter().map(|reading| read(reading.library(), bytes)).collect();
    answers.dedup();
    answers.join(", ")
}
