//! The proved header reader of a transport stream analyser, for Rust.
//!
//! Packets, adaptation fields, PES headers and their timestamps are read, the events of a stream are found and units are gathered and
//! written by the library Clomaverift, in which every function is proved to meet its contract. This crate is a thin layer over its
//! exported functions: the types have the names that they have in the crate mpeg2ts-reader, which the library is a port of, and
//! whatever is read from bytes is read by the library. Where mpeg2ts-reader panics or answers `None`, a function here returns an
//! [`Error`], which says why.
//!
//! # Which part to take
//!
//! - [`Demux`]: a recording of many PIDs in, units with their times and payload, clock references and continuity errors out.
//! - [`Machine`], [`Events`] and [`Gathering`]: the same for one PID, step by step, with no memory but the caller's; [`log_bytes`] says how
//!   much of it a log needs.
//! - [`Packets`], [`Packet`], [`PesHeader`], [`Timestamp`] and what they give: single packets and headers.
//! - [`Unit`] and [`write()`]: a unit with its payload as packets.
//!
//! Continuity counters are judged as mpeg2ts-reader judges them, unless the standard's rules are asked for: for stations that send packets
//! twice, [`Machine::standard`] and [`Demux::standard`] drop the repeats. They also announce every stream, where mpeg2ts-reader loses one
//! that begins with a continuity error. [`Mode`] says how the two differ.
//!
//! Enums and structs that may grow are `#[non_exhaustive]`; those that the standard closes ([`PtsDts`], [`PesLength`], [`DsmTrickMode`] and
//! the like) are not. A number that a newer library gives and this crate does not know is [`Error::Unknown`].
//!
//! # Example
//!
//! The times of a packet that begins a unit:
//!
//! ```
//! use clomaverift::{Packet, PesHeader, PtsDts, Timestamp};
//!
//! let mut bytes = [0xFF; Packet::SIZE];
//! bytes[..18].copy_from_slice(&[0x47, 0x41, 0, 0x10, 0, 0, 1, 0xE0, 0, 0, 0x80, 0x80, 5, 0x21, 0, 5, 0xBF, 0x21]);
//!
//! let packet = Packet::try_new(&bytes)?;
//! assert_eq!(u16::from(packet.pid()), 0x100);
//! let header = PesHeader::from_bytes(packet.payload().unwrap())?;
//! let contents = header.contents().parsed()?;
//! assert_eq!(contents.pts_dts()?, PtsDts::PtsOnly(Timestamp::from_u64(90_000)));
//! # Ok::<(), clomaverift::Error>(())
//! ```
//!
//! # From mpeg2ts-reader
//!
//! What has changed since mpeg2ts-reader 0.18.2. Every other method of `packet` and `pes` has the name and the signature that it has there.
//! Nothing is logged.
//!
//! | mpeg2ts-reader 0.18.2 | here |
//! |---|---|
//! | `AdaptationFieldError`, `PesError`, `TimestampError` | one [`Error`], with the names of their cases |
//! | **packet** | |
//! | `Packet::new(&[u8]) -> Packet`, which asserts | left out: `Packet::try_new(..)?` |
//! | `Packet::try_new(&[u8]) -> Option<Packet>`, which asserts 188 bytes | `-> Result<Packet, Error>` |
//! | `Pid::new(u16) -> Pid`, `const`, which asserts | `-> Result<Pid, Error>`, `const` |
//! | `Pid: TryFrom<u16, Error = ()>` | `Error = Error` |
//! | `ContinuityCounter::new(u8) -> ContinuityCounter`, which asserts | `-> Result<ContinuityCounter, Error>` |
//! | `ContinuityCounter: From<u8>`, which asserts | `TryFrom<u8, Error = Error>` |
//! | `ClockRef::from_slice(&[u8]) -> ClockRef`, which panics | `-> Result<ClockRef, Error>` |
//! | `ClockRef::from_parts(u64, u16) -> ClockRef`, which asserts | `-> Result<ClockRef, Error>` |
//! | `AdaptationField::new(&[u8]) -> AdaptationField`, which asserts | `-> Result<AdaptationField, Error>` |
//! | `AdaptationField::pcr`, `opcr`, `splice_countdown`, `adaptation_field_extension` `-> Result<_, AdaptationFieldError>` | `-> Result<_, Error>` |
//! | `AdaptationField::transport_private_data(&self) -> Result<&[u8], AdaptationFieldError>` | `-> Result<&'buf [u8], Error>` |
//! | `AdaptationFieldExtension::new`, `ltw_offset`, `piecewise_rate`, `seamless_splice` `-> Result<_, AdaptationFieldError>` | `-> Result<_, Error>` |
//! | `AdaptationFieldError::SpliceTimestampError(error)` | `error` itself |
//! | `AdaptationControl`, `TransportScramblingControl`: equal if the whole fourth byte is | equal if their own two bits are |
//! | **pes** | |
//! | `PesHeader::from_bytes(&[u8]) -> Option<PesHeader>` | `-> Result<PesHeader, Error>` |
//! | `PesContents::Parsed(Option<PesParsedContents>)` | `Parsed(Result<PesParsedContents, Error>)` |
//! | `PesParsedContents::from_bytes(&[u8]) -> Option<PesParsedContents>` | `-> Result<PesParsedContents, Error>` |
//! | `PesParsedContents::pts_dts`, `escr`, `es_rate`, `dsm_trick_mode`, `additional_copy_info`, `previous_pes_packet_crc`, `pes_extension` `-> Result<_, PesError>` | `-> Result<_, Error>` |
//! | `PesError::NotEnoughData`, which never comes | left out |
//! | `PesError::MarkerBitNotSet` | `Error::MarkerBitNotSet { bit_number: 0 }` |
//! | `PtsDts::None`, `PtsDts::Invalid`, which never come | left out |
//! | `PtsDts::PtsOnly(Result<Timestamp, TimestampError>)`, and so `Both` | `PtsOnly(Result<Timestamp, Error>)` |
//! | `Timestamp::from_pts_bytes`, `from_dts_bytes`, `from_bytes` `-> Result<Timestamp, TimestampError>`, which panic below 5 bytes | `-> Result<Timestamp, Error>`, [`Error::WrongLength`] below 5 bytes |
//! | `Timestamp::from_u64(u64) -> Timestamp`, which asserts | `-> Result<Timestamp, Error>` |
//! | `EsRate::new(u32) -> EsRate`, which asserts | `-> Result<EsRate, Error>` |
//! | `PesPacketFilter::new(consumer)`, `consume(&mut ctx, &Packet)` | [`Machine::new()`], [`Machine::step`] or [`Machine::run`] |
//! | `ElementaryStreamConsumer`: `start_stream`, `begin_packet`, `continue_packet`, `end_packet`, `continuity_error` | an [`Event`] with the [`EventKind`] of that name, or [`Found`] |
//! | **demultiplex and the rest** | |
//! | `Demultiplex::new(&mut ctx)`, `push(&mut ctx, &[u8])` | [`Demux::new()`], [`Demux::push`] with a closure that takes each [`Found`] |
//! | `push` drops packets that are marked as damaged or scrambled, and logs it | drops them too, unless [`Demux::marked`] says otherwise |
//! | `push` ends at a packet without sync byte | that packet is [`Found::Refused`], and the next one is taken |
//! | bytes after the last whole packet are ignored | they are [`Found::Refused`] |
//! | `PacketFilter`, `NullPacketFilter`, `DemuxContext`, `FilterChangeset`, `FilterChange`, `FilterRequest`, `demux_context!`, `packet_filter_switch!` | [`Demux::only`] names the PIDs |
//! | `PatPacketFilter`, `PmtPacketFilter`, `StreamType`, the modules `psi`, `descriptor`, `mpegts_crc` | left out: program tables are not read |
//! | `STUFFING_PID`, `psi::pat::PAT_PID` | [`Pid::STUFFING`], [`Pid::PAT`] |
//!
//! Added: [`Mode::Standard`], in which a station may send packets twice and every stream is announced, and [`ContinuityCounter::compare`];
//! [`Packet::fields`] and [`PesParsedContents::fields`], which read all fields by one call; [`PesParsedContents`]'s `flags`,
//! `pes_header_data_len`, `pes_scrambling_control` and `raw_trick_mode`; [`PesHeader::payload`], [`PesContents::parsed`], [`StreamId`]'s
//! `number`, `audio` and `video`, [`PesExtension::buffer`]; `AdaptationControl::new` and `TransportScramblingControl::from_byte_four`,
//! which are private there; differences of times and their seconds; `Display`, `Hash`, `Ord` and conversions.
//!
//! # Without std
//!
//! With `default-features = false` the crate is `no_std` and needs `alloc`; [`Error`] is then no `std::error::Error`. The library
//! calls memory functions of C such as `memcpy`, which the C library has, and `compiler_builtins` for a target without one.
//!
//! # Linking
//!
//! The library is an archive for x86-64, `libclomaverift.a`. The build script takes it from the folder that the environment variable
//! `CLOMAVERIFT_LIBRARY` names or, if it is unset or empty, from the repository's `target/library`, where `tools/library` makes it. If the
//! archive, a linker for x86-64 or the target's standard library is missing, it says which; so it does if the archive is of a version whose
//! layout this crate does not know.
//!
//! On a machine that is not x86-64, build for `x86_64-unknown-linux-gnu`: the crate's `.cargo/config.toml` names a linker and a runner
//! for it, and a project that depends on this crate needs a copy of that `.cargo` folder.

#![cfg_attr(not(any(feature = "std", test)), no_std)]
#![deny(unsafe_code)]
#![warn(missing_docs)]

extern crate alloc;

mod declarations;
mod demux;
mod error;
mod ffi;
mod gather;
mod machine;
pub mod packet;
pub mod pes;
mod writer;

pub use demux::{Demux, Found, FoundUnit, Mark, Marked};
pub use error::Error;
pub use gather::Gathering;
pub use machine::{log_bytes, Event, EventKind, Events, Machine, Mode, Phase, Ran, Repeat};
pub use packet::{
    AdaptationControl, AdaptationField, AdaptationFieldExtension, ClockRef, Compared, ContinuityCounter, Packet,
    PacketFields, Packets, Pid, SeamlessSplice, TransportScramblingControl,
};
pub use pes::{
    Copyright, CopyrightStatus, DataAlignment, DsmTrickMode, EsRate, FrequencyTruncationCoefficientSelection,
    OriginalOrCopy, PesContents, PesExtension, PesFields, PesHeader, PesLength, PesParsedContents, PtsDts, StreamId,
    Timestamp,
};
pub use writer::{write, Times, Unit};
