//! PES headers, what they hold, and timestamps.

use crate::error::{sure, unknown, Error};
use crate::ffi;
use crate::packet::{byte, duration, flag, part, ClockRef};
use core::cmp::Ordering;
use core::fmt;
use core::num::NonZeroU16;
use core::time::Duration;

/// The length that a PES header gives.
#[derive(Clone, Copy, Debug, PartialEq, Eq, Hash)]
pub enum PesLength {
    /// The packet goes on until the next one begins. The standard allows this for video alone.
    Unbounded,
    /// The number of bytes after the length field.
    Bounded(NonZeroU16),
}

/// The length, or `unbounded`.
impl fmt::Display for PesLength {
    fn fmt(&self, f: &mut fmt::Formatter<'_>) -> fmt::Result {
        match self {
            PesLength::Unbounded => f.pad("unbounded"),
            PesLength::Bounded(length) => length.fmt(f),
        }
    }
}

/// The stream id of a PES header.
///
/// ```
/// use clomaverift::{PesHeader, StreamId};
///
/// let id = PesHeader::from_bytes(&[0, 0, 1, 0xE3, 0, 0])?.stream_id();
/// assert_eq!((id.number(), id.video(), id.audio()), (0xE3, Some(3), None));
/// let id = PesHeader::from_bytes(&[0, 0, 1, 0xBD, 0, 0])?.stream_id();
/// assert_eq!(id, StreamId::PRIVATE_STREAM1);
/// # Ok::<(), clomaverift::Error>(())
/// ```
#[derive(Clone, Copy, PartialEq, Eq, Hash)]
pub struct StreamId {
    /// The id; C0 or E0 hex for all audio or video; 0 for an id that has no name.
    kind: u8,
    /// The rest of the id's bits.
    low: u8,
}

const AUDIO: u8 = 0xC0;
const VIDEO: u8 = 0xE0;
const UNKNOWN: u8 = 0;

/// The ids that have a name, as constants and in a table.
macro_rules! named_ids {
    ($($name:ident = $kind:literal, $text:literal;)*) => {
        impl StreamId {
            $(#[doc = $text] pub const $name: StreamId = StreamId { kind: $kind, low: 0 };)*
        }

        const NAMES: &[(StreamId, &str)] = &[$((StreamId::$name, stringify!($name))),*];
    };
}

named_ids! {
    PROGRAM_STREAM_MAP = 0xBC, "A program stream map.";
    PRIVATE_STREAM1 = 0xBD, "Private stream 1.";
    PADDING_STREAM = 0xBE, "A padding stream.";
    PRIVATE_STREAM2 = 0xBF, "Private stream 2.";
    ECM_STREAM = 0xF0, "Entitlement control messages.";
    EMM_STREAM = 0xF1, "Entitlement management messages.";
    DSM_CC = 0xF2, "DSM-CC.";
    ISO_13522_STREAM = 0xF3, "ISO/IEC 13522.";
    H222_1_TYPE_A = 0xF4, "Rec. ITU-T H.222.1, type A.";
    H222_1_TYPE_B = 0xF5, "Rec. ITU-T H.222.1, type B.";
    H222_1_TYPE_C = 0xF6, "Rec. ITU-T H.222.1, type C.";
    H222_1_TYPE_D = 0xF7, "Rec. ITU-T H.222.1, type D.";
    H222_1_TYPE_E = 0xF8, "Rec. ITU-T H.222.1, type E.";
    ANCILLARY_STREAM = 0xF9, "An ancillary stream.";
    SL_PACKETIZED_STREAM = 0xFA, "An SL-packetized stream of ISO/IEC 14496-1.";
    FLEX_MUX_STREAM = 0xFB, "A FlexMux stream of ISO/IEC 14496-1.";
    METADATA_STREAM = 0xFC, "A metadata stream.";
    EXTENDED_STREAM_ID = 0xFD, "The id stands in the extension.";
    RESERVED_DATA_STREAM = 0xFE, "A reserved data stream.";
    PROGRAM_STREAM_DIRECTORY = 0xFF, "A program stream directory.";
}

impl StreamId {
    #[inline]
    fn of([kind, low]: [u64; 2]) -> StreamId {
        StreamId { kind: kind as u8, low: low as u8 }
    }

    /// The id's number.
    #[must_use]
    #[inline]
    pub fn number(&self) -> u8 {
        self.kind | self.low
    }

    /// The number of an audio stream, which is the low five bits of the id; `None` for any other stream.
    #[must_use]
    #[inline]
    pub fn audio(&self) -> Option<u8> {
        (self.kind == AUDIO).then_some(self.low)
    }

    /// The number of a video stream, which is the low five bits of the id; `None` for any other stream.
    #[must_use]
    #[inline]
    pub fn video(&self) -> Option<u8> {
        (self.kind == VIDEO).then_some(self.low)
    }
}

impl From<StreamId> for u8 {
    #[inline]
    fn from(id: StreamId) -> u8 {
        id.number()
    }
}

impl Ord for StreamId {
    #[inline]
    fn cmp(&self, other: &StreamId) -> Ordering {
        self.number().cmp(&other.number())
    }
}

impl PartialOrd for StreamId {
    #[inline]
    fn partial_cmp(&self, other: &StreamId) -> Option<Ordering> {
        Some(self.cmp(other))
    }
}

/// As `0xe0`.
impl fmt::Display for StreamId {
    fn fmt(&self, f: &mut fmt::Formatter<'_>) -> fmt::Result {
        write!(f, "0x{:02x}", self.number())
    }
}

/// By its name: `Video(0)`, `Audio(0)`, `PRIVATE_STREAM1`, `Unknown(0)`.
impl fmt::Debug for StreamId {
    fn fmt(&self, f: &mut fmt::Formatter<'_>) -> fmt::Result {
        match self.kind {
            AUDIO => write!(f, "Audio({})", self.low),
            VIDEO => write!(f, "Video({})", self.low),
            UNKNOWN => write!(f, "Unknown({})", self.low),
            _ => f.write_str(NAMES.iter().find(|(id, _)| id == self).map_or("Unnamed", |(_, name)| name)),
        }
    }
}

/// The header at the start of a PES packet, and the bytes after it.
///
/// ```
/// use clomaverift::{Error, PesContents, PesHeader, PesLength};
///
/// let header = PesHeader::from_bytes(&[0, 0, 1, 0xBF, 0, 3, 7, 8, 9])?;
/// assert_eq!(header.pes_packet_length(), PesLength::Bounded(3.try_into().unwrap()));
/// assert!(matches!(header.contents(), PesContents::Payload(&[7, 8, 9])));
///
/// assert_eq!(PesHeader::from_bytes(&[0, 0, 1, 0xBF, 0]).unwrap_err(), Error::ShortHeader);
/// assert_eq!(PesHeader::from_bytes(&[0, 0, 2, 0xBF, 0, 3]).unwrap_err(), Error::BadStartCode);
/// # Ok::<(), Error>(())
/// ```
#[derive(Clone, Copy, PartialEq, Eq, Hash)]
pub struct PesHeader<'buf> {
    buf: &'buf [u8],
}

impl<'buf> PesHeader<'buf> {
    /// The header at the start of these bytes.
    ///
    /// # Errors
    ///
    /// [`Error::ShortHeader`] for fewer than 6 bytes, [`Error::BadStartCode`] if the first three are not 00 00 01.
    #[inline]
    pub fn from_bytes(buf: &'buf [u8]) -> Result<PesHeader<'buf>, Error> {
        ffi::pes_header_from_bytes(buf)?;
        Ok(PesHeader { buf })
    }

    /// The stream id.
    #[must_use]
    #[inline]
    pub fn stream_id(&self) -> StreamId {
        StreamId::of(sure(ffi::pes_header_stream_id(self.buf)))
    }

    /// The length that the header gives.
    #[must_use]
    #[inline]
    pub fn pes_packet_length(&self) -> PesLength {
        let [_, length] = sure(ffi::pes_header_pes_packet_length(self.buf));
        NonZeroU16::new(length as u16).map_or(PesLength::Unbounded, PesLength::Bounded)
    }

    /// What follows the six bytes of the header, by the stream id: parsed contents, or a payload alone.
    #[must_use]
    #[inline]
    pub fn contents(&self) -> PesContents<'buf> {
        let [kind, place, length] = sure(ffi::pes_header_contents(self.buf));
        let rest = part(self.buf, [place, length]);
        match kind {
            0 => PesContents::Payload(rest),
            1 => PesContents::Parsed(PesParsedContents::from_bytes(rest)),
            _ => PesContents::Parsed(Err(unknown(kind))),
        }
    }

    /// The payload in these bytes, of either kind of contents.
    ///
    /// # Errors
    ///
    /// Those of [`PesParsedContents::from_bytes`], for parsed contents.
    #[inline]
    pub fn payload(&self) -> Result<&'buf [u8], Error> {
        match self.contents() {
            PesContents::Payload(payload) => Ok(payload),
            PesContents::Parsed(parsed) => Ok(parsed?.payload()),
        }
    }
}

/// The stream id, the length that the header gives, and how many bytes follow the header, on one line.
impl fmt::Debug for PesHeader<'_> {
    fn fmt(&self, f: &mut fmt::Formatter<'_>) -> fmt::Result {
        let (id, length) = (self.stream_id(), self.pes_packet_length());
        write!(f, "PesHeader({id:?}, length {length}, {} bytes)", self.buf.len() - 6)
    }
}

/// What follows the six bytes of a PES header.
#[derive(Clone, Copy, Debug, PartialEq, Eq, Hash)]
pub enum PesContents<'buf> {
    /// More header fields and a payload, or why they are refused.
    Parsed(Result<PesParsedContents<'buf>, Error>),
    /// A payload alone.
    Payload(&'buf [u8]),
}

impl<'buf> PesContents<'buf> {
    /// The parsed contents.
    ///
    /// # Errors
    ///
    /// Those of [`PesParsedContents::from_bytes`]; [`Error::FieldNotPresent`] for a payload alone.
    #[inline]
    pub fn parsed(self) -> Result<PesParsedContents<'buf>, Error> {
        match self {
            PesContents::Parsed(parsed) => parsed,
            PesContents::Payload(_) => Err(Error::FieldNotPresent),
        }
    }
}

/// A mode in which a medium plays other than forward at its own speed.
#[derive(Clone, Copy, Debug, PartialEq, Eq, Hash)]
#[allow(missing_docs)]
pub enum DsmTrickMode {
    FastForward {
        field_id: u8,
        intra_slice_refresh: bool,
        frequency_truncation: FrequencyTruncationCoefficientSelection,
    },
    /// `rep_cntrl` is the number of the mode, as mpeg2ts-reader reports it. [`PesParsedContents::raw_trick_mode`] has all bits.
    SlowMotion {
        rep_cntrl: u8,
    },
    FreezeFrame {
        field_id: u8,
        reserved: u8,
    },
    FastReverse {
        field_id: u8,
        intra_slice_refresh: bool,
        frequency_truncation: FrequencyTruncationCoefficientSelection,
    },
    /// `rep_cntrl` is the number of the mode, as mpeg2ts-reader reports it.
    SlowReverse {
        rep_cntrl: u8,
    },
    /// `reserved` is the number of the mode, as mpeg2ts-reader reports it.
    Reserved {
        reserved: u8,
    },
}

impl DsmTrickMode {
    #[inline]
    fn of([kind, first, second, third]: [u64; 4]) -> Result<DsmTrickMode, Error> {
        let first = first as u8;
        let intra_slice_refresh = second != 0;
        let frequency_truncation = FrequencyTruncationCoefficientSelection::of(third)?;
        Ok(match kind {
            0 => DsmTrickMode::FastForward { field_id: first, intra_slice_refresh, frequency_truncation },
            1 => DsmTrickMode::SlowMotion { rep_cntrl: first },
            2 => DsmTrickMode::FreezeFrame { field_id: first, reserved: second as u8 },
            3 => DsmTrickMode::FastReverse { field_id: first, intra_slice_refresh, frequency_truncation },
            4 => DsmTrickMode::SlowReverse { rep_cntrl: first },
            5 => DsmTrickMode::Reserved { reserved: first },
            _ => return Err(unknown(kind)),
        })
    }
}

/// Which coefficients a picture of a trick mode has.
#[derive(Clone, Copy, Debug, PartialEq, Eq, Hash)]
pub enum FrequencyTruncationCoefficientSelection {
    /// Only the DC coefficient may be other than zero.
    DCNonZero,
    /// Only the first three coefficients may be other than zero.
    FirstThreeNonZero,
    /// Only the first six coefficients may be other than zero.
    FirstSixNonZero,
    /// All coefficients may be other than zero.
    AllMaybeNonZero,
}

impl FrequencyTruncationCoefficientSelection {
    #[inline]
    fn of(number: u64) -> Result<FrequencyTruncationCoefficientSelection, Error> {
        Ok(match number {
            0 => FrequencyTruncationCoefficientSelection::DCNonZero,
            1 => FrequencyTruncationCoefficientSelection::FirstThreeNonZero,
            2 => FrequencyTruncationCoefficientSelection::FirstSixNonZero,
            3 => FrequencyTruncationCoefficientSelection::AllMaybeNonZero,
            _ => return Err(unknown(number)),
        })
    }
}

/// The rate of an elementary stream, in units of 50 bytes a second.
///
/// ```
/// use clomaverift::{Error, EsRate};
///
/// assert_eq!(EsRate::new(75)?.bytes_per_second(), 3_750);
/// assert_eq!(EsRate::new(1 << 22), Err(Error::OutOfRange));
/// # Ok::<(), Error>(())
/// ```
#[derive(Clone, Copy, Debug, PartialEq, Eq, Hash, PartialOrd, Ord)]
pub struct EsRate(u32);

impl EsRate {
    /// The rate of this number.
    ///
    /// # Errors
    ///
    /// [`Error::OutOfRange`] for 2^22 or more.
    #[inline]
    pub fn new(es_rate: u32) -> Result<EsRate, Error> {
        ffi::es_rate_new(es_rate).map(EsRate::of)
    }

    #[inline]
    fn of([value]: [u64; 1]) -> EsRate {
        EsRate(value as u32)
    }

    /// The rate in bytes a second.
    #[must_use]
    #[inline]
    pub fn bytes_per_second(&self) -> u32 {
        let [rate] = sure(ffi::es_rate_bytes_per_second(self.0));
        rate as u32
    }
}

impl TryFrom<u32> for EsRate {
    type Error = Error;

    #[inline]
    fn try_from(es_rate: u32) -> Result<EsRate, Error> {
        EsRate::new(es_rate)
    }
}

/// In bytes a second, as `3750 B/s`.
impl fmt::Display for EsRate {
    fn fmt(&self, f: &mut fmt::Formatter<'_>) -> fmt::Result {
        write!(f, "{} B/s", self.bytes_per_second())
    }
}

/// In units of 50 bytes a second.
impl From<EsRate> for u32 {
    #[inline]
    fn from(rate: EsRate) -> u32 {
        rate.0
    }
}

/// The extension of a PES header. What it holds is not read.
#[derive(Clone, Copy, Debug, PartialEq, Eq, Hash)]
pub struct PesExtension<'buf> {
    buf: &'buf [u8],
}

impl<'buf> PesExtension<'buf> {
    /// Of parsed contents, and the extension's offset and length in them.
    #[inline]
    fn of(contents: &'buf [u8], lies: [u64; 2]) -> PesExtension<'buf> {
        PesExtension { buf: part(contents, lies) }
    }

    /// The extension's bytes, with the stuffing after it.
    #[must_use]
    #[inline]
    pub fn buffer(&self) -> &'buf [u8] {
        self.buf
    }
}

/// The fields after the six bytes of a PES header, and the payload after them.
///
/// Reading a field that is not flagged gives [`Error::FieldNotPresent`].
///
/// ```
/// use clomaverift::{Error, PesParsedContents, PtsDts, Timestamp};
///
/// let contents = PesParsedContents::from_bytes(&[0x80, 0x80, 5, 0x21, 0, 5, 0xBF, 0x21, 1, 2])?;
/// assert_eq!(contents.pts_dts()?.pts(), Some(Timestamp::from_u64(90_000)?));
/// assert_eq!(contents.escr(), Err(Error::FieldNotPresent));
/// assert_eq!(contents.payload(), [1, 2]);
///
/// assert_eq!(PesParsedContents::from_bytes(&[0xC0, 0, 0]).unwrap_err(), Error::BadCheckBits);
/// # Ok::<(), Error>(())
/// ```
#[derive(Clone, Copy, PartialEq, Eq, Hash)]
pub struct PesParsedContents<'buf> {
    buf: &'buf [u8],
}

impl<'buf> PesParsedContents<'buf> {
    /// The contents at the start of these bytes.
    ///
    /// # Errors
    ///
    /// [`Error::ShortContents`], [`Error::BadCheckBits`], [`Error::HeaderPastBuffer`] or [`Error::FieldsPastHeader`] if the bytes are no
    /// contents, in this order.
    #[inline]
    pub fn from_bytes(buf: &'buf [u8]) -> Result<PesParsedContents<'buf>, Error> {
        ffi::pes_contents_from_bytes(buf)?;
        Ok(PesParsedContents { buf })
    }

    /// 1 if the packet has priority over others, else 0.
    #[must_use]
    #[inline]
    pub fn pes_priority(&self) -> u8 {
        byte(sure(ffi::pes_contents_pes_priority(self.buf)))
    }

    /// The scrambling bits of the payload.
    #[must_use]
    #[inline]
    pub fn pes_scrambling_control(&self) -> u8 {
        byte(sure(ffi::pes_contents_pes_scrambling_control(self.buf)))
    }

    /// The flag byte.
    #[must_use]
    #[inline]
    pub fn flags(&self) -> u8 {
        byte(sure(ffi::pes_contents_flags(self.buf)))
    }

    /// The length of the fields and of the stuffing after them.
    #[must_use]
    #[inline]
    pub fn pes_header_data_len(&self) -> u8 {
        byte(sure(ffi::pes_contents_pes_header_data_len(self.buf)))
    }

    /// Whether an access unit begins with the payload.
    #[must_use]
    #[inline]
    pub fn data_alignment_indicator(&self) -> DataAlignment {
        DataAlignment::of(sure(ffi::pes_contents_data_alignment_indicator(self.buf)))
    }

    /// The copyright bit, as mpeg2ts-reader reads it: 1 is undefined.
    #[must_use]
    #[inline]
    pub fn copyright(&self) -> Copyright {
        Copyright::of(sure(ffi::pes_contents_copyright(self.buf)))
    }

    /// Whether the payload is an original or a copy.
    #[must_use]
    #[inline]
    pub fn original_or_copy(&self) -> OriginalOrCopy {
        OriginalOrCopy::of(sure(ffi::pes_contents_original_or_copy(self.buf)))
    }

    /// The timestamps.
    ///
    /// # Errors
    ///
    /// [`Error::FieldNotPresent`] if none is flagged, [`Error::PtsDtsFlagsInvalid`] if a DTS alone is.
    #[inline]
    pub fn pts_dts(&self) -> Result<PtsDts, Error> {
        ffi::pes_contents_pts_dts(self.buf).and_then(PtsDts::of)
    }

    /// The elementary stream clock reference.
    ///
    /// # Errors
    ///
    /// [`Error::FieldNotPresent`] if it is not flagged.
    #[inline]
    pub fn escr(&self) -> Result<ClockRef, Error> {
        ffi::pes_contents_escr(self.buf).map(ClockRef::of)
    }

    /// The elementary stream rate.
    ///
    /// # Errors
    ///
    /// [`Error::FieldNotPresent`] if it is not flagged.
    #[inline]
    pub fn es_rate(&self) -> Result<EsRate, Error> {
        ffi::pes_contents_es_rate(self.buf).map(EsRate::of)
    }

    /// The trick mode.
    ///
    /// # Errors
    ///
    /// [`Error::FieldNotPresent`] if it is not flagged.
    #[inline]
    pub fn dsm_trick_mode(&self) -> Result<DsmTrickMode, Error> {
        ffi::pes_contents_dsm_trick_mode(self.buf).and_then(DsmTrickMode::of)
    }

    /// The trick mode's byte.
    ///
    /// # Errors
    ///
    /// [`Error::FieldNotPresent`] if it is not flagged.
    #[inline]
    pub fn raw_trick_mode(&self) -> Result<u8, Error> {
        ffi::pes_contents_raw_trick_mode(self.buf).map(byte)
    }

    /// The additional copy info, of 7 bits.
    ///
    /// # Errors
    ///
    /// [`Error::FieldNotPresent`] if it is not flagged, [`Error::MarkerBitNotSet`] with bit 0 if the bit before it is 0.
    #[inline]
    pub fn additional_copy_info(&self) -> Result<u8, Error> {
        ffi::pes_contents_additional_copy_info(self.buf).map(byte)
    }

    /// The checksum of the previous PES packet. It is not checked.
    ///
    /// # Errors
    ///
    /// [`Error::FieldNotPresent`] if it is not flagged.
    #[inline]
    pub fn previous_pes_packet_crc(&self) -> Result<u16, Error> {
        ffi::pes_contents_previous_pes_packet_crc(self.buf).map(PesParsedContents::crc)
    }

    #[inline]
    fn crc([value]: [u64; 1]) -> u16 {
        value as u16
    }

    /// The extension.
    ///
    /// # Errors
    ///
    /// [`Error::FieldNotPresent`] if it is not flagged.
    #[inline]
    pub fn pes_extension(&self) -> Result<PesExtension<'buf>, Error> {
        ffi::pes_contents_pes_extension(self.buf).map(|lies| PesExtension::of(self.buf, lies))
    }

    /// The part of the payload that is in these bytes. It may be empty.
    #[must_use]
    #[inline]
    pub fn payload(&self) -> &'buf [u8] {
        part(self.buf, sure(ffi::pes_contents_payload(self.buf)))
    }

    /// All that the methods above give, by one call of the library.
    ///
    /// ```
    /// use clomaverift::{DataAlignment, Error, PesParsedContents, PtsDts, Timestamp};
    ///
    /// let fields = PesParsedContents::from_bytes(&[0x84, 0x80, 5, 0x21, 0, 5, 0xBF, 0x21, 1, 2])?.fields();
    /// assert_eq!(fields.data_alignment_indicator, DataAlignment::Aligned);
    /// assert_eq!(fields.pts_dts, Ok(PtsDts::PtsOnly(Timestamp::from_u64(90_000))));
    /// assert_eq!(fields.escr, Err(Error::FieldNotPresent));
    /// assert_eq!(fields.payload, [1, 2]);
    /// # Ok::<(), Error>(())
    /// ```
    #[must_use]
    #[inline]
    pub fn fields(&self) -> PesFields<'buf> {
        let mut row = sure(ffi::pes_contents_fields(self.buf));
        PesFields {
            pes_scrambling_control: byte(row.numbers()),
            pes_priority: byte(row.numbers()),
            data_alignment_indicator: DataAlignment::of(row.numbers()),
            copyright: Copyright::of(row.numbers()),
            original_or_copy: OriginalOrCopy::of(row.numbers()),
            flags: byte(row.numbers()),
            pes_header_data_len: byte(row.numbers()),
            pts_dts: row.answer().and_then(PtsDts::of),
            escr: row.answer().map(ClockRef::of),
            es_rate: row.answer().map(EsRate::of),
            dsm_trick_mode: row.answer().and_then(DsmTrickMode::of),
            raw_trick_mode: row.answer().map(byte),
            additional_copy_info: row.answer().map(byte),
            previous_pes_packet_crc: row.answer().map(PesParsedContents::crc),
            pes_extension: row.answer().map(|lies| PesExtension::of(self.buf, lies)),
            payload: part(self.buf, row.numbers()),
        }
    }
}

/// Every field, or why it is not given, and the length of the payload.
impl fmt::Debug for PesParsedContents<'_> {
    fn fmt(&self, f: &mut fmt::Formatter<'_>) -> fmt::Result {
        let fields = self.fields();
        f.debug_struct("PesParsedContents")
            .field("pes_scrambling_control", &fields.pes_scrambling_control)
            .field("pes_priority", &fields.pes_priority)
            .field("data_alignment_indicator", &fields.data_alignment_indicator)
            .field("copyright", &fields.copyright)
            .field("original_or_copy", &fields.original_or_copy)
            .field("pts_dts", &fields.pts_dts)
            .field("escr", &fields.escr)
            .field("es_rate", &fields.es_rate)
            .field("dsm_trick_mode", &fields.dsm_trick_mode)
            .field("additional_copy_info", &fields.additional_copy_info)
            .field("previous_pes_packet_crc", &fields.previous_pes_packet_crc)
            .field("pes_extension", &fields.pes_extension)
            .field("payload", &fields.payload.len())
            .finish()
    }
}

/// All that is read of parsed contents: each field is what the method of [`PesParsedContents`] with its name gives.
#[derive(Clone, Copy, Debug, PartialEq, Eq, Hash)]
#[non_exhaustive]
pub struct PesFields<'buf> {
    /// The scrambling bits of the payload.
    pub pes_scrambling_control: u8,
    /// 1 if the packet has priority over others, else 0.
    pub pes_priority: u8,
    /// Whether an access unit begins with the payload.
    pub data_alignment_indicator: DataAlignment,
    /// The copyright bit, as mpeg2ts-reader reads it: 1 is undefined.
    pub copyright: Copyright,
    /// Whether the payload is an original or a copy.
    pub original_or_copy: OriginalOrCopy,
    /// The flag byte.
    pub flags: u8,
    /// The length of the fields and of the stuffing after them.
    pub pes_header_data_len: u8,
    /// The timestamps.
    pub pts_dts: Result<PtsDts, Error>,
    /// The elementary stream clock reference.
    pub escr: Result<ClockRef, Error>,
    /// The elementary stream rate.
    pub es_rate: Result<EsRate, Error>,
    /// The trick mode.
    pub dsm_trick_mode: Result<DsmTrickMode, Error>,
    /// The trick mode's byte.
    pub raw_trick_mode: Result<u8, Error>,
    /// The additional copy info, of 7 bits.
    pub additional_copy_info: Result<u8, Error>,
    /// The checksum of the previous PES packet.
    pub previous_pes_packet_crc: Result<u16, Error>,
    /// The extension.
    pub pes_extension: Result<PesExtension<'buf>, Error>,
    /// The part of the payload that is in the contents' bytes. It may be empty.
    pub payload: &'buf [u8],
}

/// A timestamp of 33 bits, at 90 kHz. It is ordered by its number, without regard to a wrap; [`Timestamp::since`] takes a wrap into account.
///
/// ```
/// use clomaverift::{Error, Timestamp};
///
/// let time = Timestamp::from_pts_bytes(&[0x21, 0, 5, 0xBF, 0x21])?;
/// assert_eq!((time.value(), time.as_seconds()), (90_000, 1.0));
/// assert_eq!(Timestamp::from_pts_bytes(&[0x21, 0, 5]), Err(Error::WrongLength));
/// # Ok::<(), Error>(())
/// ```
#[derive(Clone, Copy, Debug, PartialEq, Eq, Hash, PartialOrd, Ord)]
pub struct Timestamp {
    val: u64,
}

impl Timestamp {
    /// The largest timestamp that can be read.
    pub const MAX: Timestamp = Timestamp { val: (1 << 33) - 1 };

    /// How many ticks a second has.
    pub const TIMEBASE: u64 = 90_000;

    /// How many ticks there are before it wraps: 2^33.
    const TICKS: u64 = 1 << 33;

    /// A PTS that stands alone: its prefix bits are 0010. The first 5 bytes count.
    ///
    /// # Errors
    ///
    /// [`Error::WrongLength`] for fewer than 5 bytes, [`Error::IncorrectPrefixBits`] for other prefix bits,
    /// [`Error::MarkerBitNotSet`] if a marker bit is 0.
    #[inline]
    pub fn from_pts_bytes(buf: &[u8]) -> Result<Timestamp, Error> {
        ffi::timestamp_from_pts_bytes(buf).map(Timestamp::of)
    }

    /// A DTS: its prefix bits are 0001. The first 5 bytes count.
    ///
    /// # Errors
    ///
    /// [`Error::WrongLength`] for fewer than 5 bytes, [`Error::IncorrectPrefixBits`] for other prefix bits,
    /// [`Error::MarkerBitNotSet`] if a marker bit is 0.
    #[inline]
    pub fn from_dts_bytes(buf: &[u8]) -> Result<Timestamp, Error> {
        ffi::timestamp_from_dts_bytes(buf).map(Timestamp::of)
    }

    /// A timestamp with any prefix bits. The first 5 bytes count.
    ///
    /// # Errors
    ///
    /// [`Error::WrongLength`] for fewer than 5 bytes, [`Error::MarkerBitNotSet`] if a marker bit is 0.
    #[inline]
    pub fn from_bytes(buf: &[u8]) -> Result<Timestamp, Error> {
        ffi::timestamp_from_bytes(buf).map(Timestamp::of)
    }

    /// The timestamp of this number. As in mpeg2ts-reader, a number of 34 bits is taken.
    ///
    /// # Errors
    ///
    /// [`Error::OutOfRange`] for 2^34 or more.
    #[inline]
    pub fn from_u64(val: u64) -> Result<Timestamp, Error> {
        ffi::timestamp_from_u64(val).map(Timestamp::of)
    }

    #[inline]
    pub(crate) fn of([value]: [u64; 1]) -> Timestamp {
        Timestamp { val: value }
    }

    /// Its number.
    #[must_use]
    #[inline]
    pub fn value(self) -> u64 {
        self.val
    }

    /// The ticks from `earlier` to `self`, modulo 2^33, so that a wrap between the two does not matter.
    ///
    /// ```
    /// use clomaverift::Timestamp;
    ///
    /// let soon = Timestamp::from_u64(3_599)?;
    /// assert_eq!(soon.since(Timestamp::MAX), 3_600);
    /// assert_eq!(Timestamp::MAX.since(soon), (1 << 33) - 3_600);
    /// # Ok::<(), clomaverift::Error>(())
    /// ```
    #[must_use]
    #[inline]
    pub fn since(self, earlier: Timestamp) -> u64 {
        self.val.wrapping_sub(earlier.val) % Timestamp::TICKS
    }

    /// The seconds since the clock was 0.
    #[must_use]
    #[inline]
    pub fn as_seconds(self) -> f64 {
        self.val as f64 / Timestamp::TIMEBASE as f64
    }

    /// The time since the clock was 0, rounded down to nanoseconds.
    ///
    /// ```
    /// use clomaverift::Timestamp;
    ///
    /// assert_eq!(Timestamp::from_u64(135_001)?.as_duration().as_nanos(), 1_500_011_111);
    /// # Ok::<(), clomaverift::Error>(())
    /// ```
    #[must_use]
    #[inline]
    pub fn as_duration(self) -> Duration {
        duration(self.val, Timestamp::TIMEBASE)
    }

    /// Whether the clock probably wrapped between `since` and `self`: `self` is at least 2^32 below `since`.
    ///
    /// ```
    /// use clomaverift::Timestamp;
    ///
    /// let now = Timestamp::from_u64(0)?;
    /// assert!(now.likely_wrapped_since(Timestamp::from_u64(4_294_967_296)?));
    /// assert!(!now.likely_wrapped_since(Timestamp::from_u64(4_294_967_295)?));
    /// # Ok::<(), clomaverift::Error>(())
    /// ```
    #[must_use]
    #[inline]
    pub fn likely_wrapped_since(self, since: Timestamp) -> bool {
        flag(sure(ffi::timestamp_likely_wrapped_since(self.val, since.val)))
    }
}

impl TryFrom<u64> for Timestamp {
    type Error = Error;

    #[inline]
    fn try_from(val: u64) -> Result<Timestamp, Error> {
        Timestamp::from_u64(val)
    }
}

impl From<Timestamp> for u64 {
    #[inline]
    fn from(time: Timestamp) -> u64 {
        time.val
    }
}

/// Its number.
impl fmt::Display for Timestamp {
    fn fmt(&self, f: &mut fmt::Formatter<'_>) -> fmt::Result {
        self.val.fmt(f)
    }
}

/// The timestamps of a PES header, each with a refusal of its own.
#[derive(Clone, Copy, Debug, PartialEq, Eq, Hash)]
pub enum PtsDts {
    /// A PTS alone.
    PtsOnly(Result<Timestamp, Error>),
    /// A PTS and a DTS.
    Both {
        /// The presentation timestamp.
        pts: Result<Timestamp, Error>,
        /// The decoding timestamp.
        dts: Result<Timestamp, Error>,
    },
}

impl PtsDts {
    #[inline]
    fn of([kind, pts_number, pts, dts_number, dts]: [u64; 5]) -> Result<PtsDts, Error> {
        let pts = PtsDts::inner(pts_number, pts);
        match kind {
            1 => Ok(PtsDts::PtsOnly(pts)),
            2 => Ok(PtsDts::Both { pts, dts: PtsDts::inner(dts_number, dts) }),
            _ => Err(unknown(kind)),
        }
    }

    /// A timestamp within an answer: its number, and its value or bit.
    #[inline]
    fn inner(number: u64, value: u64) -> Result<Timestamp, Error> {
        match number {
            0 => Ok(Timestamp::of([value])),
            12 => Err(Error::MarkerBitNotSet { bit_number: value as u8 }),
            _ => Err(unknown(number)),
        }
    }

    /// The PTS, if it is not refused.
    #[must_use]
    #[inline]
    pub fn pts(&self) -> Option<Timestamp> {
        match self {
            PtsDts::PtsOnly(pts) | PtsDts::Both { pts, .. } => pts.ok(),
        }
    }

    /// The DTS, if there is one and it is not refused.
    #[must_use]
    #[inline]
    pub fn dts(&self) -> Option<Timestamp> {
        match self {
            PtsDts::PtsOnly(_) => None,
            PtsDts::Both { dts, .. } => dts.ok(),
        }
    }
}

/// Whether an access unit begins with the payload of a PES packet.
#[derive(Clone, Copy, Debug, PartialEq, Eq, Hash)]
pub enum DataAlignment {
    /// One does.
    Aligned,
    /// Nothing is said of it.
    NotAligned,
}

impl DataAlignment {
    #[inline]
    fn of([value]: [u64; 1]) -> DataAlignment {
        match value {
            0 => DataAlignment::NotAligned,
            _ => DataAlignment::Aligned,
        }
    }
}

/// The copyright status of a PES packet.
#[derive(Clone, Copy, Debug, PartialEq, Eq, Hash)]
pub enum Copyright {
    /// The bit is 0.
    Protected,
    /// The bit is 1. The standard gives the two bits the other meanings; this is what mpeg2ts-reader gives.
    Undefined,
}

impl Copyright {
    #[inline]
    fn of([value]: [u64; 1]) -> Copyright {
        match value {
            0 => Copyright::Protected,
            _ => Copyright::Undefined,
        }
    }
}

/// The name that [`Copyright`] has in the proved library.
pub type CopyrightStatus = Copyright;

/// Whether the payload of a PES packet is an original.
#[derive(Clone, Copy, Debug, PartialEq, Eq, Hash)]
pub enum OriginalOrCopy {
    /// It is an original.
    Original,
    /// It is a copy.
    Copy,
}

impl OriginalOrCopy {
    #[inline]
    fn of([value]: [u64; 1]) -> OriginalOrCopy {
        match value {
            0 => OriginalOrCopy::Copy,
            _ => OriginalOrCopy::Original,
        }
    }
}

#[cfg(test)]
mod tests {
    use super::*;

    #[test]
    fn constants_are_the_librarys() {
        assert_eq!(ffi::constants::timestamp(), Ok([Timestamp::MAX.value(), Timestamp::TIMEBASE]));
    }

    #[test]
    fn every_stream_id_has_its_number_and_text() {
        for id in 0..=255 {
            let bytes = [0, 0, 1, id, 0, 0];
            let stream = PesHeader::from_bytes(&bytes).unwrap().stream_id();
            assert_eq!(stream.number(), id);
            let text = format!("{stream:?}");
            match id {
                0..=0xBB => assert_eq!(text, format!("Unknown({id})")),
                0xC0..=0xDF => assert_eq!(text, format!("Audio({})", id - 0xC0)),
                0xE0..=0xEF => assert_eq!(text, format!("Video({})", id - 0xE0)),
                _ => assert!(NAMES.iter().any(|(named, name)| named.number() == id && *name == text)),
            }
        }
    }

    #[test]
    fn bare_ids_have_a_payload_alone() {
        let bare = |id| {
            let bytes = [0, 0, 1, id, 0, 0];
            matches!(PesHeader::from_bytes(&bytes).unwrap().contents(), PesContents::Payload(_))
        };
        let found: Vec<u8> = (0..=255).filter(|id| bare(*id)).collect();
        assert_eq!(found, [0xBC, 0xBE, 0xBF, 0xF0, 0xF1, 0xF2, 0xF8, 0xFF]);
    }

    #[test]
    fn contents_with_every_field() {
        let mut bytes = vec![0x8F, 0xFF, 25];
        bytes.extend([0x31, 0, 5, 0xBF, 0x21, 0x11, 0, 5, 0xBF, 0x20]); // PTS 90,000; a DTS without its last marker
        bytes.extend([0xC4, 0, 4, 0, 0x0C, 5]); // ESCR: base 1, extension 2
        bytes.extend([0x80, 0, 0x97]); // ES rate 75
        bytes.push(0x2A); // slow motion
        bytes.push(0x85); // copy info 5
        bytes.extend([0x12, 0x34]); // CRC
        bytes.extend([0xAA, 0xBB]); // extension
        bytes.extend([1, 2, 3]);
        let contents = PesParsedContents::from_bytes(&bytes).unwrap();
        assert_eq!((contents.pes_priority(), contents.pes_scrambling_control()), (1, 0));
        assert_eq!(contents.data_alignment_indicator(), DataAlignment::Aligned);
        assert_eq!(contents.copyright(), Copyright::Undefined);
        assert_eq!(contents.original_or_copy(), OriginalOrCopy::Original);
        assert_eq!((contents.flags(), contents.pes_header_data_len()), (0xFF, 25));
        let times = contents.pts_dts().unwrap();
        assert_eq!(times.pts(), Timestamp::from_u64(90_000).ok());
        assert!(matches!(times, PtsDts::Both { dts: Err(Error::MarkerBitNotSet { bit_number: 39 }), .. }));
        assert_eq!(contents.escr(), ClockRef::from_parts(1, 2));
        assert_eq!(contents.es_rate().map(u32::from), Ok(75));
        assert_eq!(contents.dsm_trick_mode(), Ok(DsmTrickMode::SlowMotion { rep_cntrl: 1 }));
        assert_eq!(contents.raw_trick_mode(), Ok(0x2A));
        assert_eq!(contents.additional_copy_info(), Ok(5));
        assert_eq!(contents.previous_pes_packet_crc(), Ok(0x1234));
        assert_eq!(contents.pes_extension().unwrap().buffer(), [0xAA, 0xBB]);
        assert_eq!(contents.payload(), [1, 2, 3]);
    }

    #[test]
    fn trick_modes() {
        let mode = |byte| PesParsedContents::from_bytes(&[0x80, 8, 1, byte]).unwrap().dsm_trick_mode().unwrap();
        let frequency_truncation = FrequencyTruncationCoefficientSelection::FirstSixNonZero;
        let fast = DsmTrickMode::FastForward { field_id: 1, intra_slice_refresh: true, frequency_truncation };
        assert_eq!(mode(0b0000_1110), fast);
        let back = DsmTrickMode::FastReverse { field_id: 2, intra_slice_refresh: false, frequency_truncation };
        assert_eq!(mode(0b0111_0010), back);
        assert_eq!(mode(0b0101_1101), DsmTrickMode::FreezeFrame { field_id: 3, reserved: 5 });
        assert_eq!(mode(0b1001_1111), DsmTrickMode::SlowReverse { rep_cntrl: 4 });
        assert_eq!(mode(0b1110_0000), DsmTrickMode::Reserved { reserved: 7 });
    }

    #[test]
    fn times_wrap() {
        let time = |value| Timestamp::from_u64(value).unwrap();
        assert_eq!((time(5).since(time(3)), time(3).since(time(5))), (2, (1 << 33) - 2));
        assert_eq!((time(0).since(Timestamp::MAX), time((1 << 34) - 1).since(time(0))), (1, (1 << 33) - 1));
        assert_eq!((time(45_000).as_seconds(), time(45_000).as_duration().as_millis()), (0.5, 500));
        assert_eq!(
            (u64::from(time(7)), Timestamp::try_from(7), time(7).to_string()),
            (7, Ok(time(7)), "7".to_string())
        );
    }

    #[test]
    fn texts_are_one_line() {
        let header = PesHeader::from_bytes(&[0, 0, 1, 0xE0, 0, 0, 0x80, 0, 0, 7]).unwrap();
        assert_eq!(format!("{header:#?}"), "PesHeader(Video(0), length unbounded, 4 bytes)");
        assert_eq!((header.stream_id().to_string(), u8::from(header.stream_id())), ("0xe0".to_string(), 0xE0));
        let contents = header.contents().parsed().unwrap();
        assert!(format!("{contents:?}").ends_with("pes_extension: Err(FieldNotPresent), payload: 1 }"));
        let bare = PesHeader::from_bytes(&[0, 0, 1, 0xBF, 0, 9]).unwrap();
        assert_eq!(bare.contents().parsed(), Err(Error::FieldNotPresent));
        assert_eq!(format!("{bare:?}"), "PesHeader(PRIVATE_STREAM2, length 9, 0 bytes)");
        assert!(StreamId::PROGRAM_STREAM_MAP < header.stream_id() && header.stream_id() < StreamId::ECM_STREAM);
        assert_eq!(EsRate::try_from(75).unwrap().to_string(), "3750 B/s");
    }

    #[test]
    fn unknown_numbers_are_errors() {
        assert_eq!(DsmTrickMode::of([6, 0, 0, 0]), Err(Error::Unknown(6)));
        assert_eq!(DsmTrickMode::of([0, 0, 0, 4]), Err(Error::Unknown(4)));
        assert_eq!(PtsDts::of([3, 0, 0, 0, 0]), Err(Error::Unknown(3)));
        assert_eq!(PtsDts::of([1, 21, 0, 0, 0]), Ok(PtsDts::PtsOnly(Err(Error::Unknown(21)))));
    }

    #[test]
    fn worked_examples() {
        let refused = |bytes: &[u8]| PesParsedContents::from_bytes(bytes).unwrap_err().number();
        assert_eq!(refused(&[0x80, 0xC0, 9, 0, 0, 0, 0, 0, 0, 0, 0, 0]), 8);
        assert_eq!(refused(&[0x80, 0x80, 5, 0, 0, 0, 0]), 7);
        assert_eq!(refused(&[0x80, 0]), 5);
        let flags = PesParsedContents::from_bytes(&[0x80, 0x40, 0]).unwrap();
        assert_eq!(flags.pts_dts(), Err(Error::PtsDtsFlagsInvalid));
        assert_eq!(Timestamp::from_pts_bytes(&[0x2F, 0xFF, 0xFF, 0xFF, 0xFF]), Ok(Timestamp::MAX));
        let prefix = Error::IncorrectPrefixBits { expected: 2, actual: 0 };
        assert_eq!(Timestamp::from_pts_bytes(&[0; 5]), Err(prefix));
        assert_eq!(Timestamp::from_u64(1 << 34), Err(Error::OutOfRange));
        let bare = PesHeader::from_bytes(&[0, 0, 1, 0xBC, 0, 0]).unwrap();
        assert_eq!(bare.payload(), Ok(&[][..]));
    }
}
