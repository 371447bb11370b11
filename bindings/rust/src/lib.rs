//! Safe calls of the proved BC4 block codec: sixteen samples in eight bytes, and DDS files of such blocks. [`bc5`] has the calls on two channels,
//! [`station`] those of the receiving side.
//!
//! The codec is the static library that `tools/prove staticlib exports` writes, for x86-64 Linux. A build has to be told where it stands, and nothing else:
//!
//! ```text
//! RUSTFLAGS="-L native=REPOSITORY/target/staticlib" cargo build
//! ```
//!
//! Every call answers its value or a [`Refusal`]: of all that apply, the first in the order in which its text lists them. No call allocates or has a state.
//! Calls take the floating-point environment that a program starts with, which is also what Rust asks of every thread.
//!
//! ```
//! let samples = [1.0; 16];
//! let block = bc4::encode_block(&samples, bc4::Options::default())?;
//! assert_eq!(block, [255, 0, 0, 0, 0, 0, 0, 0]);
//! assert_eq!(bc4::decode_block(&block, false)?, samples);
//! # Ok::<(), bc4::Refusal>(())
//! ```
//!
//! A DDS file of one tile is written into bytes of the caller, and read where it stands:
//!
//! ```
//! let (mut tile, mut file) = ([0; 16], [0; 144]);
//! bc4::encode_tile(&[1.0; 32], 8, 4, bc4::Options::default(), &mut tile)?;
//! bc4::write_dds(&tile, 8, 4, false, &mut file)?;
//! let picture = bc4::read_dds(&file)?;
//! assert_eq!((picture.width, picture.height, picture.tile), (8, 4, &tile[..]));
//! # Ok::<(), bc4::Refusal>(())
//! ```
#![no_std]
#![warn(missing_docs)]

use core::fmt;

pub mod bc5;
pub mod station;

#[link(name = "exports", kind = "static")]
extern "C" {
    fn bc4_version() -> u32;
    fn bc4_encode_block(
        samples: *const f32,
        sample_count: usize,
        options: u32,
        block: *mut u8,
        detail: *mut Detail,
    ) -> u32;
    fn bc4_decode_block(
        encoded: *const u8,
        encoded_length: usize,
        snorm: bool,
        samples: *mut f32,
        detail: *mut Detail,
    ) -> u32;
    fn bc4_block_error(
        samples: *const f32,
        sample_count: usize,
        encoded: *const u8,
        encoded_length: usize,
        snorm: bool,
        error: *mut f32,
        detail: *mut Detail,
    ) -> u32;
    fn bc4_resend(
        samples: *const f32,
        sample_count: usize,
        held: *const u8,
        held_length: usize,
        options: u32,
        block: *mut u8,
        fresh: *mut u8,
        detail: *mut Detail,
    ) -> u32;
    fn bc4_encode_tile(
        samples: *const f32,
        sample_count: usize,
        width: usize,
        height: usize,
        options: u32,
        out: *mut u8,
        out_length: usize,
        written: *mut usize,
        detail: *mut Detail,
    ) -> u32;
    fn bc4_block_view(
        tile: *const u8,
        tile_length: usize,
        width: usize,
        height: usize,
        column: usize,
        row: usize,
        offset: *mut usize,
        detail: *mut Detail,
    ) -> u32;
    fn bc4_write_dds(
        tile: *const u8,
        tile_length: usize,
        width: usize,
        height: usize,
        snorm: bool,
        out: *mut u8,
        out_length: usize,
        written: *mut usize,
        detail: *mut Detail,
    ) -> u32;
    fn bc4_read_dds(
        file: *const u8,
        file_length: usize,
        width: *mut usize,
        height: *mut usize,
        snorm: *mut u8,
        offset: *mut usize,
        detail: *mut Detail,
    ) -> u32;
}

/// What a refusal says besides its number, as the library writes it: `what`, a side, a field of a DDS file or a channel, and an index, in a tile with its row
/// and column.
#[repr(C)]
#[derive(Clone, Copy, Default)]
struct Detail {
    what: usize,
    index: usize,
    row: usize,
    column: usize,
}

/// How the ends of a palette are rounded to bytes, by image-dds' names.
#[derive(Clone, Copy, Debug, Default, PartialEq, Eq)]
#[allow(missing_docs)]
pub enum Quantization {
    #[default]
    Round,
    MediumQuality,
    HighQuality,
}

/// The options of the encoder, by image-dds' names. The default has no flag, no refinement, and [`Quantization::Round`].
#[derive(Clone, Copy, Debug, Default, PartialEq, Eq)]
#[allow(missing_docs)]
pub struct Options {
    pub dither: bool,
    pub snorm: bool,
    pub brute_force: bool,
    pub use_inter4: bool,
    pub use_inter4_heuristic: bool,
    pub quantization: Quantization,
    pub fast_iter: bool,
    pub max_refine_iter: u8,
    pub size_variations: bool,
    pub iter_initial_inter4: bool,
}

impl Options {
    fn word(self) -> u32 {
        let flags = [
            self.dither,
            self.snorm,
            self.brute_force,
            self.use_inter4,
            self.use_inter4_heuristic,
            self.fast_iter,
            self.size_variations,
            self.iter_initial_inter4,
        ];
        let flags = flags
            .iter()
            .rev()
            .fold(0, |bits, &set| bits * 2 + u8::from(set));
        u32::from_le_bytes([flags, self.max_refine_iter, self.quantization as u8, 0])
    }
}

/// The side of a tile that is wrong: the width where a refusal applies to both.
#[derive(Clone, Copy, Debug, PartialEq, Eq)]
#[allow(missing_docs)]
pub enum Side {
    Width,
    Height,
}

impl fmt::Display for Side {
    fn fmt(&self, f: &mut fmt::Formatter<'_>) -> fmt::Result {
        f.write_str(match self {
            Side::Width => "width",
            Side::Height => "height",
        })
    }
}

/// The channel that is wrong, of a call of [`bc5`]: the first one where a refusal applies to both.
#[derive(Clone, Copy, Debug, PartialEq, Eq)]
#[allow(missing_docs)]
pub enum Channel {
    First,
    Second,
}

impl Channel {
    /// By the number that the library says in [`Detail::what`]; none for a call on one channel.
    fn said(what: usize) -> Option<Channel> {
        match what {
            13 => Some(Channel::First),
            14 => Some(Channel::Second),
            _ => None,
        }
    }
}

impl fmt::Display for Channel {
    fn fmt(&self, f: &mut fmt::Formatter<'_>) -> fmt::Result {
        f.write_str(match self {
            Channel::First => "the first channel",
            Channel::Second => "the second channel",
        })
    }
}

/// What is wrong in the headers of a DDS file, but for a [`Side`]. A number stands there in four bytes, the lowest first.
#[derive(Clone, Copy, Debug, PartialEq, Eq)]
#[non_exhaustive]
pub enum Field {
    /// The first 128 bytes, which are not all there.
    Header,
    /// The 20 bytes from 128 on that DX10 asks for, which are not all there.
    Extension,
    /// At byte 0: not `DDS` and a blank.
    Magic,
    /// At byte 4: not 124.
    HeaderSize,
    /// At byte 84: none of `BC4U`, `BC4S`, `DX10`.
    FourCharacters,
    /// At byte 128, with DX10: neither 80 nor 81.
    ExtensionFormat,
    /// At byte 28: over 1.
    MipCount,
    /// At byte 24: over 1.
    Depth,
    /// At byte 112: one of the bits 0xFC00, a face of a cube each.
    CubeFaces,
    /// At byte 140, with DX10: not 1.
    ArraySize,
}

impl Field {
    /// By the number that the library says in [`Detail::what`].
    fn said(what: usize) -> Field {
        match what {
            3 => Field::Header,
            4 => Field::Extension,
            5 => Field::Magic,
            6 => Field::HeaderSize,
            7 => Field::FourCharacters,
            8 => Field::ExtensionFormat,
            9 => Field::MipCount,
            10 => Field::Depth,
            11 => Field::CubeFaces,
            12 => Field::ArraySize,
            _ => unreachable!("the library has no other field"),
        }
    }
}

/// What is wrong with it.
///
/// ```
/// assert_eq!(bc4::Field::MipCount.to_string(), "the mip count (at byte 28) is over 1");
/// ```
impl fmt::Display for Field {
    fn fmt(&self, f: &mut fmt::Formatter<'_>) -> fmt::Result {
        f.write_str(match self {
            Field::Header => "the file is shorter than a DDS header, 128 bytes",
            Field::Extension => "the file is shorter than a DDS header with DX10, 148 bytes",
            Field::Magic => "the file does not begin with DDS and a blank",
            Field::HeaderSize => "the header size (at byte 4) is not 124",
            Field::FourCharacters => {
                "the four characters (at byte 84) are none of BC4U, BC4S, DX10"
            }
            Field::ExtensionFormat => "the format after DX10 (at byte 128) is neither 80 nor 81",
            Field::MipCount => "the mip count (at byte 28) is over 1",
            Field::Depth => "the depth (at byte 24) is over 1",
            Field::CubeFaces => "the flags at byte 112 name a face of a cube (bits 0xFC00)",
            Field::ArraySize => "the array size (at byte 140) is not 1",
        })
    }
}

/// Why a call gives no value.
#[derive(Clone, Copy, Debug, PartialEq, Eq)]
#[non_exhaustive]
pub enum Refusal {
    /// 1: a side of the tile is 0.
    SideIsZero(Side),
    /// 2: the sample count is not 16, or not width * height.
    SampleCount,
    /// 2: the same of one of two channels.
    ChannelSampleCount(Channel),
    /// 3: the encoded length is not 8, or not width * height / 2; for two channels, twice that. Or a record of editions has not one entry for each block,
    /// width * height / 16.
    EncodedLength,
    /// 4: the output is shorter than width * height / 2, for two channels than twice that, for a file than 128 + width * height / 2.
    OutputLength,
    /// 5: a resend with dither.
    DitheredResend,
    /// 6: the column or the row of blocks is none of the tile's.
    NoSuchBlock,
    /// 7: a sample of a block is NaN; the lowest index.
    SampleIsNan(usize),
    /// 7: a sample of a tile is NaN; the lowest index, row * width + column.
    #[allow(missing_docs)]
    TileSampleIsNan {
        index: usize,
        row: usize,
        column: usize,
    },
    /// 7: a sample of one of two channels of a block is NaN; the lowest index in that channel.
    ChannelSampleIsNan(Channel, usize),
    /// 7: a sample of one of two channels of a tile is NaN; the lowest index in that channel, row * width + column.
    #[allow(missing_docs)]
    ChannelTileSampleIsNan {
        channel: Channel,
        index: usize,
        row: usize,
        column: usize,
    },
    /// 8: the options word is malformed. [`Options`] never make such a word.
    WordMalformed,
    /// 9: a side of the tile is over 1,024; its length.
    SideTooLarge(Side, usize),
    /// 10: a side of the tile is no multiple of 4; its length.
    SideNotMultipleOf4(Side, usize),
    /// 11 to 14: a DDS file is none of one BC4 tile; the field that says so.
    DdsHeader(Field),
    /// 15: the bytes after the headers of a DDS file are not exactly width * height / 2.
    DdsBody,
    /// 16: the place holds a message's edition with other bytes.
    EditionReused,
    /// 17: a message's edition is exactly 32,768 from the one that its place holds: as far ahead as behind.
    EditionOpposite,
}

impl Refusal {
    /// The number that C sees.
    ///
    /// ```
    /// use bc4::{Field, Refusal, Side};
    /// assert_eq!(Refusal::SampleIsNan(3).number(), 7);
    /// assert_eq!(Refusal::SideTooLarge(Side::Width, 2000).number(), 9);
    /// assert_eq!(Refusal::DdsHeader(Field::Depth).number(), 14);
    /// ```
    pub fn number(self) -> u32 {
        match self {
            Refusal::SideIsZero(_) => 1,
            Refusal::SampleCount | Refusal::ChannelSampleCount(_) => 2,
            Refusal::EncodedLength => 3,
            Refusal::OutputLength => 4,
            Refusal::DitheredResend => 5,
            Refusal::NoSuchBlock => 6,
            Refusal::SampleIsNan(_)
            | Refusal::TileSampleIsNan { .. }
            | Refusal::ChannelSampleIsNan(..)
            | Refusal::ChannelTileSampleIsNan { .. } => 7,
            Refusal::WordMalformed => 8,
            Refusal::SideTooLarge(..) => 9,
            Refusal::SideNotMultipleOf4(..) => 10,
            Refusal::DdsHeader(field) => match field {
                Field::Header | Field::Extension => 11,
                Field::Magic | Field::HeaderSize => 12,
                Field::FourCharacters | Field::ExtensionFormat => 13,
                Field::MipCount | Field::Depth | Field::CubeFaces | Field::ArraySize => 14,
            },
            Refusal::DdsBody => 15,
            Refusal::EditionReused => 16,
            Refusal::EditionOpposite => 17,
        }
    }
}

/// What is wrong, in words for an operator.
///
/// ```
/// use bc4::{encode_tile, Options};
/// let mut samples = [1.0; 32];
/// samples[13] = f32::NAN;
/// let text = |width, height| encode_tile(&samples, width, height, Options::default(), &mut [0; 16]).unwrap_err().to_string();
/// assert_eq!(text(8, 0), "height is 0");
/// assert_eq!(text(2000, 4), "width 2000 is over 1024");
/// assert_eq!(text(8, 1022), "height 1022 is not a multiple of 4");
/// assert_eq!(text(8, 4), "sample 13 (row 1, column 5) is NaN");
/// ```
impl fmt::Display for Refusal {
    fn fmt(&self, f: &mut fmt::Formatter<'_>) -> fmt::Result {
        match self {
            Refusal::SideIsZero(side) => write!(f, "{side} is 0"),
            Refusal::SampleCount => {
                f.write_str("the sample count is not 16, or not width * height")
            }
            Refusal::ChannelSampleCount(channel) => {
                write!(f, "the sample count of {channel} is not 16, or not width * height")
            }
            Refusal::EncodedLength => f.write_str(
                "the encoded length is not 8, or not width * height / 2; for two channels, twice that; or the record of editions has not width * height / 16 entries",
            ),
            Refusal::OutputLength => f.write_str(
                "the output is shorter than width * height / 2, for two channels than twice that, for a file than 128 + width * height / 2",
            ),
            Refusal::DitheredResend => f.write_str("a resend with dither"),
            Refusal::NoSuchBlock => f.write_str("the tile has no such block"),
            Refusal::SampleIsNan(i) => write!(f, "sample {i} is NaN"),
            Refusal::TileSampleIsNan { index, row, column } => {
                write!(f, "sample {index} (row {row}, column {column}) is NaN")
            }
            Refusal::ChannelSampleIsNan(channel, i) => write!(f, "sample {i} of {channel} is NaN"),
            Refusal::ChannelTileSampleIsNan {
                channel,
                index,
                row,
                column,
            } => write!(
                f,
                "sample {index} (row {row}, column {column}) of {channel} is NaN"
            ),
            Refusal::WordMalformed => f.write_str("the options word is malformed"),
            Refusal::SideTooLarge(side, length) => write!(f, "{side} {length} is over 1024"),
            Refusal::SideNotMultipleOf4(side, length) => {
                write!(f, "{side} {length} is not a multiple of 4")
            }
            Refusal::DdsHeader(field) => field.fmt(f),
            Refusal::DdsBody => {
                f.write_str("the bytes after the DDS headers are not exactly width * height / 2")
            }
            Refusal::EditionReused => f.write_str("the place holds this edition with other bytes"),
            Refusal::EditionOpposite => {
                f.write_str("the edition is 32768 from the one that the place holds")
            }
        }
    }
}

impl core::error::Error for Refusal {}

fn checked(number: u32, detail: Detail) -> Result<(), Refusal> {
    let (channel, index) = (Channel::said(detail.what), detail.index);
    Err(match number {
        0 => return Ok(()),
        2 => channel.map_or(Refusal::SampleCount, Refusal::ChannelSampleCount),
        3 => Refusal::EncodedLength,
        4 => Refusal::OutputLength,
        5 => Refusal::DitheredResend,
        6 => Refusal::NoSuchBlock,
        7 => channel.map_or(Refusal::SampleIsNan(index), |channel| {
            Refusal::ChannelSampleIsNan(channel, index)
        }),
        8 => Refusal::WordMalformed,
        11..=14 => Refusal::DdsHeader(Field::said(detail.what)),
        15 => Refusal::DdsBody,
        16 => Refusal::EditionReused,
        17 => Refusal::EditionOpposite,
        _ => unreachable!("the library has no other number"),
    })
}

/// As [`checked`], for a call with a size.
fn checked_size(number: u32, detail: Detail, width: usize, height: usize) -> Result<(), Refusal> {
    let Detail {
        what,
        index,
        row,
        column,
    } = detail;
    let refusal: fn(Side, usize) -> Refusal = match number {
        1 => |side, _| Refusal::SideIsZero(side),
        7 => {
            return Err(match Channel::said(what) {
                None => Refusal::TileSampleIsNan { index, row, column },
                Some(channel) => Refusal::ChannelTileSampleIsNan {
                    channel,
                    index,
                    row,
                    column,
                },
            })
        }
        9 => Refusal::SideTooLarge,
        10 => Refusal::SideNotMultipleOf4,
        _ => return checked(number, detail),
    };
    Err(match what {
        1 => refusal(Side::Width, width),
        2 => refusal(Side::Height, height),
        _ => unreachable!("the library has no other side"),
    })
}

/// Major, minor and patch number of the library, a byte each.
///
/// ```
/// assert_eq!(bc4::version(), 0x030200);
/// ```
pub fn version() -> u32 {
    // SAFETY: it takes nothing.
    unsafe { bc4_version() }
}

/// Encodes sixteen samples, row by row. They are on the scale 0 to 1, and clamped to it.
///
/// Refuses [`Refusal::SampleCount`], [`Refusal::SampleIsNan`].
///
/// ```
/// use bc4::{encode_block, Options, Refusal};
/// let search = Options { brute_force: true, ..Options::default() };
/// assert_eq!(encode_block(&[0.0; 16], search), Ok([0x01, 0x00, 0x49, 0x92, 0x24, 0x49, 0x92, 0x24]));
/// let mut samples = [0.5; 16];
/// samples[4] = f32::NAN;
/// assert_eq!(encode_block(&samples, search), Err(Refusal::SampleIsNan(4)));
/// assert_eq!(encode_block(&samples[1..], search), Err(Refusal::SampleCount));
/// ```
pub fn encode_block(samples: &[f32], options: Options) -> Result<[u8; 8], Refusal> {
    let (mut block, mut detail) = ([0; 8], Detail::default());
    // SAFETY: each pointer is that of a reference, with its length; those written to are locals of this call.
    let number = unsafe {
        bc4_encode_block(
            samples.as_ptr(),
            samples.len(),
            options.word(),
            block.as_mut_ptr(),
            &mut detail,
        )
    };
    checked(number, detail)?;
    Ok(block)
}

/// The sixteen samples that eight bytes mean, each in 0 to 1.
///
/// Refuses [`Refusal::EncodedLength`].
///
/// ```
/// use bc4::{decode_block, Refusal};
/// assert_eq!(decode_block(&[0x81, 0x81, 0, 0, 0, 0, 0, 0], true), Ok([0.0; 16]));
/// assert_eq!(decode_block(&[0; 7], false), Err(Refusal::EncodedLength));
/// ```
pub fn decode_block(encoded: &[u8], snorm: bool) -> Result<[f32; 16], Refusal> {
    let (mut samples, mut detail) = ([0.0; 16], Detail::default());
    // SAFETY: as for `encode_block`.
    let number = unsafe {
        bc4_decode_block(
            encoded.as_ptr(),
            encoded.len(),
            snorm,
            samples.as_mut_ptr(),
            &mut detail,
        )
    };
    checked(number, detail)?;
    Ok(samples)
}

/// The f32 sum, in order, of the squared distances between sixteen samples, clamped, and what eight bytes decode to.
///
/// Refuses [`Refusal::SampleCount`], [`Refusal::EncodedLength`], [`Refusal::SampleIsNan`].
///
/// ```
/// use bc4::{block_error, Refusal};
/// assert_eq!(block_error(&[1.0; 16], &[0; 8], false), Ok(16.0));
/// assert_eq!(block_error(&[1.0; 16], &[0; 9], false), Err(Refusal::EncodedLength));
/// ```
pub fn block_error(samples: &[f32], encoded: &[u8], snorm: bool) -> Result<f32, Refusal> {
    let (mut error, mut detail) = (0.0, Detail::default());
    // SAFETY: as for `encode_block`.
    let number = unsafe {
        bc4_block_error(
            samples.as_ptr(),
            samples.len(),
            encoded.as_ptr(),
            encoded.len(),
            snorm,
            &mut error,
            &mut detail,
        )
    };
    checked(number, detail)?;
    Ok(error)
}

/// The bytes to hold from now on, and whether they are the fresh ones.
#[derive(Clone, Copy, Debug, PartialEq, Eq)]
pub struct Held {
    /// The eight bytes.
    pub block: [u8; 8],
    /// Whether they were encoded afresh.
    pub fresh: bool,
}

/// Encodes sixteen samples afresh, and takes the fresh bytes exactly where their block error is strictly below that of the held ones.
///
/// Refuses [`Refusal::SampleCount`], [`Refusal::EncodedLength`], [`Refusal::DitheredResend`], [`Refusal::SampleIsNan`].
///
/// ```
/// use bc4::{resend, Held, Options, Refusal};
/// let better = Held { block: [255, 0, 0, 0, 0, 0, 0, 0], fresh: true };
/// assert_eq!(resend(&[1.0; 16], &[0; 8], Options::default()), Ok(better));
/// assert_eq!(resend(&[1.0; 16], &better.block, Options::default()), Ok(Held { fresh: false, ..better }));
/// let dithered = Options { dither: true, ..Options::default() };
/// assert_eq!(resend(&[1.0; 16], &[0; 8], dithered), Err(Refusal::DitheredResend));
/// ```
pub fn resend(samples: &[f32], held: &[u8], options: Options) -> Result<Held, Refusal> {
    let (mut block, mut fresh, mut detail) = ([0; 8], 0, Detail::default());
    // SAFETY: as for `encode_block`.
    let number = unsafe {
        bc4_resend(
            samples.as_ptr(),
            samples.len(),
            held.as_ptr(),
            held.len(),
            options.word(),
            block.as_mut_ptr(),
            &mut fresh,
            &mut detail,
        )
    };
    checked(number, detail)?;
    Ok(Held {
        block,
        fresh: fresh == 1,
    })
}

/// Encodes a tile of width * height samples, row by row, into the first width * height / 2 bytes of `out`, and answers that count. The blocks stand
/// row by row from the top left, each as [`encode_block`] gives it. Later bytes of `out` stay as they are, and on a refusal all do.
///
/// Refuses [`Refusal::SideIsZero`], [`Refusal::SideTooLarge`], [`Refusal::SideNotMultipleOf4`], [`Refusal::SampleCount`], [`Refusal::OutputLength`],
/// [`Refusal::TileSampleIsNan`].
///
/// ```
/// use bc4::{encode_tile, Options, Refusal, Side};
/// let mut out = [7; 18];
/// assert_eq!(encode_tile(&[1.0; 32], 8, 4, Options::default(), &mut out), Ok(16));
/// assert_eq!(out, [255, 0, 0, 0, 0, 0, 0, 0, 255, 0, 0, 0, 0, 0, 0, 0, 7, 7]);
/// assert_eq!(encode_tile(&[1.0; 36], 6, 6, Options::default(), &mut out), Err(Refusal::SideNotMultipleOf4(Side::Width, 6)));
/// assert_eq!(encode_tile(&[1.0; 32], 8, 4, Options::default(), &mut out[..15]), Err(Refusal::OutputLength));
/// ```
pub fn encode_tile(
    samples: &[f32],
    width: usize,
    height: usize,
    options: Options,
    out: &mut [u8],
) -> Result<usize, Refusal> {
    let (mut written, mut detail) = (0, Detail::default());
    // SAFETY: as for `encode_block`; `out` is borrowed mutably, so that it overlaps nothing.
    let number = unsafe {
        bc4_encode_tile(
            samples.as_ptr(),
            samples.len(),
            width,
            height,
            options.word(),
            out.as_mut_ptr(),
            out.len(),
            &mut written,
            &mut detail,
        )
    };
    checked_size(number, detail, width, height)?;
    Ok(written)
}

/// The eight bytes of one block of an encoded tile: that part of it, not a copy.
///
/// Refuses [`Refusal::SideIsZero`], [`Refusal::SideTooLarge`], [`Refusal::SideNotMultipleOf4`], [`Refusal::EncodedLength`], [`Refusal::NoSuchBlock`].
///
/// ```
/// use bc4::{block_view, Refusal};
/// let tile: [u8; 32] = std::array::from_fn(|i| i as u8);
/// assert_eq!(block_view(&tile, 8, 8, 1, 1), Ok(&tile[24..32]));
/// assert_eq!(block_view(&tile, 8, 8, 2, 1), Err(Refusal::NoSuchBlock));
/// ```
pub fn block_view(
    tile: &[u8],
    width: usize,
    height: usize,
    column: usize,
    row: usize,
) -> Result<&[u8], Refusal> {
    let (mut offset, mut detail) = (0, Detail::default());
    // SAFETY: as for `encode_block`.
    let number = unsafe {
        bc4_block_view(
            tile.as_ptr(),
            tile.len(),
            width,
            height,
            column,
            row,
            &mut offset,
            &mut detail,
        )
    };
    checked_size(number, detail, width, height)?;
    Ok(&tile[offset..offset + 8])
}

/// Writes an encoded tile as a DDS file into the first 128 + width * height / 2 bytes of `out`, and answers that count: a header with `BC4U`, with `snorm`
/// `BC4S`, and then the tile's bytes. Later bytes of `out` stay as they are, and on a refusal all do.
///
/// Refuses [`Refusal::SideIsZero`], [`Refusal::SideTooLarge`], [`Refusal::SideNotMultipleOf4`], [`Refusal::EncodedLength`], [`Refusal::OutputLength`].
///
/// ```
/// use bc4::{write_dds, Refusal};
/// let mut out = [7; 140];
/// assert_eq!(write_dds(&[1; 8], 4, 4, false, &mut out), Ok(136));
/// assert_eq!((&out[..4], &out[84..88]), (&b"DDS "[..], &b"BC4U"[..]));
/// assert_eq!(out[128..], [1, 1, 1, 1, 1, 1, 1, 1, 7, 7, 7, 7]);
/// assert_eq!(write_dds(&[1; 8], 4, 8, false, &mut out), Err(Refusal::EncodedLength));
/// assert_eq!(write_dds(&[1; 8], 4, 4, false, &mut out[..135]), Err(Refusal::OutputLength));
/// ```
pub fn write_dds(
    tile: &[u8],
    width: usize,
    height: usize,
    snorm: bool,
    out: &mut [u8],
) -> Result<usize, Refusal> {
    let (mut written, mut detail) = (0, Detail::default());
    // SAFETY: as for `encode_tile`.
    let number = unsafe {
        bc4_write_dds(
            tile.as_ptr(),
            tile.len(),
            width,
            height,
            snorm,
            out.as_mut_ptr(),
            out.len(),
            &mut written,
            &mut detail,
        )
    };
    checked_size(number, detail, width, height)?;
    Ok(written)
}

/// The tile that a DDS file holds.
#[derive(Clone, Copy, Debug, PartialEq, Eq)]
pub struct Picture<'a> {
    /// In samples.
    pub width: usize,
    /// In samples.
    pub height: usize,
    /// Whether the blocks are signed.
    pub snorm: bool,
    /// Its blocks, width * height / 2 bytes, for [`block_view`]: that part of the file, not a copy.
    pub tile: &'a [u8],
}

/// A side as a DDS file says it, or 0 where the file ends before.
fn side_at(file: &[u8], offset: usize) -> usize {
    file.get(offset..)
        .and_then(|rest| rest.first_chunk())
        .map_or(0, |&bytes| u32::from_le_bytes(bytes) as usize)
}

/// Reads a DDS file of one BC4 tile. Fields of its headers that no refusal names may hold anything.
///
/// Refuses [`Refusal::DdsHeader`], with [`Field::Header`], [`Field::Extension`], [`Field::Magic`], [`Field::HeaderSize`], [`Field::FourCharacters`],
/// [`Field::ExtensionFormat`], [`Field::MipCount`], [`Field::Depth`], [`Field::CubeFaces`], [`Field::ArraySize`], and then
/// [`Refusal::SideIsZero`], [`Refusal::SideTooLarge`], [`Refusal::SideNotMultipleOf4`], of the width at byte 16 and the height at byte 12, and
/// [`Refusal::DdsBody`].
///
/// ```
/// use bc4::{read_dds, write_dds, Field, Picture, Refusal};
/// let tile: [u8; 16] = std::array::from_fn(|i| i as u8);
/// let mut file = [0; 144];
/// write_dds(&tile, 8, 4, true, &mut file)?;
/// assert_eq!(read_dds(&file), Ok(Picture { width: 8, height: 4, snorm: true, tile: &tile }));
/// assert_eq!(read_dds(&file[..143]), Err(Refusal::DdsBody));
/// file[28] = 2;
/// assert_eq!(read_dds(&file), Err(Refusal::DdsHeader(Field::MipCount)));
/// # Ok::<(), bc4::Refusal>(())
/// ```
pub fn read_dds(file: &[u8]) -> Result<Picture<'_>, Refusal> {
    let (mut width, mut height, mut snorm, mut offset) = (0, 0, 0, 0);
    let mut detail = Detail::default();
    // SAFETY: as for `encode_block`.
    let number = unsafe {
        bc4_read_dds(
            file.as_ptr(),
            file.len(),
            &mut width,
            &mut height,
            &mut snorm,
            &mut offset,
            &mut detail,
        )
    };
    checked_size(number, detail, side_at(file, 16), side_at(file, 12))?;
    Ok(Picture {
        width,
        height,
        snorm: snorm == 1,
        tile: &file[offset..],
    })
}

#[cfg(test)]
mod tests {
    use super::{Options, Quantization};

    #[test]
    fn every_option_has_its_place_in_the_word() {
        let none = Options::default();
        let flags = [
            Options {
                dither: true,
                ..none
            },
            Options {
                snorm: true,
                ..none
            },
            Options {
                brute_force: true,
                ..none
            },
            Options {
                use_inter4: true,
                ..none
            },
            Options {
                use_inter4_heuristic: true,
                ..none
            },
            Options {
                fast_iter: true,
                ..none
            },
            Options {
                size_variations: true,
                ..none
            },
            Options {
                iter_initial_inter4: true,
                ..none
            },
        ];
        assert_eq!(none.word(), 0);
        for (bit, options) in flags.into_iter().enumerate() {
            assert_eq!(options.word(), 1 << bit);
        }
        assert_eq!(
            Options {
                max_refine_iter: 255,
                ..none
            }
            .word(),
            0xff00
        );
        assert_eq!(
            Options {
                quantization: Quantization::MediumQuality,
                ..none
            }
            .word(),
            0x010000
        );
        assert_eq!(
            Options {
                quantization: Quantization::HighQuality,
                ..none
            }
            .word(),
            0x020000
        );
    }
}
