//! BC5, two channels: a block has sixteen bytes, the first channel's BC4 block and then the second's, both by one set of [`Options`]. A current map has
//! an east and a north part.
//!
//! Each half of an answer is what the call of the same name in the crate's root gives for that channel alone. What is different: encoded lengths are doubled,
//! and a refusal of samples says their [`Channel`](crate::Channel). The first channel is looked at before the second; a NaN in either refuses the whole call.
//!
//! ```
//! use bc4::{bc5, Options};
//! let (east, north) = ([0.0; 16], [1.0; 16]);
//! let block = bc5::encode_block(&east, &north, Options::default())?;
//! assert_eq!(block, [0, 0, 0, 0, 0, 0, 0, 0, 255, 0, 0, 0, 0, 0, 0, 0]);
//! let back = bc5::decode_block(&block, false)?;
//! assert_eq!((back.first, back.second), (east, north));
//! # Ok::<(), bc4::Refusal>(())
//! ```
use crate::{checked, checked_size, Detail, Options, Refusal};

extern "C" {
    fn bc5_encode_block(
        first: *const f32,
        first_count: usize,
        second: *const f32,
        second_count: usize,
        options: u32,
        block: *mut u8,
        detail: *mut Detail,
    ) -> u32;
    fn bc5_decode_block(
        encoded: *const u8,
        encoded_length: usize,
        snorm: bool,
        first: *mut f32,
        second: *mut f32,
        detail: *mut Detail,
    ) -> u32;
    fn bc5_block_error(
        first: *const f32,
        first_count: usize,
        second: *const f32,
        second_count: usize,
        encoded: *const u8,
        encoded_length: usize,
        snorm: bool,
        errors: *mut f32,
        detail: *mut Detail,
    ) -> u32;
    fn bc5_resend(
        first: *const f32,
        first_count: usize,
        second: *const f32,
        second_count: usize,
        held: *const u8,
        held_length: usize,
        options: u32,
        block: *mut u8,
        fresh: *mut u8,
        detail: *mut Detail,
    ) -> u32;
    fn bc5_encode_tile(
        first: *const f32,
        first_count: usize,
        second: *const f32,
        second_count: usize,
        width: usize,
        height: usize,
        options: u32,
        out: *mut u8,
        out_length: usize,
        written: *mut usize,
        detail: *mut Detail,
    ) -> u32;
    fn bc5_block_view(
        tile: *const u8,
        tile_length: usize,
        width: usize,
        height: usize,
        column: usize,
        row: usize,
        offset: *mut usize,
        detail: *mut Detail,
    ) -> u32;
}

/// The same of each channel: samples, an error, or whether a half is fresh.
#[derive(Clone, Copy, Debug, PartialEq, Eq)]
#[allow(missing_docs)]
pub struct Both<T> {
    pub first: T,
    pub second: T,
}

/// Encodes sixteen samples of each channel, row by row. They are on the scale 0 to 1, and clamped to it.
///
/// Refuses [`Refusal::ChannelSampleCount`], [`Refusal::ChannelSampleIsNan`].
///
/// ```
/// use bc4::{bc5::encode_block, Channel, Options, Refusal};
/// let (mut east, mut north) = ([0.5; 16], [0.5; 16]);
/// north[0] = f32::NAN;
/// let refusal = encode_block(&east, &north, Options::default()).unwrap_err();
/// assert_eq!(refusal, Refusal::ChannelSampleIsNan(Channel::Second, 0));
/// assert_eq!(refusal.to_string(), "sample 0 of the second channel is NaN");
/// east[15] = f32::NAN;
/// assert_eq!(encode_block(&east, &north, Options::default()), Err(Refusal::ChannelSampleIsNan(Channel::First, 15)));
/// assert_eq!(encode_block(&east, &north[1..], Options::default()), Err(Refusal::ChannelSampleCount(Channel::Second)));
/// ```
pub fn encode_block(first: &[f32], second: &[f32], options: Options) -> Result<[u8; 16], Refusal> {
    let (mut block, mut detail) = ([0; 16], Detail::default());
    // SAFETY: each pointer is that of a reference, with its length; those written to are locals of this call.
    let number = unsafe {
        bc5_encode_block(
            first.as_ptr(),
            first.len(),
            second.as_ptr(),
            second.len(),
            options.word(),
            block.as_mut_ptr(),
            &mut detail,
        )
    };
    checked(number, detail)?;
    Ok(block)
}

/// The sixteen samples of each channel that sixteen bytes mean, each in 0 to 1.
///
/// Refuses [`Refusal::EncodedLength`].
///
/// ```
/// use bc4::{bc5::{decode_block, Both}, Refusal};
/// let block = [255, 0, 0, 0, 0, 0, 0, 0, 0, 0, 0, 0, 0, 0, 0, 0];
/// assert_eq!(decode_block(&block, false), Ok(Both { first: [1.0; 16], second: [0.0; 16] }));
/// assert_eq!(decode_block(&block[..8], false), Err(Refusal::EncodedLength));
/// ```
pub fn decode_block(encoded: &[u8], snorm: bool) -> Result<Both<[f32; 16]>, Refusal> {
    let (mut first, mut second, mut detail) = ([0.0; 16], [0.0; 16], Detail::default());
    // SAFETY: as for `encode_block`.
    let number = unsafe {
        bc5_decode_block(
            encoded.as_ptr(),
            encoded.len(),
            snorm,
            first.as_mut_ptr(),
            second.as_mut_ptr(),
            &mut detail,
        )
    };
    checked(number, detail)?;
    Ok(Both { first, second })
}

/// The block error of each channel, as [`crate::block_error`] has it.
///
/// Refuses [`Refusal::ChannelSampleCount`], [`Refusal::EncodedLength`], [`Refusal::ChannelSampleIsNan`].
///
/// ```
/// use bc4::bc5::{block_error, Both};
/// assert_eq!(block_error(&[1.0; 16], &[0.5; 16], &[0; 16], false), Ok(Both { first: 16.0, second: 4.0 }));
/// ```
pub fn block_error(
    first: &[f32],
    second: &[f32],
    encoded: &[u8],
    snorm: bool,
) -> Result<Both<f32>, Refusal> {
    let (mut errors, mut detail) = ([0.0; 2], Detail::default());
    // SAFETY: as for `encode_block`.
    let number = unsafe {
        bc5_block_error(
            first.as_ptr(),
            first.len(),
            second.as_ptr(),
            second.len(),
            encoded.as_ptr(),
            encoded.len(),
            snorm,
            errors.as_mut_ptr(),
            &mut detail,
        )
    };
    checked(number, detail)?;
    let [first, second] = errors;
    Ok(Both { first, second })
}

/// The bytes to hold from now on, and which halves of them are the fresh ones.
#[derive(Clone, Copy, Debug, PartialEq, Eq)]
pub struct Held {
    /// The sixteen bytes.
    pub block: [u8; 16],
    /// Of each half whether it was encoded afresh.
    pub fresh: Both<bool>,
}

/// Encodes sixteen samples of each channel afresh, and takes a fresh half exactly where its block error is strictly below that of the held half.
///
/// Refuses [`Refusal::ChannelSampleCount`], [`Refusal::EncodedLength`], [`Refusal::DitheredResend`], [`Refusal::ChannelSampleIsNan`].
///
/// ```
/// use bc4::{bc5::{resend, Both, Held}, Options};
/// let held = [0, 0, 0, 0, 0, 0, 0, 0, 255, 0, 0, 0, 0, 0, 0, 0];
/// let better = [255, 0, 0, 0, 0, 0, 0, 0, 255, 0, 0, 0, 0, 0, 0, 0];
/// assert_eq!(
///     resend(&[1.0; 16], &[1.0; 16], &held, Options::default()),
///     Ok(Held { block: better, fresh: Both { first: true, second: false } })
/// );
/// ```
pub fn resend(
    first: &[f32],
    second: &[f32],
    held: &[u8],
    options: Options,
) -> Result<Held, Refusal> {
    let (mut block, mut fresh, mut detail) = ([0; 16], [0; 2], Detail::default());
    // SAFETY: as for `encode_block`.
    let number = unsafe {
        bc5_resend(
            first.as_ptr(),
            first.len(),
            second.as_ptr(),
            second.len(),
            held.as_ptr(),
            held.len(),
            options.word(),
            block.as_mut_ptr(),
            fresh.as_mut_ptr(),
            &mut detail,
        )
    };
    checked(number, detail)?;
    let [first, second] = fresh.map(|flag| flag == 1);
    Ok(Held {
        block,
        fresh: Both { first, second },
    })
}

/// Encodes a tile of width * height samples of each channel, row by row, into the first width * height bytes of `out`, and answers that count. The blocks
/// stand row by row from the top left, each as [`encode_block`] gives it. Later bytes of `out` stay as they are, and on a refusal all do.
///
/// Refuses [`Refusal::SideIsZero`], [`Refusal::SideTooLarge`], [`Refusal::SideNotMultipleOf4`], [`Refusal::ChannelSampleCount`],
/// [`Refusal::OutputLength`], [`Refusal::ChannelTileSampleIsNan`].
///
/// ```
/// use bc4::{bc5::encode_tile, Options};
/// let (east, mut north, mut out) = ([0.0; 32], [1.0; 32], [7; 34]);
/// assert_eq!(encode_tile(&east, &north, 8, 4, Options::default(), &mut out), Ok(32));
/// assert_eq!(out[16..], [0, 0, 0, 0, 0, 0, 0, 0, 255, 0, 0, 0, 0, 0, 0, 0, 7, 7]);
/// north[13] = f32::NAN;
/// let refusal = encode_tile(&east, &north, 8, 4, Options::default(), &mut out).unwrap_err();
/// assert_eq!(refusal.to_string(), "sample 13 (row 1, column 5) of the second channel is NaN");
/// ```
pub fn encode_tile(
    first: &[f32],
    second: &[f32],
    width: usize,
    height: usize,
    options: Options,
    out: &mut [u8],
) -> Result<usize, Refusal> {
    let (mut written, mut detail) = (0, Detail::default());
    // SAFETY: as for `encode_block`; `out` is borrowed mutably, so that it overlaps nothing.
    let number = unsafe {
        bc5_encode_tile(
            first.as_ptr(),
            first.len(),
            second.as_ptr(),
            second.len(),
            width,
            height,
            options.word(),
            out.as_mut_ptr(),
            out.len(),
            &mut written,
            &mut detail,
        )
    };
    checked_size(number, detail, width, height)?;
    Ok(written)
}

/// The sixteen bytes of one block of an encoded tile: that part of it, not a copy.
///
/// Refuses [`Refusal::SideIsZero`], [`Refusal::SideTooLarge`], [`Refusal::SideNotMultipleOf4`], [`Refusal::EncodedLength`], [`Refusal::NoSuchBlock`].
///
/// ```
/// use bc4::{bc5::block_view, Refusal};
/// let tile: [u8; 64] = std::array::from_fn(|i| i as u8);
/// assert_eq!(block_view(&tile, 8, 8, 1, 1), Ok(&tile[48..64]));
/// assert_eq!(block_view(&tile, 8, 8, 2, 1), Err(Refusal::NoSuchBlock));
/// ```
pub fn block_view(
    tile: &[u8],
    width: usize,
    height: usize,
    column: usize,
    row: usize,
) -> Result<&[u8], Refusal> {
    let (mut offset, mut detail) = (0, Detail::default());
    // SAFETY: as for `encode_block`.
    let number = unsafe {
        bc5_block_view(
            tile.as_ptr(),
            tile.len(),
            width,
            height,
            column,
            row,
            &mut offset,
            &mut detail,
        )
    };
    checked_size(number, detail, width, height)?;
    Ok(&tile[offset..offset + 16])
}
