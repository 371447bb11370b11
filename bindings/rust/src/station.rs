//! The receiving side: a tile that arrives block by block, over a link that loses messages, repeats them and changes their order.
//!
//! A station holds a tile, as [`encode_tile`](crate::encode_tile) writes it, and beside it a record of the editions that stand there: one entry for each block,
//! width * height / 16 of them, in the order of the tile's blocks. Both are the caller's. An entry 0 is an empty place, any other n is edition (n - 1) mod
//! 65,536. Before the first message the record is emptied, by [`clear`] or by being all 0.
//!
//! What is promised: let the editions of the messages sent for a place since then lie within 32,767 steps, and none of them name two contents. Then, in
//! whatever order messages arrive, and each any number of times, each place holds the newest message that arrived for it.
//!
//! ```
//! use bc4::station::{receive, Message, Received};
//! let (mut tile, mut editions) = ([0; 16], [0; 2]); // 8 by 4 samples
//! let mut arrives = |edition, bytes: [u8; 8]| {
//!     receive(&mut tile, &mut editions, 8, 4, Message { column: 1, row: 0, edition, block: &bytes })
//! };
//! assert_eq!(arrives(65535, [1; 8])?, Received::Taken);
//! assert_eq!(arrives(65535, [1; 8])?, Received::Repeated);
//! assert_eq!(arrives(0, [2; 8])?, Received::Replaced);
//! assert_eq!(arrives(65535, [1; 8])?, Received::Old);
//! assert_eq!((&tile[8..], editions), (&[2; 8][..], [0, 1]));
//! # Ok::<(), bc4::Refusal>(())
//! ```
use crate::{checked_size, Detail, Refusal};

extern "C" {
    fn bc4_receive(
        tile: *mut u8,
        tile_length: usize,
        editions: *mut u32,
        editions_length: usize,
        width: usize,
        height: usize,
        column: usize,
        row: usize,
        edition: u16,
        block: *const u8,
        block_length: usize,
        outcome: *mut u8,
        detail: *mut Detail,
    ) -> u32;
    fn bc4_clear(editions: *mut u32, editions_length: usize);
}

/// A block on its way to a station.
#[derive(Clone, Copy, Debug, PartialEq, Eq)]
pub struct Message<'a> {
    /// Of the block's place, as for [`block_view`](crate::block_view).
    pub column: usize,
    /// Of the block's place.
    pub row: usize,
    /// The sender counts the messages of a place up, by one or by more, and after 65,535 comes 0. The newer of two is the one that counting up reaches from
    /// the other in at most 32,767 steps.
    pub edition: u16,
    /// The eight bytes.
    pub block: &'a [u8],
}

/// What became of a message.
#[derive(Clone, Copy, Debug, PartialEq, Eq)]
pub enum Received {
    /// Its place was empty, and holds it now.
    Taken,
    /// Its place holds that edition, with the same bytes. Nothing changed.
    Repeated,
    /// It is newer than what its place held, and stands there now.
    Replaced,
    /// Its place holds a newer one. Nothing changed.
    Old,
}

/// Receives a message. One that is taken or that replaces puts its eight bytes and its edition at its place; no call changes another place, and on a
/// refusal all stays as it was.
///
/// Refuses [`Refusal::SideIsZero`], [`Refusal::SideTooLarge`], [`Refusal::SideNotMultipleOf4`], [`Refusal::EncodedLength`] (of the tile, the record or the
/// message), [`Refusal::NoSuchBlock`], [`Refusal::EditionReused`], [`Refusal::EditionOpposite`].
///
/// ```
/// use bc4::{station::{receive, Message, Received}, Refusal};
/// let (mut tile, mut editions) = ([0; 8], [0]);
/// let message = Message { column: 0, row: 0, edition: 5, block: &[1; 8] };
/// let mut arrives = |message| receive(&mut tile, &mut editions, 4, 4, message);
/// assert_eq!(arrives(message), Ok(Received::Taken));
/// assert_eq!(arrives(Message { block: &[2; 8], ..message }), Err(Refusal::EditionReused));
/// assert_eq!(arrives(Message { edition: 5 + 32768, ..message }), Err(Refusal::EditionOpposite));
/// assert_eq!(arrives(Message { column: 1, ..message }), Err(Refusal::NoSuchBlock));
/// assert_eq!(arrives(Message { block: &[1; 7], ..message }), Err(Refusal::EncodedLength));
/// ```
pub fn receive(
    tile: &mut [u8],
    editions: &mut [u32],
    width: usize,
    height: usize,
    message: Message<'_>,
) -> Result<Received, Refusal> {
    let (mut outcome, mut detail) = (0, Detail::default());
    // SAFETY: each pointer is that of a reference, with its length; `tile` and `editions` are borrowed mutably, so that they overlap nothing, and what else is
    // written to are locals of this call.
    let number = unsafe {
        bc4_receive(
            tile.as_mut_ptr(),
            tile.len(),
            editions.as_mut_ptr(),
            editions.len(),
            width,
            height,
            message.column,
            message.row,
            message.edition,
            message.block.as_ptr(),
            message.block.len(),
            &mut outcome,
            &mut detail,
        )
    };
    checked_size(number, detail, width, height)?;
    Ok(match outcome {
        1 => Received::Taken,
        2 => Received::Repeated,
        3 => Received::Replaced,
        4 => Received::Old,
        _ => unreachable!("the library has no other outcome"),
    })
}

/// Empties a record, every entry of it, for a new history. The tile's bytes stay until messages replace them.
///
/// ```
/// use bc4::station::{clear, receive, Message, Received};
/// let (mut tile, mut editions) = ([0; 8], [0]);
/// let newer = Message { column: 0, row: 0, edition: 9, block: &[1; 8] };
/// let older = Message { edition: 8, block: &[2; 8], ..newer };
/// receive(&mut tile, &mut editions, 4, 4, newer)?;
/// clear(&mut editions);
/// assert_eq!((tile, editions), ([1; 8], [0]));
/// assert_eq!(receive(&mut tile, &mut editions, 4, 4, older)?, Received::Taken);
/// # Ok::<(), bc4::Refusal>(())
/// ```
pub fn clear(editions: &mut [u32]) {
    // SAFETY: the pointer is that of a reference, with its length.
    unsafe { bc4_clear(editions.as_mut_ptr(), editions.len()) }
}
