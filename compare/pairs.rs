//! pairs [SEED [COUNT]]: the calls on two channels as C meets them, each half beside the Rust text or the formulas of calls.rs.
//! A child module of calls.rs.
use super::*;

type Detail = [usize; 4];

// a slice crosses as a pointer and a length
unsafe extern "C" {
    fn bc5_encode_block(
        first: *const f32,
        first_count: usize,
        second: *const f32,
        second_count: usize,
        options: u32,
        block: &mut [u8; 16],
        detail: &mut Detail,
    ) -> u32;
    fn bc5_decode_block(
        encoded: *const u8,
        length: usize,
        snorm: bool,
        first: &mut [f32; 16],
        second: &mut [f32; 16],
        detail: &mut Detail,
    ) -> u32;
    fn bc5_block_error(
        first: *const f32,
        first_count: usize,
        second: *const f32,
        second_count: usize,
        encoded: *const u8,
        length: usize,
        snorm: bool,
        errors: &mut [f32; 2],
        detail: &mut Detail,
    ) -> u32;
    fn bc5_resend(
        first: *const f32,
        first_count: usize,
        second: *const f32,
        second_count: usize,
        held: *const u8,
        length: usize,
        options: u32,
        block: &mut [u8; 16],
        fresh: &mut [u8; 2],
        detail: &mut Detail,
    ) -> u32;
    fn bc5_encode_tile(
        first: *const f32,
        first_count: usize,
        second: *const f32,
        second_count: usize,
        width: usize,
        height: usize,
        options: u32,
        out: *mut u8,
        room: usize,
        written: &mut usize,
        detail: &mut Detail,
    ) -> u32;
    fn bc5_block_view(
        tile: *const u8,
        length: usize,
        width: usize,
        height: usize,
        column: usize,
        row: usize,
        offset: &mut usize,
        detail: &mut Detail,
    ) -> u32;
}

// ---- the calls, of samples that are a slice a channel: the number, the detail, and what the call wrote into memory that held these before

const HELD_DETAIL: Detail = [91, 92, 93, 94];
const HELD: u8 = 0xa5;

type Channels<'a> = [&'a [f32]; 2];

fn encode([a, b]: Channels, options: u32) -> (u32, Detail, [u8; 16]) {
    let (mut detail, mut block) = (HELD_DETAIL, [HELD; 16]);
    let number =
        unsafe { bc5_encode_block(a.as_ptr(), a.len(), b.as_ptr(), b.len(), options, &mut block, &mut detail) };
    (number, detail, block)
}

fn decode(encoded: &[u8], snorm: bool) -> (u32, Detail, [[u32; 16]; 2]) {
    let (mut detail, mut first, mut second) = (HELD_DETAIL, [f32::NAN; 16], [f32::NAN; 16]);
    let number = unsafe {
        bc5_decode_block(encoded.as_ptr(), encoded.len(), snorm, &mut first, &mut second, &mut detail)
    };
    (number, detail, [first, second].map(|floats| floats.map(bits)))
}

fn error([a, b]: Channels, encoded: &[u8], snorm: bool) -> (u32, Detail, [u32; 2]) {
    let (mut detail, mut errors) = (HELD_DETAIL, [f32::NAN; 2]);
    let number = unsafe {
        let (e, length) = (encoded.as_ptr(), encoded.len());
        bc5_block_error(a.as_ptr(), a.len(), b.as_ptr(), b.len(), e, length, snorm, &mut errors, &mut detail)
    };
    (number, detail, errors.map(bits))
}

fn resend([a, b]: Channels, held: &[u8], options: u32) -> (u32, Detail, [u8; 16], [u8; 2]) {
    let (mut detail, mut block, mut fresh) = (HELD_DETAIL, [HELD; 16], [HELD; 2]);
    let number = unsafe {
        let (h, length) = (held.as_ptr(), held.len());
        bc5_resend(a.as_ptr(), a.len(), b.as_ptr(), b.len(), h, length, options, &mut block, &mut fresh, &mut detail)
    };
    (number, detail, block, fresh)
}

/// The output is of `room` bytes.
fn tile([a, b]: Channels, [width, height]: [usize; 2], options: u32, room: usize) -> (u32, Detail, usize, Vec<u8>) {
    let (mut detail, mut written, mut out) = (HELD_DETAIL, HELD as usize, vec![HELD; room]);
    let number = unsafe {
        let (o, w) = (out.as_mut_ptr(), &mut written);
        bc5_encode_tile(a.as_ptr(), a.len(), b.as_ptr(), b.len(), width, height, options, o, room, w, &mut detail)
    };
    (number, detail, written, out)
}

fn view(tile: &[u8], [width, height]: [usize; 2], [column, row]: [usize; 2]) -> (u32, Detail, usize) {
    let (mut detail, mut offset) = (HELD_DETAIL, HELD as usize);
    let number = unsafe {
        bc5_block_view(tile.as_ptr(), tile.len(), width, height, column, row, &mut offset, &mut detail)
    };
    (number, detail, offset)
}

// ---- pairs of blocks

/// Two blocks by one set of options, the first's.
fn pair(seed: u64, i: u64, edges: &[f32]) -> [Given; 2] {
    let first = Given::new(seed, 2 * i, edges);
    let (flags, limit, quality) = (first.flags, first.limit, first.quality);
    let mut halves = [first, Given { flags, limit, quality, ..Given::new(seed, 2 * i + 1, edges) }];
    // each half by itself: any bytes or what other options encoded, as Given has them; the fresh ones; or these with a bit changed
    let w = Words::new(!seed, i);
    for half in &mut halves {
        half.held = match w.below(4) {
            0 => half.held,
            1 => half.rust(),
            _ => (u64::from_le_bytes(half.rust()) ^ 1 << w.below(64)).to_le_bytes(),
        };
    }
    halves
}

fn channels([a, b]: &[Given; 2]) -> Channels<'_> {
    [&a.samples, &b.samples]
}

fn word_of(given: &Given) -> u32 {
    u32::from_le_bytes([given.flags, given.limit, given.quality, 0])
}

fn joined([a, b]: [[u8; 8]; 2]) -> [u8; 16] {
    from_fn(|k| if k < 8 { a[k] } else { b[k - 8] })
}

fn rust([a, b]: &[Given; 2]) -> [u8; 16] {
    joined([a.rust(), b.rust()])
}

fn held([a, b]: &[Given; 2]) -> [u8; 16] {
    joined([a.held, b.held])
}

/// The bytes of a half after a resend, and whether they are the fresh ones.
fn kept(half: &Given) -> ([u8; 8], u8) {
    let error = |block| block_error(&half.samples, block, half.snorm());
    let new = half.rust();
    if error(new) < error(half.held) {
        (new, 1)
    } else {
        (half.held, 0)
    }
}

fn compare_blocks(seed: u64, n: u64, edges: &[f32]) -> bool {
    let pair = |i| pair(seed, i, edges);
    let searches = AtomicU64::new(0);
    let mut same = compare(
        "encode_block",
        n,
        |i| i,
        |i| {
            let p = pair(i);
            encode(channels(&p), word_of(&p[0]))
        },
        |i| {
            let p = pair(i);
            // the search is without effect with dither or in the signed format
            searches.fetch_add((p[0].flags & 7 == 4) as u64, Relaxed);
            (0, HELD_DETAIL, rust(&p))
        },
    );
    println!("  of the pairs {} are searched exhaustively", searches.into_inner());
    same &= compare(
        "decode_block",
        n,
        |i| i,
        |i| {
            let p = pair(i);
            decode(&held(&p), p[0].snorm())
        },
        |i| (0, HELD_DETAIL, pair(i).map(|half| decoded(half.held, half.snorm()).map(bits))),
    );
    same &= compare(
        "block_error",
        n,
        |i| i,
        |i| {
            let p = pair(i);
            error(channels(&p), &held(&p), p[0].snorm())
        },
        |i| (0, HELD_DETAIL, pair(i).map(|half| bits(block_error(&half.samples, half.held, half.snorm())))),
    );
    let (dithered, chosen) = (AtomicU64::new(0), [const { AtomicU64::new(0) }; 4]);
    same &= compare(
        "resend",
        n,
        |i| i,
        |i| {
            let p = pair(i);
            resend(channels(&p), &held(&p), word_of(&p[0]))
        },
        |i| {
            let p = pair(i);
            if p[0].flags & 1 == 1 {
                dithered.fetch_add(1, Relaxed);
                return (5, HELD_DETAIL, [HELD; 16], [HELD; 2]);
            }
            let [(a, fresh_a), (b, fresh_b)] = p.each_ref().map(kept);
            chosen[(fresh_a + 2 * fresh_b) as usize].fetch_add(1, Relaxed);
            (0, HELD_DETAIL, joined([a, b]), [fresh_a, fresh_b])
        },
    );
    let [none, first, second, both] = chosen.map(AtomicU64::into_inner);
    println!(
        "  of the resends {} with dither are refused, {none} keep both halves, {first} replace the first alone, {second} the second alone, {both} both",
        dithered.into_inner(),
    );
    same
}

// ---- tiles

/// A tile by its blocks in order, and what the call made of it.
struct Tile {
    size: [usize; 2],
    blocks: Vec<[Given; 2]>,
    number: u32,
    written: usize,
    out: Vec<u8>,
}
impl Tile {
    /// Block `k` of it is pair `start + k`, by the options of the first pair.
    fn new(seed: u64, start: u64, edges: &[f32], size: [usize; 2]) -> Self {
        let [width, height] = size;
        let mut blocks: Vec<_> = (0..width * height / 16).map(|k| pair(seed, start + k as u64, edges)).collect();
        let (flags, limit, quality) = (blocks[0][0].flags, blocks[0][0].limit, blocks[0][0].quality);
        for half in blocks.iter_mut().flatten() {
            (half.flags, half.limit, half.quality) = (flags, limit, quality);
        }
        let [a, b] = [0, 1].map(|channel| -> Vec<f32> {
            let sample = |row: usize, column: usize| {
                blocks[row / 4 * (width / 4) + column / 4][channel].samples[row % 4 * 4 + column % 4]
            };
            (0..width * height).map(|i| sample(i / width, i % width)).collect()
        });
        // a block more than is needed, which has to stay
        let (number, _, written, out) = tile([&a, &b], size, word_of(&blocks[0][0]), width * height + 16);
        Self { size, blocks, number, written, out }
    }

    fn places(&self) -> usize {
        self.blocks.len()
    }

    fn sixteen(&self, k: usize) -> [u8; 16] {
        from_fn(|b| self.out[16 * k + b])
    }
}

fn compare_tiles(name: &str, seed: u64, count: u64, edges: &[f32], size: impl Fn(&Words) -> [usize; 2]) -> bool {
    let mut start = 0;
    let tiles: Vec<_> = (0..count)
        .map(|i| {
            let tile = Tile::new(seed, start, edges, size(&Words::new(seed, i)));
            start += tile.places() as u64;
            tile
        })
        .collect();
    let places: Vec<_> = tiles.iter().enumerate().flat_map(|(t, tile)| (0..tile.places()).map(move |k| (t, k))).collect();
    let mut same = compare(
        &format!("encode_tile {name}"),
        places.len() as u64,
        |i| places[i as usize],
        |(t, k)| {
            let tile = &tiles[t];
            (tile.number, tile.written, tile.sixteen(k), tile.sixteen(tile.places()))
        },
        |(t, k)| {
            let tile = &tiles[t];
            (0, tile.size[0] * tile.size[1], rust(&tile.blocks[k]), [HELD; 16])
        },
    );
    same &= compare(
        &format!("block_view {name}"),
        places.len() as u64,
        |i| places[i as usize],
        |(t, k)| {
            let (tile, columns) = (&tiles[t], tiles[t].size[0] / 4);
            view(&tile.out[..16 * tile.places()], tile.size, [k % columns, k / columns])
        },
        |(_, k)| (0, HELD_DETAIL, 16 * k),
    );
    same
}

// ---- refusals

/// A number, what its detail says if it says anything, and whether it applies.
type Check = (u32, Option<Detail>, bool);

fn first_of(checks: &[Check]) -> (u32, Detail) {
    let refused = checks.iter().find(|(.., applies)| *applies);
    refused.map_or((0, HELD_DETAIL), |(number, detail, _)| (*number, detail.unwrap_or(HELD_DETAIL)))
}

/// In a detail the channels are 13 and 14.
fn counts(channels: Channels, n: usize) -> [Check; 2] {
    from_fn(|k| (2, Some([13 + k, 0, 0, 0]), channels[k].len() != n))
}

/// In a tile that is so wide the row and the column too.
fn nans(channels: Channels, width: Option<usize>) -> [Check; 2] {
    from_fn(|k| {
        let (found, i) = match channels[k].iter().position(|x| x.is_nan()) {
            Some(i) => (true, i),
            None => (false, 0),
        };
        let [row, column] = width.map_or([0; 2], |w| [i / w, i % w]);
        (7, Some([13 + k, i, row, column]), found)
    })
}

/// In a detail the sides are 1 and 2.
fn sizes(size: [usize; 2]) -> [Check; 6] {
    let faults: [(u32, fn(usize) -> bool); 3] = [(1, |n| n == 0), (9, |n| n > 1024), (10, |n| n % 4 != 0)];
    from_fn(|k| {
        let ((number, fault), side) = (faults[k / 2], k % 2);
        (number, Some([side + 1, 0, 0, 0]), fault(size[side]))
    })
}

/// What all six calls are given: each part right more often than not.
struct Faulty {
    samples: [Vec<f32>; 2],
    encoded: Vec<u8>,
    size: [usize; 2],
    place: [usize; 2],
    options: [u8; 4],
}
impl Faulty {
    fn new(seed: u64, i: u64) -> Self {
        let w = Words::new(seed, i);
        let pick = |from: &[usize]| from[w.below(from.len() as u64) as usize];
        let samples = [0, 1].map(|_| {
            let mut samples = vec![0.5; pick(&[16, 16, 16, 16, 16, 16, 0, 15, 17])];
            for _ in 0..pick(&[0, 0, 0, 1, 2]) {
                // past the last as well, where it is no sample
                if let Some(sample) = samples.get_mut(w.below(18) as usize) {
                    *sample = f32::NAN;
                }
            }
            samples
        });
        let encoded = vec![0; pick(&[16, 16, 16, 16, 16, 16, 0, 8, 15, 17])];
        let size = [0, 1].map(|_| pick(&[4, 4, 4, 4, 4, 4, 4, 4, 0, 6, 1024, 1026, 1028, usize::MAX]));
        let place = [0, 1].map(|_| pick(&[0, 0, 0, 0, 1, usize::MAX]));
        let options = [w.below(256) as u8 & !4, 2, pick(&[0, 1, 2, 3, 255]) as u8, pick(&[0, 0, 0, 0, 1]) as u8];
        Self { samples, encoded, size, place, options }
    }

    /// Number and detail of encode, decode, block error, resend, encode tile and block view, and whether a refused one left memory as it was.
    fn answers(&self) -> [(u32, Detail, bool); 6] {
        let Self { samples: [a, b], encoded, size, place, .. } = self;
        let (channels, options) = ([&a[..], &b[..]], u32::from_le_bytes(self.options));
        let snorm = self.options[0] & 2 != 0;
        let nan = f32::NAN.to_bits();
        let (n0, d0, block) = encode(channels, options);
        let (n1, d1, floats) = decode(encoded, snorm);
        let (n2, d2, errors) = error(channels, encoded, snorm);
        let (n3, d3, kept, fresh) = resend(channels, encoded, options);
        let (n4, d4, written, out) = tile(channels, *size, options, encoded.len());
        let (n5, d5, offset) = view(encoded, *size, *place);
        [
            (n0, d0, n0 == 0 || block == [HELD; 16]),
            (n1, d1, n1 == 0 || floats == [[nan; 16]; 2]),
            (n2, d2, n2 == 0 || errors == [nan; 2]),
            (n3, d3, n3 == 0 || (kept, fresh) == ([HELD; 16], [HELD; 2])),
            (n4, d4, n4 == 0 || (written, out) == (HELD as usize, vec![HELD; encoded.len()])),
            (n5, d5, n5 == 0 || offset == HELD as usize),
        ]
    }

    /// The same by each call's list of checks, in its order.
    fn lists(&self) -> [(u32, Detail, bool); 6] {
        let Self { samples: [a, b], encoded, size, place, options } = self;
        let channels = [&a[..], &b[..]];
        let blocks = size.map(|side| side / 4);
        let area = size[0].wrapping_mul(size[1]);
        let block_counts = &counts(channels, 16)[..];
        let block_nans = &nans(channels, None)[..];
        let length = &[(3, None, encoded.len() != 16)][..];
        let dither = &[(5, None, options[0] & 1 == 1)][..];
        let word = &[(8, None, options[2] > 2 || options[3] != 0)][..];
        let sizes = &sizes(*size)[..];
        let tile_counts = &counts(channels, area)[..];
        let room = &[(4, None, encoded.len() < area)][..];
        let tile_nans = &nans(channels, Some(size[0].max(1)))[..];
        let tile_length = &[(3, None, encoded.len() != area)][..];
        let outside = &[(6, None, place[0] >= blocks[0] || place[1] >= blocks[1])][..];
        [
            [block_counts, block_nans, word].concat(),
            length.to_vec(),
            [block_counts, length, block_nans].concat(),
            [block_counts, length, dither, block_nans, word].concat(),
            [sizes, tile_counts, room, tile_nans, word].concat(),
            [sizes, tile_length, outside].concat(),
        ]
        .map(|checks| {
            let (number, detail) = first_of(&checks);
            (number, detail, true)
        })
    }
}

fn compare_refusals(seed: u64, n: u64) -> bool {
    let met = [const { AtomicU64::new(0) }; 11];
    let same = compare(
        "refusals",
        n,
        |i| i,
        |i| Faulty::new(seed, i).answers(),
        |i| {
            let answers = Faulty::new(seed, i).lists();
            for (number, ..) in answers {
                met[number as usize].fetch_add(1, Relaxed);
            }
            answers
        },
    );
    let met: Vec<_> = met.into_iter().enumerate().map(|(number, met)| format!("{number} {}", met.into_inner())).collect();
    println!("  answers of the six calls by their number: {}", met.join(", "));
    same
}

pub(crate) fn main() -> ! {
    let mut args = std::env::args().skip(1).map(|s| s.parse().expect("a number"));
    let (seed, n) = (args.next().unwrap_or(1), args.next().unwrap_or(300_000));
    let edges = &edges()[..];
    let mut same = compare_blocks(seed, n, edges);
    let side = |w: &Words| 4 + 4 * w.below(32) as usize;
    same &= compare_tiles("4 by 4", seed + 1, n / 100, edges, |_| [4, 4]);
    same &= compare_tiles("4 by 1024", seed + 2, n / 10_000, edges, |_| [4, 1024]);
    same &= compare_tiles("12 by 8", seed + 3, n / 500, edges, |_| [12, 8]);
    same &= compare_tiles("1024 by 1024", seed + 4, 1, edges, |_| [1024, 1024]);
    same &= compare_tiles("any size", seed + 5, n / 2_000, edges, |w| [side(w), side(w)]);
    same &= compare_refusals(seed, n);
    std::process::exit(!same as i32)
}
