//! The functions over a block: the block's own, the palettes', least squares and dither. A child module of inner.rs.
use super::*;
use std::{
    cell::Cell,
    ops::{Add, AddAssign, Mul, Sub},
};

/// The random words of one input, taken one after the other.
pub(super) struct Words {
    seed: u64,
    taken: Cell<u64>,
}
impl Words {
    pub(super) fn new(seed: u64, i: u64) -> Self {
        Self { seed: word(seed, i), taken: Cell::new(0) }
    }
    fn next(&self) -> u64 {
        self.taken.set(self.taken.get() + 1);
        word(self.seed, self.taken.get())
    }
    pub(super) fn below(&self, n: u64) -> u64 {
        (self.next() >> 32) * n >> 32
    }
    fn unit(&self) -> f32 {
        self.next() as u32 as f32 / 4294967296.0
    }
    fn signed(&self) -> f32 {
        self.unit() * 2.0 - 1.0
    }
    pub(super) fn any(&self) -> f32 {
        f32::from_bits(self.next() as u32)
    }
    fn pick(&self, from: &[f32]) -> f32 {
        from[self.below(from.len() as u64) as usize]
    }
    /// x or one of three floats on either side.
    fn near(&self, x: f32) -> f32 {
        step(x, self.below(7) as i32 - 3)
    }
    fn small(&self, bits: u64) -> f32 {
        0.5f32.powi(self.below(bits) as i32)
    }
}

pub(super) const FAMILIES: u64 = 13;

/// Samples of one family, before entry.
pub(super) fn samples(w: &Words, family: u64, edges: &[f32]) -> [f32; 16] {
    let (a, b) = (w.unit(), w.unit());
    match family {
        // rough, smooth, flat
        0 => from_fn(|_| w.unit()),
        1 => {
            let (dx, dy, noise) = (w.signed() * w.small(8), w.signed() * w.small(8), w.small(20));
            from_fn(|i| a + dx * (i % 4) as f32 + dy * (i / 4) as f32 + noise * w.signed())
        }
        2 => [a; 16],
        // two values, only 0 and 1; 0, 1 and about the threshold among values that are close together
        3 => from_fn(|_| [a, b][w.below(2) as usize]),
        4 => from_fn(|_| w.below(2) as f32),
        5 => from_fn(|_| match w.below(8) {
            0 => 0.0,
            1 => 1.0,
            2 => w.near(BC4_MIN_VALUE),
            3 => w.near(1.0 - BC4_MIN_VALUE),
            _ => a + 0.1 * w.signed(),
        }),
        // nearly flat, by 1/65536 and by anything
        6 => from_fn(|_| a + b * 4.0 * w.unit() / 65536.0),
        7 => {
            let spread = w.small(26);
            from_fn(|_| a + w.signed() * spread)
        }
        // levels of either format, close together; levels and their middles anywhere; floats next to those
        8 => {
            let (steps, far) = (255 - w.below(2), 1 + w.below(9));
            let least = w.below(steps);
            from_fn(|_| w.near((least + w.below(far)) as f32 / steps as f32))
        }
        9 => from_fn(|_| w.pick(edges)),
        // one outlier
        10 => {
            let (at, to) = (w.below(16) as usize, [0.0, 1.0, w.unit()][w.below(3) as usize]);
            let spread = w.small(20);
            from_fn(|i| if i == at { to } else { a + w.signed() * spread })
        }
        // down to the smallest floats, and close to 1
        11 => from_fn(|_| w.unit() * w.small(150)),
        _ => from_fn(|_| 1.0 - w.unit() * w.small(30)),
    }
}

pub(super) fn lanes(rows: [Vec4; 4]) -> [f32; 16] {
    from_fn(|i| rows[i / 4][i % 4])
}

fn rows(lanes: &[f32; 16]) -> [Vec4; 4] {
    from_fn(|i| Vec4::new(lanes[4 * i], lanes[4 * i + 1], lanes[4 * i + 2], lanes[4 * i + 3]))
}

/// The mean as compress_inter6 has it.
fn mean(block: &Block) -> f32 {
    let [b0, b1, b2, b3] = block.b;
    let b = b0 + b1 + b2 + b3;
    ((b.x + b.y) + (b.z + b.w)) * (1.0 / 16.0)
}

fn nudged(block: &Block) -> [f32; 2] {
    let (min, max) = block.min_max();
    [min, max].map(|x| mean(block) + (x - mean(block)) * 0.95)
}

/// The ends after one fit, as compress_inter6_impl has it.
fn fitted([c0, c1]: [f32; 2], block: &Block) -> [f32; 2] {
    let weights = Inter6Palette::new(c0, c1).block_closest_weights(block);
    let (x0, x1) = bcn_util::least_squares_weights_f32_vec4(&block.b, &weights);
    [x0, x1].map(|x| x.clamp(0.0, 1.0))
}

fn ends(w: &Words, edges: &[f32], block: &Block) -> [f32; 2] {
    let (min, max) = block.min_max();
    let (a, how) = (w.unit(), w.below(12));
    let [c0, c1] = match how {
        // the floats of two bytes, in both formats; of the block's own end points
        0 => [0, 8].map(|shift| n8::f32((w.next() >> shift) as u8)),
        1 => [0, 8].map(|shift| s8::uf32((w.next() >> shift) as u8)),
        2 | 3 => {
            let e = EndPoints::new_inter6(min, max, how == 2);
            [e.c0_f, e.c1_f]
        }
        // anywhere; the block's smallest and largest, nudged, and fitted once or twice
        4 => [a, w.unit()],
        5 => [min, max],
        6 => nudged(block),
        7 => fitted(nudged(block), block),
        8 => fitted(fitted(nudged(block), block), block),
        // equal, very close, 0 or 1, and floats that are no ends
        9 => [[a, n8::f32(w.next() as u8), min, 0.0, 1.0][w.below(5) as usize]; 2],
        10 if w.below(2) == 0 => [a, w.near(a)],
        10 => [a, a + w.signed() * w.small(30)],
        _ => [w.below(2) as f32, [w.unit(), w.below(2) as f32, w.any(), w.pick(edges), f32::NAN][w.below(5) as usize]],
    };
    if w.below(2) == 0 {
        [c0, c1]
    } else {
        [c1, c0]
    }
}

/// Between the ends: on and between the values of either palette, where `closest` turns; or past either end.
fn among(w: &Words, [c0, c1]: [f32; 2]) -> f32 {
    match w.below(4) {
        0 => w.near(c1 + (c0 - c1) * (w.below(15) as f32 / 14.0)),
        1 => w.near(c1 + (c0 - c1) * (w.below(11) as f32 / 10.0)),
        2 => c1 - (c0 - c1) * (w.unit() * 8.0),
        _ => c1 + (c0 - c1) * (w.unit() * 8.0),
    }
}

/// A dithered sample: in 0..1, from -1 to 2, about 1/2, between the ends, at a tie of two four-value colours, any float.
fn pixel(w: &Words, edges: &[f32], ends: [f32; 2]) -> f32 {
    match w.below(8) {
        0 => w.unit(),
        1 => w.unit() * 3.0 - 1.0,
        2 => w.near(0.5),
        3 => w.pick(edges),
        4 => w.any(),
        5 => {
            let colors = Inter4Palette::new(ends[0], ends[1]).colors;
            w.near((w.pick(&colors) + w.pick(&colors)) * 0.5)
        }
        _ => among(w, ends),
    }
}

fn threshold(w: &Words, edges: &[f32], block: &Block) -> f32 {
    let sample = lanes(block.b)[w.below(16) as usize];
    match w.below(12) {
        0 => w.unit(),
        1 => w.pick(edges),
        2 => w.any(),
        3 => w.unit() * w.small(30),
        4 => sample,
        5 => 1.0 - sample,
        _ => BC4_MIN_VALUE,
    }
}

/// Weights for least squares: those of a palette, all alike or nearly, sevenths, and any.
fn weights(w: &Words, ends: [f32; 2], block: &Block) -> [f32; 16] {
    let (a, spread) = (w.unit(), w.small(26));
    match w.below(10) {
        0 => [a; 16],
        1 => [1.0 - w.below(8) as f32 * (1.0 / 7.0); 16],
        2 => from_fn(|_| 1.0 - w.below(8) as f32 * (1.0 / 7.0)),
        3 => from_fn(|_| w.unit()),
        4 => from_fn(|_| w.unit() * 9.0 - 1.0),
        5 => from_fn(|_| a + w.signed() * spread),
        // two weights opposite, the others 0: for 2^-14 the determinant is EPSILON itself
        6 => {
            let (x, at, by) = (w.near(w.small(3) / 8192.0), w.below(16), 1 + w.below(15));
            from_fn(|i| if i as u64 == at { x } else { -x * (i as u64 == (at + by) % 16) as u8 as f32 })
        }
        _ => lanes(Inter6Palette::new(ends[0], ends[1]).block_closest_weights(block)),
    }
}

/// Sixteen errors to diffuse: at one pixel and 0 elsewhere, or at all.
fn errors(w: &Words, edges: &[f32]) -> [f32; 16] {
    let (one, at, how, zero) = (w.below(2) == 0, w.below(16) as usize, w.below(6), [0.0, -0.0][w.below(2) as usize]);
    let special = [0.0, -0.0, f32::INFINITY, f32::NEG_INFINITY, f32::MAX, f32::MIN_POSITIVE, f32::from_bits(1)];
    from_fn(|i| match how {
        _ if one && i != at => zero,
        0 => w.pick(edges),
        1 => w.any(),
        2 => w.pick(&special),
        3 => w.signed() * w.small(150),
        _ => w.signed(),
    })
}

/// A float, but pixel - answer is the answer: so what block_dither diffuses can be chosen, and is that very float.
#[derive(Clone, Copy, Default)]
struct Chosen(f32);
impl Add for Chosen {
    type Output = Self;
    fn add(self, x: Self) -> Self {
        Self(self.0 + x.0)
    }
}
impl AddAssign for Chosen {
    fn add_assign(&mut self, x: Self) {
        self.0 += x.0
    }
}
impl Sub for Chosen {
    type Output = Self;
    fn sub(self, answer: Self) -> Self {
        answer
    }
}
impl Mul<f32> for Chosen {
    type Output = Self;
    fn mul(self, x: f32) -> Self {
        Self(self.0 * x)
    }
}

fn float<const N: usize>(x: [u32; N]) -> [f32; N] {
    x.map(f32::from_bits)
}

fn word_of<const N: usize>(x: [f32; N]) -> [u32; N] {
    x.map(f32::to_bits)
}

/// What a call writes.
fn out<const N: usize>(call: impl FnOnce(&mut [f32; N])) -> [u32; N] {
    let mut out = [0.0; N];
    call(&mut out);
    out.map(bits)
}

fn indexed(call: impl FnOnce(&mut u64) -> f32) -> (u64, u32) {
    let mut data = 0;
    let error = call(&mut data);
    (data, bits(error))
}

fn rust_indexed((list, error): (IndexList, f32)) -> (u64, u32) {
    (list.data, bits(error))
}

pub(super) type Indexing = extern "C" fn(f32, f32, &[f32; 16], &mut u64) -> f32;

struct Blocks<'a> {
    seed: u64,
    n: u64,
    edges: &'a [f32],
}
impl Blocks<'_> {
    /// Ends and a block, and the words that are left.
    fn input(&self, i: u64) -> ([f32; 2], Block, Words) {
        let w = Words::new(self.seed, i);
        let block = Block::from_raw(samples(&w, w.below(FAMILIES), self.edges));
        let ends = ends(&w, self.edges, &block);
        if w.below(6) > 0 {
            return (ends, block, w);
        }
        (ends, Block::from_raw(from_fn(|_| among(&w, ends))), w)
    }

    fn compare<R: PartialEq + Debug>(
        &self,
        name: &str,
        rattle: impl Fn([f32; 2], &[f32; 16]) -> R + Sync,
        rust: impl Fn([f32; 2], &Block) -> R + Sync,
    ) -> bool {
        let input = |i| {
            let (ends, block, _) = self.input(i);
            (word_of(ends), word_of(lanes(block.b)))
        };
        compare(
            name,
            self.n,
            input,
            |(e, b)| rattle(float(e), &float(b)),
            |(e, b)| rust(float(e), &Block { b: rows(&float(b)) }),
        )
    }

    fn palette<P: Palette>(
        &self,
        kind: &str,
        error: extern "C" fn(&[f32; 16], f32, f32) -> f32,
        closest: extern "C" fn(f32, f32, f32, &mut [f32; 2]) -> u8,
        block_closest: Indexing,
        dither: Indexing,
    ) -> bool {
        let mut same = self.compare(
            &format!("palette_error {kind}"),
            |[c0, c1], b| bits(error(b, c0, c1)),
            |[c0, c1], b| bits(P::new(c0, c1).block_closest_error_sq(b)),
        );
        same &= compare(
            &format!("closest {kind}"),
            4 * self.n,
            |i| {
                let (ends, _, w) = self.input(i);
                word_of([ends[0], ends[1], pixel(&w, self.edges, ends)])
            },
            |x| {
                let [c0, c1, pixel] = float(x);
                let mut index = 255;
                let floats = out(|out| index = closest(c0, c1, pixel, out));
                (index, floats)
            },
            |x| {
                let [c0, c1, pixel] = float(x);
                let (index, value, error) = P::new(c0, c1).closest(pixel);
                (index, [value, error].map(bits))
            },
        );
        same &= self.compare(
            &format!("block_closest {kind}"),
            |[c0, c1], b| indexed(|data| block_closest(c0, c1, b, data)),
            |[c0, c1], b| rust_indexed(P::new(c0, c1).block_closest(b)),
        );
        same &= self.compare(
            &format!("block_dither {kind}"),
            |[c0, c1], b| indexed(|data| dither(c0, c1, b, data)),
            |[c0, c1], b| rust_indexed(P::new(c0, c1).block_dither(b)),
        );
        same & self.compare(
            &format!("block_dither {kind}, flat"),
            |[c0, c1], b| indexed(|data| dither(c0, c1, &[b[0]; 16], data)),
            |[c0, c1], b| rust_indexed(P::new(c0, c1).block_dither(b.b[0].x)),
        )
    }
}

/// Zeros of both signs, NaN, 1, any float, or one of few values: what no block holds after entry, and equal ones.
fn unlike(w: &Words) -> f32 {
    match w.below(8) {
        0 => 0.0,
        1 => -0.0,
        2 => f32::NAN,
        3 => 1.0,
        4 => w.any(),
        _ => w.below(24) as f32 / 16.0 - 0.25,
    }
}

/// The samples by place, by a sort of the standard library: NaN left out, 1 for what is not below it and for places that are left over, and of equal
/// samples the first of the block.
fn places(samples: [f32; 16]) -> [f32; 16] {
    let mut sorted = samples.to_vec();
    sorted.retain(|x| *x < 1.0);
    sorted.sort_by(|a, b| a.partial_cmp(b).unwrap());
    from_fn(|k| sorted.get(k).map_or(1.0, |x| samples.into_iter().find(|y| y == x).unwrap()))
}

pub(super) fn compare_all(seed: u64, n: u64, edges: &[f32]) -> bool {
    let blocks = Blocks { seed, n, edges };
    let mut same = compare(
        "from_raw",
        n,
        |i| {
            let w = Words::new(seed, i);
            let family = w.below(2 * FAMILIES);
            word_of(if family < FAMILIES { samples(&w, family, edges) } else { from_fn(|_| w.any()) })
        },
        |s| out(|out| inner_from_raw(&float(s), out)),
        |s| lanes(Block::from_raw(float(s)).b).map(bits),
    );
    same &=
        blocks.compare("min_max", |_, b| out(|out| inner_min_max(b, out)), |_, b| <[f32; 2]>::from(b.min_max()).map(bits));
    same &= compare(
        "min_max_with_threshold",
        n,
        |i| {
            let (_, block, w) = blocks.input(i);
            (threshold(&w, edges, &block).to_bits(), word_of(lanes(block.b)))
        },
        |(t, b)| out(|out| inner_min_max_with_threshold(&float(b), f32::from_bits(t), out)),
        |(t, b)| {
            let block = Block { b: rows(&float(b)) };
            <[f32; 2]>::from(block.min_max_with_threshold(f32::from_bits(t))).map(bits)
        },
    );
    same &= blocks.compare("mean", |_, b| bits(inner_mean(b)), |_, b| bits(mean(b)));

    same &= compare(
        "places",
        n,
        |i| {
            let w = Words::new(seed, i);
            let family = w.below(2 * FAMILIES);
            word_of(if family < FAMILIES { samples(&w, family, edges) } else { from_fn(|_| unlike(&w)) })
        },
        |s| out(|out| inner_places(&float::<16>(s).map(quiet), out)),
        |s| places(float(s)).map(bits),
    );

    same &=
        blocks.palette::<Inter6Palette>("six", inner_palette_error6, inner_closest6, inner_block_closest6, inner_dither6);
    same &=
        blocks.palette::<Inter4Palette>("four", inner_palette_error4, inner_closest4, inner_block_closest4, inner_dither4);
    same &= blocks.compare(
        "block_closest_weights",
        |[c0, c1], b| out(|out| inner_weights(c0, c1, b, out)),
        |[c0, c1], b| lanes(Inter6Palette::new(c0, c1).block_closest_weights(b)).map(bits),
    );

    same &= compare(
        "least_squares",
        n,
        |i| {
            let (ends, block, w) = blocks.input(i);
            [word_of(lanes(block.b)), word_of(weights(&w, ends, &block))]
        },
        |[b, w]| out(|out| inner_least_squares(&float(b), &float(w), out)),
        |[b, w]| <[f32; 2]>::from(bcn_util::least_squares_weights_f32_vec4(&rows(&float(b)), &rows(&float(w)))).map(bits),
    );
    same & compare(
        "diffuse",
        n,
        |i| word_of(errors(&Words::new(seed, i), edges)),
        |errors| {
            let mut map = [0.0; 16];
            let pixels = from_fn(|i| {
                let pixel = map[i];
                inner_diffuse(&mut map, i, f32::from_bits(errors[i]));
                bits(pixel)
            });
            [pixels, map.map(bits)]
        },
        |errors| {
            let mut pixels = [0; 16];
            bcn_util::block_dither(Chosen(0.0), |i, pixel: Chosen| {
                pixels[i] = bits(pixel.0);
                Chosen(f32::from_bits(errors[i]))
            });
            [pixels; 2]
        },
    )
}
