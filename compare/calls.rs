//! The public calls: decode against exact fractions, block error and resend against a plain loop, encode against the Rust text.
//! A child module of inner.rs.
use super::blocks::{samples, Words, FAMILIES};
use super::*;

unsafe extern "C" {
    safe fn inner_encode_block(samples: &[f32; 16], flags: u8, limit: u8, quality: u8, out: &mut u64) -> u8;
    safe fn inner_decode_block(encoded: &[u8; 8], snorm: bool, out: &mut [f32; 16]) -> u8;
    safe fn inner_block_error(samples: &[f32; 16], encoded: &[u8; 8], snorm: bool, out: &mut f32) -> u8;
    safe fn inner_resend(
        samples: &[f32; 16],
        held: &[u8; 8],
        flags: u8,
        limit: u8,
        quality: u8,
        out: &mut u64,
        fresh: &mut bool,
    ) -> u8;
}

// ---- document 01, "Eight bytes", in exact fractions and in f32

fn is_six([c0, c1]: [u8; 2], snorm: bool) -> bool {
    if snorm {
        c0 as i8 > c1 as i8
    } else {
        c0 > c1
    }
}

/// How many steps the scale has, and on which of them a byte is.
fn steps(snorm: bool) -> u32 {
    if snorm {
        254
    } else {
        255
    }
}

fn step_of(byte: u8, snorm: bool) -> u32 {
    if snorm {
        ((byte as i8).max(-127) as i32 + 127) as u32
    } else {
        byte as u32
    }
}

/// The exact value of index k: numerator and denominator.
fn exact([c0, c1]: [u8; 2], k: u32, snorm: bool) -> [u32; 2] {
    let (n, a, b) = (steps(snorm), step_of(c0, snorm), step_of(c1, snorm));
    match (is_six([c0, c1], snorm), k) {
        (_, 0) => [a, n],
        (_, 1) => [b, n],
        (true, _) => [(8 - k) * a + (k - 1) * b, 7 * n],
        (false, 6) => [0, 1],
        (false, 7) => [1, 1],
        (false, _) => [(6 - k) * a + (k - 1) * b, 5 * n],
    }
}

/// The floats that the document fixes.
fn values([c0, c1]: [u8; 2], snorm: bool) -> [f32; 8] {
    let [x, y] = [c0, c1].map(|c| step_of(c, snorm) as f32 / steps(snorm) as f32);
    if is_six([c0, c1], snorm) {
        let factor2 = 1.0 / 7.0 * (x - y);
        from_fn(|k| [x, y].get(k).copied().unwrap_or((8.0 - k as f32) * factor2 + y))
    } else {
        [x, y, x * 0.8 + y * 0.2, x * 0.6 + y * 0.4, x * 0.4 + y * 0.6, x * 0.2 + y * 0.8, 0.0, 1.0]
    }
}

fn index(block: [u8; 8], i: usize) -> usize {
    (u64::from_le_bytes(block) >> (16 + 3 * i) & 7) as usize
}

fn decoded(block: [u8; 8], snorm: bool) -> [f32; 16] {
    let eight = values([block[0], block[1]], snorm);
    from_fn(|i| eight[index(block, i)])
}

fn block_error(samples: &[f32; 16], block: [u8; 8], snorm: bool) -> f32 {
    let mut sum = 0.0;
    for (sample, value) in samples.iter().zip(decoded(block, snorm)) {
        let at_entry = match *sample {
            x if !(x > 0.0) => 0.0,
            x if !(x < 1.0) => 1.0,
            x => x,
        };
        let d = at_entry - value;
        sum += d * d;
    }
    sum
}

// ---- decode

/// |x - n / d| over d * 2^60, for a float that is 0 or at least 2^-37, as every decoded one has to be.
fn distance(x: f32, [n, d]: [u32; 2]) -> Option<u128> {
    let (exponent, digits) = (x.to_bits() >> 23, x.to_bits() & 0x7f_ffff);
    let whole = match exponent {
        0 if digits == 0 => 0,
        90..=127 => ((digits | 0x80_0000) as u128) << (exponent - 90),
        _ => return None,
    };
    Some((whole * d as u128).abs_diff((n as u128) << 60))
}

/// All pairs of endpoint bytes, all eight indexes, both formats; each index at two pixels.
pub(super) fn compare_decode() -> bool {
    const INDEXES: u64 = 0xfac688_fac688;
    const PER_UNIT: u32 = 2_097_152;
    let rattle = |block: [u8; 8], snorm| {
        let mut out = [f32::NAN; 16];
        (inner_decode_block(&block, snorm, &mut out), out.map(bits))
    };
    let mut same = true;
    for (snorm, format) in [(false, "unorm"), (true, "snorm")] {
        let block = |i: u64| (INDEXES << 16 | i).to_le_bytes();
        same &= compare(
            &format!("decode_block {format}"),
            1 << 16,
            block,
            |b| rattle(b, snorm),
            |b| (0, decoded(b, snorm).map(bits)),
        );
        let (mut count, mut beyond, mut worst) = (0u64, 0u64, (0u128, 1u32, [0; 2], 0));
        for b in (0..1 << 16).map(block) {
            let ends = [b[0], b[1]];
            for (i, x) in rattle(b, snorm).1.into_iter().enumerate() {
                let k = index(b, i) as u32;
                let [n, d] = exact(ends, k, snorm);
                count += 1;
                match distance(f32::from_bits(x), [n, d]) {
                    Some(far) if far * PER_UNIT as u128 <= (d as u128) << 60 => {
                        if far * worst.1 as u128 > worst.0 * d as u128 {
                            worst = (far, d, ends, k);
                        }
                    }
                    _ => beyond += 1,
                }
            }
        }
        let (far, d, ends, k) = worst;
        println!("  {count} decoded samples, {beyond} farther than 1/{PER_UNIT} from the exact value");
        println!(
            "  the farthest of the others: {far}/({d} * 2^60), {}/1000 of 2^-30, at ends {ends:02x?}, index {k}",
            far * 1000 / ((d as u128) << 30),
        );
        same &= beyond == 0;
    }
    same
}

// ---- block error, encode, resend

/// Samples of all families and any floats, infinities among them, but no NaN; a word of options; eight bytes.
struct Given {
    samples: [f32; 16],
    flags: u8,
    limit: u8,
    quality: u8,
    held: [u8; 8],
}
impl Given {
    fn new(seed: u64, i: u64, edges: &[f32]) -> Self {
        let w = Words::new(seed, i);
        let family = w.below(FAMILIES + 2);
        let mut samples = if family < FAMILIES { samples(&w, family, edges) } else { from_fn(|_| w.any()) };
        if w.below(4) == 0 {
            samples[w.below(16) as usize] = f32::INFINITY;
            samples[w.below(16) as usize] = f32::NEG_INFINITY;
        }
        let samples = samples.map(|x| if x.is_nan() { 0.0 } else { x });
        // the exhaustive search takes 32,640 pairs of palettes, so it is rare
        let search = w.below(2000) == 0;
        let (flags, limit, quality) = (w.below(256) as u8 & !4 | (search as u8) << 2, w.below(11) as u8, w.below(3) as u8);
        let mut given = Self { samples, flags, limit, quality, held: [0; 8] };
        // any bytes; the encoded ones, or these with one index changed
        let mut held = w.below(1 << 32) << 32 | w.below(1 << 32);
        let near = w.below(4);
        if near > 0 {
            held = u64::from_le_bytes(given.rust());
        }
        if near > 1 {
            held ^= 1 << (16 + w.below(48));
        }
        given.held = held.to_le_bytes();
        given
    }

    fn snorm(&self) -> bool {
        self.flags & 2 != 0
    }

    fn options(&self) -> Bc4Options {
        let flag = |bit: u8| self.flags >> bit & 1 == 1;
        Bc4Options {
            dither: flag(0),
            snorm: flag(1),
            brute_force: flag(2),
            use_inter4: flag(3),
            use_inter4_heuristic: flag(4),
            quantization: match self.quality {
                0 => Bc4Quantization::Round,
                1 => Bc4Quantization::MediumQuality,
                _ => Bc4Quantization::HighQuality,
            },
            fast_iter: flag(5),
            max_refine_iter: self.limit,
            size_variations: flag(6),
            iter_initial_inter4: flag(7),
        }
    }

    fn rust(&self) -> [u8; 8] {
        compress_bc4_block(self.samples, self.options())
    }
}

pub(super) fn compare_errors(seed: u64, n: u64, edges: &[f32]) -> bool {
    compare(
        "block_error",
        n,
        |i| i,
        |i| {
            let given = Given::new(seed, i, edges);
            let mut error = f32::NAN;
            let refusal = inner_block_error(&given.samples, &given.held, given.snorm(), &mut error);
            (refusal, bits(error))
        },
        |i| {
            let given = Given::new(seed, i, edges);
            (0, bits(block_error(&given.samples, given.held, given.snorm())))
        },
    )
}

pub(super) fn compare_encode(seed: u64, n: u64, edges: &[f32]) -> bool {
    let mut same = compare(
        "encode_block",
        n,
        |i| i,
        |i| {
            let given = Given::new(seed, i, edges);
            let mut block = 0;
            let refusal = inner_encode_block(&given.samples, given.flags, given.limit, given.quality, &mut block);
            (refusal, block.to_le_bytes())
        },
        |i| (0, Given::new(seed, i, edges).rust()),
    );
    let kept = AtomicU64::new(0);
    let dithered = AtomicU64::new(0);
    same &= compare(
        "resend",
        n,
        |i| i,
        |i| {
            let given = Given::new(seed, i, edges);
            let (mut block, mut fresh) = (0, false);
            let refusal =
                inner_resend(&given.samples, &given.held, given.flags, given.limit, given.quality, &mut block, &mut fresh);
            (refusal, block.to_le_bytes(), fresh)
        },
        |i| {
            let given = Given::new(seed, i, edges);
            if given.flags & 1 == 1 {
                dithered.fetch_add(1, Relaxed);
                return (5, [0; 8], false);
            }
            let error = |block| block_error(&given.samples, block, given.snorm());
            let new = given.rust();
            if error(new) < error(given.held) {
                return (0, new, true);
            }
            kept.fetch_add(1, Relaxed);
            (0, given.held, false)
        },
    );
    let (kept, dithered) = (kept.into_inner(), dithered.into_inner());
    println!("  of the resends {dithered} with dither are refused, {kept} keep the held bytes, {} replace them", n - dithered - kept);
    same
}
