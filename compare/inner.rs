//! inner [blocks] [SEED [COUNT]]: each inner function of the Rattle library beside the one of the Rust text. inner time: how
//! long a call takes. inner decode, inner errors [SEED [COUNT]], inner encode [SEED [COUNT]]: the public calls.
//! A child module of the Rust text's bc4.rs, so that it sees the private items. It only calls them.
use super::*;
use std::{
    array::from_fn,
    fmt::Debug,
    sync::atomic::{AtomicU64, Ordering::Relaxed},
    thread,
};

#[path = "blocks.rs"]
mod blocks;
#[path = "calls.rs"]
mod calls;
#[path = "time.rs"]
mod time;

unsafe extern "C" {
    safe fn inner_abs(x: f32) -> f32;
    safe fn inner_min(a: f32, b: f32) -> f32;
    safe fn inner_max(a: f32, b: f32) -> f32;
    safe fn inner_lane_min(a: f32, b: f32) -> f32;
    safe fn inner_lane_max(a: f32, b: f32) -> f32;
    safe fn inner_clamp(x: f32) -> f32;
    safe fn inner_entry_clamp(x: f32) -> f32;
    safe fn inner_trunc(x: f32) -> f32;
    safe fn inner_byte_of(x: f32) -> u8;
    safe fn inner_byte_up_to_7(x: f32) -> u32;
    safe fn inner_n8_f32(x: u8) -> f32;
    safe fn inner_norm(x: u8) -> u8;
    safe fn inner_uf32(x: u8) -> f32;
    safe fn inner_from_norm(x: u8) -> u8;
    safe fn inner_as_i8(x: u8) -> i8;
    safe fn inner_new_inter6(e0: f32, e1: f32, snorm: bool, bytes: &mut [u8; 2], values: &mut [f32; 2]);
    safe fn inner_new_inter4(e0: f32, e1: f32, snorm: bool, bytes: &mut [u8; 2], values: &mut [f32; 2]);
    safe fn inner_quantize(e0: f32, e1: f32, snorm: bool, values: &mut [f32; 2]);
    safe fn inner_new_closest(value: f32, snorm: bool, bytes: &mut [u8; 2], values: &mut [f32; 2]) -> bool;
    safe fn inner_new_inter6_unorm(c0: u8, c1: u8, bytes: &mut [u8; 2], values: &mut [f32; 2]);
    safe fn inner_with_indexes(c0: u8, c1: u8, indexes: u64, out: &mut [u8; 8]);
    safe fn inner_new_all(value: u8) -> u64;
    safe fn inner_get(indexes: u64, index: usize) -> u8;
    safe fn inner_set(indexes: &[u8; 16]) -> u64;
    safe fn inner_from_raw(samples: &[f32; 16], out: &mut [f32; 16]);
    safe fn inner_min_max(b: &[f32; 16], out: &mut [f32; 2]);
    safe fn inner_min_max_with_threshold(b: &[f32; 16], threshold: f32, out: &mut [f32; 2]);
    safe fn inner_mean(b: &[f32; 16]) -> f32;
    safe fn inner_places(b: &[f32; 16], out: &mut [f32; 16]);
    safe fn inner_palette_error6(b: &[f32; 16], c0: f32, c1: f32) -> f32;
    safe fn inner_palette_error4(b: &[f32; 16], c0: f32, c1: f32) -> f32;
    safe fn inner_closest6(c0: f32, c1: f32, pixel: f32, out: &mut [f32; 2]) -> u8;
    safe fn inner_closest4(c0: f32, c1: f32, pixel: f32, out: &mut [f32; 2]) -> u8;
    safe fn inner_weights(c0: f32, c1: f32, b: &[f32; 16], out: &mut [f32; 16]);
    safe fn inner_block_closest6(c0: f32, c1: f32, b: &[f32; 16], data: &mut u64) -> f32;
    safe fn inner_block_closest4(c0: f32, c1: f32, b: &[f32; 16], data: &mut u64) -> f32;
    safe fn inner_least_squares(colors: &[f32; 16], w: &[f32; 16], out: &mut [f32; 2]);
    safe fn inner_dither6(c0: f32, c1: f32, b: &[f32; 16], data: &mut u64) -> f32;
    safe fn inner_dither4(c0: f32, c1: f32, b: &[f32; 16], data: &mut u64) -> f32;
    safe fn inner_diffuse(map: &mut [f32; 16], i: usize, error: f32);
}

/// Puts the inputs 0 to n - 1 to both sides and prints the function's line. Whether all answers agree.
fn compare<I: Copy + Debug, R: PartialEq + Debug>(
    name: &str,
    n: u64,
    input: impl Fn(u64) -> I + Sync,
    rattle: impl Fn(I) -> R + Sync,
    rust: impl Fn(I) -> R + Sync,
) -> bool {
    const PART: u64 = 1 << 16;
    const SHOWN: usize = 5;
    let next = AtomicU64::new(0);
    let work = || {
        let (mut differ, mut first) = (0, vec![]);
        loop {
            let start = next.fetch_add(PART, Relaxed);
            if start >= n {
                return (differ, first);
            }
            for i in start..n.min(start + PART) {
                let x = input(i);
                let (a, b) = (rattle(x), rust(x));
                if a != b {
                    differ += 1;
                    if first.len() < SHOWN {
                        first.push((i, format!("  {x:x?}: rattle {a:x?}, rust {b:x?}")));
                    }
                }
            }
        }
    };
    let (mut differ, mut first) = (0, vec![]);
    thread::scope(|s| {
        let threads = thread::available_parallelism().map_or(1, |t| t.get());
        let parts: Vec<_> = (0..threads).map(|_| s.spawn(work)).collect();
        for part in parts {
            let (d, f) = part.join().unwrap();
            differ += d;
            first.extend(f);
        }
    });
    println!("{name:26}{n:>10} inputs{differ:>10} differ");
    first.sort();
    first.iter().take(SHOWN).for_each(|(_, text)| println!("{text}"));
    differ == 0
}

/// A float by its bits, so that zeros differ by sign; all NaNs are one.
fn bits(x: f32) -> u32 {
    if x.is_nan() {
        f32::NAN.to_bits()
    } else {
        x.to_bits()
    }
}

/// What min or max answered, by its bits; without the sign for zeros of different sign, where Rust leaves the sign open.
fn bits_but_open(a: f32, b: f32, answer: f32) -> u32 {
    bits(if a == 0.0 && b == 0.0 && a.to_bits() != b.to_bits() { answer.abs() } else { answer })
}

/// The same NaN, quiet. By Rust's documentation f32::min and f32::max pass over both kinds, but as compiled for Arm only the
/// quiet ones. So the Rust text is given those, and the departure has its own lines at the end.
fn quiet(x: f32) -> f32 {
    if x.is_nan() {
        f32::from_bits(x.to_bits() | 0x40_0000)
    } else {
        x
    }
}

type Ends = ([u8; 2], [u32; 2]);

fn rust_ends(e: EndPoints) -> Ends {
    ([e.c0, e.c1], [e.c0_f, e.c1_f].map(bits))
}

fn rattle_ends(call: impl FnOnce(&mut [u8; 2], &mut [f32; 2])) -> Ends {
    let (mut bytes, mut values) = ([0; 2], [0.0; 2]);
    call(&mut bytes, &mut values);
    (bytes, values.map(bits))
}

/// Random word i of a seed.
fn word(seed: u64, i: u64) -> u64 {
    fn mix(z: u64) -> u64 {
        let z = (z ^ (z >> 30)).wrapping_mul(0xBF58476D1CE4E5B9);
        let z = (z ^ (z >> 27)).wrapping_mul(0x94D049BB133111EB);
        z ^ (z >> 31)
    }
    mix(mix(seed.wrapping_add(1)).wrapping_add(i.wrapping_mul(0x9E3779B97F4A7C15)))
}

/// The float d steps above x.
fn step(x: f32, d: i32) -> f32 {
    if x.is_sign_negative() {
        return -step(-x, -d);
    }
    match (x.to_bits() as i32).saturating_add(d) {
        below @ ..0 => -f32::from_bits(-below as u32),
        b => f32::from_bits(b as u32),
    }
}

/// NaNs, infinities, zeros, subnormals and values out of range; and in both formats the value of each level and the middle of
/// each two levels, where rounding turns, with three floats on either side.
fn edges() -> Vec<f32> {
    let mut set = vec![f32::NAN, f32::from_bits(0x7f80_0001), f32::INFINITY, f32::NEG_INFINITY, 0.0, -0.0, -1.0, 2.0];
    set.extend([f32::MAX, f32::MIN, f32::MIN_POSITIVE, f32::from_bits(0x7f_ffff), f32::from_bits(0x807f_ffff)]);
    for steps in [255, 254] {
        for half in 0..=2 * steps {
            let at = (half as f64 / (2 * steps) as f64) as f32;
            set.extend((-3..=3).map(|d| step(at, d)));
        }
    }
    set.sort_by(f32::total_cmp);
    set.dedup_by_key(|x| x.to_bits());
    set
}

struct Pairs {
    seed: u64,
    edges: Vec<f32>,
    crossed: u64,
    random: u64,
}
impl Pairs {
    /// First the edges crossed with themselves, then random pairs.
    fn at(&self, i: u64) -> [u32; 2] {
        let n = self.edges.len() as u64;
        if i < self.crossed {
            return [i / n, i % n].map(|k| self.edges[k as usize].to_bits());
        }
        let (both, how) = (word(self.seed, 2 * i), word(self.seed, 2 * i + 1));
        let (p, q) = (both as u32, (both >> 32) as u32);
        let any = f32::from_bits;
        let unit = |w: u32| w as f32 / 4294967296.0;
        let wide = |w: u32| unit(w) * 3.0 - 1.0;
        let edge = self.edges[(p as u64 * n >> 32) as usize];
        let (a, b) = match how % 8 {
            0 => (any(p), any(q)),
            1 => (unit(p), unit(q)),
            2 => (wide(p), wide(q)),
            3 => (any(p), any(p)),
            4 => (unit(p), unit(p)),
            5 => (unit(p), unit(p) + (unit(q) - 0.5) / (1 << (how >> 8) % 25) as f32),
            6 => (edge, any(q)),
            _ => (edge, wide(q)),
        };
        (if how & 128 == 0 { [a, b] } else { [b, a] }).map(f32::to_bits)
    }

    fn compare<R: PartialEq + Debug>(
        &self,
        name: &str,
        rattle: impl Fn(f32, f32) -> R + Sync,
        rust: impl Fn(f32, f32) -> R + Sync,
    ) -> bool {
        let n = self.crossed + self.random;
        let float = f32::from_bits;
        compare(
            name,
            n,
            |i| self.at(i),
            |[a, b]| rattle(float(a), float(b)),
            |[a, b]| rust(quiet(float(a)), quiet(float(b))),
        )
    }
}

fn all_floats<R: PartialEq + Debug>(name: &str, rattle: impl Fn(f32) -> R + Sync, rust: impl Fn(f32) -> R + Sync) -> bool {
    let float = f32::from_bits;
    compare(name, 1 << 32, |i| i as u32, |x| rattle(float(x)), |x| rust(float(x)))
}

/// Every float from +0 to 1, and -0.
fn unit<R: PartialEq + Debug>(name: &str, rattle: impl Fn(f32) -> R + Sync, rust: impl Fn(f32) -> R + Sync) -> bool {
    let float = f32::from_bits;
    let input = |i| if i <= 0x3f80_0000 { i as u32 } else { 0x8000_0000 };
    compare(name, 0x3f80_0002, input, |x| rattle(float(x)), |x| rust(float(x)))
}

/// The bytes below n.
fn bytes<R: PartialEq + Debug>(name: &str, n: u64, rattle: impl Fn(u8) -> R + Sync, rust: impl Fn(u8) -> R + Sync) -> bool {
    compare(name, n, |i| i as u8, rattle, rust)
}

/// The functions over floats, bytes, pairs of ends and index lists.
fn compare_numbers(pairs: &Pairs, seed: u64, lists: u64) -> bool {
    let mut same = true;
    same &= all_floats("abs", |x| bits(inner_abs(x)), |x| bits(x.abs()));
    same &= all_floats("trunc", |x| bits(inner_trunc(x)), |x| bits(x.trunc()));
    same &= all_floats("clamp", |x| bits(inner_clamp(x)), |x| bits(x.clamp(0.0, 1.0)));
    same &= all_floats("entry_clamp", |x| bits(inner_entry_clamp(x)), |x| bits(Block::from_raw([x; 16]).b[0].x));
    same &= all_floats("byte_of", |x| inner_byte_of(x), |x| x as u8);
    same &= all_floats("byte_up_to_7", |x| inner_byte_up_to_7(quiet(x)), |x| (x as u8).min(7) as u32);

    same &= pairs.compare("min", |a, b| bits_but_open(a, b, inner_min(a, b)), |a, b| bits_but_open(a, b, a.min(b)));
    same &= pairs.compare("max", |a, b| bits_but_open(a, b, inner_max(a, b)), |a, b| bits_but_open(a, b, a.max(b)));
    let splat = Vec4::splat;
    same &= pairs.compare("lane_min", |a, b| bits(inner_lane_min(a, b)), |a, b| bits(splat(a).min(splat(b)).x));
    same &= pairs.compare("lane_max", |a, b| bits(inner_lane_max(a, b)), |a, b| bits(splat(a).max(splat(b)).x));

    same &= bytes("n8::f32", 256, |x| bits(inner_n8_f32(x)), |x| bits(n8::f32(x)));
    same &= bytes("s8::norm", 256, |x| inner_norm(x), s8::norm);
    same &= bytes("s8::uf32", 256, |x| bits(inner_uf32(x)), |x| bits(s8::uf32(x)));
    same &= bytes("s8::from_norm", 255, |x| inner_from_norm(x), s8::from_norm);
    same &= bytes("s8::as_i8", 256, |x| inner_as_i8(x), |x| x as i8);

    for (snorm, format) in [(false, "unorm"), (true, "snorm")] {
        same &= pairs.compare(
            &format!("new_inter6 {format}"),
            |a, b| rattle_ends(|bytes, values| inner_new_inter6(a, b, snorm, bytes, values)),
            |a, b| rust_ends(EndPoints::new_inter6(a, b, snorm)),
        );
        same &= pairs.compare(
            &format!("new_inter4 {format}"),
            |a, b| rattle_ends(|bytes, values| inner_new_inter4(a, b, snorm, bytes, values)),
            |a, b| rust_ends(EndPoints::new_inter4(a, b, snorm)),
        );
        same &= pairs.compare(
            &format!("quantize {format}"),
            |a, b| rattle_ends(|_, values| inner_quantize(a, b, snorm, values)).1,
            |a, b| <[f32; 2]>::from(EndPoints::quantize((a, b), snorm)).map(bits),
        );
        same &= unit(
            &format!("new_inter6 {format} (v, v)"),
            |v| rattle_ends(|bytes, values| inner_new_inter6(v, v, snorm, bytes, values)),
            |v| rust_ends(EndPoints::new_inter6(v, v, snorm)),
        );
        same &= unit(
            &format!("new_closest {format}"),
            |v| {
                let mut taken = false;
                let ends = rattle_ends(|bytes, values| taken = inner_new_closest(v, snorm, bytes, values));
                (taken, ends)
            },
            |v| (true, rust_ends(EndPoints::new_closest(v, snorm))),
        );
    }
    same &= compare(
        "new_inter6_unorm",
        1 << 16,
        |i| [(i >> 8) as u8, i as u8],
        |[c0, c1]| rattle_ends(|bytes, values| inner_new_inter6_unorm(c0, c1, bytes, values)),
        |[c0, c1]| rust_ends(EndPoints::new_inter6_unorm(c0, c1)),
    );

    let words = |i: u64| [2 * i, 2 * i + 1].map(|k| word(seed, k));
    let two = |w: u64| [w as u8, (w >> 8) as u8];
    same &= compare(
        "with_indexes, bytes",
        lists,
        words,
        |[data, ends]| {
            let [c0, c1] = two(ends);
            let mut out = [0; 8];
            inner_with_indexes(c0, c1, data, &mut out);
            out
        },
        |[data, ends]| {
            let [c0, c1] = two(ends);
            EndPoints { c0, c1, c0_f: 0.0, c1_f: 0.0 }.with_indexes(IndexList { data })
        },
    );
    same &= bytes("IndexList::new_all", 8, |x| inner_new_all(x), |x| IndexList::new_all(x).data);
    let sixteen = |w: [u64; 2]| from_fn(|k| w[k / 8].to_le_bytes()[k % 8]);
    same &= compare(
        "IndexList::set, get",
        lists,
        words,
        |w| {
            let data = inner_set(&sixteen(w));
            (data, from_fn::<u8, 16, _>(|k| inner_get(data, k)))
        },
        |w| {
            let mut list = IndexList::new_empty();
            sixteen(w).iter().enumerate().for_each(|(k, x)| list.set(k, x % 8));
            (list.data, from_fn(|k| list.get(k)))
        },
    );
    same
}

/// Where Rust leaves open what a function answers, or rustc may depart from Rust's documentation.
fn open_answers() {
    println!("Not differences: the sign that Rust leaves open, and where rustc may depart from Rust's documentation.");
    let zeros = |i: u64| [(i << 31) as u32, ((i ^ 1) << 31) as u32];
    // every signalling NaN of either sign, with 0.5, in both orders
    let signalling = |i: u64| {
        let nan = 0x7f80_0001 + (i >> 2) as u32 | ((i >> 1 & 1) << 31) as u32;
        if i & 1 == 0 {
            [nan, 0x3f00_0000]
        } else {
            [0x3f00_0000, nan]
        }
    };
    let float = f32::from_bits;
    let rattle_min = |[a, b]: [u32; 2]| bits(inner_min(float(a), float(b)));
    let rattle_max = |[a, b]: [u32; 2]| bits(inner_max(float(a), float(b)));
    let rust_min = |[a, b]: [u32; 2]| bits(float(a).min(float(b)));
    let rust_max = |[a, b]: [u32; 2]| bits(float(a).max(float(b)));
    compare("min of +0 and -0", 2, zeros, rattle_min, rust_min);
    compare("max of +0 and -0", 2, zeros, rattle_max, rust_max);
    compare("min of signalling NaN", 4 * 0x3f_ffff, signalling, rattle_min, rust_min);
    compare("max of signalling NaN", 4 * 0x3f_ffff, signalling, rattle_max, rust_max);
}

pub(crate) fn main() -> ! {
    let mut args: Vec<String> = std::env::args().skip(1).collect();
    let mode = match args.first().map(String::as_str) {
        Some(word) if word.parse::<u64>().is_err() => args.remove(0),
        _ => String::new(),
    };
    let arg = |i: usize, or| args.get(i).map_or(or, |s| s.parse().expect("a number"));
    let (seed, edges) = (arg(0, 1), edges());
    let same = match mode.as_str() {
        "time" => {
            time::main();
            true
        }
        "decode" => calls::compare_decode(),
        "errors" => calls::compare_errors(seed, arg(1, 1_000_000), &edges),
        "encode" => calls::compare_encode(seed, arg(1, 1_000_000), &edges),
        "" | "blocks" => {
            let random = arg(1, 60_000_000);
            let pairs = Pairs { seed, crossed: (edges.len() * edges.len()) as u64, edges, random };
            let mut same = true;
            if mode.is_empty() {
                println!("seed {seed}, pairs: {} of edges and {random} random", pairs.crossed);
                same &= compare_numbers(&pairs, seed, random / 10);
            }
            same &= blocks::compare_all(seed, random / 10, &pairs.edges);
            if mode.is_empty() {
                open_answers();
            }
            same
        }
        _ => {
            eprintln!("no mode {mode}: blocks, time, decode, errors or encode");
            std::process::exit(2)
        }
    };
    std::process::exit(!same as i32)
}
