//! bench BLOCKS RUNS: the library beside the Rust text, one process, ns of this thread's CPU time a block, medians of RUNS taken in turn.
include!("root.rs");
use std::hint::black_box;

extern "C" {
    fn bc4_encode_block(samples: *const f32, count: usize, options: u32, block: *mut u8, detail: *mut [usize; 4]) -> u32;
    fn bc4_decode_block(encoded: *const u8, length: usize, snorm: bool, samples: *mut f32, detail: *mut [usize; 4]) -> u32;
    fn bc4_block_error(
        samples: *const f32,
        count: usize,
        encoded: *const u8,
        length: usize,
        snorm: bool,
        error: *mut f32,
        detail: *mut [usize; 4],
    ) -> u32;
    fn bc4_encode_tile(
        samples: *const f32,
        count: usize,
        width: usize,
        height: usize,
        options: u32,
        out: *mut u8,
        length: usize,
        written: *mut usize,
        detail: *mut [usize; 4],
    ) -> u32;
    fn plain_decode(block: *const u8, out: *mut f32);
    fn clock_gettime(id: i32, ts: *mut [i64; 2]) -> i32;
}

fn cpu_ns() -> f64 {
    let mut ts = [0i64; 2];
    // CLOCK_THREAD_CPUTIME_ID
    assert!(unsafe { clock_gettime(3, &mut ts) } == 0);
    ts[0] as f64 * 1e9 + ts[1] as f64
}

struct Rng(u64);
impl Rng {
    fn next(&mut self) -> u64 {
        self.0 = self.0.wrapping_add(0x9E3779B97F4A7C15);
        let mut z = self.0;
        z = (z ^ (z >> 30)).wrapping_mul(0xBF58476D1CE4E5B9);
        z = (z ^ (z >> 27)).wrapping_mul(0x94D049BB133111EB);
        z ^ (z >> 31)
    }
    fn f(&mut self) -> f32 {
        (self.next() >> 40) as f32 / (1u64 << 24) as f32
    }
}

fn ours(b: &[f32; 16], word: u32) -> u64 {
    let (mut block, mut detail) = ([0u8; 8], [0usize; 4]);
    assert!(unsafe { bc4_encode_block(b.as_ptr(), 16, word, block.as_mut_ptr(), &mut detail) } == 0);
    u64::from_le_bytes(block)
}

/// The median time of each side, the two run in turn, and whether their answers are the same.
fn both(runs: usize, n: usize, mut a: impl FnMut() -> u64, mut b: impl FnMut() -> u64) -> (f64, f64) {
    let mut t = [vec![], vec![]];
    for _ in 0..runs {
        let s = cpu_ns();
        let x = black_box(a());
        let m = cpu_ns();
        let y = black_box(b());
        let e = cpu_ns();
        assert!(x == y, "the answers differ");
        t[0].push((m - s) / n as f64);
        t[1].push((e - m) / n as f64);
    }
    t.iter_mut().for_each(|v| v.sort_by(f64::total_cmp));
    (t[0][runs / 2], t[1][runs / 2])
}

fn line(name: &str, columns: &[(f64, f64)]) {
    print!("{name:44}");
    for (a, b) in columns {
        print!("{a:12.1}{b:12.1}{:8.2}", a / b);
    }
    println!();
}

fn main() {
    let args: Vec<String> = std::env::args().collect();
    let (n, runs): (usize, usize) = (args[1].parse().unwrap(), args[2].parse().unwrap());
    let mut r = Rng(1);
    let random: Vec<[f32; 16]> = (0..n).map(|_| std::array::from_fn(|_| r.f())).collect();
    let smooth: Vec<[f32; 16]> = (0..n)
        .map(|_| {
            let (b, gx, gy) = (r.f(), (r.f() - 0.5) * 0.1, (r.f() - 0.5) * 0.1);
            std::array::from_fn(|i| b + gx * (i % 4) as f32 + gy * (i / 4) as f32 + (r.f() - 0.5) * 0.004)
        })
        .collect();
    let sets: &[(&str, [u8; 4])] = &[
        ("all off, Round", [0, 0, 0, 0]),
        ("dither, Round", [1, 0, 0, 0]),
        ("snorm, Round", [2, 0, 0, 0]),
        ("inter4, Round", [8, 0, 0, 0]),
        ("inter4+heuristic+fast, refine 2, medium", [0x38, 2, 1, 0]),
        ("same + dither", [0x39, 2, 1, 0]),
        ("same + snorm", [0x3A, 2, 1, 0]),
        ("same + dither + snorm", [0x3B, 2, 1, 0]),
        ("inter4+sizes+reassign, refine 10, high", [0xC8, 10, 2, 0]),
        ("same + dither", [0xC9, 10, 2, 0]),
        ("same + snorm", [0xCA, 10, 2, 0]),
        ("same + dither + snorm", [0xCB, 10, 2, 0]),
    ];
    println!("ns a block, {n} blocks, median of {runs}; ours, the Rust's, ratio; random blocks, then smooth ones");
    for (name, w) in sets {
        let (o, word) = (options_of_word(*w).unwrap(), u32::from_le_bytes(*w));
        let columns: Vec<_> = [&random, &smooth]
            .iter()
            .map(|set| {
                both(
                    runs,
                    n,
                    || set.iter().fold(0, |a: u64, b| a.wrapping_mul(31).wrapping_add(ours(black_box(b), black_box(word)))),
                    || set.iter().fold(0, |a: u64, b| a.wrapping_mul(31).wrapping_add(u64::from_le_bytes(compress_bc4_block(black_box(*b), black_box(o))))),
                )
            })
            .collect();
        line(name, &columns);
    }
    let o = options_of_word([4, 0, 0, 0]).unwrap();
    let columns: Vec<_> = [&random, &smooth]
        .iter()
        .map(|set| {
            let few = &set[..20.min(n)];
            both(
                3,
                few.len(),
                || few.iter().fold(0, |a: u64, b| a.wrapping_mul(31).wrapping_add(ours(black_box(b), 4))),
                || few.iter().fold(0, |a: u64, b| a.wrapping_mul(31).wrapping_add(u64::from_le_bytes(compress_bc4_block(black_box(*b), black_box(o))))),
            )
        })
        .collect();
    line("exhaustive search, 20 blocks, median of 3", &columns);
    tile(&mut r, runs);
    println!("\nwhat the options buy: ns a block, and the root mean square of a sample's error in thousandths; random blocks, then smooth ones");
    let steps: &[(&str, [u8; 4])] = &[
        ("all off", [0, 0, 0, 0]),
        ("dither", [1, 0, 0, 0]),
        ("use_inter4", [8, 0, 0, 0]),
        ("use_inter4, max_refine_iter 2, fast_iter", [0x28, 2, 0, 0]),
        ("the same, medium", [0x28, 2, 1, 0]),
        ("the same, medium, use_inter4_heuristic", [0x38, 2, 1, 0]),
        ("use_inter4, max_refine_iter 10", [8, 10, 0, 0]),
        ("the same, high", [8, 10, 2, 0]),
        ("the same, high, size_variations", [0x48, 10, 2, 0]),
        ("the same, and iter_initial_inter4", [0xC8, 10, 2, 0]),
        ("brute_force", [4, 0, 0, 0]),
    ];
    // In turn, so that a change of the processor's speed meets all of them.
    let mut times = vec![[vec![], vec![]]; steps.len()];
    for _ in 0..runs {
        for ((_, w), t) in steps.iter().zip(&mut times) {
            for (set, t) in [&random, &smooth].into_iter().zip(t) {
                t.push(time(if w[0] == 4 { &set[..20.min(n)] } else { set }, u32::from_le_bytes(*w)));
            }
        }
    }
    for ((name, w), t) in steps.iter().zip(&mut times) {
        print!("{name:44}");
        for (set, t) in [&random, &smooth].into_iter().zip(t) {
            t.sort_by(f64::total_cmp);
            print!("{:12.0}{:12.2}", t[runs / 2], error(set, u32::from_le_bytes(*w)));
        }
        println!();
    }
}

fn time(set: &[[f32; 16]], word: u32) -> f64 {
    let start = cpu_ns();
    set.iter().for_each(|b| {
        black_box(ours(black_box(b), black_box(word)));
    });
    (cpu_ns() - start) / set.len() as f64
}

/// How far the decoded samples are from those that were handed in; unsigned.
fn error(set: &[[f32; 16]], word: u32) -> f64 {
    let sum: f64 = set
        .iter()
        .map(|b| {
            let (block, mut error, mut detail) = (ours(b, word).to_le_bytes(), 0.0, [0; 4]);
            assert!(unsafe { bc4_block_error(b.as_ptr(), 16, block.as_ptr(), 8, false, &mut error, &mut detail) } == 0);
            error as f64
        })
        .sum();
    1000.0 * (sum / (16 * set.len()) as f64).sqrt()
}

/// A tile of 1,024 by 1,024: encoded by one call beside the Rust block by block, and decoded block by block, each to its own place, beside a plain decoder in C.
fn tile(r: &mut Rng, runs: usize) {
    const SIDE: usize = 1024;
    let (gx, gy) = (r.f() / SIDE as f32, r.f() / SIDE as f32);
    let samples: Vec<f32> = (0..SIDE * SIDE).map(|i| gx * (i % SIDE) as f32 + gy * (i / SIDE) as f32 + (r.f() - 0.5) * 0.02).collect();
    let blocks = SIDE * SIDE / 16;
    let mut out = vec![0u8; SIDE * SIDE / 2];
    let o = options_of_word([0, 0, 0, 0]).unwrap();
    let sum = |bytes: &[u8]| bytes.chunks_exact(8).fold(0u64, |a, b| a.wrapping_mul(31).wrapping_add(u64::from_le_bytes(b.try_into().unwrap())));
    let t = both(
        runs,
        blocks,
        || {
            let (mut written, mut detail) = (0, [0; 4]);
            let refused = unsafe {
                bc4_encode_tile(samples.as_ptr(), samples.len(), SIDE, SIDE, 0, out.as_mut_ptr(), out.len(), &mut written, &mut detail)
            };
            assert!(refused == 0 && written == SIDE * SIDE / 2);
            sum(&out)
        },
        || {
            let mut bytes = vec![0u8; SIDE * SIDE / 2];
            for (k, place) in bytes.chunks_exact_mut(8).enumerate() {
                let (column, row) = (k % (SIDE / 4), k / (SIDE / 4));
                let b: [f32; 16] = std::array::from_fn(|i| samples[(4 * row + i / 4) * SIDE + 4 * column + i % 4]);
                place.copy_from_slice(&compress_bc4_block(black_box(b), black_box(o)));
            }
            sum(&bytes)
        },
    );
    line("tile of 1,024 by 1,024, all off, a block", &[t]);
    let (mut a, mut b, mut detail) = (vec![[0.0f32; 16]; blocks], vec![[0.0f32; 16]; blocks], [0; 4]);
    let t = both(
        runs,
        blocks,
        || {
            for (e, place) in out.chunks_exact(8).zip(&mut a) {
                unsafe { bc4_decode_block(e.as_ptr(), 8, false, place.as_mut_ptr(), &mut detail) };
            }
            0
        },
        || {
            for (e, place) in out.chunks_exact(8).zip(&mut b) {
                unsafe { plain_decode(e.as_ptr(), place.as_mut_ptr()) };
            }
            0
        },
    );
    assert!(a == b, "the samples differ");
    line("its blocks decoded one by one, beside plain C", &[t]);
    println!("decoding: {:.0} and {:.0} million samples a second", 16e3 / t.0, 16e3 / t.1);
}
