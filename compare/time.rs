//! How long a call takes. A child module of inner.rs.
use super::blocks::{lanes, samples, Indexing, Words};
use super::*;
use std::{hint::black_box, time::Instant};

const RUNS: usize = 15;
const TURNS: usize = 64;

/// One call on either side: its block in both forms, ends that fit it, and its weights.
struct Case {
    samples: [f32; 16],
    block: Block,
    ends: [f32; 2],
    weights: [f32; 16],
    rows: [Vec4; 4],
}
impl Case {
    fn new(i: u64) -> Self {
        // rough and smooth in turn
        let block = Block::from_raw(samples(&Words::new(1, i), i % 2, &[]));
        let (min, max) = block.min_max();
        let e = EndPoints::new_inter6(min, max, false);
        let rows = Inter6Palette::from_endpoints(&e).block_closest_weights(&block);
        Self { samples: lanes(block.b), block, ends: [e.c0_f, e.c1_f], weights: lanes(rows), rows }
    }
}

fn run<R>(cases: &[Case], call: &impl Fn(&Case) -> R) -> f64 {
    let start = Instant::now();
    for _ in 0..TURNS {
        for case in cases {
            black_box(call(black_box(case)));
        }
    }
    start.elapsed().as_nanos() as f64 / (TURNS * cases.len()) as f64
}

fn line<A, B>(name: &str, cases: &[Case], rattle: impl Fn(&Case) -> A, rust: impl Fn(&Case) -> B) {
    let mut times = [[0.0; RUNS]; 2];
    for k in 0..RUNS {
        times[0][k] = run(cases, &rattle);
        times[1][k] = run(cases, &rust);
    }
    times.iter_mut().for_each(|t| t.sort_by(f64::total_cmp));
    let [a, b] = times.map(|t| t[RUNS / 2]);
    println!("{name:26}{a:>10.1}{b:>10.1}{:>10.2}", a / b);
}

fn indexed(call: Indexing) -> impl Fn(&Case) -> (u64, f32) {
    move |x| {
        let mut data = 0;
        let error = call(x.ends[0], x.ends[1], &x.samples, &mut data);
        (data, error)
    }
}

fn rust_indexed<P: Palette>(call: impl Fn(P, &Block) -> (IndexList, f32)) -> impl Fn(&Case) -> (u64, f32) {
    move |x| {
        let (list, error) = call(P::new(x.ends[0], x.ends[1]), &x.block);
        (list.data, error)
    }
}

pub(super) fn main() {
    let cases: Vec<_> = (0..1024).map(Case::new).collect();
    println!("ns a call, the median of {RUNS} runs of {} calls: Rattle, Rust, their quotient", TURNS * cases.len());
    line(
        "palette_error six",
        &cases,
        |x| inner_palette_error6(&x.samples, x.ends[0], x.ends[1]),
        |x| Inter6Palette::new(x.ends[0], x.ends[1]).block_closest_error_sq(&x.block),
    );
    line(
        "palette_error four",
        &cases,
        |x| inner_palette_error4(&x.samples, x.ends[0], x.ends[1]),
        |x| Inter4Palette::new(x.ends[0], x.ends[1]).block_closest_error_sq(&x.block),
    );
    let six = |p: Inter6Palette, b: &Block| p.block_closest(b);
    line("block_closest six", &cases, indexed(inner_block_closest6), rust_indexed(six));
    let four = |p: Inter4Palette, b: &Block| p.block_closest(b);
    line("block_closest four", &cases, indexed(inner_block_closest4), rust_indexed(four));
    line(
        "block_closest_weights",
        &cases,
        |x| {
            let mut w = [0.0; 16];
            inner_weights(x.ends[0], x.ends[1], &x.samples, &mut w);
            w
        },
        |x| Inter6Palette::new(x.ends[0], x.ends[1]).block_closest_weights(&x.block),
    );
    line(
        "least_squares",
        &cases,
        |x| {
            let mut out = [0.0; 2];
            inner_least_squares(&x.samples, &x.weights, &mut out);
            out
        },
        |x| bcn_util::least_squares_weights_f32_vec4(&x.block.b, &x.rows),
    );
    let six = |p: Inter6Palette, b: &Block| p.block_dither(b);
    line("block_dither six", &cases, indexed(inner_dither6), rust_indexed(six));
    let four = |p: Inter4Palette, b: &Block| p.block_dither(b);
    line("block_dither four", &cases, indexed(inner_dither4), rust_indexed(four));
}
