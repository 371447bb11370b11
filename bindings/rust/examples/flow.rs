//! A current map, an east and a north part for each sample, becomes a tile of BC5 blocks. One block is decoded, and sent again with more effort.
use bc4::{bc5, Channel, Options, Quantization, Refusal};

const WIDTH: usize = 16;
const HEIGHT: usize = 8;
const COLUMN: usize = 3; // of the block
const ROW: usize = 1;

/// An eddy: water runs round the middle, fastest `CORE` half samples away from it. On the scale of the samples 0.5 is still water, 1 is full speed to the
/// east or the north, and 0 to the west or the south.
fn eddy() -> (Vec<f32>, Vec<f32>) {
    const CORE: i32 = 5;
    let parts = |i: usize| {
        let x = 2 * (i % WIDTH) as i32 - (WIDTH as i32 - 1); // from the middle to the east
        let y = 2 * (i / WIDTH) as i32 - (HEIGHT as i32 - 1); // and to the south
        let far = CORE * CORE + x * x + y * y;
        let part = |along: i32| (far + 2 * CORE * along) as f32 / (2 * far) as f32;
        (part(y), part(x))
    };
    (0..WIDTH * HEIGHT).map(parts).unzip()
}

/// The block's samples.
fn cut(map: &[f32]) -> [f32; 16] {
    std::array::from_fn(|i| map[(4 * ROW + i / 4) * WIDTH + 4 * COLUMN + i % 4])
}

fn show(block: &[u8], errors: bc5::Both<f32>) {
    let (east, north) = block.split_at(8);
    for (part, half, error) in [
        ("east", east, errors.first),
        ("north", north, errors.second),
    ] {
        print!("{part:5} ");
        half.iter().for_each(|byte| print!("{byte:02x}"));
        println!(", squared error {error:.5}");
    }
}

fn main() -> Result<(), Refusal> {
    let (east, mut north) = eddy();
    let (block_east, block_north) = (cut(&east), cut(&north));
    let (plain, mut tile) = (Options::default(), [0; WIDTH * HEIGHT]);
    let length = bc5::encode_tile(&east, &north, WIDTH, HEIGHT, plain, &mut tile)?;
    let block = bc5::block_view(&tile, WIDTH, HEIGHT, COLUMN, ROW)?;
    let back = bc5::decode_block(block, false)?;
    println!(
        "{WIDTH} by {HEIGHT} samples in {length} bytes; the block in column {COLUMN}, row {ROW}:"
    );
    show(
        block,
        bc5::block_error(&block_east, &block_north, block, false)?,
    );
    println!(
        "its last sample: east {:.3} became {:.3}, north {:.3} became {:.3}",
        block_east[15], back.first[15], block_north[15], back.second[15]
    );

    // A half is replaced where that makes its own error smaller; the other one may stay.
    let effort = Options {
        use_inter4: true,
        max_refine_iter: 10,
        quantization: Quantization::HighQuality,
        ..plain
    };
    let held = bc5::resend(&block_east, &block_north, block, effort)?;
    let word = |fresh| if fresh { "is new" } else { "stays" };
    println!(
        "sent again: east {}, north {}",
        word(held.fresh.first),
        word(held.fresh.second)
    );
    show(
        &held.block,
        bc5::block_error(&block_east, &block_north, &held.block, false)?,
    );

    north[37] = f32::NAN; // no measurement: the map is refused as a whole
    let answer = bc5::encode_tile(&east, &north, WIDTH, HEIGHT, plain, &mut tile);
    if let Err(Refusal::ChannelTileSampleIsNan {
        channel,
        row,
        column,
        ..
    }) = answer
    {
        let part = match channel {
            Channel::First => "east",
            Channel::Second => "north",
        };
        println!("refused 7: in row {row}, column {column} the {part} part is NaN");
    }
    Ok(())
}
