//! Sixteen samples to eight bytes and back.
use bc4::{Options, Quantization};

fn main() -> Result<(), bc4::Refusal> {
    let samples: [f32; 16] = std::array::from_fn(|i| i as f32 / 15.0);
    let options = Options {
        use_inter4: true,
        max_refine_iter: 10,
        quantization: Quantization::HighQuality,
        ..Options::default()
    };
    let block = bc4::encode_block(&samples, options)?;
    for byte in block {
        print!("{byte:02x}");
    }
    let back = bc4::decode_block(&block, false)?;
    let error = bc4::block_error(&samples, &block, false)?;
    println!(
        "\n{:.3} became {:.3}; squared error of the block: {error:.4}",
        samples[5], back[5]
    );
    Ok(())
}
