//! The calls with a size: each refusal of one, and of a NaN in a tile, has its name, number and text and changes nothing.
use bc4::station::{receive, Message};
use bc4::Refusal::{SampleIsNan, SideIsZero, SideNotMultipleOf4, SideTooLarge, TileSampleIsNan};
use bc4::Side::{Height, Width};
use bc4::{
    block_error, block_view, encode_block, encode_tile, read_dds, resend, write_dds, Field,
    Options, Refusal,
};

fn assert_refused(answer: Option<Refusal>, refusal: Refusal, number: u32, text: &str) {
    assert_eq!(answer, Some(refusal));
    assert_eq!(refusal.number(), number);
    assert_eq!(refusal.to_string(), text);
}

/// Sizes that a call refuses, each with the number and the side; `max` is the largest side that it can be given.
fn try_sizes<T>(max: usize, mut call: impl FnMut(usize, usize) -> Result<T, Refusal>) {
    let cases = [
        (0, 0, 1, Width),
        (0, 4, 1, Width),
        (0, 2000, 1, Width),
        (0, max, 1, Width),
        (4, 0, 1, Height),
        (6, 0, 1, Height),
        (max, 0, 1, Height),
        (1026, 4, 9, Width),
        (1028, 1028, 9, Width),
        (2000, 6, 9, Width),
        (max, 4, 9, Width),
        (max, max, 9, Width),
        (4, 1025, 9, Height),
        (6, 2000, 9, Height),
        (4, max, 9, Height),
        (6, max, 9, Height),
        (6, 6, 10, Width),
        (1023, 1024, 10, Width),
        (1024, 1022, 10, Height),
    ];
    for (width, height, number, side) in cases {
        let (name, length) = match side {
            Width => ("width", width),
            Height => ("height", height),
        };
        let (refusal, text) = match number {
            1 => (SideIsZero(side), "is 0".to_string()),
            9 => (SideTooLarge(side, length), format!("{length} is over 1024")),
            _ => (
                SideNotMultipleOf4(side, length),
                format!("{length} is not a multiple of 4"),
            ),
        };
        let answer = call(width, height).err();
        assert_refused(answer, refusal, number, &format!("{name} {text}"));
    }
}

#[test]
fn every_call_says_first_what_is_wrong_with_the_size() {
    let (options, max) = (Options::default(), usize::MAX);
    let (mut out, mut editions) = ([7; 144], [7; 3]);
    try_sizes(max, |width, height| {
        encode_tile(&[f32::NAN; 32], width, height, options, &mut out)
    });
    try_sizes(max, |width, height| {
        write_dds(&[1; 9], width, height, false, &mut out)
    });
    try_sizes(max, |width, height| {
        block_view(&[1; 9], width, height, max, max)
    });
    let message = Message {
        column: max,
        row: max,
        edition: 6,
        block: &[1; 9],
    };
    try_sizes(max, |width, height| {
        receive(&mut out, &mut editions, width, height, message)
    });
    assert_eq!((out, editions), ([7; 144], [7; 3]));
}

#[test]
fn a_file_is_refused_for_its_size_after_its_fields() {
    let mut file = [0; 136];
    write_dds(&[1; 8], 4, 4, false, &mut file).unwrap();
    try_sizes(u32::MAX as usize, |width, height| {
        file[12..16].copy_from_slice(&(height as u32).to_le_bytes());
        file[16..20].copy_from_slice(&(width as u32).to_le_bytes());
        read_dds(&file).map(|picture| picture.width)
    });
    file[28] = 2;
    assert_eq!(read_dds(&file), Err(Refusal::DdsHeader(Field::MipCount)));
    assert_eq!(
        read_dds(&file[..12]),
        Err(Refusal::DdsHeader(Field::Header))
    );
}

#[test]
fn the_largest_size_is_accepted() {
    let (samples, options) = (vec![1.0; 1 << 20], Options::default());
    let (mut tile, mut file) = (vec![0; 1 << 19], vec![0; 128 + (1 << 19)]);
    let written = encode_tile(&samples, 1024, 1024, options, &mut tile);
    assert_eq!(written, Ok(tile.len()));
    let last = &tile[tile.len() - 8..];
    assert_eq!(block_view(&tile, 1024, 1024, 255, 255), Ok(last));
    let written = write_dds(&tile, 1024, 1024, false, &mut file);
    assert_eq!(written, Ok(file.len()));
    let picture = read_dds(&file).unwrap();
    assert_eq!((picture.width, picture.height), (1024, 1024));
    assert_eq!(picture.tile, tile);
}

#[test]
fn the_first_nan_of_a_tile_has_its_row_and_column() {
    let cases = [
        (8, 4, 0, 0, 0),
        (8, 4, 13, 1, 5),
        (1024, 1024, 1048575, 1023, 1023),
    ];
    for (width, height, index, row, column) in cases {
        let mut samples = vec![1.0; width * height];
        samples[index..].fill(f32::NAN);
        let mut out = vec![7; width * height / 2];
        let answer = encode_tile(&samples, width, height, Options::default(), &mut out).err();
        let refusal = TileSampleIsNan { index, row, column };
        let text = format!("sample {index} (row {row}, column {column}) is NaN");
        assert_refused(answer, refusal, 7, &text);
        assert!(out.iter().all(|&byte| byte == 7));
    }
}

#[test]
fn the_first_nan_of_a_block_has_its_index_alone() {
    let (mut samples, options) = ([1.0; 16], Options::default());
    samples[13..].fill(f32::NAN);
    let answers = [
        encode_block(&samples, options).err(),
        block_error(&samples, &[0; 8], false).err(),
        resend(&samples, &[0; 8], options).err(),
    ];
    for answer in answers {
        assert_refused(answer, SampleIsNan(13), 7, "sample 13 is NaN");
    }
}
