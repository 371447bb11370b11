//! Two channels by the calls of this crate: each half is what the call on one channel gives, and each refusal has its channel, number and text.
use bc4::bc5::{self, Both, Held};
use bc4::Channel::{First, Second};
use bc4::Refusal::{ChannelSampleCount, ChannelSampleIsNan, ChannelTileSampleIsNan};
use bc4::{Options, Quantization, Refusal};

const ZERO_ONE: [u8; 16] = [0, 0, 0, 0, 0, 0, 0, 0, 255, 0, 0, 0, 0, 0, 0, 0];
const ONE_ZERO: [u8; 16] = [255, 0, 0, 0, 0, 0, 0, 0, 0, 0, 0, 0, 0, 0, 0, 0];
const ONE_ONE: [u8; 16] = [255, 0, 0, 0, 0, 0, 0, 0, 255, 0, 0, 0, 0, 0, 0, 0];

/// Samples on and off the scale; another `seed` gives others.
fn samples(count: usize, seed: usize) -> Vec<f32> {
    let number = |i: usize| (i * 7919 + seed * 104729) % 1009;
    (0..count).map(|i| number(i) as f32 / 900.0).collect()
}

fn some_options() -> [Options; 4] {
    let none = Options::default();
    [
        none,
        Options {
            snorm: true,
            use_inter4: true,
            ..none
        },
        Options {
            use_inter4: true,
            max_refine_iter: 10,
            quantization: Quantization::HighQuality,
            ..none
        },
        Options {
            dither: true,
            ..none
        },
    ]
}

fn assert_refused(answer: Option<Refusal>, refusal: Refusal, number: u32, text: &str) {
    assert_eq!(answer, Some(refusal));
    assert_eq!(refusal.number(), number);
    assert_eq!(refusal.to_string(), text);
}

#[test]
fn each_half_is_what_one_channel_gives() {
    for (seed, options) in (0..50).flat_map(|seed| some_options().map(|options| (seed, options))) {
        let (first, second) = (samples(16, seed), samples(16, seed + 1));
        let block = bc5::encode_block(&first, &second, options).unwrap();
        let (a, b) = block.split_at(8);
        assert_eq!(bc4::encode_block(&first, options).unwrap(), a);
        assert_eq!(bc4::encode_block(&second, options).unwrap(), b);

        let snorm = options.snorm;
        let decoded = Both {
            first: bc4::decode_block(a, snorm).unwrap(),
            second: bc4::decode_block(b, snorm).unwrap(),
        };
        assert_eq!(bc5::decode_block(&block, snorm), Ok(decoded));

        let errors = Both {
            first: bc4::block_error(&first, a, snorm).unwrap(),
            second: bc4::block_error(&second, b, snorm).unwrap(),
        };
        let answer = bc5::block_error(&first, &second, &block, snorm);
        assert_eq!(answer, Ok(errors));
    }
}

#[test]
fn a_resend_replaces_a_half_alone() {
    let cases = [
        (ZERO_ONE, true, false),
        (ONE_ZERO, false, true),
        ([0; 16], true, true),
        (ONE_ONE, false, false),
    ];
    for (held, first, second) in cases {
        let answer = bc5::resend(&[1.0; 16], &[1.0; 16], &held, Options::default());
        let expected = Held {
            block: ONE_ONE,
            fresh: Both { first, second },
        };
        assert_eq!(answer, Ok(expected));
    }
    let dithered = Options {
        dither: true,
        ..Options::default()
    };
    assert_eq!(
        bc5::resend(&[f32::NAN; 16], &[1.0; 16], &[0; 16], dithered),
        Err(Refusal::DitheredResend)
    );
}

#[test]
fn a_tile_has_the_blocks_of_both_channels() {
    for (width, height) in [(4, 4), (12, 8), (4, 1024), (1024, 1024)] {
        let (count, options) = (width * height, Options::default());
        let (first, second) = (samples(count, 0), samples(count, 1));
        let (mut one, mut other) = (vec![0; count / 2], vec![0; count / 2]);
        bc4::encode_tile(&first, width, height, options, &mut one).unwrap();
        bc4::encode_tile(&second, width, height, options, &mut other).unwrap();

        let mut out = vec![7; count + 3];
        let written = bc5::encode_tile(&first, &second, width, height, options, &mut out);
        assert_eq!(written, Ok(count));
        let (tile, later) = out.split_at(count);
        assert_eq!(later, [7, 7, 7]);
        for (row, column) in (0..height / 4).flat_map(|row| (0..width / 4).map(move |c| (row, c))) {
            let view = bc5::block_view(tile, width, height, column, row).unwrap();
            let (a, b) = view.split_at(8);
            let half = |tile| bc4::block_view(tile, width, height, column, row);
            assert_eq!((half(&one), half(&other)), (Ok(a), Ok(b)));
            let offset = 16 * (row * (width / 4) + column);
            assert_eq!(view.as_ptr(), tile[offset..].as_ptr());
        }
    }
}

#[test]
fn a_wrong_count_has_its_channel() {
    let (right, options) = ([1.0; 16], Options::default());
    let text =
        |name| format!("the sample count of the {name} channel is not 16, or not width * height");
    for count in [0, 15, 17, 32] {
        let wrong = vec![f32::NAN; count];
        let cases = [
            (&wrong[..], &right[..], First, "first"),
            (&right, &wrong, Second, "second"),
            (&wrong, &wrong, First, "first"),
        ];
        for (first, second, channel, name) in cases {
            let mut out = [7; 16];
            let answers = [
                bc5::encode_block(first, second, options).err(),
                bc5::block_error(first, second, &[0; 8], false).err(),
                bc5::resend(first, second, &[0; 8], options).err(),
                bc5::encode_tile(first, second, 4, 4, options, &mut out[..8]).err(),
            ];
            for answer in answers {
                assert_refused(answer, ChannelSampleCount(channel), 2, &text(name));
            }
            assert_eq!(out, [7; 16]);
        }
    }
}

#[test]
fn the_first_channel_with_a_nan_is_named() {
    let cases = [
        (
            Some(15),
            Some(0),
            First,
            15,
            "sample 15 of the first channel is NaN",
        ),
        (
            Some(0),
            None,
            First,
            0,
            "sample 0 of the first channel is NaN",
        ),
        (
            None,
            Some(9),
            Second,
            9,
            "sample 9 of the second channel is NaN",
        ),
    ];
    for (in_first, in_second, channel, index, text) in cases {
        // From its place on every sample is NaN, so that the lowest index has to be told.
        let with_nan = |place: Option<usize>| {
            let mut samples = [1.0; 16];
            samples[place.unwrap_or(16)..].fill(f32::NAN);
            samples
        };
        let (first, second) = (with_nan(in_first), with_nan(in_second));
        let answers = [
            bc5::encode_block(&first, &second, Options::default()).err(),
            bc5::block_error(&first, &second, &[0; 16], false).err(),
            bc5::resend(&first, &second, &[0; 16], Options::default()).err(),
        ];
        for answer in answers {
            assert_refused(answer, ChannelSampleIsNan(channel, index), 7, text);
        }
    }
}

#[test]
fn a_nan_of_a_tile_has_its_channel_row_and_column() {
    let (right, options) = (vec![1.0; 32], Options::default());
    let mut wrong = right.clone();
    wrong[13] = f32::NAN;
    let cases = [
        (&wrong, &right, First, "first"),
        (&right, &wrong, Second, "second"),
        (&wrong, &wrong, First, "first"),
    ];
    for (first, second, channel, name) in cases {
        let mut out = [7; 32];
        let answer = bc5::encode_tile(first, second, 8, 4, options, &mut out).err();
        let (index, row, column) = (13, 1, 5);
        let refusal = ChannelTileSampleIsNan {
            channel,
            index,
            row,
            column,
        };
        let text = format!("sample 13 (row 1, column 5) of the {name} channel is NaN");
        assert_refused(answer, refusal, 7, &text);
        assert_eq!(out, [7; 32]);
    }
}

#[test]
fn encoded_lengths_are_doubled() {
    for length in [0, 8, 15, 17, 32] {
        let bytes = vec![0; length];
        let answers = [
            bc5::decode_block(&bytes, false).err(),
            bc5::block_error(&[f32::NAN; 16], &[1.0; 16], &bytes, false).err(),
            bc5::resend(&[f32::NAN; 16], &[1.0; 16], &bytes, Options::default()).err(),
            bc5::block_view(&bytes, 4, 4, 1, 1).err(),
        ];
        for answer in answers {
            let text = "the encoded length is not 8, or not width * height / 2; for two channels, twice that; or the record of editions has not width * height / 16 entries";
            assert_refused(answer, Refusal::EncodedLength, 3, text);
        }
    }
    let mut out = [7; 31];
    let answer = bc5::encode_tile(&[1.0; 32], &[1.0; 32], 8, 4, Options::default(), &mut out).err();
    assert_refused(
        answer,
        Refusal::OutputLength,
        4,
        "the output is shorter than width * height / 2, for two channels than twice that, for a file than 128 + width * height / 2",
    );
    assert_eq!(out, [7; 31]);
    assert_eq!(
        bc5::block_view(&[0; 16], 4, 4, 0, 1),
        Err(Refusal::NoSuchBlock)
    );
}

/// tests/sizes.rs has what one channel's calls refuse.
#[test]
fn a_size_is_refused_as_for_one_channel() {
    let sides = [0, 1, 4, 6, 1022, 1024, 1025, 1028, 2000, usize::MAX];
    let (wrong, options, mut out) = ([f32::NAN; 3], Options::default(), [7; 16]);
    for (width, height) in sides.iter().flat_map(|&w| sides.map(|h| (w, h))) {
        let one = bc4::encode_tile(&wrong, width, height, options, &mut out).unwrap_err();
        let two = bc5::encode_tile(&wrong, &wrong, width, height, options, &mut out).unwrap_err();
        let view = bc5::block_view(&[0; 3], width, height, 9, 9).unwrap_err();
        if one == Refusal::SampleCount {
            assert_eq!(two, ChannelSampleCount(First));
            assert_eq!(view, Refusal::EncodedLength);
        } else {
            assert_eq!((two, view), (one, one));
        }
    }
    assert_eq!(out, [7; 16]);
}
