//! DDS files by the calls of this crate: each field that a refusal names comes out by its name, number and text.
use bc4::{read_dds, write_dds, Field, Picture, Refusal};

const TILE: [u8; 16] = [1, 2, 3, 4, 5, 6, 7, 8, 9, 10, 11, 12, 13, 14, 15, 16];

/// A tile of 8 by 4.
fn file(snorm: bool) -> Vec<u8> {
    let mut out = vec![0; 144];
    assert_eq!(write_dds(&TILE, 8, 4, snorm, &mut out), Ok(144));
    out
}

/// The same with DX10: format, two dimensions, flags, one picture, flags.
fn extended(format: u8) -> Vec<u8> {
    let mut out = file(false);
    out[84..88].copy_from_slice(b"DX10");
    let extension = [format, 3, 0, 1, 0].map(|number| [number, 0, 0, 0]);
    out.splice(128..128, extension.concat());
    out
}

fn changed(mut file: Vec<u8>, offset: usize, byte: u8) -> Vec<u8> {
    file[offset] = byte;
    file
}

#[test]
fn every_field_has_its_name_number_and_text() {
    let cases = [
        (
            Field::Header,
            11,
            "the file is shorter than a DDS header, 128 bytes",
            file(false)[..127].to_vec(),
        ),
        (
            Field::Extension,
            11,
            "the file is shorter than a DDS header with DX10, 148 bytes",
            extended(80)[..147].to_vec(),
        ),
        (
            Field::Magic,
            12,
            "the file does not begin with DDS and a blank",
            changed(file(false), 3, 0),
        ),
        (
            Field::HeaderSize,
            12,
            "the header size (at byte 4) is not 124",
            changed(file(false), 4, 125),
        ),
        (
            Field::FourCharacters,
            13,
            "the four characters (at byte 84) are none of BC4U, BC4S, DX10",
            changed(file(false), 86, b'5'),
        ),
        (
            Field::ExtensionFormat,
            13,
            "the format after DX10 (at byte 128) is neither 80 nor 81",
            extended(82),
        ),
        (
            Field::MipCount,
            14,
            "the mip count (at byte 28) is over 1",
            changed(file(false), 28, 2),
        ),
        (
            Field::Depth,
            14,
            "the depth (at byte 24) is over 1",
            changed(file(false), 24, 2),
        ),
        (
            Field::CubeFaces,
            14,
            "the flags at byte 112 name a face of a cube (bits 0xFC00)",
            changed(file(false), 113, 0x80),
        ),
        (
            Field::ArraySize,
            14,
            "the array size (at byte 140) is not 1",
            changed(extended(80), 140, 0),
        ),
    ];
    for (field, number, text, file) in cases {
        let refusal = Refusal::DdsHeader(field);
        assert_eq!(read_dds(&file), Err(refusal));
        assert_eq!(refusal.number(), number);
        assert_eq!(refusal.to_string(), text);
        assert_eq!(field.to_string(), text);
    }
}

#[test]
fn a_body_of_another_length_is_refused() {
    let mut long = extended(81);
    long.push(0);
    for file in [&long[..], &long[..163], &file(false)[..128]] {
        assert_eq!(read_dds(file), Err(Refusal::DdsBody));
    }
    assert_eq!(Refusal::DdsBody.number(), 15);
    assert_eq!(
        Refusal::DdsBody.to_string(),
        "the bytes after the DDS headers are not exactly width * height / 2"
    );
}

#[test]
fn a_refused_write_changes_nothing() {
    let mut out = [7; 144];
    assert_eq!(
        write_dds(&TILE[1..], 8, 4, true, &mut out),
        Err(Refusal::EncodedLength)
    );
    assert_eq!(
        write_dds(&TILE, 8, 4, true, &mut out[..143]),
        Err(Refusal::OutputLength)
    );
    assert_eq!(out, [7; 144]);
}

#[test]
fn the_tile_is_a_part_of_the_file() {
    let files = [
        (file(false), false, 128),
        (file(true), true, 128),
        (extended(80), false, 148),
        (extended(81), true, 148),
    ];
    for (file, snorm, start) in &files {
        let picture = read_dds(file).unwrap();
        let expected = Picture {
            width: 8,
            height: 4,
            snorm: *snorm,
            tile: &TILE,
        };
        assert_eq!(picture, expected);
        assert_eq!(picture.tile.as_ptr(), file[*start..].as_ptr());
    }
}
