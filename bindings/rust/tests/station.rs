//! The receiving side by the calls of this crate: each outcome and each refusal comes out by its name, and a refusal changes nothing.
use bc4::station::{clear, receive, Message, Received};
use bc4::Refusal;

/// A station of 8 by 8 samples, four places, with what it holds.
#[derive(Clone, Debug, PartialEq)]
struct Station {
    tile: [u8; 32],
    editions: [u32; 4],
}

const EMPTY: Station = Station {
    tile: [7; 32],
    editions: [0; 4],
};

/// For the last place.
fn message(edition: u16, block: &[u8]) -> Message<'_> {
    Message {
        column: 1,
        row: 1,
        edition,
        block,
    }
}

impl Station {
    fn arrives(&mut self, message: Message<'_>) -> Result<Received, Refusal> {
        receive(&mut self.tile, &mut self.editions, 8, 8, message)
    }

    /// With these in the last place.
    fn holding(edition: u16, byte: u8) -> Station {
        let mut station = EMPTY;
        station.tile[24..].fill(byte);
        station.editions[3] = u32::from(edition) + 1;
        station
    }
}

#[test]
fn every_outcome_has_its_name_and_leaves_what_it_says() {
    let cases = [
        (EMPTY, 5, 1, Received::Taken, Station::holding(5, 1)),
        (EMPTY, 5, 7, Received::Taken, Station::holding(5, 7)),
        (
            Station::holding(5, 1),
            5,
            1,
            Received::Repeated,
            Station::holding(5, 1),
        ),
        (
            Station::holding(65535, 1),
            0,
            2,
            Received::Replaced,
            Station::holding(0, 2),
        ),
        (
            Station::holding(0, 1),
            32767,
            2,
            Received::Replaced,
            Station::holding(32767, 2),
        ),
        (
            Station::holding(0, 1),
            32769,
            2,
            Received::Old,
            Station::holding(0, 1),
        ),
    ];
    for (mut station, edition, byte, outcome, after) in cases {
        assert_eq!(station.arrives(message(edition, &[byte; 8])), Ok(outcome));
        assert_eq!(station, after);
    }
}

#[test]
fn an_edition_is_refused_by_its_name_number_and_text() {
    let cases = [
        (
            5,
            Refusal::EditionReused,
            16,
            "the place holds this edition with other bytes",
        ),
        (
            5 + 32768,
            Refusal::EditionOpposite,
            17,
            "the edition is 32768 from the one that the place holds",
        ),
    ];
    for (edition, refusal, number, text) in cases {
        let mut station = Station::holding(5, 1);
        assert_eq!(station.arrives(message(edition, &[2; 8])), Err(refusal));
        assert_eq!(station, Station::holding(5, 1));
        assert_eq!(refusal.number(), number);
        assert_eq!(refusal.to_string(), text);
    }
}

#[test]
fn each_of_the_three_lengths_is_looked_at_before_the_place() {
    let nowhere = Message {
        column: 2,
        ..message(5, &[1; 8])
    };
    let (mut tile, mut editions) = ([7; 33], [0; 5]);
    let lengths = [
        (31, 4, 8),
        (33, 4, 8),
        (32, 3, 8),
        (32, 5, 8),
        (32, 4, 7),
        (32, 4, 9),
    ];
    for (tiles, entries, count) in lengths {
        let message = Message {
            block: &[1; 9][..count],
            ..nowhere
        };
        let answer = receive(&mut tile[..tiles], &mut editions[..entries], 8, 8, message);
        assert_eq!(answer, Err(Refusal::EncodedLength));
    }
    for (column, row) in [(2, 0), (0, 2), (usize::MAX, 1), (1, usize::MAX)] {
        let message = Message {
            column,
            row,
            ..nowhere
        };
        let answer = receive(&mut tile[..32], &mut editions[..4], 8, 8, message);
        assert_eq!(answer, Err(Refusal::NoSuchBlock));
    }
    assert_eq!((tile, editions), ([7; 33], [0; 5]));
}

#[test]
fn a_cleared_record_is_empty_and_the_tile_stays() {
    let mut station = Station::holding(9, 1);
    clear(&mut station.editions);
    assert_eq!(station.editions, [0; 4]);
    assert_eq!(station.tile, Station::holding(9, 1).tile);
    let answer = station.arrives(message(8, &[2; 8]));
    assert_eq!(answer, Ok(Received::Taken));
    assert_eq!(station, Station::holding(8, 2));
    clear(&mut []);
}
