//! A station takes the blocks of a wetness map as a link delivers them: out of order, some twice, one not at all. It sees which place is empty, and the drone
//! sends that block again. examples/station.c says why the characters that it shows can be told from `FIELD`.
use bc4::station::{receive, Message, Received};
use bc4::{Options, Refusal};

const SIDE: usize = 16;
const BLOCKS: usize = SIDE / 4;
const PLACES: usize = BLOCKS * BLOCKS;

/// What the drone measures, a character for a sample: from '.' for 0 to '#' for 1, in steps of a fifth.
const LEVELS: &[u8; 6] = b".:-=+#";
const FIELD: [&[u8; SIDE]; SIDE] = [
    b"................",
    b".......:::::....",
    b"......::::::....",
    b".....:::::::....",
    b"...:::####+=::..",
    b"..:::####+=-:...",
    b".:::####+=-:....",
    b".:::####=-:.....",
    b"..::####::......",
    b"...::###::......",
    b"....:::::.......",
    b"....:::::.......",
    b".....::.....----",
    b".....::.....----",
    b"......:::...----",
    b"......:::...----",
];

/// Where sample `i` of a place stands in the map: row and column.
fn spot(place: usize, i: usize) -> (usize, usize) {
    (place / BLOCKS * 4 + i / 4, place % BLOCKS * 4 + i % 4)
}

fn measure(place: usize) -> [f32; 16] {
    std::array::from_fn(|i| {
        let (y, x) = spot(place, i);
        let level = LEVELS.iter().position(|&c| c == FIELD[y][x]);
        level.expect("a character of LEVELS") as f32 / 5.0
    })
}

/// The station's memory. The record starts empty.
struct Station {
    tile: [u8; SIDE * SIDE / 2],
    editions: [u32; PLACES],
}

impl Station {
    fn deliver(&mut self, place: usize, edition: u16, block: &[u8; 8]) {
        let message = Message {
            column: place % BLOCKS,
            row: place / BLOCKS,
            edition,
            block,
        };
        print!("place {place}, edition {edition}: ");
        match receive(&mut self.tile, &mut self.editions, SIDE, SIDE, message) {
            Ok(Received::Taken) => println!("taken"),
            Ok(Received::Repeated) => println!("a repeat"),
            Ok(Received::Replaced) => println!("replaces"),
            Ok(Received::Old) => println!("old"),
            Err(refusal) => println!("refused {}", refusal.number()),
        }
    }

    /// An empty place is shown as such, whatever bytes the tile has there.
    fn show(&self) -> Result<(), Refusal> {
        let mut picture = [[' '; SIDE]; SIDE];
        for (place, (block, &entry)) in self.tile.chunks(8).zip(&self.editions).enumerate() {
            for (i, sample) in bc4::decode_block(block, false)?.into_iter().enumerate() {
                let (y, x) = spot(place, i);
                let level = LEVELS[(sample * 5.0 + 0.5) as usize];
                picture[y][x] = if entry == 0 { '?' } else { level.into() };
            }
        }
        for line in picture {
            println!("{}", line.iter().collect::<String>());
        }
        Ok(())
    }
}

fn main() -> Result<(), Refusal> {
    let arrivals = [1, 0, 3, 2, 0, 7, 4, 5, 10, 9, 8, 11, 13, 12, 15, 14, 5]; // not 6
    let plain = Options::default();
    let mut station = Station {
        tile: [0; SIDE * SIDE / 2],
        editions: [0; PLACES],
    };

    // The drone counts its editions, and stands at the last one.
    let mut first = [[0; 8]; PLACES];
    for (place, block) in first.iter_mut().enumerate() {
        *block = bc4::encode_block(&measure(place), plain)?;
    }
    for place in arrivals {
        station.deliver(place, 65535, &first[place]);
    }
    station.show()?;

    // Place 6 is sent again, with more effort, and the corner of place 15 has dried. The edition after 65,535 is 0.
    let effort = Options {
        brute_force: true,
        ..plain
    };
    let again = bc4::resend(&measure(6), &first[6], effort)?;
    let word = if again.fresh { "better" } else { "the same" };
    println!("place 6 again: {word} bytes");
    station.deliver(6, 0, &again.block);
    station.deliver(15, 0, &bc4::encode_block(&[0.0; 16], plain)?);
    station.deliver(15, 65535, &first[15]); // a late repeat does not bring the old bytes back,
    station.deliver(6, 65535, &first[6]); // nor does a message that comes at last
    first[4][0] ^= 1; // the link changed a bit
    station.deliver(4, 65535, &first[4]);
    station.show()
}
