//! The cases of the test program `replay`: its frames, from fixed seeds.

mod absent;
mod change_days;
mod closes;
mod damages;
mod dates;
mod desk;
mod differences;
mod examples;
mod figures;
mod large;
mod lists;
mod openings;
mod packs;
mod profiles;
mod reports;
mod second_shares;
mod unpacks;
mod words;

use super::Rng;
use crate::frames::Frame;
use crate::player::Player;
use crate::variant::Context;

/// All frames, in the order of the program's input.
pub fn cases() -> Vec<Frame> {
    let mut script = Script::new(0x0395);
    examples::write(&mut script);
    openings::write(&mut script);
    figures::write(&mut script);
    dates::write(&mut script);
    lists::write(&mut script);
    damages::write(&mut script);
    words::write(&mut script);
    absent::write(&mut script);
    closes::write(&mut script);
    large::write(&mut script);
    profiles::write(&mut script);
    second_shares::write(&mut script);
    change_days::write(&mut script);
    reports::write(&mut script);
    packs::write(&mut script);
    unpacks::write(&mut script);
    differences::write(&mut script);
    script.frames
}

/// Frames in the making. Each is played by the right book, so that those to
/// come can be made from the book as it then is.
struct Script {
    rng: Rng,
    frames: Vec<Frame>,
    player: Player,
}

impl Script {
    fn new(seed: u64) -> Script {
        Script {
            rng: Rng::new(seed),
            frames: Vec::new(),
            player: Player::new(Context::RIGHT),
        }
    }

    /// Adds a frame and tells the figures of its line.
    fn push(&mut self, frame: Frame) -> Vec<i64> {
        let line = self.player.play(&frame);
        self.frames.push(frame);
        let figures = line.iter().flat_map(|line| line.split(' ').skip(1));
        figures.filter_map(|figure| figure.parse().ok()).collect()
    }

    fn poke(&mut self, index: usize, word: i64) {
        self.push(Frame::Poke { index, word });
    }

    fn submit(&mut self, lent: usize, file: &[u8]) {
        let file = file.to_vec();
        self.push(Frame::Submit { lent, file });
    }

    fn close(&mut self, lent: usize, statement: usize) {
        let fill = self.rng.word();
        self.push(Frame::Close {
            lent,
            fill,
            statement,
        });
    }
}
