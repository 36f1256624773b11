//! The stored cases: the files of the folder `crates`.

use crate::frames::Frame;
use crate::generate::cases::cases;
use crate::generate::runs::{runs, Run};
use crate::generate::settle_inputs::settle_inputs;
use crate::player::Player;
use crate::settle::settle_in;
use crate::variant::{
    Context, Variant, WRONG_BETWEEN_CALLS, WRONG_CALENDARS, WRONG_CHANGE_DAYS, WRONG_DIFFERENCES,
    WRONG_EDITIONS, WRONG_PACKED, WRONG_PROFILES, WRONG_SETTLES, WRONG_SHARES, WRONG_SHARE_CALLS,
    WRONG_WITHOUT_CHANGE_DAY, WRONG_WORDS,
};

/// A file, by its path in the folder.
pub struct Stored {
    pub path: String,
    pub contents: Vec<u8>,
}

/// What the stored files are made of.
pub struct Cases {
    frames: Vec<Frame>,
    /// What the right book prints for each frame.
    lines: Vec<Option<String>>,
    /// The first frame of the editions, and the book before it.
    editions: usize,
    book: Vec<i64>,
    settle_inputs: Vec<Vec<u8>>,
    runs: Vec<Run>,
}

impl Cases {
    pub fn generate() -> Cases {
        let frames = cases();
        let editions = frames.iter().position(Frame::has_edition);
        let editions = editions.unwrap_or(frames.len());
        let (earlier, later) = frames.split_at(editions);
        let mut player = Player::new(Context::RIGHT);
        let mut lines: Vec<_> = earlier.iter().map(|frame| player.play(frame)).collect();
        let book = player.book().to_vec();
        lines.extend(later.iter().map(|frame| player.play(frame)));
        Cases {
            lines,
            frames,
            editions,
            book,
            settle_inputs: settle_inputs(),
            runs: runs(),
        }
    }

    /// The inputs, which no variant changes.
    pub fn inputs(&self) -> Vec<Stored> {
        let mut replay = Vec::new();
        for frame in &self.frames {
            frame.write(&mut replay);
        }
        let mut files = vec![
            stored("replay/stdin", replay),
            stored("replay_settle/stdin", self.framed()),
        ];
        let runs = self.runs.iter();
        files.extend(runs.map(|run| stored(&run_path(run, "in"), run.input.clone())));
        files
    }

    /// All outputs.
    pub fn outputs(&self, context: Context) -> Vec<Stored> {
        let mut files = self.replay_outputs(context);
        files.extend(self.settle_outputs(context));
        files
    }

    /// The outputs that a variant can change.
    pub fn variant_outputs(&self, context: Context) -> Vec<Stored> {
        let variant = context.variant;
        if WRONG_SETTLES.contains(&variant) {
            self.settle_outputs(context)
        } else if is_shown_by_replay_alone(variant) {
            self.replay_outputs(context)
        } else {
            self.outputs(context)
        }
    }

    fn replay_outputs(&self, context: Context) -> Vec<Stored> {
        vec![stored("replay/stdout", self.replay(context))]
    }

    fn settle_outputs(&self, context: Context) -> Vec<Stored> {
        let mut files = vec![stored("replay_settle/stdout", self.replay_settle(context))];
        let runs = self.runs.iter();
        files.extend(runs.map(|run| stored(&run_path(run, "out"), settle_in(context, &run.input))));
        files
    }

    /// What the test program `replay` prints. Only the editions' frames are played
    /// by what is wrong in them alone, as no other line changes.
    fn replay(&self, context: Context) -> Vec<u8> {
        let (first, mut player) = if is_of_editions_alone(context.variant) {
            let player = Player::with_book(context, self.book.clone());
            (self.editions, player)
        } else {
            (0, Player::new(context))
        };
        let lines = self.frames.iter().zip(&self.lines).enumerate();
        let lines = lines.filter_map(|(at, (frame, right))| {
            if at >= first && is_played(context.variant, frame) {
                player.play(frame)
            } else {
                right.clone()
            }
        });
        let mut output = Vec::new();
        for line in lines {
            output.extend(line.bytes());
            output.push(b'\n');
        }
        output
    }

    /// The frames of the test program `replay_settle`: an input of `settle`
    /// after its length, two bytes little-endian.
    fn framed(&self) -> Vec<u8> {
        let mut framed = Vec::new();
        for input in &self.settle_inputs {
            framed.extend((input.len() as u16).to_le_bytes());
            framed.extend(input);
        }
        framed
    }

    /// What it prints: the line `end` after each frame's output.
    fn replay_settle(&self, context: Context) -> Vec<u8> {
        let mut output = Vec::new();
        for input in &self.settle_inputs {
            output.extend(settle_in(context, input));
            output.extend(b"end\n");
        }
        output
    }
}

/// Whether `settle`, which opens with X = 0 and prints no rounding difference, has no
/// use for what is wrong.
pub fn is_shown_by_replay_alone(variant: Variant) -> bool {
    let unused: [&[Variant]; 9] = [
        &WRONG_EDITIONS,
        &WRONG_CHANGE_DAYS,
        &WRONG_WORDS,
        &WRONG_SHARES,
        &WRONG_SHARE_CALLS,
        &WRONG_DIFFERENCES,
        &WRONG_CALENDARS,
        &WRONG_PROFILES,
        &WRONG_PACKED,
    ];
    unused.iter().any(|wrong| wrong.contains(&variant))
        && !WRONG_WITHOUT_CHANGE_DAY.contains(&variant)
        && !WRONG_BETWEEN_CALLS.contains(&variant)
}

/// Whether a variant can change the line of such a frame. A wrong profile check
/// changes those of profiles alone, wrong packed decimal its own.
fn is_played(variant: Variant, frame: &Frame) -> bool {
    if WRONG_PROFILES.contains(&variant) {
        matches!(frame, Frame::Profile { .. })
    } else if WRONG_PACKED.contains(&variant) {
        frame.is_packed()
    } else {
        true
    }
}

/// Whether frames of X = 0 and of the first edition have no use for what is wrong.
fn is_of_editions_alone(variant: Variant) -> bool {
    let of_editions: [&[Variant]; 4] = [
        &WRONG_EDITIONS,
        &WRONG_CHANGE_DAYS,
        &WRONG_SHARES,
        &WRONG_SHARE_CALLS,
    ];
    of_editions.iter().any(|wrong| wrong.contains(&variant))
        && !WRONG_WITHOUT_CHANGE_DAY.contains(&variant)
        && variant != Variant::FirstCallIsSecond
}

fn stored(path: &str, contents: Vec<u8>) -> Stored {
    Stored {
        path: path.to_owned(),
        contents,
    }
}

fn run_path(run: &Run, suffix: &str) -> String {
    format!("settle/runs/{}.{suffix}", run.name)
}
