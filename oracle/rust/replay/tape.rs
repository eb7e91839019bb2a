//! `replay tape SEED LISTS`: the loop switch during playback. Random lists of blocks and loop messages
//! (lists.rs) are played on the original and followed by the tape of docs/REFERENCE.md, 'The loop switch'.
use super::lists::{list, Call, List, Random};
use super::ramp::Ramp;
use super::table::row_13_block_time;
use super::tolerances::Tolerances;
use super::Machine;
use crate::render::AudioRenderQuantumChannel as Channel;
use std::panic::{catch_unwind, AssertUnwindSafe};

const FRAMES: usize = 128;
const NOT_REFUSED: &str = "not refused";

/// The tape and its number p, from 0; L is its length.
pub struct Tape {
    length: usize,
    pub p: usize,
    pub looped: bool,
    wrap: bool,
    /// The last block was unlooped and finished with p exactly L.
    pub fit: bool,
    pub ended: bool,
    wraps: u64,
}

impl Tape {
    pub fn new(length: usize) -> Self {
        Tape { length, p: 0, looped: false, wrap: false, fit: false, ended: false, wraps: 0 }
    }

    /// The frame that the next sample plays; none where it gives zero.
    fn sample(&mut self) -> Option<usize> {
        // once ended, zeros for good, whatever loop messages come
        if self.ended {
            return None;
        }
        // below L: frame p, and p grows by 1
        if self.p < self.length {
            self.p += 1;
            return Some(self.p - 1);
        }
        // else, looped: frame 0, p becomes 1, and a wrap is noted
        if self.looped {
            self.p = 1;
            self.wrap = true;
            self.wraps += 1;
            return Some(0);
        }
        // else zero, and p grows by 1
        self.p += 1;
        None
    }

    pub fn block(&mut self) -> [Option<usize>; FRAMES] {
        let played = [(); FRAMES].map(|()| self.sample());
        // a block with the loop off that finishes with p above L has ended the player
        if !self.looped && self.p > self.length {
            self.ended = true;
        }
        // and nothing ends it earlier but an exact fit, p = L: that block ends it, or the next one
        // does (which finishes above L)
        self.fit = !self.looped && self.p == self.length;
        // p = L with a wrap noted in this block becomes 0
        if self.p == self.length && self.wrap {
            self.p = 0;
        }
        self.wrap = false;
        played
    }

    /// The premise: no loop-on message comes between an exact fit and the next block.
    pub fn shuts_out(&self, on: bool) -> bool {
        on && self.fit
    }
}

/// What was played.
#[derive(Default)]
struct Tally {
    blocks: u64,
    messages: u64,
    refused: u64,
    wraps: u64,
    fits: u64,
    at_once: u64,
    by_next: u64,
    ends: u64,
    largest: f64,
}

/// The distance of the reported seconds times the rate from p frames, and a scale: in units of
/// 2^-scale frame, without rounding. None where no scale of 10 to 100 will do.
fn distance(position: f64, rate: f32, p: usize) -> Option<(u128, u32)> {
    if position == 0.0 {
        return Some(((p as u128) << 10, 10));
    }
    let (seconds, hertz) = (position.to_bits(), rate.to_bits());
    let exponents = (seconds >> 52) as i32 - 1_075 + (hertz >> 23) as i32 - 150;
    let scale = u32::try_from(-exponents).ok().filter(|scale| (10..=100).contains(scale))?;
    let significand = (seconds & ((1 << 52) - 1) | 1 << 52) as u128;
    let product = significand * (hertz & ((1 << 23) - 1) | 1 << 23) as u128;
    Some((product.abs_diff((p as u128) << scale), scale))
}

/// Every sample has the bits of the tape's frame.
fn heard(list: &List, channels: &[Channel], played: &[Option<usize>]) -> Result<(), String> {
    for (c, samples) in channels.iter().enumerate() {
        for (i, (sample, frame)) in samples.iter().zip(played).enumerate() {
            let expected = frame.map_or(0, |frame| list.words[c * list.frames + frame]);
            let bits = sample.to_bits();
            if bits != expected {
                return Err(format!("channel {c}, sample {i}: {bits:08X}, tape {expected:08X}"));
            }
        }
    }
    Ok(())
}

/// The position is within 1/1024 frame of p.
fn near(position: f64, rate: f32, p: usize, tally: &mut Tally) -> Result<(), String> {
    let (apart, scale) =
        distance(position, rate, p).ok_or_else(|| format!("position {position:e}, p {p}"))?;
    let frames = apart as f64 / (1_u128 << scale) as f64;
    tally.largest = tally.largest.max(frames);
    if apart > 1 << (scale - 10) {
        return Err(format!("the position is {frames:e} frames from p, {p}"));
    }
    Ok(())
}

/// Plays a block on both. An error says what differs.
fn block(
    (machine, tape): (&mut Machine, &mut Tape),
    list: &List,
    time: f64,
    tally: &mut Tally,
) -> Result<(), String> {
    let player = machine.player.as_mut().ok_or("no player")?;
    row_13_block_time(time, player.last).map_err(|number| format!("refused with {number}"))?;
    let (had_ended, had_fit) = (player.state().ended, tape.fit);
    catch_unwind(AssertUnwindSafe(|| player.process(time, 1.0, 1.0))).map_err(|_| "a panic")?;
    player.last = Some(time);
    let (state, played) = (player.state(), tape.block());
    tally.blocks += 1;
    tally.ends += (state.ended && !had_ended) as u64;
    tally.fits += tape.fit as u64;
    tally.at_once += (tape.fit && state.ended) as u64;
    tally.by_next += (had_fit && state.ended && !had_ended) as u64;
    // a block begun before the player ended answers the clip's channels, else 1
    let channels = player.outputs[0].channels();
    let answered = if had_ended { 1 } else { list.channels };
    if channels.len() != answered {
        return Err(format!("{} channels answered, not {answered}", channels.len()));
    }
    heard(list, channels, &played)?;
    if state.ended != tape.ended && (tape.ended || !tape.fit) {
        return Err(format!("ended {}, tape {}, p {}", state.ended, tape.ended, tape.p));
    }
    if state.ended {
        return Ok(());
    }
    near(state.position, list.rate, tape.p, tally)
}

/// Makes a refused call and sees that nothing has changed.
fn refused(machine: &mut Machine, lines: &str, number: u8) -> Result<(), String> {
    let shown = |machine: &mut Machine| {
        machine.out.clear();
        machine.show().map(|()| machine.out.clone())
    };
    let before = shown(machine);
    let answers: Vec<_> = lines.lines().map(|line| machine.obey(line.as_bytes())).collect();
    if answers.last() != Some(&Err(number)) || before != shown(machine) {
        return Err(format!("{answers:?}, not refused with {number}, or changed"));
    }
    Ok(())
}

/// Plays a list on both, up to the first call where they differ.
fn follow(machine: &mut Machine, list: &List, tally: &mut Tally) -> Result<(), String> {
    machine.player = Some(super::Player::new(list.rate, Tolerances::default(), Ramp::default(), &machine.alloc));
    let mut tape = Tape::new(list.frames);
    for (n, call) in list.calls.iter().enumerate() {
        let player = machine.player.as_mut().ok_or("no player")?;
        let accepted =
            |done: Result<(), u8>| done.map_err(|number| format!("refused with {number}"));
        let done = match call {
            Call::Clip => accepted(player.clip(list.shape(), &list.words)),
            Call::Start(when, offset) => accepted(player.start(*when, *offset, f64::MAX)),
            Call::Loop(on) if tape.shuts_out(*on) => return Ok(()),
            Call::Loop(on) => {
                player.looping(*on);
                tape.looped = *on;
                tally.messages += 1;
                Ok(())
            }
            Call::Block(time) => block((machine, &mut tape), list, *time, tally),
            Call::Refused(lines, number) => {
                tally.refused += 1;
                refused(machine, lines, *number)
            }
        };
        done.map_err(|why| format!("call {n}, {}: {why}", list.line(call)))?;
    }
    tally.wraps += tape.wraps;
    Ok(())
}

/// A list that differs, made smaller while it does. What it refused may then be accepted.
fn shrunk(machine: &mut Machine, mut list: List) -> List {
    let mut differs = |list: &List| {
        let followed = follow(machine, list, &mut Tally::default());
        followed.is_err_and(|why| !why.contains(NOT_REFUSED))
    };
    loop {
        let smaller = list.smaller().find(&mut differs);
        match smaller {
            Some(smaller) => list = smaller,
            None => return list,
        }
    }
}

impl Tally {
    fn print(&self) {
        let Tally { blocks, messages, refused, wraps, fits, at_once, by_next, ends, .. } = self;
        print!(
            "{blocks} blocks, {messages} loop messages, {refused} refused calls, {wraps} wraps, "
        );
        print!("{fits} exact fits ({at_once} ended by that block, {by_next} by the next), ");
        print!("{ends} ends, ");
    }
}

/// Ends the program with 1 where a list differs, and prints the smallest one, made smaller.
pub fn main(seed: u64, lists: u64) {
    let mut machine = Machine::new();
    let (mut random, mut tally) = (Random::new(seed), Tally::default());
    let (mut left_out, mut differences, mut worst) = (0, 0, None::<List>);
    for _ in 0..lists {
        let list = list(&mut random);
        left_out += list.left_out;
        if follow(&mut machine, &list, &mut tally).is_err() {
            differences += 1;
            if worst.as_ref().is_none_or(|worst| list.size() < worst.size()) {
                worst = Some(list);
            }
        }
    }
    if let Some(worst) = worst {
        let list = shrunk(&mut machine, worst);
        let followed = follow(&mut machine, &list, &mut Tally::default());
        println!("{}# {}", list.lines(), followed.unwrap_err());
    }
    print!("{lists} lists, ");
    tally.print();
    print!("{left_out} loop-on messages left out by the premise, ");
    println!("largest distance {:e} frame, {differences} differences", tally.largest);
    if differences > 0 {
        std::process::exit(1);
    }
}
