//! The oracle program: reads the lines of oracle/PROTOCOL.md, refuses by docs/REFERENCE.md, 'Refusals', and drives
//! the original with everything else.
mod bench;
mod buffers;
mod cents;
mod lists;
mod player;
mod positions;
mod print;
mod ramp;
mod resampling;
mod table;
mod tape;
mod text;
mod tolerances;

use crate::render::Alloc;
use buffers::{convert, copy_from, copy_to, extend, split, Shape};
use cents::Entries;
use player::Player;
use print::{bits, calculated, flag, put_f64, put_runs};
use ramp::Ramp;
use std::io::{Read, Write};
use std::panic::{catch_unwind, AssertUnwindSafe};
use table::{check, row_13_block_time, row_14_rates, row_1_shape, row_2_rate, Refusal, FRAMES_MAX};
use text::{hex64, put_decimal, Words};
use tolerances::Tolerances;

const OUTPUT: u64 = 4_096;
const OUTPUT_TEXT_MAX: u64 = 65_536;
const SAMPLES_TEXT_MAX: u64 = 536_870_912;
const COPY_RATE: f32 = 48_000.0;

/// A call whose words are still coming.
#[derive(Clone, Copy)]
enum Call {
    Clip(Shape),
    CopyFrom(Shape, u64, u64, u64),
    CopyTo(Shape, u64, u64, u64),
    Extend(Shape, Shape),
    Split(Shape, u64),
    Convert(Shape, f32, Tolerances),
}

impl Call {
    fn words(self) -> u64 {
        match self {
            Call::Clip(shape) | Call::CopyFrom(shape, ..) => shape.words(),
            Call::Split(shape, _) | Call::Convert(shape, ..) => shape.words(),
            Call::CopyTo(shape, _, _, len) => shape.words() + len,
            Call::Extend(first, second) => first.words() + second.words(),
        }
    }
}

/// What a block is detuned by: the factor itself, or whole cents.
enum Detune {
    Factor(f64),
    Cents(i32),
}

impl Detune {
    fn factor(words: &mut Words) -> Result<Detune, Refusal> {
        Ok(Detune::Factor(words.f64()?))
    }

    fn cents(words: &mut Words) -> Result<Detune, Refusal> {
        Ok(Detune::Cents(words.i32()?))
    }
}

struct Machine {
    alloc: Alloc,
    entries: Entries,
    player: Option<Player>,
    call: Option<Call>,
    words: Vec<u32>,
    panicked: bool,
    out: Vec<u8>,
}

impl Machine {
    fn new() -> Self {
        Machine {
            alloc: Alloc::with_capacity(32),
            entries: Entries::new(),
            player: None,
            call: None,
            words: Vec::new(),
            panicked: false,
            out: Vec::new(),
        }
    }

    /// One line of input.
    fn line(&mut self, line: &[u8]) {
        if self.panicked {
            match fresh(line) {
                Some(_) => self.panicked = false,
                None => return self.out.extend_from_slice(b"P\n"),
            }
        }
        if let Err(number) = self.obey(line) {
            self.refuse(number);
        }
    }

    fn refuse(&mut self, number: Refusal) {
        self.out.extend_from_slice(b"X ");
        put_decimal(&mut self.out, number as u64);
        self.out.push(b'\n');
    }

    fn obey(&mut self, line: &[u8]) -> Result<(), Refusal> {
        if let Some(call) = self.call {
            let missing = call.words() as usize - self.words.len();
            if text::words(line, missing, &mut self.words) {
                return self.complete(call);
            }
            self.call = None;
            self.refuse(0);
        }
        if line.first() == Some(&b'#') {
            self.out.extend_from_slice(line);
            self.out.push(b'\n');
            return Ok(());
        }
        let mut words = Words::of(line);
        match words.word() {
            b"R" => self.fresh(line),
            b"C" | b"KF" | b"KT" | b"J" | b"V" | b"Q" => self.begin(line),
            b"B" => self.block(b'B', words, Detune::factor),
            b"D" => self.block(b'B', words, Detune::cents),
            b"M" => self.block(b'M', words, Detune::factor),
            b"N" => self.block(b'N', words, Detune::cents),
            b"Z" if words.ended() => self.show(),
            b"Y" if words.ended() => self.show_ramp(),
            b"S" | b"T" | b"P" | b"E" | b"L" => self.message(line),
            _ => Err(0),
        }
    }

    fn fresh(&mut self, line: &[u8]) -> Result<(), Refusal> {
        let (rate, tolerances, length) = fresh(line).ok_or(0)?;
        self.player = None;
        let tolerances = tolerances.made()?;
        row_2_rate(rate)?;
        let ramp = Ramp::new(length)?;
        self.player = Some(Player::new(rate, tolerances, ramp, &self.alloc));
        Ok(())
    }

    fn message(&mut self, line: &[u8]) -> Result<(), Refusal> {
        let mut words = Words::of(line);
        let letter = words.word();
        let value = words.word();
        let player = self.player.as_mut().ok_or(0)?;
        if letter == b"S" {
            let (offset, duration) = (words.word(), words.word());
            check(words.ended(), 0)?;
            return player.start(hex64(value)?, hex64(offset)?, hex64(duration)?);
        }
        check(words.ended(), 0)?;
        match (letter, value) {
            (b"L", b"0") => Ok(player.looping(false)),
            (b"L", b"1") => Ok(player.looping(true)),
            (b"T", _) => player.stop(hex64(value)?),
            (b"P", _) => player.loop_start(hex64(value)?),
            (b"E", _) => player.loop_end(hex64(value)?),
            _ => Err(0),
        }
    }

    /// Reads the first line of a call with words; refuses at once what rows 18 and 1 say of its tolerances and shapes.
    fn begin(&mut self, line: &[u8]) -> Result<(), Refusal> {
        let mut w = Words::of(line);
        let letter = w.word();
        check(letter != b"C" || self.player.is_some(), 0)?;
        let copies = letter == b"KF" || letter == b"KT";
        let shape = |w: &mut Words| -> Result<Shape, Refusal> {
            let (channels, frames) = (w.decimal()?, w.decimal()?);
            let rate = if copies { COPY_RATE } else { w.f32()? };
            Ok(Shape {
                channels,
                frames,
                rate,
            })
        };
        let first = shape(&mut w)?;
        let call = match letter {
            b"C" => Call::Clip(first),
            b"KF" => Call::CopyFrom(first, w.decimal()?, w.decimal()?, w.decimal()?),
            b"KT" => Call::CopyTo(first, w.decimal()?, w.decimal()?, w.decimal()?),
            b"J" => Call::Extend(first, shape(&mut w)?),
            b"V" => Call::Split(first, w.decimal()?),
            _ => Call::Convert(first, w.f32()?, Tolerances::of(&mut w)?),
        };
        check(w.ended(), 0)?;
        if let Call::CopyFrom(.., len) | Call::CopyTo(.., len) = call {
            check(len <= FRAMES_MAX, 0)?;
        }
        if let Call::Convert(.., tolerances) = call {
            tolerances.made()?;
        }
        row_1_shape(first)?;
        if let Call::Extend(_, second) = call {
            row_1_shape(second)?;
        }
        self.words.clear();
        self.call = Some(call);
        self.complete(call)
    }

    /// Makes the call once its words are all there.
    fn complete(&mut self, call: Call) -> Result<(), Refusal> {
        if (self.words.len() as u64) < call.words() {
            return Ok(());
        }
        self.call = None;
        let (words, out) = (&self.words, &mut self.out);
        match call {
            Call::Clip(shape) => self.player.as_mut().ok_or(0)?.clip(shape, words),
            Call::CopyFrom(shape, channel, offset, len) => {
                copy_from(shape, (channel, offset, len), words, out)
            }
            Call::CopyTo(shape, channel, offset, _) => copy_to(shape, (channel, offset), words, out),
            Call::Extend(first, second) => extend(first, second, words, out),
            Call::Split(shape, point) => split(shape, point, words, out),
            Call::Convert(shape, wanted, tolerances) => convert(shape, wanted, tolerances, words, out),
        }
    }

    /// The answer begins with `letter`: a `B` plays a block, and any other previews it on a copy, which is dropped.
    fn block(&mut self, letter: u8, mut w: Words<'_>, detune: fn(&mut Words) -> Result<Detune, Refusal>) -> Result<(), Refusal> {
        let player = self.player.as_mut().ok_or(0)?;
        let expected = player.shape.map_or(0, Shape::words);
        let (time, rate, detune) = (w.f64()?, w.f32()?, detune(&mut w)?);
        let output = if w.ended() { OUTPUT } else { w.decimal()? };
        let samples = if w.ended() { expected } else { w.decimal()? };
        check(w.ended(), 0)?;
        check(output <= OUTPUT_TEXT_MAX && samples <= SAMPLES_TEXT_MAX, 0)?;
        check(output == OUTPUT, 8)?;
        row_13_block_time(time, player.last)?;
        let factor = match detune {
            Detune::Factor(factor) => factor,
            Detune::Cents(cents) => self.entries.factor(cents)?,
        };
        row_14_rates(rate, factor)?;
        check(samples == expected, 1)?;
        let mut copy;
        let player = if letter == b'B' {
            player
        } else {
            copy = player.copied(&self.alloc);
            &mut copy
        };
        let Ok(keep) = catch_unwind(AssertUnwindSafe(|| player.play(time, rate, factor))) else {
            assert!(player.may_panic(), "a panic outside the excepted cases");
            self.out.extend_from_slice(b"P\n");
            self.player = None;
            self.panicked = true;
            return Ok(());
        };
        player.last = Some(time);
        put_block(&mut self.out, letter, keep, player);
        Ok(())
    }

    fn show(&mut self) -> Result<(), Refusal> {
        let player = self.player.as_ref().ok_or(0)?;
        let state = player.state();
        let out = &mut self.out;
        out.push(b'Z');
        put_f64(out, state.start);
        put_f64(out, state.stop);
        put_f64(out, state.offset);
        put_f64(out, state.duration);
        flag(out, state.looping);
        put_f64(out, state.loop_start);
        put_f64(out, state.loop_end);
        put_f64(out, state.position);
        flag(out, state.started);
        flag(out, state.entered);
        put_f64(out, state.elapsed);
        flag(out, state.aligned);
        flag(out, state.ended);
        flag(out, player.has_start());
        flag(out, state.has_buffer);
        match player.last {
            Some(last) => put_f64(out, last),
            None => out.extend_from_slice(b" none"),
        }
        out.push(b'\n');
        Ok(())
    }

    fn show_ramp(&mut self) -> Result<(), Refusal> {
        let ramp = self.player.as_ref().ok_or(0)?.ramp;
        let out = &mut self.out;
        out.extend_from_slice(b"Y ");
        put_decimal(out, ramp.length);
        out.push(b' ');
        put_decimal(out, ramp.count);
        out.push(b' ');
        match ramp.stop_sample {
            Some(number) => put_decimal(out, number),
            None => out.extend_from_slice(b"none"),
        }
        out.push(b'\n');
        Ok(())
    }
}

/// What the block that was just played answers.
fn put_block(out: &mut Vec<u8>, letter: u8, keep: bool, player: &Player) {
    let state = player.state();
    out.push(letter);
    flag(out, keep);
    flag(out, state.ended);
    out.push(b' ');
    let channels = player.outputs[0].channels();
    put_decimal(out, channels.len() as u64);
    put_f64(out, state.position);
    out.push(b'\n');
    for (c, channel) in channels.iter().enumerate() {
        let bits = if state.aligned { bits } else { calculated };
        put_runs(out, c as u64, channel.iter().map(bits));
    }
}

/// The rate, the tolerances and the ramp's length of a well-formed `R` line, not yet checked.
fn fresh(line: &[u8]) -> Option<(f32, Tolerances, u64)> {
    let mut words = Words::of(line);
    let letter = words.word();
    let (rate, tolerances) = (words.f32().ok()?, Tolerances::of(&mut words).ok()?);
    let length = if words.ended() { 0 } else { words.decimal().ok()? };
    (letter == b"R" && words.ended()).then_some((rate, tolerances, length))
}

pub fn main() {
    let arguments: Vec<String> = std::env::args().skip(1).collect();
    match arguments.iter().map(String::as_str).collect::<Vec<_>>()[..] {
        ["bench"] => return bench::main(),
        ["factors"] => return cents::main(),
        ["positions", count] => return positions::main(count.parse().expect("a count")),
        ["tape", seed, lists] => {
            return tape::main(seed.parse().expect("a seed"), lists.parse().expect("a count"))
        }
        _ => (),
    }
    std::panic::set_hook(Box::new(|_| ()));
    let mut input = Vec::new();
    std::io::stdin()
        .lock()
        .read_to_end(&mut input)
        .expect("standard input");
    let mut stdout = std::io::stdout().lock();
    let mut machine = Machine::new();
    let end = input.len() - (input.last() == Some(&b'\n')) as usize;
    if !input.is_empty() {
        for line in input[..end].split(|b| *b == b'\n') {
            machine.line(line);
            if machine.out.len() > 1 << 20 {
                stdout.write_all(&machine.out).expect("standard output");
                machine.out.clear();
            }
        }
    }
    stdout.write_all(&machine.out).expect("standard output");
    crate::reach::report();
}
