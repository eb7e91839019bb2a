//! Random lists of blocks and loop messages under the premises of docs/REFERENCE.md, 'The loop switch' (tape.rs).
use super::buffers::Shape;
use super::tape::Tape;

const LATEST: f64 = 1_073_741_824.0; // 2^30
const ONE: &str = "3FF0000000000000"; // the factor 1
const RATES: [f32; 24] = [
    3_000.0, 8_000.0, 11_025.0, 16_000.0, 22_050.0, 24_000.0, 32_000.0, 44_100.0, 48_000.0,
    88_200.0, 96_000.0, 176_400.0, 192_000.0, 384_000.0, 705_600.0, 768_000.0, // usual ones
    3_000.000_2, 11_025.5, 12_345.678, 22_000.0, 44_000.0, 47_999.996, 48_000.004, 767_999.94,
];

/// Numbers of a seed (splitmix64).
pub struct Random(u64);

impl Random {
    pub fn new(seed: u64) -> Self {
        Random(seed)
    }

    fn next(&mut self) -> u64 {
        self.0 = self.0.wrapping_add(0x9E37_79B9_7F4A_7C15);
        let z = (self.0 ^ self.0 >> 30).wrapping_mul(0xBF58_476D_1CE4_E5B9);
        let z = (z ^ z >> 27).wrapping_mul(0x94D0_49BB_1331_11EB);
        z ^ z >> 31
    }

    fn below(&mut self, count: usize) -> usize {
        (self.next() % count as u64) as usize
    }

    fn one_in(&mut self, count: usize) -> bool {
        self.below(count) == 0
    }

    fn pick<T: Copy>(&mut self, from: &[T]) -> T {
        from[self.below(from.len())]
    }

    /// 0 to 1, without 1.
    fn fraction(&mut self) -> f64 {
        (self.next() >> 11) as f64 / 9_007_199_254_740_992.0
    }

    fn rate(&mut self) -> f32 {
        let (first, last) = (3_000.0_f32.to_bits(), 768_000.0_f32.to_bits());
        let any = f32::from_bits(first + self.below((last - first + 1) as usize) as u32);
        let whole = (3_000 + self.below(765_001)) as f32;
        let usual = self.pick(&RATES);
        self.pick(&[usual, usual, whole, any])
    }

    /// More than half at whole blocks and beside them.
    fn length(&mut self) -> usize {
        let blocks = if self.one_in(3) { 1 + self.below(4) } else { 1 + self.below(40) };
        match self.below(200) {
            0 => 128 * (1 + self.below(1_024)),
            1..40 => 1 + self.below(20),
            40..60 => 1 + self.below(300),
            60..75 => 16 * (1 + self.below(80)),
            75..90 => 1 + self.below(5_000),
            90..145 => 128 * blocks,
            _ => 128 * blocks + self.pick(&[1, 2, 0]) - self.pick(&[0, 1, 2]),
        }
    }

    /// Words of which no two are equal; some clips are all NaN, some have a −0.
    fn words(&mut self, count: usize) -> Vec<u32> {
        let (first, step) = (self.next() as u32, self.next() as u32 | 1);
        let of = |i: usize| first.wrapping_add((i as u32).wrapping_mul(step));
        if self.one_in(8) {
            let nan = self.pick(&[0x7F80_0001, 0xFF80_0001, 0x7FC0_0001, 0xFFC0_0000]);
            return (nan..).take(count).collect();
        }
        let mut words: Vec<u32> = (0..count).map(of).collect();
        if self.one_in(4) {
            let minus_zero = words.iter().position(|word| *word == 1 << 31);
            let at = self.below(count);
            words[minus_zero.unwrap_or(at)] = 1 << 31;
        }
        words
    }

    /// Neither a time nor a loop point.
    fn not_finite(&mut self) -> f64 {
        self.pick(&[f64::NAN, f64::INFINITY, f64::NEG_INFINITY])
    }
}

#[derive(Clone)]
pub enum Call {
    Clip,
    /// The time and the offset, which is 0 or −0; no duration.
    Start(f64, f64),
    Loop(bool),
    Block(f64),
    /// Lines of oracle/PROTOCOL.md, the last of which is refused with this number.
    Refused(String, u8),
}

#[derive(Clone)]
pub struct List {
    pub rate: f32,
    pub channels: usize,
    pub frames: usize,
    pub words: Vec<u32>,
    pub calls: Vec<Call>,
    pub left_out: u64,
}

/// A list in the making.
struct Making {
    list: List,
    tape: Tape,
    first: f64,
    last: Option<f64>,
    blocks: usize,
    has_clip: bool,
    has_start: bool,
    /// Of which kind the loop messages between blocks are, and the blocks' times.
    loops: usize,
    times: usize,
}

pub fn list(random: &mut Random) -> List {
    let (rate, frames) = (random.rate(), random.length());
    let channels = random.pick(&[1, 1, 1, 2, 2, 3, 4]);
    let list = List {
        rate,
        channels,
        frames,
        words: random.words(channels * frames),
        calls: Vec::new(),
        left_out: 0,
    };
    let (late, any) = (LATEST - random.fraction() / 8.0, random.fraction() * LATEST);
    let small = random.fraction() * 1_024.0 / rate as f64;
    let mut making = Making {
        list,
        tape: Tape::new(frames),
        first: random.pick(&[0.0, 0.0, -0.0, small, 1.0, any, late, LATEST]),
        last: None,
        blocks: 0,
        has_clip: false,
        has_start: false,
        loops: random.below(6),
        times: random.below(6),
    };
    making.before(random);
    making.play(random);
    making.list
}

impl Making {
    /// Adds a call, if it isn't a loop-on message that the premise shuts out.
    fn add(&mut self, call: Call) {
        match call {
            Call::Loop(on) if self.tape.shuts_out(on) => {
                self.list.left_out += 1;
                return;
            }
            Call::Loop(on) => self.tape.looped = on,
            Call::Clip => self.has_clip = true,
            Call::Start(..) => self.has_start = true,
            Call::Block(time) => {
                self.tape.block();
                self.last = Some(time);
                self.blocks += 1;
            }
            Call::Refused(..) => (),
        }
        self.list.calls.push(call);
    }

    /// The clip, the start at or before the first block's time, and loop messages, in any order.
    fn before(&mut self, random: &mut Random) {
        let earlier = random.fraction() * self.first.abs();
        let zero = random.pick(&[0.0, -0.0]);
        let when = random.pick(&[self.first, zero, earlier]);
        let mut due = vec![Call::Clip, Call::Start(when, random.pick(&[0.0, 0.0, 0.0, -0.0]))];
        for _ in 0..random.pick(&[0, 0, 1, 1, 2, 4]) {
            due.push(Call::Loop(!random.one_in(3)));
        }
        while !due.is_empty() {
            self.strew(random, self.first);
            let next = random.below(due.len());
            self.add(due.swap_remove(next));
        }
    }

    /// Blocks past some wraps, or past the end and some more; one behind an exact fit.
    fn play(&mut self, random: &mut Random) {
        let blocks = self.list.frames / 128;
        let long = self.list.frames >= 8_192;
        let most = if long { 16 } else { 4 * blocks + 16 };
        let mut left = 1 + random.below(most) + if long { blocks } else { 0 };
        while left > 0 {
            self.block(random);
            left -= 1;
            if self.tape.ended {
                left = left.min(6);
            }
        }
        if self.tape.fit {
            self.block(random);
        }
    }

    /// A block, with what stands before it; none where no time is left.
    fn block(&mut self, random: &mut Random) {
        if let Some(time) = self.time(random) {
            if self.blocks > 0 {
                self.switch(random);
            }
            self.strew(random, time);
            self.add(Call::Block(time));
        }
    }

    /// The time of the next block: regular, behind the last one, within it, next to it, or far off.
    fn time(&mut self, random: &mut Random) -> Option<f64> {
        let Some(last) = self.last else { return Some(self.first) };
        let length = 128.0 / self.list.rate as f64;
        let manner = if self.times < 5 { self.times } else { random.below(5) };
        let wanted = match manner {
            0 => self.first + (128 * self.blocks) as f64 / self.list.rate as f64,
            1 => last + length,
            2 => last + length * random.fraction(),
            3 => last,
            _ => last + length * 2.0_f64.powi(random.below(24) as i32),
        };
        let next = last.next_up();
        let time = if wanted > LATEST { next } else { wanted.max(next) };
        (time <= LATEST).then_some(time)
    }

    /// Loop messages between two blocks: none, any, one each time, runs of the same, or any where
    /// it matters most.
    fn switch(&mut self, random: &mut Random) {
        // it has just wrapped, reaches the end in the next block, or has ended
        let Tape { p, ended, .. } = self.tape;
        let moment = p <= 128 || p + 128 >= self.list.frames || ended;
        let count = match self.loops {
            0 => 0,
            1 => random.pick(&[0, 0, 1, 2, 4]),
            2 => 1,
            3 => random.pick(&[0, 1, 3]),
            _ => moment as usize * random.pick(&[0, 1, 1, 1, 2]),
        };
        for n in 0..count {
            let looped = self.tape.looped;
            let on = match self.loops {
                2 => !looped,
                3 => looped != (n == 0 && random.one_in(6)),
                _ => looped != random.one_in(2),
            };
            self.add(Call::Loop(on));
        }
    }

    /// At times a call that is refused; a block with this time would not be.
    fn strew(&mut self, random: &mut Random, time: f64) {
        if random.one_in(12) {
            let (lines, number) = self.refused(random, time);
            self.add(Call::Refused(lines, number));
        }
    }

    /// Lines whose last is refused by docs/REFERENCE.md, 'Refusals', and its number.
    fn refused(&self, random: &mut Random, time: f64) -> (String, u8) {
        let (bad, below) = (random.not_finite(), -random.fraction() - 1.0);
        let either = random.pick(&[bad, below]);
        let early = random.pick(&[either, LATEST.next_up(), self.last.unwrap_or(bad)]);
        let factor = random.pick(&[f64::NAN, 0.0, -1.0]);
        let samples = if self.has_clip { self.list.words.len() } else { 0 };
        let (rate, now) = (self.list.rate.to_bits(), hex(time));
        match random.below(13) {
            0 => (start(either, 0.0, f64::MAX), 9),
            1 => (start(0.0, 0.0, either), 9),
            2 if self.has_start => (start(time, 0.0, f64::MAX), 10),
            2 => (format!("T {now}"), 11),
            3 => (format!("T {}", hex(either)), 9),
            4 => (format!("{} {}", random.pick(&["P", "E"]), hex(bad)), 9),
            5 => (format!("C {} 1 {rate:08X}", random.pick(&[0, 33])), 1),
            6 => ("C 1 1 453B7FFF\nW 3F800000".to_string(), 2),
            7 if self.has_clip => (format!("C 1 1 {rate:08X}\nW 3F800000"), 10),
            7 => (format!("C 1 0 {rate:08X}"), 12),
            8 => (format!("B {} 3F800000 {ONE}", hex(early)), 13),
            9 => (format!("B {now} 7FC00000 {ONE}"), 14),
            10 => (format!("B {now} 3F800000 {}", hex(factor)), 14),
            11 => (format!("B {now} 3F800000 {ONE} 4095"), 8),
            _ => (format!("B {now} 3F800000 {ONE} 4096 {}", samples + 1), 1),
        }
    }
}

fn hex(value: f64) -> String {
    format!("{:016X}", value.to_bits())
}

fn start(when: f64, offset: f64, duration: f64) -> String {
    format!("S {} {} {}", hex(when), hex(offset), hex(duration))
}

impl List {
    pub fn shape(&self) -> Shape {
        Shape { channels: self.channels as u64, frames: self.frames as u64, rate: self.rate }
    }

    /// By calls, then by samples.
    pub fn size(&self) -> (usize, usize) {
        (self.calls.len(), self.words.len())
    }

    /// The call as lines of oracle/PROTOCOL.md, without a clip's words.
    pub fn line(&self, call: &Call) -> String {
        match call {
            Call::Clip => {
                format!("C {} {} {:08X}", self.channels, self.frames, self.rate.to_bits())
            }
            Call::Start(when, offset) => start(*when, *offset, f64::MAX),
            Call::Loop(on) => format!("L {}", *on as u8),
            Call::Block(time) => format!("B {} 3F800000 {ONE}", hex(*time)),
            Call::Refused(lines, _) => lines.clone(),
        }
    }

    /// The list as a script of oracle/PROTOCOL.md.
    pub fn lines(&self) -> String {
        let mut script = format!("R {:08X}\n", self.rate.to_bits());
        for call in &self.calls {
            script += &(self.line(call) + "\n");
            if let Call::Clip = call {
                for words in self.words.chunks(128) {
                    let words: String = words.iter().map(|word| format!(" {word:08X}")).collect();
                    script += &format!("W{words}\n");
                }
            }
        }
        script
    }

    /// Lists that are simpler by one thing each.
    pub fn smaller(&self) -> impl Iterator<Item = List> + '_ {
        let calls = (0..self.calls.len()).rev().filter_map(|n| self.without(n));
        let frames =
            [1, 64, 128, self.frames / 2, self.frames.saturating_sub(128), self.frames - 1];
        let frames = frames.into_iter().filter(|frames| (1..self.frames).contains(frames));
        let channel = (self.channels > 1).then(|| self.cut(1, self.frames));
        calls
            .chain(channel)
            .chain(frames.map(|frames| self.cut(self.channels, frames)))
            .chain(self.regular())
    }

    fn without(&self, n: usize) -> Option<List> {
        let mut list = self.clone();
        let call = list.calls.remove(n);
        (!matches!(call, Call::Clip | Call::Start(..))).then_some(list)
    }

    fn cut(&self, channels: usize, frames: usize) -> List {
        let kept = |c: usize| &self.words[c * self.frames..c * self.frames + frames];
        List {
            channels,
            frames,
            words: (0..channels).flat_map(kept).copied().collect(),
            ..self.clone()
        }
    }

    /// With blocks one behind the other from 0 on, where they aren't.
    fn regular(&self) -> Option<List> {
        let (mut list, mut blocks) = (self.clone(), 0);
        for call in &mut list.calls {
            match call {
                Call::Start(when, offset) => (*when, *offset) = (0.0, 0.0),
                Call::Block(time) => {
                    *time = (128 * blocks) as f64 / self.rate as f64;
                    blocks += 1;
                }
                _ => (),
            }
        }
        (list.lines() != self.lines()).then_some(list)
    }
}
