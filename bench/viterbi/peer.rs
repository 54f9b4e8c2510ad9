//! The detector in plain Rust, by the same algorithm, over the same sector as crates/viterbi_bench:
//! `peer CALL COUNT` prints the same sum. `search_clean` is the search over the six states alone, on
//! samples that are exactly clean.

use std::hint::black_box;

const PLACES: usize = 9478;
const FAR: u64 = 1 << 62;
const PART: usize = 256;
const BEFORE: [u32; 4] = [0x28f0_6540, 0x28f0_6545, 0x32f0_6540, 0x32f0_6545];

pub fn levels_of(chan: &[bool], out: &mut [i8]) {
    let mut high = true;
    for (level, bit) in out.iter_mut().zip(chan) {
        high ^= bit;
        *level = if high { 1 } else { -1 };
    }
}

pub fn samples_of(levels: &[i8], out: &mut [i8]) {
    let mut two_back = true;
    let mut one_back = true;
    for (sample, level) in out.iter_mut().zip(levels) {
        let high = *level > 0;
        *sample = match (high, two_back) {
            (true, false) => 32,
            (false, true) => -32,
            _ => 0,
        };
        two_back = one_back;
        one_back = high;
    }
}

#[derive(Clone, Copy)]
struct Sums {
    low_three: u64,
    low_two: u64,
    low_one: u64,
    high_one: u64,
    high_two: u64,
    high_three: u64,
}

impl Sums {
    const START: Sums = Sums {
        low_three: FAR,
        low_two: FAR,
        low_one: FAR,
        high_one: FAR,
        high_two: FAR,
        high_three: 0,
    };

    fn step(self, sample: i8) -> (Sums, u8) {
        let low = (i64::from(sample) + 144) as u64;
        let high = (144 - i64::from(sample)) as u64;
        let next = Sums {
            low_three: self.low_three.min(self.low_two) + 128,
            low_two: self.low_one + low,
            low_one: self.high_three + low,
            high_one: self.low_three + high,
            high_two: self.high_one + high,
            high_three: self.high_two.min(self.high_three) + 128,
        };
        let kept = u8::from(self.low_two < self.low_three)
            + 2 * u8::from(self.high_three < self.high_two);
        (next, kept)
    }

    fn end(self) -> u8 {
        let mut best = (0, self.low_three);
        for (state, sum) in [
            (5, self.low_two),
            (10, self.low_one),
            (15, self.high_one),
            (20, self.high_two),
            (25, self.high_three),
        ] {
            if sum < best.1 {
                best = (state, sum);
            }
        }
        best.0
    }
}

fn search(samples: &[i8], survivors: &mut [u8]) -> u8 {
    let mut sums = Sums::START;
    for (sample, kept) in samples.iter().zip(survivors) {
        (sums, *kept) = sums.step(*sample);
    }
    sums.end()
}

fn trace(survivors: &[u8], end: u8, out: &mut [i8]) {
    let mut state = end;
    for (level, kept) in out.iter_mut().zip(survivors).rev() {
        *level = if state < 15 { -1 } else { 1 };
        state = ((BEFORE[(kept % 4) as usize] >> state) & 31) as u8;
    }
}

fn rebuild_part(samples: &[i8], out: &mut [i8], last: [i8; 2]) -> [i8; 2] {
    let [mut two_back, mut one_back] = last;
    for (level, sample) in out.iter_mut().zip(samples) {
        *level = two_back.wrapping_add(sample >> 4);
        two_back = one_back;
        one_back = *level;
    }
    [two_back, one_back]
}

fn rebuild(samples: &[i8], out: &mut [i8]) -> bool {
    let mut last = [1, 1];
    for (samples, out) in samples.chunks(PART).zip(out.chunks_mut(PART)) {
        last = rebuild_part(samples, out, last);
        if !last.iter().all(|level| *level == 1 || *level == -1) {
            return false;
        }
    }
    true
}

fn follows(sample: i8, level: i8, one: i8, two: i8, three: i8) -> bool {
    let is_level = (level == 1) | (level == -1);
    let run = (level == one) | ((one == two) & (two == three));
    let clean = i16::from(sample) == 16 * (i16::from(level) - i16::from(two));
    is_level & run & clean
}

fn are_clean(samples: &[i8], word: &[i8]) -> bool {
    let back = |k: usize, places: usize| if k < places { 1 } else { word[k - places] };
    let mut clean = true;
    for k in 0..samples.len().min(3) {
        clean &= follows(samples[k], word[k], back(k, 1), back(k, 2), back(k, 3));
    }
    for (sample, word) in samples.iter().skip(3).zip(word.windows(4)) {
        clean &= follows(*sample, word[3], word[2], word[1], word[0]);
    }
    clean
}

pub fn search_and_trace(samples: &[i8], survivors: &mut [u8], out: &mut [i8]) {
    let end = search(samples, survivors);
    trace(survivors, end, out);
}

pub fn detect(samples: &[i8], survivors: &mut [u8], out: &mut [i8]) {
    if !(rebuild(samples, out) && are_clean(samples, out)) {
        search_and_trace(samples, survivors, out);
    }
}

struct Random(u64);

impl Random {
    fn next(&mut self) -> u64 {
        self.0 ^= self.0 << 13;
        self.0 ^= self.0 >> 7;
        self.0 ^= self.0 << 17;
        self.0
    }
}

fn with_value(sum: u64, value: i8) -> u64 {
    sum.wrapping_mul(31).wrapping_add(match value {
        1.. => 2,
        0 => 0,
        _ => 1,
    })
}

fn run(count: u32, out: &mut [i8], mut call: impl FnMut(&mut [i8])) -> u64 {
    let mut sum = 0;
    for round in 0..count {
        call(black_box(out));
        sum = with_value(sum, out[round as usize % out.len()]);
    }
    out.iter().fold(sum, |sum, value| with_value(sum, *value))
}

fn main() {
    let mut args = std::env::args().skip(1);
    let call = args.next().expect("no call is named");
    let count = args.next().expect("no count is given").parse().expect("the count is no number");

    let mut random = Random(0x4d59_5df4_d0f3_3173);
    let mut zeros = 2;
    let chan: Vec<bool> = (0..PLACES)
        .map(|_| {
            let bit = zeros == 2 && random.next() % 3 == 0;
            zeros = if bit { 0 } else { (zeros + 1).min(2) };
            bit
        })
        .collect();
    let mut levels = vec![0; PLACES];
    levels_of(&chan, &mut levels);
    let mut clean = vec![0; PLACES];
    samples_of(&levels, &mut clean);
    let noisy: Vec<i8> =
        clean.iter().map(|s| s.saturating_add((random.next() % 41) as i8 - 20)).collect();

    let mut survivors = vec![0u8; PLACES];
    let mut out = vec![0i8; PLACES];
    let sum = match call.as_str() {
        "levels_of" => run(count, &mut out, |out| levels_of(black_box(&chan), out)),
        "samples_of" => run(count, &mut out, |out| samples_of(black_box(&levels), out)),
        "detect_clean" => run(count, &mut out, |out| detect(black_box(&clean), &mut survivors, out)),
        "search_clean" => {
            run(count, &mut out, |out| search_and_trace(black_box(&clean), &mut survivors, out))
        }
        "detect_noisy" => run(count, &mut out, |out| detect(black_box(&noisy), &mut survivors, out)),
        "search_noisy" => {
            run(count, &mut out, |out| search_and_trace(black_box(&noisy), &mut survivors, out))
        }
        _ => panic!("no such call"),
    };
    println!("{sum}");
}
