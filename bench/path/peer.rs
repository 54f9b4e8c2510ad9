//! The path of a sector in plain Rust, put together of the peers of its parts: `peer DETECTOR COUNT KERNEL..` does what
//! crates/path_bench does, and prints the same sums. By the detector `search` each read searches; by `shortcut` it searches
//! only where the samples aren't clean, as the proved code does. The kernel `wrong` prints the wrong bytes of each damaged
//! sector's words.

use std::hint::black_box;

#[allow(dead_code)]
#[path = "../rll/peer.rs"]
mod rll;
#[allow(dead_code)]
#[path = "../rs/peer.rs"]
mod rs;
#[allow(dead_code)]
#[path = "../viterbi/peer.rs"]
mod viterbi;

const SAMPLES: usize = 9478;
const LIGHT_RADIUS: usize = 4;

type Samples = [i8; SAMPLES];
type Words = [[u8; 148]; 4];
type Detect = fn(&[i8], &mut [u8], &mut [i8]);

struct Payload {
    heading: [u8; 4],
    sector: u32,
    address: u64,
    block: [u8; 512],
}

impl Payload {
    fn bytes(&self) -> [u8; 528] {
        let mut bytes = [0; 528];
        bytes[..4].copy_from_slice(&self.heading);
        bytes[4..8].copy_from_slice(&self.sector.to_be_bytes());
        bytes[8..16].copy_from_slice(&self.address.to_be_bytes());
        bytes[16..].copy_from_slice(&self.block);
        bytes
    }

    fn of_bytes(bytes: &[u8; 528]) -> Self {
        Payload {
            heading: bytes[..4].try_into().unwrap(),
            sector: u32::from_be_bytes(bytes[4..8].try_into().unwrap()),
            address: u64::from_be_bytes(bytes[8..16].try_into().unwrap()),
            block: bytes[16..].try_into().unwrap(),
        }
    }

    fn is_of(&self, sector: u32) -> bool {
        (1..=3).contains(&self.heading[0]) && self.sector == sector
    }
}

fn word_of<const N: usize>(bytes: &[u8], i: usize) -> [u8; N] {
    std::array::from_fn(|k| bytes[4 * k + i])
}

fn words_of<const N: usize>(bytes: &[u8]) -> [[u8; N]; 4] {
    std::array::from_fn(|i| word_of(bytes, i))
}

fn bytes_of<const N: usize, const M: usize>(words: &[[u8; N]; 4]) -> [u8; M] {
    std::array::from_fn(|i| words[i % 4][i / 4])
}

fn chan_of(levels: &[i8], out: &mut [bool]) {
    let mut high = true;
    for (bit, level) in out.iter_mut().zip(levels) {
        let next = *level > 0;
        *bit = high != next;
        high = next;
    }
}

#[inline(never)]
fn write_samples(payload: &Payload, out: &mut Samples) {
    let words: Words = words_of(&payload.bytes()).map(|plain| rs::encode(&plain));
    let mut channel = [false; SAMPLES];
    rll::by_table::encode(&bytes_of::<148, 592>(&words), &mut channel);
    let mut levels = [0; SAMPLES];
    viterbi::levels_of(&channel, &mut levels);
    viterbi::samples_of(&levels, out);
}

/// The buffers of a read.
struct Path {
    detect: Detect,
    survivors: Vec<u8>,
    levels: Vec<i8>,
    channel: Vec<bool>,
}

impl Path {
    fn new(detect: Detect) -> Self {
        Path { detect, survivors: vec![0; SAMPLES], levels: vec![0; SAMPLES], channel: vec![false; SAMPLES] }
    }

    fn heard(&mut self, samples: &Samples) -> Words {
        let mut bytes = [0; 592];
        let mut flags = [false; 592];
        (self.detect)(samples, &mut self.survivors, &mut self.levels);
        chan_of(&self.levels, &mut self.channel);
        rll::by_table::decode(&self.channel, &mut bytes, &mut flags);
        black_box(&flags);
        words_of(&bytes)
    }

    #[inline(never)]
    fn read_samples(&mut self, sector: u32, samples: &Samples) -> Option<Payload> {
        let words = self.heard(samples);
        let mut plain = [[0; 132]; 4];
        for (plain, word) in plain.iter_mut().zip(&words) {
            plain.copy_from_slice(&rs::nearest(word, LIGHT_RADIUS)?[..132]);
        }
        Some(Payload::of_bytes(&bytes_of(&plain))).filter(|payload| payload.is_of(sector))
    }
}

fn payload(number: u32) -> Payload {
    let mut block = [0; 512];
    let mut x = number.wrapping_add(7);
    for byte in block.iter_mut() {
        x = x.wrapping_mul(1664525).wrapping_add(1013904223);
        *byte = (x >> 24) as u8;
    }
    Payload { heading: [1, 0, 0, 0], sector: number, address: u64::from(number), block }
}

fn undamaged() -> [Samples; 4] {
    let mut sectors = [[0; SAMPLES]; 4];
    for (number, samples) in sectors.iter_mut().enumerate() {
        write_samples(&payload(number as u32), samples);
    }
    sectors
}

fn damaged() -> [Samples; 4] {
    let mut sectors = undamaged();
    for samples in sectors.iter_mut() {
        for (k, sample) in samples.iter_mut().enumerate() {
            if k < 8192 && (1026..1034).contains(&(k % 2048)) {
                *sample = 0;
            }
        }
    }
    sectors
}

fn with_value(sum: u64, value: u64) -> u64 {
    sum.wrapping_mul(31).wrapping_add(value)
}

fn with_sample(sum: u64, sample: i8) -> u64 {
    with_value(sum, (i64::from(sample) + 128) as u64)
}

fn written(count: u32) -> u64 {
    let mut payload = payload(0);
    let mut samples = [0; SAMPLES];
    let mut sum = 0;
    for turn in 0..count {
        payload.block[(turn % 512) as usize] = turn as u8;
        write_samples(black_box(&payload), &mut samples);
        sum = with_sample(sum, samples[turn as usize % SAMPLES]);
    }
    samples.iter().fold(sum, |sum, sample| with_sample(sum, *sample))
}

fn read(detect: Detect, sectors: &[Samples; 4], count: u32) -> u64 {
    let mut path = Path::new(detect);
    (0..count).fold(0, |sum, turn| {
        let number = turn % 4;
        let payload = path.read_samples(number, black_box(&sectors[number as usize]));
        with_value(sum, payload.map_or(256, |payload| u64::from(payload.block[(turn % 512) as usize])))
    })
}

/// The wrong bytes of each word of the damaged sectors.
fn print_wrong(detect: Detect) {
    let mut path = Path::new(detect);
    for (right, wrong) in undamaged().iter().zip(&damaged()) {
        let (right, wrong) = (path.heard(right), path.heard(wrong));
        let counts: [usize; 4] = std::array::from_fn(|i| right[i].iter().zip(&wrong[i]).filter(|(a, b)| a != b).count());
        println!("{counts:?}");
    }
}

fn main() {
    rs::fill_tables();
    let args: Vec<String> = std::env::args().skip(1).collect();
    let detect: Detect = match args[0].as_str() {
        "search" => viterbi::search_and_trace,
        "shortcut" => viterbi::detect,
        other => panic!("no detector {other}"),
    };
    let count: u32 = args[1].parse().expect("a count");
    for kernel in &args[2..] {
        let sum = match kernel.as_str() {
            "write" => written(count),
            "read" => read(detect, &undamaged(), count),
            "damaged" => read(detect, &damaged(), count),
            "wrong" => {
                print_wrong(detect);
                continue;
            }
            other => panic!("no kernel {other}"),
        };
        println!("{kernel} {count} {sum}");
    }
}
