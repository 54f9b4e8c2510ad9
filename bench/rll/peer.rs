//! Peers of crates/rll_code in plain Rust: the same algorithm over the same tables, and the table of the code bit by
//! bit. `peer PEER COUNT KERNEL..` does what crates/rll_bench does, and prints the same sums.

use std::hint::black_box;

mod tables {
    include!(concat!(env!("OUT"), "/tables.rs"));
}
use tables::{BITS, FLAGS, PENDING, SPREAD, WAITING, WORDS};

const BYTES: usize = 592;
const CHANNEL: usize = 9478;

pub mod by_table {
    use super::*;

    fn spread(word: u32) -> &'static [bool] {
        let at = 8 * (word % 256) as usize;
        &SPREAD[at..at + 8]
    }

    fn put(places: &mut [bool], word: u32) {
        places[..8].copy_from_slice(spread(word >> 16));
        places[8..16].copy_from_slice(spread(word >> 8));
        places[16..22].copy_from_slice(&spread(word)[..6]);
    }

    fn put_end(places: &mut [bool], word: u32) {
        for (k, place) in places.iter_mut().enumerate() {
            *place = word >> (23 - k) & 1 == 1;
        }
    }

    fn waiting(state: u16) -> usize {
        (state as usize / 256 + 1) / 2
    }

    #[inline(never)]
    pub fn encode(bytes: &[u8], out: &mut [bool]) {
        let mut state = 0;
        for i in 0..bytes.len() {
            let at = 16 * i - 2 * waiting(state);
            let entry = state as usize + bytes[i] as usize;
            put(&mut out[at..at + 22], WORDS[entry]);
            state = PENDING[entry];
        }
        let at = 16 * bytes.len() - 2 * waiting(state);
        put_end(&mut out[at..], WORDS[state as usize + 0b0110_0000]);
    }

    fn packed(channel: &[bool]) -> u8 {
        let gathered = u64::from(channel[0])
            | u64::from(channel[1]) << 8
            | u64::from(channel[2]) << 16
            | u64::from(channel[3]) << 24
            | u64::from(channel[4]) << 32
            | u64::from(channel[5]) << 40
            | u64::from(channel[6]) << 48
            | u64::from(channel[7]) << 56;
        (gathered.wrapping_mul(0x8040_2010_0804_0201) >> 56) as u8
    }

    fn joined(kept: u32, first: u8, second: u8) -> u32 {
        kept * 256 + u32::from(first) * 16 + u32::from(second)
    }

    #[inline(never)]
    pub fn decode(chan: &[bool], out: &mut [u8], flags: &mut [bool]) {
        let start = packed(&[true, true, chan[0], chan[1], chan[2], chan[3], chan[4], chan[5]]) as usize;
        let mut state = WAITING[start];
        let mut bits = u32::from(BITS[start]) % 8;
        let mut marks = u32::from(FLAGS[start]) % 8;
        for i in 0..out.len() {
            let at = 16 * i + 6;
            let first = state as usize + packed(&chan[at..at + 8]) as usize;
            let second = WAITING[first] as usize + packed(&chan[at + 8..at + 16]) as usize;
            let read = joined(bits, BITS[first], BITS[second]);
            let marked = joined(marks, FLAGS[first], FLAGS[second]);
            out[i] = (read / 8) as u8;
            flags[i] = marked / 8 != 0;
            bits = read % 8;
            marks = marked % 8;
            state = WAITING[second];
        }
    }
}

mod bit_by_bit {
    #[derive(Clone, Copy)]
    enum Pending {
        Nothing,
        Bits0,
        Bits1,
        Bits00,
        Bits01,
        Bits001,
    }

    #[inline(never)]
    pub fn encode(bytes: &[u8], out: &mut [bool]) {
        use Pending::*;
        let tail = [false, true, true];
        let bits = bytes.iter().flat_map(|byte| (0..8).rev().map(move |k| byte >> k & 1 == 1)).chain(tail);
        let mut at = 0;
        let mut write = |row: &[u8]| {
            for c in row {
                out[at] = *c == b'1';
                at += 1;
            }
        };
        let mut pending = Nothing;
        for bit in bits {
            pending = match (pending, bit) {
                (Nothing, false) => Bits0,
                (Nothing, true) => Bits1,
                (Bits0, false) => Bits00,
                (Bits0, true) => Bits01,
                (Bits00, true) => Bits001,
                (Bits1, false) => {
                    write(b"0100");
                    Nothing
                }
                (Bits1, true) => {
                    write(b"1000");
                    Nothing
                }
                (Bits00, false) => {
                    write(b"000100");
                    Nothing
                }
                (Bits01, false) => {
                    write(b"100100");
                    Nothing
                }
                (Bits01, true) => {
                    write(b"001000");
                    Nothing
                }
                (Bits001, false) => {
                    write(b"00100100");
                    Nothing
                }
                (Bits001, true) => {
                    write(b"00001000");
                    Nothing
                }
            };
        }
    }

    #[inline(never)]
    pub fn decode(chan: &[bool], out: &mut [u8], flags: &mut [bool]) {
        const O: bool = false;
        const I: bool = true;
        out.fill(0);
        flags.fill(false);
        let mut at = 0;
        let mut rest = chan;
        let mut give = |bits: &[bool], flag: bool| {
            for bit in bits {
                if at < 8 * out.len() {
                    out[at / 8] |= u8::from(*bit) << (7 - at % 8);
                    flags[at / 8] |= flag;
                }
                at += 1;
            }
        };
        while !rest.is_empty() {
            rest = match rest {
                [O, I, O, O, rest @ ..] => {
                    give(&[I, O], false);
                    rest
                }
                [I, O, O, O, rest @ ..] => {
                    give(&[I, I], false);
                    rest
                }
                [O, O, O, I, O, O, rest @ ..] => {
                    give(&[O, O, O], false);
                    rest
                }
                [I, O, O, I, O, O, rest @ ..] => {
                    give(&[O, I, O], false);
                    rest
                }
                [O, O, I, O, O, O, rest @ ..] => {
                    give(&[O, I, I], false);
                    rest
                }
                [O, O, I, O, O, I, O, O, rest @ ..] => {
                    give(&[O, O, I, O], false);
                    rest
                }
                [O, O, O, O, I, O, O, O, rest @ ..] => {
                    give(&[O, O, I, I], false);
                    rest
                }
                _ => {
                    give(&[O], true);
                    &rest[2..]
                }
            };
        }
    }
}

type Encode = fn(&[u8], &mut [bool]);
type Decode = fn(&[bool], &mut [u8], &mut [bool]);

fn message() -> [u8; BYTES] {
    let mut bytes = [0; BYTES];
    let mut x: u32 = 1;
    for byte in bytes.iter_mut() {
        x = x.wrapping_mul(1664525).wrapping_add(1013904223);
        *byte = (x >> 24) as u8;
    }
    bytes
}

fn encodes(encode: Encode, count: u64) -> u64 {
    let mut bytes = message();
    let mut chan = [false; CHANNEL];
    let mut sum: u64 = 0;
    for i in 0..count {
        bytes[(i % BYTES as u64) as usize] = (i % 256) as u8;
        encode(black_box(&bytes), &mut chan);
        sum = sum.wrapping_add(u64::from(chan[(i % CHANNEL as u64) as usize]));
    }
    sum
}

fn decodes(decode: Decode, chan: &mut [bool; CHANNEL], count: u64) -> u64 {
    let mut out = [0; BYTES];
    let mut flags = [false; BYTES];
    let mut sum: u64 = 0;
    for i in 0..count {
        let at = (i % CHANNEL as u64) as usize;
        let kept = chan[at];
        chan[at] = !kept;
        decode(black_box(&*chan), &mut out, &mut flags);
        chan[at] = kept;
        let byte = (i % BYTES as u64) as usize;
        sum = sum.wrapping_add(u64::from(out[byte]) * 2 + u64::from(flags[byte]));
    }
    sum
}

fn word(damaged: bool) -> [bool; CHANNEL] {
    let mut chan = [false; CHANNEL];
    by_table::encode(&message(), &mut chan);
    if damaged {
        for k in 0..CHANNEL / 61 {
            chan[k * 61] = !chan[k * 61];
        }
    }
    chan
}

fn main() {
    let args: Vec<String> = std::env::args().skip(1).collect();
    let (encode, decode): (Encode, Decode) = match args[0].as_str() {
        "table" => (by_table::encode, by_table::decode),
        "bits" => (bit_by_bit::encode, bit_by_bit::decode),
        other => panic!("no peer {other}"),
    };
    let count: u64 = args[1].parse().expect("a count");
    for kernel in &args[2..] {
        let sum = match kernel.as_str() {
            "encode" => encodes(encode, count),
            "decode" => decodes(decode, &mut word(false), count),
            "damaged" => decodes(decode, &mut word(true), count),
            other => panic!("no kernel {other}"),
        };
        println!("{kernel} {count} {sum}");
    }
}
