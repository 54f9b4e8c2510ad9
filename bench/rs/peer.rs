//! The kernels of crates/rs_bench in plain Rust: the same tables, lanes and steps, with no proof and with Rust's bounds checks.
use std::arch::x86_64::*;

const fn product(a: u8, b: u8) -> u8 {
    let (mut p, mut i) = (0u16, 0);
    while i < 8 {
        if b >> i & 1 == 1 {
            p ^= (a as u16) << i;
        }
        i += 1;
    }
    let mut i = 14;
    while i > 7 {
        if p >> i & 1 == 1 {
            p ^= 0x11D << (i - 8);
        }
        i -= 1;
    }
    p as u8
}

const fn products(step: u8) -> [[u8; 16]; 256] {
    let mut table = [[0; 16]; 256];
    let mut a = 0;
    while a < 256 {
        let mut n = 0;
        while n < 16 {
            table[a][n] = product(a as u8, n as u8 * step);
            n += 1;
        }
        a += 1;
    }
    table
}

const fn inverses() -> [u8; 256] {
    let mut table = [0; 256];
    let mut a = 1;
    while a < 256 {
        let (mut power, mut i) = (1, 0);
        while i < 254 {
            power = product(power, a as u8);
            i += 1;
        }
        table[a] = power;
        a += 1;
    }
    table
}

const fn point(k: usize) -> u8 {
    let (mut p, mut i) = (1, 0);
    while i < 147 - k {
        p = product(p, 2);
        i += 1;
    }
    p
}

const fn point_powers() -> [[u8; 16]; 148] {
    let mut table = [[0; 16]; 148];
    let mut k = 0;
    while k < 148 {
        let (x, mut p, mut j) = (point(k), 1, 0);
        while j < 16 {
            table[k][j] = p;
            p = product(p, x);
            j += 1;
        }
        k += 1;
    }
    table
}

static LOW: [[u8; 16]; 256] = products(1);
static HIGH: [[u8; 16]; 256] = products(16);
static INVERSES: [u8; 256] = inverses();
static POINT_POWERS: [[u8; 16]; 148] = point_powers();
static mut BLOCK_POWERS: [[[u8; 16]; 9]; 10] = [[[0; 16]; 9]; 10];
static mut CHECKS: [[u8; 16]; 16] = [[0; 16]; 16];

fn block_powers() -> &'static [[[u8; 16]; 9]; 10] {
    unsafe { &*std::ptr::addr_of!(BLOCK_POWERS) }
}

fn check_rows() -> &'static [[u8; 16]; 16] {
    unsafe { &*std::ptr::addr_of!(CHECKS) }
}

pub fn fill_tables() {
    for b in 0..10 {
        for i in 0..9 {
            for j in 0..16 {
                if 16 * b + j < 148 {
                    unsafe { BLOCK_POWERS[b][i][j] = POINT_POWERS[16 * b + j][i] }
                }
            }
        }
    }
    for j in 0..16 {
        let mut unit = [0; 16];
        unit[j] = 1;
        let points: Vec<u8> = (132..148).map(|k| POINT_POWERS[k][1]).collect();
        solve(&points, &mut unit);
        unsafe { CHECKS[j] = unit }
    }
}

fn mul(a: u8, b: u8) -> u8 {
    LOW[a as usize][(b & 15) as usize] ^ HIGH[a as usize][(b >> 4) as usize]
}

fn inverse(a: u8) -> u8 {
    INVERSES[a as usize]
}

#[inline(always)]
fn load(bytes: &[u8; 16]) -> __m128i {
    unsafe { _mm_loadu_si128(bytes.as_ptr().cast()) }
}

#[inline(always)]
fn stored(lanes: __m128i) -> [u8; 16] {
    let mut bytes = [0; 16];
    unsafe { _mm_storeu_si128(bytes.as_mut_ptr().cast(), lanes) }
    bytes
}

#[inline(always)]
fn scaled(a: u8, lanes: __m128i) -> __m128i {
    unsafe {
        let nibble = _mm_set1_epi8(15);
        let low = _mm_shuffle_epi8(load(&LOW[a as usize]), _mm_and_si128(lanes, nibble));
        let high = _mm_shuffle_epi8(load(&HIGH[a as usize]), _mm_and_si128(_mm_srli_epi16(lanes, 4), nibble));
        _mm_xor_si128(low, high)
    }
}

fn combined(bytes: &[u8], rows: &[[u8; 16]]) -> [u8; 16] {
    let mut sums = unsafe { _mm_setzero_si128() };
    for (byte, row) in bytes.iter().zip(rows) {
        sums = unsafe { _mm_xor_si128(sums, scaled(*byte, load(row))) };
    }
    stored(sums)
}

fn add_scaled(to: &mut [u8; 16], factor: u8, lanes: &[u8; 16]) {
    *to = stored(unsafe { _mm_xor_si128(load(to), scaled(factor, load(lanes))) });
}

fn eliminate(sums: &mut [u8; 16], point: u8) {
    let lanes = load(sums);
    *sums = stored(unsafe { _mm_xor_si128(_mm_alignr_epi8(lanes, lanes, 1), scaled(point, lanes)) });
}

pub fn encode(plain: &[u8; 132]) -> [u8; 148] {
    let sums = combined(plain, &POINT_POWERS);
    let checks = combined(&sums, check_rows());
    let mut word = [0; 148];
    word[..132].copy_from_slice(plain);
    word[132..].copy_from_slice(&checks);
    word
}

fn syndromes(word: &[u8; 148]) -> [u8; 16] {
    combined(word, &POINT_POWERS)
}

fn is_codeword(word: &[u8; 148]) -> bool {
    syndromes(word) == [0; 16]
}

struct Pivots {
    polynomials: [[u8; 16]; 8],
    row_sums: [[u8; 16]; 8],
    inverses: [u8; 8],
}

fn cleared(sums: &[u8; 16], pivots: &Pivots, degree: usize, rows: usize) -> ([u8; 16], [u8; 16], usize) {
    let mut polynomial = [0; 16];
    polynomial[degree] = 1;
    let mut row_sums = [0; 16];
    row_sums[..8].copy_from_slice(&sums[degree..degree + 8]);
    for row in 0..rows {
        let lead = row_sums[row];
        if lead != 0 {
            let inverse = pivots.inverses[row];
            if inverse == 0 {
                return (polynomial, row_sums, row);
            }
            let factor = mul(lead, inverse);
            add_scaled(&mut polynomial, factor, &pivots.polynomials[row]);
            add_scaled(&mut row_sums, factor, &pivots.row_sums[row]);
        }
    }
    (polynomial, row_sums, rows)
}

fn locator(sums: &[u8; 16], rows: usize) -> [u8; 16] {
    let mut pivots = Pivots { polynomials: [[0; 16]; 8], row_sums: [[0; 16]; 8], inverses: [0; 8] };
    for degree in 0..=rows {
        let (polynomial, row_sums, row) = cleared(sums, &pivots, degree, rows);
        if row == rows {
            return polynomial;
        }
        pivots.inverses[row] = inverse(row_sums[row]);
        pivots.polynomials[row] = polynomial;
        pivots.row_sums[row] = row_sums;
    }
    unreachable!()
}

fn suspects(locator: &[u8; 16], erased: &[bool; 148]) -> [bool; 148] {
    let mut values = [[0; 16]; 10];
    for (lanes, rows) in values.iter_mut().zip(block_powers()) {
        *lanes = combined(&locator[..9], rows);
    }
    let mut suspects = *erased;
    for (k, suspect) in suspects.iter_mut().enumerate() {
        if values[k / 16][k % 16] == 0 {
            *suspect = true;
        }
    }
    suspects
}

fn solve(points: &[u8], sums: &mut [u8]) {
    if points.len() > 1 {
        let first = points[0];
        let mut before = sums[0];
        for sum in sums[1..].iter_mut() {
            let kept = *sum;
            *sum ^= mul(first, before);
            before = kept;
        }
        solve(&points[1..], &mut sums[1..]);
        for k in 1..points.len() {
            let value = mul(sums[k], inverse(points[k] ^ first));
            sums[k] = value;
            sums[0] ^= value;
        }
    }
}

fn count(marks: &[bool; 148]) -> usize {
    marks.iter().filter(|marked| **marked).count()
}

fn corrected(word: &[u8; 148], erased: &[bool; 148], sums: &[u8; 16]) -> [u8; 148] {
    let mut rest = *sums;
    for (k, is_erased) in erased.iter().enumerate() {
        if *is_erased {
            eliminate(&mut rest, POINT_POWERS[k][1]);
        }
    }
    let rows = (16 - count(erased)) / 2;
    let suspects = suspects(&locator(&rest, rows), erased);
    if count(&suspects) > 16 {
        return *word;
    }
    let (mut list, mut count) = ([0; 16], 0);
    for (k, suspect) in suspects.iter().enumerate() {
        if *suspect {
            list[count] = k;
            count += 1;
        }
    }
    let mut points = [0; 16];
    for i in 0..count {
        points[i] = POINT_POWERS[list[i]][1];
    }
    let mut values = *sums;
    solve(&points[..count], &mut values[..count]);
    let mut sum = *word;
    for i in 0..count {
        sum[list[i]] ^= values[i];
    }
    sum
}

fn wrong_places(a: &[u8; 148], b: &[u8; 148], erased: &[bool; 148]) -> usize {
    (0..148).filter(|&k| !erased[k] && a[k] != b[k]).count()
}

pub fn nearest(word: &[u8; 148], radius: usize) -> Option<[u8; 148]> {
    let sums = syndromes(word);
    if sums == [0; 16] {
        return Some(*word);
    }
    let found = corrected(word, &[false; 148], &sums);
    (is_codeword(&found) && wrong_places(word, &found, &[false; 148]) <= radius).then_some(found)
}

fn nearest_erased(word: &[u8; 148], erased: &[bool; 148]) -> Option<[u8; 148]> {
    let erasures = count(erased);
    if erasures > 16 {
        return None;
    }
    let sums = syndromes(word);
    if sums == [0; 16] {
        return Some(*word);
    }
    let found = corrected(word, erased, &sums);
    (is_codeword(&found) && 2 * wrong_places(word, &found, erased) + erasures <= 16).then_some(found)
}

fn data(turn: u32) -> [u8; 132] {
    std::array::from_fn(|k| k as u8 ^ turn as u8)
}

fn mixed(checksum: u32, byte: u8) -> u32 {
    checksum.wrapping_mul(31).wrapping_add(byte as u32)
}

fn damaged(word: &[u8; 148], turn: u32, wrong: usize) -> [u8; 148] {
    let mut damaged = *word;
    for e in 0..wrong {
        damaged[((turn % 148) as usize + e * 9) % 148] ^= ((turn % 200) as usize + e + 1) as u8;
    }
    damaged
}

fn erased_places(turn: u32) -> [bool; 148] {
    let mut erased = [false; 148];
    for e in 0..16 {
        erased[((turn % 148) as usize + e * 9) % 148] = true;
    }
    erased
}

fn mended(words: &[[u8; 148]; 4], count: u32, wrong: usize) -> u32 {
    (0..count).fold(0, |checksum, turn| {
        let word = damaged(&words[(turn % 4) as usize], turn, wrong);
        nearest(&word, 8).map_or(checksum, |found| mixed(checksum, found[(turn % 148) as usize]))
    })
}

fn clean(words: &[[u8; 148]; 4], count: u32) -> u32 {
    (0..count).fold(0, |checksum, turn| {
        nearest(&words[(turn % 4) as usize], 8).map_or(checksum, |found| mixed(checksum, found[(turn % 148) as usize]))
    })
}

fn erased_mended(words: &[[u8; 148]; 4], count: u32) -> u32 {
    (0..count).fold(0, |checksum, turn| {
        let word = damaged(&words[(turn % 4) as usize], turn, 16);
        nearest_erased(&word, &erased_places(turn)).map_or(checksum, |found| mixed(checksum, found[(turn % 148) as usize]))
    })
}

fn encoded(count: u32) -> u32 {
    let mut plain = data(0);
    (0..count).fold(0, |checksum, turn| {
        plain[0] = turn as u8;
        plain[1] = (turn >> 8) as u8;
        mixed(checksum, encode(&plain)[147])
    })
}

fn sectors_encoded(count: u32) -> u32 {
    let mut plain = [data(0), data(1), data(2), data(3)];
    (0..count).fold(0, |checksum, turn| {
        plain[0][0] = turn as u8;
        plain[1][1] = (turn >> 8) as u8;
        let words = [encode(&plain[0]), encode(&plain[1]), encode(&plain[2]), encode(&plain[3])];
        mixed(checksum, words[0][147] ^ words[1][147] ^ words[2][147] ^ words[3][147])
    })
}

fn sectors_checked(words: &[[u8; 148]; 4], count: u32) -> u32 {
    let mut sector = *words;
    (0..count).fold(0, |checksum, turn| {
        sector[(turn % 4) as usize] = words[(turn % 4) as usize];
        mixed(checksum, sector.iter().all(is_codeword) as u8)
    })
}

fn summed(codeword: &[u8; 148], count: u32) -> u32 {
    let mut word = *codeword;
    (0..count).fold(0, |checksum, turn| {
        word[(turn % 148) as usize] = turn as u8;
        mixed(checksum, syndromes(&word)[(turn % 16) as usize])
    })
}

fn checked(words: &[[u8; 148]; 4], count: u32) -> u32 {
    (0..count).fold(0, |checksum, turn| mixed(checksum, is_codeword(&words[(turn % 4) as usize]) as u8))
}

fn checked_and_copied(words: &[[u8; 148]; 4], count: u32) -> u32 {
    (0..count).fold(0, |checksum, turn| {
        let word = &words[(turn % 4) as usize];
        if is_codeword(word) {
            let copy = std::hint::black_box(*word);
            mixed(checksum, copy[(turn % 148) as usize])
        } else {
            checksum
        }
    })
}

fn main() {
    fill_tables();
    let arguments: Vec<String> = std::env::args().collect();
    let count = arguments[2].parse().unwrap();
    let words = [encode(&data(3)), encode(&data(5)), encode(&data(9)), encode(&data(17))];
    let checksum = match arguments[1].as_str() {
        "encode" => encoded(count),
        "syndromes" => summed(&words[0], count),
        "check" => checked(&words, count),
        "check_copy" => checked_and_copied(&words, count),
        "encode_sector" => sectors_encoded(count),
        "check_sector" => sectors_checked(&words, count),
        "clean" => clean(&words, count),
        "wrong1" => mended(&words, count, 1),
        "wrong4" => mended(&words, count, 4),
        "wrong8" => mended(&words, count, 8),
        "erased16" => erased_mended(&words, count),
        other => panic!("no such kernel: {other}"),
    };
    println!("{checksum}");
}
