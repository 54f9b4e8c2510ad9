//! Reading and printing scripts in plain Rust, in the way of crates/script_text: one pass over the lines, each line's words in
//! an array, the body's lines in a vector, the commands of the phase in hand in a hash set. The same kernels as
//! crates/script_bench: `peer KERNEL COUNT`.

use std::collections::HashSet;
use std::fmt::Write as _;

const LINES_MAX: u32 = 65_536;
const WEIGHT_MAX: u64 = 60_000;
const WORDS_MAX: usize = 8;
const PRIMARY_MAX: usize = 128;
const SAMPLES: u64 = 9_478;

#[derive(Clone, Copy, Debug, PartialEq, Eq)]
enum Why {
    Bytes,
    Shape,
    Number,
    Hex,
    Cdb,
    Disk,
    Place,
    Tag,
    Limit,
    Later,
}

#[derive(Clone, Copy)]
enum Attribute {
    Simple,
    Ordered,
    Head,
}

struct Cdb {
    bytes: [u8; 16],
    length: u8,
}

impl Cdb {
    fn bytes(&self) -> &[u8] {
        &self.bytes[..usize::from(self.length)]
    }
}

enum DataOut {
    Nothing,
    Fill(u8),
    Given(Vec<u8>),
}

enum Function {
    Abort(u16),
    AbortSet,
    Clear,
    Reset,
}

enum Lasting {
    Hard,
    Soft(u8),
    Plus,
    Minus,
}

enum Effect {
    Drop,
    Add(i8),
}

enum Left {
    Old,
    New,
    Nothing,
}

enum World {
    Damage { p: u32, first: u16, count: u16, lasting: Lasting, effect: Effect },
    Fault(u32),
    Cut,
    Arm { k: u32, left: Left, scar: u16 },
    Power,
    Minutes(u16),
}

enum Line {
    Command { initiator: u8, tag: u16, attribute: Attribute, cdb: Cdb, sent: DataOut },
    Function { initiator: u8, what: Function },
    Scan(u32),
    Destage(u32),
    Go,
    World(World),
}

#[derive(Clone, Copy)]
struct Size {
    cylinders: u16,
    heads: u8,
    sectors: u8,
    reserved: u16,
}

impl Size {
    fn new(cylinders: u16, heads: u8, sectors: u8, reserved: u16) -> Option<Self> {
        let size = Size { cylinders, heads, sectors, reserved };
        let is_within = (1..=1024).contains(&cylinders) && (1..=16).contains(&heads) && (1..=64).contains(&sectors);
        let total = size.total();
        (is_within && (48..=4096).contains(&total) && 16 + u32::from(reserved) < total).then_some(size)
    }

    fn total(&self) -> u32 {
        u32::from(self.cylinders) * u32::from(self.heads) * u32::from(self.sectors)
    }
}

struct Script {
    size: Option<Size>,
    primary: Vec<u32>,
    lines: Vec<Line>,
}

fn number(low: u64, high: u64, word: &[u8]) -> Result<u64, Why> {
    let is_numeral = word.iter().all(u8::is_ascii_digit) && (word.len() == 1 || (word.len() > 1 && word[0] != b'0'));
    if !is_numeral {
        return Err(Why::Number);
    }
    let mut worth = 0u64;
    for digit in word {
        worth = worth.checked_mul(10).and_then(|w| w.checked_add(u64::from(digit - b'0'))).ok_or(Why::Number)?;
        if worth > high {
            return Err(Why::Number);
        }
    }
    if low <= worth { Ok(worth) } else { Err(Why::Number) }
}

fn numeral_or_disk(high: u64, word: &[u8]) -> Result<u64, Why> {
    let is_numeral = word.iter().all(u8::is_ascii_digit) && (word.len() == 1 || (word.len() > 1 && word[0] != b'0'));
    if is_numeral { number(0, high, word).map_err(|_| Why::Disk) } else { Err(Why::Number) }
}

fn digit(character: u8) -> Result<u8, Why> {
    match character {
        b'A'..=b'F' => Ok(character - b'A' + 10),
        b'a'..=b'f' => Ok(character - b'a' + 10),
        b'0'..=b'9' => Ok(character - b'0'),
        _ => Err(Why::Hex),
    }
}

fn hex(digits: &[u8]) -> Result<Vec<u8>, Why> {
    if digits.len() % 2 != 0 {
        return Err(Why::Hex);
    }
    let mut bytes = Vec::with_capacity(digits.len() / 2);
    for pair in digits.chunks_exact(2) {
        bytes.push(digit(pair[0])? << 4 | digit(pair[1])?);
    }
    Ok(bytes)
}

fn cdb(bytes: &[u8]) -> Result<Cdb, Why> {
    let is_right = match bytes.first().map(|code| code >> 5) {
        Some(0) => bytes.len() == 6,
        Some(1 | 2) => bytes.len() == 10,
        Some(4) => bytes.len() == 16,
        Some(5) => bytes.len() == 12,
        Some(_) => matches!(bytes.len(), 6 | 10 | 12 | 16),
        None => false,
    };
    if !is_right {
        return Err(Why::Cdb);
    }
    let mut block = Cdb { bytes: [0; 16], length: bytes.len() as u8 };
    block.bytes[..bytes.len()].copy_from_slice(bytes);
    Ok(block)
}

fn command(words: &[&[u8]]) -> Result<Line, Why> {
    let (initiator, tag, attribute, block, data) = match words {
        [initiator, tag, attribute, block] => (initiator, tag, attribute, block, None),
        [initiator, tag, attribute, block, data] => match data.first() {
            Some(b'*' | b'=') => (initiator, tag, attribute, block, Some(data)),
            _ => return Err(Why::Shape),
        },
        _ => return Err(Why::Shape),
    };
    let attribute = match *attribute {
        b"S" => Attribute::Simple,
        b"O" => Attribute::Ordered,
        b"H" => Attribute::Head,
        _ => return Err(Why::Shape),
    };
    let initiator = number(1, 8, initiator)? as u8;
    let tag = number(0, 65_535, tag)? as u16;
    let bytes = hex(block)?;
    let sent = match data {
        None => DataOut::Nothing,
        Some([b'*', high, low]) => DataOut::Fill(digit(*high)? << 4 | digit(*low)?),
        Some([b'=', digits @ ..]) => DataOut::Given(hex(digits)?),
        Some(_) => return Err(Why::Hex),
    };
    Ok(Line::Command { initiator, tag, attribute, cdb: cdb(&bytes)?, sent })
}

fn function(what: Function, words: &[&[u8]]) -> Result<Line, Why> {
    match words {
        [initiator] => Ok(Line::Function { initiator: number(1, 8, initiator)? as u8, what }),
        _ => Err(Why::Shape),
    }
}

fn abort(words: &[&[u8]]) -> Result<Line, Why> {
    match words {
        [initiator, tag] => {
            let initiator = number(1, 8, initiator)? as u8;
            Ok(Line::Function { initiator, what: Function::Abort(number(0, 65_535, tag)? as u16) })
        }
        _ => Err(Why::Shape),
    }
}

fn counted(make: fn(u32) -> Line, words: &[&[u8]]) -> Result<Line, Why> {
    match words {
        [count] => Ok(make(number(1, WEIGHT_MAX, count)? as u32)),
        _ => Err(Why::Shape),
    }
}

fn damage(total: u32, words: &[&[u8]]) -> Result<Line, Why> {
    let [p, first, count, rest @ ..] = words else { return Err(Why::Shape) };
    let (lasting, rest): (&[&[u8]], _) = match rest {
        [b"soft", _, effect @ ..] => (&rest[..2], effect),
        [b"hard" | b"plus" | b"minus", effect @ ..] => (&rest[..1], effect),
        _ => return Err(Why::Shape),
    };
    if !matches!(rest, [b"drop"] | [b"add", _]) {
        return Err(Why::Shape);
    }
    let lasting = match lasting {
        [b"hard"] => Lasting::Hard,
        [b"plus"] => Lasting::Plus,
        [b"minus"] => Lasting::Minus,
        _ => Lasting::Soft(number(1, 255, lasting[1])? as u8),
    };
    let effect = match rest {
        [_, [b'-', digits @ ..]] => Effect::Add(-(number(1, 127, digits)? as i8)),
        [_, digits] => Effect::Add(number(1, 127, digits)? as i8),
        _ => Effect::Drop,
    };
    let p = number(0, u64::from(total - 1), p)? as u32;
    let first = number(0, SAMPLES, first)?;
    let count = number(1, SAMPLES, count)?;
    if first + count > SAMPLES {
        return Err(Why::Number);
    }
    Ok(Line::World(World::Damage { p, first: first as u16, count: count as u16, lasting, effect }))
}

fn cut(words: &[&[u8]]) -> Result<Line, Why> {
    match words {
        [b"now"] => Ok(Line::World(World::Cut)),
        [b"write", k, left, scar] => {
            let left = match *left {
                b"old" => Left::Old,
                b"new" => Left::New,
                b"none" => Left::Nothing,
                _ => return Err(Why::Shape),
            };
            let k = number(1, u64::from(u32::MAX), k)? as u32;
            Ok(Line::World(World::Arm { k, left, scar: number(0, SAMPLES, scar)? as u16 }))
        }
        _ => Err(Why::Shape),
    }
}

fn lone(line: Line, words: &[&[u8]]) -> Result<Line, Why> {
    if words.is_empty() { Ok(line) } else { Err(Why::Shape) }
}

fn line_of(total: u32, first: &[u8], words: &[&[u8]]) -> Result<Line, Why> {
    match first {
        b"cmd" => command(words),
        b"go" => lone(Line::Go, words),
        b"damage" => damage(total, words),
        b"scan" => counted(Line::Scan, words),
        b"destage" => counted(Line::Destage, words),
        b"abort" => abort(words),
        b"abortset" => function(Function::AbortSet, words),
        b"clear" => function(Function::Clear, words),
        b"reset" => function(Function::Reset, words),
        b"fault" => match words {
            [p] => Ok(Line::World(World::Fault(number(16, u64::from(total - 1), p)? as u32))),
            _ => Err(Why::Shape),
        },
        b"cut" => cut(words),
        b"power" => lone(Line::World(World::Power), words),
        b"minutes" => match words {
            [count] => Ok(Line::World(World::Minutes(number(0, 65_535, count)? as u16))),
            _ => Err(Why::Shape),
        },
        _ => Err(Why::Shape),
    }
}

fn weight_of(capacity: u64, line: &Line) -> u64 {
    match line {
        Line::Command { cdb, sent, .. } => {
            let bytes = cdb.bytes();
            let blocks = |length: u32| if length <= 256 { u64::from(length) } else { 0 };
            match bytes[0] {
                0x28 | 0x2A | 0x2E | 0x2F => blocks(u32::from(bytes[7]) << 8 | u32::from(bytes[8])),
                0x88 | 0x8A => blocks(u32::from_be_bytes([bytes[10], bytes[11], bytes[12], bytes[13]])),
                0x35 | 0x91 => 64,
                0x07 => match sent {
                    DataOut::Given(data) => (data.len() / 4) as u64,
                    _ => 0,
                },
                0x04 => capacity,
                _ => 0,
            }
        }
        Line::Scan(count) | Line::Destage(count) => u64::from(*count),
        Line::World(World::Power) => 64,
        _ => 0,
    }
}

fn is_served(line: &Line) -> bool {
    match line {
        Line::Command { cdb, .. } => cdb.bytes[0] != 0x07,
        Line::Function { .. } | Line::Go => true,
        Line::World(World::Damage { .. } | World::Minutes(_)) => true,
        _ => false,
    }
}

struct Standing {
    script: Script,
    waits: bool,
    commands: HashSet<(u8, u16)>,
    weight: u64,
}

impl Standing {
    fn total(&self) -> u32 {
        self.script.size.map_or(1024, |size| size.total())
    }

    fn reserved(&self) -> u16 {
        self.script.size.map_or(96, |size| size.reserved)
    }

    fn take(&mut self, number: u32, line: &[u8]) -> Result<(), Why> {
        if !line.iter().all(|byte| (0x20..=0x7E).contains(byte)) {
            return Err(Why::Bytes);
        }
        if line.is_empty() || line[0] == b'#' {
            return if number <= LINES_MAX { Ok(()) } else { Err(Why::Limit) };
        }
        let mut words: [&[u8]; WORDS_MAX] = [&[]; WORDS_MAX];
        let mut count = 0;
        for word in line.split(|byte| *byte == b' ') {
            if count == WORDS_MAX || word.is_empty() {
                return Err(Why::Shape);
            }
            words[count] = word;
            count += 1;
        }
        self.take_words(number, words[0], &words[1..count])
    }

    fn take_words(&mut self, number: u32, first: &[u8], words: &[&[u8]]) -> Result<(), Why> {
        match first {
            b"disk" => self.give_size(number, words),
            b"primary" => self.give_primary(number, words),
            _ => self.give_line(number, line_of(self.total(), first, words)?),
        }
    }

    fn give_size(&mut self, line: u32, words: &[&[u8]]) -> Result<(), Why> {
        let [cylinders, heads, sectors, reserved] = words else { return Err(Why::Shape) };
        for word in words {
            if numeral_or_disk(u64::MAX, word) == Err(Why::Number) {
                return Err(Why::Number);
            }
        }
        let size = Size::new(
            numeral_or_disk(65_535, cylinders)? as u16,
            numeral_or_disk(255, heads)? as u8,
            numeral_or_disk(255, sectors)? as u8,
            numeral_or_disk(65_535, reserved)? as u16,
        )
        .ok_or(Why::Disk)?;
        if self.script.size.is_some() || !self.script.primary.is_empty() || !self.script.lines.is_empty() {
            return Err(Why::Place);
        }
        if line > LINES_MAX {
            return Err(Why::Limit);
        }
        self.script.size = Some(size);
        Ok(())
    }

    fn give_primary(&mut self, line: u32, words: &[&[u8]]) -> Result<(), Why> {
        let [p] = words else { return Err(Why::Shape) };
        let p = number(16, u64::from(self.total() - 1), p)? as u32;
        let primary = &self.script.primary;
        let most = PRIMARY_MAX.min(usize::from(self.reserved()));
        if primary.len() >= most || primary.iter().any(|q| *q >= p) {
            return Err(Why::Disk);
        }
        if !self.script.lines.is_empty() {
            return Err(Why::Place);
        }
        if line > LINES_MAX {
            return Err(Why::Limit);
        }
        self.script.primary.push(p);
        Ok(())
    }

    fn give_line(&mut self, number: u32, line: Line) -> Result<(), Why> {
        if matches!(line, Line::World(_)) && self.waits {
            return Err(Why::Place);
        }
        let capacity = u64::from(self.total()) - 16 - u64::from(self.reserved());
        let weight = weight_of(capacity, &line);
        match &line {
            Line::Command { initiator, tag, .. } => {
                self.waits = true;
                if !self.commands.insert((*initiator, *tag)) {
                    return Err(Why::Tag);
                }
            }
            Line::Function { .. } | Line::Scan(_) | Line::Destage(_) => self.waits = true,
            Line::Go => {
                self.waits = false;
                self.commands.clear();
            }
            Line::World(_) => {}
        }
        if number > LINES_MAX || weight > WEIGHT_MAX - self.weight {
            return Err(Why::Limit);
        }
        if !is_served(&line) {
            return Err(Why::Later);
        }
        self.script.lines.push(line);
        self.weight += weight;
        Ok(())
    }
}

fn read_script(bytes: &[u8]) -> Result<Script, (u32, Why)> {
    let script = Script { size: None, primary: Vec::new(), lines: Vec::new() };
    let mut standing = Standing { script, waits: false, commands: HashSet::new(), weight: 0 };
    let mut number = 1;
    let mut rest = bytes;
    while !rest.is_empty() {
        let (line, behind) = match rest.iter().position(|byte| *byte == b'\n') {
            Some(at) => (&rest[..at], &rest[at + 1..]),
            None => (rest, &[][..]),
        };
        standing.take(number, line).map_err(|why| (number, why))?;
        number += 1;
        rest = behind;
    }
    if standing.waits {
        standing.script.lines.push(Line::Go);
    }
    Ok(standing.script)
}

fn put_number(out: &mut Vec<u8>, number: u64) {
    let mut digits = [0; 20];
    let mut at = digits.len();
    let mut left = number;
    loop {
        at -= 1;
        digits[at] = b'0' + (left % 10) as u8;
        left /= 10;
        if left == 0 {
            break;
        }
    }
    out.push(b' ');
    out.extend_from_slice(&digits[at..]);
}

fn put_word(out: &mut Vec<u8>, word: &[u8]) {
    out.push(b' ');
    out.extend_from_slice(word);
}

fn put_digits(out: &mut Vec<u8>, bytes: &[u8]) {
    const DIGITS: &[u8; 16] = b"0123456789ABCDEF";
    out.extend(bytes.iter().flat_map(|byte| [DIGITS[usize::from(byte >> 4)], DIGITS[usize::from(byte & 15)]]));
}

fn put_line(out: &mut Vec<u8>, line: &Line) {
    match line {
        Line::Command { initiator, tag, attribute, cdb, sent } => {
            out.extend_from_slice(b"cmd");
            put_number(out, u64::from(*initiator));
            put_number(out, u64::from(*tag));
            put_word(out, match attribute {
                Attribute::Simple => b"S",
                Attribute::Ordered => b"O",
                Attribute::Head => b"H",
            });
            out.push(b' ');
            put_digits(out, cdb.bytes());
            match sent {
                DataOut::Nothing => {}
                DataOut::Fill(byte) => {
                    out.extend_from_slice(b" *");
                    put_digits(out, &[*byte]);
                }
                DataOut::Given(bytes) => {
                    out.extend_from_slice(b" =");
                    put_digits(out, bytes);
                }
            }
        }
        Line::Function { initiator, what } => put_function(out, u64::from(*initiator), what),
        Line::Scan(count) => put_counted(out, b"scan", u64::from(*count)),
        Line::Destage(count) => put_counted(out, b"destage", u64::from(*count)),
        Line::Go => out.extend_from_slice(b"go"),
        Line::World(world) => put_world(out, world),
    }
}

fn put_counted(out: &mut Vec<u8>, first: &[u8], number: u64) {
    out.extend_from_slice(first);
    put_number(out, number);
}

fn put_function(out: &mut Vec<u8>, initiator: u64, what: &Function) {
    match what {
        Function::Abort(tag) => {
            put_counted(out, b"abort", initiator);
            put_number(out, u64::from(*tag));
        }
        Function::AbortSet => put_counted(out, b"abortset", initiator),
        Function::Clear => put_counted(out, b"clear", initiator),
        Function::Reset => put_counted(out, b"reset", initiator),
    }
}

fn put_world(out: &mut Vec<u8>, world: &World) {
    match world {
        World::Damage { p, first, count, lasting, effect } => {
            put_counted(out, b"damage", u64::from(*p));
            put_number(out, u64::from(*first));
            put_number(out, u64::from(*count));
            match lasting {
                Lasting::Hard => put_word(out, b"hard"),
                Lasting::Soft(below) => {
                    put_word(out, b"soft");
                    put_number(out, u64::from(*below));
                }
                Lasting::Plus => put_word(out, b"plus"),
                Lasting::Minus => put_word(out, b"minus"),
            }
            match effect {
                Effect::Drop => put_word(out, b"drop"),
                Effect::Add(change) if *change < 0 => {
                    put_word(out, b"add");
                    out.extend_from_slice(b" -");
                    let mut digits = Vec::new();
                    put_number(&mut digits, u64::from(change.unsigned_abs()));
                    out.extend_from_slice(&digits[1..]);
                }
                Effect::Add(change) => {
                    put_word(out, b"add");
                    put_number(out, u64::from(change.unsigned_abs()));
                }
            }
        }
        World::Fault(p) => put_counted(out, b"fault", u64::from(*p)),
        World::Cut => out.extend_from_slice(b"cut now"),
        World::Arm { k, left, scar } => {
            put_counted(out, b"cut write", u64::from(*k));
            put_word(out, match left {
                Left::Old => b"old",
                Left::New => b"new",
                Left::Nothing => b"none",
            });
            put_number(out, u64::from(*scar));
        }
        World::Power => out.extend_from_slice(b"power"),
        World::Minutes(count) => put_counted(out, b"minutes", u64::from(*count)),
    }
}

fn print(script: &Script) -> Vec<u8> {
    let mut out = Vec::new();
    if let Some(size) = &script.size {
        put_counted(&mut out, b"disk", u64::from(size.cylinders));
        put_number(&mut out, u64::from(size.heads));
        put_number(&mut out, u64::from(size.sectors));
        put_number(&mut out, u64::from(size.reserved));
        out.push(b'\n');
    }
    for p in &script.primary {
        put_counted(&mut out, b"primary", u64::from(*p));
        out.push(b'\n');
    }
    for line in &script.lines {
        put_line(&mut out, line);
        out.push(b'\n');
    }
    out
}

fn mixed_script() -> String {
    let mut text = String::new();
    for phase in 0..2570u32 {
        let block = phase % 800;
        let tag = phase * 16;
        let sector = 16 + phase % 1000;
        writeln!(text, "# phase {phase}: reads and writes").unwrap();
        writeln!(text, "damage {sector} 1000 {} soft 2 add -100", block + 1).unwrap();
        writeln!(text, "damage {sector} {block} 50 hard drop").unwrap();
        for more in 0..4 {
            writeln!(text, "cmd 1 {} S 28000000{block:04X}00000100", tag + more).unwrap();
            writeln!(text, "cmd 1 {} S 2A000000{block:04X}00000100 *{more:02X}", tag + 4 + more).unwrap();
        }
        writeln!(text, "cmd 1 {} S 8800000000000000{block:04X}000000010000", tag + 8).unwrap();
        writeln!(text, "cmd 1 {} S 8A00000000000000{block:04X}000000010000 *a5", tag + 9).unwrap();
        writeln!(text, "cmd 1 {} S 2E000000{block:04X}00000100 *77", tag + 10).unwrap();
        writeln!(text, "cmd 1 {} S 2F000000{block:04X}00000100", tag + 11).unwrap();
        write!(text, "cmd 1 {} S 2A000000{block:04X}00000100 =", tag + 12).unwrap();
        let mut digits = u64::from(tag + 12);
        for _ in 0..64 {
            digits = digits.wrapping_mul(6364136223846793005).wrapping_add(1442695040888963407);
            write!(text, "{digits:016X}").unwrap();
        }
        text.push('\n');
        if phase % 16 == 0 {
            writeln!(text, "cmd 1 {} S 35000000000000000000", tag + 13).unwrap();
            writeln!(text, "cmd 1 {} S 91000000000000000000000000000000", tag + 14).unwrap();
        }
        text.push_str("go\n");
    }
    text
}

fn all_tags() -> String {
    let mut text = String::new();
    for tag in 0..65_536 {
        writeln!(text, "cmd 1 {tag} S 2A000000000000000000 =00112233445566778899AABBCC").unwrap();
    }
    text
}

fn comments() -> String {
    (0..65_536).map(|number| format!("# {number:061}\n")).collect()
}

fn one_comment() -> String {
    "#".repeat(4_194_303) + "\n"
}

fn mixed(sum: u64, worth: u64) -> u64 {
    sum.wrapping_mul(31).wrapping_add(worth)
}

fn worth_of(line: &Line) -> u64 {
    match line {
        Line::Command { tag, cdb, sent, .. } => {
            let data = match sent {
                DataOut::Nothing => 0,
                DataOut::Fill(byte) => u64::from(*byte),
                DataOut::Given(bytes) => bytes.last().map_or(0, |byte| mixed(bytes.len() as u64, u64::from(*byte))),
            };
            mixed(mixed(u64::from(*tag), cdb.bytes().len() as u64), data)
        }
        Line::World(World::Damage { p, first, .. }) => mixed(u64::from(*p), u64::from(*first)),
        Line::World(_) => 2,
        _ => 1,
    }
}

fn read(text: &str, count: u32) -> u64 {
    let mut sum = text.len() as u64;
    for _ in 0..count {
        let script = read_script(std::hint::black_box(text.as_bytes())).unwrap();
        sum = script.lines.iter().fold(sum, |sum, line| mixed(sum, worth_of(line)));
    }
    sum
}

fn printed(text: &str, count: u32) -> u64 {
    let script = read_script(text.as_bytes()).unwrap();
    let mut sum = print(&script).len() as u64;
    for turn in 0..count {
        let text = print(std::hint::black_box(&script));
        let byte = text.get(turn as usize).copied().unwrap_or(0);
        sum = mixed(sum, mixed(text.len() as u64, u64::from(byte)));
    }
    sum
}

fn main() {
    let mut args = std::env::args().skip(1);
    let kernel = args.next().expect("no kernel is given");
    let count = args.next().expect("no count is given").parse().expect("the count is no number");
    let sum = match kernel.as_str() {
        "empty" => mixed_script().len() as u64,
        "read" => read(&mixed_script(), count),
        "tags" => read(&all_tags(), count),
        "comments" => read(&comments(), count),
        "comment" => read(&one_comment(), count),
        "print" => printed(&mixed_script(), count),
        _ => panic!("no such kernel"),
    };
    println!("{sum}");
}
