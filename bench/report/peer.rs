//! Reading and printing reports in plain Rust, in the format of crates/report_text: one pass over the lines, each word checked
//! as it is taken off its line, the turns in a vector; the text goes through a buffer of 4,000 bytes to a sink. The same
//! kernels as crates/report_bench: `peer COUNT KERNEL`, with the report on standard input.

use std::io::{self, Read, Write};
use std::iter::Peekable;

const GATHERED_MAX: usize = 4000;
const BLOCK_LENGTH: usize = 512;
const SENSE_LENGTH: usize = 18;
const SAMPLES: u64 = 9_478;
const SECTORS: u64 = 4_096;
const FIRST_USED: u64 = 16;

type Block = [u8; BLOCK_LENGTH];

#[derive(Clone, Copy)]
enum Attribute {
    Simple,
    Ordered,
    Head,
}

#[derive(Clone, Copy)]
struct Cdb {
    bytes: [u8; 16],
    length: usize,
}

impl Cdb {
    fn bytes(&self) -> &[u8] {
        &self.bytes[..self.length]
    }

    fn new(given: &[u8]) -> Option<Self> {
        let length = given.len();
        let is_allowed = match given.first()? / 32 {
            0 => length == 6,
            1 | 2 => length == 10,
            4 => length == 16,
            5 => length == 12,
            _ => matches!(length, 6 | 10 | 12 | 16),
        };
        if !is_allowed {
            return None;
        }
        let mut bytes = [0; 16];
        bytes[..length].copy_from_slice(given);
        Some(Cdb { bytes, length })
    }
}

enum DataOut {
    Nothing,
    Fill(u8),
    Given(Vec<u8>),
}

enum Value {
    Data(Block),
    Lost,
}

enum Who {
    Command(u32),
    Drive,
}

enum Function {
    Abort(u16),
    AbortSet,
    Clear,
    Reset,
}

struct Settings {
    awre: bool,
    arre: bool,
    per: bool,
    retry: u8,
    wce: bool,
    rcd: bool,
    bms: bool,
}

enum Seen {
    Skipped,
    Light,
    Heavy,
    Unread,
}

#[allow(dead_code)]
struct Finding {
    minutes: u32,
    status: u8,
    key: u8,
    asc: u8,
    ascq: u8,
    b: u64,
}

enum Recovered {
    Ready(u64),
    Corrupt(u8),
    Formatting(u64),
}

struct Sense {
    key: u8,
    information: Option<u32>,
    specific: u32,
    asc: u8,
    ascq: u8,
}

impl Sense {
    fn read(bytes: &[u8; SENSE_LENGTH]) -> Option<Self> {
        let &[response, 0, key, i0, i1, i2, i3, 10, s0, s1, s2, s3, asc, ascq, 0, 0, 0, 0] = bytes else {
            return None;
        };
        let information = match (response, u32::from_be_bytes([i0, i1, i2, i3])) {
            (0x70, 0) => None,
            (0xF0, information) => Some(information),
            _ => return None,
        };
        Some(Sense { key, information, specific: u32::from_be_bytes([s0, s1, s2, s3]), asc, ascq })
    }

    fn bytes(&self) -> [u8; SENSE_LENGTH] {
        let response = if self.information.is_some() { 0xF0 } else { 0x70 };
        let [i0, i1, i2, i3] = self.information.unwrap_or(0).to_be_bytes();
        let [s0, s1, s2, s3] = self.specific.to_be_bytes();
        [response, 0, self.key, i0, i1, i2, i3, 10, s0, s1, s2, s3, self.asc, self.ascq, 0, 0, 0, 0]
    }
}

struct Reply {
    status: u8,
    sense: Option<Sense>,
}

enum Entry {
    Arrived { c: u32, initiator: u8, tag: u16, attribute: Attribute, cdb: Cdb, sent: DataOut },
    Started { c: u32 },
    Get { c: u32, b: u64, value: Value },
    Put { c: u32, b: u64, value: Block },
    Harden { who: Who, b: u64 },
    Passed { c: u32, from: u64, to: u64 },
    GiveUp { b: u64 },
    Page { c: u32, bytes: Vec<u8> },
    Ended { c: u32, reply: Reply },
    Aborted { c: u32 },
    Asked { initiator: u8, what: Function },
    Mode { settings: Settings },
    Scanned { b: u64, what: Seen },
    Logged { finding: Finding },
    Cut,
    PoweredOn { outcome: Recovered },
    Tick { minutes: u16 },
    Blank { c: u32 },
    Fresh { c: u32 },
}

#[derive(Clone, Copy)]
enum Left {
    Old,
    New,
    Nothing,
}

enum Lasting {
    Hard,
    Soft(u8),
    Plus,
    Minus,
}

enum Effect {
    Drop,
    Add(i8),
}

enum World {
    Damage { p: u32, first: u16, count: u16, lasting: Lasting, effect: Effect },
    Fault(u32),
    Cut,
    Arm { k: u32, left: Left, scar: u16 },
    Power,
    Minutes(u16),
}

enum Label {
    Arrive(u8),
    Work(u32),
    Job(u32),
    Scan,
    Destage,
    World(World),
}

struct Turn {
    label: Label,
    ops_from: u64,
    ops_to: u64,
    entries: Vec<Entry>,
}

#[derive(Clone, Copy, PartialEq, Eq)]
struct Payload {
    kind: u8,
    index: u8,
    state: u8,
    version: u8,
    psn: u32,
    address: u64,
    block: Block,
}

/// Operations, as the platter keeps them; not every one is made here.
#[allow(dead_code)]
enum Op {
    Wrote { payload: Payload },
    Torn { payload: Payload, left: Left, scar: u16 },
    WriteFailed { p: u32 },
    Damaged { p: u32 },
    Faulty { p: u32 },
    Fetched { p: u32, reread: u8, offset: i8 },
    Tried { at: u64, p: u32, stage: u8, found: Option<Payload> },
    Cut,
    Power,
}

/// What a report shows of an operation.
enum Shown {
    Wrote(u32),
    Torn { p: u32, left: Left },
    WriteFailed(u32),
    Damaged(u32),
    Faulty(u32),
    Fetched { p: u32, reread: u8, offset: i8 },
    Tried { p: u32, stage: u8, found: bool },
    Cut,
    Power,
}

impl Shown {
    fn of(op: &Op) -> Self {
        match *op {
            Op::Wrote { ref payload } => Shown::Wrote(payload.psn),
            Op::Torn { ref payload, left, .. } => Shown::Torn { p: payload.psn, left },
            Op::WriteFailed { p } => Shown::WriteFailed(p),
            Op::Damaged { p } => Shown::Damaged(p),
            Op::Faulty { p } => Shown::Faulty(p),
            Op::Fetched { p, reread, offset } => Shown::Fetched { p, reread, offset },
            Op::Tried { p, stage, ref found, .. } => Shown::Tried { p, stage, found: found.is_some() },
            Op::Cut => Shown::Cut,
            Op::Power => Shown::Power,
        }
    }
}

// Reading.

/// The words of a line.
struct Words<'a> {
    rest: Option<&'a [u8]>,
}

impl<'a> Iterator for Words<'a> {
    type Item = &'a [u8];

    fn next(&mut self) -> Option<&'a [u8]> {
        let rest = self.rest?;
        match rest.iter().position(|byte| *byte == b' ') {
            Some(at) => {
                self.rest = Some(&rest[at + 1..]);
                Some(&rest[..at])
            }
            None => {
                self.rest = None;
                Some(rest)
            }
        }
    }
}

struct Line<'a> {
    words: Peekable<Words<'a>>,
}

impl<'a> Line<'a> {
    fn new(line: &'a [u8]) -> Self {
        Line { words: Words { rest: Some(line) }.peekable() }
    }

    fn word(&mut self) -> Option<&'a [u8]> {
        self.words.next()
    }

    fn takes(&mut self, wanted: &[u8]) -> bool {
        self.words.next_if(|word| *word == wanted).is_some()
    }

    fn is_at_mark(&mut self) -> bool {
        self.words.peek().is_none_or(|word| *word == b">" || *word == b"<")
    }

    fn number(&mut self, low: u64, high: u64) -> Option<u64> {
        number_of(low, high, self.word()?)
    }

    fn command(&mut self) -> Option<u32> {
        Some(self.number(0, u64::from(u32::MAX))? as u32)
    }

    fn block(&mut self) -> Option<u64> {
        self.number(0, u64::MAX)
    }

    fn sector(&mut self) -> Option<u32> {
        self.command()
    }

    fn initiator(&mut self) -> Option<u8> {
        Some(self.number(1, 8)? as u8)
    }

    fn short(&mut self) -> Option<u16> {
        Some(self.number(0, 65_535)? as u16)
    }

    fn byte(&mut self) -> Option<u8> {
        Some(self.number(0, 255)? as u8)
    }

    fn flag(&mut self) -> Option<bool> {
        Some(self.number(0, 1)? == 1)
    }

    fn signed(&mut self, below: u64, least: u64, above: u64) -> Option<i8> {
        match self.word()? {
            [b'-', digits @ ..] => Some(-(number_of(1, below, digits)? as i16) as i8),
            word => Some(number_of(least, above, word)? as i8),
        }
    }

    fn left(&mut self) -> Option<Left> {
        match self.word()? {
            b"old" => Some(Left::Old),
            b"new" => Some(Left::New),
            b"none" => Some(Left::Nothing),
            _ => None,
        }
    }

    fn sent(&mut self) -> Option<DataOut> {
        match self.word()? {
            b"-" => Some(DataOut::Nothing),
            [b'*', digits @ ..] => Some(DataOut::Fill(byte_of(digits)?)),
            [b'=', digits @ ..] => Some(DataOut::Given(bytes_of(digits)?)),
            _ => None,
        }
    }

    fn value(&mut self) -> Option<Value> {
        match self.word()? {
            b"bad" => Some(Value::Lost),
            [b'*', digits @ ..] => Some(Value::Data([byte_of(digits)?; BLOCK_LENGTH])),
            digits => {
                let mut block = [0; BLOCK_LENGTH];
                let is_mixed = decode(digits, &mut block) && block.iter().any(|byte| *byte != block[0]);
                is_mixed.then_some(Value::Data(block))
            }
        }
    }

    fn page(&mut self) -> Option<Vec<u8>> {
        match self.word()? {
            b"-" => Some(Vec::new()),
            [] => None,
            digits => bytes_of(digits),
        }
    }

    fn reply(&mut self) -> Option<Reply> {
        let status = byte_of(self.word()?)?;
        if self.is_at_mark() {
            return Some(Reply { status, sense: None });
        }
        let mut bytes = [0; SENSE_LENGTH];
        if !decode(self.word()?, &mut bytes) {
            return None;
        }
        Some(Reply { status, sense: Some(Sense::read(&bytes)?) })
    }

    fn function(&mut self) -> Option<Function> {
        match self.word()? {
            b"abort" => Some(Function::Abort(self.short()?)),
            b"abortset" => Some(Function::AbortSet),
            b"clear" => Some(Function::Clear),
            b"reset" => Some(Function::Reset),
            _ => None,
        }
    }

    fn settings(&mut self) -> Option<Settings> {
        Some(Settings {
            awre: self.flag()?,
            arre: self.flag()?,
            per: self.flag()?,
            retry: self.byte()?,
            wce: self.flag()?,
            rcd: self.flag()?,
            bms: self.flag()?,
        })
    }

    fn finding(&mut self, minutes: u32) -> Option<Finding> {
        let status = self.byte()?;
        let (key, asc, ascq) = match status {
            1 => (3, 0x11, 0x00),
            2 => (1, 0x18, 0x02),
            4 => (1, 0x18, 0x05),
            _ => return None,
        };
        Some(Finding { minutes, status, key, asc, ascq, b: self.block()? })
    }

    fn outcome(&mut self) -> Option<Recovered> {
        match self.word()? {
            b"ready" => Some(Recovered::Ready(self.block()?)),
            b"corrupt" => Some(Recovered::Corrupt(self.byte()?)),
            b"formatting" => Some(Recovered::Formatting(self.block()?)),
            _ => None,
        }
    }

    fn seen(&mut self) -> Option<Seen> {
        match self.word()? {
            b"skipped" => Some(Seen::Skipped),
            b"light" => Some(Seen::Light),
            b"heavy" => Some(Seen::Heavy),
            b"unread" => Some(Seen::Unread),
            _ => None,
        }
    }

    fn arrived(&mut self) -> Option<Entry> {
        Some(Entry::Arrived {
            c: self.command()?,
            initiator: self.initiator()?,
            tag: self.short()?,
            attribute: match self.word()? {
                b"S" => Attribute::Simple,
                b"O" => Attribute::Ordered,
                b"H" => Attribute::Head,
                _ => return None,
            },
            cdb: self.cdb()?,
            sent: self.sent()?,
        })
    }

    fn cdb(&mut self) -> Option<Cdb> {
        let digits = self.word()?;
        let mut bytes = [0; 16];
        let bytes = bytes.get_mut(..digits.len() / 2)?;
        if decode(digits, bytes) { Cdb::new(bytes) } else { None }
    }

    fn entry(&mut self, minutes: u32) -> Option<Entry> {
        Some(match self.word()? {
            b"in" => self.arrived()?,
            b"start" => Entry::Started { c: self.command()? },
            b"get" => Entry::Get { c: self.command()?, b: self.block()?, value: self.value()? },
            b"put" => {
                let (c, b) = (self.command()?, self.block()?);
                let Value::Data(value) = self.value()? else { return None };
                Entry::Put { c, b, value }
            }
            b"hard" => {
                let who = if self.takes(b"d") { Who::Drive } else { Who::Command(self.command()?) };
                Entry::Harden { who, b: self.block()? }
            }
            b"pass" => Entry::Passed { c: self.command()?, from: self.block()?, to: self.block()? },
            b"lose" => Entry::GiveUp { b: self.block()? },
            b"page" => Entry::Page { c: self.command()?, bytes: self.page()? },
            b"end" => Entry::Ended { c: self.command()?, reply: self.reply()? },
            b"gone" => Entry::Aborted { c: self.command()? },
            b"func" => Entry::Asked { initiator: self.initiator()?, what: self.function()? },
            b"mode" => Entry::Mode { settings: self.settings()? },
            b"scanned" => Entry::Scanned { b: self.block()?, what: self.seen()? },
            b"logged" => Entry::Logged { finding: self.finding(minutes)? },
            b"cut" => Entry::Cut,
            b"on" => Entry::PoweredOn { outcome: self.outcome()? },
            b"tick" => Entry::Tick { minutes: self.short()? },
            b"blank" => Entry::Blank { c: self.command()? },
            b"fresh" => Entry::Fresh { c: self.command()? },
            _ => return None,
        })
    }

    fn operation(&mut self) -> Option<Shown> {
        Some(match self.word()? {
            b"wrote" => Shown::Wrote(self.sector()?),
            b"torn" => Shown::Torn { p: self.sector()?, left: self.left()? },
            b"failed" => Shown::WriteFailed(self.sector()?),
            b"damaged" => Shown::Damaged(self.sector()?),
            b"faulty" => Shown::Faulty(self.sector()?),
            b"fetch" => Shown::Fetched { p: self.sector()?, reread: self.byte()?, offset: self.signed(128, 0, 127)? },
            b"tried" => {
                let (p, stage) = (self.sector()?, self.byte()?);
                let found = match self.word()? {
                    b"found" => true,
                    b"none" => false,
                    _ => return None,
                };
                Shown::Tried { p, stage, found }
            }
            b"cut" => Shown::Cut,
            b"power" => Shown::Power,
            _ => return None,
        })
    }

    fn damage(&mut self) -> Option<World> {
        let p = self.number(0, SECTORS - 1)? as u32;
        let first = self.number(0, SAMPLES)?;
        let count = self.number(1, SAMPLES)?;
        let lasting = match self.word()? {
            b"hard" => Lasting::Hard,
            b"soft" => Lasting::Soft(self.number(1, 255)? as u8),
            b"plus" => Lasting::Plus,
            b"minus" => Lasting::Minus,
            _ => return None,
        };
        let effect = match self.word()? {
            b"drop" => Effect::Drop,
            b"add" => Effect::Add(self.signed(127, 1, 127)?),
            _ => return None,
        };
        (first + count <= SAMPLES).then_some(World::Damage {
            p,
            first: first as u16,
            count: count as u16,
            lasting,
            effect,
        })
    }

    fn cut(&mut self) -> Option<World> {
        match self.word()? {
            b"now" => Some(World::Cut),
            b"write" => Some(World::Arm {
                k: self.number(1, u64::from(u32::MAX))? as u32,
                left: self.left()?,
                scar: self.number(0, SAMPLES)? as u16,
            }),
            _ => None,
        }
    }

    fn label(&mut self) -> Option<Label> {
        Some(match self.word()? {
            b"arrive" => Label::Arrive(self.initiator()?),
            b"work" => Label::Work(self.command()?),
            b"job" => Label::Job(self.command()?),
            b"scan" => Label::Scan,
            b"destage" => Label::Destage,
            b"damage" => Label::World(self.damage()?),
            b"fault" => Label::World(World::Fault(self.number(FIRST_USED, SECTORS - 1)? as u32)),
            b"cut" => Label::World(self.cut()?),
            b"power" => Label::World(World::Power),
            b"minutes" => Label::World(World::Minutes(self.short()?)),
            _ => return None,
        })
    }
}

fn number_of(low: u64, high: u64, word: &[u8]) -> Option<u64> {
    if word.is_empty() || (word[0] == b'0' && word.len() > 1) {
        return None;
    }
    let mut number = 0u64;
    for byte in word {
        let digit = byte.wrapping_sub(b'0');
        if digit > 9 {
            return None;
        }
        number = number.checked_mul(10)?.checked_add(u64::from(digit))?;
    }
    (low..=high).contains(&number).then_some(number)
}

/// The values of upper-case hexadecimal digits; 255 is none.
const DIGIT_VALUES: [u8; 256] = {
    let mut values = [255; 256];
    let mut value = 0;
    while value < 16 {
        values[DIGITS[value] as usize] = value as u8;
        value += 1;
    }
    values
};

/// Whether digits give so many bytes; then these are they.
fn decode(digits: &[u8], bytes: &mut [u8]) -> bool {
    if digits.len() != 2 * bytes.len() {
        return false;
    }
    let mut seen = 0;
    for (pair, byte) in digits.chunks_exact(2).zip(bytes) {
        let (high, low) = (DIGIT_VALUES[usize::from(pair[0])], DIGIT_VALUES[usize::from(pair[1])]);
        seen |= high | low;
        *byte = high << 4 | (low & 15);
    }
    seen < 16
}

fn byte_of(digits: &[u8]) -> Option<u8> {
    let mut byte = [0];
    decode(digits, &mut byte).then_some(byte[0])
}

fn bytes_of(digits: &[u8]) -> Option<Vec<u8>> {
    let mut bytes = vec![0; digits.len() / 2];
    decode(digits, &mut bytes).then_some(bytes)
}

/// The turn of a number that a line tells, behind so many minutes and operations, and the minutes behind it.
fn read_turn(number: u64, mut minutes: u32, ops_from: u64, line: &[u8]) -> Option<(Turn, u32)> {
    let mut line = Line::new(line);
    if line.number(0, u64::MAX)? != number {
        return None;
    }
    let label = line.label()?;
    let mut ops_to = ops_from;
    while line.takes(b"<") {
        line.operation()?;
        ops_to += 1;
    }
    let mut entries = Vec::new();
    while line.takes(b">") {
        let entry = line.entry(minutes)?;
        match entry {
            Entry::Tick { minutes: more } => minutes = minutes.saturating_add(u32::from(more)),
            Entry::PoweredOn { .. } => minutes = 0,
            _ => {}
        }
        entries.push(entry);
    }
    line.word().is_none().then_some((Turn { label, ops_from, ops_to, entries }, minutes))
}

const NAMES: [&[u8]; 8] = [b"turns", b"commands", b"good", b"check", b"full", b"aborted", b"cut", b"strays"];

fn is_summary(line: &[u8]) -> bool {
    if line.first() != Some(&b't') {
        return false;
    }
    let mut line = Line::new(line);
    NAMES.iter().all(|name| line.takes(name) && line.number(0, u64::MAX).is_some()) && line.word().is_none()
}

/// The turns that a report tells, or the first of its lines that is outside the format.
fn read_run(bytes: &[u8]) -> Result<Vec<Turn>, u32> {
    let mut turns = Vec::new();
    let (mut number, mut minutes, mut shown) = (1, 0, 0);
    let mut rest = bytes;
    while let Some(at) = rest.iter().position(|byte| *byte == b'\n') {
        let (line, behind) = (&rest[..at], &rest[at + 1..]);
        if is_summary(line) {
            return if behind.is_empty() { Ok(turns) } else { Err(number + 1) };
        }
        let (turn, now) = read_turn(u64::from(number), minutes, shown, line).ok_or(number)?;
        shown = turn.ops_to;
        minutes = now;
        turns.push(turn);
        number += 1;
        rest = behind;
    }
    Err(number)
}

// Printing.

const DIGITS: &[u8; 16] = b"0123456789ABCDEF";

trait Sink {
    /// Takes some of a piece: how many bytes.
    fn take(&mut self, piece: &[u8]) -> io::Result<usize>;
}

/// Gathers what is put, and offers it to a sink.
struct Out<'a, K: Sink> {
    sink: &'a mut K,
    gathered: [u8; GATHERED_MAX],
    length: usize,
    failed: bool,
}

impl<'a, K: Sink> Out<'a, K> {
    fn new(sink: &'a mut K) -> Self {
        Out { sink, gathered: [0; GATHERED_MAX], length: 0, failed: false }
    }

    fn gather(&mut self, piece: &[u8]) {
        self.gathered[self.length..self.length + piece.len()].copy_from_slice(piece);
        self.length += piece.len();
    }

    fn offer(&mut self) {
        let mut left = &self.gathered[..self.length];
        while !left.is_empty() && !self.failed {
            match self.sink.take(left) {
                Ok(count) if count > 0 => left = &left[count..],
                _ => self.failed = true,
            }
        }
        self.length = 0;
    }

    fn put(&mut self, mut piece: &[u8]) {
        while GATHERED_MAX - self.length <= piece.len() {
            let (front, rest) = piece.split_at(GATHERED_MAX - self.length);
            self.gather(front);
            self.offer();
            piece = rest;
        }
        self.gather(piece);
    }

    fn finish(mut self) -> bool {
        self.offer();
        !self.failed
    }

    fn word(&mut self, word: &[u8]) {
        self.put(b" ");
        self.put(word);
    }

    fn plain_number(&mut self, number: u64) {
        let mut digits = [0; 20];
        let mut at = digits.len();
        let mut left = number;
        loop {
            at -= 1;
            digits[at] = b'0' + (left % 10) as u8;
            left /= 10;
            if left == 0 {
                break;
            }
        }
        self.put(&digits[at..]);
    }

    fn number(&mut self, number: u64) {
        self.put(b" ");
        self.plain_number(number);
    }

    fn signed(&mut self, number: i8) {
        self.put(if number < 0 { b" -" } else { b" " });
        self.plain_number(u64::from(number.unsigned_abs()));
    }

    fn digits(&mut self, bytes: &[u8]) {
        for chunk in bytes.chunks(128) {
            let mut digits = [0; 256];
            for (pair, byte) in digits.chunks_exact_mut(2).zip(chunk) {
                pair[0] = DIGITS[usize::from(byte >> 4)];
                pair[1] = DIGITS[usize::from(byte & 15)];
            }
            self.put(&digits[..2 * chunk.len()]);
        }
    }

    fn hex(&mut self, bytes: &[u8]) {
        self.put(b" ");
        self.digits(bytes);
    }

    fn counted(&mut self, first: &[u8], number: u64) {
        self.word(first);
        self.number(number);
    }

    fn flag(&mut self, flag: bool) {
        self.word(if flag { b"1" } else { b"0" });
    }

    fn sent(&mut self, sent: &DataOut) {
        match sent {
            DataOut::Nothing => self.word(b"-"),
            DataOut::Fill(byte) => {
                self.put(b" *");
                self.digits(&[*byte]);
            }
            DataOut::Given(bytes) => {
                self.put(b" =");
                self.digits(bytes);
            }
        }
    }

    fn block(&mut self, block: &Block) {
        if block.iter().all(|byte| *byte == block[0]) {
            self.put(b" *");
            self.digits(&block[..1]);
        } else {
            self.hex(block);
        }
    }

    fn value(&mut self, value: &Value) {
        match value {
            Value::Data(block) => self.block(block),
            Value::Lost => self.word(b"bad"),
        }
    }

    fn function(&mut self, what: &Function) {
        match what {
            Function::Abort(tag) => self.counted(b"abort", u64::from(*tag)),
            Function::AbortSet => self.word(b"abortset"),
            Function::Clear => self.word(b"clear"),
            Function::Reset => self.word(b"reset"),
        }
    }

    fn settings(&mut self, settings: &Settings) {
        self.flag(settings.awre);
        self.flag(settings.arre);
        self.flag(settings.per);
        self.number(u64::from(settings.retry));
        self.flag(settings.wce);
        self.flag(settings.rcd);
        self.flag(settings.bms);
    }

    fn outcome(&mut self, outcome: &Recovered) {
        match outcome {
            Recovered::Ready(number) => self.counted(b"ready", *number),
            Recovered::Corrupt(slot) => self.counted(b"corrupt", u64::from(*slot)),
            Recovered::Formatting(number) => self.counted(b"formatting", *number),
        }
    }

    fn arrived(&mut self, initiator: u8, tag: u16, attribute: Attribute, cdb: &Cdb, sent: &DataOut) {
        self.number(u64::from(initiator));
        self.number(u64::from(tag));
        self.word(match attribute {
            Attribute::Simple => b"S",
            Attribute::Ordered => b"O",
            Attribute::Head => b"H",
        });
        self.hex(cdb.bytes());
        self.sent(sent);
    }

    fn entry(&mut self, entry: &Entry) {
        match entry {
            Entry::Arrived { c, initiator, tag, attribute, cdb, sent } => {
                self.counted(b"in", u64::from(*c));
                self.arrived(*initiator, *tag, *attribute, cdb, sent);
            }
            Entry::Started { c } => self.counted(b"start", u64::from(*c)),
            Entry::Get { c, b, value } => {
                self.counted(b"get", u64::from(*c));
                self.number(*b);
                self.value(value);
            }
            Entry::Put { c, b, value } => {
                self.counted(b"put", u64::from(*c));
                self.number(*b);
                self.block(value);
            }
            Entry::Harden { who, b } => {
                match who {
                    Who::Command(c) => self.counted(b"hard", u64::from(*c)),
                    Who::Drive => self.word(b"hard d"),
                }
                self.number(*b);
            }
            Entry::Passed { c, from, to } => {
                self.counted(b"pass", u64::from(*c));
                self.number(*from);
                self.number(*to);
            }
            Entry::GiveUp { b } => self.counted(b"lose", *b),
            Entry::Page { c, bytes } => {
                self.counted(b"page", u64::from(*c));
                if bytes.is_empty() { self.word(b"-") } else { self.hex(bytes) }
            }
            Entry::Ended { c, reply } => {
                self.counted(b"end", u64::from(*c));
                self.hex(&[reply.status]);
                if let Some(sense) = &reply.sense {
                    self.hex(&sense.bytes());
                }
            }
            Entry::Aborted { c } => self.counted(b"gone", u64::from(*c)),
            Entry::Asked { initiator, what } => {
                self.counted(b"func", u64::from(*initiator));
                self.function(what);
            }
            Entry::Mode { settings } => {
                self.word(b"mode");
                self.settings(settings);
            }
            Entry::Scanned { b, what } => {
                self.counted(b"scanned", *b);
                self.word(match what {
                    Seen::Skipped => b"skipped",
                    Seen::Light => b"light",
                    Seen::Heavy => b"heavy",
                    Seen::Unread => b"unread",
                });
            }
            Entry::Logged { finding } => {
                self.counted(b"logged", u64::from(finding.status));
                self.number(finding.b);
            }
            Entry::Cut => self.word(b"cut"),
            Entry::PoweredOn { outcome } => {
                self.word(b"on");
                self.outcome(outcome);
            }
            Entry::Tick { minutes } => self.counted(b"tick", u64::from(*minutes)),
            Entry::Blank { c } => self.counted(b"blank", u64::from(*c)),
            Entry::Fresh { c } => self.counted(b"fresh", u64::from(*c)),
        }
    }

    fn left(&mut self, left: Left) {
        self.word(match left {
            Left::Old => b"old",
            Left::New => b"new",
            Left::Nothing => b"none",
        });
    }

    fn operation(&mut self, shown: &Shown) {
        match *shown {
            Shown::Wrote(p) => self.counted(b"wrote", u64::from(p)),
            Shown::Torn { p, left } => {
                self.counted(b"torn", u64::from(p));
                self.left(left);
            }
            Shown::WriteFailed(p) => self.counted(b"failed", u64::from(p)),
            Shown::Damaged(p) => self.counted(b"damaged", u64::from(p)),
            Shown::Faulty(p) => self.counted(b"faulty", u64::from(p)),
            Shown::Fetched { p, reread, offset } => {
                self.counted(b"fetch", u64::from(p));
                self.number(u64::from(reread));
                self.signed(offset);
            }
            Shown::Tried { p, stage, found } => {
                self.counted(b"tried", u64::from(p));
                self.number(u64::from(stage));
                self.word(if found { b"found" } else { b"none" });
            }
            Shown::Cut => self.word(b"cut"),
            Shown::Power => self.word(b"power"),
        }
    }

    fn world(&mut self, world: &World) {
        match world {
            World::Damage { p, first, count, lasting, effect } => {
                self.counted(b"damage", u64::from(*p));
                self.number(u64::from(*first));
                self.number(u64::from(*count));
                match lasting {
                    Lasting::Hard => self.word(b"hard"),
                    Lasting::Soft(below) => self.counted(b"soft", u64::from(*below)),
                    Lasting::Plus => self.word(b"plus"),
                    Lasting::Minus => self.word(b"minus"),
                }
                match effect {
                    Effect::Drop => self.word(b"drop"),
                    Effect::Add(change) => {
                        self.word(b"add");
                        self.signed(*change);
                    }
                }
            }
            World::Fault(p) => self.counted(b"fault", u64::from(*p)),
            World::Cut => self.word(b"cut now"),
            World::Arm { k, left, scar } => {
                self.counted(b"cut write", u64::from(*k));
                self.left(*left);
                self.number(u64::from(*scar));
            }
            World::Power => self.word(b"power"),
            World::Minutes(count) => self.counted(b"minutes", u64::from(*count)),
        }
    }

    fn label(&mut self, label: &Label) {
        match label {
            Label::Arrive(initiator) => self.counted(b"arrive", u64::from(*initiator)),
            Label::Work(c) => self.counted(b"work", u64::from(*c)),
            Label::Job(j) => self.counted(b"job", u64::from(*j)),
            Label::Scan => self.word(b"scan"),
            Label::Destage => self.word(b"destage"),
            Label::World(world) => self.world(world),
        }
    }

    fn turn(&mut self, number: u64, turn: &Turn, ops: &[Op]) {
        self.plain_number(number);
        self.label(&turn.label);
        for op in &ops[turn.ops_from as usize..turn.ops_to as usize] {
            self.word(b"<");
            self.operation(&Shown::of(op));
        }
        for entry in &turn.entries {
            self.word(b">");
            self.entry(entry);
        }
        self.put(b"\n");
    }

    fn summary(&mut self, counts: &Counts) {
        let counts = [
            counts.turns,
            counts.commands,
            counts.good,
            counts.check,
            counts.full,
            counts.aborted,
            counts.cut,
            counts.strays,
        ];
        self.put(NAMES[0]);
        self.number(counts[0]);
        for (name, count) in NAMES.iter().zip(counts).skip(1) {
            self.counted(name, count);
        }
        self.put(b"\n");
    }
}

#[derive(Default)]
struct Counts {
    turns: u64,
    commands: u64,
    good: u64,
    check: u64,
    full: u64,
    aborted: u64,
    cut: u64,
    strays: u64,
}

fn counts_of(turns: &[Turn], ops: &[Op]) -> Counts {
    let mut counts = Counts { turns: turns.len() as u64, strays: strays(ops), ..Counts::default() };
    let mut inside = 0u64;
    for entry in turns.iter().flat_map(|turn| &turn.entries) {
        match entry {
            Entry::Arrived { .. } => {
                counts.commands += 1;
                inside += 1;
            }
            Entry::Ended { reply, .. } => {
                inside = inside.saturating_sub(1);
                match reply.status {
                    0x00 => counts.good += 1,
                    0x02 => counts.check += 1,
                    0x28 => counts.full += 1,
                    _ => {}
                }
            }
            Entry::Aborted { .. } => {
                counts.aborted += 1;
                inside = inside.saturating_sub(1);
            }
            Entry::Cut => {
                counts.cut += inside;
                inside = 0;
            }
            _ => {}
        }
    }
    counts
}

/// The sector on which an operation settles what is meant, and what that is.
fn settled(op: &Op) -> Option<(u32, Option<&Payload>)> {
    match op {
        Op::Wrote { payload } | Op::Torn { payload, left: Left::New, .. } => Some((payload.psn, Some(payload))),
        Op::Torn { payload, left: Left::Nothing, .. } => Some((payload.psn, None)),
        _ => None,
    }
}

/// How many tries found another payload than the one that was meant at their fetch. Where the last write of each sector ends is
/// kept, and a try looks back from there, or from its fetch where that is before it.
fn strays(ops: &[Op]) -> u64 {
    let mut ends = vec![0; SECTORS as usize];
    let mut count = 0;
    for (place, op) in ops.iter().enumerate() {
        if let Op::Tried { at, p, found: Some(found), .. } = op {
            let from = ends.get(*p as usize).map_or(*at as usize, |end| (*end).min(*at as usize)).min(place);
            let meant = ops[..from].iter().rev().filter_map(settled).find(|(q, _)| q == p).and_then(|(_, payload)| payload);
            if meant != Some(found) {
                count += 1;
            }
        }
        if let Some((p, _)) = settled(op) {
            if let Some(end) = ends.get_mut(p as usize) {
                *end = place + 1;
            }
        }
    }
    count
}

fn print_run<K: Sink>(turns: &[Turn], ops: &[Op], sink: &mut K) -> bool {
    let mut out = Out::new(sink);
    let counts = counts_of(turns, ops);
    for (index, turn) in turns.iter().enumerate() {
        out.turn(index as u64 + 1, turn, ops);
    }
    out.summary(&counts);
    out.finish()
}

// The kernels.

fn mixed(sum: u64, worth: u64) -> u64 {
    sum.wrapping_mul(31).wrapping_add(worth)
}

/// Takes every piece whole and keeps only a sum over the pieces' lengths and last bytes.
struct Counted {
    sum: u64,
}

impl Sink for Counted {
    #[inline(never)]
    fn take(&mut self, piece: &[u8]) -> io::Result<usize> {
        let last = piece.last().copied().unwrap_or(0);
        self.sum = mixed(self.sum, mixed(piece.len() as u64, u64::from(last)));
        Ok(piece.len())
    }
}

struct ToOutput(io::StdoutLock<'static>);

impl Sink for ToOutput {
    fn take(&mut self, piece: &[u8]) -> io::Result<usize> {
        self.0.write(piece)
    }
}

fn payload_on(p: u32) -> Payload {
    let block = [(p % 256) as u8; BLOCK_LENGTH];
    Payload { kind: 1, index: 0, state: 0, version: 0, psn: p, address: u64::from(p), block }
}

/// So many operations, by threes the write of a sector, its fetch, and a try that finds what was written.
fn operations(count: u64) -> Vec<Op> {
    (0..count)
        .map(|place| {
            let p = 20 + (place / 3 % 1000) as u32;
            match place % 3 {
                0 => Op::Wrote { payload: payload_on(p) },
                1 => Op::Fetched { p, reread: 0, offset: 0 },
                _ => Op::Tried { at: place, p, stage: 0, found: Some(payload_on(p)) },
            }
        })
        .collect()
}

fn worth_of(entry: &Entry) -> u64 {
    let last = |block: &Block| u64::from(block[BLOCK_LENGTH - 1]);
    match entry {
        Entry::Arrived { tag, cdb, sent, .. } => {
            let data = match sent {
                DataOut::Nothing => 0,
                DataOut::Fill(byte) => u64::from(*byte),
                DataOut::Given(bytes) => bytes.last().map_or(0, |byte| mixed(bytes.len() as u64, u64::from(*byte))),
            };
            mixed(mixed(u64::from(*tag), cdb.bytes().len() as u64), data)
        }
        Entry::Get { b, value: Value::Data(block), .. } => mixed(*b, last(block)),
        Entry::Get { b, value: Value::Lost, .. } => mixed(*b, 0),
        Entry::Put { b, value, .. } => mixed(*b, last(value)),
        Entry::Harden { b, .. } => *b,
        Entry::Ended { c, reply } => mixed(u64::from(*c), u64::from(reply.status)),
        _ => 1,
    }
}

fn sum_of(sum: u64, turns: &[Turn]) -> u64 {
    turns.iter().fold(sum, |sum, turn| {
        turn.entries.iter().fold(mixed(sum, turn.ops_to), |sum, entry| mixed(sum, worth_of(entry)))
    })
}

fn turns_of(report: &[u8]) -> Vec<Turn> {
    read_run(report).unwrap_or_else(|line| panic!("line {line}"))
}

fn read(report: &[u8], count: u32) -> u64 {
    let mut sum = report.len() as u64;
    for _ in 0..count {
        sum = sum_of(sum, &turns_of(std::hint::black_box(report)));
    }
    sum
}

fn run_of(report: &[u8]) -> (Vec<Turn>, Vec<Op>) {
    let turns = turns_of(report);
    let ops = operations(turns.last().map_or(0, |turn| turn.ops_to));
    (turns, ops)
}

fn printed(report: &[u8], count: u32) -> u64 {
    let (turns, ops) = run_of(report);
    let mut sink = Counted { sum: report.len() as u64 };
    for _ in 0..count {
        assert!(print_run(std::hint::black_box(&turns), &ops, &mut sink));
    }
    sink.sum
}

fn main() {
    let mut args = std::env::args().skip(1);
    let count = args.next().expect("no count is given").parse().expect("the count is no number");
    let kernel = args.next().expect("no kernel is given");
    let mut report = Vec::new();
    io::stdin().read_to_end(&mut report).expect("the input failed");
    let sum = match kernel.as_str() {
        "read" => read(&report, count),
        "print" => printed(&report, count),
        "echo" => {
            let (turns, ops) = run_of(&report);
            assert!(print_run(&turns, &ops, &mut ToOutput(io::stdout().lock())));
            return;
        }
        _ => panic!("no such kernel"),
    };
    println!("{sum}");
}
