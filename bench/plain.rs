//! A plain program that writes what `l4map` writes, on one thread, and promises nothing: what bench/performance.py
//! compares `l4map` with. It shares nothing with it.
//!
//! Mappings stand in one vector, as a tree with pointers: each knows its origin, the first one below it, and its
//! neighbours below the same origin. A hash map leads from a place to its mapping. The input is read to its end before a
//! line is written, since of one that cannot be read there is to be none. Records come one by one through a buffer, and
//! what is written is gathered in another, but for a terminal, which gets each line at once.

use std::collections::HashMap;
use std::hash::{BuildHasherDefault, Hasher};
use std::io::{self, IsTerminal, Read, Write};
use std::process::ExitCode;

/// The number of a space, and in the lowest bits the page.
type Place = u32;

/// Rights or status: r is 4, w is 2, x is 1.
type Rights = u8;

/// The name of a refusal of a record, or of a fault of the header.
type Name = &'static str;

const PAGE_BITS: u32 = 12;
/// How many bits of a place are its page.
const PLACE_BITS: u32 = 20;
const ALL: Rights = 7;
const MOST_ITEMS: usize = 31;
/// The number of no mapping.
const NONE: u32 = u32::MAX;
const BLOCK: usize = 1 << 16;

fn place_of(space: u32, page: u32) -> Place {
    space << PLACE_BITS | page
}

fn main() -> ExitCode {
    let output = io::stdout().lock();
    let block = if output.is_terminal() { 1 } else { BLOCK };
    match run(io::stdin().lock(), Output::new(output, block)) {
        Ok(None) => ExitCode::SUCCESS,
        Ok(Some(fault)) => {
            eprintln!("l4map: {fault}");
            ExitCode::from(2)
        }
        Err(_) => ExitCode::from(4),
    }
}

/// Answers a trace; the fault of its header, if it has one.
fn run(mut source: impl Read, output: Output<impl Write>) -> io::Result<Option<Name>> {
    let mut input = Vec::new();
    source.read_to_end(&mut input)?;
    let mut records = Records::new(input.as_slice());
    let header = if records.next()? { limits(&records) } else { Err("BadHeader") };
    let limits = match header {
        Ok(limits) => limits,
        Err(fault) => return Ok(Some(fault)),
    };
    let mut replay = Replay { database: Database::new(&limits), limits, output, words: Vec::new() };
    let (mut answered, mut refused) = (0, 0);
    while records.next()? {
        answered += 1;
        replay.output.number(answered);
        if let Err(name) = replay.answer(&records) {
            refused += 1;
            replay.output.text(b" refused ");
            replay.output.text(name.as_bytes());
        }
        replay.output.end_line()?;
    }
    replay.audit()?;
    replay.output.text(b"end ");
    replay.output.number(answered);
    replay.output.text(b" ");
    replay.output.number(refused);
    replay.output.end_line()?;
    replay.output.flush()?;
    Ok(None)
}

// What is read.

/// Records of values between commas, one at a time.
struct Records<R> {
    source: R,
    buffer: Vec<u8>,
    /// Where in the buffer the next record starts, and where what was read ends.
    start: usize,
    end: usize,
    at_end: bool,
    /// The fields of the record that was read last. Each ends at one of `ends`, and there is one byte between two.
    ends: Vec<usize>,
    from: usize,
    /// The record, if it has quotes, without them.
    unquoted: Vec<u8>,
    is_quoted: bool,
}

impl<R: Read> Records<R> {
    fn new(source: R) -> Self {
        let (buffer, ends, unquoted) = (vec![0; BLOCK], Vec::new(), Vec::new());
        Records { source, buffer, start: 0, end: 0, at_end: false, ends, from: 0, unquoted, is_quoted: false }
    }

    /// Reads a record; whether there was one.
    fn next(&mut self) -> io::Result<bool> {
        loop {
            while self.start < self.end && is_line_end(self.buffer[self.start]) {
                self.start += 1;
            }
            if let Some(end) = self.split() {
                self.start = end;
                return Ok(true);
            }
            if self.at_end {
                return Ok(false);
            }
            self.fill()?;
        }
    }

    /// Reads more behind what is left.
    fn fill(&mut self) -> io::Result<()> {
        self.buffer.copy_within(self.start..self.end, 0);
        self.end -= self.start;
        self.start = 0;
        if self.end == self.buffer.len() {
            self.buffer.resize(2 * self.end, 0);
        }
        let read = loop {
            match self.source.read(&mut self.buffer[self.end..]) {
                Err(fault) if fault.kind() == io::ErrorKind::Interrupted => {}
                read => break read?,
            }
        };
        self.end += read;
        self.at_end = read == 0;
        Ok(())
    }

    /// Finds the fields of the record that starts here, and returns its end, if all of it was read.
    fn split(&mut self) -> Option<usize> {
        self.ends.clear();
        self.from = self.start;
        self.is_quoted = false;
        for at in self.start..self.end {
            match self.buffer[at] {
                b',' => self.ends.push(at),
                b'"' => return self.unquote(),
                byte if is_line_end(byte) => {
                    self.ends.push(at);
                    return Some(at + 1);
                }
                _ => {}
            }
        }
        if !self.at_end || self.start == self.end {
            return None;
        }
        self.ends.push(self.end);
        Some(self.end)
    }

    /// The same of a record with quotes, which is copied without them. A comma stands between two fields here too.
    fn unquote(&mut self) -> Option<usize> {
        self.ends.clear();
        self.unquoted.clear();
        self.from = 0;
        self.is_quoted = true;
        let bytes = &self.buffer[self.start..self.end];
        let (mut at, mut field, mut is_open) = (0, 0, false);
        while let Some(&byte) = bytes.get(at) {
            at += 1;
            if is_open && byte == b'"' && bytes.get(at) == Some(&b'"') {
                self.unquoted.push(byte);
                at += 1;
            } else if is_open && byte == b'"' {
                is_open = false;
            } else if is_open {
                self.unquoted.push(byte);
            } else if byte == b'"' && at == field + 1 {
                is_open = true;
            } else if byte == b',' {
                self.ends.push(self.unquoted.len());
                self.unquoted.push(byte);
                field = at;
            } else if is_line_end(byte) {
                self.ends.push(self.unquoted.len());
                return Some(self.start + at);
            } else {
                self.unquoted.push(byte);
            }
        }
        self.ends.push(self.unquoted.len());
        self.at_end.then_some(self.end)
    }

    /// How many fields the record has.
    fn len(&self) -> usize {
        self.ends.len()
    }

    fn field(&self, number: usize) -> &[u8] {
        let text = if self.is_quoted { &self.unquoted } else { &self.buffer };
        let from = if number == 0 { self.from } else { self.ends[number - 1] + 1 };
        &text[from..self.ends[number]]
    }
}

fn is_line_end(byte: u8) -> bool {
    byte == b'\n' || byte == b'\r'
}

/// A decimal number of at most so many digits.
fn decimal(field: &[u8], most: usize) -> Option<u32> {
    if field.is_empty() || field.len() > most {
        return None;
    }
    field.iter().try_fold(0, |value, byte| Some(10 * value + char::from(*byte).to_digit(10)?))
}

/// A hexadecimal word of at most 8 digits.
fn word(field: &[u8]) -> Option<u32> {
    if field.is_empty() || field.len() > 8 {
        return None;
    }
    field.iter().try_fold(0, |value, byte| Some(value << 4 | char::from(*byte).to_digit(16)?))
}

/// The number of a space, whether it is there or not.
fn space(field: &[u8]) -> Result<u32, Name> {
    decimal(field, 5).filter(|number| *number <= 65535).ok_or("BadRecord")
}

struct Limits {
    spaces: u32,
    bits: u32,
    frames: u32,
}

/// The limits of a header.
fn limits<R: Read>(header: &Records<R>) -> Result<Limits, Name> {
    if header.len() != 5 || header.field(0) != b"l4map" || header.field(1) != b"1" {
        return Err("BadHeader");
    }
    let number = |field| decimal(header.field(field), 7).ok_or("BadHeader");
    let (spaces, bits, frames) = (number(2)?, number(3)?, number(4)?);
    if !(2..=512).contains(&spaces) || !(18..=32).contains(&bits) || !(1..=1 << (bits - PAGE_BITS)).contains(&frames) {
        return Err("BadLimits");
    }
    Ok(Limits { spaces, bits, frames })
}

/// A run of pages.
#[derive(Clone, Copy)]
struct Fpage {
    first: u32,
    count: u32,
    rights: Rights,
}

fn fpage(word: u32, bits: u32) -> Result<Fpage, Name> {
    let (base, size, rights) = (u64::from(word & !0x3ff), word >> 4 & 0x3f, word as Rights & ALL);
    let of = |count| Fpage { first: word >> PAGE_BITS, count, rights };
    match size {
        0 if base == 0 => Ok(of(0)),
        1 if base == 0 => Ok(of(1 << (bits - PAGE_BITS))),
        0..PAGE_BITS => Err("BadSize"),
        _ if base % (1 << size) != 0 => Err("Misaligned"),
        _ if base + (1 << size) > 1 << bits => Err("OutOfSpace"),
        _ => Ok(of(1 << (size - PAGE_BITS))),
    }
}

struct Item {
    fpage: Fpage,
    /// The send base, in pages.
    base: u32,
    grants: bool,
}

fn item(words: &[u32], bits: u32) -> Result<Item, Name> {
    if words[0] & 0b1100 != 0b1000 {
        return Err("NotAnItem");
    }
    Ok(Item { fpage: fpage(words[1], bits)?, base: words[0] >> PAGE_BITS, grants: words[0] & 2 != 0 })
}

// What is held.

/// A mapping, and where it stands in the tree.
struct Mapping {
    place: Place,
    frame: u32,
    /// Those of one that is gone are empty.
    rights: Rights,
    status: Rights,
    origin: u32,
    first: u32,
    before: u32,
    behind: u32,
}

/// A page that is sent, and the page of the window where it goes.
struct Pair {
    source: u32,
    target: Place,
    /// What is held there, or `NONE`.
    held: u32,
    extends: bool,
}

#[derive(Default)]
struct Counts {
    absent: u32,
    norights: u32,
    origin: u32,
    lost: u32,
    extended: u32,
    linked: u32,
}

#[derive(Default)]
struct Database {
    mappings: Vec<Mapping>,
    /// The numbers of mappings that are gone.
    free: Vec<u32>,
    by_place: HashMap<Place, u32, BuildHasherDefault<PlaceHasher>>,
    /// Lists that are used again from call to call.
    run: Vec<u32>,
    pairs: Vec<Pair>,
}

impl Database {
    /// Space 0 has all frames.
    fn new(limits: &Limits) -> Database {
        let mut database = Database::default();
        for frame in 0..limits.frames {
            database.link(place_of(0, frame), frame, ALL, NONE);
        }
        database
    }

    fn at(&self, number: u32) -> &Mapping {
        &self.mappings[number as usize]
    }

    fn at_mut(&mut self, number: u32) -> &mut Mapping {
        &mut self.mappings[number as usize]
    }

    /// The number of the mapping at a place, or `NONE`.
    fn find(&self, place: Place) -> u32 {
        self.by_place.get(&place).copied().unwrap_or(NONE)
    }

    /// Makes a mapping, as the first one below its origin.
    fn link(&mut self, place: Place, frame: u32, rights: Rights, origin: u32) {
        let number = self.free.pop().unwrap_or(self.mappings.len() as u32);
        let behind = if origin == NONE { NONE } else { std::mem::replace(&mut self.at_mut(origin).first, number) };
        if behind != NONE {
            self.at_mut(behind).before = number;
        }
        let made = Mapping { place, frame, rights, status: 0, origin, first: NONE, before: NONE, behind };
        if number as usize == self.mappings.len() {
            self.mappings.push(made);
        } else {
            *self.at_mut(number) = made;
        }
        self.by_place.insert(place, number);
    }

    /// Lets go of a mapping that has lost all its rights.
    fn remove(&mut self, number: u32) {
        let Mapping { place, origin, before, behind, .. } = *self.at(number);
        self.by_place.remove(&place);
        self.free.push(number);
        if origin == NONE || self.at(origin).rights == 0 {
            return; // its neighbours go too
        }
        if before == NONE {
            self.at_mut(origin).first = behind;
        } else {
            self.at_mut(before).behind = behind;
        }
        if behind != NONE {
            self.at_mut(behind).before = before;
        }
    }

    /// Takes rights from all that derives from a mapping, and with flush from the mapping too. Returns their status,
    /// which is cleared and goes to the origin.
    fn strip(&mut self, top: u32, rights: Rights, flush: bool) -> Rights {
        let mut run = std::mem::take(&mut self.run);
        run.clear();
        run.push(top);
        let (origin, mut status, mut next) = (self.at(top).origin, 0, 0);
        while let Some(&number) = run.get(next) {
            next += 1;
            let mapping = self.at_mut(number);
            status |= std::mem::take(&mut mapping.status);
            if flush || number != top {
                mapping.rights &= !rights;
            }
            let (mut below, is_gone) = (mapping.first, mapping.rights == 0);
            while below != NONE {
                run.push(below);
                below = self.at(below).behind;
            }
            if is_gone {
                self.remove(number);
            }
        }
        if origin != NONE {
            self.at_mut(origin).status |= status;
        }
        self.run = run;
        status
    }

    /// Whether a mapping derives from another.
    fn derives(&self, number: u32, from: u32) -> bool {
        let mut origin = self.at(number).origin;
        while origin != NONE && origin != from {
            origin = self.at(origin).origin;
        }
        origin != NONE
    }

    fn access(&mut self, place: Place, right: Rights, marks: Rights) -> bool {
        let number = self.find(place);
        if number == NONE || self.at(number).rights & right == 0 {
            return false;
        }
        self.at_mut(number).status |= marks;
        true
    }

    /// Strips the pages of a space that an fpage names. Page after page comes to the same as all at once.
    fn unmap(&mut self, space: u32, fpage: Fpage, flush: bool) -> Rights {
        let mut status = 0;
        for page in fpage.first..fpage.first + fpage.count {
            let number = self.find(place_of(space, page));
            if number != NONE {
                status |= self.strip(number, fpage.rights, flush);
            }
        }
        status
    }

    /// Maps or grants the pages of an item.
    fn send(&mut self, from: u32, to: u32, window: Fpage, item: &Item, counts: &mut Counts) {
        let mut pairs = std::mem::take(&mut self.pairs);
        pairs.clear();
        self.find_pairs(from, to, window, item, counts, &mut pairs);
        for pair in &pairs {
            let is_replaced = pair.held != NONE && !pair.extends && self.at(pair.held).rights != 0;
            if is_replaced {
                self.strip(pair.held, ALL, true);
            }
        }
        let worked = pairs.len();
        pairs.retain(|pair| self.at(pair.source).rights != 0);
        counts.lost += (worked - pairs.len()) as u32;
        for pair in &pairs {
            self.work(pair, item, counts);
        }
        self.pairs = pairs;
    }

    /// What becomes of each pair of an item: it is counted, or stands among the pairs that are to be worked.
    fn find_pairs(&self, from: u32, to: u32, window: Fpage, item: &Item, counts: &mut Counts, pairs: &mut Vec<Pair>) {
        let count = item.fpage.count.min(window.count);
        if count == 0 {
            return;
        }
        // All counts are powers of two.
        let block_of = |fpage: Fpage| fpage.first + (item.base & (fpage.count - 1) & !(count - 1));
        let (source, target) = (place_of(from, block_of(item.fpage)), place_of(to, block_of(window)));
        for number in 0..count {
            let (source, target) = (self.find(source + number), target + number);
            if source == NONE {
                counts.absent += 1;
                continue;
            }
            let held = self.find(target);
            if self.at(source).rights & item.fpage.rights == 0 {
                counts.norights += 1;
            } else if held != NONE && self.derives(source, held) {
                counts.origin += 1;
            } else {
                let extends = held != NONE && !item.grants && self.at(held).origin == source;
                pairs.push(Pair { source, target, held, extends });
            }
        }
    }

    /// Works a pair whose target is free, or is extended.
    fn work(&mut self, pair: &Pair, item: &Item, counts: &mut Counts) {
        let &Mapping { place, frame, rights, .. } = self.at(pair.source);
        if pair.extends {
            counts.extended += 1;
            self.at_mut(pair.held).rights |= rights & item.fpage.rights;
            return;
        }
        counts.linked += 1;
        if item.grants {
            self.strip(pair.source, !item.fpage.rights, true);
            self.by_place.remove(&place);
            self.by_place.insert(pair.target, pair.source);
            self.at_mut(pair.source).place = pair.target;
        } else {
            self.link(pair.target, frame, rights & item.fpage.rights, pair.source);
        }
    }
}

/// A hash of few instructions, since places are no secret.
#[derive(Default)]
struct PlaceHasher(u64);

impl Hasher for PlaceHasher {
    fn finish(&self) -> u64 {
        self.0
    }

    fn write(&mut self, _: &[u8]) {
        unreachable!("places are numbers of 32 bits");
    }

    fn write_u32(&mut self, place: u32) {
        self.0 = u64::from(place).wrapping_mul(0x9e37_79b9_7f4a_7c15).rotate_left(32);
    }
}

// What is answered and written.

struct Replay<W> {
    limits: Limits,
    database: Database,
    output: Output<W>,
    /// The words of a record.
    words: Vec<u32>,
}

impl<W: Write> Replay<W> {
    /// Writes the reply to a record, behind its number, if it is not refused.
    fn answer<R: Read>(&mut self, record: &Records<R>) -> Result<(), Name> {
        match record.field(0) {
            b"access" => self.access(record),
            b"send" => self.send(record),
            b"unmap" => self.unmap(record),
            _ => Err("BadRecord"),
        }
    }

    fn access<R: Read>(&mut self, record: &Records<R>) -> Result<(), Name> {
        if record.len() != 4 {
            return Err("BadRecord");
        }
        let (space, address) = (space(record.field(1))?, word(record.field(2)).ok_or("BadRecord")?);
        let (right, marks) = match record.field(3) {
            b"r" => (4, 4),
            b"w" => (2, 6),
            b"x" => (1, 5),
            _ => return Err("BadRecord"),
        };
        self.check_space(space)?;
        if u64::from(address) >> self.limits.bits != 0 {
            return Err("OutOfSpace");
        }
        let is_ok = self.database.access(place_of(space, address >> PAGE_BITS), right, marks);
        self.output.text(if is_ok { b" access ok" } else { b" access fault" });
        Ok(())
    }

    fn send<R: Read>(&mut self, record: &Records<R>) -> Result<(), Name> {
        if record.len() < 6 || record.len() > 4 + 2 * MOST_ITEMS || record.len() % 2 != 0 {
            return Err("BadRecord");
        }
        let (from, to) = (space(record.field(1))?, space(record.field(2))?);
        self.read_words(record, 3)?;
        let bits = self.limits.bits;
        let window = fpage(self.words[0], bits)?;
        for words in self.words[1..].chunks_exact(2) {
            item(words, bits)?;
        }
        self.check_space(from)?;
        self.check_space(to)?;
        if from == to {
            return Err("SameSpace");
        }
        if window.count == 0 {
            return Err("NoWindow");
        }
        let mut counts = Counts::default();
        for words in self.words[1..].chunks_exact(2) {
            self.database.send(from, to, window, &item(words, bits)?, &mut counts);
        }
        self.write_counts(&counts);
        Ok(())
    }

    fn write_counts(&mut self, counts: &Counts) {
        self.write_count(b" send absent=", counts.absent);
        self.write_count(b" norights=", counts.norights);
        self.write_count(b" origin=", counts.origin);
        self.write_count(b" lost=", counts.lost);
        self.write_count(b" extended=", counts.extended);
        self.write_count(b" linked=", counts.linked);
    }

    fn write_count(&mut self, name: &[u8], count: u32) {
        self.output.text(name);
        self.output.number(count);
    }

    fn unmap<R: Read>(&mut self, record: &Records<R>) -> Result<(), Name> {
        if record.len() < 3 {
            return Err("BadRecord");
        }
        let space = space(record.field(1))?;
        self.read_words(record, 2)?;
        let (control, words) = (self.words[0], &self.words[1..]);
        if control >> 7 != 0 || words.len() != (control & 0x3f) as usize + 1 {
            return Err("BadControl");
        }
        for word in words {
            fpage(*word, self.limits.bits)?;
        }
        self.check_space(space)?;
        self.output.text(b" unmap");
        for word in words {
            let status = self.database.unmap(space, fpage(*word, self.limits.bits)?, control & 0x40 != 0);
            self.output.text(b" ");
            self.output.word(*word & !u32::from(ALL) | u32::from(status));
        }
        Ok(())
    }

    /// Reads the words of a record from a field on.
    fn read_words<R: Read>(&mut self, record: &Records<R>, first: usize) -> Result<(), Name> {
        self.words.clear();
        for field in first..record.len() {
            self.words.push(word(record.field(field)).ok_or("BadRecord")?);
        }
        Ok(())
    }

    fn check_space(&self, space: u32) -> Result<(), Name> {
        if space < self.limits.spaces { Ok(()) } else { Err("NoSuchSpace") }
    }

    /// Writes a line for each mapping, by rising place.
    fn audit(&mut self) -> io::Result<()> {
        let mut held: Vec<(Place, u32)> = self.database.by_place.iter().map(|(place, number)| (*place, *number)).collect();
        held.sort_unstable();
        for (place, number) in held {
            let &Mapping { frame, rights, status, origin, .. } = self.database.at(number);
            self.output.place(place, b",");
            self.output.text(b",");
            self.output.number(u32::from(frame));
            self.output.text(b",");
            self.output.letters(rights, b"rwx");
            self.output.text(b",");
            self.output.letters(status, b"RWX");
            self.output.text(b",");
            if origin == NONE {
                self.output.text(b"-");
            } else {
                self.output.place(self.database.at(origin).place, b":");
            }
            self.output.end_line()?;
        }
        Ok(())
    }
}

/// Lines, which are passed on in blocks of so many bytes, or a line more.
struct Output<W> {
    sink: W,
    lines: Vec<u8>,
    block: usize,
}

impl<W: Write> Output<W> {
    fn new(sink: W, block: usize) -> Self {
        Output { sink, lines: Vec::with_capacity(2 * BLOCK), block }
    }

    fn text(&mut self, text: &[u8]) {
        self.lines.extend_from_slice(text);
    }

    /// A decimal number.
    fn number(&mut self, number: u32) {
        let (mut digits, mut first, mut left) = ([0; 10], 10, number);
        loop {
            first -= 1;
            digits[first] = b'0' + (left % 10) as u8;
            left /= 10;
            if left == 0 {
                break;
            }
        }
        self.text(&digits[first..]);
    }

    /// A word of 8 hexadecimal digits.
    fn word(&mut self, word: u32) {
        let digit = |number: u32| b"0123456789abcdef"[(word >> (28 - 4 * number) & 15) as usize];
        self.lines.extend((0..8).map(digit));
    }

    /// The letters of the rights that are set, and a dash for each that is not.
    fn letters(&mut self, rights: Rights, letters: &[u8; 3]) {
        let letter = |number: usize| if rights & 4 >> number != 0 { letters[number] } else { b'-' };
        self.lines.extend((0..3).map(letter));
    }

    fn place(&mut self, place: Place, between: &[u8]) {
        self.number(place >> PLACE_BITS);
        self.text(between);
        self.number(place & ((1 << PLACE_BITS) - 1));
    }

    fn end_line(&mut self) -> io::Result<()> {
        self.lines.push(b'\n');
        if self.lines.len() >= self.block { self.flush() } else { Ok(()) }
    }

    fn flush(&mut self) -> io::Result<()> {
        self.sink.write_all(&self.lines)?;
        self.lines.clear();
        self.sink.flush()
    }
}
