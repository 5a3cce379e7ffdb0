//! How fast a view could be: sorted files are parsed and held until their last byte was read, as bedkeep does it, then the rows are
//! printed. Nothing is proved, and any line that isn't sound, or not in order, ends the program.
//!
//!     rustc --edition 2021 -C opt-level=3 -C panic=abort -C codegen-units=1 -C target-cpu=x86-64-v2 scripts/bench/limit.rs
//!     ./limit merge|cluster|session GENOME FILE
//!     ./limit intersect|subtract GENOME FILE SECOND
//!
//! Files have 3 or 6 columns, second files 3, and names fewer than 16 bytes. `session` prints a merge from a map that could take
//! edits. Numbers are read and written by eight digits at a time, lines are never searched twice, and no row is allocated.
use std::arch::x86_64::*;
use std::fs::File;
use std::hint::select_unpredictable;
use std::io::{Read, Write};

/// How many bytes are read at once, and the room for the line before them.
const PIECE: usize = 1 << 18;
const LONGEST_LINE: usize = 1 << 16;
/// Bytes that may be read after the last one.
const PADDING: usize = 64;

/// A name and a TAB, in 16 bytes.
#[derive(Clone, Copy)]
struct Name {
    bytes: [u8; 16],
    len: usize,
    bases: u32,
}

impl Name {
    fn vector(&self) -> __m128i {
        unsafe { _mm_loadu_si128(self.bytes.as_ptr().cast()) }
    }
}

fn genome(path: &str) -> Vec<Name> {
    let name = |line: &str| {
        let (name, bases) = line.split_once('\t').unwrap();
        let mut bytes = [0; 16];
        bytes[..name.len()].copy_from_slice(name.as_bytes());
        bytes[name.len()] = b'\t';
        Name {
            bytes,
            len: name.len() + 1,
            bases: bases.parse().unwrap(),
        }
    };
    std::fs::read_to_string(path).unwrap().lines().map(name).collect()
}

// ------------------------------------------------------------------ lines

/// A record in its line: which name, where it is, and where its fourth column begins, or its line ends.
#[derive(Clone, Copy)]
struct Row {
    rank: u32,
    start: u32,
    stop: u32,
    line: *const u8,
    rest: *const u8,
    next: *const u8,
}

#[inline(always)]
unsafe fn load(at: *const u8) -> __m128i {
    _mm_loadu_si128(at.cast())
}

/// A bit for each of 32 bytes that isn't a digit.
#[inline(always)]
unsafe fn no_digits(at: *const u8) -> u32 {
    let half = |at| {
        let digits = _mm_sub_epi8(load(at), _mm_set1_epi8(b'0' as i8));
        _mm_movemask_epi8(_mm_cmpeq_epi8(_mm_min_epu8(digits, _mm_set1_epi8(9)), digits)) as u32
    };
    !(half(at) | half(at.add(16)) << 16)
}

/// A bit for each of 32 bytes that is a TAB or a line end.
#[inline(always)]
unsafe fn ends(at: *const u8) -> u32 {
    let half = |at| {
        let bytes = load(at);
        _mm_movemask_epi8(_mm_cmpeq_epi8(_mm_min_epu8(bytes, _mm_set1_epi8(13)), bytes)) as u32
    };
    half(at) | half(at.add(16)) << 16
}

/// The 16 bytes before the end of a number, at its end. The table is of shuffles, by its length.
#[inline(always)]
unsafe fn number(at: *const u8, len: usize) -> u64 {
    static TO_THE_END: [[u8; 16]; 17] = {
        let mut table = [[0x80; 16]; 17];
        let mut len = 0;
        while len <= 16 {
            let mut at = 0;
            while at < len {
                table[len][16 - len + at] = at as u8;
                at += 1;
            }
            len += 1;
        }
        table
    };
    let digits = _mm_sub_epi8(load(at), _mm_set1_epi8(b'0' as i8));
    let digits = _mm_shuffle_epi8(digits, load(TO_THE_END[len].as_ptr()));
    let pairs = _mm_maddubs_epi16(digits, _mm_set1_epi16(0x010A));
    let fours = _mm_madd_epi16(pairs, _mm_set1_epi32(0x0001_0064));
    let eights = _mm_madd_epi16(_mm_packus_epi32(fours, fours), _mm_set1_epi32(0x0001_2710));
    let both = _mm_cvtsi128_si64(eights) as u64;
    (both & 0xFFFF_FFFF) * 100_000_000 + (both >> 32)
}

/// The record of a line that names this sequence.
#[inline(always)]
unsafe fn row<const COLUMNS: usize>(line: *const u8, rank: u32, name: &Name) -> Option<Row> {
    let same = _mm_movemask_epi8(_mm_cmpeq_epi8(load(line), name.vector())) as u32;
    let wanted = (1 << name.len) - 1;
    if same & wanted != wanted {
        return None;
    }
    let first = line.add(name.len);
    let others = no_digits(first);
    let tab = others.trailing_zeros() as usize;
    let others = others & others.wrapping_sub(1);
    if others == 0 {
        return None;
    }
    let end = others.trailing_zeros() as usize;
    let last = if COLUMNS == 3 { b'\n' } else { b'\t' };
    let lens = (tab, end - tab - 1);
    let sound = lens.0.wrapping_sub(1) < 10
        && lens.1.wrapping_sub(1) < 10
        && *first.add(tab) == b'\t'
        && *first.add(end) == last;
    if !sound {
        return None;
    }
    let (start, stop) = (number(first, lens.0), number(first.add(tab + 1), lens.1));
    if start >= stop || stop > u64::from(name.bases) {
        return None;
    }
    let rest = first.add(end);
    let mut next = rest.add(1);
    if COLUMNS == 6 {
        let found = ends(next);
        let score = found.trailing_zeros() as usize;
        let found = found & found.wrapping_sub(1);
        let strand = found.trailing_zeros() as usize;
        let found = found & found.wrapping_sub(1);
        if found == 0 {
            return None;
        }
        let end = found.trailing_zeros() as usize;
        let sound = score > 0
            && strand > score + 1
            && end == strand + 2
            && *next.add(score) == b'\t'
            && *next.add(strand) == b'\t'
            && *next.add(end) == b'\n'
            && matches!(*next.add(strand + 1), b'+' | b'-' | b'.');
        if !sound {
            return None;
        }
        next = next.add(end + 1);
    }
    Some(Row {
        rank,
        start: start as u32,
        stop: stop as u32,
        line,
        rest,
        next,
    })
}

/// The rank of the name in front of a line.
#[cold]
#[inline(never)]
unsafe fn rank_of(line: *const u8, names: &[Name]) -> u32 {
    let is_here = |name: &Name| std::slice::from_raw_parts(line, name.len) == &name.bytes[..name.len];
    names
        .iter()
        .position(is_here)
        .expect("a line names no sequence, or isn't sound") as u32
}

/// Gives each record of whole lines.
#[inline(always)]
unsafe fn rows<const COLUMNS: usize>(
    mut at: *const u8,
    end: *const u8,
    last: &mut u32,
    names: &[Name],
    mut take: impl FnMut(Row),
) {
    while at < end {
        let found = match row::<COLUMNS>(at, *last, &names[*last as usize]) {
            Some(found) => found,
            None => {
                *last = rank_of(at, names);
                row::<COLUMNS>(at, *last, &names[*last as usize]).expect("a line isn't sound")
            }
        };
        at = found.next;
        take(found);
    }
}

/// Reads a file in pieces of whole lines.
fn pieces(path: &str, mut take: impl FnMut(*const u8, *const u8)) {
    let mut file = File::open(path).unwrap();
    let mut held = vec![0; LONGEST_LINE + PIECE + PADDING];
    let mut len = 0;
    loop {
        let more = file.read(&mut held[len..len + PIECE]).unwrap();
        if more == 0 {
            assert!(len == 0, "the last line has no end");
            return;
        }
        len += more;
        let whole = held[..len]
            .iter()
            .rposition(|&byte| byte == b'\n')
            .map_or(0, |at| at + 1);
        take(held.as_ptr(), held[whole..].as_ptr());
        held.copy_within(whole..len, 0);
        len -= whole;
        assert!(len < LONGEST_LINE);
    }
}

/// A whole file, with bytes after it that may be read.
fn whole(path: &str) -> Vec<u8> {
    let mut file = File::open(path).unwrap();
    let mut text = Vec::with_capacity(file.metadata().unwrap().len() as usize + PADDING);
    file.read_to_end(&mut text).unwrap();
    text
}

// ------------------------------------------------------------------ output

struct Output {
    held: Vec<u8>,
    at: *mut u8,
    limit: *mut u8,
}

impl Output {
    fn new() -> Output {
        let mut held = vec![0; (1 << 16) + LONGEST_LINE];
        let at = held.as_mut_ptr();
        let limit = unsafe { at.add(1 << 16) };
        Output { held, at, limit }
    }

    #[inline(never)]
    fn flush(&mut self) {
        let len = self.at as usize - self.held.as_ptr() as usize;
        std::io::stdout().write_all(&self.held[..len]).unwrap();
        self.at = self.held.as_mut_ptr();
    }

    #[inline(always)]
    unsafe fn put(&mut self, byte: u8) {
        *self.at = byte;
        self.at = self.at.add(1);
    }

    /// A number: eight digits at once.
    #[inline(always)]
    unsafe fn put_number(&mut self, number: u32) {
        let (high, low) = (number / 100_000_000, number % 100_000_000);
        if high > 0 {
            if high >= 10 {
                self.put(b'0' + (high / 10) as u8);
            }
            self.put(b'0' + (high % 10) as u8);
            self.put_eight(low, 0);
        } else {
            let zeros = ((eight(low) | 1 << 56).trailing_zeros() & !7) as usize / 8;
            self.put_eight(low, zeros);
        }
    }

    #[inline(always)]
    unsafe fn put_eight(&mut self, number: u32, zeros: usize) {
        let digits = (eight(number) | 0x3030_3030_3030_3030) >> (8 * zeros);
        self.at.cast::<u64>().write_unaligned(digits);
        self.at = self.at.add(8 - zeros);
    }

    /// Name, start and stop, without what ends the line.
    #[inline(always)]
    unsafe fn put_interval(&mut self, name: &Name, start: u32, stop: u32) {
        _mm_storeu_si128(self.at.cast(), name.vector());
        self.at = self.at.add(name.len);
        self.put_number(start);
        self.put(b'\t');
        self.put_number(stop);
    }

    /// A copy of bytes of which 16 more may be read.
    #[inline(always)]
    unsafe fn put_all(&mut self, from: *const u8, len: usize) {
        for at in (0..len).step_by(16) {
            _mm_storeu_si128(self.at.add(at).cast(), load(from.add(at)));
        }
        self.at = self.at.add(len);
    }

    #[inline(always)]
    unsafe fn end_line(&mut self) {
        self.put(b'\n');
        if self.at >= self.limit {
            self.flush();
        }
    }
}

/// The eight digits of a number, the first in the lowest byte.
#[inline(always)]
fn eight(number: u32) -> u64 {
    let fours = u64::from(number / 10_000) | u64::from(number % 10_000) << 32;
    let hundreds = (fours.wrapping_mul(10_486) >> 20) & 0x7F_0000_007F;
    let pairs = ((fours - 100 * hundreds) << 16) + hundreds;
    let tens = (pairs.wrapping_mul(103) >> 10) & 0x000F_000F_000F_000F;
    tens + ((pairs - 10 * tens) << 8)
}

// ------------------------------------------------------------------ views

/// A merge joined while it is read: 8 bytes a block, and where the blocks of each sequence begin.
unsafe fn merge<const COLUMNS: usize>(names: &[Name], path: &str, out: &mut Output) {
    let mut blocks: Vec<(u32, u32)> = Vec::new();
    let mut sequences: Vec<(u32, usize)> = Vec::new();
    let (mut last, mut rank, mut begun, mut start, mut stop) = (0, u32::MAX, 0, 0, 0);
    pieces(path, |at, end| {
        blocks.reserve((end as usize - at as usize) / 6 + 2);
        let room = blocks.as_mut_ptr();
        let mut len = blocks.len();
        rows::<COLUMNS>(at, end, &mut last, names, |row| {
            if row.rank != rank {
                sequences.push((row.rank, len));
                (rank, begun, start, stop) = (row.rank, 0, 0, 0);
                len += usize::from(row.start == 0);
            }
            assert!(row.start >= begun, "the file isn't sorted");
            begun = row.start;
            let is_new = row.start > stop;
            len += usize::from(is_new);
            start = select_unpredictable(is_new, row.start, start);
            stop = stop.max(row.stop);
            *room.add(len - 1) = (start, stop);
        });
        blocks.set_len(len);
    });
    for (number, (rank, from)) in sequences.iter().enumerate() {
        let to = sequences.get(number + 1).map_or(blocks.len(), |next| next.1);
        for &(start, stop) in &blocks[*from..to] {
            out.put_interval(&names[*rank as usize], start, stop);
            out.end_line();
        }
    }
}

/// What is held of a record: an interval at three columns, and also its line at six.
trait Held: Copy {
    unsafe fn of(row: Row, text: *const u8) -> Self;
    fn interval(&self) -> (u32, u32, u32);
    /// Puts the whole line, without its end.
    unsafe fn put(&self, text: *const u8, names: &[Name], out: &mut Output);
    /// Puts a part of it, with the columns after the third.
    unsafe fn put_part(&self, start: u32, stop: u32, text: *const u8, names: &[Name], out: &mut Output);
}

impl Held for (u32, u32, u32) {
    #[inline(always)]
    unsafe fn of(row: Row, _text: *const u8) -> Self {
        (row.rank, row.start, row.stop)
    }

    #[inline(always)]
    fn interval(&self) -> (u32, u32, u32) {
        *self
    }

    #[inline(always)]
    unsafe fn put(&self, _text: *const u8, names: &[Name], out: &mut Output) {
        out.put_interval(&names[self.0 as usize], self.1, self.2);
    }

    #[inline(always)]
    unsafe fn put_part(&self, start: u32, stop: u32, _text: *const u8, names: &[Name], out: &mut Output) {
        out.put_interval(&names[self.0 as usize], start, stop);
    }
}

impl Held for (u32, u32, u32, u32) {
    #[inline(always)]
    unsafe fn of(row: Row, text: *const u8) -> Self {
        (row.rank, row.start, row.stop, row.line.offset_from(text) as u32)
    }

    #[inline(always)]
    fn interval(&self) -> (u32, u32, u32) {
        (self.0, self.1, self.2)
    }

    #[inline(always)]
    unsafe fn put(&self, text: *const u8, _names: &[Name], out: &mut Output) {
        let line = text.add(self.3 as usize);
        out.put_all(line, line_len(line));
    }

    #[inline(always)]
    unsafe fn put_part(&self, start: u32, stop: u32, text: *const u8, names: &[Name], out: &mut Output) {
        let name = &names[self.0 as usize];
        let numbers = text.add(self.3 as usize + name.len);
        let others = no_digits(numbers);
        let rest = numbers.add((others & others.wrapping_sub(1)).trailing_zeros() as usize);
        out.put_interval(name, start, stop);
        out.put_all(rest, line_len(rest));
    }
}

#[inline(always)]
unsafe fn line_len(line: *const u8) -> usize {
    let mut len = 0;
    loop {
        let found = _mm_movemask_epi8(_mm_cmpeq_epi8(load(line.add(len)), _mm_set1_epi8(b'\n' as i8)));
        if found != 0 {
            return len + found.trailing_zeros() as usize;
        }
        len += 16;
    }
}

/// All records of a file, and its text if they need it.
unsafe fn records<H: Held, const COLUMNS: usize>(names: &[Name], path: &str) -> (Vec<H>, Vec<u8>) {
    let mut held: Vec<H> = Vec::new();
    let (mut last, mut before) = (0, (0, 0, 0));
    let mut add = |at: *const u8, end: *const u8, text: *const u8| {
        held.reserve((end as usize - at as usize) / (2 * COLUMNS) + 2);
        let room = held.as_mut_ptr();
        let mut len = held.len();
        rows::<COLUMNS>(at, end, &mut last, names, |row| {
            let one = H::of(row, text);
            assert!(one.interval() >= before, "the file isn't sorted");
            before = one.interval();
            *room.add(len) = one;
            len += 1;
        });
        held.set_len(len);
    };
    if COLUMNS == 3 {
        pieces(path, |at, end| add(at, end, at));
        return (held, Vec::new());
    }
    let text = whole(path);
    add(text.as_ptr(), text.as_ptr().add(text.len()), text.as_ptr());
    (held, text)
}

/// Each record with the number of its block.
unsafe fn cluster<H: Held, const COLUMNS: usize>(names: &[Name], path: &str, out: &mut Output) {
    let (held, text) = records::<H, COLUMNS>(names, path);
    let (mut rank, mut stop, mut number) = (u32::MAX, 0, 0);
    for record in &held {
        let (sequence, start, end) = record.interval();
        let is_new = sequence != rank || start > stop;
        number += u32::from(is_new);
        stop = select_unpredictable(is_new, end, stop.max(end));
        rank = sequence;
        record.put(text.as_ptr(), names, out);
        out.put(b'\t');
        out.put_number(number);
        out.end_line();
    }
}

/// Each record with those of the second file that it shares a position with, or less these.
unsafe fn pairs<H: Held, const COLUMNS: usize>(
    subtracts: bool,
    names: &[Name],
    path: &str,
    second: &str,
    out: &mut Output,
) {
    let (second, _) = records::<(u32, u32, u32), 3>(names, second);
    let (held, text) = records::<H, COLUMNS>(names, path);
    let text = text.as_ptr();
    let mut from = 0;
    for record in &held {
        let (rank, start, stop) = record.interval();
        while from < second.len() && (second[from].0, second[from].2) <= (rank, start) {
            from += 1;
        }
        let hits = second[from..]
            .iter()
            .take_while(|hit| hit.0 == rank && hit.1 < stop)
            .filter(|hit| hit.2 > start);
        if !subtracts {
            for hit in hits {
                record.put_part(start.max(hit.1), stop.min(hit.2), text, names, out);
                out.end_line();
            }
            continue;
        }
        let mut free = start;
        for hit in hits {
            if hit.1 > free {
                record.put_part(free, hit.1, text, names, out);
                out.end_line();
            }
            free = free.max(hit.2);
        }
        if free == start {
            record.put(text, names, out);
            out.end_line();
        } else if free < stop {
            record.put_part(free, stop, text, names, out);
            out.end_line();
        }
    }
}

/// Records of a map that could take edits: keys and numbers of copies, with room for more.
struct Chunk {
    keys: [(u32, u32, u32); 256],
    copies: [u32; 256],
    len: usize,
}

/// A merge of the records of such a map. Names, scores and strands are held beside them, and not printed.
unsafe fn session<const COLUMNS: usize>(names: &[Name], path: &str, out: &mut Output) {
    let mut chunks: Vec<Box<Chunk>> = Vec::new();
    let mut texts: Vec<u8> = Vec::new();
    let (mut last, mut before) = (0, (0, 0, 0));
    pieces(path, |at, end| {
        texts.reserve(if COLUMNS == 3 { 0 } else { end as usize - at as usize });
        rows::<COLUMNS>(at, end, &mut last, names, |row| {
            let key = (row.rank, row.start, row.stop);
            assert!(key >= before, "the file isn't sorted");
            if chunks.last().is_none_or(|chunk| chunk.len == 240) {
                chunks.push(Box::new_uninit().assume_init());
                chunks.last_mut().unwrap_unchecked().len = 0;
            }
            let chunk = chunks.last_mut().unwrap_unchecked();
            if COLUMNS == 3 && key == before {
                chunk.copies[chunk.len - 1] += 1;
                return;
            }
            before = key;
            chunk.keys[chunk.len] = key;
            chunk.copies[chunk.len] = 1;
            chunk.len += 1;
            if COLUMNS == 6 {
                let len = row.next.offset_from(row.rest) as usize;
                std::ptr::copy_nonoverlapping(row.rest, texts.as_mut_ptr().add(texts.len()), len);
                texts.set_len(texts.len() + len);
            }
        });
    });
    let mut open: Option<(u32, u32, u32)> = None;
    for &(rank, start, stop) in chunks.iter().flat_map(|chunk| &chunk.keys[..chunk.len]) {
        match &mut open {
            Some(block) if block.0 == rank && start <= block.2 => block.2 = block.2.max(stop),
            _ => {
                put_block(open, names, out);
                open = Some((rank, start, stop));
            }
        }
    }
    put_block(open, names, out);
}

unsafe fn put_block(block: Option<(u32, u32, u32)>, names: &[Name], out: &mut Output) {
    if let Some((rank, start, stop)) = block {
        out.put_interval(&names[rank as usize], start, stop);
        out.end_line();
    }
}

fn main() {
    let args: Vec<String> = std::env::args().skip(1).collect();
    let [view, sizes, first, beside @ ..] = &args[..] else {
        panic!("limit VIEW GENOME FILE [SECOND]");
    };
    let names = genome(sizes);
    let mut head = [0; 4096];
    let read = File::open(first).unwrap().read(&mut head).unwrap();
    let line = head[..read].split(|&byte| byte == b'\n').next().unwrap();
    let is_narrow = line.iter().filter(|&&byte| byte == b'\t').count() == 2;
    let out = &mut Output::new();
    type Narrow = (u32, u32, u32);
    type Wide = (u32, u32, u32, u32);
    unsafe {
        match (view.as_str(), is_narrow) {
            ("merge", true) => merge::<3>(&names, first, out),
            ("merge", false) => merge::<6>(&names, first, out),
            ("session", true) => session::<3>(&names, first, out),
            ("session", false) => session::<6>(&names, first, out),
            ("cluster", true) => cluster::<Narrow, 3>(&names, first, out),
            ("cluster", false) => cluster::<Wide, 6>(&names, first, out),
            ("intersect" | "subtract", true) => pairs::<Narrow, 3>(view == "subtract", &names, first, &beside[0], out),
            ("intersect" | "subtract", false) => pairs::<Wide, 6>(view == "subtract", &names, first, &beside[0], out),
            _ => panic!("no such view: {view}"),
        }
    }
    out.flush();
}
