//! A frame drawn as SVG, from the program's own answer to it: the signal chip by chip, the words of the line code, the
//! bytes, the fields by name, the blocks with their checks, the content. Of a refused frame the place that decided is red.
mod parts;
mod svg;
mod words;

use crate::anatomy::{self, Cell, OnAir, Placed, SYNC};
use crate::commands::radio::{code_of, format_of};
use crate::notation::{counted, hex};
use crate::numbers;
use crate::reply::Reply;
use kusikhut::{Code, Format, Kind};
use parts::Field;
use std::ops::Range;
use svg::{Held, Svg};
use words::{bytes, headline, meaning, number};

/// Room at the left, where the rows have their names.
const GUTTER: f64 = 70.0;
const RIGHT: f64 = 20.0;
/// The width of a byte, whatever its line code.
const BYTE: f64 = 72.0;
/// Format A's first block fills a row.
const BYTES_A_ROW: usize = 12;
const WIDTH: f64 = GUTTER + BYTE * BYTES_A_ROW as f64 + RIGHT;

/// The height of the signal, and the width of a chip where no byte gives it.
const HIGH: f64 = 14.0;
const CHIP: f64 = 6.0;

const STYLE: &str = "\
.page { fill: #ffffff }
text { font-family: Helvetica, Arial, sans-serif; font-size: 12px; fill: #222222 }
.mono { font-family: Menlo, Consolas, 'DejaVu Sans Mono', monospace }
.answer { font-family: Menlo, Consolas, 'DejaVu Sans Mono', monospace; font-size: 14px; font-weight: bold }
.digits { font-family: Menlo, Consolas, 'DejaVu Sans Mono', monospace; font-size: 9px; fill: #555555 }
.byte { font-family: Menlo, Consolas, 'DejaVu Sans Mono', monospace; font-size: 16px; font-weight: bold }
.lane { font-size: 11px; fill: #777777 }
.good { fill: #11662a }
.bad { fill: #c00000 }
.wave { fill: none; stroke: #1a3d7c; stroke-width: 1.5 }
.word { fill: #eef2fa }
.line { fill: none; stroke: #999999 }
.bad-line { fill: none; stroke: #c00000; stroke-width: 2 }
.bad-box { fill: #ffd6d6; stroke: #c00000; stroke-width: 2 }
.gone { fill: #ffffff; stroke: #c00000; stroke-width: 1.5; stroke-dasharray: 4 3 }
.box { stroke: #888888 }
.sync { fill: #d9d2ee }
.length { fill: #fbdcb0 }
.control { fill: #dfe3f7 }
.maker { fill: #cfe9cd }
.address { fill: #c9e4f4 }
.ci { fill: #f3d4ea }
.extended { fill: #e9e2d0 }
.data { fill: #fff3ad }
.check { fill: #dcdcdc }
.not-judged { fill: #f7f7f7 }
";

/// The answer to a frame in chips, drawn.
pub fn of_chips(reply: &Reply, on_air: &OnAir) -> String {
    let mut drawing = Drawing::of(reply, on_air.start);
    match (on_air.sync, on_air.frame, reply.number) {
        (_, _, numbers::OUT_OF_RANGE) => {}
        (None, None, _) => drawing.noise(on_air),
        (sync, frame, _) => drawing.lead(on_air, sync, frame),
    }
    match (on_air.frame, on_air.cells()) {
        (Some(placed), Some(cells)) if reply.number != numbers::OUT_OF_RANGE => {
            drawing.frame(&Frame::of(format_of(placed.kind), cells, Some((on_air, placed))));
        }
        _ => drawing.content(),
    }
    drawing.finish()
}

/// The answer to a frame in bytes, drawn.
pub fn of_bytes(reply: &Reply, format: Format, bytes: &[u8]) -> String {
    let mut drawing = Drawing::of(reply, 0);
    drawing.frame(&Frame::of(format, anatomy::of_bytes(format, bytes), None));
    drawing.finish()
}

/// A frame's bytes, and what each of them is.
struct Frame<'a> {
    cells: Vec<Cell>,
    fields: Vec<Field>,
    blocks: Vec<Range<usize>>,
    air: Option<(&'a OnAir<'a>, Placed)>,
}

impl<'a> Frame<'a> {
    fn of(format: Format, cells: Vec<Cell>, air: Option<(&'a OnAir<'a>, Placed)>) -> Frame<'a> {
        let allowed = matches!(cells[0], Cell::Byte(l) if format.frame_size(l).is_ok());
        let blocks = if allowed { parts::blocks(format, cells.len()) } else { Vec::new() };
        Frame { fields: parts::fields(&cells, &blocks), cells, blocks, air }
    }

    /// Neighbours of one field within a part of the frame.
    fn runs(&self, part: Range<usize>) -> Vec<Range<usize>> {
        let mut runs: Vec<Range<usize>> = Vec::new();
        for at in part {
            match runs.last_mut() {
                Some(run) if self.fields[run.start] == self.fields[at] => run.end = at + 1,
                _ => runs.push(at..at + 1),
            }
        }
        runs
    }
}

/// A drawing that grows downwards.
struct Drawing<'a> {
    reply: &'a Reply,
    /// What the answer means, in a sentence.
    meaning: String,
    svg: Svg,
    y: f64,
}

/// What stands left of a frame's byte at this place.
fn x_of(at: usize) -> f64 {
    GUTTER + BYTE * (at % BYTES_A_ROW) as f64
}

impl<'a> Drawing<'a> {
    /// The answer as its first line, and what it means.
    fn of(reply: &'a Reply, start: usize) -> Drawing<'a> {
        let mut drawing = Drawing { reply, meaning: meaning(reply, start), svg: Svg::default(), y: 26.0 };
        let verdict = if reply.number == 0 { "good" } else { "bad" };
        drawing.svg.text(Held::Left, RIGHT, drawing.y, &format!("answer {verdict}"), &headline(reply));
        drawing.y += 20.0;
        drawing.svg.text(Held::Left, RIGHT, drawing.y, verdict, &drawing.meaning);
        drawing.y += 18.0;
        drawing
    }

    fn lane(&mut self, y: f64, name: &str) {
        self.svg.text(Held::Left, RIGHT, y, "lane", name);
    }

    /// Sync word and tail, and what they say.
    fn lead(&mut self, on_air: &OnAir, sync: Option<usize>, frame: Option<Placed>) {
        let Some(sync) = sync else {
            return self.manchester(frame);
        };
        self.lane(self.y + 12.0, "chips");
        let mut x = GUTTER;
        if sync > 0 {
            self.svg.text(Held::Left, x, self.y + 12.0, "lane", &format!("{} before", counted(sync, "chip")));
            x += 100.0;
        }
        self.sixteen(on_air, x, sync, "sync word", false);
        x += SYNC as f64 * CHIP;
        if frame.is_none_or(|placed| placed.first > sync + SYNC) {
            self.sixteen(on_air, x, sync + SYNC, "tail", frame.is_none());
            x += SYNC as f64 * CHIP;
        }
        let tried = number(self.reply, "tried").map(|tried| format!(", {} tried", counted(tried as usize, "place")));
        let tried = tried.unwrap_or_default();
        self.svg.text(Held::Left, x + 16.0, self.y + 14.0, "", &format!("sync word at chip {sync}{tried}"));
        let kind = frame.map_or("no kind of frame is told", |placed| words::kind_words(placed.kind));
        self.svg.text(Held::Left, x + 16.0, self.y + 32.0, "", kind);
        self.y += 74.0;
    }

    fn manchester(&mut self, frame: Option<Placed>) {
        let first = frame.map_or(0, |placed| placed.first);
        let words = format!("{}, from chip {first} on", words::kind_words(Kind::ManchesterWithA));
        self.svg.text(Held::Left, GUTTER, self.y + 4.0, "", &words);
        self.y += 18.0;
    }

    /// Sixteen chips with their name, from this one on; those that did not come are left open.
    fn sixteen(&mut self, on_air: &OnAir, x: f64, at: usize, name: &str, decided: bool) {
        let (there, y) = (on_air.count().saturating_sub(at).min(SYNC), self.y);
        let chips = |k: usize| chip(on_air.chips, at + k);
        self.wave(x, y, CHIP, there, &chips);
        self.digits(x, y + 26.0, CHIP, there, &chips, false);
        let width = SYNC as f64 * CHIP;
        let missing = SYNC - there;
        let class = if missing > 0 {
            "gone"
        } else if decided {
            "bad-box"
        } else {
            "box sync"
        };
        self.svg.rect(x, y + 32.0, width, 24.0, class);
        let value = (0..SYNC).fold(0u16, |value, k| value << 1 | u16::from(chips(k)));
        let text = if missing > 0 { format!("{missing} missing") } else { format!("{name} {value:04X}") };
        let class = if missing > 0 || decided { "bad" } else { "" };
        self.svg.text(Held::Middle, x + width / 2.0, y + 48.0, class, &text);
    }

    /// The signal: high for a chip 1, low for a chip 0.
    fn wave(&mut self, x: f64, y: f64, unit: f64, count: usize, chip: &dyn Fn(usize) -> bool) {
        if count == 0 {
            return;
        }
        let level = |k: usize| if chip(k) { y } else { y + HIGH };
        let mut steps = format!("M{x} {}", level(0));
        for k in 0..count {
            let last = k + 1 == count;
            if last || level(k + 1) != level(k) {
                steps += &format!("H{}", x + unit * (k + 1) as f64);
                steps += &if last { String::new() } else { format!("V{}", level(k + 1)) };
            }
        }
        self.svg.path(&steps, "wave");
    }

    /// The same chips as digits, in a group that is held in its middle.
    fn digits(&mut self, x: f64, y: f64, unit: f64, count: usize, chip: &dyn Fn(usize) -> bool, bad: bool) {
        let digits: String = (0..count).map(|k| if chip(k) { '1' } else { '0' }).collect();
        let class = if bad { "digits bad" } else { "digits" };
        self.svg.text(Held::Middle, x + unit * count as f64 / 2.0, y, class, &digits);
    }

    /// Chips without a sync word, with a red line under the places that were tried.
    fn noise(&mut self, on_air: &OnAir) {
        const CHIPS_A_ROW: usize = 144;
        const MOST_ROWS: usize = 8;
        let begin = on_air.start / CHIPS_A_ROW * CHIPS_A_ROW;
        let tried = on_air.start..on_air.start + number(self.reply, "tried").unwrap_or(0) as usize;
        for first in (begin..on_air.count()).step_by(CHIPS_A_ROW).take(MOST_ROWS) {
            let there = (on_air.count() - first).min(CHIPS_A_ROW);
            self.lane(self.y + 12.0, &format!("chip {first}"));
            self.wave(GUTTER, self.y, CHIP, there, &|k| chip(on_air.chips, first + k));
            let (from, to) = (tried.start.max(first), tried.end.min(first + there));
            if from < to {
                let x = |at: usize| GUTTER + CHIP * (at - first) as f64;
                self.svg.path(&format!("M{} {}H{}", x(from), self.y + HIGH + 6.0, x(to)), "bad-line");
            }
            self.y += 30.0;
        }
        let left = on_air.count().saturating_sub(begin + MOST_ROWS * CHIPS_A_ROW);
        if left > 0 {
            self.lane(self.y + 4.0, &format!("and {} more", counted(left, "chip")));
            self.y += 20.0;
        }
    }

    fn frame(&mut self, frame: &Frame) {
        for first in (0..frame.cells.len()).step_by(BYTES_A_ROW) {
            let row = first..frame.cells.len().min(first + BYTES_A_ROW);
            if let Some((on_air, placed)) = frame.air {
                self.signal(on_air, placed, row.clone());
            }
            self.bytes(frame, row.clone());
            self.names(frame, row.clone());
            self.brackets(frame, row);
            self.y += 20.0;
        }
        self.content();
        self.behind(frame);
    }

    /// Chips behind a frame that came whole.
    fn behind(&mut self, frame: &Frame) {
        let Some((on_air, placed)) = frame.air else {
            return;
        };
        let behind = on_air.count().saturating_sub(placed.first + frame.cells.len() * placed.chips_a_byte());
        if behind > 0 && !frame.blocks.is_empty() {
            let words = format!("{} behind the frame, not looked at", counted(behind, "chip"));
            self.svg.text(Held::Left, GUTTER, self.y + 4.0, "lane", &words);
            self.y += 18.0;
        }
    }

    /// The chips of a row of bytes, with the words of the line code and what each stands for.
    fn signal(&mut self, on_air: &OnAir, placed: Placed, row: Range<usize>) {
        let code = code_of(placed.kind);
        let (a_byte, width) = (placed.chips_a_byte(), code.width());
        let unit = BYTE / a_byte as f64;
        let first = placed.first + row.start * a_byte;
        let there = on_air.count().saturating_sub(first).min(row.len() * a_byte);
        self.lane(self.y + 12.0, "chips");
        if code != Code::Nrz {
            self.lane(self.y + 42.0, "words");
        }
        for k in (0..there).step_by(width) {
            self.word(on_air, code, first + k, placed.first, GUTTER + unit * k as f64, unit);
        }
        self.wave(GUTTER, self.y, unit, there, &|k| chip(on_air.chips, first + k));
        self.y += if code == Code::Nrz { 34.0 } else { 50.0 };
    }

    /// One word of a line code: shaded in turns, red if it decided.
    fn word(&mut self, on_air: &OnAir, code: Code, at: usize, first: usize, x: f64, unit: f64) {
        let (width, index) = (code.width(), (at - first) / code.width());
        let there = width.min(on_air.count() - at);
        let decided = self.decided_by_word(index);
        let class = if decided {
            "bad-box"
        } else if index % 2 == 0 {
            "word"
        } else {
            ""
        };
        if !class.is_empty() {
            self.svg.rect(x, self.y - 3.0, unit * there as f64, HIGH + 18.0, class);
        }
        // Two digits under two narrow chips would touch those of the next word.
        if code != Code::Manchester {
            self.digits(x, self.y + 26.0, unit, there, &|k| chip(on_air.chips, at + k), decided);
        }
        if code != Code::Nrz && there == width {
            let stands_for = code.word(on_air.chips, at).map_or("?".into(), |value| format!("{value:X}"));
            let class = if decided { "mono bad" } else { "mono" };
            self.svg.text(Held::Middle, x + unit * width as f64 / 2.0, self.y + 42.0, class, &stands_for);
        }
    }

    fn decided_by_word(&self, index: usize) -> bool {
        self.reply.number == numbers::NOT_A_CODE_WORD && number(self.reply, "word") == Some(index as u64)
    }

    fn bytes(&mut self, frame: &Frame, row: Range<usize>) {
        self.lane(self.y + 18.0, "bytes");
        // Those that decided come last, so that no neighbour covers their red edges.
        let (last, first): (Vec<usize>, Vec<usize>) = row.partition(|&at| self.decided_at(frame, at));
        for at in first.into_iter().chain(last) {
            let (cell, field) = (frame.cells[at], frame.fields[at]);
            let class = match cell {
                Cell::Missing => "gone".into(),
                _ if self.decided_at(frame, at) => "bad-box".into(),
                _ => format!("box {}", words::class_of(field)),
            };
            self.svg.rect(x_of(at), self.y, BYTE, 26.0, &class);
            let (class, text) = match cell {
                Cell::Byte(byte) => ("byte", format!("{byte:02X}")),
                Cell::NoByte if self.decided_in(frame, at) => ("byte bad", "?".into()),
                Cell::NoByte => ("byte", "?".into()),
                Cell::Missing => ("bad", "missing".into()),
            };
            self.svg.text(Held::Middle, x_of(at) + BYTE / 2.0, self.y + 18.0, class, &text);
        }
        self.y += 26.0;
    }

    /// Whether the refusal says that this byte of the frame decided.
    fn decided_at(&self, frame: &Frame, at: usize) -> bool {
        match self.reply.number {
            numbers::LENGTH_NOT_ALLOWED => at == 0,
            numbers::WRONG_CHECK => frame.fields[at] == Field::Check && frame.blocks[self.wrong_block()].contains(&at),
            _ => false,
        }
    }

    /// Whether the word that decided is one of this byte's.
    fn decided_in(&self, frame: &Frame, at: usize) -> bool {
        let words_a_byte = frame.air.map_or(1, |(_, placed)| placed.chips_a_byte() / code_of(placed.kind).width());
        (0..words_a_byte).any(|k| self.decided_by_word(at * words_a_byte + k))
    }

    /// The first wrong block, from 0.
    fn wrong_block(&self) -> usize {
        number(self.reply, "block").map_or(0, |block| block as usize - 1)
    }

    /// The names of the fields under their bytes.
    fn names(&mut self, frame: &Frame, row: Range<usize>) {
        self.lane(self.y + 15.0, "fields");
        for run in frame.runs(row) {
            let middle = x_of(run.start) + BYTE * run.len() as f64 / 2.0;
            let name = words::name_of(frame.fields[run.start], &frame.cells[run.clone()]);
            self.svg.text(Held::Middle, middle, self.y + 15.0, "", &name);
        }
        self.y += 22.0;
    }

    /// A bracket under each block, with what is to be said of its check.
    fn brackets(&mut self, frame: &Frame, row: Range<usize>) {
        if frame.blocks.is_empty() {
            return;
        }
        self.lane(self.y + 18.0, "blocks");
        for (index, block) in frame.blocks.iter().enumerate() {
            let part = block.start.max(row.start)..block.end.min(row.end);
            if part.is_empty() {
                continue;
            }
            let (x, end) = (x_of(part.start) + 3.0, x_of(part.end - 1) + BYTE - 3.0);
            let decided = self.reply.number == numbers::WRONG_CHECK && index == self.wrong_block();
            let (from, to) = (self.y + if part.start == block.start { 0.0 } else { 5.0 }, self.y + 5.0);
            let close = if part.end == block.end { format!("V{}", self.y) } else { String::new() };
            self.svg.path(&format!("M{x} {from}V{to}H{end}{close}"), if decided { "bad-line" } else { "line" });
            if said_here(block, &part) {
                let (class, text) = self.of_block(frame, index, block, decided);
                self.svg.text(Held::Middle, (x + end) / 2.0, self.y + 20.0, class, &text);
            }
        }
        self.y += 28.0;
    }

    fn of_block(&self, frame: &Frame, index: usize, block: &Range<usize>, decided: bool) -> (&'static str, String) {
        let name = format!("block {}", index + 1);
        match parts::checks(&frame.cells[block.clone()]) {
            Some((given, there)) if given == there => ("good", format!("{name}: check {there:04X} is right")),
            Some((given, there)) => (
                if decided { "bad" } else { "lane" },
                format!("{name}: check {there:04X}, but its bytes give {given:04X}"),
            ),
            None if frame.cells[block.clone()].contains(&Cell::Missing) => ("bad", format!("{name} is not whole")),
            None => ("lane", format!("{name} cannot be checked")),
        }
    }

    /// What the caller got.
    fn content(&mut self) {
        const BYTES_A_LINE: usize = 32;
        let Some(content) = bytes(self.reply, "content") else {
            let words = "No content is handed over; the memory lent for it stays as it was.";
            self.svg.text(Held::Left, GUTTER, self.y + 4.0, "bad", words);
            self.y += 20.0;
            return;
        };
        self.lane(self.y + 4.0, "content");
        for line in content.chunks(BYTES_A_LINE) {
            let shown: Vec<String> = line.iter().map(|&byte| hex(&[byte])).collect();
            self.svg.text(Held::Left, GUTTER, self.y + 4.0, "mono", &shown.join(" "));
            self.y += 17.0;
        }
        let size = counted(content.len(), "byte");
        let what = format!("{size}, handed over to the caller: C, M, A, CI and the data, which has the reading");
        self.svg.text(Held::Left, GUTTER, self.y + 4.0, "lane", &what);
        self.y += 20.0;
    }

    fn finish(self) -> String {
        self.svg.finish(WIDTH, self.y + 4.0, &format!("{}: {}", headline(self.reply), self.meaning), STYLE)
    }
}

/// A block of several rows is spoken of under its last part, or under its longest if the last is narrow.
fn said_here(block: &Range<usize>, part: &Range<usize>) -> bool {
    const WIDE: usize = 4;
    let last_row = (block.end - 1) / BYTES_A_ROW * BYTES_A_ROW;
    let last = block.start.max(last_row)..block.end;
    if last.len() >= WIDE || last == *block {
        *part == last
    } else {
        part.end == last.start
    }
}

fn chip(chips: &[u8], at: usize) -> bool {
    chips.get(at / 8).is_some_and(|byte| byte >> (7 - at % 8) & 1 == 1)
}
