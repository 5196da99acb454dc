//! Writes each run twice: as input for our program `replay`, and as what it has to print if it agrees with
//! the original. The formats are those of crates/replay/src/main.rt.
use super::commands::{Answer, Command, Player};
use super::cursor::Cursor;
use super::world::links;
use std::fs::File;
use std::io::{BufWriter, Stdout, Write};

const START: u64 = 11_400_714_819_323_198_485;

fn mix(sum: u64, word: u64) -> u64 {
    let a = sum ^ word;
    let b = a ^ (a << 13);
    let c = b ^ (b >> 7);
    c ^ (c << 17)
}

pub struct Writer {
    input: BufWriter<Stdout>,
    expected: BufWriter<File>,
    /// Only this run is written, and command by command.
    pub only: Option<u64>,
    /// Whether runs are written command by command.
    pub plain: bool,
    pub runs: u64,
    /// How many commands were written, by op.
    pub by_op: [u64; 26],
}

impl Writer {
    pub fn new(expected: &str, only: Option<u64>) -> Writer {
        Writer {
            input: BufWriter::with_capacity(1 << 16, std::io::stdout()),
            expected: BufWriter::with_capacity(1 << 16, File::create(expected).unwrap()),
            only,
            plain: only.is_some(),
            runs: 0,
            by_op: [0; 26],
        }
    }

    pub fn commands(&self) -> u64 {
        self.by_op.iter().sum()
    }

    pub fn finish(&mut self) {
        self.input.flush().unwrap();
        self.expected.flush().unwrap();
    }
}

/// A run while it is made: batches of commands on a fresh pool.
pub struct Run<'a> {
    writer: &'a mut Writer,
    pub player: Player,
    header: [u16; 3],
    batches: u16,
    bytes: Vec<u8>,
    batch: Vec<Command>,
    by_op: [u64; 26],
    sum: u64,
    lines: String,
}

impl<'a> Run<'a> {
    pub fn new(writer: &'a mut Writer, slots: u16, trees: u16, text: u16) -> Run<'a> {
        Run {
            writer,
            player: Player::new(slots, trees, text),
            header: [slots, trees, text],
            batches: 0,
            bytes: Vec::new(),
            batch: Vec::new(),
            by_op: [0; 26],
            sum: mix(START, 0),
            lines: String::new(),
        }
    }

    /// One more command of the batch; its code.
    pub fn give(&mut self, op: u8, tree: u8, slot: u16, stamp: u32, key: u64) -> u8 {
        let c = Command { op, tree, slot, stamp, key };
        let answer = self.player.perform(c);
        self.batch.push(c);
        self.by_op[op as usize] += 1;
        self.note(&answer);
        answer.code
    }

    /// A command that is a batch of its own.
    pub fn alone(&mut self, op: u8, tree: u8, key: u64) -> u8 {
        let code = self.give(op, tree, 0, 0, key);
        self.end_batch();
        code
    }

    fn note(&mut self, a: &Answer) {
        let kind = self.player.cursor.kind();
        let roots = self.player.roots();
        if self.writer.plain {
            use core::fmt::Write;
            let line = &mut self.lines;
            write!(line, "{} {} {} {} {}", a.code, kind, a.slot, a.stamp, a.key).unwrap();
            for (root, count) in roots {
                write!(line, " | {root} {count}").unwrap();
            }
            for item in self.player.world.items.iter().flatten() {
                let (left, right, parent, balance) = links(item);
                write!(line, " | {} {} {left} {right} {parent} {balance}", item.slot, item.key).unwrap();
            }
            line.push('\n');
            return;
        }
        let mut sum = mix(self.sum, 256 * self.batch.len() as u64);
        sum = mix(sum, a.code as u64 | (kind as u64) << 8 | (a.slot as u64) << 16 | (a.stamp as u64) << 32);
        sum = mix(sum, a.key);
        sum = mix(sum, a.start as u64 | (a.length as u64) << 32);
        self.player.world.words(&roots, |word| sum = mix(sum, word));
        self.sum = sum;
    }

    pub fn batch_length(&self) -> u64 {
        self.batch.len() as u64
    }

    /// Ends the batch, and with it the cursor.
    pub fn end_batch(&mut self) {
        let count = self.batch.len() as u32;
        if count == 0 {
            return;
        }
        self.player.cursor = Cursor::Nowhere;
        self.batches += 1;
        let b = &mut self.bytes;
        b.extend(((17 + 24 * count) as u16).to_le_bytes());
        b.extend(1u16.to_le_bytes());
        b.extend((count as u16).to_le_bytes());
        b.extend(16u32.to_le_bytes());
        b.extend((16 + 24 * count).to_le_bytes());
        b.extend(1u32.to_le_bytes());
        for c in self.batch.drain(..) {
            b.extend([c.op, c.tree]);
            b.extend(c.slot.to_le_bytes());
            b.extend(c.stamp.to_le_bytes());
            b.extend(c.key.to_le_bytes());
            // the name: one byte, at the start of the names
            b.extend([0, 0, 0, 0, 1, 0, 0, 0]);
        }
        b.push(b'n');
    }

    /// Writes the run; one that is not ended is not written.
    pub fn end(mut self) {
        self.end_batch();
        let w = self.writer;
        w.runs += 1;
        for (all, own) in w.by_op.iter_mut().zip(self.by_op) {
            *all += own;
        }
        if w.only.is_some_and(|run| run != w.runs) {
            return;
        }
        w.input.write_all(&[1 + w.plain as u8]).unwrap();
        for n in self.header {
            w.input.write_all(&n.to_le_bytes()).unwrap();
        }
        w.input.write_all(&self.batches.to_le_bytes()).unwrap();
        w.input.write_all(&self.bytes).unwrap();
        if w.plain {
            w.expected.write_all(self.lines.as_bytes()).unwrap();
        } else {
            writeln!(w.expected, "run {:016x}", self.sum).unwrap();
        }
    }
}
