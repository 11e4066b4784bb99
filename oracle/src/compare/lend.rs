//! The proved entries, reached through the C program that is linked with them (`lend.c`): a call, and all that it said and left.

use super::table::Code;
use std::io::{BufReader, BufWriter, Read, Write};
use std::process::{Child, ChildStdin, ChildStdout, Command, Stdio};

const GUARD: usize = 16;
const GUARD_WORD: u32 = 0xDEAD_BEEF;

/// The entries by the numbers that `lend.c` knows them by.
pub const BUILD: u64 = 1;
pub const SEARCH: u64 = 2;
pub const BEGIN: u64 = 3;
pub const ITERATE: u64 = 4;
pub const OPEN: u64 = 5;
pub const MOVE: u64 = 6;
pub const CLOSE: u64 = 7;

/// A call as it is lent: whole numbers (an f32 by its bits), and slices as words.
#[derive(Clone, Debug)]
pub struct Call {
    pub entry: u64,
    pub numbers: Vec<u64>,
    pub slices: Vec<Vec<u32>>,
}

/// What a call says (refusal, two places, two counts) and every lent slice as it leaves it.
#[derive(Clone, Debug, PartialEq)]
pub struct Outcome {
    pub said: [u64; 5],
    pub slices: Vec<Vec<u32>>,
}

impl Outcome {
    /// "A refusal has counts 0 and changes no lent byte"
    pub fn refused((number, first, second): Code, slices: Vec<Vec<u32>>) -> Self {
        let said = [number, first, second, 0, 0];
        Outcome { said, slices }
    }
}

/// An outcome, and whether every guard word is whole.
pub struct Reply {
    pub outcome: Outcome,
    pub guarded: bool,
}

pub struct Library {
    child: Child,
    to: BufWriter<ChildStdin>,
    from: BufReader<ChildStdout>,
    calls: u64,
}

impl Library {
    /// The program, told to spoil its replies or not.
    pub fn start(program: &str, spoils: bool) -> Self {
        let mut child = Command::new(program)
            .args(spoils.then_some("spoil"))
            .stdin(Stdio::piped())
            .stdout(Stdio::piped())
            .spawn()
            .unwrap_or_else(|e| panic!("{}: {}", program, e));
        let to = BufWriter::with_capacity(1 << 16, child.stdin.take().unwrap());
        let from = BufReader::with_capacity(1 << 16, child.stdout.take().unwrap());
        Library {
            child,
            to,
            from,
            calls: 0,
        }
    }

    pub fn call(&mut self, call: &Call) -> Reply {
        self.send(call).expect("the entries take a call");
        let mut said = [0; 5];
        for x in &mut said {
            let mut bytes = [0; 8];
            self.from.read_exact(&mut bytes).expect("an answer");
            *x = u64::from_le_bytes(bytes);
        }
        let guard = if self.calls % 4 == 3 { 0 } else { GUARD_WORD };
        self.calls += 1;
        let mut guarded = true;
        let mut slices = Vec::new();
        for lent in &call.slices {
            let mut words = self.words(lent.len() + 2 * GUARD);
            let behind = words.split_off(GUARD + lent.len());
            let slice = words.split_off(GUARD);
            guarded &= words.iter().chain(&behind).all(|w| *w == guard);
            slices.push(slice);
        }
        Reply {
            outcome: Outcome { said, slices },
            guarded,
        }
    }

    fn send(&mut self, call: &Call) -> std::io::Result<()> {
        let to = &mut self.to;
        let mut number = |x: u64| to.write_all(&x.to_le_bytes());
        number(call.entry)?;
        number(call.numbers.len() as u64)?;
        for x in &call.numbers {
            number(*x)?;
        }
        number(call.slices.len() as u64)?;
        for slice in &call.slices {
            self.to.write_all(&(slice.len() as u64).to_le_bytes())?;
            let bytes: Vec<u8> = slice.iter().flat_map(|w| w.to_le_bytes()).collect();
            self.to.write_all(&bytes)?;
        }
        self.to.flush()
    }

    fn words(&mut self, count: usize) -> Vec<u32> {
        let mut bytes = vec![0; count * 4];
        self.from.read_exact(&mut bytes).expect("the slices");
        let four = bytes.chunks_exact(4);
        four.map(|b| u32::from_le_bytes(b.try_into().unwrap()))
            .collect()
    }

    /// Ends the program and sees that it ended well.
    pub fn end(mut self) {
        self.to.write_all(&0u64.to_le_bytes()).expect("the end");
        self.to.flush().expect("the end");
        assert!(self.child.wait().expect("its status").success());
    }
}
