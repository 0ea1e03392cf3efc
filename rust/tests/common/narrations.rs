//! The gate's model of narration files: the C program `tests/narration.c`, which shares nothing with the
//! library. It has the layout, the sums and the costs; this file only asks it about records, blocks and files.
//! Each test file builds it once, with cc or the compiler that HOSTCC or else CC names, and one process answers
//! all questions.

use std::io::{BufReader, Read, Write};
use std::process::{Child, ChildStdin, ChildStdout, Command, Stdio};
use std::sync::{Mutex, OnceLock};

/// A record as it is in memory and in a file.
pub type Bytes = [u8; 24];
pub type Block = [u8; 512];

/// The first place of a record's orders, indices and bits.
pub const ORDERS: usize = 4;
pub const INDICES: usize = 6;
pub const BITS: usize = 22;

/// The model at work: what it is asked by, and what it answers by.
struct Model(ChildStdin, BufReader<ChildStdout>);

impl Model {
    fn start() -> Self {
        let named = |variable| std::env::var_os(variable).filter(|name| !name.is_empty());
        let compiler = named("HOSTCC").or_else(|| named("CC"));
        let folder = env!("CARGO_TARGET_TMPDIR");
        let program = format!("{folder}/narration-{}", env!("CARGO_CRATE_NAME"));
        let built = Command::new(compiler.unwrap_or("cc".into()))
            .args(["-std=c99", "-O2", "-Wall", "-Wextra", "-Werror", "-o"])
            .args([&program, "../tests/narration.c"])
            .current_dir(env!("CARGO_MANIFEST_DIR"))
            .status();
        assert!(built.is_ok_and(|status| status.success()), "no model");
        let mut command = Command::new(program);
        command.arg("answer");
        command.stdin(Stdio::piped()).stdout(Stdio::piped());
        let Child { stdin, stdout, .. } = command.spawn().expect("the model runs");
        Model(stdin.unwrap(), BufReader::new(stdout.unwrap()))
    }

    fn take(&mut self, length: usize) -> Vec<u8> {
        let mut bytes = vec![0; length];
        self.1.read_exact(&mut bytes).expect("the model answers");
        bytes
    }
}

/// What the model answers to a question, which its text explains by the letter: a number and bytes, or a
/// refusal.
pub fn verdict(letter: char, number: u64, bytes: &[u8]) -> Result<(u16, Vec<u8>), u16> {
    static MODEL: OnceLock<Mutex<Model>> = OnceLock::new();
    let mut question = vec![letter as u8];
    question.extend(number.to_le_bytes());
    question.extend((bytes.len() as u32).to_le_bytes());
    question.extend(bytes);
    let mut model = MODEL
        .get_or_init(|| Mutex::new(Model::start()))
        .lock()
        .unwrap();
    model.0.write_all(&question).expect("the model listens");
    let head = model.take(8);
    let [refusal, told] = [0, 2].map(|at| u16::from_le_bytes([head[at], head[at + 1]]));
    let length = u32::from_le_bytes(head[4..].try_into().unwrap());
    let bytes = model.take(length as usize);
    if refusal == 0 {
        Ok((told, bytes))
    } else {
        Err(refusal)
    }
}

/// What the model makes of bytes where it refuses nothing.
fn made(letter: char, number: u64, bytes: &[u8]) -> Vec<u8> {
    verdict(letter, number, bytes).unwrap().1
}

/// The records that bytes are.
pub fn records_of(bytes: &[u8]) -> Vec<Bytes> {
    let records = bytes.chunks(24).map(|record| record.try_into().unwrap());
    records.collect()
}

/// Sound records of every kind, one for each number; after 5000 they come again.
pub fn record(n: usize) -> Bytes {
    static RECORDS: OnceLock<Vec<Bytes>> = OnceLock::new();
    RECORDS.get_or_init(|| records_of(&made('n', 5000, &[])))[n % 5000]
}

/// The first of them, this many.
pub fn records(count: usize) -> Vec<Bytes> {
    records_from(0, count)
}

pub fn records_from(first: usize, count: usize) -> Vec<Bytes> {
    (first..first + count).map(record).collect()
}

pub fn with_bits(mut record: Bytes, bits: u16) -> Bytes {
    record[BITS..].copy_from_slice(&bits.to_le_bytes());
    record
}

/// A record with the bits that it costs; its numbers must be within their limits.
pub fn priced(record: Bytes) -> Bytes {
    made('c', 0, &record).try_into().unwrap()
}

/// A block with these sums in its last four bytes.
pub fn with_sums(mut block: Block, sums: [u64; 2]) -> Block {
    let ends = sums.map(|sum| (sum as u16).to_le_bytes());
    block[508..].copy_from_slice(&ends.concat());
    block
}

/// A block with the sums that it must have.
pub fn sealed(block: Block) -> Block {
    made('s', 0, &block).try_into().unwrap()
}

/// The sums that a block must have.
pub fn sums(block: &Block) -> [u64; 2] {
    let right = sealed(*block);
    [508, 510].map(|at| u16::from_le_bytes([right[at], right[at + 1]]).into())
}

/// A block of records, sound or not.
pub fn block(number: u64, records: &[Bytes]) -> Block {
    made('b', number, &records.concat()).try_into().unwrap()
}

/// The file that a writer makes of records.
pub fn file(records: &[Bytes]) -> Vec<u8> {
    made('b', 0, &records.concat())
}

/// The number in a block.
pub fn number_in(block: &[u8]) -> u16 {
    u16::from_le_bytes([block[0], block[1]])
}

/// A block with another number, and the sums that it must have then.
pub fn renumbered(mut block: Block, number: u16) -> Block {
    block[..2].copy_from_slice(&number.to_le_bytes());
    sealed(block)
}

/// What the rescue of a file gives: the mended file and the lines of the report, or nothing if there are
/// too many blocks to keep.
pub fn rescued(file: &[u8]) -> Option<(Vec<u8>, Vec<String>)> {
    let (_, mended) = verdict('f', 0, file).ok()?;
    let report = String::from_utf8(made('l', 0, file)).unwrap();
    Some((mended, report.lines().map(String::from).collect()))
}
