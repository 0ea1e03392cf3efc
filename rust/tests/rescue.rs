//! Whole damaged narrations through `rescue` and `rescue_with`: what is kept, what is reported and in which
//! words, what is refused, and streams that give or take pieces, fail or change. The expected results are
//! written here or come from the gate's model (`common/narrations.rs`) of docs/RULES.md, "Rescue (C-16)".
//! `blocks.rs` tests the rescue of single blocks.
#![cfg(feature = "std")]

mod common;

use common::narrations::{
    block, file, number_in, record, records, records_from, renumbered, rescued, sealed, verdict,
    Block, BITS, ORDERS,
};
use common::streams::Pieces;
use gillsextant::narration::{rescue, rescue_with, BlockRefusal, Reader, RescueEntry, RescueError};
use std::io::{self, BufReader, BufWriter, Cursor, ErrorKind, Read, Seek, SeekFrom, Write};

/// The mended bytes and the lines of the report.
type Rescued = (Vec<u8>, Vec<String>);

/// A rescue by both functions, which must do the same.
fn rescue_both(damaged: impl Read + Seek + Clone) -> Result<Rescued, RescueError> {
    let (mut mended, mut lines) = (Vec::new(), Vec::new());
    let one_by_one = rescue_with(damaged.clone(), &mut mended, |entry| {
        lines.push(entry.to_string());
        Ok(())
    });
    let mut at_once = Vec::new();
    let report = rescue(damaged, &mut at_once);
    assert_eq!(mended, at_once);
    one_by_one?;
    let words: Vec<String> = report?.iter().map(RescueEntry::to_string).collect();
    assert_eq!(words, lines);
    Ok((mended, lines))
}

/// The rescue of bytes that are all there, which must be the model's. What comes out is rescued again, as
/// itself, and is read to its end.
fn rescued_of(damaged: &[u8]) -> Rescued {
    let (mended, report) = rescue_both(Cursor::new(damaged)).unwrap();
    assert_eq!((mended.clone(), report.clone()), rescued(damaged).unwrap());
    let again = rescue_both(Cursor::new(&mended)).unwrap();
    assert_eq!(again, (mended.clone(), vec![]));
    let found = Reader::new(&mended[..]).flat_map(|record| record.unwrap().to_bytes());
    let wanted = mended.chunks(512).enumerate();
    let wanted = wanted.flat_map(|(number, block)| verdict('r', number as u64, block).unwrap().1);
    assert_eq!(found.collect::<Vec<u8>>(), wanted.collect::<Vec<u8>>());
    (mended, report)
}

/// The rescue keeps these blocks, given by their old numbers, and has this report.
fn assert_rescued(damaged: &[u8], kept: &[Block], report: &[&str]) {
    let kept = kept.iter().enumerate();
    let wanted = kept.flat_map(|(number, block)| renumbered(*block, number as u16));
    let (mended, lines) = rescued_of(damaged);
    assert_eq!((mended, lines), (wanted.collect(), lines_of(report)));
}

fn lines_of(report: &[&str]) -> Vec<String> {
    report.iter().map(|line| line.to_string()).collect()
}

/// A file of six blocks, the last of them not full.
fn six_blocks() -> Vec<Block> {
    let bytes = file(&records(113));
    let blocks = bytes.chunks(512).map(|bytes| bytes.try_into().unwrap());
    blocks.collect()
}

fn with(mut block: Block, place: usize, byte: u8) -> Block {
    block[place] = byte;
    block
}

/// A record with order 9, and right sums.
fn order_nine(block: Block) -> Block {
    sealed(with(block, 8 + 24 * 3 + ORDERS, 9))
}

/// Faults of a block: what it is dropped by, and how it is made.
type Fault = (u16, fn(Block) -> Block);

const FAULTS: [Fault; 11] = [
    (10, |block| with(block, 100, block[100] ^ 4)),
    (10, |block| with(block, 0, block[0] ^ 1)),
    (10, |block| with(block, 511, block[511] ^ 1)),
    (10, |_| [255; 512]),
    (11, |_| [0; 512]),
    (11, |block| sealed(with(block, 2, 0))),
    (11, |block| sealed(with(block, 3, 2))),
    (11, |block| sealed(with(block, 5, 1))),
    (11, |block| sealed(with(block, 507, 1))),
    (12, |block| {
        sealed(with(block, 8 + BITS, block[8 + BITS] + 1))
    }),
    (12, order_nine),
];

#[test]
fn a_sound_narration_stays() {
    for count in [0, 1, 19, 20, 21, 40, 41, 100, 119] {
        let bytes = file(&records(count));
        assert_eq!(rescued_of(&bytes), (bytes, vec![]));
    }
    // Also one that a writer would have cut into other blocks.
    let counts = [3, 20, 1, 19, 20, 2, 20, 20].into_iter().enumerate();
    let bytes = counts.flat_map(|(n, count)| block(n as u64, &records_from(n, count)));
    let bytes: Vec<u8> = bytes.collect();
    assert_eq!(rescued_of(&bytes), (bytes, vec![]));
}

/// The report of the fourth block's loss, and 17 bytes of another block.
#[test]
fn a_report() {
    let blocks = six_blocks();
    let mut damaged = blocks[..5].concat();
    damaged[3 * 512 + 300] ^= 16;
    damaged.extend(&blocks[5][..17]);
    assert_rescued(
        &damaged,
        &[blocks[0], blocks[1], blocks[2], blocks[4]],
        &[
            "block 3 dropped 10",
            "block 4 renumbered 4 to 3",
            "17 stray bytes",
        ],
    );
}

/// Every fault in every block of six: it alone is dropped, and those behind it get other numbers.
#[test]
fn one_fault_in_each_block() {
    let blocks = six_blocks();
    for at in 0..6 {
        for (number, make) in FAULTS {
            let mut damaged = blocks.clone();
            damaged[at] = make(damaged[at]);
            let mut kept = blocks.clone();
            kept.remove(at);
            let mut report = vec![format!("block {at} dropped {number}")];
            for place in at + 1..6 {
                report.push(format!("block {place} renumbered {place} to {}", place - 1));
            }
            let report: Vec<&str> = report.iter().map(String::as_str).collect();
            assert_rescued(&damaged.concat(), &kept, &report);
        }
    }
}

/// Much is wrong at once.
#[test]
fn a_bad_day() {
    let mut blocks = six_blocks();
    blocks.extend([block(6, &records(20)), block(7, &records(1))]);
    let mut damaged = blocks.clone();
    damaged[0] = [0; 512];
    damaged[2] = order_nine(damaged[2]);
    damaged[3] = with(damaged[3], 508, damaged[3][508] ^ 1);
    damaged[6] = sealed(with(damaged[6], 7, 1));
    let mut bytes = damaged.concat();
    bytes.push(0);
    assert_rescued(
        &bytes,
        &[blocks[1], blocks[4], blocks[5], blocks[7]],
        &[
            "block 0 dropped 11",
            "block 1 renumbered 1 to 0",
            "block 2 dropped 12",
            "block 3 dropped 10",
            "block 4 renumbered 4 to 1",
            "block 5 renumbered 5 to 2",
            "block 6 dropped 11",
            "block 7 renumbered 7 to 3",
            "1 stray bytes",
        ],
    );
}

/// Nothing is sound, and an empty narration comes out.
#[test]
fn nothing_is_kept() {
    for (number, make) in FAULTS {
        let blocks = six_blocks();
        let damaged = [make(blocks[0]), make(blocks[1])].concat();
        let report = [0, 1].map(|place| format!("block {place} dropped {number}"));
        assert_eq!(rescued_of(&damaged), (vec![], report.to_vec()));
    }
}

/// Sound blocks that are missing, twice there, or in another order. No block is dropped for its number, and
/// the order stays that of the bytes.
#[test]
fn blocks_in_other_places() {
    let blocks = six_blocks();
    type Case<'a> = (&'a [usize], &'a [&'a str]);
    let cases: [Case; 7] = [
        (&[0, 1, 2], &[]),
        (
            &[1, 2, 3],
            &[
                "block 0 renumbered 1 to 0",
                "block 1 renumbered 2 to 1",
                "block 2 renumbered 3 to 2",
            ],
        ),
        (
            &[0, 1, 4, 5],
            &["block 2 renumbered 4 to 2", "block 3 renumbered 5 to 3"],
        ),
        (
            &[0, 1, 1, 2],
            &["block 2 renumbered 1 to 2", "block 3 renumbered 2 to 3"],
        ),
        (
            &[0, 2, 1, 3],
            &["block 1 renumbered 2 to 1", "block 2 renumbered 1 to 2"],
        ),
        (
            &[5, 4, 3, 2, 1, 0],
            &[
                "block 0 renumbered 5 to 0",
                "block 1 renumbered 4 to 1",
                "block 2 renumbered 3 to 2",
                "block 3 renumbered 2 to 3",
                "block 4 renumbered 1 to 4",
                "block 5 renumbered 0 to 5",
            ],
        ),
        (&[0, 0], &["block 1 renumbered 0 to 1"]),
    ];
    for (order, report) in cases {
        let kept: Vec<Block> = order.iter().map(|place| blocks[*place]).collect();
        assert_rescued(&kept.concat(), &kept, report);
    }
}

/// Where a block was dropped, the number of a later one can be right by chance: it is not reported.
#[test]
fn a_number_that_is_right_again() {
    let blocks = six_blocks();
    let damaged = [[0; 512], blocks[0], [0; 512], blocks[1], blocks[0]];
    assert_rescued(
        &damaged.concat(),
        &[blocks[0], blocks[1], blocks[0]],
        &[
            "block 0 dropped 11",
            "block 2 dropped 11",
            "block 4 renumbered 0 to 2",
        ],
    );
}

/// A block may have any number.
#[test]
fn numbers_of_any_size() {
    let list = records(3);
    for stood in [0, 2, 255, 256, 257, 0x0100, 65534, 65535] {
        let damaged = [block(0, &list), block(stood, &list)];
        let line = format!("block 1 renumbered {stood} to 1");
        assert_rescued(&damaged.concat(), &damaged, &[&line]);
    }
}

/// Every number of stray bytes, alone, behind sound blocks, and behind one that is dropped. They are not
/// looked at: most of a sound block, or zeros.
#[test]
fn stray_bytes() {
    let blocks = six_blocks();
    for count in 0..512 {
        let line = format!("{count} stray bytes");
        let lines = if count > 0 { &[line.as_str()][..] } else { &[] };
        for stray in [&blocks[2][..count], &[0; 512][..count]] {
            assert_rescued(stray, &[], lines);
            let damaged = [&blocks[0][..], &blocks[1], stray].concat();
            assert_rescued(&damaged, &blocks[..2], lines);
        }
        let damaged = [&[0; 512][..], &blocks[1][..count]].concat();
        let report = [&["block 0 dropped 11"], lines].concat();
        assert_rescued(&damaged, &[], &report);
    }
}

/// Blocks are cut from the first byte on. Behind a byte too many none of them is found.
#[test]
fn a_byte_too_many_in_front() {
    let blocks = six_blocks();
    let damaged = [&[7][..], &blocks[..2].concat()].concat();
    let report = ["block 0 dropped 10", "block 1 dropped 10", "1 stray bytes"];
    assert_rescued(&damaged, &[], &report);
}

/// The first half of a block's bytes are another's: a hole within.
#[test]
fn half_a_block() {
    let blocks = six_blocks();
    let mut half = blocks[1];
    half[..256].copy_from_slice(&blocks[3][..256]);
    let mut hole = blocks[2];
    hole[256..].fill(0);
    assert_rescued(
        &[blocks[0], half, hole, blocks[3]].concat(),
        &[blocks[0], blocks[3]],
        &[
            "block 1 dropped 10",
            "block 2 dropped 10",
            "block 3 renumbered 3 to 1",
        ],
    );
}

/// 65,536 blocks.
fn longest() -> Vec<u8> {
    file(&records(20).repeat(65536))
}

/// Takes nothing at all.
struct Untouched;

impl Write for Untouched {
    fn write(&mut self, _: &[u8]) -> io::Result<usize> {
        panic!("it is written to");
    }
    fn flush(&mut self) -> io::Result<()> {
        panic!("it is flushed");
    }
}

/// As many blocks as a narration can have are kept, where there are more that are dropped: holes in front, in
/// the middle and at the end, and some bytes. One more, of whatever number, is too many, and then nothing is
/// written or reported.
#[test]
fn the_most_that_can_be_kept() {
    let sound = longest();
    let middle = 30_000 * 512;
    let hole = &[0; 512][..];
    let parts = [hole, &sound[..middle], hole, &sound[middle..], hole];
    let damaged = [&parts.concat()[..], &[1; 30]].concat();
    let (mended, report) = rescue_both(Cursor::new(damaged)).unwrap();
    assert!(mended == sound);
    let wanted = [
        "block 0 dropped 11",
        "block 30001 dropped 11",
        "block 65538 dropped 11",
        "30 stray bytes",
    ];
    assert_eq!(report, wanted);

    let last = block(65535, &records(20));
    let damaged = [&parts.concat()[..], &last, &[1; 30]].concat();
    let unreported = |entry| panic!("{entry}");
    let answer = rescue_with(Cursor::new(&damaged), Untouched, unreported);
    assert!(matches!(answer, Err(RescueError::TooMany)));
    let answer = rescue(Cursor::new(&damaged), Untouched);
    assert!(matches!(answer, Err(RescueError::TooMany)));
}

/// A damaged file with an entry of every kind, and what must come of it.
fn damaged() -> (Vec<u8>, Rescued) {
    let mut blocks = six_blocks();
    blocks[1] = [0; 512];
    blocks[3] = order_nine(blocks[3]);
    let mut bytes = blocks.concat();
    bytes.extend([3; 100]);
    let wanted = rescued(&bytes).unwrap();
    assert_eq!((wanted.0.len(), wanted.1.len()), (4 * 512, 6));
    (bytes, wanted)
}

const PIECES: [usize; 7] = [1, 7, 23, 511, 512, 513, 5000];

#[test]
fn in_pieces_and_interrupted() {
    let (bytes, wanted) = damaged();
    for length in PIECES {
        for interrupts in [false, true] {
            let mut pieces = Pieces::of(&bytes, length);
            pieces.interrupts = interrupts;
            assert_eq!(rescue_both(pieces.clone()).unwrap(), wanted);
            let mut mended = Pieces::of(&[], length);
            mended.interrupts = interrupts;
            let buffered = BufReader::with_capacity(100, pieces);
            rescue(buffered, &mut mended).unwrap();
            assert_eq!(mended.bytes, wanted.0);
        }
    }
}

/// The bytes before a stream's current position are not part of the narration and are not read.
#[test]
fn from_where_it_stands() {
    let (bytes, wanted) = damaged();
    for before in [0, 1, 100, 512, 1000, 1024] {
        let longer = [&file(&records(60))[..before], &bytes].concat();
        let mut cursor = Cursor::new(&longer[..]);
        cursor.set_position(before as u64);
        assert_eq!(rescue_both(cursor.clone()).unwrap(), wanted);
        // Passed by reference, it can be asked for its position afterwards: its end.
        rescue(&mut cursor, io::sink()).unwrap();
        assert_eq!(cursor.position(), longer.len() as u64);
        // A buffer that has taken more than was asked of it.
        let mut buffered = BufReader::with_capacity(700, Cursor::new(&longer));
        buffered.read_exact(&mut vec![0; before]).unwrap();
        let mut mended = Vec::new();
        rescue(&mut buffered, &mut mended).unwrap();
        assert_eq!(mended, wanted.0);
    }
    // At the end, and behind it, there is nothing.
    for place in [bytes.len() as u64, bytes.len() as u64 + 1, u64::MAX] {
        let mut cursor = Cursor::new(&bytes);
        cursor.set_position(place);
        assert_eq!(rescue_both(cursor).unwrap(), (vec![], vec![]));
    }
}

/// The damaged narration is only read.
#[test]
fn files_of_the_system() {
    let (bytes, wanted) = damaged();
    let name = format!("gillsextant-rescue-{}", std::process::id());
    let [from, to] = ["damaged", "mended"].map(|end| std::env::temp_dir().join(name.clone() + end));
    std::fs::write(&from, &bytes).unwrap();
    let damaged = std::fs::File::open(&from).unwrap();
    let mended = std::fs::File::create(&to).unwrap();
    let report = rescue(BufReader::new(damaged), BufWriter::new(mended));
    let lines = report.map(|report| report.iter().map(RescueEntry::to_string).collect());
    let found = [&from, &to].map(|path| std::fs::read(path).unwrap());
    for path in [from, to] {
        std::fs::remove_file(path).unwrap();
    }
    let [damaged, mended] = found;
    assert_eq!(damaged, bytes);
    assert_eq!((mended, lines.unwrap()), wanted);
}

/// On which side it failed, and the system's kind of error.
fn side(error: RescueError) -> (&'static str, ErrorKind) {
    match error {
        RescueError::Read(error) => ("read", error.kind()),
        RescueError::Write(error) => ("write", error.kind()),
        RescueError::Report(error) => ("report", error.kind()),
        other => panic!("{other}"),
    }
}

/// What has been written and how many entries reported when a rescue ends, and its error.
fn until_error(damaged: impl Read + Seek) -> (Vec<u8>, usize, RescueError) {
    let (mut mended, mut entries) = (Vec::new(), 0);
    let ended = rescue_with(damaged, &mut mended, |_| {
        entries += 1;
        Ok(())
    });
    (mended, entries, ended.unwrap_err())
}

/// A read that fails, wherever: in the first reading nothing is written or reported, in the second what the
/// blocks before gave.
#[test]
fn reads_that_fail() {
    let (bytes, wanted) = damaged();
    let denied = ("read", ErrorKind::PermissionDenied);
    for length in [100, 512, 5000] {
        for place in [0, 1, 100, 511, 512, 1024, 1500, 3071, 3072, 3100, 3172] {
            let mut failing = Pieces::of(&bytes, length);
            failing.fails_at = place;
            let (mended, entries, error) = until_error(failing.clone());
            assert_eq!((mended, entries, side(error)), (vec![], 0, denied));

            let mut pieces = Pieces::of(&bytes, length);
            pieces.again = Some(Box::new(failing));
            let (mended, entries, error) = until_error(pieces);
            let before = rescued(&bytes[..place / 512 * 512]).unwrap();
            assert_eq!((mended, entries), (before.0, before.1.len()));
            assert_eq!(side(error), denied);
        }
    }
    assert_eq!(rescue_both(Pieces::of(&bytes, 100)).unwrap(), wanted);
}

/// A stream that cannot give its position, such as a pipe, or that cannot go back to it.
#[test]
fn seeks_that_fail() {
    let (bytes, wanted) = damaged();
    for seeks in 0..2 {
        let mut pieces = Pieces::of(&bytes, 512);
        pieces.seeks = seeks;
        let error = rescue_with(&mut pieces, Untouched, |entry| panic!("{entry}")).unwrap_err();
        assert_eq!(side(error), ("read", ErrorKind::PermissionDenied));
        // Without knowing where it began there is no use in reading.
        assert_eq!(pieces.at, seeks * bytes.len());
    }
    let mut pieces = Pieces::of(&bytes, 512);
    pieces.seeks = 2;
    assert_eq!(rescue_both(pieces).unwrap(), wanted);
}

/// A write that fails, wherever: what was written before remains.
#[test]
fn writes_that_fail() {
    let (bytes, wanted) = damaged();
    for place in [0, 1, 511, 512, 700, 1024, 1536, 2047] {
        let mut mended = Pieces::of(&[], 300);
        mended.fails_at = place;
        let error = rescue(Cursor::new(&bytes), &mut mended).unwrap_err();
        assert_eq!(error.to_string(), "writing the mended narration: no more");
        assert_eq!(side(error), ("write", ErrorKind::PermissionDenied));
        assert_eq!(mended.bytes, wanted.0[..place]);
        assert!(mended.flushed.is_empty());
        // A writer that is full takes nothing more and has no error of its own.
        let mut lent = vec![0; place];
        let error = rescue(Cursor::new(&bytes), &mut lent[..]).unwrap_err();
        assert_eq!(side(error), ("write", ErrorKind::WriteZero));
        assert_eq!(lent, wanted.0[..place]);
    }
    let mut lent = vec![0; wanted.0.len()];
    rescue(Cursor::new(&bytes), &mut lent[..]).unwrap();
    assert_eq!(lent, wanted.0);
}

/// Each block is written whole and by itself, and all are flushed at the end: that empties a buffer, and its
/// error is given if it fails.
#[test]
fn blocks_are_handed_on_and_flushed() {
    let (bytes, wanted) = damaged();
    let mut mended = Pieces::of(&[], usize::MAX);
    rescue(Cursor::new(&bytes), &mut mended).unwrap();
    assert_eq!(mended.offered, [512; 4]);
    assert_eq!(mended.flushed, [2048]);

    let mut through = Vec::new();
    let mut buffered = BufWriter::with_capacity(10_000, &mut through);
    rescue(Cursor::new(&bytes), &mut buffered).unwrap();
    // The buffer is not dropped yet, so nothing but the flush can have emptied it.
    assert!(buffered.buffer().is_empty());
    drop(buffered);
    assert_eq!(through, wanted.0);

    let mut pieces = Pieces::of(&[], 512);
    pieces.fails_at = 2000;
    let buffered = BufWriter::with_capacity(10_000, pieces);
    let error = rescue(Cursor::new(&bytes), buffered).unwrap_err();
    assert_eq!(side(error), ("write", ErrorKind::PermissionDenied));
}

/// A report that is not taken ends the rescue with the caller's own error, and nothing is reported after.
#[test]
fn reports_that_fail() {
    let (bytes, wanted) = damaged();
    for fails_at in 0..wanted.1.len() {
        let (mut mended, mut lines) = (Pieces::of(&[], 512), Vec::new());
        let ended = rescue_with(Cursor::new(&bytes), &mut mended, |entry| {
            lines.push(entry.to_string());
            if lines.len() > fails_at {
                return Err(io::Error::new(ErrorKind::BrokenPipe, "nobody reads"));
            }
            Ok(())
        });
        let error = ended.unwrap_err();
        assert_eq!(error.to_string(), "reporting: nobody reads");
        assert_eq!(side(error), ("report", ErrorKind::BrokenPipe));
        assert_eq!(lines, wanted.1[..=fails_at]);
        assert!(wanted.0.starts_with(&mended.bytes));
        assert!(mended.flushed.is_empty());
    }
}

/// Bytes that are others when they are read again. If there are as many blocks, kept blocks and stray bytes
/// as before, what they are now is rescued, and else the rescue fails.
#[test]
fn a_narration_that_changes() {
    let changed = |first: &[u8], second: &[u8]| {
        let mut pieces = Pieces::of(first, 512);
        pieces.again = Some(Box::new(Pieces::of(second, 512)));
        rescue_both(pieces)
    };
    let blocks = six_blocks();
    let (bytes, wanted) = damaged();
    assert_eq!(changed(&bytes, &bytes).unwrap(), wanted);

    let mut other = bytes.clone();
    let place = 1024; // of a block that is kept
    other[place..][..512].copy_from_slice(&block(9, &records_from(500, 20)));
    let now = rescued(&other).unwrap();
    assert_ne!(now, wanted);
    assert_eq!(changed(&bytes, &other).unwrap(), now);

    let mut fewer_kept = bytes.clone();
    fewer_kept[place] ^= 1;
    let mut more_kept = bytes.clone();
    more_kept[512..1024].copy_from_slice(&blocks[1]);
    let fewer_blocks = [&bytes[..1536], &bytes[2048..]].concat(); // a block that is dropped is gone
    let more_blocks = [&[0; 512], &bytes[..]].concat();
    let more_stray = [&bytes[..], &[1]].concat();
    let fewer_stray = &bytes[..bytes.len() - 1];
    let no_stray = &bytes[..bytes.len() - 100];
    for second in [
        &fewer_kept[..],
        &more_kept,
        &fewer_blocks,
        &more_blocks,
        &more_stray,
        fewer_stray,
        no_stray,
        &[],
    ] {
        let ended = changed(&bytes, second);
        assert!(matches!(ended, Err(RescueError::Changed)));
        // The writer is not flushed.
        let mut pieces = Pieces::of(&bytes, 512);
        pieces.again = Some(Box::new(Pieces::of(second, 512)));
        let mut mended = Pieces::of(&[], 512);
        rescue(pieces, &mut mended).unwrap_err();
        assert!(mended.flushed.is_empty());
    }
}

/// The second reading finds too many blocks. That is no refusal, because some are written already.
#[test]
fn a_narration_that_grows_too_long() {
    let sound = longest();
    let longer = [&sound[..], &block(0, &records(1))].concat();
    let mut pieces = Pieces::of(&sound, 1 << 20);
    pieces.again = Some(Box::new(Pieces::of(&longer, 1 << 20)));
    let mut mended = Vec::new();
    let ended = rescue(pieces, &mut mended);
    assert!(matches!(ended, Err(RescueError::Changed)));
    assert!(mended == sound);
}

/// A reader that claims more than it was asked for does not bring the crate down.
#[test]
fn a_reader_that_lies() {
    #[derive(Clone)]
    struct Liar(usize);
    impl Read for Liar {
        fn read(&mut self, buffer: &mut [u8]) -> io::Result<usize> {
            self.0 += 1;
            Ok(if self.0 > 3 { 0 } else { buffer.len() + 1 })
        }
    }
    impl Seek for Liar {
        fn seek(&mut self, to: SeekFrom) -> io::Result<u64> {
            if to == SeekFrom::Start(0) {
                self.0 = 0;
            }
            Ok(0)
        }
    }
    // It leaves its buffer as it was: zeros.
    let report = [0, 1, 2].map(|place| format!("block {place} dropped 11"));
    assert_eq!(rescue_both(Liar(0)).unwrap(), (vec![], report.to_vec()));
}

/// Files that are damaged in every way, drawn at random and the same in every run.
#[test]
fn random_damage() {
    let mut state = 0x9e37_79b9_7f4a_7c15_u64;
    let mut below = |bound: usize| {
        state ^= state << 13;
        state ^= state >> 7;
        state ^= state << 17;
        (state >> 11) as usize % bound
    };
    // How many lines of each kind there were, and how many empty reports.
    let [mut sums, mut layout, mut record_of, mut renumbered_to, mut stray, mut none] = [0; 6];
    for round in 0..20_000 {
        let count = below(7);
        let mut blocks: Vec<Block> = (0..count)
            .map(|n| block(n as u64, &records_from(below(1000), 1 + below(20))))
            .collect();
        for _ in 0..below(4) {
            if blocks.is_empty() {
                break;
            }
            let (at, to) = (below(blocks.len()), below(blocks.len()));
            let place = [below(512), below(8), 8 + below(480), 508 + below(4)][below(4)];
            let byte = blocks[at][place];
            let near = [byte.wrapping_add(1), byte.wrapping_sub(1), below(256) as u8][below(3)];
            match below(9) {
                0 => drop(blocks.remove(at)),
                1 => blocks.insert(to, blocks[at]),
                2 => blocks.swap(at, to),
                3 => blocks[at] = [[0; 512], [255; 512]][below(2)],
                4 => blocks[at] = with(blocks[at], place, near),
                5 | 6 => blocks[at] = sealed(with(blocks[at], place, near)),
                7 => blocks[at] = order_nine(blocks[at]),
                _ => blocks[at] = renumbered(blocks[at], below(65536) as u16),
            }
        }
        let mut bytes = blocks.concat();
        match below(8) {
            0 => bytes.truncate(below(bytes.len() + 1)),
            1 => bytes.extend(&block(0, &[record(round)])[..below(512)]),
            2 if below(8) == 0 => bytes.insert(below(bytes.len() + 1), below(256) as u8),
            _ => {}
        }
        println!("round {round}");
        let (mended, report) = rescued_of(&bytes);
        for line in &report {
            *match line.rsplit_once(' ').unwrap() {
                (_, "10") if line.contains("dropped") => &mut sums,
                (_, "11") if line.contains("dropped") => &mut layout,
                (_, "12") if line.contains("dropped") => &mut record_of,
                (_, "bytes") => &mut stray,
                _ => &mut renumbered_to,
            } += 1;
        }
        none += usize::from(report.is_empty());
        assert_eq!(report.is_empty(), mended == bytes);
    }
    let met = [sums, layout, record_of, renumbered_to, stray, none];
    assert!(met.iter().all(|count| *count > 1000), "{met:?}");
}

/// The model by itself, on the example of the documents.
#[test]
fn the_model() {
    let list = records(2);
    let [first, second] = [block(0, &list), block(65535, &list)];
    assert_eq!(number_in(&second), 65535);
    assert_eq!(renumbered(second, 0), first);
    let damaged = [&second[..], &[0; 512], &second[..17]].concat();
    let report = [
        "block 0 renumbered 65535 to 0",
        "block 1 dropped 11",
        "17 stray bytes",
    ];
    assert_eq!(rescued(&damaged), Some((first.to_vec(), lines_of(&report))));
}

#[test]
fn entries_speak() {
    let all = [
        BlockRefusal::Sums,
        BlockRefusal::Layout,
        BlockRefusal::Record,
    ];
    let words = all.map(|why| RescueEntry::Dropped { place: 70_000, why }.to_string());
    let wanted = [10, 11, 12].map(|number| format!("block 70000 dropped {number}"));
    assert_eq!(words, wanted);
    let entry = RescueEntry::Renumbered {
        place: 65537,
        from: 7,
        to: 65535,
    };
    assert_eq!(entry.to_string(), "block 65537 renumbered 7 to 65535");
    for (bytes, line) in [(1, "1 stray bytes"), (511, "511 stray bytes")] {
        assert_eq!(RescueEntry::Stray { bytes }.to_string(), line);
    }
}

/// The entries themselves, as they come.
#[test]
fn entries_of_a_rescue() {
    let (bytes, _) = damaged();
    let wanted = [
        RescueEntry::Dropped {
            place: 1,
            why: BlockRefusal::Layout,
        },
        RescueEntry::Renumbered {
            place: 2,
            from: 2,
            to: 1,
        },
        RescueEntry::Dropped {
            place: 3,
            why: BlockRefusal::Record,
        },
        RescueEntry::Renumbered {
            place: 4,
            from: 4,
            to: 2,
        },
        RescueEntry::Renumbered {
            place: 5,
            from: 5,
            to: 3,
        },
        RescueEntry::Stray { bytes: 100 },
    ];
    assert_eq!(rescue(Cursor::new(bytes), io::sink()).unwrap(), wanted);
}

#[test]
fn errors_speak() {
    let system = || io::Error::new(ErrorKind::BrokenPipe, "no room");
    let all = [
        (
            RescueError::TooMany,
            "refused 9: more than 65536 blocks are to be kept",
        ),
        (
            RescueError::Changed,
            "the damaged narration changed while it was read",
        ),
        (
            RescueError::Read(system()),
            "reading the damaged narration: no room",
        ),
        (
            RescueError::Write(system()),
            "writing the mended narration: no room",
        ),
        (RescueError::Report(system()), "reporting: no room"),
    ];
    for (error, words) in all {
        let error: Box<dyn std::error::Error + Send + Sync> = Box::new(error);
        assert_eq!(error.to_string(), words);
    }
}
