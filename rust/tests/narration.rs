//! Whole narrations through `Writer` and `Reader`, compared with the gate's model (`common/narrations.rs`) of
//! docs/RULES.md, "Block files (C-11)": what is written and read back, refusals with their block and the
//! records before it, and readers and writers that give or take pieces or fail.
#![cfg(feature = "std")]

mod common;

use common::narrations::{block, file, record, records, sealed, Block, Bytes, BITS};
use common::streams::Pieces;
use common::{List, Record as Listed, BANDWIDTHS, DURATIONS};
use gillsextant::narration::{BlockRefusal, Error, Reader, Record, Writer};
use gillsextant::{Bandwidth, Duration, Refusal, SideData};
use std::io::{self, BufReader, BufWriter, ErrorKind, Read, Write};

/// How reading or writing ended, without an error of the system's.
type Ended = Result<(), (u64, u16)>;

/// A refusal's block and number.
fn refused(error: Error) -> (u64, u16) {
    match error {
        Error::Refused { block, why } => (block, why.number()),
        Error::Io(error) => panic!("{error}"),
    }
}

fn kind(error: Error) -> ErrorKind {
    match error {
        Error::Io(error) => error.kind(),
        refusal => panic!("{refusal}"),
    }
}

/// The records before the end or the error, and the error, after which nothing more may come.
fn read_to_error(bytes: impl Read) -> (Vec<Bytes>, Option<Error>) {
    let mut reader = Reader::new(bytes);
    let mut found = Vec::new();
    let mut error = None;
    for record in reader.by_ref() {
        assert!(error.is_none());
        match record {
            Ok(record) => found.push(record.to_bytes()),
            Err(why) => error = Some(why),
        }
    }
    for _ in 0..3 {
        assert!(reader.next().is_none());
    }
    (found, error)
}

fn read(bytes: impl Read) -> (Vec<Bytes>, Ended) {
    let (found, error) = read_to_error(bytes);
    (found, error.map_or(Ok(()), |error| Err(refused(error))))
}

/// Pushes records until an error comes.
fn push_to_error<W: Write>(writer: &mut Writer<W>, records: &[Bytes]) -> Result<(), Error> {
    for bytes in records {
        writer.push(&Record::from_bytes(bytes))?;
    }
    Ok(())
}

/// The bytes that a writer gives for records, and how it ended.
fn write(records: &[Bytes]) -> (Vec<u8>, Ended) {
    let mut bytes = Vec::new();
    let mut writer = Writer::new(&mut bytes);
    let pushed = push_to_error(&mut writer, records).map_err(refused);
    if let Err(why) = pushed {
        // The same again, for any record and at the end.
        for n in 0..50 {
            let again = writer.push(&Record::from_bytes(&record(n)));
            assert_eq!(again.map_err(refused), Err(why));
        }
        assert_eq!(writer.finish().map(|_| ()).map_err(refused), Err(why));
        return (bytes, Err(why));
    }
    let finished = writer.finish().map(|_| ()).map_err(refused);
    (bytes, finished)
}

/// Counts at every edge of a block.
const COUNTS: [usize; 9] = [0, 1, 19, 20, 21, 40, 41, 100, 119];

#[test]
fn written_and_read_back() {
    for count in COUNTS {
        let list = records(count);
        let bytes = file(&list);
        assert_eq!(bytes.len(), 512 * count.div_ceil(20));
        assert_eq!(write(&list), (bytes.clone(), Ok(())));
        assert_eq!(read(&bytes[..]), (list, Ok(())));
    }
}

/// The side data of all 168 spectra of the list, as the original encodes them.
#[test]
fn encoded_side_data_of_the_list() {
    let mut list = List::of("encode");
    let mut wanted = Vec::new();
    let mut writer = Writer::new(Vec::new());
    while list.more() {
        let listed = Listed::next(&mut list);
        let side = SideData {
            weighting: listed.side[0],
            filters: listed.side[1],
            orders: listed.side[2..4].try_into().unwrap(),
            indices: listed.side[4..].try_into().unwrap(),
        };
        let duration = DURATIONS[listed.duration as usize];
        let bandwidth = BANDWIDTHS[listed.bandwidth as usize];
        let record = Record::new(duration, bandwidth, side).unwrap();
        assert_eq!(Ok(record.bits), listed.answer);
        assert_eq!(record.side(), side);
        assert_eq!(Duration::try_from(record.duration), Ok(duration));
        assert_eq!(Bandwidth::try_from(record.bandwidth), Ok(bandwidth));
        writer.push(&record).unwrap();
        wanted.push(record);
    }
    let bytes = writer.finish().unwrap();
    let found: Result<Vec<_>, _> = Reader::new(&bytes[..]).collect();
    assert_eq!((found.unwrap(), wanted.len()), (wanted, 168));
}

/// The reader accepts any count in any block, also where a writer would have made other blocks.
#[test]
fn blocks_of_any_count() {
    let list = records(105);
    let (mut bytes, mut rest) = (Vec::new(), &list[..]);
    for (number, count) in [3, 20, 1, 19, 20, 2, 20, 20].into_iter().enumerate() {
        let (now, then) = rest.split_at(count);
        bytes.extend(block(number as u64, now));
        rest = then;
    }
    assert_eq!((rest.len(), bytes.len()), (0, 8 * 512));
    assert_ne!(file(&list), bytes);
    assert_eq!(read(&bytes[..]), (list, Ok(())));
}

/// The record and its 24 bytes, field by field.
#[test]
fn records_and_their_bytes() {
    let record = Record {
        duration: 1,
        bandwidth: 2,
        filters: 3,
        weighting: 4,
        orders: [5, 6],
        indices: std::array::from_fn(|n| 7 + n as u8),
        bits: 0x1817,
    };
    let bytes: Bytes = std::array::from_fn(|n| 1 + n as u8);
    assert_eq!(record.to_bytes(), bytes);
    assert_eq!(Record::from_bytes(&bytes), record);
    assert_eq!(Record::default().to_bytes(), [0; 24]);
    for n in 0..500 {
        let bytes = common::narrations::record(n);
        assert_eq!(Record::from_bytes(&bytes).to_bytes(), bytes);
    }
}

/// Records of side data: M2 (docs/RULES.md, "Marked cases"), and what the cost refuses.
#[test]
fn records_of_side_data() {
    let mut indices = [8; 16];
    indices[0] = 9;
    let side = SideData {
        weighting: 0,
        filters: 1,
        orders: [1, 0],
        indices,
    };
    let m2 = Record::new(Duration::TenMs, Bandwidth::NarrowBand, side).unwrap();
    let mut bytes = [8; 24];
    bytes[..7].copy_from_slice(&[0, 0, 1, 0, 1, 0, 9]);
    bytes[BITS..].copy_from_slice(&[13, 0]);
    assert_eq!(m2.to_bytes(), bytes);

    let of = |side| Record::new(Duration::SevenPointFiveMs, Bandwidth::FullBand, side);
    let last = of(side).unwrap();
    assert_eq!((last.duration, last.bandwidth), (1, 4));
    let filters = SideData { filters: 3, ..side };
    assert_eq!(of(filters), Err(Refusal::FilterCount));
    let orders = [1, 9];
    let order = Refusal::Order { place: 1, found: 9 };
    assert_eq!(of(SideData { orders, ..side }), Err(order));
    indices[15] = 17;
    let index = Refusal::Index {
        place: 15,
        found: 17,
    };
    assert_eq!(of(SideData { indices, ..side }), Err(index));
    let weighting = SideData {
        weighting: 2,
        ..side
    };
    assert_eq!(of(weighting), Err(Refusal::Weighting));
}

#[test]
fn codes_of_records() {
    for code in 0..=255 {
        let duration = DURATIONS.get(usize::from(code)).copied();
        assert_eq!(
            Duration::try_from(code),
            duration.ok_or(Refusal::Duration),
            "{code}"
        );
        let bandwidth = BANDWIDTHS.get(usize::from(code)).copied();
        assert_eq!(
            Bandwidth::try_from(code),
            bandwidth.ok_or(Refusal::Bandwidth),
            "{code}"
        );
    }
}

/// A file of five blocks, the last of them not full, and its records.
fn five_blocks() -> (Vec<Block>, Vec<Bytes>) {
    let list = records(93);
    let bytes = file(&list);
    let blocks = bytes.chunks(512).map(|bytes| bytes.try_into().unwrap());
    (blocks.collect(), list)
}

/// Faults of a block that leave its length: the refusal, and how it is made.
type Fault = (u16, fn(Block) -> Block);

fn with(block: Block, place: usize, byte: u8) -> Block {
    let mut block = block;
    block[place] = byte;
    block
}

const FAULTS: [Fault; 8] = [
    (10, |block| with(block, 100, block[100] ^ 4)),
    (10, |block| with(block, 511, block[511] ^ 1)),
    (11, |block| sealed(with(block, 0, block[0] ^ 8))),
    (11, |block| sealed(with(block, 2, 0))),
    (11, |block| sealed(with(block, 3, 2))),
    (11, |block| sealed(with(block, 507, 1))),
    (12, |block| sealed(with(block, 9, 5))),
    (12, |block| {
        sealed(with(block, 8 + BITS, block[8 + BITS] + 1))
    }),
];

/// Every fault in every block of five. The reader gives the records of the blocks before it, then the error
/// with its block, once, and no record of that block or of a later one.
#[test]
fn one_fault_in_each_block() {
    let (blocks, list) = five_blocks();
    for faulty in 0..5 {
        for (number, make) in FAULTS {
            let mut blocks = blocks.clone();
            blocks[faulty] = make(blocks[faulty]);
            let (found, ended) = read(&blocks.concat()[..]);
            assert_eq!(found, list[..20 * faulty]);
            assert_eq!(ended, Err((faulty as u64, number)));
        }
    }
}

/// A file that ends within a block, wherever.
#[test]
fn a_block_cut_short() {
    let (blocks, list) = five_blocks();
    let bytes = blocks.concat();
    for length in 0..bytes.len() {
        let whole = length / 512;
        let (found, ended) = read(&bytes[..length]);
        assert_eq!(found, list[..20 * whole]);
        let cut = length % 512 != 0;
        assert_eq!(ended, if cut { Err((whole as u64, 9)) } else { Ok(()) });
    }
    // Bytes behind the last block are one that is cut short, whatever they are.
    for (stray, byte) in [(1, 0), (1, 255), (511, 0)] {
        let mut bytes = bytes.clone();
        bytes.extend(vec![byte; stray]);
        assert_eq!(read(&bytes[..]), (list.clone(), Err((5, 9))));
    }
}

/// Faults in two blocks: the error is the first block's, whichever number is lower.
#[test]
fn faults_in_two_blocks() {
    let (blocks, list) = five_blocks();
    for (first, second) in [(0, 1), (0, 4), (2, 3), (3, 4)] {
        for (number, make) in FAULTS {
            for (_, make_other) in FAULTS {
                let mut blocks = blocks.clone();
                blocks[first] = make(blocks[first]);
                blocks[second] = make_other(blocks[second]);
                let mut bytes = blocks.concat();
                let wanted = (list[..20 * first].to_vec(), Err((first as u64, number)));
                assert_eq!(read(&bytes[..]), wanted);
                // And with the last block cut short as well.
                bytes.pop();
                if first < 4 {
                    assert_eq!(read(&bytes[..]), wanted);
                }
            }
        }
    }
}

/// One byte of a file changed, at every place: its block is refused, and the blocks before it remain.
#[test]
fn one_byte_of_a_file() {
    let (blocks, list) = five_blocks();
    let mut bytes = blocks.concat();
    for place in 0..bytes.len() {
        for difference in [1, 128] {
            bytes[place] ^= difference;
            let (found, ended) = read(&bytes[..]);
            assert_eq!(found, list[..20 * (place / 512)]);
            assert_eq!(ended, Err((place as u64 / 512, 10)));
            bytes[place] ^= difference;
        }
    }
    assert_eq!(read(&bytes[..]), (list, Ok(())));
}

/// Sound blocks that are not in their places.
#[test]
fn blocks_out_of_order() {
    let (blocks, list) = five_blocks();
    let of = |order: &[usize]| order.iter().flat_map(|n| blocks[*n]).collect::<Vec<u8>>();
    for (order, at) in [
        (&[1, 0, 2, 3, 4][..], 0),
        (&[1, 2, 3, 4], 0),
        (&[0, 2, 3, 4], 1),
        (&[0, 0, 1, 2, 3, 4], 1),
        (&[0, 1, 2, 3, 4, 4], 5),
    ] {
        let stands = list[..list.len().min(20 * at)].to_vec();
        assert_eq!(read(&of(order)[..]), (stands, Err((at as u64, 11))));
    }
    // Whole blocks that are missing at the end cannot be missed.
    assert_eq!(read(&of(&[0, 1, 2])[..]), (list[..60].to_vec(), Ok(())));
}

/// A record that is not sound, anywhere: nothing of its block is written, and all before it is.
#[test]
fn the_writer_refuses_a_block() {
    type Spoil = fn(&mut Bytes);
    let spoils: [Spoil; 4] = [
        |record| record[0] = 2,
        |record| record[5] = 9,
        |record| record[BITS] ^= 1,
        |record| record[BITS + 1] = 1,
    ];
    let list = records(93);
    for bad in [0, 1, 19, 20, 39, 45, 59, 79, 80, 92] {
        for spoil in spoils {
            let mut list = list.clone();
            spoil(&mut list[bad]);
            let before = bad / 20;
            let wanted = (file(&list[..20 * before]), Err((before as u64, 12)));
            assert_eq!(write(&list), wanted);
            // In two blocks: the error is the first's.
            spoil(&mut list[92]);
            list[92][1] = 255;
            assert_eq!(write(&list), wanted);
        }
    }
}

/// The error comes when the block is full, and not before.
#[test]
fn a_refusal_is_told_with_its_block() {
    let mut bytes = Vec::new();
    let mut writer = Writer::new(&mut bytes);
    let bad = Record {
        filters: 3,
        ..Record::default()
    };
    for _ in 0..19 {
        writer.push(&bad).unwrap();
    }
    assert_eq!(writer.push(&bad).map_err(refused), Err((0, 12)));
    assert_eq!(writer.finish().map(|_| ()).map_err(refused), Err((0, 12)));
    let mut writer = Writer::new(&mut bytes);
    writer.push(&bad).unwrap();
    assert_eq!(writer.finish().map(|_| ()).map_err(refused), Err((0, 12)));
    assert!(bytes.is_empty());
}

/// Without `finish` only the full blocks are written, as the documentation says.
#[test]
fn a_writer_that_is_dropped() {
    let list = records(59);
    let mut bytes = Vec::new();
    let mut writer = Writer::new(&mut bytes);
    push_to_error(&mut writer, &list).unwrap();
    drop(writer);
    assert_eq!(bytes, file(&list[..40]));
}

/// The 65,536th block is written and the next one refused. What else is refused there is tried of one block,
/// in `blocks.rs`.
#[test]
fn the_longest_file_is_written() {
    let list = records(20);
    let mut bytes = Vec::new();
    let mut writer = Writer::new(&mut bytes);
    for _ in 0..65536 {
        push_to_error(&mut writer, &list).unwrap();
    }
    push_to_error(&mut writer, &list[..19]).unwrap();
    let last = writer.push(&Record::from_bytes(&list[19]));
    assert_eq!(last.map_err(refused), Err((65536, 9)));
    let again = writer.push(&Record::from_bytes(&list[0]));
    assert_eq!(again.map_err(refused), Err((65536, 9)));
    let finished = writer.finish().map(|_| ());
    assert_eq!(finished.map_err(refused), Err((65536, 9)));
    assert!(bytes == file(&list.repeat(65536)));
}

/// The 65,536th block is read and the next one refused, though its sums and its records are right and it
/// has the number 0 again.
#[test]
fn the_longest_file_is_read() {
    let list = records(20);
    let (found, ended) = read(&file(&list.repeat(65537))[..]);
    assert!(found == list.repeat(65536));
    assert_eq!(ended, Err((65536, 9)));
}

const PIECES: [usize; 7] = [1, 7, 23, 511, 512, 513, 5000];

#[test]
fn in_pieces_and_interrupted() {
    for (count, length) in COUNTS
        .iter()
        .flat_map(|n| PIECES.map(|length| (*n, length)))
    {
        for interrupts in [false, true] {
            let list = records(count);
            let bytes = file(&list);
            let mut pieces = Pieces::of(&bytes, length);
            pieces.interrupts = interrupts;
            assert_eq!(read(pieces.clone()), (list.clone(), Ok(())));
            assert_eq!(read(BufReader::with_capacity(100, pieces)).0, list);

            let mut pieces = Pieces::of(&[], length);
            pieces.interrupts = interrupts;
            let mut writer = Writer::new(pieces);
            push_to_error(&mut writer, &list).unwrap();
            assert_eq!(writer.finish().unwrap().bytes, bytes);
        }
    }
}

/// A read that fails is no refusal, wherever it fails: between blocks or within one, of a sound file or of
/// one whose next block is faulty. The records before it are given.
#[test]
fn reads_that_fail() {
    let (blocks, list) = five_blocks();
    let mut faulty = blocks.clone();
    faulty[2] = [255; 512];
    for (blocks, length) in [(&blocks, 512), (&blocks, 100), (&faulty, 512)] {
        for place in [0, 1, 100, 511, 512, 513, 1000, 1024, 1500] {
            let mut pieces = Pieces::of(&blocks.concat(), length);
            pieces.fails_at = place;
            let (found, error) = read_to_error(pieces);
            assert_eq!(found, list[..20 * (place / 512)]);
            assert_eq!(kind(error.unwrap()), ErrorKind::PermissionDenied);
        }
    }
    // A refusal before that place is given as a refusal.
    let mut pieces = Pieces::of(&faulty.concat(), 512);
    pieces.fails_at = 1536;
    assert_eq!(read(pieces), (list[..40].to_vec(), Err((2, 10))));
}

/// A write that fails is no refusal. Every call after it fails and writes nothing.
#[test]
fn writes_that_fail() {
    let list = records(93);
    for place in [0, 1, 511, 512, 700, 1024, 2047, 2048, 2300, 2559] {
        let mut pieces = Pieces::of(&[], 300);
        pieces.fails_at = place;
        let mut writer = Writer::new(&mut pieces);
        let pushed = push_to_error(&mut writer, &list);
        // The last block is written at the end.
        assert_eq!(pushed.is_err(), place < 2048);
        if let Err(error) = pushed {
            assert_eq!(error.to_string(), "no more");
            assert_eq!(kind(error), ErrorKind::PermissionDenied);
            for n in 0..50 {
                let again = writer.push(&Record::from_bytes(&record(n))).unwrap_err();
                assert_eq!(again.to_string(), "an earlier block was not written");
                assert_eq!(kind(again), ErrorKind::PermissionDenied);
            }
        }
        let finished = writer.finish().map(|_| ()).map_err(kind);
        assert_eq!(finished, Err(ErrorKind::PermissionDenied));
        assert_eq!(pieces.bytes, file(&list)[..place]);
    }
}

/// A writer that is full takes nothing more and has no error of its own.
#[test]
fn a_full_writer() {
    let list = records(41);
    for room in [0, 511, 512, 1535] {
        let mut lent = vec![0; room];
        let mut writer = Writer::new(&mut lent[..]);
        let pushed = push_to_error(&mut writer, &list).map_err(kind);
        let finished = writer.finish().map(|_| ()).map_err(kind);
        let full = Err(ErrorKind::WriteZero);
        assert_eq!(
            (pushed, finished),
            (if room < 1024 { full } else { Ok(()) }, full)
        );
        assert_eq!(lent, file(&list)[..room]);
    }
    let mut lent = vec![0; 1536];
    let mut writer = Writer::new(&mut lent[..]);
    push_to_error(&mut writer, &list).unwrap();
    assert!(writer.finish().unwrap().is_empty());
    assert_eq!(lent, file(&list));
}

/// `finish` flushes: it empties a buffer, and gives the error if that fails.
#[test]
fn finish_flushes() {
    let list = records(41);
    let mut bytes = Vec::new();
    let mut writer = Writer::new(BufWriter::with_capacity(10_000, &mut bytes));
    push_to_error(&mut writer, &list).unwrap();
    // The buffer is not dropped, so nothing but the flush can have emptied it.
    let buffer = writer.finish().unwrap();
    assert_eq!(buffer.get_ref().len(), 1536);
    assert!(buffer.buffer().is_empty());
    drop(buffer);
    assert_eq!(bytes, file(&list));

    let mut pieces = Pieces::of(&[], 512);
    pieces.fails_at = 1500;
    let mut writer = Writer::new(BufWriter::with_capacity(10_000, pieces));
    push_to_error(&mut writer, &list).unwrap();
    let finished = writer.finish().map(|_| ()).map_err(kind);
    assert_eq!(finished, Err(ErrorKind::PermissionDenied));
}

/// An end is the end, also of bytes that grow afterwards: between blocks, and within one.
#[test]
fn an_end_is_the_end() {
    /// Parts with an end after each.
    struct Growing(Vec<Vec<u8>>);
    impl Read for Growing {
        fn read(&mut self, buffer: &mut [u8]) -> io::Result<usize> {
            let Some(part) = self.0.first_mut() else {
                return Ok(0);
            };
            let length = part.len().min(buffer.len());
            buffer[..length].copy_from_slice(&part[..length]);
            part.drain(..length);
            if length == 0 {
                self.0.remove(0);
            }
            Ok(length)
        }
    }
    let (blocks, list) = five_blocks();
    let bytes = blocks.concat();
    for cut in [0, 512, 1024, 1500] {
        let (now, later) = bytes.split_at(cut);
        let (found, ended) = read(Growing(vec![now.to_vec(), later.to_vec()]));
        assert_eq!(found, list[..20 * (cut / 512)]);
        assert_eq!(ended, if cut == 1500 { Err((2, 9)) } else { Ok(()) });
    }
}

/// A reader that claims more than it was asked for does not bring the crate down.
#[test]
fn a_reader_that_lies() {
    struct Liar;
    impl Read for Liar {
        fn read(&mut self, buffer: &mut [u8]) -> io::Result<usize> {
            Ok(buffer.len() + 1)
        }
    }
    assert_eq!(read(Liar), (vec![], Err((0, 11))));
}

/// A reader or writer that panics ends the narration: what it was at is not known.
#[test]
fn panics_end_it() {
    struct Panics(bool);
    impl Read for Panics {
        fn read(&mut self, _: &mut [u8]) -> io::Result<usize> {
            assert!(std::mem::replace(&mut self.0, true), "on purpose");
            Ok(0)
        }
    }
    impl Write for Panics {
        fn write(&mut self, bytes: &[u8]) -> io::Result<usize> {
            assert!(std::mem::replace(&mut self.0, true), "on purpose");
            Ok(bytes.len())
        }
        fn flush(&mut self) -> io::Result<()> {
            Ok(())
        }
    }
    let caught = |call: &mut dyn FnMut()| {
        assert!(std::panic::catch_unwind(std::panic::AssertUnwindSafe(call)).is_err());
    };
    let mut reader = Reader::new(Panics(false));
    caught(&mut || drop(reader.next()));
    assert!(reader.next().is_none());

    let mut writer = Writer::new(Panics(false));
    caught(&mut || drop(push_to_error(&mut writer, &records(20))));
    let again = writer.push(&Record::default()).map_err(kind);
    assert_eq!(again, Err(ErrorKind::Other));
    assert_eq!(
        writer.finish().map(|_| ()).map_err(kind),
        Err(ErrorKind::Other)
    );
}

#[test]
fn errors_speak() {
    let error = Error::Refused {
        block: 3,
        why: BlockRefusal::Record,
    };
    let error: Box<dyn std::error::Error + Send + Sync> = Box::new(error);
    assert_eq!(
        error.to_string(),
        "refused 12 at block 3: a record breaks a limit or its bits are not its cost"
    );
    let error = Error::Io(io::Error::new(ErrorKind::BrokenPipe, "no room"));
    assert_eq!(error.to_string(), "no room");
}

/// A narration may be written and read by another thread than the one that began it.
#[test]
fn it_can_be_sent() {
    fn sent<T: Send + Sync>(_: &T) {}
    sent(&Writer::new(Vec::new()));
    sent(&Reader::new(&[0][..]));
}
