//! One block of a narration at a time, compared with the gate's model (`common/narrations.rs`) of docs/RULES.md,
//! "Block files (C-11)" and "Rescue (C-16)". Every call is made through the export, as C makes it, and through
//! the crate. Both must answer and write what the model says. The tests know for every byte of a buffer whether
//! the call wrote it.

mod common;

use common::narrations::{
    block, file, number_in, priced, records, records_from, renumbered, sealed, sums, verdict,
    with_bits, with_sums, Block, Bytes, BITS, INDICES, ORDERS,
};
use common::{List, Record as Listed};
use gillsextant::narration::{read_block, rescue_block, write_block, BlockRefusal};

/// The exports as the crate declares them.
#[allow(dead_code)] // three of them are called here
#[path = "../src/exports.rs"]
mod exports;

/// What a call answers, its number or its refusal, and every byte that it leaves in its buffer: `None` where it
/// writes nothing.
type Left = (Result<u16, u16>, Vec<Option<u8>>);

/// A call that writes to N bytes in the middle of others. It is made twice, with other bytes there: one
/// that is written becomes the same both times.
fn left<const N: usize>(call: impl Fn(&mut [u8; N]) -> Result<u16, u16>) -> Left {
    const AROUND: usize = 64;
    let [(answer, first), (again, second)] = [0xa5, 0x5a].map(|mark| {
        let mut lent = vec![mark; AROUND + N + AROUND];
        let answer = call((&mut lent[AROUND..][..N]).try_into().unwrap());
        let inside = lent.drain(AROUND..AROUND + N).collect::<Vec<u8>>();
        assert_eq!(lent, [mark; 2 * AROUND]);
        (answer, inside)
    });
    assert_eq!(answer, again);
    let written = first.into_iter().zip(second).map(|pair| match pair {
        (0xa5, 0x5a) => None,
        (one, other) => {
            assert_eq!(one, other);
            Some(one)
        }
    });
    (answer, written.collect())
}

fn answer_of(answer: exports::BlockAnswer) -> Result<u16, u16> {
    match answer.refusal {
        0 => Ok(answer.records),
        number => {
            assert_eq!(answer.records, 0);
            Err(number)
        }
    }
}

fn answer_of_crate(answer: Result<usize, BlockRefusal>) -> Result<u16, u16> {
    let records = answer.map(|records| records.try_into().unwrap());
    records.map_err(BlockRefusal::number)
}

/// What a call must leave that says this: its number with the bytes that it writes, or its refusal.
fn wanted(lent: usize, said: Result<(u16, Vec<u8>), u16>) -> Left {
    let (answer, bytes) = match said {
        Ok((number, bytes)) => (Ok(number), bytes),
        Err(refusal) => (Err(refusal), vec![]),
    };
    let mut written: Vec<_> = bytes.into_iter().map(Some).collect();
    written.resize(lent, None);
    (answer, written)
}

fn write(number: u64, records: &[u8]) -> Left {
    let lent = records.to_vec();
    // Sound: each pointer is good for its length, and no two overlap.
    let by_export = left(|block| {
        answer_of(unsafe { exports::tns_block_write(number, lent.as_ptr(), lent.len(), block) })
    });
    assert_eq!(lent, records);
    let by_crate = left(|block| answer_of_crate(write_block(number, records, block)));
    assert_eq!(by_export, by_crate);
    assert_eq!(by_export, wanted(512, verdict('w', number, records)));
    by_export
}

fn read(number: u64, block: &[u8]) -> Left {
    let lent = block.to_vec();
    // Sound as above.
    let by_export = left(|records| {
        answer_of(unsafe { exports::tns_block_read(number, lent.as_ptr(), lent.len(), records) })
    });
    assert_eq!(lent, block);
    let by_crate = left(|records| answer_of_crate(read_block(number, block, records)));
    assert_eq!(by_export, by_crate);
    assert_eq!(by_export, wanted(480, verdict('r', number, block)));
    by_export
}

fn rescue(number: u64, bytes: &[u8]) -> Left {
    let lent = bytes.to_vec();
    // Sound as above.
    let by_export = left(|block| {
        let answer = unsafe { exports::tns_block_rescue(number, lent.as_ptr(), lent.len(), block) };
        match answer.refusal {
            0 => Ok(answer.number),
            number => {
                assert_eq!(answer.number, 0);
                Err(number)
            }
        }
    });
    assert_eq!(lent, bytes);
    let by_crate = left(|block| rescue_block(number, bytes, block).map_err(BlockRefusal::number));
    assert_eq!(by_export, by_crate);
    assert_eq!(by_export, wanted(512, verdict('m', number, bytes)));
    by_export
}

/// The call writes the model's block, all of it, and answers how many records it took.
fn assert_written(number: u64, bytes: &[u8], taken: &[Bytes]) {
    let made = block(number, taken).to_vec();
    let found = write(number, bytes);
    assert_eq!(found, wanted(512, Ok((taken.len() as u16, made))));
}

/// The call gives these records and leaves the rest of the buffer.
fn assert_read(number: u64, bytes: &[u8], list: &[Bytes]) {
    let found = read(number, bytes);
    assert_eq!(found, wanted(480, Ok((list.len() as u16, list.concat()))));
}

fn assert_not_written(number: u64, bytes: &[u8], refusal: u16) {
    assert_eq!(write(number, bytes), wanted(512, Err(refusal)));
}

fn assert_not_read(number: u64, bytes: &[u8], refusal: u16) {
    assert_eq!(read(number, bytes), wanted(480, Err(refusal)));
}

/// The call answers the old number and writes this block, all of it.
fn assert_rescued(number: u64, bytes: &[u8], stood: u16, kept: Block) {
    let found = rescue(number, bytes);
    assert_eq!(found, wanted(512, Ok((stood, kept.to_vec()))));
}

fn assert_not_rescued(number: u64, bytes: &[u8], refusal: u16) {
    assert_eq!(rescue(number, bytes), wanted(512, Err(refusal)));
}

/// One record is written, read and rescued, or refused with 12 by all three calls.
fn assert_sound(record: &Bytes, wanted: bool) {
    let one = block(7, &[*record]);
    if wanted {
        assert_written(7, record, &[*record]);
        assert_read(7, &one, &[*record]);
        assert_rescued(300, &one, 7, block(300, &[*record]));
    } else {
        assert_not_written(7, record, 12);
        assert_not_read(7, &one, 12);
        assert_not_rescued(300, &one, 12);
    }
}

const NUMBERS: [u64; 6] = [0, 1, 255, 256, 65534, 65535];

#[test]
fn every_count_is_written_and_read_back() {
    for number in NUMBERS {
        for count in 1..=20 {
            let list = records_from(number as usize, count);
            assert_written(number, &list.concat(), &list);
            assert_read(number, &block(number, &list), &list);
        }
    }
}

/// An empty list makes no block, and length 0 is the end of a file, also after the last block.
#[test]
fn nothing_is_nothing() {
    for number in [0, 1, 65535, 65536, u64::MAX] {
        assert_eq!(write(number, &[]), (Ok(0), vec![None; 512]));
        assert_eq!(read(number, &[]), (Ok(0), vec![None; 480]));
    }
}

/// Of more than 20 records or 512 bytes, only the first 20 or 512 are read.
#[test]
fn longer_slices() {
    let list = records(41);
    let mut bytes = list.concat();
    for length in [480, 481, 503, 504, 960, 984] {
        assert_written(3, &bytes[..length], &list[..20]);
    }
    bytes[480..].fill(255);
    assert_written(3, &bytes, &list[..20]);
    let mut bytes = block(3, &list[..19]).to_vec();
    for more in [1, 511, 512, 1000] {
        bytes.resize(512 + more, 255);
        assert_read(3, &bytes, &list[..19]);
    }
}

/// A last record that is cut short is refused, and every block that is.
#[test]
fn shorter_slices() {
    let list = records(20);
    let bytes = list.concat();
    for length in 1..=480 {
        if length % 24 == 0 {
            assert_written(0, &bytes[..length], &list[..length / 24]);
        } else {
            assert_not_written(0, &bytes[..length], 12);
        }
    }
    for list in [&list[..1], &list] {
        let bytes = block(65535, list);
        for length in 1..512 {
            assert_not_read(65535, &bytes[..length], 9);
        }
    }
}

/// A file has 65,536 blocks. The numbers behind them are refused, also those that would be a block's if
/// they were cut to two bytes or to four, and whatever part of a record or of a block is there.
#[test]
fn numbers_past_the_last() {
    let list = records(20);
    let bytes = list.concat();
    for number in NUMBERS {
        for past in [1 << 16, 2 << 16, 1 << 32, 1 << 63, u64::MAX - 65535] {
            assert_not_written(number + past, &bytes, 9);
            assert_not_read(number + past, &block(number, &list), 9);
        }
    }
    for number in [65536, u64::MAX] {
        for length in [1, 23, 24, 479, 480, 481] {
            assert_not_written(number, &[0; 481][..length], 9);
            assert_not_written(number, &[255; 481][..length], 9);
        }
        for length in [1, 511, 512, 513] {
            assert_not_read(number, &[0; 513][..length], 9);
            assert_not_read(number, &[255; 513][..length], 9);
        }
    }
}

/// Right sums are accepted whatever the bytes are: other faults give other numbers. Large bytes bring both
/// sums past 65521 many times.
#[test]
fn sums_of_any_bytes() {
    for value in 0..=255 {
        let full = sealed([value; 512]);
        assert_not_read(0, &full, 11);
        let other = sums(&full).map(|sum| (sum + 1) % 65521);
        assert_not_read(0, &with_sums(full, other), 10);
    }
    let mut full = [255; 512];
    for place in 0..508 {
        full[place] = 254;
        assert_not_read(65535, &sealed(full), 11);
    }
}

/// Other sums are refused, those that a mistaken formula gives among them.
#[test]
fn other_sums() {
    let list = records(20);
    let right = block(0xfffe, &list);
    assert_read(0xfffe, &right, &list);
    let [plain, weighted] = sums(&right);
    let by = |weight: fn(u64) -> u64, modulus: u64| {
        let bytes = right[..508].iter().enumerate();
        bytes.fold(0, |sum, (place, byte)| {
            sum + weight(place as u64) * u64::from(*byte)
        }) % modulus
    };
    assert_eq!([by(|_| 1, 65521), by(|n| 508 - n, 65521)], sums(&right));
    let wrong = [
        [weighted, plain],
        [plain, by(|n| 508 - n, 65536)],
        [plain, by(|n| 507 - n, 65521)],
        [plain, by(|n| 509 - n, 65521)],
        [plain, by(|n| n, 65521)],
        [plain, by(|n| n + 1, 65521)],
        [plain + 1, weighted],
        [plain, weighted + 1],
        [plain - 1, weighted],
        [plain, weighted - 1],
        [plain + 1, weighted + 1],
        [0, 0],
        [plain.swap_bytes() >> 48, weighted.swap_bytes() >> 48],
    ];
    for sums in wrong {
        assert_ne!(sums, [plain, weighted]);
        assert_not_read(0xfffe, &with_sums(right, sums), 10);
    }
    // The same number modulo 65521 is not the same number.
    let mut small = [0; 512];
    small[..4].copy_from_slice(&[0, 0, 1, 1]);
    let [plain, weighted] = sums(&small);
    assert_read(0, &with_sums(small, [plain, weighted]), &[[0; 24]]);
    assert_not_read(0, &with_sums(small, [plain + 65521, weighted]), 10);
    assert_not_read(0, &with_sums(small, [plain, weighted + 65521]), 10);
}

/// Every other value of every byte of a block, the sums as they were: always refusal 10.
#[test]
fn every_changed_byte_is_noticed() {
    let mut untouched = [0; 480];
    for (number, count) in [(0, 1), (259, 7), (65535, 20)] {
        let right = block(number, &records(count));
        for place in 0..512 {
            let mut changed = right;
            for difference in 1..=255 {
                changed[place] = right[place] ^ difference;
                let answer = read_block(number, &changed, &mut untouched);
                assert_eq!(answer, Err(BlockRefusal::Sums), "place {place}");
            }
        }
    }
    assert_eq!(untouched, [0; 480]);
}

/// Every other value of every byte of the header, with right sums: refusal 11. Another count is one of two
/// things. Lower, it makes fill of a record, which is not zero. Higher, it makes records of the fill: all
/// zeros are no filter and no bits, which is sound.
#[test]
fn every_header_byte() {
    let list = records(7);
    let right = block(0x0203, &list);
    for place in 0..8 {
        for value in (0..=255).filter(|value| *value != right[place]) {
            let mut changed = right;
            changed[place] = value;
            let changed = sealed(changed);
            if place == 2 && (8..=20).contains(&value) {
                let mut more = list.clone();
                more.resize(value.into(), [0; 24]);
                assert_read(0x0203, &changed, &more);
            } else {
                assert_not_read(0x0203, &changed, 11);
            }
        }
    }
    // A full block, and a sound one where another is asked for.
    let mut full = block(0, &records(20));
    full[2] = 21;
    assert_not_read(0, &sealed(full), 11);
    let sound = block(256, &list);
    for number in [0, 1, 255, 257, 512, 65535] {
        assert_not_read(number, &sound, 11);
    }
}

/// Every byte of the fill, behind one record, behind 19 and behind 20, with right sums.
#[test]
fn every_fill_byte() {
    for count in [1, 19, 20] {
        let right = block(0, &records(count));
        for place in 8 + 24 * count..508 {
            for value in [1, 8, 128, 255] {
                let mut changed = right;
                changed[place] = value;
                assert_not_read(0, &sealed(changed), 11);
            }
        }
    }
}

/// The limit of each of a record's first 22 bytes.
fn limit(place: usize) -> u8 {
    match place {
        0 | 3 => 1,
        1 => 4,
        2 => 2,
        ORDERS..INDICES => 8,
        _ => 16,
    }
}

/// Every byte of a record at its limit and past it. Where no filter is counted nothing costs a bit, so
/// nothing but the limit decides.
#[test]
fn limits_of_what_is_not_counted() {
    assert_sound(&[0; 24], true);
    for place in (0..BITS).filter(|place| *place != 2) {
        for value in 0..=255 {
            let mut record = [0; 24];
            record[place] = value;
            assert_sound(&record, value <= limit(place));
        }
    }
    let mut all: Bytes = std::array::from_fn(|place| limit(place.min(BITS - 1)));
    all[2] = 0;
    assert_sound(&with_bits(all, 0), true);
}

/// The same in records with two filters that have all orders and the dearest indices: 168 bits.
#[test]
fn limits_of_what_is_counted() {
    let mut dearest = with_bits([0; 24], 168);
    dearest[..INDICES].copy_from_slice(&[1, 4, 2, 1, 8, 8]);
    assert_sound(&dearest, true);
    for place in 0..BITS {
        // Past the limit no bits are right.
        for bits in (0..=255).chain([256, 424, 65535]) {
            let mut record = with_bits(dearest, bits);
            for value in [limit(place) + 1, 255] {
                record[place] = value;
                assert_not_written(0, &record, 12);
            }
        }
        let mut record = dearest;
        record[place] = limit(place) + 1;
        assert_sound(&record, false);
    }
    // At the limit the bits are the cost, and so for every index.
    for (place, index) in (INDICES..BITS).flat_map(|place| (0..=16).map(move |n| (place, n))) {
        let mut record = dearest;
        record[place] = index;
        let (orders, indices) = (&record[ORDERS..INDICES], &record[INDICES..BITS]);
        let bits = gillsextant::cost(1, 2, orders, indices).unwrap();
        assert_eq!(with_bits(record, bits), priced(record));
        assert_sound(&with_bits(record, bits), true);
        assert_sound(&with_bits(record, bits + 1), false);
    }
}

/// Of all bits that a record can claim, only its cost is accepted. One more or less is refused, and so is a
/// number with the right low byte.
#[test]
fn bits_are_the_cost() {
    // M1 to M5 and M14 (docs/RULES.md, "Marked cases") and two more: weighting, filters, order, first two
    // indices, the others, bits.
    let marked = [
        ([0, 1, 0, 8, 8, 8], 1),
        ([0, 1, 1, 9, 8, 8], 13),
        ([1, 1, 1, 0, 8, 8], 18),
        ([0, 1, 2, 7, 9, 8], 14),
        ([1, 1, 8, 0, 0, 0], 84),
        ([1, 0, 1, 0, 8, 8], 0),
        ([1, 1, 1, 9, 8, 8], 10),
        ([1, 1, 1, 10, 8, 8], 11),
    ];
    let mut block = [0; 512];
    for ([weighting, filters, order, first, second, others], cost) in marked {
        let mut record = [others; 24];
        record[..8].copy_from_slice(&[1, 4, filters, weighting, order, 0, first, second]);
        assert_eq!(with_bits(record, cost), priced(record));
        assert_sound(&with_bits(record, cost), true);
        assert_sound(&with_bits(record, cost + 1), false);
        assert_sound(&with_bits(record, cost.wrapping_sub(1)), false);
        assert_sound(&with_bits(record, cost + 256), false);
        for bits in 0..=65535 {
            let taken = write_block(0, &with_bits(record, bits), &mut block);
            assert_eq!(taken.is_ok(), bits == cost);
        }
    }
}

/// All 4000 costs of the list, which are the original's: with its bits a record is sound, with others it is
/// not, and what the cost refuses is refused here too.
#[test]
fn costs_of_the_list() {
    let mut list = List::of("cost");
    let [mut sound, mut refused] = [0; 2];
    let mut block = [0; 512];
    let mut takes = |record: Bytes| match write_block(9, &record, &mut block) {
        Ok(1) => verdict('r', 9, &block) == Ok((1, record.to_vec())),
        Err(BlockRefusal::Record) => false,
        other => panic!("{other:?}"),
    };
    while list.more() {
        let listed = Listed::next(&mut list);
        if (listed.orders.len(), listed.indices.len()) != (2, 16) {
            continue; // no record can say so
        }
        let mut record = [0; 24];
        record[2..4].copy_from_slice(&[listed.filters, listed.choice]);
        record[ORDERS..INDICES].copy_from_slice(&listed.orders);
        record[INDICES..BITS].copy_from_slice(&listed.indices);
        match listed.answer {
            Ok(bits) => {
                sound += 1;
                assert!(takes(with_bits(record, bits)));
                assert!(!takes(with_bits(record, bits + 1)));
                assert!(!takes(with_bits(record, bits.wrapping_sub(1))));
            }
            Err(_) => {
                refused += 1;
                assert!(!takes(record));
            }
        }
    }
    assert_eq!((sound, refused), (4000, 0));
}

/// One bad record, at the first place, in the middle and at the last, refuses the block both ways.
#[test]
fn a_bad_record_anywhere() {
    for (count, bad) in [(1, 0), (2, 1), (20, 0), (20, 10), (20, 19)] {
        let right = records(count);
        for (place, byte) in [(0, 2), (1, 5), (5, 9), (INDICES, 17), (BITS - 1, 17)] {
            let mut list = right.clone();
            list[bad][place] = byte;
            assert_not_written(5, &list.concat(), 12);
            assert_not_read(5, &block(5, &list), 12);
        }
        let mut list = right.clone();
        list[bad][BITS] ^= 1;
        assert_not_written(5, &list.concat(), 12);
        assert_not_read(5, &block(5, &list), 12);
    }
    // The records after the first 20 are not read.
    let mut list = records(21);
    list[20][1] = 5;
    assert_written(5, &list.concat(), &list[..20]);
}

/// A fault of a block: its number, and how it is made. Faults of 12 and 11 are made before the sums are,
/// those of 10 after them, and a block is cut last.
type Fault = (u16, fn(&mut Block));

const FAULTS: [Fault; 11] = [
    (12, |block| block[9] = 5),
    (12, |block| block[8 + 24 * 6 + BITS] += 1),
    (11, |block| block[0] ^= 1),
    (11, |block| block[1] ^= 1),
    (11, |block| block[2] = 21),
    (11, |block| block[3] = 2),
    (11, |block| block[6] = 1),
    (11, |block| block[507] = 1),
    (10, |block| block[508] ^= 1),
    (10, |block| block[511] ^= 128),
    (9, |_| {}), // the last byte is missing
];

/// The block 0x0101 with these faults.
fn faulty(faults: &[Fault]) -> Vec<u8> {
    let numbers = |number| faults.iter().filter(move |fault| fault.0 == number);
    let mut bytes = block(0x0101, &records(7));
    for (_, make) in numbers(12).chain(numbers(11)) {
        make(&mut bytes);
    }
    bytes = sealed(bytes);
    for (_, make) in numbers(10) {
        make(&mut bytes);
    }
    bytes[..512 - numbers(9).count()].to_vec()
}

/// Every set of faults in one block is refused by the lowest: each fault alone, each pair, and all. And
/// with a number past the last, by 9.
#[test]
fn the_lowest_refusal() {
    let mut pairs = 0;
    for set in 1u32..1 << FAULTS.len() {
        let has = |place: &usize| set >> place & 1 == 1;
        let faults: Vec<Fault> = (0..FAULTS.len()).filter(has).map(|n| FAULTS[n]).collect();
        let bytes = faulty(&faults);
        let lowest = faults.iter().map(|fault| fault.0).min().unwrap();
        assert_not_read(0x0101, &bytes, lowest);
        assert_not_read(0x10101, &bytes, 9);
        pairs += usize::from(faults.len() == 2);
    }
    assert_eq!(pairs, 55);
    // Of what is written: the number before the records, and these however they are wrong.
    let mut list = records(20);
    list[3][2] = 3;
    assert_not_written(65535, &list.concat(), 12);
    assert_not_written(65535, &list.concat()[..479], 12);
    assert_not_written(65536, &list.concat(), 9);
    assert_not_written(65536, &list.concat()[..479], 9);
    assert_not_written(65536, &records(1)[0][..23], 9);
}

/// A block is kept whatever its old number and its new one, and the call answers the old one. Only the number
/// and the sums change.
#[test]
fn every_count_is_rescued() {
    for (number, stood) in NUMBERS
        .iter()
        .flat_map(|n| NUMBERS.map(|stood| (*n, stood)))
    {
        for count in 1..=20 {
            let list = records_from(number as usize, count);
            let bytes = block(stood, &list);
            assert_rescued(number, &bytes, stood as u16, block(number, &list));
        }
    }
}

/// The same for all numbers: the second sum passes 65521 again and again as they grow.
#[test]
fn every_number_is_rescued() {
    let list = records(20);
    let (first, last) = (block(0, &list), block(65535, &list));
    let numbered = file(&list.repeat(65536));
    let mut found = [0; 512];
    for (number, numbered) in (0..=65535).zip(numbered.chunks(512)) {
        assert_eq!(rescue_block(number.into(), &last, &mut found), Ok(65535));
        assert_eq!(found, numbered);
        assert_eq!(rescue_block(0, numbered, &mut found), Ok(number));
        assert_eq!(found, first);
    }
    assert_eq!(numbered.len(), 65536 * 512);
}

/// Fewer than 512 bytes, also 0, are refused whatever the number. Of more than 512 only the first 512 are read.
#[test]
fn slices_that_are_rescued() {
    let list = records(19);
    let mut bytes = block(3, &list).to_vec();
    for number in [0, 3, 65535, 65536, u64::MAX] {
        for length in 0..512 {
            assert_not_rescued(number, &bytes[..length], 9);
        }
    }
    for more in [0, 1, 511, 512, 1000] {
        bytes.resize(512 + more, 255);
        assert_rescued(2, &bytes, 3, block(2, &list));
    }
    bytes[0] ^= 1;
    assert_not_rescued(2, &bytes, 10);
}

/// A hole of zeros has right sums: they are 0. So have any equal bytes that are sealed.
#[test]
fn holes_are_not_rescued() {
    assert_eq!(sums(&[0; 512]), [0, 0]);
    assert_not_rescued(0, &[0; 512], 11);
    for value in 1..=255 {
        assert_not_rescued(0, &sealed([value; 512]), 11);
        assert_not_rescued(0, &[value; 512], 10);
    }
}

/// Every other value of every byte of a block, those of its number among them, the sums as they were.
#[test]
fn no_changed_byte_is_rescued() {
    let mut untouched = [0xa5; 512];
    for (number, count) in [(0, 1), (259, 7), (65535, 20)] {
        let right = block(number, &records(count));
        for place in 0..512 {
            let mut changed = right;
            for difference in 1..=255 {
                changed[place] = right[place] ^ difference;
                let answer = rescue_block(number, &changed, &mut untouched);
                assert_eq!(answer, Err(BlockRefusal::Sums), "place {place}");
            }
        }
    }
    assert_eq!(untouched, [0xa5; 512]);
}

/// Every other value of every byte of the header, with right sums. Another number is no fault, and neither is
/// a count that makes records of zeros. Then every byte of the fill.
#[test]
fn headers_and_fills_that_are_rescued() {
    let list = records(7);
    let right = block(0x0203, &list);
    for place in 0..8 {
        for value in (0..=255).filter(|value| *value != right[place]) {
            let mut changed = right;
            changed[place] = value;
            let changed = sealed(changed);
            let stood = number_in(&changed);
            if place < 2 {
                assert_rescued(9, &changed, stood, block(9, &list));
            } else if place == 2 && (8..=20).contains(&value) {
                let mut more = list.clone();
                more.resize(value.into(), [0; 24]);
                assert_rescued(9, &changed, stood, block(9, &more));
            } else {
                assert_not_rescued(9, &changed, 11);
            }
        }
    }
    for place in 8 + 24 * 7..508 {
        for value in [1, 8, 128, 255] {
            let mut changed = right;
            changed[place] = value;
            assert_not_rescued(9, &sealed(changed), 11);
        }
    }
}

/// Every set of faults in one block is refused with the lowest, as in a read, except that another number in the
/// block is no fault. A call with a number over 65,535 is refused for it only if the block is sound; otherwise
/// the fault is given. Fewer than 512 bytes come first.
#[test]
fn the_first_fault() {
    let mut met = [0; 4];
    for set in 0u32..1 << FAULTS.len() {
        let has = |place: &usize| set >> place & 1 == 1;
        let faults: Vec<Fault> = (0..FAULTS.len()).filter(has).map(|n| FAULTS[n]).collect();
        let bytes = faulty(&faults);
        let stood = number_in(&bytes);
        let is_number = |place: usize| (2..=3).contains(&place);
        let others = (0..FAULTS.len()).filter(|place| has(place) && !is_number(*place));
        match others.map(|place| FAULTS[place].0).min() {
            Some(lowest) => {
                met[lowest as usize - 9] += 1;
                for number in [0, 0x0101, 65535, 65536, 0x10101, u64::MAX] {
                    assert_not_rescued(number, &bytes, lowest);
                }
            }
            None => {
                let wanted = block(0x0101, &records(7));
                assert_rescued(0x0101, &bytes, stood, wanted);
                assert_rescued(65535, &bytes, stood, renumbered(wanted, 65535));
                for number in NUMBERS {
                    for past in [1 << 16, 2 << 16, 1 << 32, 1 << 63, u64::MAX - 65535] {
                        assert_not_rescued(number + past, &bytes, 9);
                    }
                }
            }
        }
    }
    // The sets of the nine other faults, each with all four of the number's two.
    assert_eq!(met, [256, 192, 60, 3].map(|sets| 4 * sets));
}

/// Damage of every kind, drawn at random and the same in every run: some bytes changed, near their values
/// or far, with the sums made right again or not, asked for by its number or another, whole or cut. Then
/// the same bytes are rescued.
#[test]
fn random_damage() {
    let mut state = 0x9e37_79b9_7f4a_7c15_u64;
    let mut below = |bound: u64| {
        state ^= state << 13;
        state ^= state >> 7;
        state ^= state << 17;
        (state >> 11) % bound
    };
    let [mut met, mut met_by_rescue] = [[0; 5]; 2];
    for round in 0..6000 {
        let number = NUMBERS[below(6) as usize];
        let list = records_from(below(1000) as usize, 1 + below(20) as usize);
        let mut bytes = block(number, &list);
        for _ in 0..below(4) {
            let place = [below(512), below(8), 8 + below(24 * list.len() as u64)];
            let place = place[below(3) as usize] as usize;
            bytes[place] = match below(3) {
                0 => bytes[place].wrapping_add(1),
                1 => bytes[place].wrapping_sub(1),
                _ => below(256) as u8,
            };
        }
        if below(8) > 0 {
            bytes = sealed(bytes);
        }
        let number = if below(16) == 0 { number ^ 1 } else { number };
        let length = if below(16) == 0 { below(512) } else { 512 };
        let bytes = &bytes[..length as usize];
        println!("round {round}");
        let count = |answer: Result<u16, u16>| answer.map_or_else(|why| why as usize - 8, |_| 0);
        met[count(read(number, bytes).0)] += 1;
        let past = [0, 0, 0, 65536, 1 << 32][below(5) as usize];
        let number = past + NUMBERS[below(6) as usize];
        met_by_rescue[count(rescue(number, bytes).0)] += 1;
    }
    for met in [met, met_by_rescue] {
        assert!(met.iter().all(|count| *count > 200), "{met:?}");
    }
}

/// The model's own records are what they are meant to be, and many, of every row and number of filters.
#[test]
fn the_model_has_many_records() {
    let list = records(1000);
    for some in list.chunks(20) {
        let read = verdict('r', 0, &block(0, some));
        assert_eq!(read, Ok((20, some.concat())));
    }
    let kinds = |length| {
        let starts = list.iter().map(|record| &record[..length]);
        starts.collect::<std::collections::BTreeSet<_>>().len()
    };
    assert_eq!(kinds(4), 2 * 5 * 3 * 2);
    assert!(kinds(24) > 500, "{}", kinds(24));
}

#[test]
fn four_refusals_speak() {
    let all = [
        (BlockRefusal::Length, 9),
        (BlockRefusal::Sums, 10),
        (BlockRefusal::Layout, 11),
        (BlockRefusal::Record, 12),
    ];
    for (why, number) in all {
        assert_eq!(why.number(), number);
    }
    let words: Vec<String> = all.iter().map(|(why, _)| why.to_string()).collect();
    assert_eq!(
        words,
        [
            "the block is cut short or its number is over 65535",
            "the sums are not those of the bytes",
            "the header, the number or the fill is wrong",
            "a record breaks a limit or its bits are not its cost",
        ]
    );
    let _: Box<dyn std::error::Error> = Box::new(BlockRefusal::Sums);
}
