//! Merging: the table written, both shifts, every refusal and the order among them.

mod common;
use common::*;
use second::api::*;
use second::{check, judge, merge, name};

/// The merge that is done, its shifts as told, and only the table's bytes written.
fn merged(first: &[u8], second: &[u8], little: bool, shifts: (u32, u32)) -> Vec<u8> {
    let mut out = vec![FILL; 80_000];
    match merge(first, second, little, &mut out) {
        MergeAnswer::Done { length, record_shift, pool_shift } => {
            assert_eq!((record_shift, pool_shift), shifts);
            assert!(out[length as usize..].iter().all(|byte| *byte == FILL));
            out.truncate(length as usize);
            assert_eq!(check(&out), CheckAnswer::Passed);
            out
        }
        refused => panic!("{refused:?}"),
    }
}

/// The merge is refused so, and the buffer stays.
fn refused_merge(first: &[u8], second: &[u8], room: usize, number: u32, place: u64, table: u32) {
    let mut out = vec![FILL; room];
    for little in [false, true] {
        assert_eq!(merge(first, second, little, &mut out), MergeAnswer::Refused { number, place, table });
    }
    assert!(out.iter().all(|byte| *byte == FILL));
}

#[test]
fn smallest_table_with_itself_is_74_bytes() {
    let table = table("A matches {*}", false);
    let expected: [u8; 74] = [
        0xC0, 0xAD, 0, 0, 0, 0, 0, 3, 0, 0, 0, 2, 0, 0, 0, 1, 0, 0, 0, 0, 0, 0, 0, 0, //
        0xC0, 0xAD, 1, 0, 0, 0, 0, 0, 0, 0, 0, 1, 0, 0, 0, 0, 0, 0, 0, 0, 0, 0, 0, 0, //
        0xC0, 0xAD, 1, 0, 0, 0, 0, 1, 0, 0, 0, 1, 0, 0, 0, 0, 0, 0, 0, 0, 0, 0, 0, 0, //
        0x41, 0x41,
    ];
    assert_eq!(merged(&table, &table, false, (1, 1)), expected);
    let little = merged(&table, &table, true, (1, 1));
    assert_eq!(little, made(true, 1, &[(1, 0, [0, 1, 0, 0, 0]), (1, 0, [1, 1, 0, 0, 0])], "AA"));
}

#[test]
fn m12_empty_strings_keep_place_0() {
    let table = table("A matches {a matches {\"\"}}", true);
    let expected = made(
        false,
        1,
        &[
            (1, 0, [0, 1, 0, 0, 2]),
            (2, 2, [1, 1, 3, 0, 0]),
            (5, 0, [0, 0, 0, 0, 0]),
            (1, 0, [2, 1, 0, 0, 5]),
            (2, 2, [3, 1, 6, 0, 0]),
            (5, 0, [0, 0, 0, 0, 0]),
        ],
        "AaAa",
    );
    assert_eq!(merged(&table, &table, false, (3, 2)), expected);
}

#[test]
fn every_kind_moves() {
    let second: [Line; 13] = [
        (1, 0, [0, 1, 1, 3, 2]),
        (2, 2, [4, 1, 3, 4, 0]),
        (3, 3, [0, 0, 0, 0, 0]),
        (2, 1, [4, 1, 5, 7, 0]),
        (4, 0, [0xFFFF_FFFB, 5, 0, 0, 6]),
        (4, 0, [7, 7, 0, 0, 0]),
        (2, 0, [4, 1, 8, 10, 0]),
        (5, 0, [5, 2, 0, 0, 9]),
        (5, 0, [0, 0, 0, 0, 0]),
        (2, 2, [4, 1, 11, 0, 0]),
        (7, 0, [101, 101, 0, 0, 12]),
        (7, 0, [102, 99_991_231, 0, 0, 0]),
        (8, 4, [0, 0, 0, 0, 0]),
    ];
    let first: [Line; 2] = [(1, 0, [1, 2, 0, 0, 2]), (2, 2, [0, 1, 0, 0, 0])];
    let moved: [Line; 15] = [
        first[0],
        first[1],
        (1, 0, [3, 1, 4, 3, 4]),
        (2, 2, [7, 1, 5, 6, 0]),
        (3, 3, [0, 0, 0, 0, 0]),
        (2, 1, [7, 1, 7, 9, 0]),
        (4, 0, [0xFFFF_FFFB, 5, 0, 0, 8]),
        (4, 0, [7, 7, 0, 0, 0]),
        (2, 0, [7, 1, 10, 12, 0]),
        (5, 0, [8, 2, 0, 0, 11]),
        (5, 0, [0, 0, 0, 0, 0]),
        (2, 2, [7, 1, 13, 0, 0]),
        (7, 0, [101, 101, 0, 0, 14]),
        (7, 0, [102, 99_991_231, 0, 0, 0]),
        (8, 4, [0, 0, 0, 0, 0]),
    ];
    for little in [false, true] {
        let expected = made(little, 1, &moved, "aTTAat1axy");
        for first_table in
            [made(false, 1, &first, "aTT"), made(true, 1, &first, "aTT"), made_mixed(true, 1, &first, "aTT")]
        {
            for second_table in [
                made(false, 1, &second, "Aat1axy"),
                made(true, 1, &second, "Aat1axy"),
                made_mixed(false, 1, &second, "Aat1axy"),
                made_mixed(true, 1, &second, "Aat1axy"),
            ] {
                assert_eq!(merged(&first_table, &second_table, little, (2, 3)), expected);
            }
        }
    }
}

#[test]
fn first_root_stays() {
    let lines = [(1, 0, [0, 1, 0, 0, 0]), (1, 0, [1, 1, 0, 0, 0]), (1, 0, [0, 2, 0, 0, 0])];
    let first = made(true, 3, &lines, "AB");
    let second = made(true, 2, &lines, "CD");
    let both = merged(&first, &second, true, (3, 2));
    assert_eq!(&both[12..16], &[3, 0, 0, 0]);
    let other = merged(&second, &first, false, (3, 2));
    assert_eq!(&other[12..16], &[0, 0, 0, 2]);
}

#[test]
fn empty_pools() {
    // A pool can't be empty, since the root has a type; the shortest is one byte.
    let small = table("A matches {*}", false);
    let both = merged(&small, &merged(&small, &small, true, (1, 1)), false, (1, 1));
    let lines = [(1, 0, [0, 1, 0, 0, 0]), (1, 0, [1, 1, 0, 0, 0]), (1, 0, [2, 1, 0, 0, 0])];
    assert_eq!(both, made(false, 1, &lines, "AAA"));
}

#[test]
fn meaning_moves_with_the_shift() {
    let text = "A matches {a matches {B matches {b matches {\"x\", \"\"}}} c existence matches {0} matches {*}}";
    let carried = table(text, true);
    let other = table("Z[at9] matches {z matches {1,2,3}}", false);
    let as_first = merged(&carried, &other, false, (7, 6));
    let as_second = merged(&other, &as_first, true, (5, 5));
    for (bytes, root) in [(&carried, 1), (&as_first, 1), (&as_second, 6)] {
        let shift = root - 1;
        assert_eq!(judge(bytes, root, b"(A)<a = (B)<b = <\"\">>>"), JudgeAnswer::Valid);
        for (data, reason, record) in [
            ("<a = <b = ^<\"y\">>>", 24, 5),
            ("<a = <b = ^<5>>>", 20, 5),
            ("<a = <b = <\"x\">> c = ^<5>>", 23, 7),
            ("<a = ^<>>", 22, 4),
            ("^<>", 22, 2),
            ("(B)^<>", 21, 1),
        ] {
            let (data, place) = marked(data);
            let expected = JudgeAnswer::Verdict { reason, record: record + shift, place };
            assert_eq!(judge(bytes, root, &data), expected);
        }
    }
    let NameAnswer::Name { start, length } = name(&as_second, 8) else { panic!() };
    assert_eq!(&as_second[start as usize..(start + length) as usize], b"B");
}

/// A table of `count` records and a pool of `pool` bytes.
fn sized(count: usize, pool: usize) -> Vec<u8> {
    let lines: Vec<Line> = vec![(1, 0, [0, 1, 0, 0, 0]); count - 1];
    made(false, 1, &lines, &"A".repeat(pool))
}

#[test]
fn merged_count() {
    let both = merged(&sized(1_025, 1), &sized(1_024, 1), true, (1_024, 1));
    assert_eq!(both.len(), 2_048 * 24 + 2);
    refused_merge(&sized(1_025, 1), &sized(1_025, 1), 80_000, 8, 0, 0);
    refused_merge(&sized(2_048, 1), &sized(2, 1), 80_000, 8, 0, 0);
    merged(&sized(2_047, 1), &sized(2, 1), false, (2_046, 1));
    merged(&sized(2, 1), &sized(2_047, 1), false, (1, 1));
}

#[test]
fn merged_pool() {
    let both = merged(&sized(2, 8_192), &sized(2, 8_192), true, (1, 8_192));
    assert_eq!(both.len(), 72 + 16_384);
    refused_merge(&sized(2, 8_192), &sized(2, 8_193), 80_000, 10, 0, 0);
    refused_merge(&sized(2, 16_384), &sized(2, 1), 80_000, 10, 0, 0);
    merged(&sized(2, 16_383), &sized(2, 1), false, (1, 16_383));
    merged(&sized(2, 1), &sized(2, 16_383), false, (1, 1));
}

/// A table of 2 records whose pool is `A` so many times.
fn long_pool(little: bool, pool: usize) -> Vec<u8> {
    made(little, 1, &[(1, 0, [0, 1, 0, 0, 0])], &"A".repeat(pool))
}

#[test]
fn smallest_table_and_a_pool_that_is_full_with_it() {
    let small = table("A matches {*}", false);
    assert_eq!(small.len(), 49);
    let pool = "A".repeat(16_384);
    for order in [false, true] {
        let long = long_pool(order, 16_383);
        for little in [false, true] {
            let both = merged(&small, &long, little, (1, 1));
            assert_eq!(both.len(), 16_456);
            assert_eq!(both, made(little, 1, &[(1, 0, [0, 1, 0, 0, 0]), (1, 0, [1, 1, 0, 0, 0])], &pool));
            let both = merged(&long, &small, little, (1, 16_383));
            assert_eq!(both.len(), 16_456);
            assert_eq!(both, made(little, 1, &[(1, 0, [0, 1, 0, 0, 0]), (1, 0, [16_383, 1, 0, 0, 0])], &pool));
        }
        refused_merge(&small, &long, 16_455, 11, 16_456, 0);
        refused_merge(&long, &small, 16_455, 11, 16_456, 0);
    }
}

#[test]
fn smallest_table_and_a_pool_one_byte_too_long_with_it() {
    let small = table("A matches {*}", false);
    for order in [false, true] {
        let long = long_pool(order, 16_384);
        assert_eq!(check(&long), CheckAnswer::Passed);
        for room in [0, 16_456, 16_457, 80_000] {
            refused_merge(&small, &long, room, 10, 0, 0);
            refused_merge(&long, &small, room, 10, 0, 0);
        }
    }
}

#[test]
fn pools_up_to_the_limit_and_one_byte_above() {
    for first in [1, 2, 255, 256, 8_191, 8_192, 8_193, 16_128, 16_382, 16_383] {
        let second = 16_384 - first;
        merged(&sized(2, first), &sized(3, second), first % 2 == 0, (1, first as u32));
        refused_merge(&sized(2, first), &sized(3, second + 1), 80_000, 10, 0, 0);
        refused_merge(&sized(2, first + 1), &sized(3, second), 80_000, 10, 0, 0);
    }
}

#[test]
fn output_long_enough_and_one_short() {
    let small = sized(2, 1);
    let mut out = [FILL; 74];
    let done = MergeAnswer::Done { length: 74, record_shift: 1, pool_shift: 1 };
    assert_eq!(merge(&small, &small, false, &mut out), done);
    refused_merge(&small, &small, 73, 11, 74, 0);
    refused_merge(&small, &small, 0, 11, 74, 0);
}

#[test]
fn order_of_refusals() {
    let good = sized(2, 1);
    let mut broken = good.clone();
    broken[27] = 1;
    refused_merge(b"", b"", 0, 12, 0, 1);
    refused_merge(&broken, b"", 0, 13, 1, 1);
    refused_merge(&good, b"", 0, 12, 0, 2);
    refused_merge(&good, &broken, 0, 13, 1, 2);
    refused_merge(&broken, &broken, 0, 13, 1, 1);
    // Too many records, too long a pool, and no room.
    refused_merge(&sized(2_000, 9_000), &sized(2_000, 9_000), 0, 8, 0, 0);
    refused_merge(&sized(1_000, 9_000), &sized(1_000, 9_000), 0, 10, 0, 0);
    refused_merge(&sized(1_000, 8_000), &sized(1_000, 8_000), 0, 11, 1_999 * 24 + 16_000, 0);
    refused_merge(&sized(2_048, 16_384), b"", 0, 12, 0, 2);
}

#[test]
fn a_long_pool_comes_behind_broken_tables_and_the_count() {
    let full = sized(2, 16_384);
    let mut headless = full.clone();
    headless[3] = 1;
    let mut broken = full.clone();
    broken[27] = 1;
    for room in [0, 80_000] {
        refused_merge(&full, &full, room, 10, 0, 0);
        for (bad, number, place) in [(&headless, 12, 0), (&sized(2, 16_385), 12, 0), (&broken, 13, 1)] {
            refused_merge(bad, &full, room, number, place, 1);
            refused_merge(&full, bad, room, number, place, 2);
        }
        refused_merge(&sized(2_048, 16_384), &full, room, 8, 0, 0);
        refused_merge(&sized(2_047, 16_384), &full, room, 10, 0, 0);
    }
}

#[test]
fn bytes_past_the_table_stay() {
    let small = sized(2, 1);
    let mut out: Vec<u8> = (0..200).collect();
    assert!(matches!(merge(&small, &small, true, &mut out), MergeAnswer::Done { length: 74, .. }));
    let behind: Vec<u8> = (74..200).collect();
    assert_eq!(out[74..], behind[..]);
}
