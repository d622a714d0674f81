//! hallrun: the paper's example, lines, the stored texts, and what fixed and generated inputs reach.

use reference::generate::{fixed::fixed_inputs, lines::input};
use reference::hallrun::{answers, run};
use std::collections::BTreeSet;

const STORED_INPUT: &[u8] = include_bytes!("../../../crates/hallrun/stdin");
const STORED_OUTPUT: &str = include_str!("../../../crates/hallrun/stdout");

/// Every number that a line can print, by its letter. L and P print no 7: their buffers hold the
/// largest store and the longest list.
const NUMBERS: [(u8, &[u8]); 11] = [
    (b'L', &[0, 2, 10]),
    (b'T', &[0, 1, 2, 4, 5, 7, 10]),
    (b'C', &[0, 1, 2, 4, 6, 10]),
    (b'E', &[0, 1, 2, 4, 6, 10]),
    (b'R', &[0, 1, 2, 6, 8, 10]),
    (b'O', &[0, 1, 2, 3, 4, 10]),
    (b'F', &[0, 1, 2, 3, 8, 10]),
    (b'G', &[0, 1, 4, 9, 10]),
    (b'S', &[0, 1, 4, 7, 9, 10]),
    (b'K', &[0, 1, 4, 9, 10]),
    (b'P', &[0, 1, 8, 10]),
];

/// Values 9 to 11 of document 01 as far as lines can show them, each line with what it prints: b 65
/// and b 1, fields of 19 and 21 bytes and a body alone; and at level 1 one unit out, which is repaired,
/// and two of a group, one of them the check unit, which are not, with a record and with none.
const VALUES_9_TO_11: &str = "
L 41 > 2
L 01 > 0
T 00000001 00000000000000000000000000000000000000 > 10
T 00000001 000000000000000000000000000000000000000000 > 10
T 00000001 00000000000000000000000000000000 > 10
T 00000001 4F6E650000000000000000000000000020260105 > 0
O 00 > 0
F 00 > 0
R 00000001 > 0 4F6E650000000000000000000000000020260105
O 00 > 0
O 10 > 0
F 00 > 8
L 01 > 0
O 00 > 0
O 10 > 0
R 00000001 > 8
P > 8
F 00 > 8
";

/// Value 10 by ranks, at level 1: unit 1 has records at ranks 1 and 2, unit 2 at rank 1, unit 0 none.
/// Units 0 and 1 have no rank in common: they are read, listed and repaired, as the list behind shows.
/// Units 1 and 2 have rank 1: it is lost, while the key at rank 2 reads, and one not taught is 6.
const VALUE_10: &str = "
L 02 > 0
G > 0
G > 0
G > 0
T 00000001 4F6E650000000000000000000000000020260105 > 0
T 00000002 54776F0000000000000000000000000020260106 > 0
T 00000005 4669766500000000000000000000000020260105 > 0
O 00 > 0
O 01 > 0
R 00000001 > 0 4F6E650000000000000000000000000020260105
R 00000004 > 6
R 00000005 > 0 4669766500000000000000000000000020260105
P > 0
01 01 00000001 4F6E650000000000000000000000000020260105
01 02 00000005 4669766500000000000000000000000020260105
02 01 00000002 54776F0000000000000000000000000020260106
F 00 > 0
P > 0
01 01 00000001 4F6E650000000000000000000000000020260105
01 02 00000005 4669766500000000000000000000000020260105
02 01 00000002 54776F0000000000000000000000000020260106
O 01 > 0
O 02 > 0
R 00000001 > 8
R 00000002 > 8
R 00000005 > 0 4669766500000000000000000000000020260105
R 00000009 > 6
P > 8
F 00 > 8
";

/// Losses at level 3, where units 0 to 3 have 3, 2, 1 and 1 records: all check units and no data unit,
/// read, listed and repaired; then check unit 1, made by that repair, alone with unit 3 out, and with
/// unit 0 too, where rank 1 is lost and rank 3 is not; then no check unit.
const LEVEL_3: &str = "
O 10 > 0
O 11 > 0
O 12 > 0
R 00000004 > 0 496E206900000000000000000000000020260228
P > 0
00 01 00000004 496E206900000000000000000000000020260228
00 02 0000001F 0000000000000000000000000000000000000000
00 03 0000000C 000102030405060708090A0B0C0D0E0F10111213
01 01 00000001 416D204100000000000000000000000020251231
01 02 00000005 0123456789ABCDEF0123456789ABCDEF01234567
02 01 00000002 44616E7300000000000000000000000020260303
03 01 00000003 496E207000000000000000000000000020260304
F 00 > 0
O 03 > 0
O 10 > 0
O 12 > 0
R 00000003 > 0 496E207000000000000000000000000020260304
O 00 > 0
R 00000003 > 8
R 0000000C > 0 000102030405060708090A0B0C0D0E0F10111213
R 00000008 > 6
P > 8
F 00 > 8
O 11 > 0
R 0000000C > 8
R 00000008 > 8
P > 8
F 00 > 8
";

/// Raises: refused while a data unit or a check unit is out, and at level 3; with two groups in place
/// and n = 2, where the new check unit then rebuilds two units; and at 16 units, with three.
const RAISES: [&str; 3] = [
    "
O 01 > 0
K > 4
F 00 > 0
O 11 > 0
K > 4
F 00 > 0
O 01 > 0
O 02 > 0
R 00000002 > 0 44616E7300000000000000000000000020260303
F 00 > 0
",
    "
G > 0
G > 0
G > 0
G > 0
G > 0
T 00000004 0404040404040404040404040404040420260404 > 0
T 00000005 0505050505050505050505050505050520260505 > 0
K > 0
O 04 > 0
O 05 > 0
R 00000004 > 0 0404040404040404040404040404040420260404
K > 4
F 01 > 0
R 00000005 > 0 0505050505050505050505050505050520260505
",
    "
G > 9
K > 0
O 08 > 0
O 09 > 0
O 16 > 0
R FFFFFFFF > 0 FEDCBA98765432100123456789ABCDEF89ABCDEF
K > 9
F 02 > 0
",
];

/// Units by digit sums: posts in sixteens (sums 1, 2 and 3), 1F (16) and the largest key (120) before
/// a grow, after one and after three, then another key of sum 16 and a shrink; and keys of 16 units,
/// with those of value 8.
const DIGIT_SUMS: [&str; 2] = [
    "
T FFFFFFFF FFFFFFFFFFFFFFFFFFFFFFFFFFFFFFFFFFFFFFFF > 7
P > 0
00 01 00000010 1010101010101010101010101010101020260110
00 02 00000020 2020202020202020202020202020202020260120
00 03 00000030 3030303030303030303030303030303020260130
00 04 0000001F 1F1F1F1F1F1F1F1F1F1F1F1F1F1F1F1F2026011F
G > 0
T FFFFFFFF FFFFFFFFFFFFFFFFFFFFFFFFFFFFFFFFFFFFFFFF > 0
P > 0
00 01 00000020 2020202020202020202020202020202020260120
00 02 0000001F 1F1F1F1F1F1F1F1F1F1F1F1F1F1F1F1F2026011F
00 03 FFFFFFFF FFFFFFFFFFFFFFFFFFFFFFFFFFFFFFFFFFFFFFFF
01 01 00000010 1010101010101010101010101010101020260110
01 02 00000030 3030303030303030303030303030303020260130
G > 0
G > 0
P > 0
00 01 0000001F 1F1F1F1F1F1F1F1F1F1F1F1F1F1F1F1F2026011F
00 02 FFFFFFFF FFFFFFFFFFFFFFFFFFFFFFFFFFFFFFFFFFFFFFFF
01 01 00000010 1010101010101010101010101010101020260110
02 01 00000020 2020202020202020202020202020202020260120
03 01 00000030 3030303030303030303030303030303020260130
T 000000F1 F1F1F1F1F1F1F1F1F1F1F1F1F1F1F1F120260131 > 0
R 000000F1 > 0 F1F1F1F1F1F1F1F1F1F1F1F1F1F1F1F120260131
R 000000E2 > 6
S > 0
P > 0
00 01 0000001F 1F1F1F1F1F1F1F1F1F1F1F1F1F1F1F1F2026011F
00 02 FFFFFFFF FFFFFFFFFFFFFFFFFFFFFFFFFFFFFFFFFFFFFFFF
00 03 000000F1 F1F1F1F1F1F1F1F1F1F1F1F1F1F1F1F120260131
01 01 00000010 1010101010101010101010101010101020260110
01 02 00000030 3030303030303030303030303030303020260130
02 01 00000020 2020202020202020202020202020202020260120
",
    "
P > 0
01 01 00000010 0000000000000000000000000000000200000002
02 01 8000000A 0000000000000000000000000000000380000000
04 01 00000004 0404040404040404040404040404040420260404
05 01 00000005 0505050505050505050505050505050520260505
08 01 FFFFFFFF FEDCBA98765432100123456789ABCDEF89ABCDEF
0F 01 0000000F 0000000000000000000000000000000100000001
",
];

/// Stamps: one corrected with its body and one alone, both to earlier ones, read with their units out
/// and listed and read after a repair; and a field of zeros, which is read like any other.
const STAMPS: [&str; 4] = [
    "
T 00000004 456E204100000000000000000000000020260301 > 0
T 00000001 416D204100000000000000000000000020260302 > 0
T 00000002 44616E7300000000000000000000000020260303 > 0
T 00000003 496E207000000000000000000000000020260304 > 0
C 00000004 496E206900000000000000000000000020260228 > 0
",
    "
C 00000001 416D204100000000000000000000000020251231 > 0
O 01 > 0
R 00000001 > 0 416D204100000000000000000000000020251231
F 00 > 0
R 00000001 > 0 416D204100000000000000000000000020251231
",
    "
O 00 > 0
O 01 > 0
O 02 > 0
K > 9
P > 0
00 01 00000004 496E206900000000000000000000000020260228
00 02 0000001F 0000000000000000000000000000000000000000
00 03 0000000C 000102030405060708090A0B0C0D0E0F10111213
01 01 00000001 416D204100000000000000000000000020251231
01 02 00000005 0123456789ABCDEF0123456789ABCDEF01234567
02 01 00000002 44616E7300000000000000000000000020260303
03 01 00000003 496E207000000000000000000000000020260304
R 00000004 > 0 496E206900000000000000000000000020260228
",
    "
C 00000001 0000000000000000000000000000000000000000 > 0
R 00000001 > 0 0000000000000000000000000000000000000000
",
];

#[test]
fn example() {
    let input = b"L 02\nT 00000005 456E204100000000000000000000000000000000\nP\nO 00\nR 00000005\nO 10\nR 00000005\n";
    let output = "0\n0\n0\n00 01 00000005 456E204100000000000000000000000000000000\n0\n\
                  0 456E204100000000000000000000000000000000\n0\n8\n";
    assert_eq!(run(input), output);
    assert_eq!(run(&input[..input.len() - 1]), output);
}

#[test]
fn lines() {
    assert_eq!(run(b""), "");
    assert_eq!(run(b"\n"), "10\n");
    assert_eq!(run(b"G\n\nG"), "1\n10\n1\n");
    assert_eq!(run(b"L 41\nL 00\nE 00000000\nO 1C\nF 04"), "2\n2\n2\n2\n2\n");
    for line in ["g", "G ", " G", "L  02", "L 2", "L 002", "L 0a", "L\t02", "L 02\r", "GG", "X"] {
        assert_eq!(run(line.as_bytes()), "10\n", "{line:?}");
    }
}

#[test]
fn a_line_is_cut_at_4096_bytes() {
    let mut input = b"L 01\n".to_vec();
    input.extend(b"G\n".repeat(2045));
    input.extend(b"E 00000001\n");
    assert_eq!(input[..4096].last(), Some(&b'E'));
    let output = run(&input);
    assert!(output.ends_with("9\n10\n"));
    assert_eq!(output.lines().count(), 2047);
}

#[test]
fn a_refused_layout_keeps_the_store() {
    let taught = format!("L 01\nT 00000001 {:040}\n", 0);
    assert_eq!(run(format!("{taught}L 00\nE 00000001\n").as_bytes()), "0\n0\n2\n0\n");
    assert_eq!(run(format!("{taught}L 01\nE 00000001\n").as_bytes()), "0\n0\n0\n6\n");
}

/// The number that an answer starts with.
fn number(answer: &str) -> u8 {
    answer.split([' ', '\n']).next().unwrap().parse().unwrap()
}

/// Demands that the lines of inputs print every number that their letters can print, and no other.
fn assert_every_number(inputs: &[Vec<u8>]) {
    let mut printed = BTreeSet::new();
    for (line, answer) in inputs.iter().flat_map(|input| answers(input)) {
        printed.insert((line.first().copied(), number(&answer)));
    }
    for (letter, numbers) in NUMBERS {
        let of_letter = printed.iter().filter(|(first, _)| *first == Some(letter));
        let of_letter: Vec<u8> = of_letter.map(|(_, number)| *number).collect();
        assert_eq!(of_letter, numbers, "{}", letter as char);
    }
}

#[test]
fn stored_texts() {
    assert!(STORED_INPUT.len() <= 4096);
    assert_ne!(STORED_INPUT.last(), Some(&b'\n'));
    assert_eq!(run(STORED_INPUT), STORED_OUTPUT);
}

#[test]
fn the_stored_input_reaches_every_number_of_every_letter() {
    assert_every_number(&[STORED_INPUT.to_vec()]);
}

/// The lines of the stored input, each with what it prints.
fn stored_transcript() -> String {
    let answered = answers(STORED_INPUT).into_iter();
    let beside = |(line, answer)| format!("{} > {answer}", String::from_utf8_lossy(line));
    answered.map(beside).collect()
}

#[test]
fn the_stored_input_shows_values_9_to_11() {
    assert!(stored_transcript().contains(VALUES_9_TO_11));
}

#[test]
fn the_stored_input_shows_losses_by_ranks() {
    let transcript = stored_transcript();
    assert!([VALUE_10, LEVEL_3].iter().all(|part| transcript.contains(part)));
}

#[test]
fn the_stored_input_shows_raises() {
    let transcript = stored_transcript();
    assert!(RAISES.iter().all(|part| transcript.contains(part)));
}

#[test]
fn the_stored_input_shows_digit_sums() {
    let transcript = stored_transcript();
    assert!(DIGIT_SUMS.iter().all(|part| transcript.contains(part)));
}

#[test]
fn the_stored_input_shows_stamps() {
    let transcript = stored_transcript();
    assert!(STAMPS.iter().all(|part| transcript.contains(part)));
}

#[test]
fn generated_inputs_reach_every_number_of_every_letter() {
    let inputs: Vec<Vec<u8>> = (0..100).map(input).collect();
    assert_every_number(&inputs);
    assert!(inputs.iter().any(|input| input.len() > 4096));
}

fn fixed_input(name: &str) -> Vec<u8> {
    let found = fixed_inputs().into_iter().find(|(of, _)| *of == name);
    found.expect("an input of this name").1
}

/// The number and the count of records that each P of a fixed input prints.
fn lists(name: &str) -> Vec<(u8, usize)> {
    let input = fixed_input(name);
    let answered = answers(&input).into_iter().filter(|(line, _)| *line == b"P");
    answered.map(|(_, answer)| (number(&answer), answer.lines().count() - 1)).collect()
}

/// The most records that 4,096 bytes of lines can teach and then list.
const MOST_RECORDS: usize = 78;

#[test]
fn the_fullest_list() {
    let input = fixed_input("fullest-list");
    let text = String::from_utf8(input.clone()).unwrap();
    let mut taught: Vec<&str> = text.lines().filter_map(|line| line.strip_prefix("T ")).collect();
    assert!(input.len() <= 4096);
    assert_eq!(taught.len(), MOST_RECORDS);

    // L, G and every T are granted; P prints its number and every record.
    let answered = answers(&input);
    let (list, before) = answered.split_last().unwrap();
    assert_eq!(before.len(), 2 + MOST_RECORDS);
    assert!(before.iter().all(|(_, answer)| answer == "0\n"));
    let list: Vec<&str> = list.1.lines().collect();
    assert_eq!(list.len(), 1 + MOST_RECORDS);
    assert_eq!(list[0], "0");
    let listed = list[1..].iter().map(|line| line.split_at(6));
    let (places, mut records): (Vec<&str>, Vec<&str>) = listed.unzip();
    let of_unit_0 = (1..=64).map(|rank| format!("00 {rank:02X} "));
    let of_unit_1 = (1..=MOST_RECORDS - 64).map(|rank| format!("01 {rank:02X} "));
    assert!(of_unit_0.chain(of_unit_1).eq(places));
    taught.sort();
    records.sort();
    assert_eq!(records, taught);

    // One more T leaves no room for the P, even without its 0A.
    let more = [input.strip_suffix(b"P\n").unwrap(), b"T 00000001 ", &[b'0'; 40], b"\nP"].concat();
    assert!(more.len() > 4096);
    assert!(answers(&more).iter().all(|(line, _)| *line != b"P"));
}

#[test]
fn lists_of_the_other_fixed_inputs() {
    assert_eq!(lists("fullest-list-of-sixteen-units"), [(0, MOST_RECORDS)]);
    let listed = run(&fixed_input("fullest-list-of-sixteen-units"));
    assert!((0..16).all(|unit| listed.contains(&format!("\n{unit:02X} 04 "))));
    assert_eq!(lists("lists-up-to-the-cut"), [(0, MOST_RECORDS); 17]);
    assert_eq!(fixed_input("lists-up-to-the-cut")[4095..4097], *b"P\n");
    assert_eq!(lists("full-unit-out"), [(0, MOST_RECORDS), (8, 0)]);
    let most = (0, MOST_RECORDS);
    assert_eq!(lists("laid-out-anew"), [most, most, (0, 0), (0, 0)]);
}

/// With both units out the list is refused; the last record of unit 0, which has 64, is read as it was
/// listed with unit 0 alone out.
#[test]
fn a_read_behind_lost_ranks() {
    let printed = run(&fixed_input("full-unit-out"));
    let (_, listed) = printed.split_once("\n00 40 ").unwrap();
    let (_, field) = listed.lines().next().unwrap().split_once(' ').unwrap();
    assert!(printed.ends_with(&format!("\n0\n8\n0 {field}\n")));
}

/// With two units out behind the raise the list is that of the same lines without raise and losses.
#[test]
fn the_list_behind_a_raise() {
    let input = fixed_input("raised-at-twelve-units");
    assert_eq!(input.len(), 4096);
    let taught = input.strip_suffix(b"K\nO 00\nO 01\nP").unwrap();
    let listed = run(&[taught, b"P"].concat());
    let (before, records) = listed.strip_suffix('\n').unwrap().rsplit_once("\n0\n").unwrap();
    assert_eq!(records.lines().count(), MOST_RECORDS);
    assert!((0..12).all(|unit| records.contains(&format!("{unit:02X} 04 "))));
    assert_eq!(run(&input), format!("{before}\n0\n0\n0\n0\n{records}\n"));
}
