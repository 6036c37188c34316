//! The pages of document 02, E1. Numbers are those of document 01's examples.

mod common;

use common::{a1, a1_with, bytes};
use forest::Refusal;

const HEADER: &str = "id          maxS    minN    maxN    nutNre acidEx  nutExverdict \n";
const A1: &str = "A1           735     205    1021     249 2    221    451   over \n";
const B2: &str = "B2           735     205    1021     249 0      0      0 within \n";

/// The bytes of a line with its 0A, and of a page of 60 lines.
const LINE: usize = 65;
const PAGE: usize = 3900;

/// How many sites, and the pages, lines and bytes that they take.
const SIZES: [(usize, usize, usize, usize); 9] = [
    (1, 1, 2, 130),
    (58, 1, 59, 3835),
    (59, 1, 60, 3900),
    (60, 2, 62, 4030),
    (118, 2, 120, 7800),
    (119, 3, 122, 7930),
    (472, 8, 480, 31_200),
    (473, 9, 482, 31_330),
    (500, 9, 509, 33_085),
];

/// A1 with another name and pair.
fn site(name: &str, sulphur: u16, nitrogen: u16) -> Vec<u8> {
    let hex: String = name.bytes().map(|byte| format!("{byte:02X}")).collect();
    let name_field = format!("01 {:04X} {hex}", name.len());
    let pair_field = format!("0F 0004 {sulphur:04X}{nitrogen:04X}");
    a1_with(&[&name_field, &pair_field])
}

/// A1's record under the names 0000, 0001 and so on.
fn numbered(count: usize) -> Vec<u8> {
    let records = (0..count).map(|k| site(&format!("{k:04}"), 500, 700));
    records.flatten().collect()
}

/// A1's line under such a name.
fn numbered_line(k: usize) -> String {
    format!("{k:04}         735     205    1021     249 2    221    451   over \n")
}

/// The pages in a buffer longer than they are, whose other bytes stay.
fn pages(file: &[u8]) -> String {
    let mut out = vec![0xEE; 40_000];
    let length = forest::pages(file, &[], &mut out).unwrap();
    assert!(out[length..].iter().all(|&byte| byte == 0xEE));
    out.truncate(length);
    String::from_utf8(out).unwrap()
}

/// Number and offset of a refusal in a buffer of so many bytes, all of which stay.
fn refused(file: &[u8], room: usize) -> (u8, usize) {
    let mut out = vec![0xEE; room];
    let Refusal { rule, offset } = forest::pages(file, &[], &mut out).unwrap_err();
    assert!(out.iter().all(|&byte| byte == 0xEE));
    (rule as u8, offset)
}

#[test]
fn page_of_a1_and_b2() {
    let file = [site("A1", 500, 700), site("B2", 200, 240)].concat();
    assert_eq!(pages(&file), [HEADER, A1, B2].concat());
}

#[test]
fn words_in_their_columns() {
    let header = "id maxS minN maxN nutN re acidEx nutEx verdict";
    let a1_words = "A1 735 205 1021 249 2 221 451 over";
    let text = pages(&a1());
    for (line, words) in text.lines().zip([header, a1_words]) {
        assert_eq!(line.len(), 64);
        let (name, mut rest) = line.split_at(8);
        let mut words = words.split(' ');
        assert_eq!(name.trim_end(), words.next().unwrap());
        for (width, word) in [8, 8, 8, 8, 2, 7, 7, 7].into_iter().zip(words) {
            let (column, after) = rest.split_at(width);
            assert_eq!(column.trim_start(), word);
            rest = after;
        }
        assert_eq!(rest, " ");
    }
}

#[test]
fn lines_of_each_region() {
    let line = |sulphur, nitrogen| {
        let page = pages(&site("ABCD-789", sulphur, nitrogen));
        let line = page.strip_prefix(HEADER).unwrap();
        let rest = line.strip_prefix("ABCD-789     735     205    1021     249");
        rest.unwrap().to_string()
    };
    assert_eq!(line(735, 205), " 0      0      0 within \n");
    assert_eq!(line(736, 205), " 4      1      0   over \n");
    assert_eq!(line(735, 206), " 2      1      0   over \n");
    assert_eq!(line(1000, 206), " 3    266      0   over \n");
    assert_eq!(line(10, 1500), " 1    489   1251   over \n");
    assert_eq!(line(0, 249), " 0      0      0 within \n");
    assert_eq!(line(0, 250), " 0      0      1   over \n");
    // 65535 + 58,062,000 / 900, up, and 65535 − 249.
    assert_eq!(line(65535, 65535), " 1 130049  65286   over \n");
}

#[test]
fn the_widest_numbers() {
    let file = a1_with(&[
        "01 0008 5A5A5A5A5A5A5A5A",
        "02 0001 04",
        "04 0001 C8",
        "05 0001 05",
        "06 0002 0BB8",
        "07 0004 00640000",
        "08 0002 01F4",
        "09 0001 55",
        "0A 0002 1388",
        "0B 0002 0064",
        "0C 0002 2710",
        "0D 0002 1388",
        "0E 0002 03E8",
        "0F 0004 FFFFFFFF",
    ]);
    // W 19500, w 16575, A 323625, h 2209 (al 323376, hydrogen 6627), L 30000, e 200.
    let line = "ZZZZZZZZ  354503     500 1773015  150500 0      0      0 within \n";
    assert_eq!(pages(&file), [HEADER, line].concat());
    // At 20 °C W 32955, w 28011, A 495165, h 2546 (al 495104, hydrogen 7638).
    let warm = [&[0x53, 0, file[2] + 4], &file[3..], &[0x10, 0, 1, 25]].concat();
    let line = "ZZZZZZZZ  540697     500 2703985  150500 0      0      0 within \n";
    assert_eq!(pages(&warm), [HEADER, line].concat());
}

#[test]
fn pages_lines_and_bytes() {
    for (count, page_count, line_count, byte_count) in SIZES {
        let text = pages(&numbered(count));
        assert_eq!(text.len(), byte_count, "{count}");
        let lines: Vec<&str> = text.split_inclusive('\n').collect();
        assert_eq!(lines.len(), line_count, "{count}");
        assert!(lines.iter().all(|line| line.len() == LINE), "{count}");
        let headers = lines.iter().filter(|&&line| line == HEADER);
        assert_eq!(headers.count(), page_count, "{count}");
    }
}

#[test]
fn each_line_stands_in_its_place() {
    for (count, page_count, ..) in SIZES {
        let text = pages(&numbered(count));
        let line_at = |page, line| {
            let at = page * PAGE + line * LINE;
            &text[at..at + LINE]
        };
        for page in 0..page_count {
            assert_eq!(line_at(page, 0), HEADER, "page {page} of {count} sites");
        }
        for k in 0..count {
            let line = line_at(k / 59, k % 59 + 1);
            assert_eq!(line, numbered_line(k), "{k} of {count} sites");
        }
    }
}

#[test]
fn around_the_page_break() {
    let text = pages(&numbered(60));
    let last_lines = [numbered_line(58), HEADER.to_string(), numbered_line(59)].concat();
    assert_eq!(&text[59 * LINE..], last_lines);
    // A full last page has no header after it.
    assert_eq!(pages(&numbered(59)), text[..PAGE]);
}

#[test]
fn a_short_last_page_is_not_filled() {
    let one = pages(&numbered(1));
    assert_eq!(one, [HEADER, &numbered_line(0)].concat());
    for count in [58, 60, 119, 500] {
        assert!(pages(&numbered(count)).ends_with(&numbered_line(count - 1)));
    }
}

#[test]
fn the_buffer_is_measured_by_all_pages_together() {
    for (count, _, _, byte_count) in SIZES {
        let file = numbered(count);
        let mut out = vec![0xEE; byte_count];
        assert_eq!(forest::pages(&file, &[], &mut out), Ok(byte_count));
        assert_eq!(refused(&file, byte_count - 1), (11, 0));
        assert_eq!(refused(&file, LINE), (11, 0));
        assert_eq!(refused(&file, 0), (11, 0));
        if byte_count > PAGE {
            assert_eq!(refused(&file, PAGE), (11, 0));
        }
    }
    // All pages but the last, and all but its last line.
    assert_eq!(refused(&numbered(500), 8 * PAGE), (11, 0));
    assert_eq!(refused(&numbered(500), 508 * LINE), (11, 0));
}

#[test]
fn a_fault_on_a_later_page_leaves_the_buffer() {
    // Each of these records has 80 bytes.
    let first_page = numbered(59);
    assert_eq!(first_page.len(), 4720);
    let after = |more: &[u8]| refused(&[&first_page, more].concat(), 40_000);
    assert_eq!(after(&a1()[..77]), (2, 4720));
    assert_eq!(after(&bytes("56 0000")), (3, 4720));
    assert_eq!(after(&bytes("52 0001 01")), (5, 4723));
    assert_eq!(after(&bytes("52 0000")), (6, 4723));
    assert_eq!(after(&a1_with(&["0F 0002 01F4"])), (7, 4720 + 71));
    assert_eq!(after(&a1_with(&["0E 0002 0000"])), (8, 4720 + 66));
    assert_eq!(
        after(&a1_with(&["07 0008 003207D0 003207D0"])),
        (9, 4720 + 30)
    );
    assert_eq!(after(&a1_with(&["07 0004 006307D0"])), (10, 4720 + 30));
}

#[test]
fn nothing_and_too_much() {
    assert_eq!(refused(&[], 40_000), (1, 0));
    let full = numbered(500);
    assert_eq!(refused(&[&full[..], &[0x52]].concat(), 40_000), (4, 40_000));
    assert_eq!(refused(&numbered(501), 40_000), (4, 40_000));
}

#[test]
fn a_fault_comes_before_a_short_buffer() {
    assert_eq!(refused(&[], 0), (1, 0));
    assert_eq!(refused(&a1()[..77], 0), (2, 0));
    assert_eq!(refused(&numbered(501), 0), (4, 40_000));
    let file = numbered(60);
    assert_eq!(refused(&file[..file.len() - 1], PAGE), (2, 4720));
}
