//! The readings of document 01, one small test for each that can be seen.

use crate::build::{add, after, lent, node, place, rich, said, set, small, vertex, Files, FILES};
use independent::{judge, program_line, read, Break, Refusal, Value, Verdict, LENGTHS};

const S_OK: &str = "OK 00002 00000 00000 00001 00001 00002 00002 00000";
const RICH_OK: &str = "OK 00006 00003 00001 00002 00003 00005 00005 00002";

/// What is said of S after a change.
fn of_small(change: impl Fn(&mut Files)) -> String {
    let mut files = small();
    change(&mut files);
    said(&files)
}

fn of_rich(change: impl Fn(&mut Files)) -> String {
    let mut files = rich();
    change(&mut files);
    said(&files)
}

#[test]
fn the_rich_delivery_is_lawful() {
    assert_eq!(said(&rich()), RICH_OK);
}

#[test]
fn r01_the_sense_turns_nothing_round() {
    for sense in [b"+", b"-", b" "] {
        assert_eq!(of_small(|f| set(f, 5, 1, 8, sense)), S_OK);
        let turned = of_small(|f| {
            set(f, 5, 1, 6, b"0000000002");
            set(f, 5, 1, 7, b"0000000001");
            set(f, 5, 1, 8, sense);
        });
        assert_eq!(turned, "NO 52 5 00001 06");
    }
}

#[test]
fn r02_bars_are_21_and_the_line_end_is_20() {
    for field in 1..=7 {
        let said = of_small(|f| f[6][after(7, 2, field)] = b'7');
        assert_eq!(said, format!("NO 21 7 00002 {field:02}"));
    }
    for end in [b"\r\r", b"\n\n", b"\n\r", b"|\n", b"  "] {
        let said = of_small(|f| f[6][48..50].copy_from_slice(end));
        assert_eq!(said, "NO 20 7 00001 00");
    }
}

#[test]
fn r03_a_missing_bar_stands_beside_the_fields_own_break() {
    let both = |f: &mut Files| {
        f[6][after(7, 1, 4)] = b' ';
        set(f, 7, 1, 4, b"00000010x");
    };
    assert_eq!(of_small(both), "NO 21 7 00001 04");
    let field_only = of_small(|f| {
        both(f);
        f[6][after(7, 1, 4)] = b'|';
    });
    assert_eq!(field_only, "NO 22 7 00001 04");
    let earlier_field = of_small(|f| {
        both(f);
        set(f, 7, 1, 3, b"*");
    });
    assert_eq!(earlier_field, "NO 25 7 00001 03");
}

#[test]
fn r04_missing_is_told_at_each_field() {
    let both = |f: &mut Files| {
        set(f, 7, 1, 3, b"");
        set(f, 7, 1, 4, b"");
    };
    assert_eq!(of_small(both), "NO 24 7 00001 03");
    let number = of_small(|f| set(f, 7, 1, 4, b""));
    assert_eq!(number, "NO 24 7 00001 04");
}

#[test]
fn r04_each_field_that_may_not_be_missing() {
    let needed: [(usize, &[usize]); FILES] = [
        (1, &[1, 2]),
        (2, &[1, 4, 8, 9, 10, 11]),
        (3, &[1, 3, 5, 8, 9, 10, 11, 12]),
        (4, &[1, 3]),
        (5, &[1, 2, 5, 6, 7]),
        (6, &[1, 2, 3, 4, 5, 6]),
        (7, &[1, 3, 4, 5, 6]),
        (8, &[1, 2]),
    ];
    for (file, fields) in needed {
        for field in 1..=crate::build::WIDTHS[file - 1].len() {
            let mut files = rich();
            set(&mut files, file, 1, field, b"");
            let length = LENGTHS[file - 1];
            let found = read(file, &files[file - 1][..length], 1);
            // The Z of the first point and the first text is there, so each
            // of its two fields is demanded by the other, and so is the whole
            // centroid of the first composite.
            let partner = match file {
                2 => field > 11,
                3 => field > 12,
                8 => field > 3,
                _ => false,
            };
            if fields.contains(&field) || partner {
                assert_eq!(found, Err(Refusal { reason: 24, field }), "{file}");
            } else {
                assert!(found.is_ok(), "{file} {field}");
            }
        }
    }
}

#[test]
fn r05_damaged_counts_as_present() {
    let blank_sign = |f: &mut Files| {
        set(f, 7, 1, 7, b"");
        set(f, 7, 1, 8, b"1x");
    };
    assert_eq!(of_small(blank_sign), "NO 24 7 00001 07");
    let signed = of_small(|f| {
        blank_sign(f);
        set(f, 7, 1, 7, b"+");
    });
    assert_eq!(signed, "NO 22 7 00001 08");
    let damaged_sign = of_small(|f| set(f, 7, 1, 7, b"\x7F"));
    assert_eq!(damaged_sign, "NO 23 7 00001 07");
}

#[test]
fn r05_a_sign_and_its_number_stand_together() {
    let sign_alone = of_small(|f| set(f, 7, 1, 7, b"+"));
    assert_eq!(sign_alone, "NO 24 7 00001 08");
    let number_alone = of_small(|f| set(f, 7, 1, 8, b"00000001"));
    assert_eq!(number_alone, "NO 24 7 00001 07");
}

#[test]
fn r05_any_centroid_field_demands_x_and_y_with_signs() {
    let all: [&[u8]; 6] = [b"+", b"000000001", b"-", b"0000000001", b"+", b"00000001"];
    for (file, first) in [(4, 5), (8, 4)] {
        let blank = |f: &mut Files| (0..6).for_each(|i| set(f, file, 1, first + i, b""));
        for present in 0..64 {
            let has = |i: usize| present >> i & 1 == 1;
            let found = of_rich(|f| {
                blank(f);
                for i in (0..6).filter(|&i| has(i)) {
                    set(f, file, 1, first + i, all[i]);
                }
            });
            let lacks = |i: usize| {
                let demanded = i < 4 || has(i ^ 1);
                present != 0 && !has(i) && demanded
            };
            let expected = match (0..6).find(|&i| lacks(i)) {
                None => RICH_OK.to_string(),
                Some(i) => format!("NO 24 {file} 00001 {:02}", first + i),
            };
            assert_eq!(found, expected);
        }
        let damaged = of_rich(|f| {
            blank(f);
            set(f, file, 1, first + 5, b"x");
        });
        assert_eq!(damaged, format!("NO 24 {file} 00001 {first:02}"));
    }
}

#[test]
fn r06_minus_before_zero() {
    let before = |number: &'static [u8]| {
        of_small(|f| {
            set(f, 7, 1, 7, b"-");
            set(f, 7, 1, 8, number);
        })
    };
    assert_eq!(before(b"00000000"), "NO 25 7 00001 07");
    assert_eq!(before(b""), "NO 24 7 00001 08");
    assert_eq!(before(b"0000000 "), "NO 22 7 00001 08");
    assert_eq!(before(b"00000001"), S_OK);
    let plus = of_small(|f| {
        set(f, 7, 1, 7, b"+");
        set(f, 7, 1, 8, b"00000000");
    });
    assert_eq!(plus, S_OK);
}

#[test]
fn r06_a_sign_outside_its_domain_is_one_25() {
    for number in [&b""[..], b"00000000", b"00000001", b"x"] {
        let said = of_small(|f| {
            set(f, 7, 1, 7, b"*");
            set(f, 7, 1, 8, number);
        });
        assert_eq!(said, "NO 25 7 00001 07");
    }
}

#[test]
fn r07_blank_is_byte_20_alone() {
    let id = of_small(|f| set(f, 5, 1, 4, &[0xA0; 10]));
    assert_eq!(id, "NO 22 5 00001 04");
    // A0 is none: a field of it is not missing (W-202 says what it is), and a
    // sign of it wants its number.
    let tipo = of_small(|f| set(f, 1, 1, 2, b"\xA0"));
    assert_eq!(tipo, "NO 23 1 00001 02");
    let centroid = of_small(|f| set(f, 4, 1, 9, b"\xA0"));
    assert_eq!(centroid, "NO 24 4 00001 05");
    let sign = of_small(|f| set(f, 7, 1, 7, b"\xA0"));
    assert_eq!(sign, "NO 23 7 00001 07");
}

#[test]
fn w202_a_text_neither_begins_nor_ends_in_a0() {
    for text in [
        &b"\xA0x"[..],
        b"x\xA0",
        b"\xA0x\xA0",
        b"\xA0",
        b"\xA0\xA0",
        b"\xA0 x",
        b"x \xA0",
        b"x\xA0\xA0",
        b"NA\xA0",
        b"\xA0NA",
        &[0xA0; 60],
    ] {
        let name = of_small(|f| set(f, 4, 1, 4, text));
        assert_eq!(name, "NO 23 4 00001 04", "{text:?}");
    }
    let last_of_all = |last: u8| {
        let mut full = [b'x'; 60];
        full[59] = last;
        of_small(|f| set(f, 4, 1, 4, &full))
    };
    assert_eq!(last_of_all(0xA0), "NO 23 4 00001 04");
    assert_eq!(last_of_all(0xA1), S_OK);
}

#[test]
fn w202_a0_within_a_text_stays_lawful() {
    for text in [
        &b"x\xA0x"[..],
        b"x\xA0\xA0\xA0x",
        b"x\xA0 \xA0x",
        b"\xA1",
        b"\xA1x\xA1",
        b"\xFF\xA0\xFF",
    ] {
        let name = of_small(|f| set(f, 4, 1, 4, text));
        assert_eq!(name, S_OK, "{text:?}");
    }
}

#[test]
fn w202_every_a_field_follows() {
    // Of one byte: either TIPO, a sign, the sense. A1 beside each is what any
    // other byte is there.
    for (file, field) in [(1, 2), (5, 8), (7, 3), (7, 2)] {
        for (byte, reason) in [(b"\xA0", 23), (b"\xA1", 25)] {
            let said = of_small(|f| set(f, file, 1, field, byte));
            assert_eq!(said, format!("NO {reason} {file} 00001 {field:02}"));
        }
    }
    // CODIGO: NA before A0 is no longer a code and never was missing.
    let code = |text: &'static [u8]| {
        of_small(|f| {
            set(f, 1, 1, 1, text);
            set(f, 4, 1, 3, text);
        })
    };
    for text in [&b"NA\xA0"[..], b"ND\xA0\xA0", b"\xA0NA", b"\xA0", b"1\xA0"] {
        assert_eq!(code(text), "NO 23 1 00001 01", "{text:?}");
    }
    for text in [&b"NA\xA0A"[..], b"N\xA0A", b"1\xA02", b"NA\xA1"] {
        assert_eq!(code(text), S_OK, "{text:?}");
    }
    assert_eq!(code(b"NA"), "NO 24 1 00001 01");
}

#[test]
fn r08_na_and_nd_are_no_codes() {
    for missing in [&b""[..], b"NA", b"ND"] {
        let used = of_small(|f| set(f, 5, 1, 5, missing));
        assert_eq!(used, "NO 24 5 00001 05");
        let catalogued = of_small(|f| set(f, 1, 1, 1, missing));
        assert_eq!(catalogued, "NO 24 1 00001 01");
    }
    for code in [&b"na"[..], b"N.D.", b"N A", b"NAD", b"NA ND", b"0"] {
        let both = of_small(|f| {
            set(f, 1, 1, 1, code);
            set(f, 4, 1, 3, code);
        });
        assert_eq!(both, S_OK);
    }
    let shifted = of_small(|f| set(f, 1, 1, 1, b" NA"));
    assert_eq!(shifted, "NO 23 1 00001 01");
}

#[test]
fn a_texts_bytes_are_20_to_7e_and_a0_to_ff() {
    for byte in 0..=255_u8 {
        let said = of_small(|f| set(f, 4, 1, 4, &[b'x', byte, b'x']));
        let lawful = (0x20..=0x7E).contains(&byte) || byte >= 0xA0;
        let expected = if lawful { S_OK } else { "NO 23 4 00001 04" };
        assert_eq!(said, expected, "{byte:02X}");
    }
    assert_eq!(of_small(|f| set(f, 4, 1, 4, b" x")), "NO 23 4 00001 04");
    assert_eq!(of_small(|f| set(f, 4, 1, 4, &[b'x'; 60])), S_OK);
}

#[test]
fn na_and_nd_are_texts_in_the_free_words() {
    let files = rich();
    let values = read(4, &files[3], 2).unwrap();
    assert_eq!(values[3], Value::Text(b"NA".to_vec()));
    let blank = of_rich(|f| {
        set(f, 1, 3, 3, b"");
        set(f, 1, 4, 4, b"ND");
        set(f, 2, 1, 5, b"");
        set(f, 3, 1, 4, b"");
        set(f, 4, 2, 4, b"");
    });
    assert_eq!(blank, RICH_OK);
}

#[test]
fn r09_types_and_sense() {
    for byte in 0..=255_u8 {
        // A0 alone would begin in A0: W-202.
        let in_a = (0x20..=0x7E).contains(&byte) || byte > 0xA0;
        let nodo = of_small(|f| set(f, 7, 1, 2, &[byte]));
        let expected = match byte {
            b'C' | b'E' | b' ' => S_OK,
            b'A' | b'I' | b'H' => "NO 58 7 00001 02",
            _ if in_a => "NO 25 7 00001 02",
            _ => "NO 23 7 00001 02",
        };
        assert_eq!(nodo, expected, "{byte:02X}");

        let catalogue = of_rich(|f| set(f, 1, 5, 2, &[byte]));
        let expected = match byte {
            b'P' => RICH_OK,
            b'X' | b'L' | b'T' | b'C' => "NO 41 2 00002 04",
            b' ' => "NO 24 1 00005 02",
            _ if in_a => "NO 25 1 00005 02",
            _ => "NO 23 1 00005 02",
        };
        assert_eq!(catalogue, expected, "{byte:02X}");

        let sense = of_small(|f| set(f, 5, 1, 8, &[byte]));
        let expected = match byte {
            b'+' | b'-' | b' ' => S_OK,
            _ if in_a => "NO 25 5 00001 08",
            _ => "NO 23 5 00001 08",
        };
        assert_eq!(sense, expected, "{byte:02X}");
    }
}

#[test]
fn r10_0_is_an_id_and_a_blank_id_is_none() {
    let zero = of_small(|f| {
        set(f, 7, 1, 1, b"0000000000");
        set(f, 5, 1, 6, b"0000000000");
        set(f, 5, 1, 1, b"0000000000");
        set(f, 6, 1, 1, b"0000000000");
        set(f, 6, 2, 1, b"0000000000");
    });
    assert_eq!(zero, S_OK);
    // A point with a blank node id names no node, not the node 0.
    let blank = of_rich(|f| {
        set(f, 7, 1, 1, b"0000000000");
        set(f, 5, 1, 6, b"0000000000");
        set(f, 5, 2, 6, b"0000000000");
    });
    assert_eq!(blank, RICH_OK);
}

#[test]
fn r10_any_digits_in_the_small_numbers() {
    let said = of_rich(|f| {
        set(f, 2, 1, 7, b"000");
        set(f, 3, 1, 5, b"000");
        set(f, 3, 1, 6, b"999");
    });
    assert_eq!(said, RICH_OK);
}

#[test]
fn w203_an_orientation_is_degrees_and_minutes() {
    for (file, field) in [(2, 6), (3, 7)] {
        for number in 0..100_000_u32 {
            let bytes = format!("{number:05}").into_bytes();
            let (degrees, minutes) = (number / 100, number % 100);
            // Each edge with some on either side of it.
            if ![0, 1, 59, 60, 61, 99].contains(&minutes) && degrees % 90 != 0 {
                continue;
            }
            let lawful = degrees <= 359 && minutes <= 59;
            let mut files = rich();
            set(&mut files, file, 1, field, &bytes);
            let found = read(file, &files[file - 1], 1).err();
            let expected = Refusal { reason: 25, field };
            assert_eq!(found, (!lawful).then_some(expected), "{number:05}");
        }
        assert_eq!(of_rich(|f| set(f, file, 1, field, b"")), RICH_OK);
        assert_eq!(of_rich(|f| set(f, file, 1, field, b"35959")), RICH_OK);
        let past = of_rich(|f| set(f, file, 1, field, b"36000"));
        assert_eq!(past, format!("NO 25 {file} 00001 {field:02}"));
        let damaged = of_rich(|f| set(f, file, 1, field, b"360 0"));
        assert_eq!(damaged, format!("NO 22 {file} 00001 {field:02}"));
    }
}

#[test]
fn w203_a_justification_is_1_to_9() {
    for digit in b'0'..=b'9' {
        let said = of_rich(|f| set(f, 3, 1, 8, &[digit]));
        let expected = if digit == b'0' {
            "NO 25 3 00001 08"
        } else {
            RICH_OK
        };
        assert_eq!(said, expected);
    }
    assert_eq!(of_rich(|f| set(f, 3, 1, 8, b"")), "NO 24 3 00001 08");
}

#[test]
fn records_are_cut_by_length_alone() {
    // A byte too few in the first record and one too many in the second.
    let said = of_small(|f| {
        f[6].remove(11);
        f[6].push(b'\n');
    });
    assert_eq!(said, "NO 20 7 00001 00");
}

#[test]
fn r11_each_later_record_with_an_equal_earlier_one() {
    let keys = of_small(|f| {
        node(f, 5, 1, 1, None);
        node(f, 2, 2, 2, None);
        node(f, 1, 3, 3, None);
    });
    assert_eq!(keys, "NO 30 7 00004 01");
    let vertices = of_small(|f| {
        vertex(f, 2, 1, 0, 0, None);
        vertex(f, 1, 2, 0, 0, None);
    });
    assert_eq!(vertices, "NO 30 6 00004 02");
    let codes = of_small(|f| add(f, 1, &[(1, b"0100001"), (2, b"P")]));
    assert_eq!(codes, "NO 30 1 00003 01");
    let places = of_small(|f| {
        node(f, 3, 140, 200, Some(0));
        node(f, 4, 140, 200, Some(1));
        node(f, 5, 140, 200, Some(0));
        node(f, 6, 140, 200, None);
    });
    assert_eq!(places, "NO 54 7 00005 00");
}

#[test]
fn missing_z_equals_only_missing_z() {
    let different = of_small(|f| node(f, 3, 140, 200, Some(0)));
    assert_eq!(different, S_OK.replace("00002 00002", "00002 00003"));
    let same = of_small(|f| {
        node(f, 3, 140, 200, Some(0));
        node(f, 4, 140, 200, Some(0));
    });
    assert_eq!(same, "NO 54 7 00004 00");
}

#[test]
fn r12_a_blank_line_id_is_the_line_of_the_tramos_own_id() {
    let other = |f: &mut Files| {
        set(f, 5, 1, 4, b"0000000005");
        set(f, 6, 1, 1, b"0000000006");
        set(f, 6, 2, 1, b"0000000006");
    };
    assert_eq!(of_small(other), "NO 40 5 00001 04");
    let vertices_only = of_small(|f| {
        other(f);
        vertex(f, 5, 1, 100, 200, None);
        vertex(f, 5, 2, 140, 200, None);
    });
    assert_eq!(vertices_only, "NO 40 6 00001 01");
    // A filled line id uses only the line it names, not also its own.
    let own = of_small(|f| {
        set(f, 5, 1, 4, b"0000000005");
        vertex(f, 5, 1, 100, 200, None);
        vertex(f, 5, 2, 140, 200, None);
    });
    assert_eq!(own, "NO 40 6 00001 01");
    let blank = of_small(|f| set(f, 5, 1, 1, b"0000000009"));
    assert_eq!(blank, "NO 40 5 00001 04");
}

#[test]
fn r13_perimeters_have_no_file() {
    for id in [&b"0000000000"[..], b"0000000001"] {
        assert_eq!(of_rich(|f| set(f, 5, 3, 3, id)), "NO 40 5 00003 03");
    }
}

#[test]
fn w204_composite_ids_resolve_in_file_8() {
    for (file, record) in [(2, 2), (3, 1), (4, 2)] {
        // 9 and 0 are there, and a text may name either, or none.
        for id in [&b"0000000009"[..], b"0000000000", b""] {
            let said = of_rich(|f| {
                set(f, file, record, 2, id);
                set(f, 2, 3, 2, b"0000000000");
            });
            assert_eq!(said, RICH_OK);
        }
        // 1 and 2 are linear objects, 7 is a point, 3 a node and a tramo.
        for id in [
            &b"0000000001"[..],
            b"0000000002",
            b"0000000003",
            b"0000000007",
        ] {
            let said = of_rich(|f| set(f, file, record, 2, id));
            assert_eq!(said, format!("NO 40 {file} {record:05} 02"));
        }
        let absent = of_rich(|f| {
            f[7].clear();
            for (other, record) in [(2, 1), (3, 1), (4, 1), (4, 2)] {
                if other != file {
                    set(f, other, record, 2, b"");
                }
            }
        });
        assert!(absent.starts_with(&format!("NO 40 {file} ")), "{absent}");
    }
    // A composite is none of the other files' objects: no tramo names one.
    let linear = of_rich(|f| set(f, 5, 1, 2, b"0000000009"));
    assert_eq!(linear, "NO 40 5 00001 02");
}

#[test]
fn w204_a_composite_is_named_by_an_object_of_any_file() {
    let none = |f: &mut Files| {
        for (file, record) in [(2, 1), (3, 1), (4, 1)] {
            set(f, file, record, 2, b"");
        }
    };
    assert_eq!(of_rich(none), "NO 70 8 00001 00");
    for (file, record) in [(2, 3), (3, 1), (4, 1)] {
        let one = of_rich(|f| {
            none(f);
            set(f, file, record, 2, b"0000000009");
        });
        assert_eq!(one, RICH_OK);
    }
    assert_eq!(of_rich(|f| set(f, 4, 2, 2, b"")), "NO 70 8 00002 00");
    // A blank id is none: it doesn't name the composite 0.
    let blank = of_rich(|f| {
        none(f);
        set(f, 4, 2, 2, b"");
        f[7].rotate_left(117);
    });
    assert_eq!(blank, "NO 70 8 00001 00");
}

#[test]
fn w204_70_stands_behind_the_fifties() {
    let both = of_rich(|f| {
        set(f, 4, 2, 2, b"");
        set(f, 7, 3, 2, b"E");
    });
    assert_eq!(both, "NO 58 7 00003 02");
    let alone = of_rich(|f| {
        set(f, 4, 2, 2, b"");
        set(f, 7, 3, 2, b"A");
    });
    assert_eq!(alone, "NO 70 8 00002 00");
}

#[test]
fn w204_file_8_is_the_last_of_each_ten() {
    let mut files = rich();
    set(&mut files, 4, 2, 2, b"");
    set(&mut files, 8, 2, 2, b"0200000");
    assert_eq!(said(&files), "NO 41 8 00002 02");
    set(&mut files, 8, 1, 2, b"7777777");
    assert_eq!(said(&files), "NO 40 8 00001 02");
    set(&mut files, 6, 1, 1, b"0000000099");
    assert_eq!(said(&files), "NO 40 6 00001 01");
    set(&mut files, 8, 2, 1, b"0000000009");
    assert_eq!(said(&files), "NO 30 8 00002 01");
    node(&mut files, 5, 1, 1, None);
    assert_eq!(said(&files), "NO 30 7 00006 01");
    set(&mut files, 8, 2, 4, b"-");
    assert_eq!(said(&files), "NO 24 8 00002 05");
    set(&mut files, 7, 6, 3, b"*");
    assert_eq!(said(&files), "NO 25 7 00006 03");
    files[7].push(b' ');
    assert_eq!(said(&files), "NO 11 8 00003 00");
    files[6].push(b' ');
    assert_eq!(said(&files), "NO 11 7 00007 00");
}

#[test]
fn w204_the_letter_of_surfaces_stays_outside() {
    let letter = |tipo: &'static [u8]| of_small(|f| add(f, 1, &[(1, b"8"), (2, tipo)]));
    assert_eq!(letter(b"C"), S_OK.replace("OK 00002", "OK 00003"));
    assert_eq!(letter(b"S"), "NO 25 1 00003 02");
    assert_eq!(letter(b"c"), "NO 25 1 00003 02");
}

#[test]
fn codes_are_catalogued_under_their_files_type() {
    for (file, field, own) in [
        (2, 4, &b"0200000"[..]),
        (3, 3, b"0300000"),
        (4, 3, b"0100000"),
        (5, 5, b"0100001"),
        (8, 2, b"0400000"),
    ] {
        let unknown = of_rich(|f| set(f, file, 1, field, b"7777777"));
        assert_eq!(unknown, format!("NO 40 {file} 00001 {field:02}"));
        for code in [
            &b"0100000"[..],
            b"0100001",
            b"0200000",
            b"0300000",
            b"0400000",
        ] {
            let said = of_rich(|f| set(f, file, 1, field, code));
            if code == own {
                assert_eq!(said, RICH_OK);
            } else {
                assert_eq!(said, format!("NO 41 {file} 00001 {field:02}"));
            }
        }
    }
    let unused = of_small(|f| add(f, 1, &[(1, b"8"), (2, b"X")]));
    assert_eq!(unused, S_OK.replace("OK 00002", "OK 00003"));
}

#[test]
fn r14_the_fifties_are_read_of_the_same_delivery() {
    let gap = |f: &mut Files| set(f, 6, 2, 2, b"00003");
    // 51 at the 1 stands before 50 at the 3, unless the 3 stands before it.
    assert_eq!(of_small(gap), "NO 51 6 00001 02");
    let turned = of_small(|f| {
        gap(f);
        f[5].rotate_left(54);
    });
    assert_eq!(turned, "NO 50 6 00001 02");
    // 53 takes the highest order there is, broken orders or not.
    let moved = of_small(|f| {
        gap(f);
        set(f, 6, 2, 4, b"000000141");
    });
    assert_eq!(moved, "NO 53 5 00001 07");
    // 52 asks only where an order 1 exists.
    let without_1 = of_small(|f| {
        set(f, 6, 1, 2, b"00000");
        set(f, 6, 1, 4, b"000000777");
    });
    assert_eq!(without_1, "NO 50 6 00001 02");
    let order_0 = of_small(|f| vertex(f, 1, 0, 0, 0, None));
    assert_eq!(order_0, "NO 50 6 00003 02");
    let lonely_0_and_1 = of_small(|f| {
        set(f, 6, 2, 2, b"00000");
        set(f, 5, 1, 7, b"0000000001");
    });
    assert_eq!(lonely_0_and_1, "NO 51 6 00001 02");
}

#[test]
fn only_the_order_number_counts() {
    let turned = of_small(|f| f[5].rotate_left(54));
    assert_eq!(turned, S_OK);
    // Ten vertices, the last first: 10 is over 9, though not as a text.
    let mut files = small();
    files[5].clear();
    for order in (1..=10).rev() {
        vertex(
            &mut files,
            1,
            order,
            100 + 40 * (order as i64 - 1),
            200,
            None,
        );
    }
    assert_eq!(said(&files), "NO 53 5 00001 07");
    set(&mut files, 7, 2, 4, b"000000460");
    assert_eq!(said(&files), S_OK.replace("00002 00002", "00010 00002"));
}

#[test]
fn z_is_not_read_where_places_meet() {
    let heights = of_rich(|f| {
        for (i, z) in [b"00000003", b"00000004"].iter().enumerate() {
            set(f, 6, i + 1, 7, b"-");
            set(f, 6, i + 1, 8, *z);
        }
        set(f, 7, 3, 7, b"+");
        set(f, 7, 3, 8, b"00000009");
    });
    assert_eq!(heights, RICH_OK);
    // Any of the nodes at one X and Y may be a tramo's end.
    let other_end = of_rich(|f| set(f, 5, 3, 7, b"0000000005"));
    assert_eq!(other_end, RICH_OK);
}

#[test]
fn a_point_is_held_against_the_node_it_names() {
    let x = of_rich(|f| set(f, 2, 1, 9, b"000000008"));
    assert_eq!(x, "NO 55 2 00001 03");
    let y = of_rich(|f| set(f, 2, 1, 11, b"0000000001"));
    assert_eq!(y, "NO 55 2 00001 03");
    // The other point alone doesn't hold the node (W-203).
    let none = of_rich(|f| set(f, 2, 1, 3, b""));
    assert_eq!(none, "NO 56 7 00003 00");
    let unknown = of_rich(|f| set(f, 2, 2, 3, b"0000000099"));
    assert_eq!(unknown, "NO 40 2 00002 03");
}

#[test]
fn a_node_has_a_use() {
    let at_a_vertex = of_small(|f| node(f, 3, 100, 200, Some(1)));
    assert_eq!(at_a_vertex, S_OK.replace("00002 00002", "00002 00003"));
    let middle = of_rich(|f| node(f, 6, 0, 0, None));
    assert_eq!(middle, RICH_OK.replace("00005 00005", "00005 00006"));
    let beside = of_rich(|f| node(f, 6, 0, 1, None));
    assert_eq!(beside, "NO 56 7 00006 00");
    let linear = of_small(|f| add(f, 4, &[(1, b"0000000002"), (3, b"0100000")]));
    assert_eq!(linear, "NO 57 4 00002 00");
}

#[test]
fn w203_a_node_that_stands_alone_is_named_by_two_points() {
    let alone = |points: u64| {
        of_small(|f| {
            add(f, 1, &[(1, b"0200000"), (2, b"P")]);
            node(f, 3, 7, 8, None);
            for id in 0..points {
                let id = format!("{id:010}");
                add(
                    f,
                    2,
                    &[(1, id.as_bytes()), (3, b"0000000003"), (4, b"0200000")],
                );
                place(f, 2, f[1].len() / 149, 8, 7, 8, None);
            }
        })
    };
    assert_eq!(alone(0), "NO 56 7 00003 00");
    assert_eq!(alone(1), "NO 56 7 00003 00");
    assert!(alone(2).starts_with("OK"));
    assert!(alone(3).starts_with("OK"));
    // A second point that lies there and names nothing, or another node, is none.
    let beside = of_rich(|f| set(f, 2, 3, 3, b""));
    assert_eq!(beside, "NO 56 7 00003 00");
    // One is enough where a vertex is there, or a tramo ends.
    let on_a_line = of_rich(|f| {
        set(f, 2, 3, 3, b"0000000001");
        set(f, 2, 1, 3, b"");
        place(f, 2, 3, 8, 100, 200, None);
        set(f, 7, 3, 2, b"");
        place(f, 7, 3, 3, 0, 0, None);
    });
    assert_eq!(on_a_line, RICH_OK);
}

/// A line from (0, 0) by (5, 0) and (10, 0) to (20, 0), another from (10, 0) to
/// (10, 10), and nodes: 1 and 2 at ends, 3 at both, 4 at an end, 5 at a middle
/// vertex, and 6 alone with two points that name it.
fn all_kinds() -> Files {
    let mut files = Files::default();
    for (code, tipo) in [(b"1", b"L"), (b"2", b"T"), (b"3", b"P")] {
        add(&mut files, 1, &[(1, code), (2, tipo)]);
    }
    for id in [b"0000000001", b"0000000002"] {
        add(&mut files, 2, &[(1, id), (3, b"0000000006"), (4, b"3")]);
        let record = files[1].len() / 149;
        place(&mut files, 2, record, 8, 50, 50, None);
    }
    add(&mut files, 4, &[(1, b"0000000001"), (3, b"1")]);
    for (id, start, end) in [
        (b"0000000001", b"0000000001", b"0000000002"),
        (b"0000000002", b"0000000003", b"0000000004"),
    ] {
        let names = [(2, &b"0000000001"[..]), (5, b"2"), (6, start), (7, end)];
        add(&mut files, 5, &[&[(1, &id[..])], &names[..]].concat());
    }
    for (order, x) in [(1, 0), (2, 5), (3, 10), (4, 20)] {
        vertex(&mut files, 1, order, x, 0, None);
    }
    vertex(&mut files, 2, 1, 10, 0, None);
    vertex(&mut files, 2, 2, 10, 10, None);
    for (id, x, y) in [
        (1, 0, 0),
        (2, 20, 0),
        (3, 10, 0),
        (4, 10, 10),
        (5, 5, 0),
        (6, 50, 50),
    ] {
        node(&mut files, id, x, y, None);
    }
    files
}

/// What is said where a node of those has a code.
fn coded(node: usize, code: u8) -> String {
    let mut files = all_kinds();
    set(&mut files, 7, node, 2, &[code]);
    said(&files)
}

#[test]
fn w203_each_code_at_each_kind_of_node() {
    let ok = "OK 00003 00002 00000 00001 00002 00006 00006 00000";
    for (node, agreeing) in [
        (1, b"EC"),
        (2, b"EC"),
        (3, b"HC"),
        (4, b"EC"),
        (5, b"IC"),
        (6, b"AA"),
    ] {
        for code in *b"ACEIH " {
            let expected = if code == b' ' || agreeing.contains(&code) {
                ok.to_string()
            } else {
                format!("NO 58 7 {node:05} 02")
            };
            assert_eq!(coded(node, code), expected, "{}", char::from(code));
        }
        for code in *b"aceihPX0*" {
            assert_eq!(coded(node, code), format!("NO 25 7 {node:05} 02"));
        }
    }
}

#[test]
fn w203_what_a_node_is_goes_by_id_or_by_x_and_y() {
    let of_kinds = |change: &dyn Fn(&mut Files)| {
        let mut files = all_kinds();
        change(&mut files);
        said(&files)
    };
    // A second node at a line's end, with another Z, is an end too.
    for (code, lawful) in [(b"E", true), (b"A", false), (b"I", false)] {
        let above = of_kinds(&|f| {
            node(f, 7, 0, 0, Some(9));
            set(f, 7, 7, 2, code);
        });
        assert_eq!(above.starts_with("OK"), lawful, "{above}");
    }
    // A line that passes its own beginning makes both of it.
    let own = of_kinds(&|f| {
        place(f, 6, 2, 3, 0, 0, None);
        f[6].truncate(200);
        node(f, 6, 50, 50, None);
        set(f, 7, 1, 2, b"H");
    });
    assert!(own.starts_with("OK"), "{own}");
    // An end by id alone: its line is elsewhere, which file 5 tells first.
    let by_id = of_kinds(&|f| {
        place(f, 7, 1, 3, 77, 77, None);
        set(f, 7, 1, 2, b"E");
    });
    assert_eq!(by_id, "NO 52 5 00001 06");
}

/// The first vertex is the one of order 1 also where there is an order 0, and
/// a line's only vertex is its last.
#[test]
fn w203_first_and_last_where_orders_are_broken() {
    let counted = |code: &[u8], change: &dyn Fn(&mut Files)| {
        let mut files = all_kinds();
        change(&mut files);
        set(&mut files, 7, 1, 2, code);
        independent::grid(lent(&files))[6][4]
    };
    // Orders 0, 1, 2: (0, 0) is where the order 0 is, besides the start node.
    let from_0 = |f: &mut Files| {
        for (vertex, order) in [(1, b"00000"), (2, b"00001"), (3, b"00002"), (4, b"00003")] {
            set(f, 6, vertex, 2, order);
        }
    };
    assert_eq!(counted(b"H", &from_0), 0);
    assert_eq!(counted(b"E", &from_0), 1);
    // Only an order 3 is left of line 1: it is the last, and no first is there.
    let only_3 = |f: &mut Files| {
        let third = f[5][108..162].to_vec();
        let others = f[5][216..].to_vec();
        f[5] = [third, others].concat();
        place(f, 6, 1, 3, 0, 0, None);
        // Nodes 3 and 5 change what they are, and have no codes.
    };
    assert_eq!(counted(b"E", &only_3), 1);
    assert_eq!(counted(b"H", &only_3), 2);
}

#[test]
fn w203_58_stands_behind_56_and_before_the_next_node() {
    let both = of_small(|f| {
        node(f, 3, 7, 7, None);
        set(f, 7, 3, 2, b"E");
    });
    assert_eq!(both, "NO 56 7 00003 00");
    let later = of_small(|f| {
        node(f, 3, 7, 7, None);
        set(f, 7, 2, 2, b"H");
    });
    assert_eq!(later, "NO 58 7 00002 02");
    // It may break 56 and agree with its code.
    let mut files = small();
    node(&mut files, 3, 7, 7, None);
    set(&mut files, 7, 3, 2, b"A");
    assert_eq!(independent::grid(lent(&files))[6][4], 1);
}

#[test]
fn centroids_and_texts_lie_anywhere() {
    let said = of_rich(|f| {
        place(f, 3, 1, 9, -5, -6, Some(-7));
        place(f, 4, 2, 5, -5, -6, Some(-7));
        place(f, 2, 2, 8, -5, -6, Some(-7));
        place(f, 8, 2, 4, -5, -6, Some(-7));
    });
    assert_eq!(said, RICH_OK);
}

#[test]
fn a_line_without_vertices_is_40_before_59() {
    assert_eq!(of_small(|f| f[5].clear()), "NO 40 5 00001 04");
}

#[test]
fn big_goes_before_everything() {
    let mut files = small();
    files[6] = vec![0; 8_192];
    assert_eq!(said(&files), "NO 11 7 00164 00");
    files[6].push(0);
    assert_eq!(said(&files), "BIG 7");
    files[7] = vec![0; 8_193];
    assert_eq!(said(&files), "BIG 7");
    files[6].clear();
    assert_eq!(said(&files), "BIG 8");
    files[3] = vec![0; 8_193];
    files[1] = vec![0; 8_192];
    assert_eq!(program_line(lent(&files)), "BIG 4\n");
}

#[test]
fn too_long_goes_before_ragged() {
    for file in 1..=FILES {
        let mut files = Files::default();
        let length = LENGTHS[file - 1];
        let verdict = |files: &Files| match judge(lent(files)) {
            Verdict::Broken(b) => (b.reason, b.file, b.record, b.field),
            Verdict::Accepted(_) => (0, 0, 0, 0),
        };
        files[file - 1] = vec![b' '; 16_384 * length - 1];
        assert_eq!(verdict(&files), (11, file, 16_384, 0));
        files[file - 1].push(b' ');
        assert_eq!(verdict(&files), (20, file, 1, 0));
        files[file - 1].push(b' ');
        assert_eq!(verdict(&files), (10, file, 0, 0));
        if file > 1 {
            files[file - 2].push(b' ');
            assert_eq!(verdict(&files), (11, file - 1, 1, 0));
        }
    }
}

#[test]
fn as_many_records_as_allowed_are_judged() {
    let mut files = small();
    files[5].clear();
    let orders = 16_384;
    for order in (1..=orders).rev() {
        let x = if order == orders {
            140
        } else {
            99 + order as i64
        };
        vertex(&mut files, 1, order, x, 200, None);
    }
    assert_eq!(
        judge(lent(&files)),
        Verdict::Accepted([2, 0, 0, 1, 1, 16_384, 2, 0])
    );
    set(&mut files, 6, 16_000, 1, b"0000000002");
    let found = Break {
        reason: 40,
        file: 6,
        record: 16_000,
        field: 1,
        other: 0,
    };
    assert_eq!(judge(lent(&files)), Verdict::Broken(found));
}

#[test]
fn r16_free_words_change_no_verdict() {
    let reword = |f: &mut Files| {
        set(f, 1, 1, 3, b"otro");
        set(f, 1, 2, 4, b"||||");
        set(f, 4, 1, 4, &[0xFF; 60]);
    };
    assert_eq!(of_small(reword), S_OK);
    let broken = |f: &mut Files| set(f, 7, 2, 4, b"000000141");
    let reworded = of_small(|f| {
        broken(f);
        reword(f);
    });
    assert_eq!(of_small(broken), reworded);
    let points_and_texts = of_rich(|f| {
        set(f, 2, 1, 5, b"x");
        set(f, 3, 1, 4, b"NO");
        set(f, 8, 1, 3, b"");
        set(f, 8, 2, 3, b"a|b");
    });
    assert_eq!(points_and_texts, RICH_OK);
}

#[test]
fn r02_a_missing_bar_damages_no_field_beside() {
    // Fields are found by place: a digit where the bar was belongs to neither
    // neighbour, and with a bar in a field's own place the bars stay whole.
    let mut files = small();
    files[5][after(6, 1, 1)] = b'0';
    let bar = Refusal {
        reason: 21,
        field: 1,
    };
    assert_eq!(read(6, &files[5], 1), Err(bar));
    files[5][after(6, 1, 1)] = b'|';
    files[5][after(6, 1, 1) - 1] = b'|';
    let number = Refusal {
        reason: 22,
        field: 1,
    };
    assert_eq!(read(6, &files[5], 1), Err(number));
}
