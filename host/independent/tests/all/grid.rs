//! All breaks counted, and grids added up: W-201.

use crate::build::{
    add, after, lent, node, place, rich, set, small, vertex, Files, Noise, FILES, WIDTHS,
};
use crate::listing::{disturb, lowest_ten};
use independent::{grid, judge, Grid, Verdict, LENGTHS};

const NONE: Grid = [[0; 6]; FILES];

/// The column of a ten, by its first reason.
fn column(ten: usize) -> usize {
    match ten {
        70 => 5,
        _ => ten / 10 - 1,
    }
}

/// A grid of zeros but for these cells: file, ten and count.
fn cells(counts: &[(usize, usize, u64)]) -> Grid {
    let mut grid = NONE;
    for &(file, ten, count) in counts {
        grid[file - 1][column(ten)] = count;
    }
    grid
}

fn counted(files: &Files) -> Grid {
    grid(lent(files))
}

/// What is counted in S after a change.
fn of_small(change: impl Fn(&mut Files)) -> Grid {
    let mut files = small();
    change(&mut files);
    counted(&files)
}

fn of_rich(change: impl Fn(&mut Files)) -> Grid {
    let mut files = rich();
    change(&mut files);
    counted(&files)
}

#[test]
fn an_accepted_delivery_gives_zeros() {
    assert_eq!(counted(&Files::default()), NONE);
    assert_eq!(counted(&small()), NONE);
    assert_eq!(counted(&rich()), NONE);
}

#[test]
fn reason_10_of_several_files() {
    let found = of_rich(|f| {
        f[1].resize(16_385 * 149, b' ');
        f[4].resize(20_000 * 77, b' ');
        f[5].resize(16_384 * 54, b' ');
    });
    assert_eq!(found, cells(&[(2, 10, 1), (5, 10, 1)]));
}

#[test]
fn reason_11_of_several_files() {
    let found = of_rich(|f| {
        f[0].push(b' ');
        f[3].truncate(127);
        f[6].truncate(51);
    });
    assert_eq!(found, cells(&[(1, 10, 1), (4, 10, 1), (7, 10, 1)]));
}

#[test]
fn too_long_and_ragged_are_two_breaks() {
    for file in 1..=FILES {
        let most = 16_384 * LENGTHS[file - 1];
        for (length, count) in [(most + 1, 2), (most + LENGTHS[file - 1], 1), (most - 1, 1)] {
            let found = of_small(|f| f[file - 1].resize(length, b' '));
            assert_eq!(found, cells(&[(file, 10, count)]));
        }
    }
}

#[test]
fn reason_20_is_one_break_a_record() {
    let found = of_small(|f| {
        f[6][48] = b'\n';
        f[6][98..100].copy_from_slice(b"  ");
        f[5][53] = b'\r';
    });
    assert_eq!(found, cells(&[(6, 20, 1), (7, 20, 2)]));
}

#[test]
fn reason_21_at_every_bar() {
    for (i, widths) in WIDTHS.iter().enumerate() {
        let file = i + 1;
        let found = of_rich(|f| {
            for field in 1..widths.len() {
                let at = after(file, 1, field);
                f[i][at] = b'0';
            }
        });
        assert_eq!(found, cells(&[(file, 20, widths.len() as u64 - 1)]));
    }
}

#[test]
fn reason_22_at_several_fields_and_records() {
    let found = of_rich(|f| {
        set(f, 2, 1, 1, b"1");
        set(f, 2, 1, 6, b"0000x");
        set(f, 2, 2, 9, b" 00000001");
        set(f, 6, 3, 2, b"1    ");
    });
    assert_eq!(found, cells(&[(2, 20, 3), (6, 20, 1)]));
}

#[test]
fn reason_23_at_several_fields_and_records() {
    let found = of_rich(|f| {
        set(f, 1, 1, 1, b" NA");
        set(f, 1, 1, 2, b"\x7F");
        set(f, 1, 1, 3, b"a\x80");
        set(f, 1, 2, 4, b" x");
        set(f, 3, 1, 4, b"\n");
        set(f, 7, 1, 7, b"\x9F");
    });
    // The damaged sign is present, so its blank number is told besides.
    assert_eq!(found, cells(&[(1, 20, 4), (3, 20, 1), (7, 20, 2)]));
}

#[test]
fn reason_24_at_each_missing_field() {
    let blank_x = of_small(|f| {
        set(f, 7, 1, 3, b"");
        set(f, 7, 1, 4, b"");
        set(f, 5, 1, 5, b"NA");
    });
    assert_eq!(blank_x, cells(&[(5, 20, 1), (7, 20, 2)]));
    // Its number is demanded by the partner, X and Y by the centroid.
    let centroid = of_small(|f| set(f, 4, 1, 9, b"+"));
    assert_eq!(centroid, cells(&[(4, 20, 5)]));
    let blank = of_rich(|f| {
        for field in 1..=14 {
            set(f, 3, 1, field, b"");
        }
    });
    assert_eq!(blank, cells(&[(3, 20, 8)]));
}

#[test]
fn reason_25_at_several_fields_and_records() {
    let found = of_rich(|f| {
        set(f, 1, 1, 2, b"Q");
        set(f, 1, 2, 2, b"p");
        set(f, 5, 1, 8, b"*");
        set(f, 7, 1, 3, b"-");
        set(f, 7, 1, 4, b"000000000");
        set(f, 7, 1, 5, b"0");
        set(f, 7, 2, 5, b"x");
    });
    assert_eq!(found, cells(&[(1, 20, 2), (5, 20, 1), (7, 20, 3)]));
}

#[test]
fn several_reasons_at_one_field_are_several_breaks() {
    // The bar after a field besides 22, 23, 24 and 25 of the field itself.
    for (file, field, bytes) in [
        (7, 4, &b"00000010x"[..]),
        (1, 3, b" x"),
        (5, 5, b"ND"),
        (7, 3, b"*"),
    ] {
        let field_alone = of_small(|f| set(f, file, 1, field, bytes));
        assert_eq!(field_alone, cells(&[(file, 20, 1)]));
        let with_bar = of_small(|f| {
            set(f, file, 1, field, bytes);
            f[file - 1][after(file, 1, field)] = b' ';
        });
        assert_eq!(with_bar, cells(&[(file, 20, 2)]));
        let with_line_end = of_small(|f| {
            set(f, file, 1, field, bytes);
            f[file - 1][after(file, 1, field)] = b' ';
            f[file - 1][LENGTHS[file - 1] - 1] = b' ';
        });
        assert_eq!(with_line_end, cells(&[(file, 20, 3)]));
    }
}

#[test]
fn a_sign_and_its_number_are_told_each() {
    for (sign, number, count) in [
        (&b""[..], &b"1x"[..], 2),
        (b"*", b"", 2),
        (b"*", b"x", 2),
        (b"*", b"00000000", 1),
        (b"-", b"00000000", 1),
        (b"-", b"", 1),
        (b"-", b"0000000 ", 1),
        (b"\x7F", b"00000000", 1),
        (b"", b"00000000", 1),
        (b"-", b"00000001", 0),
        (b"", b"", 0),
    ] {
        let found = of_small(|f| {
            set(f, 7, 1, 7, sign);
            set(f, 7, 1, 8, number);
        });
        assert_eq!(found, cells(&[(7, 20, count)]));
    }
}

#[test]
fn reason_30_once_for_each_later_record() {
    let found = of_small(|f| {
        // Four nodes of one id make six pairs and three later records.
        for i in 0..3 {
            node(f, 2, i, i, None);
        }
        node(f, 1, 7, 7, None);
        vertex(f, 1, 2, 0, 0, None);
        vertex(f, 2, 2, 0, 0, None);
        vertex(f, 1, 2, 0, 0, None);
        add(f, 1, &[(1, b"0100001"), (2, b"P")]);
    });
    assert_eq!(found, cells(&[(1, 30, 1), (6, 30, 2), (7, 30, 4)]));
}

#[test]
fn reason_30_in_every_file() {
    let found = of_rich(|f| {
        for (i, file) in f.iter_mut().enumerate() {
            let first = file[..LENGTHS[i]].to_vec();
            *file = first.repeat(i + 2);
        }
    });
    let all: Vec<_> = (1..=FILES).map(|file| (file, 30, file as u64)).collect();
    assert_eq!(found, cells(&all));
}

#[test]
fn reason_40_at_each_reference() {
    let points_and_texts = of_rich(|f| {
        set(f, 2, 1, 2, b"0000000008");
        set(f, 2, 1, 3, b"0000000099");
        set(f, 2, 1, 4, b"unknown");
        set(f, 2, 2, 3, b"0000000098");
        set(f, 3, 1, 2, b"0000000001");
        set(f, 3, 1, 3, b"unknown");
        set(f, 4, 2, 2, b"0000000001");
        set(f, 8, 1, 2, b"unknown");
    });
    assert_eq!(
        points_and_texts,
        cells(&[(2, 40, 4), (3, 40, 2), (4, 40, 1), (8, 40, 1)])
    );
    let tramo = of_small(|f| {
        set(f, 5, 1, 2, b"0000000009");
        set(f, 5, 1, 3, b"0000000009");
        set(f, 5, 1, 4, b"0000000009");
        set(f, 5, 1, 5, b"9");
        set(f, 5, 1, 6, b"0000000009");
        set(f, 5, 1, 7, b"0000000009");
    });
    assert_eq!(tramo, cells(&[(5, 40, 6), (6, 40, 2)]));
}

#[test]
fn reason_41_in_each_file_with_codes() {
    let found = of_rich(|f| {
        set(f, 2, 1, 4, b"0100000");
        set(f, 2, 2, 4, b"0100001");
        set(f, 3, 1, 3, b"9");
        set(f, 4, 1, 3, b"0100001");
        set(f, 5, 1, 5, b"0100000");
        set(f, 5, 3, 5, b"0200000");
        set(f, 8, 1, 2, b"0100000");
        set(f, 8, 2, 2, b"0200000");
    });
    assert_eq!(
        found,
        cells(&[(2, 40, 2), (3, 40, 1), (4, 40, 1), (5, 40, 2), (8, 40, 2)])
    );
    // One entry of the catalogue changed is told at each that uses it.
    let entry = of_rich(|f| set(f, 1, 2, 2, b"L"));
    assert_eq!(entry, cells(&[(5, 40, 3)]));
}

#[test]
fn reasons_50_and_51_at_each_vertex() {
    let gap = of_small(|f| set(f, 6, 2, 2, b"00003"));
    assert_eq!(gap, cells(&[(6, 50, 2)]));
    let zero_and_gaps = of_small(|f| {
        vertex(f, 1, 0, 0, 0, None);
        vertex(f, 1, 5, 0, 0, None);
        vertex(f, 1, 6, 0, 0, None);
        vertex(f, 1, 9, 140, 200, None);
    });
    assert_eq!(zero_and_gaps, cells(&[(6, 50, 3)]));
    let alone = of_rich(|f| {
        set(f, 6, 2, 2, b"00000");
        set(f, 6, 4, 2, b"00001");
        set(f, 6, 5, 2, b"00004");
    });
    // Line 1 keeps 0 and 1, line 0 has 1, 3 and 4: 50 and 51 in each. The end
    // nodes of the two tramos of line 1 and that of line 0 aren't at the
    // highest order any more, and so node 4 is no end alone.
    assert_eq!(alone, cells(&[(5, 50, 3), (6, 50, 4), (7, 50, 1)]));
}

#[test]
fn reasons_52_and_53_at_each_tramo_of_a_line() {
    let one = of_small(|f| {
        set(f, 5, 1, 6, b"0000000002");
        set(f, 5, 1, 7, b"0000000001");
    });
    assert_eq!(one, cells(&[(5, 50, 2)]));
    let shared = of_rich(|f| set(f, 6, 1, 4, b"000000101"));
    assert_eq!(shared, cells(&[(5, 50, 2)]));
    let all = of_rich(|f| {
        for tramo in 1..=3 {
            set(f, 5, tramo, 6, b"0000000003");
            set(f, 5, tramo, 7, b"0000000003");
        }
        // Nodes 3 and 4 are what they weren't.
        set(f, 7, 3, 2, b"E");
    });
    assert_eq!(all, cells(&[(5, 50, 6)]));
}

#[test]
fn reason_54_once_for_each_later_node() {
    let found = of_small(|f| {
        for id in 3..6 {
            node(f, id, 140, 200, None);
        }
        for id in 6..9 {
            node(f, id, 140, 200, Some(0));
        }
        node(f, 9, 140, 200, Some(1));
    });
    assert_eq!(found, cells(&[(7, 50, 5)]));
}

#[test]
fn a_node_can_break_54_and_56_at_once() {
    let found = of_small(|f| {
        for id in 3..6 {
            node(f, id, 0, 0, None);
        }
    });
    assert_eq!(found, cells(&[(7, 50, 5)]));
}

#[test]
fn reason_55_at_each_point() {
    let found = of_rich(|f| {
        set(f, 2, 1, 9, b"000000008");
        set(f, 2, 2, 3, b"0000000001");
    });
    assert_eq!(found, cells(&[(2, 50, 2)]));
    let moved = of_rich(|f| {
        place(f, 7, 3, 3, 5, 5, None);
        set(f, 2, 2, 3, b"0000000003");
    });
    assert_eq!(moved, cells(&[(2, 50, 3)]));
}

#[test]
fn reason_56_at_each_node_without_use() {
    let found = of_small(|f| {
        node(f, 3, 0, 0, None);
        node(f, 4, 100, 200, Some(1));
        node(f, 5, 0, 0, Some(1));
        node(f, 6, 100, 201, None);
    });
    assert_eq!(found, cells(&[(7, 50, 3)]));
}

#[test]
fn reason_56_and_58_at_one_node() {
    let found = of_small(|f| {
        for (id, code) in [(3, b"A"), (4, b"E"), (5, b"C"), (6, b" ")] {
            node(f, id, 0, id as i64, None);
            set(f, 7, id as usize, 2, code);
        }
    });
    assert_eq!(found, cells(&[(7, 50, 6)]));
}

#[test]
fn reason_58_at_each_node_with_another_code() {
    for (code, count) in [
        (b"A", 4),
        (b"C", 1),
        (b"E", 1),
        (b"I", 5),
        (b"H", 5),
        (b" ", 0),
    ] {
        let found = of_rich(|f| {
            for node in 1..=5 {
                set(f, 7, node, 2, code);
            }
        });
        assert_eq!(found, cells(&[(7, 50, count)]), "{code:?}");
    }
    // One vertex more in the middle of a line changes what two nodes there are.
    let passed = of_rich(|f| {
        vertex(f, 0, 4, -7, -9, None);
        set(f, 6, 6, 2, b"00004");
        set(f, 7, 5, 2, b"E");
    });
    assert_eq!(passed, cells(&[(7, 50, 2)]));
}

#[test]
fn reason_57_at_each_linear_object_without_tramo() {
    let found = of_small(|f| {
        add(f, 4, &[(1, b"0000000002"), (3, b"0100000")]);
        add(f, 4, &[(1, b"0000000000"), (3, b"0100000")]);
    });
    assert_eq!(found, cells(&[(4, 50, 2)]));
}

#[test]
fn reason_70_at_each_composite_without_use() {
    let one = of_rich(|f| set(f, 4, 2, 2, b""));
    assert_eq!(one, cells(&[(8, 70, 1)]));
    let all = of_rich(|f| {
        for (file, record) in [(2, 1), (3, 1), (4, 1), (4, 2)] {
            set(f, file, record, 2, b"");
        }
        add(f, 8, &[(1, b"0000000007"), (2, b"0400000")]);
    });
    assert_eq!(all, cells(&[(8, 70, 3)]));
}

#[test]
fn all_files_of_one_ten_are_shown() {
    let found = of_rich(|f| {
        set(f, 2, 1, 9, b"000000008");
        add(f, 4, &[(1, b"0000000009"), (3, b"0100000")]);
        set(f, 5, 1, 7, b"0000000004");
        vertex(f, 1, 4, 140, 200, None);
        node(f, 9, 1, 1, None);
    });
    assert_eq!(
        found,
        cells(&[(2, 50, 1), (4, 50, 1), (5, 50, 1), (6, 50, 1), (7, 50, 1)])
    );
}

#[test]
fn only_the_lowest_ten_is_shown() {
    let mut files = small();
    add(&mut files, 1, &[(1, b"0400000"), (2, b"C")]);
    add(&mut files, 8, &[(1, b"0000000001"), (2, b"0400000")]);
    assert_eq!(counted(&files), cells(&[(8, 70, 1)]));
    set(&mut files, 7, 2, 4, b"000000141");
    set(&mut files, 6, 2, 2, b"00003");
    add(&mut files, 4, &[(1, b"0000000002"), (3, b"0100000")]);
    assert_eq!(
        counted(&files),
        cells(&[(4, 50, 1), (5, 50, 1), (6, 50, 2)])
    );
    set(&mut files, 5, 1, 3, b"0000000009");
    set(&mut files, 5, 1, 7, b"0000000009");
    assert_eq!(counted(&files), cells(&[(5, 40, 2)]));
    set(&mut files, 7, 2, 1, b"0000000001");
    assert_eq!(counted(&files), cells(&[(7, 30, 1)]));
    set(&mut files, 7, 2, 6, b"         1");
    set(&mut files, 1, 1, 2, b"");
    assert_eq!(counted(&files), cells(&[(1, 20, 1), (7, 20, 1)]));
    files[2].push(0);
    assert_eq!(counted(&files), cells(&[(3, 10, 1)]));
}

/// Random deliveries, against the slow list that the first break is held
/// against too.
#[test]
fn the_grid_counts_the_list() {
    let mut noise = Noise(0x201);
    let mut most = [0; 6];
    for _ in 0..12_000 {
        let mut files = rich();
        for _ in 0..noise.below(8) {
            disturb(&mut files, &mut noise);
        }
        let mut list = lowest_ten(&files);
        let mut expected = NONE;
        for &(ten, file, ..) in &list {
            expected[file - 1][column(10 * usize::from(ten))] += 1;
        }
        assert_eq!(counted(&files), expected);
        let accepted = matches!(judge(lent(&files)), Verdict::Accepted(_));
        assert_eq!(accepted, expected == NONE);
        // The list itself must hold no break twice.
        let length = list.len();
        list.sort_unstable();
        list.dedup();
        assert_eq!(list.len(), length);
        if let Some(&(ten, ..)) = list.first() {
            let most = &mut most[column(10 * usize::from(ten))];
            *most = length.max(*most);
        }
    }
    // Every ten came up with several breaks at once.
    assert!(most.iter().all(|&breaks| breaks > 1), "{most:?}");
}

/// As many records as a file may hold.
const FULL: usize = 16_384;

#[test]
fn every_field_of_full_files_broken() {
    let mut files = Files::default();
    let mut expected = Vec::new();
    for (i, widths) in WIDTHS.iter().enumerate() {
        files[i] = vec![0; FULL * LENGTHS[i]];
        // Each field is damaged and has no bar; the last has no line end.
        expected.push((i + 1, 20, (FULL * 2 * widths.len()) as u64));
    }
    assert_eq!(counted(&files), cells(&expected));
}

#[test]
fn every_key_of_full_files_the_same() {
    let mut files = rich();
    let mut expected = Vec::new();
    for (i, file) in files.iter_mut().enumerate() {
        *file = file[..LENGTHS[i]].repeat(FULL);
        expected.push((i + 1, 30, FULL as u64 - 1));
    }
    assert_eq!(counted(&files), cells(&expected));
}

#[test]
fn every_reference_of_full_files_broken() {
    let mut files = Files::default();
    for i in 0..FULL as u64 {
        let id = format!("{i:010}");
        let (id, none) = (id.as_bytes(), &b"9999999999"[..]);
        add(&mut files, 2, &[(1, id), (2, none), (3, none), (4, b"9")]);
        place(&mut files, 2, i as usize + 1, 8, 1, 1, None);
        add(&mut files, 4, &[(1, id), (2, none), (3, b"9")]);
        add(&mut files, 8, &[(1, id), (2, b"9")]);
        let names = [(1, id), (2, none), (3, id), (4, none), (5, &b"9"[..])];
        add(&mut files, 5, &names);
        set(&mut files, 5, i as usize + 1, 6, none);
        set(&mut files, 5, i as usize + 1, 7, none);
        vertex(&mut files, i, 1, 1, 1, None);
    }
    let full = FULL as u64;
    let expected = [
        (2, 40, 3 * full),
        (4, 40, 2 * full),
        (5, 40, 6 * full),
        (6, 40, full),
        (8, 40, full),
    ];
    assert_eq!(counted(&files), cells(&expected));
}

#[test]
fn every_place_of_full_files_broken() {
    let mut files = Files::default();
    add(&mut files, 1, &[(1, b"0100000"), (2, b"L")]);
    add(&mut files, 1, &[(1, b"0100001"), (2, b"T")]);
    add(&mut files, 1, &[(1, b"0200000"), (2, b"P")]);
    let zero = &b"0000000000"[..];
    for i in 0..FULL as u64 {
        let id = format!("{i:010}");
        let id = id.as_bytes();
        add(&mut files, 2, &[(1, id), (3, zero), (4, b"0200000")]);
        place(&mut files, 2, i as usize + 1, 8, 1, 1, None);
        add(&mut files, 4, &[(1, id), (3, b"0100000")]);
        // Every tramo has a line of its own, and one object and node for all.
        let names = [(1, id), (2, zero), (5, b"0100001"), (6, zero), (7, zero)];
        add(&mut files, 5, &names);
        vertex(&mut files, i, 1, 2, 2, None);
        node(&mut files, i, 3, 3, None);
    }
    let full = FULL as u64;
    let expected = [
        (2, 50, full),
        (4, 50, full - 1),
        (5, 50, 2 * full),
        (6, 50, full),
        (7, 50, 2 * (full - 1)),
    ];
    assert_eq!(counted(&files), cells(&expected));
}

#[test]
fn every_composite_of_a_full_file_without_use() {
    let mut files = small();
    add(&mut files, 1, &[(1, b"0400000"), (2, b"C")]);
    for i in 0..FULL {
        let id = format!("{i:010}");
        add(&mut files, 8, &[(1, id.as_bytes()), (2, b"0400000")]);
    }
    assert_eq!(counted(&files), cells(&[(8, 70, FULL as u64)]));
    set(&mut files, 4, 1, 2, b"0000016383");
    assert_eq!(counted(&files), cells(&[(8, 70, FULL as u64 - 1)]));
}

/// A grid whose cells are all different.
fn numbered() -> Grid {
    let mut grid = NONE;
    for (i, cell) in grid.iter_mut().flatten().enumerate() {
        *cell = i as u64 + 1;
    }
    grid
}

#[test]
fn grids_add_cell_by_cell() {
    let mut sum = NONE;
    for times in 1..=3 {
        assert!(independent::add(&mut sum, &numbered()));
        for (cell, one) in sum.iter().flatten().zip(numbered().iter().flatten()) {
            assert_eq!(*cell, times * one);
        }
    }
    let before = sum;
    assert!(independent::add(&mut sum, &NONE));
    assert_eq!(sum, before);
}

#[test]
fn grids_of_deliveries_add_up() {
    let mut sum = of_small(|f| set(f, 6, 2, 2, b"00003"));
    let bars = of_small(|f| f[6][after(7, 1, 1)] = b' ');
    for more in [bars, NONE, bars] {
        assert!(independent::add(&mut sum, &more));
    }
    assert_eq!(sum, cells(&[(6, 50, 2), (7, 20, 2)]));
}

/// Both ways round in every cell: ten digits fit, one more or more than 64
/// bits are refused and change nothing.
#[test]
fn a_sum_of_more_than_ten_digits_is_refused() {
    const MOST: u64 = 9_999_999_999;
    for file in 1..=FILES {
        for ten in [10, 20, 30, 40, 50, 70] {
            for (one, other, fits) in [
                (MOST, 0, true),
                (MOST - 1, 1, true),
                (MOST / 2, MOST / 2 + 1, true),
                (MOST, 1, false),
                (MOST + 1, 0, false),
                (MOST, MOST, false),
                (u64::MAX, 0, false),
                (u64::MAX, 1, false),
                (u64::MAX, MOST, false),
                (u64::MAX, u64::MAX, false),
                (1 << 63, 1 << 63, false),
            ] {
                for (a, b) in [(one, other), (other, one)] {
                    let mut into = numbered();
                    let mut from = numbered();
                    into[file - 1][column(ten)] = a;
                    from[file - 1][column(ten)] = b;
                    let before = into;
                    assert_eq!(independent::add(&mut into, &from), fits);
                    if fits {
                        assert_eq!(into[file - 1][column(ten)], a + b);
                    } else {
                        assert_eq!(into, before);
                    }
                }
            }
        }
    }
}
