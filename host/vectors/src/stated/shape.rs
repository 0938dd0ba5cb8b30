//! Files and records out of shape: reasons 10, 11, 20 and 21.

use super::{rich, s, Stated};
use deliveries::{CATALOGO, NODO, OB_LIN, OB_PUN, OB_TEX, TRAMO, VERTICE};

/// 10, file longer than 16,384 records' bytes: record 0, field 0. One such file
/// takes two fifths of the program's room.
pub(super) fn reason_10() -> Vec<Stated> {
    vec![s(
        "r10-one-byte-past-16384-records",
        "NO 10 7 00000 00",
        |d| {
            // 10 before 11 in one file
            let node = d.records[NODO][0].clone();
            d.records[NODO] = vec![node; 16_384];
            d.after(NODO, b" ");
        },
    )]
}

/// 11, length no multiple of the record length: whole records plus 1, field 0.
pub(super) fn reason_11() -> Vec<Stated> {
    vec![
        rich("r11-catalogo-last-byte-lost", "NO 11 1 00009 00", |d| {
            // eight whole records are left
            d.cut(CATALOGO, 9, 132);
        }),
        rich("r11-nodo-empty-line-at-the-end", "NO 11 7 00009 00", |d| {
            d.after(NODO, b"\r\n");
        }),
        rich("r11-end-of-file-mark-1a", "NO 11 5 00008 00", |d| {
            d.after(TRAMO, b"\x1a");
        }),
        rich("r11-vertice-line-feeds-only", "NO 11 6 00021 00", |d| {
            // 21 records of 53 bytes are 1113: 20 whole ones of 54 and 33 bytes
            for record in &mut d.records[VERTICE] {
                record.truncate(52);
                record.push(b'\n');
            }
        }),
        rich("r11-one-byte-file", "NO 11 3 00001 00", |d| {
            d.records[OB_TEX].clear();
            d.after(OB_TEX, b" ");
        }),
        rich("r11-lowest-of-two-files", "NO 11 2 00005 00", |d| {
            d.after(OB_PUN, b"0");
            d.cut(OB_LIN, 1, 127);
        }),
        rich("r11-before-20-of-a-lower-file", "NO 11 7 00008 00", |d| {
            // the record's end in file 1 is reason 20, of a higher ten
            d.end(CATALOGO, 1, b"\n\r");
            d.cut(NODO, 8, 10);
        }),
        rich("r11-header-line", "NO 11 4 00005 00", |d| {
            // 15 bytes before the first record: 4 x 128 + 15 is 4 whole records and 15
            d.before(OB_LIN, 1, b"ID_OLIN|ID_C|\r\n");
        }),
    ]
}

/// 20, record doesn't end in 0D 0A: field 0.
pub(super) fn reason_20() -> Vec<Stated> {
    vec![
        rich("r20-line-feed-before-return", "NO 20 4 00002 00", |d| {
            d.end(OB_LIN, 2, b"\n\r");
        }),
        rich("r20-blank-and-line-feed", "NO 20 1 00009 00", |d| {
            d.end(CATALOGO, 9, b" \n");
        }),
        rich("r20-two-returns", "NO 20 7 00001 00", |d| {
            d.end(NODO, 1, b"\r\r");
        }),
        rich("r20-bar-and-blank-for-the-end", "NO 20 5 00007 00", |d| {
            d.end(TRAMO, 7, b"| ");
        }),
        rich(
            "r20-one-digit-too-many-and-one-byte-lost",
            "NO 20 7 00003 00",
            |d| {
                // node 3's id has a digit more, the file's last byte is lost: the length is
                // right, record 3 ends in a blank and 0D. Nothing is brought back into step.
                d.before(NODO, 3, b"0");
                d.cut(NODO, 8, 49);
            },
        ),
        rich("r20-before-21-in-one-record", "NO 20 6 00004 00", |d| {
            d.end(VERTICE, 4, b"\n\n");
            d.bar(VERTICE, 4, 1, b';');
        }),
        rich("r20-lowest-file-first", "NO 20 2 00004 00", |d| {
            d.end(OB_PUN, 4, b"\n\n");
            d.blank(OB_TEX, 1, &[1]);
        }),
    ]
}

/// 21, no bar after a field: that field.
pub(super) fn reason_21() -> Vec<Stated> {
    vec![
        rich("r21-semicolon", "NO 21 5 00002 03", |d| {
            d.bar(TRAMO, 2, 3, b';');
        }),
        rich("r21-all-bars-are-commas", "NO 21 7 00004 01", |d| {
            for field in 1..8 {
                d.bar(NODO, 4, field, b',');
            }
        }),
        rich("r21-last-bar", "NO 21 6 00021 07", |d| {
            d.bar(VERTICE, 21, 7, b' ');
        }),
        rich("r21-broken-bar-a6", "NO 21 1 00003 02", |d| {
            d.bar(CATALOGO, 3, 2, b'\xa6');
        }),
        rich("r21-fields-one-place-on", "NO 21 4 00001 03", |d| {
            // the code of eight bytes pushes the bar on into the name's first place and
            // the name's last blank out: the byte after field 3 is a digit. The bar
            // inside the name is text, so this is the record's only break.
            let record = &mut d.records[OB_LIN][0];
            record.remove(89);
            record.splice(22..30, *b"01000000|");
        }),
        rich("r21-before-22-at-one-field", "NO 21 6 00005 04", |d| {
            d.bar(VERTICE, 5, 4, b':');
            d.put(VERTICE, 5, 4, b"      1.5");
        }),
    ]
}
