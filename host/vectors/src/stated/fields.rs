//! Fields that break their rules: reasons 22 to 25.

use super::{objects, rich, s, Stated};
use crate::draft::Draft;
use deliveries::{CATALOGO, NODO, OB_LIN, OB_PUN, OB_TEX, TRAMO, VERTICE};

/// 22, N field neither all digits nor all blanks.
pub(super) fn reason_22() -> Vec<Stated> {
    vec![
        rich("r22-blanks-before-digits", "NO 22 7 00005 01", |d| {
            d.put(NODO, 5, 1, b"         4");
        }),
        rich("r22-blanks-after-digits", "NO 22 6 00002 02", |d| {
            d.put(VERTICE, 2, 2, b"11   ");
        }),
        rich("r22-decimal-point", "NO 22 3 00001 10", |d| {
            d.put(OB_TEX, 1, 10, b"000150.00");
        }),
        rich("r22-sign-inside-the-number", "NO 22 6 00001 04", |d| {
            d.put(VERTICE, 1, 4, b"-00000030");
        }),
        rich("r22-letter-o-for-zero", "NO 22 5 00005 04", |d| {
            d.put(TRAMO, 5, 4, b"000000000O");
        }),
        rich("r22-no-break-blanks", "NO 22 4 00003 02", |d| {
            d.put(OB_LIN, 3, 2, &[0xa0; 10]);
        }),
        rich("r22-nul-bytes", "NO 22 2 00002 06", |d| {
            d.put(OB_PUN, 2, 6, &[0; 5]);
        }),
        rich("r22-nd-in-a-number", "NO 22 2 00003 07", |d| {
            d.put(OB_PUN, 3, 7, b"ND ");
        }),
        rich("r22-z-of-a-centroid", "NO 22 4 00001 10", |d| {
            d.put(OB_LIN, 1, 10, b"0000003 ");
        }),
        rich("r22-justification-letter", "NO 22 3 00002 08", |d| {
            d.put(OB_TEX, 2, 8, b"C");
        }),
        rich(
            "r22-demanded-number-with-one-tab",
            "NO 22 6 00019 01",
            |d| {
                d.put(VERTICE, 19, 1, b"         \t");
            },
        ),
    ]
}

/// 23, A field breaks the A rule.
pub(super) fn reason_23() -> Vec<Stated> {
    vec![
        rich("r23-tab-in-a-name", "NO 23 4 00001 04", |d| {
            d.text(OB_LIN, 1, 4, b"Camino\tReal");
        }),
        rich("r23-delete-7f", "NO 23 3 00001 04", |d| {
            d.text(OB_TEX, 1, 4, b"CAMINO\x7fREAL");
        }),
        rich("r23-byte-80", "NO 23 1 00001 03", |d| {
            d.text(CATALOGO, 1, 3, b"\x80 EUROS");
        }),
        rich("r23-byte-9f-last", "NO 23 1 00002 04", |d| {
            let mut text = [b'x'; 60];
            text[59] = 0x9f;
            d.put(CATALOGO, 2, 4, &text);
        }),
        rich("r23-name-begins-with-a-blank", "NO 23 2 00001 05", |d| {
            d.text(OB_PUN, 1, 5, b" Pozo del Norte");
        }),
        rich("r23-name-justified-right", "NO 23 2 00003 05", |d| {
            d.put(OB_PUN, 3, 5, format!("{:>60}", "Mojon").as_bytes());
        }),
        rich("r23-code-blank-na", "NO 23 5 00001 05", |d| {
            d.put(TRAMO, 1, 5, b" NA    ");
        }),
        rich("r23-catalogue-code-blank-first", "NO 23 1 00009 01", |d| {
            d.put(CATALOGO, 9, 1, b" 999999");
        }),
        rich("r23-sign-of-nul", "NO 23 7 00006 05", |d| {
            d.put(NODO, 6, 5, b"\0");
        }),
        rich("r23-catalogue-type-control-byte", "NO 23 1 00005 02", |d| {
            // 23, and then no 25
            d.put(CATALOGO, 5, 2, b"\x0c");
        }),
        rich("r23-node-type-1f", "NO 23 7 00001 02", |d| {
            d.put(NODO, 1, 2, b"\x1f");
        }),
        rich("r23-sense-of-a-return", "NO 23 5 00007 08", |d| {
            d.put(TRAMO, 7, 8, b"\r");
        }),
        rich("r23-utf-8-name", "NO 23 2 00003 05", |d| {
            // O with acute accent in UTF-8 is C3 93, and 93 is outside the A set
            d.text(OB_PUN, 3, 5, b"MOJ\xc3\x93N");
        }),
        rich(
            "r23-damaged-sign-beside-blank-number",
            "NO 23 7 00002 07",
            |d| {
                // 23 at 7, then 24 at 8
                d.put(NODO, 2, 7, b"\x01");
            },
        ),
    ]
}

/// 23, a text that begins or ends in byte A0, the no-break blank (W-202). The
/// text is the field without the blanks after it; near.rs has the near misses.
pub(super) fn reason_23_by_a0() -> Vec<Stated> {
    vec![
        s("r23-no-break-blank-first", "NO 23 4 00001 04", |d| {
            d.text(OB_LIN, 1, 4, b"\xa0Camino");
        }),
        s("r23-no-break-blank-last", "NO 23 4 00001 04", |d| {
            let mut text = [b'x'; 60];
            text[59] = 0xa0;
            d.put(OB_LIN, 1, 4, &text);
        }),
        s(
            "r23-no-break-blank-before-the-blanks",
            "NO 23 1 00001 03",
            |d| {
                d.text(CATALOGO, 1, 3, b"CAMINO\xa0");
            },
        ),
        s("r23-no-break-blank-alone", "NO 23 1 00002 04", |d| {
            // no text, and yet not missing
            d.text(CATALOGO, 2, 4, b"\xa0");
        }),
        s("r23-name-of-no-break-blanks", "NO 23 4 00001 04", |d| {
            d.put(OB_LIN, 1, 4, &[0xa0; 60]);
        }),
        s(
            "r23-code-na-and-a-no-break-blank",
            "NO 23 5 00001 05",
            |d| {
                d.text(TRAMO, 1, 5, b"NA\xa0");
            },
        ),
        s(
            "r23-catalogue-code-no-break-blank-last",
            "NO 23 1 00001 01",
            |d| {
                d.text(CATALOGO, 1, 1, b"010000\xa0");
            },
        ),
        s("r23-sign-of-a-no-break-blank", "NO 23 7 00001 03", |d| {
            d.put(NODO, 1, 3, b"\xa0");
        }),
        s(
            "r23-sign-of-a-no-break-blank-beside-no-z",
            "NO 23 7 00002 07",
            |d| {
                // 23 at 7, then 24 at 8: the sign isn't missing
                d.put(NODO, 2, 7, b"\xa0");
            },
        ),
        s("r23-sense-of-a-no-break-blank", "NO 23 5 00001 08", |d| {
            d.put(TRAMO, 1, 8, b"\xa0");
        }),
        rich(
            "r23-catalogue-type-no-break-blank",
            "NO 23 1 00004 02",
            |d| {
                // 23, and then no 25
                d.put(CATALOGO, 4, 2, b"\xa0");
            },
        ),
        s("r23-node-type-no-break-blank", "NO 23 7 00002 02", |d| {
            d.put(NODO, 2, 2, b"\xa0");
        }),
        rich(
            "r23-all-names-filled-with-no-break-blanks",
            "NO 23 1 00001 03",
            |d| {
                // The story: two converters fill short names with A0.
                for (file, fields) in [
                    (CATALOGO, &[3, 4][..]),
                    (OB_PUN, &[5]),
                    (OB_TEX, &[4]),
                    (OB_LIN, &[4]),
                ] {
                    fill_with_a0(d, file, fields);
                }
            },
        ),
    ]
}

/// Texts that aren't missing filled up to their fields' widths.
fn fill_with_a0(d: &mut Draft, file: usize, fields: &[usize]) {
    for record in 1..=d.records[file].len() {
        for &field in fields {
            let text = d.get(file, record, field);
            if let Some(last) = text.iter().rposition(|&byte| byte != b' ') {
                let mut filled = text;
                filled[last + 1..].fill(0xa0);
                d.put(file, record, field, &filled);
            }
        }
    }
}

/// 24, missing where it may not be, or blank while a partner isn't.
pub(super) fn reason_24() -> Vec<Stated> {
    vec![
        rich("r24-catalogue-code-blank", "NO 24 1 00009 01", |d| {
            d.blank(CATALOGO, 9, &[1]);
        }),
        rich("r24-catalogue-code-nd", "NO 24 1 00009 01", |d| {
            d.text(CATALOGO, 9, 1, b"ND");
        }),
        rich("r24-catalogue-type-blank", "NO 24 1 00009 02", |d| {
            d.blank(CATALOGO, 9, &[2]);
        }),
        rich("r24-point-code-na", "NO 24 2 00001 04", |d| {
            d.text(OB_PUN, 1, 4, b"NA");
        }),
        rich("r24-text-code-nd", "NO 24 3 00002 03", |d| {
            d.text(OB_TEX, 2, 3, b"ND");
        }),
        rich("r24-point-id-blank", "NO 24 2 00004 01", |d| {
            d.blank(OB_PUN, 4, &[1]);
        }),
        rich("r24-text-height-blank", "NO 24 3 00002 05", |d| {
            d.blank(OB_TEX, 2, &[5]);
        }),
        rich("r24-text-justification-blank", "NO 24 3 00003 08", |d| {
            d.blank(OB_TEX, 3, &[8]);
        }),
        rich("r24-linear-object-id-blank", "NO 24 4 00004 01", |d| {
            d.blank(OB_LIN, 4, &[1]);
        }),
        rich("r24-tramo-object-blank", "NO 24 5 00003 02", |d| {
            d.blank(TRAMO, 3, &[2]);
        }),
        rich("r24-tramo-start-blank", "NO 24 5 00006 06", |d| {
            d.blank(TRAMO, 6, &[6]);
        }),
        rich("r24-tramo-end-blank", "NO 24 5 00007 07", |d| {
            // blank isn't node 0
            d.blank(TRAMO, 7, &[7]);
        }),
        rich("r24-vertex-line-blank", "NO 24 6 00016 01", |d| {
            // blank isn't line 0
            d.blank(VERTICE, 16, &[1]);
        }),
        rich("r24-vertex-order-blank", "NO 24 6 00014 02", |d| {
            d.blank(VERTICE, 14, &[2]);
        }),
        rich("r24-node-id-blank", "NO 24 7 00006 01", |d| {
            d.blank(NODO, 6, &[1]);
        }),
        rich("r24-node-x-and-sign-blank", "NO 24 7 00002 03", |d| {
            d.blank(NODO, 2, &[3, 4]);
        }),
        rich("r24-point-y-blank-its-sign-kept", "NO 24 2 00002 11", |d| {
            d.blank(OB_PUN, 2, &[11]);
        }),
        rich("r24-vertex-sign-left-out", "NO 24 6 00003 05", |d| {
            // as example 10.3 prints its positions
            d.blank(VERTICE, 3, &[5]);
        }),
        rich("r24-z-without-sign", "NO 24 7 00001 07", |d| {
            d.blank(NODO, 1, &[7]);
        }),
        rich("r24-sign-without-z", "NO 24 7 00002 08", |d| {
            d.put(NODO, 2, 7, b"+");
        }),
        rich("r24-minus-without-z", "NO 24 6 00001 08", |d| {
            // 24 at the number and no 25 (R06)
            d.put(VERTICE, 1, 7, b"-");
        }),
        rich("r24-centroid-z-alone", "NO 24 4 00003 05", |d| {
            d.put(OB_LIN, 3, 9, b"+");
            d.num(OB_LIN, 3, 10, 5);
        }),
        rich("r24-centroid-without-y", "NO 24 4 00002 07", |d| {
            d.blank(OB_LIN, 2, &[7, 8]);
        }),
        rich("r24-centroid-one-sign-alone", "NO 24 4 00003 05", |d| {
            // 24 at 5, 6 and 8
            d.put(OB_LIN, 3, 7, b"+");
        }),
        rich(
            "r24-blank-sign-beside-damaged-number",
            "NO 24 7 00004 07",
            |d| {
                // 22 at 8 is later
                d.blank(NODO, 4, &[7]);
                d.put(NODO, 4, 8, b"      -5");
            },
        ),
        rich("r24-before-21-of-a-later-record", "NO 24 5 00001 02", |d| {
            d.blank(TRAMO, 1, &[2]);
            d.bar(TRAMO, 2, 1, b';');
        }),
    ]
}

/// 25, not missing and outside its domain.
pub(super) fn reason_25() -> Vec<Stated> {
    vec![
        rich("r25-catalogue-type-s", "NO 25 1 00009 02", |d| {
            d.put(CATALOGO, 9, 2, b"S");
        }),
        rich("r25-catalogue-type-small-letter", "NO 25 1 00003 02", |d| {
            d.put(CATALOGO, 3, 2, b"p");
        }),
        // the byte beside the no-break blank is damage nowhere
        s("r25-catalogue-type-a1", "NO 25 1 00001 02", |d| {
            d.put(CATALOGO, 1, 2, b"\xa1");
        }),
        s("r25-sign-a1", "NO 25 7 00001 03", |d| {
            d.put(NODO, 1, 3, b"\xa1");
        }),
        s("r25-sense-a1", "NO 25 5 00001 08", |d| {
            d.put(TRAMO, 1, 8, b"\xa1");
        }),
        rich("r25-minus-zero-x", "NO 25 2 00002 08", |d| {
            // the sign there is -
            d.num(OB_PUN, 2, 9, 0);
        }),
        rich("r25-minus-zero-y", "NO 25 6 00001 05", |d| {
            // Y is 0
            d.put(VERTICE, 1, 5, b"-");
        }),
        rich("r25-minus-zero-z", "NO 25 7 00006 07", |d| {
            // Z is 0
            d.put(NODO, 6, 7, b"-");
        }),
        rich("r25-minus-zero-centroid", "NO 25 4 00004 05", |d| {
            d.put(OB_LIN, 4, 5, b"-");
        }),
        rich("r25-sign-of-zero-as-0", "NO 25 6 00016 05", |d| {
            d.put(VERTICE, 16, 5, b"0");
        }),
        rich("r25-sign-e", "NO 25 3 00001 09", |d| {
            d.put(OB_TEX, 1, 9, b"E");
        }),
        rich("r25-soft-hyphen-for-minus", "NO 25 7 00006 05", |d| {
            d.put(NODO, 6, 5, b"\xad");
        }),
        rich(
            "r25-wrong-sign-before-blank-number",
            "NO 25 7 00002 07",
            |d| {
                // 25 at 7, then 24 at 8
                d.put(NODO, 2, 7, b"*");
            },
        ),
        rich(
            "r25-wrong-sign-before-zero-is-told-once",
            "NO 25 7 00006 07",
            |d| {
                d.put(NODO, 6, 7, b"=");
            },
        ),
        rich("r25-sense-d", "NO 25 5 00003 08", |d| {
            d.put(TRAMO, 3, 8, b"D");
        }),
    ]
}

/// 25 by the notes of source 000's section 5.6 (W-203): orientation (5.6.6),
/// justification (5.6.7) and a node's TIPO (5.6.11).
pub(super) fn reason_25_by_notes() -> Vec<Stated> {
    vec![
        objects("r25-orientation-36000", "NO 25 2 00001 06", |d| {
            d.num(OB_PUN, 1, 6, 36000);
        }),
        objects("r25-orientation-35960", "NO 25 3 00001 07", |d| {
            d.num(OB_TEX, 1, 7, 35960);
        }),
        objects("r25-orientation-00060", "NO 25 2 00001 06", |d| {
            d.num(OB_PUN, 1, 6, 60);
        }),
        objects("r25-orientation-99999", "NO 25 3 00001 07", |d| {
            d.num(OB_TEX, 1, 7, 99999);
        }),
        objects("r25-justification-0", "NO 25 3 00001 08", |d| {
            d.num(OB_TEX, 1, 8, 0);
        }),
        s("r25-node-type-small-letter", "NO 25 7 00001 02", |d| {
            d.put(NODO, 1, 2, b"e");
        }),
        s("r25-node-type-p", "NO 25 7 00002 02", |d| {
            d.put(NODO, 2, 2, b"P");
        }),
        s("r25-node-type-bar", "NO 25 7 00001 02", |d| {
            d.put(NODO, 1, 2, b"|");
        }),
        s("r25-node-type-a1", "NO 25 7 00001 02", |d| {
            d.put(NODO, 1, 2, b"\xa1");
        }),
        s("r25-before-58-of-a-lower-node", "NO 25 7 00002 02", |d| {
            // H disagrees, which nobody asks before every code is one
            d.put(NODO, 1, 2, b"H");
            d.put(NODO, 2, 2, b"h");
        }),
    ]
}
