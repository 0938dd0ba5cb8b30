//! Near misses that stay accepted.

use super::bases::{ALONE_OK, KINDS_OK, OBJECTS_OK, RICH_OK, S_OK};
use super::topology::pass_own_start;
use super::{alone, kinds, objects, rich, s, sort_line_20_as_text, Stated};
use deliveries::{CATALOGO, NODO, OB_LIN, OB_PUN, OB_TEX, TRAMO, VERTICE};

pub(super) fn near_misses() -> Vec<Stated> {
    vec![
        rich("ok-equal-ids-in-different-files", RICH_OK, |d| {
            // point 2 becomes 10 like node 10, text 1 becomes 6 like node 6
            d.num(OB_PUN, 2, 1, 10);
            d.num(OB_TEX, 1, 1, 6);
        }),
        s("ok-id-0-everywhere", S_OK, |d| {
            d.num(OB_LIN, 1, 1, 0);
            d.num(TRAMO, 1, 1, 0);
            d.num(TRAMO, 1, 2, 0);
            d.num(TRAMO, 1, 6, 0);
            d.num(VERTICE, 1, 1, 0);
            d.num(VERTICE, 2, 1, 0);
            d.num(NODO, 1, 1, 0);
        }),
        s("ok-highest-ids", S_OK, |d| {
            let top = 9_999_999_999;
            d.num(OB_LIN, 1, 1, top);
            d.num(TRAMO, 1, 1, top);
            d.num(TRAMO, 1, 2, top);
            d.num(TRAMO, 1, 7, top);
            d.num(VERTICE, 1, 1, top);
            d.num(VERTICE, 2, 1, top);
            d.num(NODO, 2, 1, top);
        }),
        s(
            "ok-code-that-nobody-uses",
            "OK 00004 00000 00000 00001 00001 00002 00002 00000",
            |d| {
                d.add(CATALOGO, "0100002;P;;");
                d.add(CATALOGO, "NAD;X;;");
            },
        ),
        s(
            "ok-catalogue-alone",
            "OK 00002 00000 00000 00000 00000 00000 00000 00000",
            |d| {
                for file in [OB_LIN, TRAMO, VERTICE, NODO] {
                    d.records[file].clear();
                }
            },
        ),
        rich("ok-codes-that-look-missing", RICH_OK, |d| {
            // na, and N with a blank inside, are codes like others
            d.text(CATALOGO, 7, 1, b"na");
            d.text(TRAMO, 4, 5, b"na");
            d.text(CATALOGO, 4, 1, b"N D");
            for record in 1..=3 {
                d.text(OB_TEX, record, 3, b"N D");
            }
        }),
        rich(
            "ok-nodes-at-one-place-by-z",
            "OK 00009 00004 00003 00004 00007 00021 00011 00000",
            |d| {
                // at node 2's X and Y: Z 0, -7 and 8 besides 7 and none
                d.add(NODO, "30;;140;200;0");
                d.add(NODO, "31;;140;200;-7");
                d.add(NODO, "32;;140;200;8");
            },
        ),
        rich("ok-z-0-isnt-a-missing-z", RICH_OK, |d| {
            d.num(NODO, 3, 8, 0);
        }),
        rich("ok-bars-in-texts", RICH_OK, |d| {
            d.text(CATALOGO, 1, 3, b"|");
            d.text(CATALOGO, 1, 4, &[b'|'; 60]);
            d.text(OB_PUN, 1, 5, b"Pozo|del|Norte");
            d.text(OB_TEX, 1, 4, b"|CAMINO|REAL|");
            d.text(OB_LIN, 1, 4, b"Camino|Real");
        }),
        rich("ok-bars-for-a-code", RICH_OK, |d| {
            d.text(CATALOGO, 7, 1, b"|||||||");
            d.text(TRAMO, 4, 5, b"|||||||");
        }),
        s(
            "ok-orders-10-and-2-the-wrong-way-round",
            "OK 00002 00000 00000 00001 00001 00010 00002 00000",
            |d| {
                // line 1 with ten vertices, 10 first in the file and 2 last
                d.records[VERTICE].swap(0, 1);
                d.num(VERTICE, 1, 2, 10);
                for order in (2..10).rev() {
                    d.add(VERTICE, &format!("1;{order};{};200;", 100 + 4 * order));
                }
            },
        ),
        rich("ok-10-stands-before-2-in-the-file", RICH_OK, |d| {
            // The story: a converter sorted line 20 by unpadded text (1, 10, 11, 2, 3 ...
            // 9) and left the order numbers alone. Only the order number counts.
            sort_line_20_as_text(d);
        }),
        rich("ok-every-file-turned-round", RICH_OK, |d| {
            for records in &mut d.records {
                records.reverse();
            }
        }),
        s("ok-negative-coordinates", S_OK, |d| {
            for file in [VERTICE, NODO] {
                d.place(file, 1, -100, -200, None);
                d.place(file, 2, -999_999_999, -9_999_999_999, Some(-99_999_999));
            }
        }),
        rich("ok-z-missing-at-one-end", RICH_OK, |d| {
            // vertex 1 of line 1 loses its Z, node 1 keeps 50; node 2 has none, its
            // vertex has 9 already
            d.blank(VERTICE, 14, &[7, 8]);
        }),
        rich("ok-z-differs-at-an-end-and-at-a-point", RICH_OK, |d| {
            d.num(VERTICE, 14, 8, 51);
            d.num(OB_PUN, 4, 13, 13);
        }),
        rich("ok-sense-the-other-way", RICH_OK, |d| {
            d.put(TRAMO, 1, 8, b"-");
            d.put(TRAMO, 3, 8, b"+");
        }),
        rich("ok-blank-line-filled-with-own-id", RICH_OK, |d| {
            d.num(TRAMO, 1, 4, 1);
            d.num(TRAMO, 7, 4, 9);
        }),
        rich("ok-line-given-by-own-id-blanked", RICH_OK, |d| {
            d.blank(TRAMO, 5, &[4]);
        }),
        rich("ok-all-that-may-be-missing-is", RICH_OK, |d| {
            for record in 1..=9 {
                d.blank(CATALOGO, record, &[3, 4]);
            }
            for record in 1..=4 {
                d.blank(OB_PUN, record, &[5, 6, 7, 12, 13]);
                d.blank(OB_LIN, record, &[4, 5, 6, 7, 8, 9, 10]);
            }
            for record in 1..=3 {
                d.blank(OB_TEX, record, &[4, 6, 7, 13, 14]);
            }
            for record in 1..=7 {
                d.blank(TRAMO, record, &[8]);
            }
            for record in 1..=21 {
                d.blank(VERTICE, record, &[7, 8]);
            }
            for record in 1..=8 {
                d.blank(NODO, record, &[2]);
                // node 3 needs its Z: node 2 stands there too
                if record != 3 {
                    d.blank(NODO, record, &[7, 8]);
                }
            }
        }),
        s("ok-no-break-blanks-within-texts", S_OK, |d| {
            // second, last but one, and all between
            d.text(CATALOGO, 1, 3, b"C\xa0MINO");
            d.text(CATALOGO, 1, 4, b"Camino \xa0 de tierr\xa0a");
            let mut text = [0xa0; 60];
            text[0] = b'x';
            text[59] = b'x';
            d.put(OB_LIN, 1, 4, &text);
        }),
        s("ok-no-break-blanks-within-codes", S_OK, |d| {
            d.text(CATALOGO, 1, 1, b"NA\xa0A");
            d.text(OB_LIN, 1, 3, b"NA\xa0A");
            d.text(CATALOGO, 2, 1, b"1\xa0\xa0\xa0\xa0\xa02");
            d.text(TRAMO, 1, 5, b"1\xa0\xa0\xa0\xa0\xa02");
        }),
        s("ok-byte-a1-at-both-ends", S_OK, |d| {
            // the byte beside the no-break blank, also alone and after NA
            d.text(CATALOGO, 1, 3, b"\xa1");
            d.text(CATALOGO, 1, 1, b"NA\xa1");
            d.text(OB_LIN, 1, 3, b"NA\xa1");
            d.text(OB_LIN, 1, 4, b"\xa1Camino\xa1");
        }),
        rich("ok-highest-bytes-in-texts", RICH_OK, |d| {
            d.text(OB_PUN, 1, 5, b"\xff~!\xa0\xfe");
        }),
        rich("ok-any-digits-in-m-height-and-width", RICH_OK, |d| {
            d.num(OB_PUN, 1, 7, 999);
            d.num(OB_TEX, 1, 5, 0);
            d.num(OB_TEX, 1, 6, 999);
        }),
        rich("ok-node-on-a-middle-vertex-with-another-z", RICH_OK, |d| {
            d.put(NODO, 8, 7, b"-");
            d.num(NODO, 8, 8, 1);
        }),
        rich("ok-texts-and-centroids-anywhere", RICH_OK, |d| {
            d.place(OB_TEX, 1, -1, -1, Some(-1));
            d.place(OB_LIN, 1, 999999999, -9999999999, Some(0));
        }),
        rich("ok-vertices-of-one-line-at-one-place", RICH_OK, |d| {
            // line 9 shrinks to a point
            d.place(VERTICE, 20, 0, -500, None);
        }),
        s(
            "ok-line-of-two-vertices-at-one-place",
            "OK 00002 00000 00000 00001 00001 00002 00001 00000",
            |d| {
                d.place(VERTICE, 2, 100, 200, None);
                d.num(TRAMO, 1, 7, 1);
                d.lose(NODO, &[2]);
            },
        ),
        rich("ok-tramo-id-of-a-line-it-doesnt-use", RICH_OK, |d| {
            // tramos 0 and 9 exchange lines by naming them, and their nodes with them
            d.num(TRAMO, 6, 4, 9);
            d.num(TRAMO, 6, 6, 0);
            d.num(TRAMO, 6, 7, 0);
            d.num(TRAMO, 7, 4, 0);
            d.num(TRAMO, 7, 6, 4);
            d.num(TRAMO, 7, 7, 0);
        }),
        rich(
            "ok-points-texts-and-nodes-without-lines",
            "OK 00009 00004 00003 00000 00000 00000 00002 00000",
            |d| {
                for file in [OB_LIN, TRAMO, VERTICE] {
                    d.records[file].clear();
                }
                // nodes 10 and 6 are left, and each is named by two points
                d.lose(NODO, &[1, 2, 3, 5, 6, 8]);
                d.num(OB_PUN, 2, 3, 10);
                d.place(OB_PUN, 2, 200, 300, None);
                d.put(NODO, 1, 2, b"A");
            },
        ),
    ]
}

/// Codes of nodes that agree with what the nodes are, and values at the edges
/// of their domains (W-203).
pub(super) fn near_codes_and_domains() -> Vec<Stated> {
    vec![
        kinds("ok-nodes-without-codes", KINDS_OK, |_| {}),
        kinds("ok-the-code-of-each-kind", KINDS_OK, |d| {
            for (record, code) in [(1, b"E"), (2, b"E"), (3, b"H"), (4, b"E"), (5, b"I")] {
                d.put(NODO, record, 2, code);
            }
        }),
        kinds("ok-c-for-each-kind-but-isolated", KINDS_OK, |d| {
            for record in 1..=5 {
                d.put(NODO, record, 2, b"C");
            }
        }),
        alone("ok-isolated-node-without-a-code", ALONE_OK, |_| {}),
        alone("ok-a-for-an-isolated-node", ALONE_OK, |d| {
            d.put(NODO, 1, 2, b"A");
        }),
        alone(
            "ok-isolated-node-of-three-points",
            "OK 00001 00003 00000 00000 00000 00000 00001 00000",
            |d| {
                d.add(OB_PUN, "3;;1;0200000;;;;50;50;7");
                d.put(NODO, 1, 2, b"A");
            },
        ),
        kinds(
            "ok-second-node-at-an-end-and-between",
            "OK 00002 00000 00000 00001 00002 00006 00007 00000",
            |d| {
                // by X and Y they are what the nodes below them are
                d.add(NODO, "6;E;0;0;9");
                d.add(NODO, "7;H;10;0;9");
            },
        ),
        s(
            "ok-end-that-its-own-line-passes",
            "OK 00002 00000 00000 00001 00001 00003 00002 00000",
            |d| {
                pass_own_start(d);
                d.put(NODO, 1, 2, b"H");
                d.put(NODO, 2, 2, b"E");
            },
        ),
        kinds(
            "ok-one-point-on-an-intermediate-node",
            "OK 00003 00001 00000 00001 00002 00006 00005 00000",
            |d| {
                d.add(CATALOGO, "0200000;P;;");
                d.add(OB_PUN, "1;;5;0200000;;;;5;0;");
                d.put(NODO, 5, 2, b"I");
            },
        ),
        objects("ok-orientation-35959-and-59", OBJECTS_OK, |d| {
            d.num(OB_PUN, 1, 6, 35959);
            d.num(OB_TEX, 1, 7, 59);
            d.num(OB_TEX, 1, 8, 1);
        }),
        objects("ok-orientation-35900-and-100", OBJECTS_OK, |d| {
            d.num(OB_PUN, 1, 6, 100);
            d.num(OB_TEX, 1, 7, 35900);
            d.num(OB_TEX, 1, 8, 9);
        }),
        objects("ok-orientation-missing", OBJECTS_OK, |d| {
            d.blank(OB_PUN, 1, &[6]);
            d.blank(OB_TEX, 1, &[7]);
        }),
    ]
}
