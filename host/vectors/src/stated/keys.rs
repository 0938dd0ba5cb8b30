//! Keys, references and catalogue types: reasons 30, 40 and 41.

use super::{rich, Stated};
use deliveries::{CATALOGO, NODO, OB_LIN, OB_PUN, OB_TEX, TRAMO, VERTICE};

/// 30, key equals an earlier record's: later record, field 1 (VERTICE 2).
pub(super) fn reason_30() -> Vec<Stated> {
    vec![
        rich("r30-code-twice-under-two-types", "NO 30 1 00010 01", |d| {
            d.add(CATALOGO, "0100001;L;;");
        }),
        rich("r30-point-id-twice", "NO 30 2 00003 01", |d| {
            d.num(OB_PUN, 3, 1, 2);
        }),
        rich("r30-text-id-0-twice", "NO 30 3 00003 01", |d| {
            d.num(OB_TEX, 3, 1, 0);
        }),
        rich("r30-linear-object-twice", "NO 30 4 00003 01", |d| {
            d.num(OB_LIN, 3, 1, 7);
        }),
        rich("r30-tramo-id-twice", "NO 30 5 00007 01", |d| {
            d.num(TRAMO, 7, 1, 1);
        }),
        rich("r30-vertex-line-and-order-twice", "NO 30 6 00022 02", |d| {
            d.add(VERTICE, "20;10;1;1;");
        }),
        rich("r30-whole-vertex-twice-in-a-row", "NO 30 6 00003 02", |d| {
            let again = d.records[VERTICE][1].clone();
            d.records[VERTICE].insert(2, again);
        }),
        rich("r30-node-id-three-times", "NO 30 7 00005 01", |d| {
            d.num(NODO, 5, 1, 3);
            d.num(NODO, 8, 1, 3);
        }),
        rich("r30-before-40-of-a-lower-file", "NO 30 7 00009 01", |d| {
            d.text(OB_PUN, 1, 4, b"NOCODE");
            d.add(NODO, "6;;500;500;99");
        }),
    ]
}

/// 40, a reference that isn't missing names no record.
pub(super) fn reason_40() -> Vec<Stated> {
    vec![
        rich("r40-point-composite-0", "NO 40 2 00002 02", |d| {
            d.num(OB_PUN, 2, 2, 0);
        }),
        rich("r40-text-composite", "NO 40 3 00001 02", |d| {
            d.num(OB_TEX, 1, 2, 1);
        }),
        rich("r40-linear-composite", "NO 40 4 00002 02", |d| {
            d.num(OB_LIN, 2, 2, 3);
        }),
        rich("r40-perimeter-0", "NO 40 5 00004 03", |d| {
            d.num(TRAMO, 4, 3, 0);
        }),
        rich("r40-point-names-no-node", "NO 40 2 00003 03", |d| {
            // 7 is a linear object, no node
            d.num(OB_PUN, 3, 3, 7);
        }),
        rich("r40-point-code-not-catalogued", "NO 40 2 00004 04", |d| {
            d.text(OB_PUN, 4, 4, b"0200002");
        }),
        rich("r40-text-code-cut-short", "NO 40 3 00001 03", |d| {
            d.text(OB_TEX, 1, 3, b"030000");
        }),
        rich("r40-linear-code-not-catalogued", "NO 40 4 00001 03", |d| {
            d.text(OB_LIN, 1, 3, b"0100002");
        }),
        rich("r40-tramo-code-other-case", "NO 40 5 00004 05", |d| {
            d.text(TRAMO, 4, 5, b"n.d.");
        }),
        rich("r40-tramo-names-no-object", "NO 40 5 00001 02", |d| {
            d.num(TRAMO, 1, 2, 8);
        }),
        rich("r40-tramo-start-no-node", "NO 40 5 00006 06", |d| {
            d.num(TRAMO, 6, 6, 5);
        }),
        rich("r40-tramo-end-no-node", "NO 40 5 00005 07", |d| {
            d.num(TRAMO, 5, 7, 44);
        }),
        rich(
            "r40-blank-line-and-no-vertex-of-own-id",
            "NO 40 5 00002 04",
            |d| {
                // tramo 2: there is no line 2
                d.blank(TRAMO, 2, &[4]);
            },
        ),
        rich("r40-tramo-names-an-empty-line", "NO 40 5 00005 04", |d| {
            // and line 3's vertices have no tramo: later
            d.num(TRAMO, 5, 4, 30);
        }),
        rich("r40-given-line-hides-own-id", "NO 40 6 00013 01", |d| {
            // tramo 1 names line 20, so nobody uses line 1 though its vertices are there:
            // records 13, 14 and 15
            d.num(TRAMO, 1, 4, 20);
        }),
        rich("r40-line-0-isnt-a-blank-line", "NO 40 6 00013 01", |d| {
            d.num(TRAMO, 1, 4, 0);
        }),
        rich("r40-line-without-tramo", "NO 40 6 00022 01", |d| {
            d.add(VERTICE, "77;1;0;0;");
            d.add(VERTICE, "77;2;1;1;");
        }),
        rich("r40-line-5-while-vertices-say-6", "NO 40 5 00007 04", |d| {
            // R12: 40 at TRAMO field 4 and at field 1 of each of those vertices
            d.num(TRAMO, 7, 4, 5);
            for record in 18..=20 {
                d.num(VERTICE, record, 1, 6);
            }
        }),
        rich("r40-node-record-lost", "NO 40 2 00003 03", |d| {
            // points 3 and 0 named it
            d.lose(NODO, &[7]);
        }),
        rich("r40-catalogue-record-lost", "NO 40 4 00001 03", |d| {
            d.lose(CATALOGO, &[2]);
        }),
        rich("r40-catalogue-empty", "NO 40 2 00001 04", |d| {
            d.records[CATALOGO].clear();
        }),
        rich("r40-before-41-by-field", "NO 40 2 00001 03", |d| {
            d.num(OB_PUN, 1, 3, 99);
            d.text(OB_PUN, 1, 4, b"0300000");
        }),
        rich("r40-before-53", "NO 40 6 00022 01", |d| {
            d.place(VERTICE, 15, 141, 200, None);
            d.add(VERTICE, "77;1;0;0;");
        }),
    ]
}

/// 41, CODIGO is catalogued under another type than this file's.
pub(super) fn reason_41() -> Vec<Stated> {
    vec![
        rich("r41-point-with-a-text-code", "NO 41 2 00002 04", |d| {
            d.text(OB_PUN, 2, 4, b"9999999");
        }),
        rich("r41-text-with-a-point-code", "NO 41 3 00003 03", |d| {
            d.text(OB_TEX, 3, 3, b"0200000");
        }),
        rich(
            "r41-linear-object-with-a-tramo-code",
            "NO 41 4 00004 03",
            |d| {
                d.text(OB_LIN, 4, 3, b"0400001");
            },
        ),
        rich("r41-tramo-with-a-linear-code", "NO 41 5 00001 05", |d| {
            d.text(TRAMO, 1, 5, b"0100000");
        }),
        rich("r41-catalogue-type-changed", "NO 41 5 00004 05", |d| {
            // N.D. was T
            d.put(CATALOGO, 7, 2, b"L");
        }),
        rich("r41-before-40-by-field", "NO 41 5 00003 05", |d| {
            d.text(TRAMO, 3, 5, b"0100000");
            d.num(TRAMO, 3, 7, 99);
        }),
        rich("r41-before-55-of-a-lower-file", "NO 41 5 00007 05", |d| {
            d.num(OB_PUN, 1, 9, 201);
            d.text(TRAMO, 7, 5, b"0300000");
        }),
    ]
}
