//! Document 01's S and its cases, and the examples of source 000.

use super::bases::{EXAMPLE, NODES_OF_10_3, NODES_OF_10_4, NODES_OF_10_5, RICH_OK, S_OK};
use super::{rich, s, Stated};
use deliveries::{NODO, OB_LIN, TRAMO, VERTICE};

pub(super) fn cases() -> Vec<Stated> {
    vec![
        s("s", S_OK, |_| {}),
        Stated::over(
            EXAMPLE,
            "ejemplo-10-2",
            "OK 00007 00002 00001 00004 00006 00016 00006 00000",
            |_| {},
        ),
        // Its tramos under - are turned round, which R01 doesn't do; 12 and 14 don't
        // end where their lines do. All codes agree, so no node is counted.
        Stated::over(
            NODES_OF_10_3,
            "ejemplo-10-3-nodos",
            "NO 52 5 00008 06",
            |_| {},
        ),
        // C for ends, A for the isolated node: all agree.
        Stated::over(
            NODES_OF_10_4,
            "ejemplo-10-4-nodos",
            "OK 00003 00002 00000 00001 00006 00016 00006 00000",
            |_| {},
        ),
        // H for nodes 3 and 4. Every tramo is cut there and no line has another
        // vertex at either, so both are ends alone.
        Stated::over(
            NODES_OF_10_5,
            "ejemplo-10-5-nodos",
            "NO 58 7 00003 02",
            |_| {},
        ),
        rich("rich", RICH_OK, |_| {}),
        Stated::over(
            &[],
            "case-01",
            "OK 00000 00000 00000 00000 00000 00000 00000 00000",
            |_| {},
        ),
        s("case-02", S_OK, |_| {}),
        s("case-03", "NO 53 5 00001 07", |d| {
            d.num(NODO, 2, 4, 141);
        }),
        s("case-04", "NO 51 6 00001 02", |d| {
            d.num(VERTICE, 2, 2, 3);
        }),
        s("case-05", "NO 11 7 00002 00", |d| {
            // 51 bytes: one whole record and one byte
            d.cut(NODO, 2, 1);
        }),
        s("case-06", "NO 25 7 00001 03", |d| {
            d.put(NODO, 1, 3, b"-");
            d.num(NODO, 1, 4, 0);
        }),
        s("case-07", "NO 22 7 00001 04", |d| {
            d.put(NODO, 1, 4, b"       11");
        }),
        s("case-08", "NO 30 7 00002 01", |d| {
            d.num(NODO, 2, 1, 1);
        }),
        s("case-09", "NO 40 5 00001 07", |d| {
            d.num(TRAMO, 1, 7, 3);
        }),
        s("case-10", "NO 41 5 00001 05", |d| {
            d.text(TRAMO, 1, 5, b"0100000");
        }),
        s("case-11", "NO 54 7 00003 00", |d| {
            d.add(NODO, "3;;100;200;");
        }),
        s("case-12", "NO 56 7 00003 00", |d| {
            d.add(NODO, "3;;0;0;");
        }),
        s("case-13", S_OK, |d| {
            d.text(OB_LIN, 1, 4, b"Camino|viejo");
        }),
    ]
}
