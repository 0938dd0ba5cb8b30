//! Vertices, line ends, nodes and objects: reasons 50 to 58.

use super::{alone, kinds, rich, s, sort_line_20_as_text, Stated};
use crate::draft::Draft;
use deliveries::{NODO, OB_LIN, OB_PUN, TRAMO, VERTICE};

/// 50, VERTICE order is 0, or is over 1 and its line has no order one less.
pub(super) fn reason_50() -> Vec<Stated> {
    vec![
        rich("r50-order-0-besides-1-2-3", "NO 50 6 00022 02", |d| {
            d.add(VERTICE, "9;0;7;7;");
        }),
        rich("r50-order-0-in-the-place-of-1", "NO 50 6 00013 02", |d| {
            // line 1 has orders 2 (record 13), 0 (14), 3 (15): 50 at 2 and at 0, and 52
            // isn't asked where there's no order 1
            d.num(VERTICE, 14, 2, 0);
        }),
        rich("r50-gap-before-the-last", "NO 50 6 00002 02", |d| {
            // line 20: 11 becomes 12, still the highest
            d.num(VERTICE, 2, 2, 12);
        }),
        rich("r50-gap-in-the-middle", "NO 50 6 00007 02", |d| {
            // order 5 of line 20 is gone; order 6 is record 7
            d.lose(VERTICE, &[8]);
        }),
        rich("r50-orders-from-2", "NO 50 6 00016 02", |d| {
            d.num(VERTICE, 16, 2, 2);
            d.num(VERTICE, 17, 2, 3);
        }),
        rich("r50-order-99999", "NO 50 6 00021 02", |d| {
            // line 3's orders 1 and 2 become 99998 (at node 10) and 99999 (at node 4):
            // the second has its order one less, the first hasn't
            d.num(VERTICE, 1, 2, 99999);
            d.num(VERTICE, 21, 2, 99998);
        }),
        rich("r50-gap-from-2-to-4", "NO 50 6 00017 02", |d| {
            // line 0: orders 1, 2 (record 22) and 4 (record 17, at node 0)
            d.num(VERTICE, 17, 2, 4);
            d.add(VERTICE, "0;2;-15;-250;");
        }),
        rich("r50-orders-0-and-1", "NO 50 6 00016 02", |d| {
            // line 0 counted from 0: order 0 at node 4, order 1 at node 0. Its tramo now
            // starts and ends at node 0, so that 52 and 53 don't come first. Record 16
            // is order 0, record 17 is order 1 without 2: 51 there.
            d.num(VERTICE, 16, 2, 0);
            d.num(VERTICE, 17, 2, 1);
            d.num(TRAMO, 6, 6, 0);
        }),
    ]
}

/// 51, VERTICE order 1 and its line has no order 2.
pub(super) fn reason_51() -> Vec<Stated> {
    vec![
        rich("r51-ring-of-one-vertex", "NO 51 6 00018 02", |d| {
            // line 9: order 1 is left, at node 0
            d.lose(VERTICE, &[18, 20]);
        }),
        rich("r51-orders-1-and-3", "NO 51 6 00013 02", |d| {
            // line 1: order 1 is now record 13, order 3 record 14
            d.lose(VERTICE, &[13]);
        }),
        rich("r51-before-50-by-record", "NO 51 6 00013 02", |d| {
            // line 1 has orders 1 (now record 13) and 3; line 0's order 1 (now record
            // 15) becomes 0
            d.lose(VERTICE, &[13]);
            d.num(VERTICE, 15, 2, 0);
        }),
    ]
}

/// 52, vertex of order 1 lies elsewhere in X or Y than the start node.
pub(super) fn reason_52() -> Vec<Stated> {
    vec![
        rich("r52-start-vertex-x-one-off", "NO 52 5 00001 06", |d| {
            d.num(VERTICE, 14, 4, 101);
        }),
        rich("r52-start-vertex-y-one-off", "NO 52 5 00002 06", |d| {
            // line 20: tramos 2, 5 and 20 all break it
            d.num(VERTICE, 12, 6, 201);
        }),
        rich("r52-other-sign-of-y", "NO 52 5 00007 06", |d| {
            // order 1 of line 9
            d.put(VERTICE, 19, 5, b"+");
        }),
        rich("r52-another-start-node", "NO 52 5 00004 06", |d| {
            d.num(TRAMO, 4, 6, 1);
        }),
        rich("r52-sense-minus-isnt-turned", "NO 52 5 00003 06", |d| {
            // as 5.6.9 would; R01
            d.num(TRAMO, 3, 6, 10);
            d.num(TRAMO, 3, 7, 3);
        }),
        rich("r52-before-53-by-field", "NO 52 5 00006 06", |d| {
            d.num(TRAMO, 6, 6, 0);
            d.num(TRAMO, 6, 7, 4);
        }),
        rich("r52-orders-from-0", "NO 52 5 00007 06", |d| {
            // line 9 counted from 0: order 1 is now at (5, -505). 50 at order 0 is of a
            // higher file.
            d.num(VERTICE, 19, 2, 0);
            d.num(VERTICE, 20, 2, 1);
            d.num(VERTICE, 18, 2, 2);
        }),
        rich("r52-shared-line-one-tramo-off", "NO 52 5 00003 06", |d| {
            // node 8 is on the line, but not its start
            d.num(TRAMO, 3, 6, 8);
        }),
    ]
}

/// 53, vertex of highest order lies elsewhere in X or Y than the end node.
pub(super) fn reason_53() -> Vec<Stated> {
    vec![
        rich("r53-end-vertex-x-one-off", "NO 53 5 00001 07", |d| {
            d.num(VERTICE, 15, 4, 141);
        }),
        rich("r53-end-vertex-y-one-off", "NO 53 5 00005 07", |d| {
            d.num(VERTICE, 1, 6, 1);
        }),
        rich("r53-another-end-node", "NO 53 5 00006 07", |d| {
            d.num(TRAMO, 6, 7, 6);
        }),
        rich("r53-last-vertex-lost", "NO 53 5 00002 07", |d| {
            // line 20 now ends at order 10
            d.lose(VERTICE, &[2]);
        }),
        rich("r53-highest-order-after-a-gap", "NO 53 5 00005 07", |d| {
            // 50 at it is of a higher file
            d.add(VERTICE, "3;9;1;1;");
        }),
        rich("r53-two-orders-exchanged", "NO 53 5 00002 07", |d| {
            // line 20: 2 and 11
            d.num(VERTICE, 2, 2, 2);
            d.num(VERTICE, 11, 2, 11);
        }),
        rich("r53-renumbered-by-file-place", "NO 53 5 00002 07", |d| {
            // The story's mistake. Line 20 sorted by unpadded text (1, 10, 11, 2, 3 ...
            // 9) and then numbered 1 to 11 by place in the file: what was vertex 9, at
            // (184, 276), is now the highest.
            sort_line_20_as_text(d);
            for order in 1..=11 {
                d.num(VERTICE, 1 + order, 2, order as u64);
            }
        }),
        rich(
            "r53-renumbered-over-the-whole-file",
            "NO 53 5 00002 07",
            |d| {
                // orders 1 to 21 by place in the file, whatever the line: line 20's highest
                // is record 12, which was its vertex 1
                for record in 1..=21 {
                    d.num(VERTICE, record, 2, record as u64);
                }
            },
        ),
        rich("r53-before-50", "NO 53 5 00001 07", |d| {
            d.num(VERTICE, 15, 4, 141);
            d.num(VERTICE, 2, 2, 12);
        }),
    ]
}

/// 54, same X, Y, Z as an earlier node; missing Z equals only missing Z.
pub(super) fn reason_54() -> Vec<Stated> {
    vec![
        rich("r54-both-without-z", "NO 54 7 00003 00", |d| {
            d.blank(NODO, 3, &[7, 8]);
        }),
        rich("r54-both-with-z-7", "NO 54 7 00003 00", |d| {
            d.put(NODO, 2, 7, b"+");
            d.num(NODO, 2, 8, 7);
        }),
        rich("r54-copy-of-node-1", "NO 54 7 00009 00", |d| {
            d.add(NODO, "99;E;100;200;50");
        }),
        rich("r54-before-56-at-one-node", "NO 54 7 00009 00", |d| {
            // named by nobody: 56 too
            d.add(NODO, "99;A;500;500;12");
        }),
        rich("r54-three-alike", "NO 54 7 00005 00", |d| {
            // records 1, 5 and 9 at one place. Node 4 is moved with its two vertices, so
            // that 52 and 53 hold; node 99 is a third one.
            d.place(NODO, 5, 100, 200, Some(50));
            d.place(VERTICE, 1, 100, 200, None);
            d.place(VERTICE, 16, 100, 200, None);
            d.add(NODO, "99;;100;200;50");
        }),
    ]
}

/// 55, point object names a node and differs from it in X or Y.
pub(super) fn reason_55() -> Vec<Stated> {
    vec![
        rich("r55-x-one-off", "NO 55 2 00001 03", |d| {
            d.num(OB_PUN, 1, 9, 201);
        }),
        rich("r55-y-other-sign", "NO 55 2 00003 03", |d| {
            d.put(OB_PUN, 3, 10, b"-");
        }),
        rich("r55-names-another-node", "NO 55 2 00004 03", |d| {
            d.num(OB_PUN, 4, 3, 8);
        }),
        rich("r55-names-node-0", "NO 55 2 00002 03", |d| {
            // named none
            d.num(OB_PUN, 2, 3, 0);
        }),
        rich("r55-node-moved", "NO 55 2 00003 03", |d| {
            // node 6: points 3 and 0
            d.num(NODO, 7, 6, 501);
        }),
        rich("r55-before-57", "NO 55 2 00001 03", |d| {
            d.num(OB_PUN, 1, 11, 301);
            d.add(OB_LIN, "99;;0100000;;;;");
        }),
    ]
}

/// 56, node starts or ends no tramo, has the X and Y of no vertex, and is named by fewer than two point objects.
pub(super) fn reason_56() -> Vec<Stated> {
    vec![
        rich("r56-points-no-longer-name-it", "NO 56 7 00007 00", |d| {
            // they still lie there
            d.blank(OB_PUN, 3, &[3]);
            d.blank(OB_PUN, 4, &[3]);
        }),
        rich("r56-node-moved-off-the-line", "NO 56 7 00008 00", |d| {
            d.num(NODO, 8, 4, 161);
        }),
        rich("r56-vertex-moved-off-the-node", "NO 56 7 00008 00", |d| {
            // order 6 of line 20
            d.num(VERTICE, 7, 6, 241);
        }),
        rich(
            "r56-x-of-one-vertex-and-y-of-another",
            "NO 56 7 00008 00",
            |d| {
                d.place(NODO, 8, 160, 252, None);
            },
        ),
        rich("r56-point-objects-lost", "NO 56 7 00007 00", |d| {
            d.records[OB_PUN].clear();
        }),
        rich("r56-stray-node-at-the-origin", "NO 56 7 00009 00", |d| {
            // a text and a centroid lie there
            d.add(NODO, "11;;0;0;");
        }),
        rich(
            "r56-one-of-two-points-names-the-node",
            "NO 56 7 00007 00",
            |d| {
                d.blank(OB_PUN, 4, &[3]);
                d.num(OB_PUN, 4, 9, 7);
            },
        ),
        alone("r56-one-point-object-alone", "NO 56 7 00001 00", |d| {
            d.lose(OB_PUN, &[2]);
        }),
        alone("r56-a-for-a-node-of-one-point", "NO 56 7 00001 00", |d| {
            // the other lies there and names none; the code agrees all the same
            d.blank(OB_PUN, 2, &[3]);
            d.put(NODO, 1, 2, b"A");
        }),
        s("r56-before-58-at-one-node", "NO 56 7 00003 00", |d| {
            d.add(NODO, "3;E;0;0;");
        }),
    ]
}

/// 57, linear object named by no tramo.
pub(super) fn reason_57() -> Vec<Stated> {
    vec![
        rich("r57-one-object-too-many", "NO 57 4 00005 00", |d| {
            // a tramo has that id
            d.add(OB_LIN, "20;;0100000;Nadie;;;");
        }),
        rich(
            "r57-tramo-given-to-another-object",
            "NO 57 4 00004 00",
            |d| {
                d.num(TRAMO, 7, 2, 1);
            },
        ),
        rich("r57-tramos-lost", "NO 57 4 00002 00", |d| {
            // line 20 is still tramo 2's; object 3 is record 2
            d.lose(TRAMO, &[3, 4]);
        }),
        rich("r57-before-52-53-54-56-58", "NO 57 4 00005 00", |d| {
            // what the program grid is tried with: 57, 52, 53, and at nodes 58, 54 and 56
            d.add(OB_LIN, "20;;0100000;;;;");
            d.num(VERTICE, 14, 4, 101);
            d.num(VERTICE, 15, 4, 141);
            d.put(NODO, 5, 2, b"H");
            d.add(NODO, "99;;500;500;12");
        }),
    ]
}

/// 58, a node's TIPO says another kind of node than it is: each code at each
/// kind that it disagrees with, and then what makes a node what it is.
pub(super) fn reason_58() -> Vec<Stated> {
    vec![
        kinds("r58-a-for-an-end", "NO 58 7 00001 02", |d| {
            d.put(NODO, 1, 2, b"A");
        }),
        kinds("r58-a-for-an-intermediate-node", "NO 58 7 00005 02", |d| {
            d.put(NODO, 5, 2, b"A");
        }),
        kinds("r58-a-for-a-node-that-is-both", "NO 58 7 00003 02", |d| {
            d.put(NODO, 3, 2, b"A");
        }),
        alone("r58-c-for-an-isolated-node", "NO 58 7 00001 02", |d| {
            d.put(NODO, 1, 2, b"C");
        }),
        alone("r58-e-for-an-isolated-node", "NO 58 7 00001 02", |d| {
            d.put(NODO, 1, 2, b"E");
        }),
        kinds("r58-e-for-an-intermediate-node", "NO 58 7 00005 02", |d| {
            d.put(NODO, 5, 2, b"E");
        }),
        kinds("r58-e-for-a-node-that-is-both", "NO 58 7 00003 02", |d| {
            d.put(NODO, 3, 2, b"E");
        }),
        alone("r58-i-for-an-isolated-node", "NO 58 7 00001 02", |d| {
            d.put(NODO, 1, 2, b"I");
        }),
        kinds("r58-i-for-an-end", "NO 58 7 00004 02", |d| {
            d.put(NODO, 4, 2, b"I");
        }),
        kinds("r58-i-for-a-node-that-is-both", "NO 58 7 00003 02", |d| {
            d.put(NODO, 3, 2, b"I");
        }),
        alone("r58-h-for-an-isolated-node", "NO 58 7 00001 02", |d| {
            d.put(NODO, 1, 2, b"H");
        }),
        kinds("r58-h-for-an-end", "NO 58 7 00002 02", |d| {
            d.put(NODO, 2, 2, b"H");
        }),
        kinds("r58-h-for-an-intermediate-node", "NO 58 7 00005 02", |d| {
            d.put(NODO, 5, 2, b"H");
        }),
        kinds("r58-all-codes-exchanged", "NO 58 7 00001 02", |d| {
            for (record, code) in [(1, b"I"), (2, b"H"), (3, b"E"), (4, b"A"), (5, b"E")] {
                d.put(NODO, record, 2, code);
            }
        }),
        kinds("r58-second-node-at-an-end", "NO 58 7 00006 02", |d| {
            // no tramo names it, and yet it has the X and Y of line 1's first vertex
            d.add(NODO, "6;A;0;0;9");
        }),
        s(
            "r58-end-that-its-own-line-passes",
            "NO 58 7 00001 02",
            |d| {
                pass_own_start(d);
                d.put(NODO, 1, 2, b"E");
            },
        ),
        s("r58-before-56-of-a-later-node", "NO 58 7 00002 02", |d| {
            d.put(NODO, 2, 2, b"H");
            d.add(NODO, "3;;0;0;");
        }),
        s("r57-before-58", "NO 57 4 00002 00", |d| {
            d.add(OB_LIN, "2;;0100000;;;;");
            d.put(NODO, 1, 2, b"A");
        }),
        s("r53-end-by-its-id-alone", "NO 53 5 00001 07", |d| {
            // E agrees with node 2, which ends the tramo and lies elsewhere
            d.num(NODO, 2, 4, 141);
            d.put(NODO, 2, 2, b"E");
        }),
        s("r52-counted-from-0", "NO 52 5 00001 06", |d| {
            // the vertex of order 0 is neither first nor last, so that node 1, which
            // starts the tramo, is both
            d.num(VERTICE, 1, 2, 0);
            d.num(VERTICE, 2, 2, 1);
            d.put(NODO, 1, 2, b"E");
        }),
    ]
}

/// S's line with a second vertex where its first is.
pub(super) fn pass_own_start(d: &mut Draft) {
    d.num(VERTICE, 2, 2, 3);
    d.add(VERTICE, "1;2;100;200;");
}
