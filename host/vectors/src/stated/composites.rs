//! OB_COMP (W-204): its records, what refers to it and from it, reason 70, and
//! near misses.

use super::bases::{COMPOSITE_OF_10_3, DRAINS_OK, EXAMPLE, PITS_OK};
use super::{drains, pits, Stated};
use crate::draft::{record, Draft};
use deliveries::{CATALOGO, NODO, OB_COMP, OB_LIN, OB_PUN, OB_TEX, TRAMO, VERTICE};

/// The files that name composites, in field 2.
const NAMERS: [usize; 3] = [OB_PUN, OB_TEX, OB_LIN];

/// The composite of source 000's example 10.3. Its members there are surfaces,
/// which have no file yet; example 10.2 has linear objects for the same lake.
pub(super) fn examples() -> Vec<Stated> {
    let over = |name, line, damage| Stated::over(COMPOSITE_OF_10_3, name, line, damage);
    vec![
        // 0 is an id like others
        over("ejemplo-10-3-ceros", "NO 40 2 00001 02", |_| {}),
        over(
            "ejemplo-10-3-compuesto-solo",
            "NO 70 8 00001 00",
            blank_names,
        ),
        Stated::over(
            EXAMPLE,
            "ejemplo-10-3-compuesto",
            "OK 00008 00002 00001 00004 00006 00016 00006 00001",
            |d| {
                let code = "0300100;C;LAGO COMPUESTO;Lago compuesto de varios lagos simples";
                d.add(CATALOGO, code);
                d.add(OB_COMP, "1;0300100;Lago Mayor;0;0;");
                d.num(OB_LIN, 3, 2, 1);
                d.num(OB_LIN, 4, 2, 1);
            },
        ),
    ]
}

/// 11 to 25 in OB_COMP, and the catalogue's letters.
pub(super) fn damaged_records() -> Vec<Stated> {
    vec![
        pits("r11-composite-last-byte-lost", "NO 11 8 00002 00", |d| {
            d.cut(OB_COMP, 2, 116);
        }),
        pits("r11-point-before-composite", "NO 11 2 00003 00", |d| {
            d.after(OB_PUN, b"\n");
            d.after(OB_COMP, b"\n");
        }),
        pits("r20-composite-line-feed-alone", "NO 20 8 00002 00", |d| {
            d.end(OB_COMP, 2, b" \n");
        }),
        pits("r21-composite-comma", "NO 21 8 00001 08", |d| {
            d.bar(OB_COMP, 1, 8, b',');
        }),
        pits("r22-composite-id-with-blanks", "NO 22 8 00001 01", |d| {
            d.put(OB_COMP, 1, 1, b"         9");
        }),
        pits("r22-composite-x-with-a-point", "NO 22 8 00001 05", |d| {
            d.put(OB_COMP, 1, 5, b"0000005.0");
        }),
        pits("r23-composite-code-blank-first", "NO 23 8 00001 02", |d| {
            d.put(OB_COMP, 1, 2, b" 050000");
        }),
        pits(
            "r23-composite-name-no-break-blank-last",
            "NO 23 8 00001 03",
            |d| {
                d.text(OB_COMP, 1, 3, b"Red del norte\xa0");
            },
        ),
        pits("r24-composite-id-blank", "NO 24 8 00002 01", |d| {
            d.blank(OB_COMP, 2, &[1]);
        }),
        pits("r24-composite-code-nd", "NO 24 8 00002 02", |d| {
            d.text(OB_COMP, 2, 2, b"ND");
        }),
        pits("r24-composite-z-alone", "NO 24 8 00002 04", |d| {
            // 24 at 4, 5, 6 and 7
            d.put(OB_COMP, 2, 8, b"+");
            d.num(OB_COMP, 2, 9, 5);
        }),
        pits("r24-composite-without-y", "NO 24 8 00001 06", |d| {
            d.blank(OB_COMP, 1, &[6, 7]);
        }),
        pits("r24-composite-z-without-sign", "NO 24 8 00001 08", |d| {
            d.blank(OB_COMP, 1, &[8]);
        }),
        pits("r25-composite-minus-zero", "NO 25 8 00001 06", |d| {
            // Y is 0
            d.put(OB_COMP, 1, 6, b"-");
        }),
        pits("r25-composite-sign-e", "NO 25 8 00001 04", |d| {
            d.put(OB_COMP, 1, 4, b"E");
        }),
        pits("r25-catalogue-type-of-surfaces", "NO 25 1 00003 02", |d| {
            // section 5.6 has it, and no file here is of that type
            d.add(CATALOGO, "0600000;S;;");
        }),
        pits("r25-catalogue-type-small-c", "NO 25 1 00002 02", |d| {
            d.put(CATALOGO, 2, 2, b"c");
        }),
    ]
}

/// 30, 40 and 41.
pub(super) fn keys_and_references() -> Vec<Stated> {
    vec![
        pits("r30-composite-id-twice", "NO 30 8 00002 01", |d| {
            d.num(OB_COMP, 2, 1, 9);
        }),
        pits("r30-composite-0-three-times", "NO 30 8 00003 01", |d| {
            d.add(OB_COMP, "0;0500000;;;;");
            d.add(OB_COMP, "0;0500000;;;;");
        }),
        drains("r30-node-before-composite", "NO 30 7 00003 01", |d| {
            d.num(NODO, 3, 1, 1);
            d.num(OB_COMP, 2, 1, 9);
        }),
        pits("r40-point-names-no-composite", "NO 40 2 00002 02", |d| {
            d.num(OB_PUN, 2, 2, 5);
        }),
        drains("r40-text-names-no-composite", "NO 40 3 00001 02", |d| {
            d.num(OB_TEX, 1, 2, 90);
        }),
        drains("r40-linear-names-no-composite", "NO 40 4 00002 02", |d| {
            d.num(OB_LIN, 2, 2, 9_999_999_999);
        }),
        drains(
            "r40-composite-id-of-a-linear-object",
            "NO 40 4 00002 02",
            |d| {
                // 1 is in OB_LIN alone; the composite 7 has no member then
                d.num(OB_LIN, 2, 2, 1);
            },
        ),
        pits(
            "r40-composite-id-of-a-point-object",
            "NO 40 2 00001 02",
            |d| {
                d.num(OB_PUN, 1, 2, 2);
            },
        ),
        drains("r40-composite-lost", "NO 40 2 00001 02", |d| {
            // point 1, text 1 and linear object 1 named it
            d.lose(OB_COMP, &[1]);
        }),
        pits("r40-composite-0-lost", "NO 40 2 00002 02", |d| {
            d.lose(OB_COMP, &[2]);
        }),
        drains("r40-all-composites-lost", "NO 40 2 00001 02", |d| {
            d.records[OB_COMP].clear();
        }),
        pits(
            "r40-composite-before-node-by-field",
            "NO 40 2 00001 02",
            |d| {
                d.num(OB_PUN, 1, 2, 5);
                d.num(OB_PUN, 1, 3, 5);
            },
        ),
        pits(
            "r40-composite-code-not-catalogued",
            "NO 40 8 00002 02",
            |d| {
                d.text(OB_COMP, 2, 2, b"0500001");
            },
        ),
        pits("r40-composites-code-lost", "NO 40 8 00001 02", |d| {
            d.lose(CATALOGO, &[2]);
        }),
        drains("r40-vertex-before-composite", "NO 40 6 00005 01", |d| {
            d.add(VERTICE, "77;1;0;0;");
            d.text(OB_COMP, 1, 2, b"0500001");
        }),
        drains("r40-tramo-names-a-composite", "NO 40 5 00001 02", |d| {
            // it is no linear object
            d.num(TRAMO, 1, 2, 9);
        }),
        pits("r41-composite-with-a-point-code", "NO 41 8 00001 02", |d| {
            d.text(OB_COMP, 1, 2, b"0200000");
        }),
        drains(
            "r41-linear-object-with-a-composites-code",
            "NO 41 4 00001 03",
            |d| {
                d.text(OB_LIN, 1, 3, b"0500000");
            },
        ),
        pits("r41-catalogue-c-changed-to-l", "NO 41 8 00001 02", |d| {
            // both
            d.put(CATALOGO, 2, 2, b"L");
        }),
        pits(
            "r41-before-40-of-a-later-composite",
            "NO 41 8 00001 02",
            |d| {
                d.text(OB_COMP, 1, 2, b"0200000");
                d.text(OB_COMP, 2, 2, b"NADA");
            },
        ),
    ]
}

/// 70, composite that no object names: OB_COMP, field 0; and what is told
/// before it.
pub(super) fn reason_70() -> Vec<Stated> {
    vec![
        drains("r70-members-lost", "NO 70 8 00001 00", |d| {
            // of the first composite, in all three files
            for file in NAMERS {
                d.blank(file, 1, &[2]);
            }
        }),
        pits(
            "r70-blank-doesnt-name-composite-0",
            "NO 70 8 00002 00",
            |d| {
                d.blank(OB_PUN, 2, &[2]);
            },
        ),
        pits("r70-first-of-two", "NO 70 8 00001 00", |d| {
            d.num(OB_PUN, 1, 2, 0);
        }),
        drains("r70-text-given-to-another", "NO 70 8 00002 00", |d| {
            d.num(OB_TEX, 2, 2, 9);
        }),
        drains("r70-linear-given-to-another", "NO 70 8 00004 00", |d| {
            d.num(OB_LIN, 2, 2, 0);
        }),
        pits("r70-two-of-four", "NO 70 8 00001 00", |d| {
            d.records[OB_COMP].insert(0, record(OB_COMP, "5;0500000;;;;"));
            d.add(OB_COMP, "90;0500000;Nadie;;;");
        }),
        pits("r70-no-object-names-any", "NO 70 8 00001 00", |d| {
            blank_names(d);
        }),
        drains(
            "r70-id-that-a-tramo-names-as-its-object",
            "NO 70 8 00005 00",
            |d| {
                // 2 is a linear object, a tramo, a line and a node
                d.add(OB_COMP, "2;0500000;;;;");
            },
        ),
        pits("r70-own-id-of-a-point", "NO 70 8 00001 00", |d| {
            // point 9 belongs to the other composite
            d.num(OB_PUN, 1, 1, 9);
            d.num(OB_PUN, 1, 2, 0);
        }),
        pits("r70-composites-alone", "NO 70 8 00001 00", |d| {
            d.records[OB_PUN].clear();
        }),
        pits("r40-before-70", "NO 40 2 00002 02", |d| {
            // the composite renamed, its member not
            d.num(OB_COMP, 2, 1, 1);
        }),
        pits("r41-before-70", "NO 41 8 00002 02", |d| {
            d.blank(OB_PUN, 1, &[2]);
            d.text(OB_COMP, 2, 2, b"0200000");
        }),
        pits("r55-before-70", "NO 55 2 00001 03", |d| {
            d.add(NODO, "1;;1;1;");
            d.num(OB_PUN, 1, 3, 1);
            blank_names(d);
        }),
        drains("r57-before-70", "NO 57 4 00002 00", |d| {
            d.num(TRAMO, 2, 2, 1);
            d.blank(OB_TEX, 2, &[2]);
        }),
        drains("r58-before-70", "NO 58 7 00002 02", |d| {
            d.put(NODO, 2, 2, b"H");
            blank_names(d);
        }),
    ]
}

/// No object names a composite any more.
fn blank_names(d: &mut Draft) {
    for file in NAMERS {
        for record in 1..=d.records[file].len() {
            d.blank(file, record, &[2]);
        }
    }
}

/// Only this composite is left, and only what names it.
fn keep(d: &mut Draft, id: u64) {
    let id = format!("{id:010}").into_bytes();
    for file in NAMERS {
        for record in 1..=d.records[file].len() {
            if d.get(file, record, 2) != id {
                d.blank(file, record, &[2]);
            }
        }
    }
    d.records[OB_COMP].retain(|record| record.starts_with(&id));
}

/// The drains' line with another number of composites.
const ONE_OK: &str = "OK 00005 00002 00002 00002 00002 00004 00003 00001";

pub(super) fn near_misses() -> Vec<Stated> {
    vec![
        drains("ok-composites", DRAINS_OK, |_| {}),
        drains("ok-composite-of-all-three", ONE_OK, |d| keep(d, 9)),
        drains("ok-composite-of-a-point-object-alone", ONE_OK, |d| {
            keep(d, 4)
        }),
        drains("ok-composite-of-a-text-alone", ONE_OK, |d| keep(d, 0)),
        drains("ok-composite-of-a-linear-object-alone", ONE_OK, |d| {
            keep(d, 7)
        }),
        pits(
            "ok-two-points-of-one-composite",
            "OK 00002 00002 00000 00000 00000 00000 00000 00001",
            |d| {
                d.num(OB_PUN, 2, 2, 9);
                d.lose(OB_COMP, &[2]);
            },
        ),
        drains("ok-composite-with-a-linear-objects-id", DRAINS_OK, |d| {
            // linear object 2 belongs to composite 2
            d.num(OB_COMP, 4, 1, 2);
            d.num(OB_LIN, 2, 2, 2);
        }),
        pits("ok-composite-with-the-highest-id", PITS_OK, |d| {
            d.num(OB_COMP, 1, 1, 9_999_999_999);
            d.num(OB_PUN, 1, 2, 9_999_999_999);
        }),
        pits(
            "ok-code-for-composites-that-nobody-uses",
            "OK 00002 00002 00000 00000 00000 00000 00000 00000",
            |d| {
                blank_names(d);
                d.records[OB_COMP].clear();
            },
        ),
        drains("ok-composites-turned-round", DRAINS_OK, |d| {
            for records in &mut d.records {
                records.reverse();
            }
        }),
        pits("ok-words-of-composites", PITS_OK, |d| {
            d.text(OB_COMP, 1, 3, &[b'|'; 60]);
            d.text(OB_COMP, 2, 3, b"NA");
        }),
        pits("ok-centroids-of-composites", PITS_OK, |d| {
            d.place(OB_COMP, 2, -999_999_999, -9_999_999_999, Some(-99_999_999));
            d.blank(OB_COMP, 1, &[8, 9]);
        }),
    ]
}
