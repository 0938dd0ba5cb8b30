//! The lawful deliveries that samples are made from, row by row.

use crate::draft::Rows;
use deliveries::{CATALOGO, NODO, OB_COMP, OB_LIN, OB_PUN, OB_TEX, TRAMO, VERTICE};

/// Document 01's small delivery S.
pub(super) const S: &Rows = &[
    (CATALOGO, "0100000;L;;"),
    (CATALOGO, "0100001;T;;"),
    (OB_LIN, "1;;0100000;;;;"),
    (TRAMO, "1;1;;;0100001;1;2;"),
    (VERTICE, "1;1;100;200;"),
    (VERTICE, "1;2;140;200;"),
    (NODO, "1;;100;200;"),
    (NODO, "2;;140;200;"),
];

/// Source 000, example 10.2 (lines 3330 to 3400 of the text), at the widths of
/// section 5.5. The one id printed between a point object's own id and its
/// code is the node: node 6 stands at that place, and the example has no
/// composite objects (its list of files has no OB_COMP).
pub(super) const EXAMPLE: &Rows = &[
    (CATALOGO, "0190000;X;TOPONIMO TEMA1;Anotacion generica"),
    (CATALOGO, "0332400;L;LAGO;Margen de lago"),
    (
        CATALOGO,
        "0332401;T;LAGO;Seccion continua de margen de lago",
    ),
    (
        CATALOGO,
        "0512700;P;ERMITA;Edificio religioso catolico aislado",
    ),
    (
        CATALOGO,
        "0630600;L;CARRETERA;Camino asfaltado para el trafico rodado publico",
    ),
    (
        CATALOGO,
        "0630601;T;CARRETERA;Seccion continua de carretera",
    ),
    (
        CATALOGO,
        "1010600;P;VERTICE GEODESICO ORDEN 1;Punto de coordenadas geodesicas",
    ),
    (OB_PUN, "1;;6;0512700;Ermita del Santo;0;1;3;2;"),
    (OB_PUN, "2;;6;1010600;Almudena;0;1;3;2;"),
    (OB_TEX, "1;;0190000;HOLA;1;1;0;1;2;6;"),
    (OB_LIN, "1;;0630600;Nacional I;;;"),
    (OB_LIN, "2;;0332400;Orilla de Lago Menor;;;"),
    (OB_LIN, "3;;0332400;Orilla de Lago Mayor;;;"),
    (OB_LIN, "4;;0332400;Orilla de Lago Mayor;;;"),
    (TRAMO, "1;2;;1;0332401;1;1;+"),
    (TRAMO, "2;1;;2;0630601;2;3;+"),
    (TRAMO, "3;3;;3;0332401;3;4;+"),
    (TRAMO, "4;1;;4;0630601;3;4;+"),
    (TRAMO, "5;4;;5;0332401;3;4;+"),
    (TRAMO, "6;1;;6;0630601;4;5;+"),
    (VERTICE, "1;1;2;4;"),
    (VERTICE, "1;2;2;3;"),
    (VERTICE, "1;3;3;3;"),
    (VERTICE, "1;4;2;4;"),
    (VERTICE, "2;1;4;8;"),
    (VERTICE, "2;2;5;7;"),
    (VERTICE, "3;1;5;7;"),
    (VERTICE, "3;2;3;4;"),
    (VERTICE, "3;3;7;3;"),
    (VERTICE, "4;1;5;7;"),
    (VERTICE, "4;2;7;3;"),
    (VERTICE, "5;1;5;7;"),
    (VERTICE, "5;2;9;5;"),
    (VERTICE, "5;3;7;3;"),
    (VERTICE, "6;1;7;3;"),
    (VERTICE, "6;2;9;1;"),
    (NODO, "1;E;2;4;"),
    (NODO, "2;E;4;8;"),
    (NODO, "3;E;5;7;"),
    (NODO, "4;E;7;3;"),
    (NODO, "5;E;9;1;"),
    (NODO, "6;A;3;2;"),
];

/// Nodes, vertices and the tramos' lines and nodes of source 000's example 10.3
/// (lines 3728 to 3786), with + for the signs that aren't printed. Its objects,
/// composites, surfaces and codes are replaced: one linear object for all
/// tramos, no perimeters.
pub(super) const NODES_OF_10_3: &Rows = &[
    (CATALOGO, "0100000;L;;"),
    (CATALOGO, "0100001;T;;"),
    (CATALOGO, "0200000;P;;"),
    (OB_PUN, "1;;6;0200000;Ermita del Santo;0;0;3;2;"),
    (OB_PUN, "2;;6;0200000;Almudena;0;0;3;2;"),
    (OB_LIN, "0;;0100000;;;;"),
    (TRAMO, "1;0;;1;0100001;1;1;+"),
    (TRAMO, "2;0;;2;0100001;2;3;+"),
    (TRAMO, "3;0;;3;0100001;3;4;+"),
    (TRAMO, "4;0;;6;0100001;4;5;+"),
    (TRAMO, "5;0;;7;0100001;5;2;+"),
    (TRAMO, "6;0;;1;0100001;1;1;-"),
    (TRAMO, "7;0;;3;0100001;3;4;+"),
    (TRAMO, "8;0;;4;0100001;4;3;-"),
    (TRAMO, "9;0;;5;0100001;3;4;+"),
    (TRAMO, "10;0;;4;0100001;4;3;-"),
    (TRAMO, "11;0;;2;0100001;2;3;-"),
    (TRAMO, "12;0;;8;0100001;3;4;+"),
    (TRAMO, "13;0;;6;0100001;4;5;+"),
    (TRAMO, "14;0;;5;0100001;5;2;-"),
    (TRAMO, "15;0;;8;0100001;2;5;+"),
    (TRAMO, "16;0;;7;0100001;5;2;+"),
    (VERTICE, "1;1;2;4;"),
    (VERTICE, "1;2;2;3;"),
    (VERTICE, "1;3;3;3;"),
    (VERTICE, "1;4;2;4;"),
    (VERTICE, "2;1;4;8;"),
    (VERTICE, "2;2;5;7;"),
    (VERTICE, "3;1;5;7;"),
    (VERTICE, "3;2;3;4;"),
    (VERTICE, "3;3;7;3;"),
    (VERTICE, "4;1;5;7;"),
    (VERTICE, "4;2;7;3;"),
    (VERTICE, "5;1;5;7;"),
    (VERTICE, "5;2;9;5;"),
    (VERTICE, "5;3;7;3;"),
    (VERTICE, "6;1;7;3;"),
    (VERTICE, "6;2;9;1;"),
    (VERTICE, "7;1;9;1;"),
    (VERTICE, "7;2;1;1;"),
    (VERTICE, "7;3;1;8;"),
    (VERTICE, "7;4;4;8;"),
    (VERTICE, "8;1;4;8;"),
    (VERTICE, "8;2;10;8;"),
    (VERTICE, "8;3;10;1;"),
    (VERTICE, "8;4;9;1;"),
    (NODO, "1;E;2;4;"),
    (NODO, "2;E;4;8;"),
    (NODO, "3;E;5;7;"),
    (NODO, "4;E;7;3;"),
    (NODO, "5;E;9;1;"),
    (NODO, "6;A;3;2;"),
];

/// The same of example 10.4 (lines 4107 to 4144); the signs before its blank Z
/// are left out.
pub(super) const NODES_OF_10_4: &Rows = &[
    (CATALOGO, "0100000;L;;"),
    (CATALOGO, "0100001;T;;"),
    (CATALOGO, "0200000;P;;"),
    (OB_PUN, "1;;6;0200000;Ermita del Santo;0;0;3;2;"),
    (OB_PUN, "2;;6;0200000;Almudena;0;0;3;2;"),
    (OB_LIN, "1;;0100000;;;;"),
    (TRAMO, "1;1;;1;0100001;1;1;+"),
    (TRAMO, "2;1;;2;0100001;2;3;+"),
    (TRAMO, "3;1;;3;0100001;3;4;+"),
    (TRAMO, "4;1;;4;0100001;3;4;+"),
    (TRAMO, "5;1;;5;0100001;4;3;-"),
    (TRAMO, "6;1;;6;0100001;4;5;+"),
    (VERTICE, "1;1;2;4;"),
    (VERTICE, "1;2;2;3;"),
    (VERTICE, "1;3;3;3;"),
    (VERTICE, "1;4;2;4;"),
    (VERTICE, "2;1;4;8;"),
    (VERTICE, "2;2;5;7;"),
    (VERTICE, "3;1;5;7;"),
    (VERTICE, "3;2;3;4;"),
    (VERTICE, "3;3;7;3;"),
    (VERTICE, "4;1;5;7;"),
    (VERTICE, "4;2;7;3;"),
    (VERTICE, "5;1;7;3;"),
    (VERTICE, "5;2;9;5;"),
    (VERTICE, "5;3;5;7;"),
    (VERTICE, "6;1;7;3;"),
    (VERTICE, "6;2;9;1;"),
    (NODO, "1;C;2;4;"),
    (NODO, "2;C;4;8;"),
    (NODO, "3;C;5;7;"),
    (NODO, "4;C;7;3;"),
    (NODO, "5;C;9;1;"),
    (NODO, "6;A;3;2;"),
];

/// The same of example 10.5 (lines 4439 to 4490).
pub(super) const NODES_OF_10_5: &Rows = &[
    (CATALOGO, "0100000;L;;"),
    (CATALOGO, "0100001;T;;"),
    (CATALOGO, "0200000;P;;"),
    (OB_PUN, "1;;6;0200000;Ermita del Santo;0;0;3;2;"),
    (OB_PUN, "2;;6;0200000;Almudena;0;0;3;2;"),
    (OB_LIN, "1;;0100000;;;;"),
    (TRAMO, "1;1;;1;0100001;1;1;+"),
    (TRAMO, "2;1;;2;0100001;2;3;+"),
    (TRAMO, "3;1;;3;0100001;3;4;+"),
    (TRAMO, "4;1;;3;0100001;3;4;+"),
    (TRAMO, "5;1;;4;0100001;3;4;+"),
    (TRAMO, "6;1;;5;0100001;4;3;-"),
    (TRAMO, "7;1;;6;0100001;4;5;+"),
    (TRAMO, "8;1;;7;0100001;7;3;+"),
    (TRAMO, "9;1;;8;0100001;4;8;+"),
    (VERTICE, "1;1;2;4;"),
    (VERTICE, "1;2;2;3;"),
    (VERTICE, "1;3;3;3;"),
    (VERTICE, "1;4;2;4;"),
    (VERTICE, "2;1;4;8;"),
    (VERTICE, "2;2;5;7;"),
    (VERTICE, "3;1;5;7;"),
    (VERTICE, "3;2;3;4;"),
    (VERTICE, "3;3;7;3;"),
    (VERTICE, "4;1;5;7;"),
    (VERTICE, "4;2;7;3;"),
    (VERTICE, "5;1;7;3;"),
    (VERTICE, "5;2;9;5;"),
    (VERTICE, "5;3;5;7;"),
    (VERTICE, "6;1;7;3;"),
    (VERTICE, "6;2;9;1;"),
    (VERTICE, "7;1;3;8;"),
    (VERTICE, "7;2;5;7;"),
    (VERTICE, "8;1;7;3;"),
    (VERTICE, "8;2;6;1;"),
    (NODO, "1;E;2;4;"),
    (NODO, "2;E;4;8;"),
    (NODO, "3;H;5;7;"),
    (NODO, "4;H;7;3;"),
    (NODO, "5;E;9;1;"),
    (NODO, "6;A;3;2;"),
    (NODO, "7;E;3;8;"),
    (NODO, "8;E;6;1;"),
];

/// A line of four vertices and one that starts at its third, with nodes of each
/// kind but the isolated one, without codes.
pub(super) const KINDS: &Rows = &[
    (CATALOGO, "0100000;L;;"),
    (CATALOGO, "0100001;T;;"),
    (OB_LIN, "1;;0100000;;;;"),
    (TRAMO, "1;1;;;0100001;1;2;"),
    (TRAMO, "2;1;;;0100001;3;4;"),
    (VERTICE, "1;1;0;0;"),
    (VERTICE, "1;2;5;0;"),
    (VERTICE, "1;3;10;0;"),
    (VERTICE, "1;4;20;0;"),
    (VERTICE, "2;1;10;0;"),
    (VERTICE, "2;2;10;10;"),
    (NODO, "1;;0;0;"),   // 1  an end
    (NODO, "2;;20;0;"),  // 2  an end
    (NODO, "3;;10;0;"),  // 3  both: line 2 starts there, line 1 passes
    (NODO, "4;;10;10;"), // 4  an end
    (NODO, "5;;5;0;"),   // 5  intermediate
];

/// An isolated node without a code, which two point objects name, and nothing else.
pub(super) const ALONE: &Rows = &[
    (CATALOGO, "0200000;P;;"),
    (OB_PUN, "1;;1;0200000;;;;50;50;"),
    (OB_PUN, "2;;1;0200000;;;;50;50;"),
    (NODO, "1;;50;50;"),
];

/// A point object and a text, and their codes.
pub(super) const OBJECTS: &Rows = &[
    (CATALOGO, "0200000;P;;"),
    (CATALOGO, "0300000;X;;"),
    (OB_PUN, "1;;;0200000;;0;;1;1;"),
    (OB_TEX, "1;;0300000;;1;;0;5;1;1;"),
];

/// The objects of source 000's example 10.3 (lines 3677 to 3704) but for its
/// surfaces, with their codes and the node of both points, and + for the signs
/// that aren't printed. It prints 0 for objects of no composite.
pub(super) const COMPOSITE_OF_10_3: &Rows = &[
    (CATALOGO, "0190000;X;TOPONIMO TEMA1;Anotacion generica"),
    (
        CATALOGO,
        "0512700;P;ERMITA;Edificio religioso catolico aislado",
    ),
    (
        CATALOGO,
        "1010600;P;VERTICE GEOD ORDEN 1;Punto de coordenadas geodesicas",
    ),
    (
        CATALOGO,
        "0300100;C;LAGO COMPUESTO;Lago compuesto de varios lagos simples",
    ),
    (OB_PUN, "1;0;6;0512700;Ermita del Santo;0;0;3;2;"),
    (OB_PUN, "2;0;6;1010600;Almudena;0;0;3;2;"),
    (OB_TEX, "1;0;0190000;HOLA;1;1;0;1;2;6;"),
    (NODO, "6;A;3;2;"),
    (OB_COMP, "1;0300100;Lago Mayor;0;0;"),
];

/// Two pits, each of a composite of its own, and nothing else.
pub(super) const PITS: &Rows = &[
    (CATALOGO, "0200000;P;POZO;"),                            // 1
    (CATALOGO, "0500000;C;DESAGUE;Pozos y tubos de una red"), // 2
    (OB_PUN, "1;9;;0200000;;;;0;0;"),                         // 1
    (OB_PUN, "2;0;;0200000;;;;10;0;"),                        // 2
    (OB_COMP, "9;0500000;Red del norte;5;0;-2"),              // 1
    (OB_COMP, "0;0500000;;;;"),                               // 2
];

/// Pits and pipes, some of them grouped: a composite of all three sorts of
/// objects, and one of each sort alone. No composite has the id of an object,
/// a tramo or a node. Each row's record number stands behind it.
pub(super) const DRAINS: &Rows = &[
    (CATALOGO, "0100000;L;TUBO;"),                            // 1
    (CATALOGO, "0100001;T;TUBO;Tramo de tubo"),               // 2
    (CATALOGO, "0200000;P;POZO;"),                            // 3
    (CATALOGO, "0300000;X;ROTULO;"),                          // 4
    (CATALOGO, "0500000;C;DESAGUE;Pozos y tubos de una red"), // 5
    (OB_PUN, "1;9;;0200000;Pozo 1;;;0;0;"),                   // 1
    (OB_PUN, "2;4;;0200000;Pozo 2;;;10;0;"),                  // 2
    (OB_TEX, "1;9;0300000;NORTE;1;;;5;5;5;"),                 // 1
    (OB_TEX, "2;0;0300000;SUR;1;;;5;5;-5;"),                  // 2
    (OB_LIN, "1;9;0100000;Tubo 1;;;"),                        // 1
    (OB_LIN, "2;7;0100000;Tubo 2;;;"),                        // 2
    (TRAMO, "1;1;;;0100001;1;2;"),                            // 1
    (TRAMO, "2;2;;;0100001;2;3;"),                            // 2
    (VERTICE, "1;1;0;0;"),                                    // 1
    (VERTICE, "1;2;10;0;"),                                   // 2
    (VERTICE, "2;1;10;0;"),                                   // 3
    (VERTICE, "2;2;20;0;"),                                   // 4
    (NODO, "1;;0;0;"),                                        // 1
    (NODO, "2;;10;0;"),                                       // 2
    (NODO, "3;;20;0;"),                                       // 3
    (OB_COMP, "9;0500000;Red del norte;5;0;-2"),              // 1  of all three
    (OB_COMP, "0;0500000;;;;"),                               // 2  of a text
    (OB_COMP, "4;0500000;ND;0;-7;"),                          // 3  of a point object
    (OB_COMP, "7;0500000;Red|sur;-15;0;0"),                   // 4  of a linear object
];

/// A richer lawful delivery, for most samples. Each row's record number stands
/// behind it.
#[rustfmt::skip]
pub(super) const RICH: &Rows = &[
    (CATALOGO, "0100001;T;CAMINO;Seccion continua de camino"),          // 1
    (CATALOGO, "0100000;L;CAMINO;Camino de tierra"),                    // 2
    (CATALOGO, "0200000;P;POZO;"),                                      // 3
    (CATALOGO, "0300000;X;ROTULO;NA"),                                  // 4
    (CATALOGO, "0400000;L;LINDE;Linde de concesión"),                   // 5
    (CATALOGO, "0400001;T;;Seccion de linde"),                          // 6
    (CATALOGO, "N.D.;T;ND;Codigo desconocido, pero catalogado"),        // 7
    (CATALOGO, "0200001;P;MOJON;"),                                     // 8
    (CATALOGO, "9999999;X;NADIE;Nobody uses this one"),                 // 9
    (OB_PUN, "1;;10;0200000;Pozo del Norte;4500;1;200;300;999"),        // 1  a Z that isn't its node's
    (OB_PUN, "2;;;0200001;;;;-999999999;9999999999;"),                  // 2  no node: anywhere
    (OB_PUN, "3;;6;0200001;Mojón;0;;500;500;"),                         // 3  no Z though its node has one
    (OB_PUN, "0;;6;0200000;ND;;7;500;500;12"),                          // 4
    (OB_TEX, "1;;0300000;CAMINO REAL;3;2;9000;5;150;260;33"),           // 1
    (OB_TEX, "0;;0300000;arriba|abajo;0;;;1;-10;-20;"),                 // 2
    (OB_TEX, "9999999999;;0300000;;1;;;9;0;0;-1"),                      // 3
    (OB_LIN, "7;;0100000;Camino Real;150;250;33"),                      // 1
    (OB_LIN, "3;;0400000;Linde|Norte;-1;2;"),                           // 2
    (OB_LIN, "1;;0100000;NA;;;"),                                       // 3
    (OB_LIN, "0;;0400000;;0;0;"),                                       // 4
    (TRAMO, "1;7;;;0100001;1;2;+"),                                     // 1  line 1, by its own id
    (TRAMO, "2;7;;20;0100001;2;10;"),                                   // 2  line 20
    (TRAMO, "5;3;;20;0400001;3;10;-"),                                  // 3  line 20 too
    (TRAMO, "20;3;;;N.D.;2;10;+"),                                      // 4  line 20, by its own id
    (TRAMO, "3;1;;3;0100001;10;4;+"),                                   // 5  line 3, given
    (TRAMO, "0;1;;;0100001;4;0;+"),                                     // 6  line 0, by its own id
    (TRAMO, "9;0;;;0400001;0;0;"),                                      // 7  line 9, a ring
    (VERTICE, "3;2;-30;0;"),                                            // 1
    (VERTICE, "20;11;200;300;"),                                        // 2  order k of line 20 is record 13 - k
    (VERTICE, "20;10;192;288;"),                                        // 3
    (VERTICE, "20;9;184;276;"),                                         // 4
    (VERTICE, "20;8;176;264;"),                                         // 5
    (VERTICE, "20;7;168;252;"),                                         // 6
    (VERTICE, "20;6;160;240;"),                                         // 7
    (VERTICE, "20;5;156;232;"),                                         // 8
    (VERTICE, "20;4;152;224;"),                                         // 9
    (VERTICE, "20;3;148;216;"),                                         // 10
    (VERTICE, "20;2;144;208;"),                                         // 11
    (VERTICE, "20;1;140;200;"),                                         // 12
    (VERTICE, "1;2;120;220;"),                                          // 13
    (VERTICE, "1;1;100;200;50"),                                        // 14
    (VERTICE, "1;3;140;200;9"),                                         // 15
    (VERTICE, "0;1;-30;0;"),                                            // 16
    (VERTICE, "0;2;0;-500;0"),                                          // 17
    (VERTICE, "9;3;0;-500;"),                                           // 18
    (VERTICE, "9;1;0;-500;"),                                           // 19
    (VERTICE, "9;2;5;-505;-3"),                                         // 20
    (VERTICE, "3;1;200;300;"),                                          // 21
    (NODO, "1;E;100;200;50"),                                           // 1
    (NODO, "2;E;140;200;"),                                             // 2
    (NODO, "3;E;140;200;7"),                                            // 3  node 2's X and Y, another Z
    (NODO, "10;E;200;300;-5"),                                          // 4
    (NODO, "4;;-30;0;"),                                                // 5
    (NODO, "0;C;0;-500;0"),                                             // 6
    (NODO, "6;A;500;500;12"),                                           // 7  stands alone, points 3 and 0 name it
    (NODO, "8;I;160;240;"),                                             // 8  at order 6 of line 20, ends nothing
];

/// S's line.
pub(super) const S_OK: &str = "OK 00002 00000 00000 00001 00001 00002 00002 00000";

/// The richer delivery's line.
pub(super) const RICH_OK: &str = "OK 00009 00004 00003 00004 00007 00021 00008 00000";

/// The line of the nodes of each kind.
pub(super) const KINDS_OK: &str = "OK 00002 00000 00000 00001 00002 00006 00005 00000";

/// The isolated node's line.
pub(super) const ALONE_OK: &str = "OK 00001 00002 00000 00000 00000 00000 00001 00000";

/// The line of the two objects.
pub(super) const OBJECTS_OK: &str = "OK 00002 00001 00001 00000 00000 00000 00000 00000";

/// The line of the two pits.
pub(super) const PITS_OK: &str = "OK 00002 00002 00000 00000 00000 00000 00000 00002";

/// The drains' line.
pub(super) const DRAINS_OK: &str = "OK 00005 00002 00002 00002 00002 00004 00003 00004";
