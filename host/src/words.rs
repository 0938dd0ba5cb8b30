//! Every reason in plain words. `canopyrail explain` and docs/FAULT-CARD.md are made of these.

use crate::Reason;

/// What one reason means and what to do about it.
#[derive(Clone, Copy, Debug, PartialEq, Eq)]
pub struct Words {
    /// What is wrong.
    pub wrong: &'static str,
    /// What the rule says.
    pub rule: &'static str,
    /// What to look at.
    pub look: &'static str,
    /// What to ask the contractor; of 60 to 67, what to mend in the calling program.
    pub ask: &'static str,
}

/// The words of a reason.
#[must_use]
pub const fn of(reason: Reason) -> Words {
    match reason {
        Reason::LongFile => Words {
            wrong: "The file has more than 16,384 records.",
            rule: "A file is at most as long as 16,384 of its records.",
            look: "The file's size.",
            ask: "To split the map into several deliveries.",
        },
        Reason::RaggedFile => Words {
            wrong: "The file does not end at a record's end: the record shown is cut short.",
            rule: "A file's length is a multiple of its record's length. Nothing stands after the \
                   last record's line end, no empty line and no closing byte.",
            look: "The end of the file: was the copy broken off, is there an extra line or an end \
                   mark? Its lines: do they end in both end bytes, is the text ISO 8859-1?",
            ask:
                "To send the file again, whole, and to write nothing after the last record's line \
                  end.",
        },
        Reason::BadEnd => Words {
            wrong: "The record does not end in carriage return and line feed.",
            rule: "After the last field of every record stand the bytes 0D 0A. Records are cut by \
                   their length from the start of the file, so one that is too long or too short \
                   pushes all later ones out of step.",
            look: "The record's last two bytes, and where its own line ends.",
            ask: "To write every record at its full length with both end bytes, and to send the \
                  file in binary, not as text.",
        },
        Reason::NoBar => Words {
            wrong: "There is no bar after the field.",
            rule: "After every field but the last stands a bar (byte 7C). Fields are found by \
                   place, with the widths of MIGRA's section 5.5 and not those of the printed \
                   examples.",
            look: "The byte after the field.",
            ask: "Whether this field or one before it is written with the wrong width, and to put \
                  a bar after every field but the last.",
        },
        Reason::NotNumber => Words {
            wrong: "A number field is neither all digits nor all blanks.",
            rule:
                "An N field has digits alone, filled with zeros on the left, or it is all blank, \
                   which means missing. A sign, a point, a letter, or a blank beside digits has no \
                   place in it.",
            look: "The field: blanks before the digits, a point, a letter, a sign.",
            ask: "To fill numbers with zeros on the left, to write whole numbers, and to put a \
                  coordinate's sign into its own field.",
        },
        Reason::NotText => Words {
            wrong: "A text has a byte that no text may have, begins in a blank, or begins or ends in \
                    a no-break blank (A0).",
            rule:
                "An A field has bytes 20 to 7E and A0 to FF (ISO 8859-1), and its text begins at \
                   its first byte. The text, without the blanks (20) after it, neither begins nor \
                   ends in the no-break blank A0; within it A0 is a byte like others. A field that \
                   is all blank is missing; one of A0 is not.",
            look: "The field: control bytes, a text in another code page, a text pushed to the \
                   right, a text filled up with no-break blanks (shown as \\xA0), which look like \
                   blanks and are none.",
            ask: "To write texts from the left, in ISO 8859-1 (not in UTF-8 or a DOS or Windows \
                  code page), without tabs or other control bytes, and to fill them up with blanks \
                  (20), not with no-break blanks (A0).",
        },
        Reason::Missing => Words {
            wrong: "Something is missing that must be there, or a sign or a number stands without \
                    its partner.",
            rule: "Codes, own ids, the catalogue's TIPO, a vertex's line and order, a text's \
                   ALTURA and JUSTIFI, a tramo's linear object and nodes, and X and Y with their \
                   signs must be there. A sign and its number are both there or both blank. In \
                   OB_LIN and OB_COMP a centroid has X and Y with their signs, or nothing.",
            look: "The field and its partner. In OB_LIN and OB_COMP a centroid has X and Y with \
                   their signs, or nothing.",
            ask:
                "To fill the field, or, where it may be missing, to blank its partner too. A code \
                  NA or ND is no code; an unknown code has an entry of its own in the catalogue.",
        },
        Reason::Outside => Words {
            wrong: "The field holds something that it may not.",
            rule: "The catalogue's TIPO is P, X, L, T or C. A sign is + or -, and - never stands \
                   before zero. A tramo's SENTIDO is +, - or blank. A node's TIPO is A, C, E, I, H \
                   or blank, in capitals. An orientation has degrees from 000 to 359 and minutes \
                   from 00 to 59. A text's justification is 1 to 9.",
            look: "The field: a type that is not P, X, L, T or C (in NODO not A, C, E, I or H), a \
                   sign that is not + or -, - before zero, an orientation past 35959 or with more \
                   than 59 minutes, a justification of 0.",
            ask: "To use MIGRA's letters and signs, to write zero with +, and to write angles as \
                  degrees and minutes, not with decimals.",
        },
        Reason::SameKey => Words {
            wrong: "The record's key was used by an earlier record of the file.",
            rule:
                "Within a file a key stands once: CODIGO in CATALOGO, line and order together in \
                   VERTICE, the own id in the other files.",
            look: "The record and the earlier one with the same code or id (in VERTICE the same \
                   line and order).",
            ask: "Which of the two records is right, and to leave the other out or to give it a \
                  key of its own.",
        },
        Reason::NoRecord => Words {
            wrong: "The field names something that is not in the delivery.",
            rule: "What a field names has a record in its file: a code in CATALOGO, a node in \
                   NODO, a linear object in OB_LIN, a composite object in OB_COMP, a line in \
                   VERTICE; and every vertex's line is used by a tramo. A tramo with a blank \
                   ID_LINEA uses the line that has the tramo's own id. Perimeters have no file \
                   here, so their ids are blank.",
            look:
                "The id or code in the field, and the file it should be in: is the file there? A \
                   blank line id in TRAMO means the tramo's own id. A perimeter id must be blank, \
                   and so must the composite id of an object that belongs to none: 0 is an id.",
            ask: "To send the missing record, or to mend what the field names.",
        },
        Reason::OtherType => Words {
            wrong: "The code is in the catalogue, but for another kind of object.",
            rule: "A code's TIPO in CATALOGO is that of the file it is used in: P (point) in \
                   OB_PUN, X (text) in OB_TEX, L (line) in OB_LIN, T (tramo) in TRAMO, C \
                   (composite) in OB_COMP.",
            look: "The code's letter in CATALOGO: P for OB_PUN, X for OB_TEX, L for OB_LIN, T for \
                   TRAMO, C for OB_COMP.",
            ask: "To use a code of the right kind, or to mend the code's TIPO in the catalogue.",
        },
        Reason::OrderGap => Words {
            wrong: "The vertex has order 0, or the order before it is missing on its line.",
            rule: "A line's vertices are numbered 1, 2, 3 and so on without a gap. Their place in \
                   the file does not matter.",
            look: "The vertices of that line, by their order.",
            ask: "To number each line's vertices from 1 without gaps, and whether vertices of the \
                  line were lost.",
        },
        Reason::OrderAlone => Words {
            wrong: "The line has a first vertex and no second.",
            rule:
                "A line has at least two vertices: where there is an order 1 there is an order 2.",
            look: "The vertices of that line, by their order.",
            ask: "To send the line whole, or to leave it out together with its tramo.",
        },
        Reason::StartElsewhere => Words {
            wrong: "The line starts elsewhere than its start node.",
            rule: "The vertex of order 1 of a tramo's line has the X and Y of the tramo's start \
                   node, whatever the tramo's SENTIDO. Z is not asked.",
            look: "X and Y of the vertex of order 1 of the tramo's line, and of the node in field 6.",
            ask: "To bring both to one place, or to name the right node. Start and end node may \
                  have been exchanged.",
        },
        Reason::EndElsewhere => Words {
            wrong: "The line ends elsewhere than its end node.",
            rule: "The vertex of highest order of a tramo's line has the X and Y of the tramo's \
                   end node, whatever the tramo's SENTIDO. Z is not asked.",
            look: "X and Y of the vertex of highest order of the tramo's line, and of the node in \
                   field 7.",
            ask:
                "To bring both to one place, or to name the right node. Vertices that were sorted \
                  as text (10 before 2) and then numbered anew end up here.",
        },
        Reason::SamePlace => Words {
            wrong: "Two nodes are at one place, with the same X, Y and Z.",
            rule: "No two nodes have the same X, Y and Z. A missing Z equals only a missing Z.",
            look: "The node and the earlier one.",
            ask: "To keep one of the two and to name it everywhere.",
        },
        Reason::PointElsewhere => Words {
            wrong: "The point object is elsewhere than the node it names.",
            rule: "A point object that names a node has the node's X and Y. Z is not asked.",
            look: "X and Y of the object and of the node.",
            ask: "To mend one of the two places, to name the right node, or to blank the node's \
                  id.",
        },
        Reason::IdleNode => Words {
            wrong: "The node stands alone: no tramo starts or ends there, no vertex is there, and \
                    fewer than two point objects name it.",
            rule: "A node starts or ends a tramo, or has the X and Y of a vertex, or is named by at \
                   least two point objects.",
            look: "The node's id in TRAMO and OB_PUN, and its X and Y in VERTICE.",
            ask: "To leave the node out, or to send what uses it. A single point object needs no \
                  node.",
        },
        Reason::IdleObject => Words {
            wrong: "No tramo belongs to the linear object.",
            rule: "Every linear object is named by at least one tramo.",
            look: "The object's id, and field 2 of TRAMO.",
            ask: "To send the object's tramos, or to leave the object out.",
        },
        Reason::OtherKind => Words {
            wrong: "The node's TIPO says another kind of node than it is.",
            rule: "A node is an end where it starts or ends a tramo or has the X and Y of a line's \
                   first or last vertex, and intermediate where it has those of another vertex. A \
                   (isolated) is for a node that is neither, E (end) for an end alone, I \
                   (intermediate) for an intermediate node alone, H for one that is both, C \
                   (connected) for any that is not isolated. A blank says nothing.",
            look: "The node's letter, its id in TRAMO, and its X and Y among the vertices of all \
                   lines.",
            ask: "To write the letter that fits, or C or a blank where it isn't known. If the letter \
                  is right: whether a vertex was moved or lost, or a line cut or joined.",
        },
        Reason::NoLastVertex => Words {
            wrong: "The tramo's line has no last vertex.",
            rule:
                "A tramo's line has a vertex of highest order. A line without any vertex is told \
                   as reason 40 before this.",
            look: "It is never told first, since reason 40 comes before it.",
            ask: "To send the line's vertices.",
        },
        Reason::NoFile => Words {
            wrong: "There is no file of this number.",
            rule: "Files are numbered 1 to 8.",
            look: "The number passed.",
            ask: "Pass the number of one of the eight files.",
        },
        Reason::ShortRoom => Words {
            wrong: "The room lent is too short.",
            rule: "Writing takes as many bytes as the record has; reading takes the whole arrays \
                   of values; a grid takes all its cells.",
            look: "The lengths passed.",
            ask: "Lend more room.",
        },
        Reason::TooLarge => Words {
            wrong: "The value is too large for its digits.",
            rule: "A number has at most as many digits as its field is wide; a coordinate's sign \
                   is not counted.",
            look: "The field's value.",
            ask: "Give a smaller number, or one of the field's own form.",
        },
        Reason::BadText => Words {
            wrong: "The text is too long, has a byte that no text may have, or begins or ends in a \
                    blank or a no-break blank (A0).",
            rule: "A text has at most as many bytes as its field, only bytes 20 to 7E and A0 to \
                   FF, and neither begins nor ends in a blank (20) or a no-break blank (A0).",
            look: "The field's text.",
            ask: "Shorten or clean the text.",
        },
        Reason::NotGiven => Words {
            wrong: "A value is missing that must be there.",
            rule:
                "What may not be missing in a record may not be missing in writing it. NA and ND \
                   are no codes. A centroid of OB_LIN or OB_COMP has X and Y, or nothing.",
            look: "The field, and in OB_LIN and OB_COMP the centroid's other fields.",
            ask: "Give the value.",
        },
        Reason::Unfit => Words {
            wrong: "The value is outside its domain.",
            rule: "The catalogue's TIPO is P, X, L, T or C; a tramo's SENTIDO is + or - or missing; a \
                   node's TIPO is A, C, E, I or H or missing; an orientation has degrees from 000 \
                   to 359 and minutes from 00 to 59; a text's justification is 1 to 9.",
            look: "The field's text or number.",
            ask: "Give one of the values that the field may have.",
        },
        Reason::NoSuchRecord => Words {
            wrong: "There is no such record.",
            rule: "Records are counted from 1 to the whole records in hand.",
            look: "The record's number and the count of whole records.",
            ask: "Ask for a record that is there.",
        },
        Reason::SumTooLarge => Words {
            wrong: "A cell of the two grids' sum is over 9,999,999,999.",
            rule: "A cell of a grid has at most ten digits, also where grids are added up.",
            look: "The cells of both grids, neither of which was changed.",
            ask: "Keep the two sums apart.",
        },
        Reason::IdleComposite => Words {
            wrong: "No object names the composite object.",
            rule: "Every composite object is named by at least one object of OB_PUN, OB_TEX or \
                   OB_LIN, in the object's field 2.",
            look: "The composite's id, and field 2 of OB_PUN, OB_TEX and OB_LIN.",
            ask: "To name the composite in the objects that belong to it, to send those that are \
                  not there, or to leave the composite out.",
        },
    }
}
