//! What the command says of itself.

/// A few lines for someone who mistyped.
pub const USAGE: &str = "\
usage: canopyrail judge [--strict] DIR
       canopyrail explain [--strict] DIR
       canopyrail grid [--strict] [--words] DIR...
       canopyrail show [--as NAME] FILE RECORD
       canopyrail help [judge | explain | grid | show]
";

pub const GENERAL: &str = "\
canopyrail: checks MIGRA v1 map deliveries (chain-node profile, eight files)

usage:
  canopyrail judge [--strict] DIR              judge a delivery and print one line
  canopyrail explain [--strict] DIR            the same line, then what is wrong in plain words
  canopyrail grid [--strict] [--words] DIR...  how many faults there are, by file and kind
  canopyrail show [--as NAME] FILE RECORD      one record's values, a field a line
  canopyrail help [COMMAND]                    this page, or a command's own
  canopyrail --version, -V                     the version

DIR has the delivery's files CATALOGO, OB_PUN, OB_TEX, OB_LIN, TRAMO, VERTICE, NODO and OB_COMP, in
capitals. A file that is absent counts as an empty one; where that looks like a mistake, a warning
goes to standard error.

exit status:
  0  accepted (grid: all of them; show: the record is lawful)
  1  refused (grid: at least one; show: the record is not lawful)
  2  could not judge (show: could not read): there is only a message on standard error

example:
  $ canopyrail judge north-ridge
  NO 53 5 00001 07
  $ canopyrail explain north-ridge
  NO 53 5 00001 07

  Where   TRAMO record 1, field 7 ID_NODOF (the end node)
  ...
  Wrong   The line ends elsewhere than its end node.
  ...

`canopyrail help judge` says how to read the line, `canopyrail help grid` how to read the counts.
";

pub const JUDGE: &str = "\
usage: canopyrail judge [--strict] DIR

Judges the delivery in DIR and prints one line:

  OK 00002 00000 00000 00001 00001 00002 00002 00000
     accepted: the records of CATALOGO, OB_PUN, OB_TEX, OB_LIN, TRAMO, VERTICE, NODO and OB_COMP

  NO 53 5 00001 07
     |  | |     +--- field of the record, counted from 1; 00: the record as a whole
     |  | +--------- record, counted from 1; 00000: the file as a whole
     |  +----------- file: 1 CATALOGO, 2 OB_PUN, 3 OB_TEX, 4 OB_LIN, 5 TRAMO, 6 VERTICE, 7 NODO,
     |               8 OB_COMP
     +-------------- reason: 10-11 the file, 20-25 a record's bytes, 30 a key used twice,
                     40-41 something named that is not there, 50-58 lines and nodes,
                     70 a composite object that no object names

The first fault in a fixed order is told; there may be more behind it. `canopyrail explain DIR` says
it in words, `canopyrail grid DIR` counts those of its kind.

DIR has the eight files under these names, in capitals. An absent file counts as an empty one; one
that is there and can't be read whole, or is a link to nothing, a folder or a pipe, means that the
delivery could not be judged. A file may have 16,384 records.

Where none of the files is there, or one is absent and another name looks like it (nodo, NODO.TXT),
a warning goes to standard error. With --strict such a delivery is not judged, and the status is 2.

exit status:
  0  accepted
  1  refused
  2  could not judge: there is only a message on standard error

example:
  canopyrail judge --strict north-ridge && load-into-base north-ridge
";

pub const EXPLAIN: &str = "\
usage: canopyrail explain [--strict] DIR

Judges the delivery in DIR, prints the line that `canopyrail judge DIR` prints, and then says it in
plain words:

  Where   file, record and field by MIGRA's names, and the record's bytes, marked with ^ beneath
  Wrong   what is wrong
  Here    what stands in this delivery, with the other records that matter
  Rule    the reason's number, and what the rule says
  Ask     what to ask the contractor

Of an accepted delivery it gives the records of each file by name. Bytes that don't print, bytes of
accented letters, and the backslash are shown as \\xNN, their number in base sixteen. A long record
goes over several lines, each with the number of its first field and a colon before it.

Warnings and --strict are those of `canopyrail judge`.

exit status:
  0  accepted
  1  refused
  2  could not judge: there is only a message on standard error

example:
  canopyrail explain north-ridge | less
";

pub const GRID: &str = "\
usage: canopyrail grid [--strict] [--words] DIR...

Counts the faults of the delivery in DIR, or of those in several folders together, and prints eight
rows of six counts, each of ten digits. The rows are the files CATALOGO, OB_PUN, OB_TEX, OB_LIN,
TRAMO, VERTICE, NODO and OB_COMP, the columns the kinds of fault by the tens of their reasons:

  0000000000 0000000000 0000000000 0000000002 0000000000 0000000000
  |          |          |          |          |          +--- 70 composites: one that nothing names
  |          |          |          |          +-------------- 50-59 lines and nodes
  |          |          |          +------------------------- 40-41 references: what is named is
  |          |          |                                     not there
  |          |          +------------------------------------ 30 keys: one that is used twice
  |          +----------------------------------------------- 20-25 fields: a record's bytes
  +---------------------------------------------------------- 10-11 shape: the file as a whole

Of one delivery only the first column that has any fault is counted, since the rules of the others
are not read then: there may be more in those behind it. Every fault of that column is counted once,
so a field that breaks two rules has two. All zeros: accepted. Counts of several folders are added
up, and a sum of more than ten digits is told as reason 67 with the folder at which it came up; no
rows are printed then.

With --words the rows have the files' names, the columns the kinds' names, and both their totals.

Warnings and --strict are those of `canopyrail judge`. Where one of the folders can't be judged,
nothing is counted.

exit status:
  0  accepted, all of them
  1  at least one refused
  2  could not judge, or not add up: there is only a message on standard error

examples:
  canopyrail grid north-ridge
  canopyrail grid --words deliveries/*
";

pub const SHOW: &str = "\
usage: canopyrail show [--as NAME] FILE RECORD

Shows the values of one record of a file, a field a line: the field's number, MIGRA's name, and the
value or the word missing. Numbers are shown without leading zeros, coordinates with their sign,
texts in quotes with bytes that are not plain ASCII as \\xNN. RECORD counts from 1.

FILE's name is one of CATALOGO, OB_PUN, OB_TEX, OB_LIN, TRAMO, VERTICE, NODO, OB_COMP; where it is
another, --as NAME says which of the eight it is. Only this one record is looked at.

exit status:
  0  the record is lawful
  1  it is not: reason and field are said, and the bytes marked
  2  it can't be read: no such file, no regular file, or no such record

examples:
  canopyrail show north-ridge/NODO 2
  canopyrail show --as=NODO old/nodo.nod 2
";

/// The page of a command.
pub fn page(command: &str) -> Option<&'static str> {
    match command {
        "judge" => Some(JUDGE),
        "explain" => Some(EXPLAIN),
        "grid" => Some(GRID),
        "show" => Some(SHOW),
        "help" => Some(GENERAL),
        _ => None,
    }
}
