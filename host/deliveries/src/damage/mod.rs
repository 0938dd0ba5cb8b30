//! Damage to a delivery, aimed at a reason, at a near miss, or blunt.
//!
//! Each aim has several steps that bring it about. A step says whether it
//! found a place to strike; where none of them does, the delivery first gets a
//! lawful piece with everything in it.

mod aims;
mod bytes;
mod composites;
mod keys;
mod mistakes;
mod mixed;
mod near;
mod topology;

pub use aims::{Aim, Layer, Outcome, AIMS};

use crate::full::MOST_RECORDS;
use crate::graft::{fill, graft};
use crate::lawful::{lawful, Size};
use crate::layout::FILES;
use crate::model::{write, Files, Model};
use crate::random::Random;

/// A way to damage the values.
pub(crate) type ValueStep = fn(&mut Random, &mut Model) -> bool;

/// A way to damage the bytes.
pub(crate) type ByteStep = fn(&mut Random, &mut Files) -> bool;

/// Damages the delivery. An aim at the values changes the model and writes all
/// files anew from it; an aim at the bytes changes the files alone.
pub fn damage(random: &mut Random, model: &mut Model, files: &mut Files, aim: Aim) {
    match aim.layer() {
        Layer::Values => {
            damage_values(random, model, aim);
            *files = write(model);
        }
        Layer::Bytes => damage_bytes(random, model, files, aim),
    }
}

/// A small lawful delivery with one to three damages, and which they were. The
/// aims that need a big file are left out.
pub fn damaged(random: &mut Random) -> (Files, Vec<Aim>) {
    let mut model = lawful(random, Size::Small);
    let mut files = write(&model);
    let small: Vec<Aim> = AIMS.iter().copied().filter(|aim| !aim.is_big()).collect();
    let mut aims: Vec<Aim> = (0..1 + random.index(3))
        .map(|_| random.pick(&small))
        .collect();
    // Writing the values anew would undo damage to the bytes.
    aims.sort_by_key(|aim| aim.layer());
    for &aim in &aims {
        damage(random, &mut model, &mut files, aim);
    }
    (files, aims)
}

fn damage_values(random: &mut Random, model: &mut Model, aim: Aim) {
    match aim {
        Aim::AllEmpty => *model = Model::default(),
        Aim::AtTheLimit => {
            let file = random.index(FILES);
            fill(random, model, file, MOST_RECORDS);
        }
        _ => {
            let steps = value_steps(aim);
            if !any_value_step(random, model, steps) {
                graft_for(random, model, aim);
                let struck = any_value_step(random, model, steps);
                assert!(struck, "no place for {}", aim);
            }
        }
    }
}

fn damage_bytes(random: &mut Random, model: &mut Model, files: &mut Files, aim: Aim) {
    if aim == Aim::TooLong {
        let file = random.index(FILES);
        fill(random, model, file, MOST_RECORDS);
        *files = write(model);
        bytes::lengthen(random, &mut files[file], file);
        return;
    }
    let steps = byte_steps(aim);
    if !any_byte_step(random, files, steps) {
        graft_for(random, model, aim);
        *files = write(model);
        let struck = any_byte_step(random, files, steps);
        assert!(struck, "no place for {}", aim);
    }
}

fn graft_for(random: &mut Random, model: &mut Model, aim: Aim) {
    // Text order differs from number order only from ten vertices on.
    let vertices = match aim {
        Aim::OrderAsText => 10 + random.index(3),
        _ => 3 + random.index(3),
    };
    graft(random, model, vertices);
}

/// Strikes what was found, if anything was.
fn strike<T>(found: Option<T>, blow: impl FnOnce(T)) -> bool {
    match found {
        Some(target) => {
            blow(target);
            true
        }
        None => false,
    }
}

fn places_where<T>(records: &[T], wanted: impl Fn(&T) -> bool) -> Vec<usize> {
    (0..records.len())
        .filter(|&place| wanted(&records[place]))
        .collect()
}

/// Tries the steps from a random one on until one strikes.
fn any_value_step(random: &mut Random, model: &mut Model, steps: &[ValueStep]) -> bool {
    let from = random.index(steps.len());
    (0..steps.len()).any(|step| steps[(from + step) % steps.len()](random, model))
}

fn any_byte_step(random: &mut Random, files: &mut Files, steps: &[ByteStep]) -> bool {
    let from = random.index(steps.len());
    (0..steps.len()).any(|step| steps[(from + step) % steps.len()](random, files))
}

pub(crate) fn value_steps(aim: Aim) -> &'static [ValueStep] {
    match aim {
        Aim::DoubledKey => keys::DOUBLED_KEY,
        Aim::UnknownComposite => composites::UNKNOWN_COMPOSITE,
        Aim::PerimeterGiven => keys::PERIMETER_GIVEN,
        Aim::UnknownCode => keys::UNKNOWN_CODE,
        Aim::UnknownNode => keys::UNKNOWN_NODE,
        Aim::UnknownLinear => keys::UNKNOWN_LINEAR,
        Aim::UnknownLine => keys::UNKNOWN_LINE,
        Aim::UnusedLine => keys::UNUSED_LINE,
        Aim::CodeOfOtherType => keys::CODE_OF_OTHER_TYPE,
        Aim::OrderZero => topology::ORDER_ZERO,
        Aim::OrderGap => topology::ORDER_GAP,
        Aim::SingleVertex => topology::SINGLE_VERTEX,
        Aim::StartElsewhere => topology::START_ELSEWHERE,
        Aim::EndElsewhere => topology::END_ELSEWHERE,
        Aim::TwinNode => topology::TWIN_NODE,
        Aim::PointElsewhere => topology::POINT_ELSEWHERE,
        Aim::IdleNode => topology::IDLE_NODE,
        Aim::IdleLinear => topology::IDLE_LINEAR,
        Aim::OtherKind => topology::OTHER_KIND,
        Aim::IdleComposite => composites::IDLE_COMPOSITE,
        Aim::OrderAsText => mistakes::ORDER_AS_TEXT,
        Aim::OrderByPlace => mistakes::ORDER_BY_PLACE,
        Aim::TurnedSense => mistakes::TURNED_SENSE,
        Aim::BlankIdAsZero => mistakes::BLANK_ID_AS_ZERO,
        Aim::VertexHeight => near::VERTEX_HEIGHT,
        Aim::NodeHeight => near::NODE_HEIGHT,
        Aim::PointHeight => near::POINT_HEIGHT,
        Aim::NodeAbove => near::NODE_ABOVE,
        Aim::EndNodeAbove => near::END_NODE_ABOVE,
        Aim::NodeAtMiddle => near::NODE_AT_MIDDLE,
        Aim::NodeHeldByPoints => near::NODE_HELD_BY_POINTS,
        Aim::PointLetsGo => near::POINT_LETS_GO,
        Aim::SecondTramo => near::SECOND_TRAMO,
        Aim::SenseChanged => near::SENSE_CHANGED,
        Aim::LineIdSpelled => near::LINE_ID_SPELLED,
        Aim::VertexRemoved => near::VERTEX_REMOVED,
        Aim::VertexAdded => near::VERTEX_ADDED,
        Aim::MinusBeforeNonzero => near::MINUS_BEFORE_NONZERO,
        Aim::Mirrored => near::MIRRORED,
        Aim::CompositeAdded => composites::COMPOSITE_ADDED,
        Aim::ObjectMoves => composites::OBJECT_MOVES,
        Aim::RenamedId => near::RENAMED_ID,
        Aim::UnusedCode => near::UNUSED_CODE,
        Aim::NodeType => near::NODE_TYPE,
        Aim::OptionalFields => near::OPTIONAL_FIELDS,
        Aim::BarInText => near::BAR_IN_TEXT,
        Aim::NoBreakWithin => near::NO_BREAK_WITHIN,
        Aim::NaInName => near::NA_IN_NAME,
        Aim::FreeWords => near::FREE_WORDS,
        Aim::Reshuffled => near::RESHUFFLED,
        Aim::MixedOrders => mixed::MIXED_ORDERS,
        Aim::MixedTramo => mixed::MIXED_TRAMO,
        Aim::MixedComposites => mixed::MIXED_COMPOSITES,
        _ => panic!("{} has no steps over the values", aim),
    }
}

pub(crate) fn byte_steps(aim: Aim) -> &'static [ByteStep] {
    match aim {
        Aim::RaggedEnd => bytes::RAGGED_END,
        Aim::RecordEnd => bytes::RECORD_END,
        Aim::NoBar => bytes::NO_BAR,
        Aim::BrokenNumber => bytes::BROKEN_NUMBER,
        Aim::BrokenText => bytes::BROKEN_TEXT,
        Aim::NoBreakPadding => bytes::NO_BREAK_PADDING,
        Aim::MissingField => bytes::MISSING_FIELD,
        Aim::MissingPartner => bytes::MISSING_PARTNER,
        Aim::OutsideDomain => bytes::OUTSIDE_DOMAIN,
        Aim::MinusZero => bytes::MINUS_ZERO,
        Aim::RecordsSwapped => bytes::RECORDS_SWAPPED,
        Aim::ChangedByte => bytes::CHANGED_BYTE,
        Aim::NastyByte => bytes::NASTY_BYTE,
        Aim::ByteInserted => bytes::BYTE_INSERTED,
        Aim::ByteRemoved => bytes::BYTE_REMOVED,
        Aim::Truncated => bytes::TRUNCATED,
        Aim::RecordRemoved => bytes::RECORD_REMOVED,
        Aim::RecordDoubled => bytes::RECORD_DOUBLED,
        Aim::FilesSwapped => bytes::FILES_SWAPPED,
        Aim::FileEmptied => bytes::FILE_EMPTIED,
        Aim::RandomFile => bytes::RANDOM_FILE,
        Aim::MixedPair => bytes::MIXED_PAIR,
        Aim::MixedRecord => bytes::MIXED_RECORD,
        _ => panic!("{} has no steps over the bytes", aim),
    }
}
