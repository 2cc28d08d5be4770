//! Mending a damaged drawing: "A tool reads one buffer and writes another."
//!
//! Checks 1; 2; then what the judge gives what came out. A record's kind is its byte 0
//! alone: whether its other fields may stand is the judge's affair, afterwards.

use super::calls::lent_short;
use super::drawing::{records, Record, COMPONENT, CONNECTION, INPUT_MAP, RECORD_BYTES};
use super::judge::{judge, Refusal, RECORDS_MAX};
use crate::tables::{Tables, DROPPED, MENDED};

/// Why a position is dropped.
#[derive(Clone, Copy, Debug, PartialEq)]
pub enum Why {
    /// "a trailing part record, whose position counts as one dropped".
    Part,
    /// A connection or input map "that check 12 refuses".
    NotThere,
    /// One "whose input an earlier kept one has entered".
    Entered,
}

/// What comes out of a file.
pub struct Mended {
    pub bytes: Vec<u8>,
    /// "each dropped position, ascending", and why.
    pub dropped: Vec<(usize, Why)>,
}

/// What comes out of the file, or why nothing is written.
pub fn mend(tables: &Tables, file: &[u8]) -> Result<Mended, Refusal> {
    // "before mending, 1 for no whole record or over 1,024,
    let whole = file.len() / RECORD_BYTES;
    if whole == 0 || whole > RECORDS_MAX {
        return Err(Refusal::of(1));
    }
    // and 2 for an output buffer shorter than the input or a list shorter than 1,025".
    if tables.lent[MENDED] < file.len() || lent_short(tables, DROPPED) {
        return Err(Refusal::of(2));
    }
    // "The result is then judged as a load would; if still refused, that number is given
    // with the position in the shortened file and nothing is written."
    let mended = sifted(file);
    judge(&mended.bytes)?;
    Ok(mended)
}

/// "It drops a trailing part record ..; then, in file order, each connection or input map
/// that check 12 refuses or whose input an earlier kept one has entered. Nothing else is
/// touched: kept records stand in order with their bytes".
pub fn sifted(file: &[u8]) -> Mended {
    let whole = records(file);
    let components = components(&whole);
    let mut kept: Vec<Record> = vec![];
    let mut mended = Mended { bytes: vec![], dropped: vec![] };
    for (position, record) in whole.iter().enumerate() {
        if enters(record) && check_12_refuses(&components, record) {
            mended.dropped.push((position, Why::NotThere));
        } else if enters(record) && kept.iter().any(|earlier| have_one_input(earlier, record)) {
            mended.dropped.push((position, Why::Entered));
        } else {
            kept.push(*record);
            mended.bytes.extend(&file[RECORD_BYTES * position..RECORD_BYTES * (position + 1)]);
        }
    }
    if !file.len().is_multiple_of(RECORD_BYTES) {
        mended.dropped.push((whole.len(), Why::Part));
    }
    mended
}

/// A connection or an input map: it enters an input of a child.
fn enters(record: &Record) -> bool {
    record.kind == CONNECTION || record.kind == INPUT_MAP
}

/// Whether both enter the same input of the same child of the same owner.
fn have_one_input(earlier: &Record, record: &Record) -> bool {
    enters(earlier) && (earlier.owner, earlier.c, earlier.d) == (record.owner, record.c, record.d)
}

/// "the file's component records", "numbered from 0 in file order", wherever they stand.
fn components(records: &[Record]) -> Vec<Record> {
    records.iter().filter(|record| record.kind == COMPONENT).copied().collect()
}

/// "A child number counts the components with that owner, from 0, the root never counted."
/// "An owner that is no composite among the file's component records has no children".
fn child(components: &[Record], owner: u16, number: u16) -> Option<&Record> {
    components.get(owner as usize).filter(|owner| owner.is_composite())?;
    let mut children = components.iter().skip(1).filter(|component| component.owner == owner);
    children.nth(number as usize)
}

/// Check 12: "a child or port .. does not exist". A connection goes from "output B of child A
/// to input D of child C", an input map from its "owner's input A to input D of child C".
fn check_12_refuses(components: &[Record], record: &Record) -> bool {
    let input = child(components, record.owner, record.c).is_some_and(|child| record.d < child.a);
    let origin = if record.kind == CONNECTION {
        child(components, record.owner, record.a).is_some_and(|child| record.b < child.b)
    } else {
        components.get(record.owner as usize).is_some_and(|owner| record.a < owner.a)
    };
    !(input && origin)
}
