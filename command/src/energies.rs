//! What one device spends by its row. The library gives the sum over all of them, and what is worked out
//! here is held to it.

use crate::calls::planner::Rows;
use crate::failure::Failure;
use crate::kinds::Kind;
use crate::tables::Tables;

/// That something was worked out here otherwise than in the library.
pub fn disagreement(what: &str) -> Failure {
    Failure::Stream(format!(
        "floe: no answer: {what} are not what the library says; this is a fault of floe"
    ))
}

/// The energy of a row; nothing, if a letter of it has no power.
pub fn energy(kind: &Kind, record: &[u8], row: &[u8]) -> Option<u64> {
    let powers = row.iter().map(|&letter| kind.power(record, letter));
    powers.map(|power| power.map(u64::from)).sum()
}

/// The energy of each device, whose sum is the library's.
pub fn energies(tables: &Tables, rows: &Rows) -> Result<Vec<u64>, Failure> {
    let records = tables.devices.records.iter().zip(&rows.rows);
    let energies: Option<Vec<u64>> = records
        .map(|(record, row)| energy(tables.kind, record, row))
        .collect();
    match energies {
        Some(energies) if energies.iter().sum::<u64>() == u64::from(rows.energy) => Ok(energies),
        _ => Err(disagreement("the energies of the devices")),
    }
}
