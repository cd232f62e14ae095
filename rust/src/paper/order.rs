//! The order file: a tariff and a trace (01, "The two files").

use super::terms::{weigh_order, weigh_periods, Tariff};
use super::words::{bytes_of, words_of};
use super::{require, Answer, FOREIGN, MISPLACED, SHORT};

const KIND: u32 = 1;
const TARIFF_AT: u32 = 20;
const TRACE_AT: u32 = 48;

/// The order of a tariff and a trace: refusals 3 and 5.
pub fn write_order(tariff: &Tariff, trace: &[u16]) -> Answer<Vec<u8>> {
    weigh_order(trace, tariff)?;
    let periods = trace.len() as u32;
    let mut file = bytes_of(&[KIND, periods, TARIFF_AT, TRACE_AT, length(periods)]);
    file.extend(bytes_of(&tariff.figures()));
    file.extend(trace.iter().flat_map(|demand| demand.to_le_bytes()));
    Ok(file)
}

/// The number of periods and the tariff: refusals 1 to 5. Under 20 bytes there are not five words.
pub fn read_order(file: &[u8]) -> Answer<(u32, Tariff)> {
    let words = words_of(file);
    let Some((header, figures)) = words.split_first_chunk::<5>() else {
        return Err(SHORT);
    };
    let [kind, periods, places @ ..] = *header;
    require(kind == KIND, FOREIGN)?;
    weigh_periods(periods as usize)?;
    let length = length(periods);
    require(places == [TARIFF_AT, TRACE_AT, length] && file.len() == length as usize, MISPLACED)?;
    let figures = figures.first_chunk::<7>().ok_or(MISPLACED)?;
    let tariff = Tariff::from_figures(*figures);
    tariff.weigh()?;
    Ok((periods, tariff))
}

/// The demands of an order, and none where reading it refuses.
pub fn trace_of(file: &[u8]) -> Vec<u16> {
    if read_order(file).is_err() {
        return Vec::new();
    }
    let demands = file.get(TRACE_AT as usize..).unwrap_or_default();
    demands.as_chunks().0.iter().map(|&demand| u16::from_le_bytes(demand)).collect()
}

/// The file's length, for a T that has been weighed.
fn length(periods: u32) -> u32 {
    TRACE_AT + 2 * periods
}
