//! The calls of the proved product (crates/exports) for programs in Rust, with nothing of this package but this file. A
//! call that ends in `_into` fills what the caller lends; the one without it lends as much as any answer needs. A rate
//! and a depth are types of their own. `tests/header` compares the declarations below with the Rattle source.

#![allow(unsafe_code)]

/// The figures, or the number of the refusal.
pub type Answer<T> = Result<T, u32>;

/// Tokens gained in each period.
#[repr(transparent)]
#[derive(Clone, Copy, Debug, Default, PartialEq, Eq)]
pub struct Rate(pub u32);

/// Tokens that a bucket holds at the most from one period to the next.
#[repr(transparent)]
#[derive(Clone, Copy, Debug, Default, PartialEq, Eq)]
pub struct Depth(pub u32);

/// The product answers its figure, or this and the number of a refusal.
const REFUSED: u64 = 1_000_000_000_000_000_000;

// Room for any order, and for the longest answers.
const TRACE_LIMIT: usize = 512;
const LONGEST_ORDER: usize = 1_072;
const LONGEST_PLAN: usize = 6_176;
const LONGEST_SHEET: usize = 16_413;
const LONGEST_SINGLE: usize = 37;
const LONGEST_TRIAL: usize = 40;

// A slice goes over as a pointer and a length. The product reads and writes inside it alone, and keeps neither.
extern "C" {
    fn metqoraz_order(
        figures: *const u32,
        figures_len: usize,
        demands: *const u16,
        demands_len: usize,
        bytes: *mut u8,
        bytes_len: usize,
    ) -> u64;
    fn metqoraz_depth(order: *const u8, order_len: usize, rate: Rate) -> u64;
    fn metqoraz_depth_from_end(order: *const u8, order_len: usize, rate: Rate) -> u64;
    fn metqoraz_explain(
        order: *const u8,
        order_len: usize,
        rate: Rate,
        cause: *mut u32,
        first: *mut u32,
        last: *mut u32,
    ) -> u64;
    fn metqoraz_single(order: *const u8, order_len: usize, rate: *mut Rate, depth: *mut Depth) -> u64;
    fn metqoraz_single_line(order: *const u8, order_len: usize, text: *mut u8, text_len: usize) -> u64;
    fn metqoraz_trial(order: *const u8, order_len: usize, rate: Rate, depth: Depth, spare: *mut i64) -> u64;
    fn metqoraz_trial_line(
        order: *const u8,
        order_len: usize,
        rate: Rate,
        depth: Depth,
        text: *mut u8,
        text_len: usize,
    ) -> u64;
    fn metqoraz_series(order: *const u8, order_len: usize) -> u64;
    fn metqoraz_book(order: *const u8, order_len: usize, plan: *mut u8, plan_len: usize) -> u64;
    fn metqoraz_sheet(order: *const u8, order_len: usize, text: *mut u8, text_len: usize) -> u64;
    fn metqoraz_plan(
        plan: *const u8,
        plan_len: usize,
        periods: *mut u32,
        buckets: *mut u32,
        runs: *mut u32,
        runs_len: usize,
        rates: *mut Rate,
        rates_len: usize,
        depths: *mut Depth,
        depths_len: usize,
    ) -> u64;
    fn metqoraz_check(order: *const u8, order_len: usize, plan: *const u8, plan_len: usize, excess: *mut u64) -> u64;
    fn metqoraz_meter(
        rate: Rate,
        depth: Depth,
        p: u32,
        q: u32,
        offers: *const u16,
        offers_len: usize,
        totals: *mut u64,
        totals_len: usize,
    ) -> u64;
}

/// The figure, or the number of the refusal.
fn answer(code: u64) -> Answer<u64> {
    match code.checked_sub(REFUSED) {
        None => Ok(code),
        Some(number) => Err(number as u32),
    }
}

/// A length that fits what was lent.
fn length(code: u64) -> Answer<usize> {
    answer(code).map(|length| length as usize)
}

/// What a call fills of so many bytes.
fn filled(room: usize, call: impl FnOnce(&mut [u8]) -> Answer<usize>) -> Answer<Vec<u8>> {
    let mut bytes = vec![0; room];
    let length = call(&mut bytes)?;
    bytes.truncate(length);
    Ok(bytes)
}

/// The same as text.
fn printed(room: usize, call: impl FnOnce(&mut [u8]) -> Answer<usize>) -> Answer<String> {
    filled(room, call).map(|bytes| String::from_utf8_lossy(&bytes).into_owned())
}

/// Writes an order from a tariff's figures, which should be seven, and demands; answers the file's length.
pub fn order_into(figures: &[u32], demands: &[u16], bytes: &mut [u8]) -> Answer<usize> {
    // SAFETY: each pointer is a live slice's own, with its length; the one written to is borrowed for this call alone.
    length(unsafe {
        metqoraz_order(
            figures.as_ptr(),
            figures.len(),
            demands.as_ptr(),
            demands.len(),
            bytes.as_mut_ptr(),
            bytes.len(),
        )
    })
}

/// The order file of a tariff's seven figures and demands.
pub fn order(figures: &[u32; 7], demands: &[u16]) -> Answer<Vec<u8>> {
    filled(LONGEST_ORDER, |bytes| order_into(figures, demands, bytes))
}

/// The smallest depth that carries an order's trace at a rate.
pub fn depth(order: &[u8], rate: Rate) -> Answer<Depth> {
    // SAFETY: as in `order_into`.
    answer(unsafe { metqoraz_depth(order.as_ptr(), order.len(), rate) }).map(|depth| Depth(depth as u32))
}

/// The same for an order whose demands stand in archive order, last period first: what `depth` gives for the order with
/// its demands turned round.
pub fn depth_from_end(order: &[u8], rate: Rate) -> Answer<Depth> {
    // SAFETY: as in `order_into`.
    answer(unsafe { metqoraz_depth_from_end(order.as_ptr(), order.len(), rate) }).map(|depth| Depth(depth as u32))
}

/// What sets a depth: the periods, counted from 1, that a depth one smaller falls short of.
#[derive(Clone, Copy, Debug, PartialEq, Eq)]
pub enum Cause {
    /// The depth is 0.
    Nothing,
    /// The first periods, so many of them, need more than the smaller depth's starting tokens.
    Opening { periods: u32 },
    /// The periods from one to another, the second of the trace or later, need more than the smaller depth itself.
    Stretch { first: u32, last: u32 },
}

/// A depth with its cause.
#[derive(Clone, Copy, Debug, PartialEq, Eq)]
pub struct Explained {
    pub depth: Depth,
    pub cause: Cause,
}

/// Puts the cause of the depth at a rate (0 nothing, 1 an opening, 2 a stretch) with its first and last period (0 and 0
/// for nothing) into the numbers lent; answers the depth.
pub fn explain_into(order: &[u8], rate: Rate, cause: &mut u32, first: &mut u32, last: &mut u32) -> Answer<Depth> {
    // SAFETY: as in `order_into`; the numbers are borrowed apart from each other.
    let code = unsafe { metqoraz_explain(order.as_ptr(), order.len(), rate, cause, first, last) };
    answer(code).map(|depth| Depth(depth as u32))
}

/// The smallest depth that carries an order's trace at a rate, with its cause.
pub fn explain(order: &[u8], rate: Rate) -> Answer<Explained> {
    let (mut number, mut first, mut last) = (0, 0, 0);
    let depth = explain_into(order, rate, &mut number, &mut first, &mut last)?;
    let cause = match number {
        0 => Cause::Nothing,
        1 => Cause::Opening { periods: last },
        _ => Cause::Stretch { first, last },
    };
    Ok(Explained { depth, cause })
}

/// A bucket and what it costs.
#[derive(Clone, Copy, Debug, PartialEq, Eq)]
pub struct Single {
    pub rate: Rate,
    pub depth: Depth,
    pub cost: u64,
}

/// Puts the rate and the depth of the single bucket for an order into the numbers lent; answers its cost.
pub fn single_into(order: &[u8], rate: &mut Rate, depth: &mut Depth) -> Answer<u64> {
    // SAFETY: as in `order_into`; the numbers are borrowed apart from each other.
    answer(unsafe { metqoraz_single(order.as_ptr(), order.len(), rate, depth) })
}

/// The single bucket for an order.
pub fn single(order: &[u8]) -> Answer<Single> {
    let (mut rate, mut depth) = (Rate::default(), Depth::default());
    let cost = single_into(order, &mut rate, &mut depth)?;
    Ok(Single { rate, depth, cost })
}

/// Writes the line of the single bucket for an order; answers its length.
pub fn single_line_into(order: &[u8], text: &mut [u8]) -> Answer<usize> {
    // SAFETY: as in `order_into`.
    length(unsafe { metqoraz_single_line(order.as_ptr(), order.len(), text.as_mut_ptr(), text.len()) })
}

/// The line of the single bucket for an order.
pub fn single_line(order: &[u8]) -> Answer<String> {
    printed(LONGEST_SINGLE, |text| single_line_into(order, text))
}

/// The least tokens to spare over the periods, below 0 where some are missing, and all that the provider discards.
#[derive(Clone, Copy, Debug, PartialEq, Eq)]
pub struct Trial {
    pub spare: i64,
    pub over: u64,
}

/// Puts the spare of a trial of a bucket on an order's trace into the number lent; answers what is discarded.
pub fn trial_into(order: &[u8], rate: Rate, depth: Depth, spare: &mut i64) -> Answer<u64> {
    // SAFETY: as in `order_into`.
    answer(unsafe { metqoraz_trial(order.as_ptr(), order.len(), rate, depth, spare) })
}

/// The trial of a bucket on an order's trace.
pub fn trial(order: &[u8], rate: Rate, depth: Depth) -> Answer<Trial> {
    let mut spare = 0;
    let over = trial_into(order, rate, depth, &mut spare)?;
    Ok(Trial { spare, over })
}

/// Writes the line of a trial of a bucket on an order's trace; answers its length.
pub fn trial_line_into(order: &[u8], rate: Rate, depth: Depth, text: &mut [u8]) -> Answer<usize> {
    // SAFETY: as in `order_into`.
    length(unsafe { metqoraz_trial_line(order.as_ptr(), order.len(), rate, depth, text.as_mut_ptr(), text.len()) })
}

/// The line of a trial of a bucket on an order's trace.
pub fn trial_line(order: &[u8], rate: Rate, depth: Depth) -> Answer<String> {
    printed(LONGEST_TRIAL, |text| trial_line_into(order, rate, depth, text))
}

/// The cost of the cheapest plan for an order.
pub fn series(order: &[u8]) -> Answer<u64> {
    // SAFETY: as in `order_into`.
    answer(unsafe { metqoraz_series(order.as_ptr(), order.len()) })
}

/// Writes the file of the cheapest plan for an order; answers its length.
pub fn book_into(order: &[u8], plan: &mut [u8]) -> Answer<usize> {
    // SAFETY: as in `order_into`.
    length(unsafe { metqoraz_book(order.as_ptr(), order.len(), plan.as_mut_ptr(), plan.len()) })
}

/// The file of the cheapest plan for an order.
pub fn book(order: &[u8]) -> Answer<Vec<u8>> {
    filled(LONGEST_PLAN, |plan| book_into(order, plan))
}

/// Writes the sheet of an order; answers its length.
pub fn sheet_into(order: &[u8], text: &mut [u8]) -> Answer<usize> {
    // SAFETY: as in `order_into`.
    length(unsafe { metqoraz_sheet(order.as_ptr(), order.len(), text.as_mut_ptr(), text.len()) })
}

/// The sheet of an order.
pub fn sheet(order: &[u8]) -> Answer<String> {
    printed(LONGEST_SHEET, |text| sheet_into(order, text))
}

/// What a plan file says beside its records.
#[derive(Clone, Copy, Debug, Default, PartialEq, Eq)]
pub struct PlanFigures {
    pub periods: u32,
    pub buckets: u32,
}

/// Reads a plan file: its periods and its number of buckets into the figures; run lengths, rates and depths into the
/// fronts of three lists; answers its cost.
pub fn plan_into(
    plan: &[u8],
    figures: &mut PlanFigures,
    runs: &mut [u32],
    rates: &mut [Rate],
    depths: &mut [Depth],
) -> Answer<u64> {
    // SAFETY: as in `order_into`; the numbers and the lists are borrowed apart from each other.
    answer(unsafe {
        metqoraz_plan(
            plan.as_ptr(),
            plan.len(),
            &mut figures.periods,
            &mut figures.buckets,
            runs.as_mut_ptr(),
            runs.len(),
            rates.as_mut_ptr(),
            rates.len(),
            depths.as_mut_ptr(),
            depths.len(),
        )
    })
}

/// One run of a plan: its length in periods and its bucket.
#[derive(Clone, Copy, Debug, PartialEq, Eq)]
pub struct Record {
    pub periods: u32,
    pub rate: Rate,
    pub depth: Depth,
}

/// A plan file's periods, cost and records.
#[derive(Clone, Debug, PartialEq, Eq)]
pub struct Plan {
    pub periods: u32,
    pub cost: u64,
    pub records: Vec<Record>,
}

/// The plan in a file.
pub fn plan(file: &[u8]) -> Answer<Plan> {
    let mut figures = PlanFigures::default();
    let (mut runs, mut rates) = ([0; TRACE_LIMIT], [Rate::default(); TRACE_LIMIT]);
    let mut depths = [Depth::default(); TRACE_LIMIT];
    let cost = plan_into(file, &mut figures, &mut runs, &mut rates, &mut depths)?;
    let all = runs.into_iter().zip(rates).zip(depths);
    let records = all.map(|((periods, rate), depth)| Record { periods, rate, depth });
    Ok(Plan { periods: figures.periods, cost, records: records.take(figures.buckets as usize).collect() })
}

/// Checks a plan file for an order, whoever made it: whether each bucket carries its run, no rate and no depth is
/// above its cap, and the cost stated is the true one. With a yes it puts what that cost is above the least into the
/// number lent; with a no the number keeps its value.
pub fn check_into(order: &[u8], plan: &[u8], excess: &mut u64) -> Answer<bool> {
    // SAFETY: as in `order_into`.
    let code = unsafe { metqoraz_check(order.as_ptr(), order.len(), plan.as_ptr(), plan.len(), excess) };
    answer(code).map(|yes| yes == 1)
}

/// What the true cost of a plan file for an order is above the least, with a yes; none with a no.
pub fn check(order: &[u8], plan: &[u8]) -> Answer<Option<u64>> {
    let mut excess = 0;
    let yes = check_into(order, plan, &mut excess)?;
    Ok(yes.then_some(excess))
}

/// What a meter holds and has counted.
#[derive(Clone, Copy, Debug, PartialEq, Eq)]
pub struct Totals {
    pub tokens: u64,
    pub periods: u64,
    pub sent: u64,
    pub over: u64,
    pub lost: u64,
}

/// Opens a meter and offers it a list: tokens held, periods, sent, over and lost into the front of the totals; answers
/// the periods.
pub fn meter_into(rate: Rate, depth: Depth, (p, q): (u32, u32), offers: &[u16], totals: &mut [u64]) -> Answer<u64> {
    // SAFETY: as in `order_into`.
    answer(unsafe {
        metqoraz_meter(rate, depth, p, q, offers.as_ptr(), offers.len(), totals.as_mut_ptr(), totals.len())
    })
}

/// What a meter has counted after a list of offers.
pub fn meter(rate: Rate, depth: Depth, factor: (u32, u32), offers: &[u16]) -> Answer<Totals> {
    let mut totals = [0; 5];
    meter_into(rate, depth, factor, offers, &mut totals)?;
    let [tokens, periods, sent, over, lost] = totals;
    Ok(Totals { tokens, periods, sent, over, lost })
}
