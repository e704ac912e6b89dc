//! Space for the five outputs.

use crate::tables::Tables;

/// The caller's space for the five outputs. `docs/FORMAT.md` says how much is asked for; with less
/// the answer is refusal 2. Words past the written ones stay as they were.
#[derive(Debug)]
pub struct Output<'a> {
    pub markers: &'a mut [u32],
    pub constants: &'a mut [u32],
    pub names: &'a mut [u32],
    pub errors: &'a mut [u32],
    pub lines: &'a mut [u32],
}

/// Space of its own, enough for given tables.
#[derive(Debug, Clone, Default)]
pub struct Space {
    pub markers: Vec<u32>,
    pub constants: Vec<u32>,
    pub names: Vec<u32>,
    pub errors: Vec<u32>,
    pub lines: Vec<u32>,
}

impl Space {
    /// As much as the call asks for: 32 markers, 3 constants and 1 error for each record, 1 name
    /// for each member and 1 line for each function. Past the limits of the tables no more is
    /// needed, since row 1 refuses before row 2: at most 1.3 MB.
    pub fn enough_for(tables: &Tables) -> Self {
        let [records, members, functions] = tables.counts();
        let records = records.min(4096);
        Self {
            markers: vec![0; records * 32 * 2],
            constants: vec![0; records * 3 * 3],
            names: vec![0; members.min(1024) * 3],
            errors: vec![0; records * 3],
            lines: vec![0; functions.min(256) * 7],
        }
    }

    /// The same space, lent.
    pub fn lend(&mut self) -> Output<'_> {
        Output {
            markers: &mut self.markers,
            constants: &mut self.constants,
            names: &mut self.names,
            errors: &mut self.errors,
            lines: &mut self.lines,
        }
    }
}
