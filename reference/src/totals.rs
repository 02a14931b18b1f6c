//! "Day totals: sent = sizes of all sent orders; filled and cancelled from responses; pending = sizes without one."

use crate::event::{Order, Response};
use crate::journal::{Moment, Watcher, open, walk};
use crate::market::Market;
use crate::refusal::Refusal;

#[derive(Clone, Copy, Debug, Default, PartialEq, Eq)]
pub struct Totals {
    pub sent: u64,
    pub filled: u64,
    pub cancelled: u64,
    pub pending: u64,
}

impl Watcher for Totals {
    fn sent_order(&mut self, _at: Moment, _market: &Market, order: &Order) {
        self.sent += order.size as u64;
        self.pending += order.size as u64;
    }

    /// "The rest of the order is cancelled."
    fn response(&mut self, response: &Response, size: u32) {
        self.pending -= size as u64;
        self.filled += response.filled as u64;
        self.cancelled += (size - response.filled) as u64;
    }
}

pub fn totals(journal: &[u8]) -> Result<Totals, Refusal> {
    let (header, reader) = open(journal)?;
    let mut totals = Totals::default();
    walk(&header, reader, &mut totals)?;
    Ok(totals)
}
