//! "Time: 0 to 86,399,999 ms after midnight", and the spans that the rules count.

pub struct Time;

impl Time {
    pub const LAST: u32 = 86_399_999;
    pub const EARLIEST_CLOSE: u32 = 300_000;
    pub const LONGEST_DELAY: u32 = 600_000;
    /// "More than 20,000 ms before the trade."
    pub const ANSWER_AWAITED: u32 = 20_000;
    /// "Later than the report plus 180,000 ms ..."
    pub const TO_CLAIM: u32 = 180_000;
    /// "... or plus 60,000 if the report is at or after close less 300,000."
    pub const TO_CLAIM_NEAR_CLOSE: u32 = 60_000;
    pub const NEAR_CLOSE: u32 = 300_000;
    /// "Up to and including 180,000 ms after receiving it ..."
    pub const TO_CANCEL: u32 = 180_000;
    /// "... or 60,000 if we received it at or after close less 300,000."
    pub const TO_CANCEL_NEAR_CLOSE: u32 = 60_000;
    /// "More than 180,000 ms after the claim": too late to cancel it as priced for a block that was none.
    pub const TO_CANCEL_AS_NO_BLOCK: u32 = 180_000;
    /// "Later than 180,000 ms after the cancellation": too late to send again.
    pub const TO_SEND_AGAIN: u32 = 180_000;
    /// "No duty for 15 seconds, up to and including 15,000 ms" after an initial execution ...
    pub const NO_SECOND_ORDER: u32 = 15_000;
    /// "... After the 15 seconds, up to and including 60,000 ms."
    pub const SECOND_ORDER_IN_PART: u32 = 60_000;
}
