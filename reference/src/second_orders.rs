//! Orders after an initial execution, in small days: home bids 100 and offers 110 in series 0, bids 50 and offers 60 in
//! series 1, alone, with a principal size of ten; exchange 2 sells five in series 0, and they are executed whole.

use crate::cancellations::{Records, list_of};
use crate::examples::MORNING;

const PA: u32 = 1;
const PRINCIPAL: u32 = 2;
const BUY: u32 = 1;
const SELL: u32 = 2;

const WHOLE: &str = "1 5 0";
const NO_DUTY: &str = "0 0 4";
const IN_PART: &str = "2 5 0";

/// A quote at once; a side that is shown has 20 contracts.
fn quote(exchange: u32, series: u32, [bid, offer]: [u32; 2]) -> Vec<u32> {
    let sizes = [bid, offer].map(|price| if price == 0 { 0 } else { 20 });
    vec![1, 0, exchange, series, bid, sizes[0], 0, offer, sizes[1], 0]
}

/// A principal order of exchange 2 so long after the record before it.
fn order(wait: u32, series: u32, side: u32, size: u32) -> Vec<u32> {
    let price = [[110, 100], [60, 50]][series as usize][side as usize - 1];
    vec![6, wait, PRINCIPAL, 2, series, side, price, size]
}

/// One of five contracts that sells in series 1, where home's bid stays what it is.
fn further(wait: u32) -> Vec<u32> {
    order(wait, 1, SELL, 5)
}

fn of_type(order_type: u32, mut order: Vec<u32>) -> Vec<u32> {
    order[2] = order_type;
    order
}

fn from(sender: u32, mut order: Vec<u32>) -> Vec<u32> {
    order[3] = sender;
    order
}

fn priced(price: u32, mut order: Vec<u32>) -> Vec<u32> {
    order[6] = price;
    order
}

/// What R says of each order in a day of home's quotes and these records.
fn answers(records: &[Vec<u32>]) -> Vec<String> {
    let mut day: Records = vec![vec![2, MORNING, 2, 0], quote(1, 0, [100, 110]), quote(1, 1, [50, 60])];
    day.extend(records.iter().cloned());
    list_of(&day).lines().filter_map(|line| Some(line.split_once(" R ")?.1.into())).collect()
}

/// The same where the first is the initial execution.
fn after_initial(records: &[Vec<u32>]) -> Vec<String> {
    let mut day = vec![order(0, 0, SELL, 5)];
    day.extend(records.iter().cloned());
    let mut answers = answers(&day);
    assert_eq!(answers.remove(0), WHOLE);
    answers
}

/// What the last order comes to that follows these records, so long after the initial execution.
fn then(records: &[Vec<u32>], wait: u32) -> String {
    let mut day = records.to_vec();
    day.push(further(wait));
    after_initial(&day).pop().expect("an order is answered")
}

/// At either side of each limit, after these records: in the first 15 seconds, up to 60, after them.
fn at_the_limits(records: &[Vec<u32>], answers: [&str; 3]) {
    for (waits, answer) in [[0, 15_000], [15_001, 60_000], [60_001, 3_600_000]].iter().zip(answers) {
        for &wait in waits {
            assert_eq!(then(records, wait), answer, "{wait} ms");
        }
    }
}

const NOT_QUOTED: [&str; 3] = [NO_DUTY, IN_PART, WHOLE];
const QUOTED_AND_BEST: [&str; 3] = [WHOLE; 3];
const QUOTED_NOT_BEST: [&str; 3] = [NO_DUTY, WHOLE, WHOLE];

#[test]
fn the_two_limits() {
    at_the_limits(&[], NOT_QUOTED);
}

#[test]
fn another_price_that_is_the_best() {
    for bid in [1, 99, 101, 109] {
        at_the_limits(&[quote(1, 0, [bid, 110])], QUOTED_AND_BEST);
        at_the_limits(&[quote(1, 0, [bid, 0])], QUOTED_AND_BEST);
    }
    // An away price that is as good leaves it the best; one that is absent or of another series too.
    for away in [quote(3, 0, [99, 0]), quote(3, 0, [0, 1]), quote(3, 1, [50, 0])] {
        at_the_limits(&[quote(1, 0, [99, 110]), away], QUOTED_AND_BEST);
    }
}

#[test]
fn another_price_that_is_not_the_best() {
    let (better, worse) = (quote(3, 0, [100, 0]), quote(1, 0, [99, 110]));
    at_the_limits(&[better.clone(), worse.clone()], QUOTED_NOT_BEST);
    at_the_limits(&[worse.clone(), better.clone()], QUOTED_NOT_BEST);
    at_the_limits(&[worse.clone(), better.clone(), quote(3, 0, [0, 0])], QUOTED_AND_BEST);
    at_the_limits(&[worse, better, quote(1, 0, [101, 110])], QUOTED_AND_BEST);
}

#[test]
fn no_price() {
    for none in [[0, 0], [0, 110], [0, 1]] {
        at_the_limits(&[quote(1, 0, none)], QUOTED_NOT_BEST);
        at_the_limits(&[quote(1, 0, none), quote(3, 0, [100, 0])], QUOTED_NOT_BEST);
        at_the_limits(&[quote(1, 0, none), quote(1, 0, [90, 110])], QUOTED_AND_BEST);
        at_the_limits(&[quote(1, 0, [90, 110]), quote(1, 0, none)], QUOTED_NOT_BEST);
    }
}

#[test]
fn the_old_price_come_back() {
    for between in [[0, 0], [99, 110], [101, 110]] {
        let back = [quote(1, 0, between), quote(1, 0, [100, 110])];
        at_the_limits(&back, QUOTED_AND_BEST);
        at_the_limits(&[&back[..], &[quote(3, 0, [101, 0])]].concat(), QUOTED_NOT_BEST);
    }
}

#[test]
fn the_same_price_is_not_another() {
    let mut other_size = quote(1, 0, [100, 110]);
    (other_size[5], other_size[6]) = (7, 7);
    at_the_limits(&[other_size], NOT_QUOTED);
    at_the_limits(&[quote(3, 0, [101, 0]), quote(1, 0, [100, 110])], NOT_QUOTED);
}

#[test]
fn quotes_that_do_not_count() {
    for offer in [0, 109, 111] {
        at_the_limits(&[quote(1, 0, [100, offer])], NOT_QUOTED);
    }
    at_the_limits(&[quote(1, 1, [49, 60]), quote(1, 1, [50, 61])], NOT_QUOTED);
    at_the_limits(&[quote(1, 2, [99, 0]), quote(1, 2, [0, 0])], NOT_QUOTED);
    for away in [2, 3] {
        at_the_limits(&[quote(away, 0, [99, 0]), quote(away, 0, [101, 0]), quote(away, 0, [0, 0])], NOT_QUOTED);
    }
}

/// By the order of records: in one millisecond too.
#[test]
fn a_quote_before_the_initial_execution_is_no_later_one() {
    for before in [[99, 110], [0, 0]] {
        let day = |wait| answers(&[quote(1, 0, before), quote(1, 0, [100, 110]), order(0, 0, SELL, 5), further(wait)]);
        assert_eq!(day(15_000), [WHOLE, NO_DUTY]);
        assert_eq!(day(60_000), [WHOLE, IN_PART]);
    }
    let standing = |wait| answers(&[quote(1, 0, [105, 110]), order(0, 0, SELL, 5), further(wait)]);
    assert_eq!(standing(15_000), [WHOLE, NO_DUTY]);
    assert_eq!(standing(60_000), [WHOLE, IN_PART]);
}

/// "Another price": than home's that stood then, not than the order's.
#[test]
fn an_order_below_homes_price() {
    let day = |bid, wait| {
        let initial = priced(95, order(0, 0, SELL, 5));
        answers(&[initial, quote(1, 0, [bid, 110]), further(wait)])
    };
    for wait in [15_000, 15_001, 60_000] {
        assert_eq!(day(95, wait), [WHOLE, WHOLE]);
    }
    assert_eq!(day(100, 15_000), [WHOLE, NO_DUTY]);
    assert_eq!(day(100, 60_000), [WHOLE, IN_PART]);
}

#[test]
fn a_buy_is_judged_by_the_offer() {
    let day = |prices, wait| answers(&[order(0, 0, BUY, 5), quote(1, 0, prices), further(wait)]);
    for (prices, limits) in [
        ([100, 109], QUOTED_AND_BEST),
        ([0, 111], QUOTED_AND_BEST),
        ([100, 0], QUOTED_NOT_BEST),
        ([99, 110], NOT_QUOTED),
        ([0, 110], NOT_QUOTED),
    ] {
        for (wait, answer) in [15_000, 60_000, 60_001].into_iter().zip(limits) {
            assert_eq!(day(prices, wait), [WHOLE, answer]);
        }
    }
    let beaten = answers(&[order(0, 0, BUY, 5), quote(1, 0, [0, 111]), quote(3, 0, [0, 110]), further(0)]);
    assert_eq!(beaten, [WHOLE, NO_DUTY]);
}

#[test]
fn each_series_and_side_but_one_sender() {
    for (series, side) in [(0, BUY), (0, SELL), (1, BUY), (1, SELL)] {
        assert_eq!(after_initial(&[order(15_000, series, side, 5)]), [NO_DUTY]);
        assert_eq!(after_initial(&[order(60_000, series, side, 5)]), [IN_PART]);
        assert_eq!(after_initial(&[from(3, order(0, series, side, 5))]), [WHOLE]);
    }
    // Each has its own period, and one quote is a later one for both.
    let both = [from(3, order(10_000, 0, SELL, 5)), order(5_000, 0, SELL, 5), from(3, order(1, 0, SELL, 5))];
    assert_eq!(after_initial(&both), [WHOLE, NO_DUTY, NO_DUTY]);
    let later = [from(3, order(10_000, 0, SELL, 5)), further(5_001), from(3, further(9_999)), from(3, further(1))];
    assert_eq!(after_initial(&later), [WHOLE, IN_PART, NO_DUTY, IN_PART]);
    let quoted = [from(3, order(0, 0, SELL, 5)), quote(1, 0, [99, 110]), further(0), from(3, further(0))];
    assert_eq!(after_initial(&quoted), [WHOLE; 3]);
    // Of two in two series only one.
    let apart = [from(3, order(0, 1, BUY, 5)), quote(1, 0, [99, 110]), further(0), from(3, further(0))];
    assert_eq!(after_initial(&apart), [WHOLE, WHOLE, NO_DUTY]);
}

/// Example 12 stays true for a first order, and the answer between the limits is never more than the order.
#[test]
fn sizes() {
    for (size, first, between) in
        [(1, "1 1 0", "2 1 0"), (9, "1 9 0", "2 9 0"), (10, "1 10 0", "2 10 0"), (11, "2 10 0", "2 10 0")]
    {
        assert_eq!(answers(&[order(0, 0, SELL, size)]), [first]);
        assert_eq!(after_initial(&[order(15_000, 0, SELL, size)]), [NO_DUTY]);
        assert_eq!(after_initial(&[order(15_001, 0, SELL, size)]), [between]);
        assert_eq!(after_initial(&[order(60_001, 0, SELL, size)]), [first]);
        assert_eq!(after_initial(&[quote(1, 0, [99, 110]), order(0, 1, SELL, size)]), [first]);
    }
}

#[test]
fn an_order_executed_in_part_begins_no_period() {
    assert_eq!(answers(&[order(0, 0, SELL, 11), further(0)]), ["2 10 0", WHOLE]);
    assert_eq!(answers(&[priced(101, order(0, 0, SELL, 5)), further(0)]), ["0 0 1", WHOLE]);
    // Judged as a first one, it leaves the old period: no price stands any more, and the order has no duty.
    let in_part = [quote(1, 0, [99, 110]), order(0, 1, SELL, 11), quote(1, 0, [0, 110]), further(15_000)];
    assert_eq!(after_initial(&in_part), ["2 10 0", NO_DUTY]);
    let later = [quote(1, 0, [99, 110]), order(15_000, 1, SELL, 11), quote(1, 0, [0, 110]), further(1)];
    assert_eq!(after_initial(&later), ["2 10 0", WHOLE]);
}

#[test]
fn an_answer_between_the_limits_begins_no_period() {
    for size in [5, 10, 11] {
        let day = [order(60_000, 0, SELL, size), further(1), further(0)];
        assert_eq!(after_initial(&day)[1..], [WHOLE, NO_DUTY]);
    }
    assert_eq!(after_initial(&[further(15_001), further(44_999), further(1)]), [IN_PART, IN_PART, WHOLE]);
    assert_eq!(after_initial(&[further(15_000), further(1)]), [NO_DUTY, IN_PART]);
}

#[test]
fn a_new_period_in_the_old_ones_place() {
    // By the exception: counted from the later order, judged by its series, side and price.
    let excepted = [quote(1, 0, [99, 110]), order(10_000, 1, SELL, 5)];
    let then = |records: &[Vec<u32>]| after_initial(&[&excepted[..], records].concat())[1..].to_vec();
    assert_eq!(then(&[further(15_000)]), [NO_DUTY]);
    assert_eq!(then(&[further(15_001)]), [IN_PART]);
    assert_eq!(then(&[further(60_000)]), [IN_PART]);
    assert_eq!(then(&[further(60_001)]), [WHOLE]);
    assert_eq!(then(&[quote(1, 0, [98, 110]), further(0)]), [NO_DUTY]);
    assert_eq!(then(&[quote(1, 1, [50, 61]), further(0)]), [NO_DUTY]);
    assert_eq!(then(&[quote(1, 1, [51, 60]), further(0)]), [WHOLE]);
    // After a quote, and after 60 seconds.
    let quoted = [further(15_001), quote(1, 0, [99, 110]), further(0), further(15_000), further(1)];
    assert_eq!(after_initial(&quoted), [IN_PART, WHOLE, NO_DUTY, IN_PART]);
    assert_eq!(after_initial(&[further(60_001), further(0), further(60_000)]), [WHOLE, NO_DUTY, IN_PART]);
    // What stands at the new one is the price that it is judged by.
    let same = [quote(1, 0, [99, 110]), priced(99, order(0, 0, SELL, 5)), quote(1, 0, [99, 110]), further(0)];
    assert_eq!(after_initial(&same), [WHOLE, NO_DUTY]);
    let back = [quote(1, 0, [99, 110]), priced(99, order(0, 0, SELL, 5)), quote(1, 0, [100, 110]), further(0)];
    assert_eq!(after_initial(&back), [WHOLE, WHOLE]);
}

#[test]
fn p_a_orders_stay_as_they_are() {
    for wait in [0, 15_000, 60_000] {
        assert_eq!(after_initial(&[of_type(PA, further(wait))]), [WHOLE]);
        assert_eq!(after_initial(&[of_type(PA, order(wait, 0, SELL, 11))]), ["2 10 0"]);
        assert_eq!(answers(&[of_type(PA, order(0, 0, SELL, 5)), further(wait)]), [WHOLE, WHOLE]);
    }
    // Nor does one take the old period's place.
    let between = [of_type(PA, further(15_000)), further(1), of_type(PA, further(44_999)), further(1)];
    assert_eq!(after_initial(&between), [WHOLE, IN_PART, WHOLE, WHOLE]);
}

#[test]
fn reasons_1_to_3_come_first() {
    for wait in [0, 15_000, 15_001, 60_000] {
        assert_eq!(after_initial(&[priced(51, further(wait))]), ["0 0 1"]);
        assert_eq!(after_initial(&[quote(3, 1, [51, 0]), further(wait)]), ["0 0 2"]);
        assert_eq!(after_initial(&[vec![2, 0, 1, 1], further(wait)]), ["0 0 3"]);
        // In rotation home's duty stands.
        let rotation = if wait <= 15_000 { NO_DUTY } else { IN_PART };
        assert_eq!(after_initial(&[vec![2, 0, 1, 2], further(wait)]), [rotation]);
        assert_eq!(after_initial(&[vec![2, 0, 1, 1], vec![2, 0, 1, 0], further(wait)]), [rotation]);
    }
}
