//! Batches of quotes: what a market maker re-quotes together, quotes of existing days taken together, and batches with
//! something wrong.

use super::activity::{Activity, put_number};
use super::chance::Chance;
use super::places::BEFORE_QUOTES;
use super::values;
use crate::batch::Batch;
use crate::record::kind;

/// The series and the six quote numbers.
pub type Quoted = [u32; Batch::NUMBERS_A_QUOTE];

/// How a number may be stored that can't be read.
const UNREADABLE: [&[u8]; 4] = [&[0x80, 0], &[0xE4, 0x80, 0], &[0x80, 0x80, 0x80, 0x80, 1], &[0xFF, 0xFF, 0xFF, 0xFF]];

/// A batch before it is stored, with all that may be wrong with it.
#[derive(Clone)]
pub struct Drawn {
    pub exchange: u32,
    /// As many as there are quotes, where nothing is wrong.
    pub count: u32,
    pub quotes: Vec<Quoted>,
    /// Which of its numbers can't be read, the kind being 0.
    pub unreadable: Option<usize>,
}

impl Drawn {
    pub fn new(exchange: u32, quotes: Vec<Quoted>) -> Drawn {
        Drawn { exchange, count: quotes.len() as u32, quotes, unreadable: None }
    }

    pub fn fields(&self) -> Vec<u32> {
        [self.exchange, self.count].into_iter().chain(self.quotes.iter().flatten().copied()).collect()
    }

    /// Stores it after so long.
    pub fn put(&self, chance: &mut Chance, milliseconds: u32, bytes: &mut Vec<u8>) {
        let numbers = [kind::BATCH, milliseconds].into_iter().chain(self.fields());
        for (at, number) in numbers.enumerate() {
            if self.unreadable == Some(at) {
                bytes.extend_from_slice(chance.pick(&UNREADABLE));
            } else {
                put_number(bytes, number);
            }
        }
    }

    /// One thing or two that the numbers make wrong. `exchanges` is N.
    pub fn spoil(&mut self, chance: &mut Chance, exchanges: u32) {
        match chance.below(14) {
            0..=6 => self.miscount(chance),
            7 => self.exchange = chance.pick(&[0, exchanges + 1, 9, 128, 268_435_455]),
            8..=10 => self.spoil_two(chance),
            11 => {
                let at = self.some_quote(chance);
                self.quotes[at] = unsound(chance, self.quotes[at][0]);
            }
            _ => {
                let at = self.some_quote(chance);
                put_out_of_range(chance, &mut self.quotes[at]);
            }
        }
        // All else is judged after every number is read, and an unsound quote after its exchange.
        if chance.one_in(4) {
            self.exchange = chance.pick(&[0, exchanges + 1]);
        }
        if let (true, Some(first)) = (chance.one_in(4), self.quotes.first_mut()) {
            *first = unsound(chance, first[0]);
        }
    }

    /// "A count out of range", with the quotes there, one more than there may be, unreadable or missing.
    fn miscount(&mut self, chance: &mut Chance) {
        self.count = chance.pick(&[0, 0, 33, 33, 127, 127, 128, 128, 257, 65_537, 268_435_455]);
        match chance.below(9) {
            0..=2 => self.quotes.clear(),
            3..=5 => self.unreadable = Some(BEFORE_QUOTES + chance.below(Batch::NUMBERS_A_QUOTE)),
            6 => self.quotes.resize(33, [0, 100, 1, 1, 101, 1, 1]),
            _ => {}
        }
    }

    /// 5 in one quote and 6 in another: what comes first counts.
    fn spoil_two(&mut self, chance: &mut Chance) {
        if self.quotes.len() < 2 {
            self.quotes.push([1, 100, 1, 1, 101, 1, 1]);
            self.count = self.quotes.len() as u32;
        }
        let second = 1 + chance.below(self.quotes.len() - 1);
        let first = chance.below(second);
        let (five, six) = chance.pick(&[(first, second), (second, first)]);
        put_out_of_range(chance, &mut self.quotes[five]);
        self.quotes[six] = unsound(chance, self.quotes[six][0]);
    }

    fn some_quote(&self, chance: &mut Chance) -> usize {
        let last = self.quotes.len() - 1;
        let any = chance.below(self.quotes.len());
        chance.pick(&[0, any, last])
    }

    /// One of its numbers can't be read, mostly in a quote, unless one can't or the quotes are missing.
    pub fn make_unreadable(&mut self, chance: &mut Chance) {
        if self.unreadable.is_some() || self.quotes.is_empty() {
            return;
        }
        let numbers = BEFORE_QUOTES + self.quotes.len() * Batch::NUMBERS_A_QUOTE;
        let (any, last) = (1 + chance.below(numbers - 1), numbers - 1);
        self.unreadable = Some(chance.pick(&[any, any, last, 1, 2, 3, BEFORE_QUOTES]));
    }
}

/// A value just beyond the range of one of its numbers.
fn put_out_of_range(chance: &mut Chance, quote: &mut Quoted) {
    let at = chance.below(quote.len());
    let beyond = [31, 1_000_000, 100_000, 100_000, 1_000_000, 100_000, 100_000][at] + 1;
    quote[at] = chance.pick(&[beyond, beyond, 268_435_455]);
}

/// "Both sides and bid not below offer; a price 0 with a size or customers; a price with size 0; customers above size."
fn unsound(chance: &mut Chance, series: u32) -> Quoted {
    let [a, b, c, d, e, f] = chance.pick(&values::UNSOUND);
    [series.min(31), a, b, c, d, e, f]
}

/// Quotes in range and sound, often in one series more than once, all of their numbers small or of any length.
pub fn some_quotes(chance: &mut Chance, count: usize) -> Vec<Quoted> {
    const LONGEST: [u32; 8] = [0, 0, 999_999, 100_000, 100_000, 1_000_000, 100_000, 100_000];
    let (form, one_series) = (chance.below(4), chance.one_in(4));
    let first = values::series(chance);
    let mut quotes = Vec::with_capacity(count);
    for _ in 0..count {
        let series = if one_series { first } else { values::series(chance) };
        let [_, _, sides @ ..] = match form {
            0 => [0, 0, 100, 1, 1, 101, 1, 1],
            1 => LONGEST,
            _ => values::quote_fields(chance, 2),
        };
        let [a, b, c, d, e, f] = sides;
        quotes.push([series, a, b, c, d, e, f]);
    }
    quotes
}

/// How many quotes a batch has.
pub fn count_of_quotes(chance: &mut Chance) -> usize {
    let some = 1 + chance.below(Batch::MOST_QUOTES);
    chance.pick(&[1, 1, 2, 2, 3, 5, some, some, 31, 32, 32, 32])
}

/// The quotes of the record that was added last, where it is one or a batch of them.
pub(super) struct Last {
    start: usize,
    end: usize,
    milliseconds: u32,
    drawn: Drawn,
}

impl Activity<'_> {
    /// A quote as a record of its own or in a batch: alone, with others of its exchange, or together with the record
    /// before it where that is of the same exchange and millisecond.
    pub(super) fn add_quote(&mut self, milliseconds: u32, fields: &[u32]) {
        let (exchange, quote) = (fields[0], fields[1..].try_into().expect("a quote has eight fields"));
        let has_room = |last: &Last| last.drawn.quotes.len() < Batch::MOST_QUOTES;
        let is_before = |last: &Last| last.end == self.bytes.len() && last.drawn.exchange == exchange;
        let last = self.last_quotes.take().filter(|last| milliseconds == 0 && is_before(last) && has_room(last));
        if !self.chance.percent(self.batched) {
            let (start, drawn) = (self.bytes.len(), Drawn::new(exchange, vec![quote]));
            self.add_as_is(kind::QUOTE, milliseconds, fields);
            self.last_quotes = Some(Last { start, end: self.bytes.len(), milliseconds, drawn });
        } else if let Some(Last { start, milliseconds, drawn: Drawn { mut quotes, .. }, .. }) = last {
            quotes.push(quote);
            self.bytes.truncate(start);
            self.put_batch(milliseconds, exchange, quotes);
        } else {
            let quotes = self.among_others(exchange, quote);
            self.put_batch(milliseconds, exchange, quotes);
            self.time = self.time.saturating_add(milliseconds);
        }
    }

    fn put_batch(&mut self, milliseconds: u32, exchange: u32, quotes: Vec<Quoted>) {
        let (start, drawn) = (self.bytes.len(), Drawn::new(exchange, quotes));
        drawn.put(self.chance, milliseconds, &mut self.bytes);
        self.last_quotes = Some(Last { start, end: self.bytes.len(), milliseconds, drawn });
    }

    /// The quote with others before and after it, or none: before it in its own series too, which it then replaces.
    fn among_others(&mut self, exchange: u32, quote: Quoted) -> Vec<Quoted> {
        let most = self.chance.weighted(&[(6, 0), (4, 2), (2, 8), (1, 31)]).min(self.others);
        let others = self.chance.below(most + 1);
        let before = self.chance.below(others + 1);
        let mut quotes = Vec::with_capacity(others + 1);
        for at in 0..=others {
            let replaced = at < before && self.chance.one_in(2);
            let series = if replaced { Some(quote[0]) } else { self.quiet_series(quote[0]) };
            quotes.push(match series {
                Some(series) if at != before => self.another_quote(exchange, series),
                _ => quote,
            });
        }
        quotes
    }

    /// A series but this one where nothing is traded, if there is one.
    fn quiet_series(&mut self, but: u32) -> Option<u32> {
        let first = self.chance.between(0, 31);
        (first..first + 32).map(|series| series % 32).find(|series| *series != but && !self.series.contains(series))
    }

    fn another_quote(&mut self, exchange: u32, series: u32) -> Quoted {
        let prices = self.prices_around();
        let (size, held) = self.chance.pick(&[(1, 0), (5, 5), (30, 10), (200, 0)]);
        self.note_shown(exchange, series, prices);
        let [[a, b, c], [d, e, f]] = prices.map(|price| if price == 0 { [0; 3] } else { [price, size, held] });
        [series, a, b, c, d, e, f]
    }

    /// All that an exchange shows is quoted anew: any number of series, some of them twice.
    pub fn requote(&mut self, exchange: u32) {
        let count = count_of_quotes(self.chance);
        let (milliseconds, one_series) = (self.pause(), self.chance.one_in(5));
        let first = self.a_series();
        let mut quotes = Vec::with_capacity(count);
        for _ in 0..count {
            let traded = self.a_series();
            let any = self.chance.between(0, 31);
            let series = if one_series { first } else { self.chance.pick(&[traded, any, any]) };
            quotes.push(self.another_quote(exchange, series));
        }
        self.add(kind::BATCH, milliseconds, &Drawn::new(exchange, quotes).fields());
    }

    pub fn some_requote(&mut self) {
        let exchange = if self.chance.one_in(2) { self.home } else { self.away() };
        self.requote(exchange);
    }

    /// Home's batches of as many quotes as there may be, none with a price: no journal prints more lines.
    pub fn fill_with_homes_batches(&mut self, length: usize) {
        let withdrawn = Drawn::new(self.home, vec![[0; Batch::NUMBERS_A_QUOTE]; Batch::MOST_QUOTES]);
        while self.bytes.len() + BEFORE_QUOTES + Batch::MOST_QUOTES * Batch::NUMBERS_A_QUOTE <= length {
            self.add_as_is(kind::BATCH, 0, &withdrawn.fields());
        }
    }

    /// Batches, the last of which ends where the journal has exactly this many bytes.
    pub fn fill_up_with_batches(&mut self, length: usize) {
        // Longer than any that is quoted anew, and 32 quotes of one byte for each number.
        const LONGEST: usize = 800;
        const LAST: usize = BEFORE_QUOTES + Batch::MOST_QUOTES * Batch::NUMBERS_A_QUOTE;
        while self.bytes.len() + LONGEST <= length {
            self.some_requote();
        }
        while self.bytes.len() + 2 * LAST <= length {
            self.batch_of_bytes(LAST);
        }
        let left = length.saturating_sub(self.bytes.len());
        if left > LAST {
            self.batch_of_bytes(left / 2);
            self.batch_of_bytes(left - left / 2);
        } else if left >= BEFORE_QUOTES + Batch::NUMBERS_A_QUOTE {
            self.batch_of_bytes(left);
        }
    }

    /// A batch that takes so many bytes: up to six numbers of the first quote take two, all others one.
    fn batch_of_bytes(&mut self, bytes: usize) {
        let count = ((bytes - BEFORE_QUOTES) / Batch::NUMBERS_A_QUOTE).min(Batch::MOST_QUOTES);
        let two_bytes = bytes - BEFORE_QUOTES - count * Batch::NUMBERS_A_QUOTE;
        let first = match two_bytes {
            0 => [0, 1, 1, 0, 0, 0, 0],
            1 => [0, 128, 1, 0, 0, 0, 0],
            2 => [0, 128, 128, 0, 0, 0, 0],
            3 => [0, 128, 128, 128, 0, 0, 0],
            4 => [0, 128, 128, 128, 129, 1, 0],
            5 => [0, 128, 128, 128, 129, 128, 0],
            _ => [0, 128, 128, 128, 129, 128, 128],
        };
        let mut quotes = vec![[0, 1, 1, 0, 0, 0, 0]; count];
        quotes[0] = first;
        let exchange = self.chance.between(1, self.exchanges);
        self.add_as_is(kind::BATCH, 0, &Drawn::new(exchange, quotes).fields());
    }
}

/// Adds a batch with something wrong; what leads up to it goes well.
pub fn add_faulty_batch(day: &mut Activity) {
    day.until_fault = None;
    let exchange = day.chance.between(1, day.exchanges);
    let count = count_of_quotes(day.chance);
    let mut drawn = Drawn::new(exchange, some_quotes(day.chance, count));
    let in_the_day = 86_399_999 - day.time.min(86_399_999);
    let beyond = in_the_day + day.chance.between(0, 1);
    let mut milliseconds = day.chance.weighted(&[(8, 0), (1, in_the_day), (2, beyond)]);
    let start = day.bytes.len();
    match day.chance.below(10) {
        0..=4 => drawn.spoil(day.chance, day.exchanges),
        5..=7 => {
            drawn.spoil(day.chance, day.exchanges);
            drawn.make_unreadable(day.chance);
        }
        8 => {
            milliseconds = in_the_day + 1;
            if day.chance.one_in(2) {
                drawn.quotes[0] = unsound(day.chance, 0);
            }
        }
        _ => {}
    }
    drawn.put(day.chance, milliseconds, &mut day.bytes);
    let whole = day.bytes.len() - start;
    if drawn.unreadable.is_none() && day.chance.one_in(3) {
        let most = day.chance.pick(&[5, whole]);
        day.bytes.truncate(start + 1 + day.chance.below(most));
    } else if day.chance.one_in(4) {
        day.bytes.extend([2, 0, 1, 0]);
    }
}
