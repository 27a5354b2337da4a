//! Writes a record file to standard output: `generate SEED SORT SIZE > file`.
//!
//! SORT is one of metering, billing, refusals, damaged and readings. SIZE is about how large the file
//! is, in megabytes for readings and in kilobytes for the others. The same three words always give the
//! same file.

use std::env;
use std::io::{self, BufWriter, Write};
use std::process::ExitCode;

const FIRST_MONTH: u16 = 47;
const LAST_MONTH: u16 = 1_199;
const LARGEST_READING: u32 = 100_000;
const LARGEST_PRICE: u32 = 1_000_000;

const OPEN_METERING: u16 = 1;
const OPEN_BILLING: u16 = 2;
const OPEN_BOOK: u16 = 3;
const MONTH_PRICE: u16 = 4;
const HOUR_PRICES: u16 = 5;
const READING: u16 = 6;
const FINISH: u16 = 7;
const SETTLE: u16 = 8;
const TURN: u16 = 9;

// Chance

/// The generator splitmix64.
struct Chance {
    state: u64,
}

impl Chance {
    fn next(&mut self) -> u64 {
        self.state = self.state.wrapping_add(0x9e37_79b9_7f4a_7c15);
        let mut mixed = self.state;
        mixed = (mixed ^ (mixed >> 30)).wrapping_mul(0xbf58_476d_1ce4_e5b9);
        mixed = (mixed ^ (mixed >> 27)).wrapping_mul(0x94d0_49bb_1331_11eb);
        mixed ^ (mixed >> 31)
    }

    /// A number from 0 to one below the bound.
    fn below(&mut self, bound: u32) -> u32 {
        ((u128::from(self.next()) * u128::from(bound)) >> 64) as u32
    }

    fn between(&mut self, low: u32, high: u32) -> u32 {
        low + self.below(high - low + 1)
    }

    /// True once in so many times.
    fn once_in(&mut self, times: u32) -> bool {
        self.below(times) == 0
    }

    fn pick<T: Copy>(&mut self, choices: &[T]) -> T {
        choices[self.below(choices.len() as u32) as usize]
    }

    fn signed(&mut self, size: u32) -> i32 {
        self.below(2 * size + 1) as i32 - size as i32
    }
}

// Calendar

fn is_leap(year: u32) -> bool {
    year.is_multiple_of(4) && (!year.is_multiple_of(100) || year.is_multiple_of(400))
}

fn hours_of(month: u16) -> u32 {
    let year = 2016 + u32::from(month / 12);
    match month % 12 {
        1 if is_leap(year) => 29 * 24,
        1 => 28 * 24,
        2 => 31 * 24 - 1,
        9 => 31 * 24 + 1,
        3 | 5 | 8 | 10 => 30 * 24,
        _ => 31 * 24,
    }
}

// Records

#[derive(Default)]
struct File {
    bytes: Vec<u8>,
}

impl File {
    fn record(&mut self, kind: u16, payload: &[u8]) {
        self.bytes.extend((payload.len() as u16).to_le_bytes());
        self.bytes.extend(kind.to_le_bytes());
        self.bytes.extend(payload);
    }

    fn bare(&mut self, kind: u16) {
        self.record(kind, &[]);
    }

    fn open_metering(&mut self, month: u16, power: u32, period: u8) {
        self.record(
            OPEN_METERING,
            &[&month.to_le_bytes()[..], &power.to_le_bytes(), &[period]].concat(),
        );
    }

    fn open_billing(&mut self, month: u16, percentage: u8) {
        self.record(OPEN_BILLING, &[&month.to_le_bytes()[..], &[percentage]].concat());
    }

    fn open_book(&mut self, marks: &[u8; 48], sale: [u32; 3]) {
        let prices = sale.map(u32::to_le_bytes).concat();
        self.record(OPEN_BOOK, &[&marks[..], &prices].concat());
    }

    fn month_price(&mut self, price: i32) {
        self.record(MONTH_PRICE, &price.to_le_bytes());
    }

    fn hour_prices(&mut self, prices: &[i32]) {
        let payload: Vec<u8> = prices.iter().flat_map(|price| price.to_le_bytes()).collect();
        self.record(HOUR_PRICES, &payload);
    }

    fn reading(&mut self, import: u32, export: u32) {
        self.record(READING, &[import.to_le_bytes(), export.to_le_bytes()].concat());
    }
}

// What stands in records that are accepted

fn marks(chance: &mut Chance) -> [u8; 48] {
    let mut marks = [chance.between(1, 3) as u8; 48];
    match chance.below(4) {
        0 => {}
        1 => marks.fill_with(|| chance.between(1, 3) as u8),
        _ => {
            // a working day with two peaks, and a zone for the weekend
            for (hour, mark) in marks.iter_mut().enumerate() {
                *mark = match hour {
                    24.. => 3,
                    6..=12 | 15..=21 => 1,
                    _ => 2,
                };
            }
        }
    }
    marks
}

fn sale_price(chance: &mut Chance) -> u32 {
    match chance.below(6) {
        0 => 0,
        1 => LARGEST_PRICE,
        2 => chance.below(LARGEST_PRICE + 1),
        _ => chance.between(30_000, 90_000),
    }
}

fn in_range(price: i32) -> bool {
    price.unsigned_abs() <= LARGEST_PRICE
}

fn price(chance: &mut Chance) -> i32 {
    match chance.below(10) {
        0 => 0,
        1 => LARGEST_PRICE as i32,
        2 => -(LARGEST_PRICE as i32),
        3 => -(chance.between(1, 60_000) as i32),
        4 => chance.signed(LARGEST_PRICE),
        _ => chance.between(10_000, 80_000) as i32,
    }
}

fn prices(chance: &mut Chance, count: u32) -> Vec<i32> {
    let steady = chance.once_in(3);
    let one = price(chance);
    (0..count).map(|_| if steady { one } else { price(chance) }).collect()
}

/// How a household's readings run through a month.
#[derive(Clone, Copy)]
enum Habit {
    Idle,
    Sunny,
    Dark,
    Mixed,
    Tiny,
    Extreme,
    OnlyImport,
    OnlyExport,
    Any,
}

const HABITS: [Habit; 10] = [
    Habit::Idle,
    Habit::Sunny,
    Habit::Sunny,
    Habit::Dark,
    Habit::Mixed,
    Habit::Tiny,
    Habit::Extreme,
    Habit::OnlyImport,
    Habit::OnlyExport,
    Habit::Any,
];

fn reading(chance: &mut Chance, habit: Habit, place: u32) -> (u32, u32) {
    let noon = (8..=17).contains(&(place % 24));
    let most = LARGEST_READING;
    match habit {
        Habit::Idle => (u32::from(chance.once_in(50)), u32::from(chance.once_in(60))),
        Habit::Sunny if noon => (chance.below(300), chance.below(8_000)),
        Habit::Sunny | Habit::Dark => (chance.below(2_500), chance.below(40)),
        Habit::Mixed => (chance.below(3_000), chance.below(3_000)),
        Habit::Tiny => (chance.below(3), chance.below(3)),
        Habit::Extreme => {
            chance.pick(&[(most, 0), (0, most), (most, most), (0, 0), (most - 1, most)])
        }
        Habit::OnlyImport => (most, 0),
        Habit::OnlyExport => (0, most),
        Habit::Any => (chance.below(most + 1), chance.below(most + 1)),
    }
}

/// A month to begin with: often near the first, the change of the rule or the last.
fn first_month(chance: &mut Chance) -> u16 {
    let month = match chance.below(6) {
        0 => chance.between(47, 50),
        1 | 2 => chance.between(55, 76),
        3 => chance.between(1_170, 1_199),
        4 => chance.between(77, 200),
        _ => chance.between(47, 1_199),
    };
    month as u16
}

fn power(chance: &mut Chance) -> u32 {
    let any = chance.between(1, 50_000);
    chance.pick(&[1, 9_999, 10_000, 10_001, 50_000, any, any])
}

fn percentage(chance: &mut Chance) -> u8 {
    let any = chance.below(101) as u8;
    chance.pick(&[0, 20, 30, 100, any, any])
}

// Valid runs

/// Gives a book its prices, so that each hour that it still has to read has one.
fn give_prices(file: &mut File, chance: &mut Chance, hours: u32) {
    let count = match chance.below(5) {
        0 => chance.pick(&[hours, 745]),
        1 => chance.below(hours),
        2 => 0,
        _ => return file.month_price(price(chance)),
    };
    if count < hours {
        file.month_price(price(chance));
    }
    file.hour_prices(&prices(chance, count));
}

fn read_month(file: &mut File, chance: &mut Chance, hours: u32) {
    let mut habit = chance.pick(&HABITS);
    for place in 0..hours {
        if chance.once_in(400) {
            habit = chance.pick(&HABITS);
        }
        if chance.once_in(500) {
            give_prices(file, chance, hours);
        }
        let (import, export) = reading(chance, habit, place);
        file.reading(import, export);
    }
}

fn full_book(file: &mut File, chance: &mut Chance, month: u16) {
    let sale = [(); 3].map(|()| sale_price(chance));
    file.open_book(&marks(chance), sale);
    give_prices(file, chance, hours_of(month));
    read_month(file, chance, hours_of(month));
}

/// Month after month until the file has its size, or the last month is settled and its turn refused.
fn months(file: &mut File, chance: &mut Chance, first: u16, period: u16, size: usize) {
    for month in first..=LAST_MONTH {
        full_book(file, chance, month);
        file.bare(FINISH);
        if (month + 1).is_multiple_of(period) {
            file.bare(SETTLE);
        }
        file.bare(TURN);
        if file.bytes.len() >= size {
            return;
        }
    }
}

fn metering(chance: &mut Chance, size: usize) -> File {
    let mut file = File::default();
    let first = first_month(chance);
    let period = chance.pick(&[1, 2, 6]);
    file.open_metering(first, power(chance), period);
    months(&mut file, chance, first, period.into(), size);
    file
}

fn billing(chance: &mut Chance, size: usize) -> File {
    let mut file = File::default();
    let first = first_month(chance);
    file.open_billing(first, percentage(chance));
    months(&mut file, chance, first, 1, size);
    file
}

// Runs with refusals

/// The book that is open in a run.
struct OpenBook {
    month: u16,
    read: u32,
    has_month_price: bool,
    hour_prices: u32,
}

impl OpenBook {
    fn missing(&self) -> u32 {
        hours_of(self.month) - self.read
    }

    fn read(&mut self, import: u32, export: u32) {
        let fits = import <= LARGEST_READING && export <= LARGEST_READING;
        let has_price = self.read < self.hour_prices || self.has_month_price;
        if fits && self.missing() > 0 && (export <= import || has_price) {
            self.read += 1;
        }
    }
}

#[derive(Clone, Copy, PartialEq)]
enum State {
    Waiting,
    Entered,
    Settled,
}

struct OpenAccount {
    month: u16,
    period: u16,
    state: State,
}

impl OpenAccount {
    fn period_ends(&self) -> bool {
        (self.month + 1).is_multiple_of(self.period)
    }
}

/// A run of which the generator knows where it stands, so that as much is accepted as is wanted.
struct Walk<'a> {
    file: File,
    chance: &'a mut Chance,
    account: Option<OpenAccount>,
    book: Option<OpenBook>,
}

impl Walk<'_> {
    fn month_near_a_limit(&mut self) -> u16 {
        let any = self.chance.below(1 << 16) as u16;
        let good = first_month(self.chance);
        self.chance.pick(&[0, 46, 47, 1_199, 1_200, u16::MAX, any, good, good, good, good])
    }

    fn open_account(&mut self) {
        let month = self.month_near_a_limit();
        let opened = if self.chance.once_in(3) {
            self.open_billing(month)
        } else {
            self.open_metering(month)
        };
        let in_range = (FIRST_MONTH..=LAST_MONTH).contains(&month);
        if self.account.is_none() && in_range {
            self.account =
                opened.map(|period| OpenAccount { month, period, state: State::Waiting });
        }
    }

    fn open_metering(&mut self, month: u16) -> Option<u16> {
        let any = self.chance.next() as u32;
        let good = power(self.chance);
        let power =
            self.chance.pick(&[0, 50_001, u32::MAX, any, good, good, good, good, good, good]);
        let any = self.chance.below(256) as u8;
        let period = self.chance.pick(&[0, 3, 12, any, 1, 1, 1, 2, 2, 2, 6, 6, 6]);
        self.file.open_metering(month, power, period);
        let accepted = (1..=50_000).contains(&power) && [1, 2, 6].contains(&period);
        accepted.then_some(period.into())
    }

    fn open_billing(&mut self, month: u16) -> Option<u16> {
        let any = self.chance.below(256) as u8;
        let good = percentage(self.chance);
        let percentage = self.chance.pick(&[101, 255, any, good, good, good]);
        self.file.open_billing(month, percentage);
        (percentage <= 100).then_some(1)
    }

    fn open_book(&mut self) {
        let mut marks = marks(self.chance);
        let mut sale = [(); 3].map(|()| sale_price(self.chance));
        let good_marks = !self.chance.once_in(8);
        if !good_marks {
            marks[self.chance.below(48) as usize] = self.chance.pick(&[0, 4, 255]);
        }
        let good_sale = !self.chance.once_in(8);
        if !good_sale {
            sale[self.chance.below(3) as usize] =
                self.chance.pick(&[LARGEST_PRICE + 1, u32::MAX, 1 << 31]);
        }
        self.file.open_book(&marks, sale);
        if let (true, true, None, Some(account)) =
            (good_marks, good_sale, &self.book, &self.account)
        {
            let month = account.month;
            self.book = Some(OpenBook { month, read: 0, has_month_price: false, hour_prices: 0 });
        }
    }

    fn price_near_a_limit(&mut self) -> i32 {
        let any = self.chance.next() as i32;
        let most = LARGEST_PRICE as i32;
        self.chance.pick(&[most, -most, most + 1, -most - 1, i32::MIN, i32::MAX, any])
    }

    fn give_month_price(&mut self) {
        let odd = self.chance.once_in(3);
        let price = if odd { self.price_near_a_limit() } else { price(self.chance) };
        self.file.month_price(price);
        if let (Some(book), true) = (&mut self.book, in_range(price)) {
            book.has_month_price = true;
        }
    }

    fn give_hour_prices(&mut self) {
        let some = self.chance.below(745);
        let few = self.chance.below(12);
        let count = self.chance.pick(&[0, 1, 672, 744, 745, some, some, few, few]);
        let mut prices = prices(self.chance, count);
        if self.chance.once_in(4) && count > 0 {
            prices[self.chance.below(count) as usize] = self.price_near_a_limit();
        }
        self.file.hour_prices(&prices);
        if let (Some(book), true) = (&mut self.book, prices.iter().all(|&price| in_range(price))) {
            book.hour_prices = count;
        }
    }

    fn read(&mut self, import: u32, export: u32) {
        self.file.reading(import, export);
        if let Some(book) = &mut self.book {
            book.read(import, export);
        }
    }

    fn odd_reading(&mut self) {
        let most = LARGEST_READING;
        let choices = [0, 1, 2, most - 1, most, most + 1, u32::MAX, 1 << 31];
        let (import, export) = (self.chance.pick(&choices), self.chance.pick(&choices));
        self.read(import, export);
    }

    /// Some prices of either kind, one after the other, or none.
    fn some_prices(&mut self) {
        for _ in 0..self.chance.below(4) {
            if self.chance.once_in(3) {
                self.give_month_price();
            } else {
                self.give_hour_prices();
            }
        }
    }

    /// As many readings as the book wants, or some fewer or more, and prices among them.
    fn readings(&mut self) {
        let wanted = self.book.as_ref().map_or(2, OpenBook::missing);
        let fewer = self.chance.below(wanted + 1);
        let count = self.chance.pick(&[wanted, wanted, wanted, wanted + 1, wanted + 3, fewer]);
        if !self.chance.once_in(4) {
            self.give_month_price();
        }
        let habit = self.chance.pick(&HABITS);
        for place in 0..count {
            if self.chance.once_in(600) {
                self.some_prices();
            }
            let (import, export) = reading(self.chance, habit, place);
            self.read(import, export);
            if self.chance.once_in(3_000) {
                self.step();
            }
        }
    }

    fn finish(&mut self) {
        self.file.bare(FINISH);
        let (Some(book), Some(account)) = (&self.book, &mut self.account) else {
            return;
        };
        if book.missing() == 0 {
            if account.state == State::Waiting && account.month == book.month {
                account.state = State::Entered;
            }
            self.book = None;
        }
    }

    fn settle(&mut self) {
        self.file.bare(SETTLE);
        if let Some(account) = &mut self.account
            && account.state == State::Entered
            && account.period_ends()
        {
            account.state = State::Settled;
        }
    }

    fn turn(&mut self) {
        self.file.bare(TURN);
        if let Some(account) = &mut self.account {
            let done = match account.state {
                State::Waiting => false,
                State::Entered => !account.period_ends(),
                State::Settled => true,
            };
            if done && account.month < LAST_MONTH {
                account.month += 1;
                account.state = State::Waiting;
            }
        }
    }

    /// A month is brought to its end, a book of it opened, and read and finished after the turn.
    fn book_over_a_turn(&mut self) {
        self.open_book();
        if self.chance.once_in(2) {
            self.readings();
        }
        self.settle();
        self.turn();
        self.readings();
        self.finish();
    }

    fn malformed(&mut self) {
        let kind = self.chance.between(1, 9) as u16;
        let any = self.chance.below(70);
        let length = match kind {
            5 => self.chance.pick(&[1, 2, 3, 5, 2_979, 2_981, 2_984, 3_000]),
            _ => self.chance.pick(&[0, 1, 2, 3, 4, 6, 7, 8, 9, 59, 60, 61, any]),
        };
        let payload: Vec<u8> = (0..length).map(|_| self.chance.below(4) as u8).collect();
        self.file.record(kind, &payload);
    }

    fn unknown_kind(&mut self) {
        let any = self.chance.next() as u16;
        let kind = self.chance.pick(&[0, 10, 11, 256 + READING, u16::MAX, any]);
        let any = self.chance.below(100);
        let length = self.chance.pick(&[0, 4, 8, any]);
        let payload: Vec<u8> = (0..length).map(|_| self.chance.next() as u8).collect();
        self.file.record(kind, &payload);
    }

    /// One thing that may come at any time.
    fn step(&mut self) {
        match self.chance.below(12) {
            0 => self.open_account(),
            1 => self.open_book(),
            2 => self.give_month_price(),
            3 => self.give_hour_prices(),
            4 | 5 => self.odd_reading(),
            6 => self.finish(),
            7 => self.settle(),
            8 => self.turn(),
            9 => self.malformed(),
            10 => self.unknown_kind(),
            _ => {}
        }
    }

    /// What would come next in a valid run, or now and then another book for a month that has its sums.
    fn onward(&mut self) {
        let Some(account) = &self.account else {
            return self.open_account();
        };
        let waits = account.state == State::Waiting;
        let settles = account.state == State::Entered && account.period_ends();
        match &self.book {
            Some(book) if book.missing() == 0 => self.finish(),
            Some(_) => self.readings(),
            None if waits || self.chance.once_in(6) => self.open_book(),
            None if self.chance.once_in(6) => self.book_over_a_turn(),
            None if settles => self.settle(),
            None => self.turn(),
        }
    }
}

fn refusals(chance: &mut Chance, size: usize) -> File {
    let mut walk = Walk { file: File::default(), chance, account: None, book: None };
    let odd = walk.chance.between(2, 6);
    while walk.file.bytes.len() < size {
        if walk.chance.once_in(odd) {
            walk.step();
        } else {
            walk.onward();
        }
    }
    walk.file
}

// Damaged files

/// Where each record begins.
fn places(bytes: &[u8]) -> Vec<usize> {
    let mut places = Vec::new();
    let mut place = 0;
    while let Some(head) = bytes.get(place..place + 4) {
        places.push(place);
        place += 4 + usize::from(u16::from_le_bytes([head[0], head[1]]));
    }
    places
}

fn damage(bytes: &mut Vec<u8>, chance: &mut Chance) {
    let places = places(bytes);
    if places.is_empty() {
        return;
    }
    let record = chance.pick(&places);
    let anywhere = chance.below(bytes.len() as u32) as usize;
    match chance.below(7) {
        0 => bytes.truncate(anywhere),
        1 => bytes.truncate(record + 1),
        2 => bytes[record] = bytes[record].wrapping_add(chance.pick(&[1, 4, 255, 252])),
        3 => bytes[record + 1] ^= 1 << chance.below(8),
        4 => bytes[record + 2] = chance.below(11) as u8,
        5 => drop(bytes.remove(anywhere)),
        _ => bytes[anywhere] ^= 1 << chance.below(8),
    }
}

/// Changes a byte of a record's payload, so that what follows is still read as it was.
fn damage_payload(bytes: &mut [u8], chance: &mut Chance) {
    let places = places(bytes);
    if let [first, .., last] = places[..] {
        let record = if chance.once_in(3) {
            chance.pick(&places[..places.len().min(5)])
        } else {
            chance.pick(&places)
        };
        let place = (record + 4 + chance.below(8) as usize).clamp(first + 4, last);
        bytes[place] = chance.next() as u8;
    }
}

fn damaged(chance: &mut Chance, size: usize) -> File {
    let mut file = match chance.below(3) {
        0 => metering(chance, size),
        1 => billing(chance, size),
        _ => refusals(chance, size),
    };
    for _ in 0..chance.below(6) {
        damage_payload(&mut file.bytes, chance);
    }
    for _ in 0..chance.below(4) {
        damage(&mut file.bytes, chance);
    }
    file
}

// Files for measuring

/// Books of one month, again and again: the first is entered, and the others are refused when they are
/// finished.
fn readings(chance: &mut Chance, size: usize) -> File {
    let mut file = File::default();
    file.bytes.reserve(size + 20_000);
    let month = 105;
    let hours = hours_of(month);
    file.open_metering(month, 10_000, 1);
    let mut book = 0;
    while file.bytes.len() < size {
        file.open_book(&marks(chance), [61_270, 43_120, 39_850]);
        file.month_price(chance.signed(60_000));
        if book % 4 == 0 {
            let prices: Vec<i32> = (0..hours).map(|_| chance.signed(60_000)).collect();
            file.hour_prices(&prices);
        }
        for _ in 0..hours {
            file.reading(chance.below(LARGEST_READING + 1), chance.below(LARGEST_READING + 1));
        }
        file.bare(FINISH);
        book += 1;
    }
    file
}

fn make(sort: &str, chance: &mut Chance, size: usize) -> Option<File> {
    let file = match sort {
        "metering" => metering(chance, size * 1_000),
        "billing" => billing(chance, size * 1_000),
        "refusals" => refusals(chance, size * 1_000),
        "damaged" => damaged(chance, size * 1_000),
        "readings" => readings(chance, size * 1_000_000),
        _ => return None,
    };
    Some(file)
}

fn asked_for() -> Option<File> {
    let [seed, sort, size] = env::args().skip(1).collect::<Vec<_>>().try_into().ok()?;
    let mut chance = Chance { state: seed.parse().ok()? };
    make(&sort, &mut chance, size.parse().ok()?)
}

fn main() -> io::Result<ExitCode> {
    let Some(file) = asked_for() else {
        eprintln!("usage: generate SEED metering|billing|refusals|damaged|readings SIZE > FILE");
        return Ok(ExitCode::from(2));
    };
    BufWriter::new(io::stdout().lock()).write_all(&file.bytes)?;
    Ok(ExitCode::SUCCESS)
}
