//! Reads a record file on standard input and prints what its records tell, a line each.
//!
//! Written from the pages in docs/ alone, so that a program made in another way can be compared with
//! it.

use std::array;
use std::io::{self, Read, Write};
use std::iter;

const FIRST_MONTH: u16 = 47;
const LAST_MONTH: u16 = 1_199;
const LAST_PROPORTIONAL_MONTH: u16 = 74;
/// How many months after its own a portion is open.
const LIFE: u16 = 12;
const LARGEST_READING: u32 = 100_000;
const LARGEST_PRICE: u32 = 1_000_000;
const MOST_HOURS: usize = 745;
const ZONES: usize = 3;
/// A record's first four bytes say its length and kind.
const HEAD: usize = 4;
const READING_RECORD: usize = HEAD + 8;
/// The first four bytes of each reading: a payload of 8 bytes, kind 6.
const READING_HEAD: [u8; HEAD] = [8, 0, 6, 0];

#[derive(Clone, Copy)]
enum Refusal {
    MonthOutOfRange = 2,
    LastMonth = 6,
    MarkOutOfRange = 11,
    SalePriceTooHigh = 12,
    ReadingTooLarge = 13,
    BookComplete = 14,
    NoPrice = 15,
    HoursMissing = 16,
    PriceOutOfRange = 17,
    PowerOutOfRange = 21,
    PeriodUnknown = 22,
    PercentageTooHigh = 23,
    OtherMonth = 24,
    AlreadyEntered = 25,
    NothingEntered = 26,
    PeriodGoesOn = 27,
    NotSettled = 28,
    AlreadySettled = 29,
    FileEnds = 31,
    Malformed = 32,
    OutOfPlace = 33,
}

type Answer<T> = Result<T, Refusal>;

fn refuse_if(wrong: bool, refusal: Refusal) -> Answer<()> {
    if wrong { Err(refusal) } else { Ok(()) }
}

// Records

#[derive(Clone, Copy)]
struct Reading {
    import: u32,
    export: u32,
}

struct Tariff<'a> {
    working: &'a [u8; 24],
    weekend: &'a [u8; 24],
    sale: [u32; ZONES],
}

enum Record<'a> {
    OpenMetering { month: u16, power: u32, period: u8 },
    OpenBilling { month: u16, percentage: u8 },
    OpenBook(Tariff<'a>),
    MonthPrice(i32),
    HourPrices(&'a [[u8; 4]]),
    Reading(Reading),
    Finish,
    Settle,
    Turn,
}

/// The first record's kind and payload, and the bytes after it; none if the bytes end in it.
fn split_record(bytes: &[u8]) -> Option<(u16, &[u8], &[u8])> {
    let (&[l0, l1, k0, k1], rest) = bytes.split_first_chunk()?;
    let (payload, rest) = rest.split_at_checked(u16::from_le_bytes([l0, l1]).into())?;
    Some((u16::from_le_bytes([k0, k1]), payload, rest))
}

fn decode(kind: u16, payload: &[u8]) -> Answer<Record<'_>> {
    let record = match (kind, payload) {
        (1, &[m0, m1, p0, p1, p2, p3, period]) => Record::OpenMetering {
            month: u16::from_le_bytes([m0, m1]),
            power: u32::from_le_bytes([p0, p1, p2, p3]),
            period,
        },
        (2, &[m0, m1, percentage]) => {
            Record::OpenBilling { month: u16::from_le_bytes([m0, m1]), percentage }
        }
        (3, _) => Record::OpenBook(decode_tariff(payload).ok_or(Refusal::Malformed)?),
        (4, &[a, b, c, d]) => Record::MonthPrice(i32::from_le_bytes([a, b, c, d])),
        (5, _) => Record::HourPrices(decode_prices(payload).ok_or(Refusal::Malformed)?),
        (6, &[a, b, c, d, e, f, g, h]) => Record::Reading(Reading {
            import: u32::from_le_bytes([a, b, c, d]),
            export: u32::from_le_bytes([e, f, g, h]),
        }),
        (7, []) => Record::Finish,
        (8, []) => Record::Settle,
        (9, []) => Record::Turn,
        _ => return Err(Refusal::Malformed),
    };
    Ok(record)
}

fn decode_tariff(payload: &[u8]) -> Option<Tariff<'_>> {
    let (working, rest) = payload.split_first_chunk()?;
    let (weekend, rest) = rest.split_first_chunk()?;
    let (prices, []) = rest.as_chunks() else {
        return None;
    };
    let [first, second, third] = *prices else {
        return None;
    };
    Some(Tariff { working, weekend, sale: [first, second, third].map(u32::from_le_bytes) })
}

fn decode_prices(payload: &[u8]) -> Option<&[[u8; 4]]> {
    match payload.as_chunks() {
        (prices, []) if prices.len() <= MOST_HOURS => Some(prices),
        _ => None,
    }
}

// Calendar

fn is_leap(year: u32) -> bool {
    year.is_multiple_of(4) && (!year.is_multiple_of(100) || year.is_multiple_of(400))
}

/// The days of a month, its number counted from 0 within its year.
fn days_in(year: u32, month: u32) -> u32 {
    match month {
        1 if is_leap(year) => 29,
        1 => 28,
        3 | 5 | 8 | 10 => 30,
        _ => 31,
    }
}

/// What the clock does with its hour 2 on the last Sunday of a month.
enum Change {
    Nothing,
    Skips,
    Repeats,
}

struct MonthDays {
    days: u32,
    /// 0 for a Monday.
    first_weekday: u32,
    change: Change,
}

impl MonthDays {
    fn of(month: u16) -> Self {
        let (year, month) = (2016 + u32::from(month / 12), u32::from(month % 12));
        let years: u32 = (2016..year).map(|past| 365 + u32::from(is_leap(past))).sum();
        let months: u32 = (0..month).map(|past| days_in(year, past)).sum();
        let change = match month {
            2 => Change::Skips,
            9 => Change::Repeats,
            _ => Change::Nothing,
        };
        // 1 January 2016 is a Friday
        Self { days: days_in(year, month), first_weekday: (4 + years + months) % 7, change }
    }

    /// The zone of each hour, in order.
    fn zones(&self, working: &[Zone; 24], weekend: &[Zone; 24]) -> Vec<Zone> {
        let mut zones = Vec::with_capacity(MOST_HOURS);
        for day in 0..self.days {
            let weekday = (self.first_weekday + day) % 7;
            let day_zones = if weekday >= 5 { weekend } else { working };
            let last_sunday = weekday == 6 && day + 7 >= self.days;
            match self.change {
                Change::Skips if last_sunday => {
                    zones.extend_from_slice(&day_zones[..2]);
                    zones.extend_from_slice(&day_zones[3..]);
                }
                Change::Repeats if last_sunday => {
                    zones.extend_from_slice(&day_zones[..3]);
                    zones.extend_from_slice(&day_zones[2..]);
                }
                _ => zones.extend_from_slice(day_zones),
            }
        }
        zones
    }
}

// Month book

#[derive(Clone, Copy)]
enum Zone {
    First,
    Second,
    Third,
}

impl Zone {
    fn of_mark(mark: u8) -> Answer<Self> {
        match mark {
            1 => Ok(Self::First),
            2 => Ok(Self::Second),
            3 => Ok(Self::Third),
            _ => Err(Refusal::MarkOutOfRange),
        }
    }

    fn of_marks(marks: &[u8; 24]) -> Answer<[Self; 24]> {
        let mut zones = [Self::First; 24];
        for (zone, &mark) in zones.iter_mut().zip(marks) {
            *zone = Self::of_mark(mark)?;
        }
        Ok(zones)
    }
}

fn check_price(price: i32) -> Answer<()> {
    refuse_if(price.unsigned_abs() > LARGEST_PRICE, Refusal::PriceOutOfRange)
}

/// What the energy given is worth at a price: a negative one counts as 0.
fn rate_of(price: i32) -> u32 {
    price.max(0).unsigned_abs()
}

#[derive(Clone, Copy, Default)]
struct Energy {
    taken: u64,
    given: u64,
}

#[derive(Clone, Copy, Default)]
struct Tally {
    zones: [Energy; ZONES],
    value: u64,
}

impl Tally {
    /// Adds a reading, unless it is too large or has no rate where it needs one.
    #[inline(always)]
    fn add(&mut self, reading: Reading, zone: Zone, rate: Option<u32>) -> Answer<()> {
        let Reading { import, export } = reading;
        refuse_if(import.max(export) > LARGEST_READING, Refusal::ReadingTooLarge)?;
        refuse_if(rate.is_none() && export > import, Refusal::NoPrice)?;
        let given = u64::from(export.saturating_sub(import));
        let energy = &mut self.zones[zone as usize];
        energy.taken += u64::from(import.saturating_sub(export));
        energy.given += given;
        self.value += given * u64::from(rate.unwrap_or(0));
        Ok(())
    }

    /// Adds the readings that the records begin with, each with the zone and rate of its hour, and
    /// returns how many these are.
    // on its own, so that the registers are the loop's
    #[inline(never)]
    fn add_run(
        &mut self,
        records: &[[u8; READING_RECORD]],
        zones: &[Zone],
        rates: impl Iterator<Item = Option<u32>>,
    ) -> usize {
        let mut tally = *self;
        let mut count = 0;
        for ((record, &zone), rate) in records.iter().zip(zones).zip(rates) {
            let &[l0, l1, k0, k1, a, b, c, d, e, f, g, h] = record;
            let import = u32::from_le_bytes([a, b, c, d]);
            let export = u32::from_le_bytes([e, f, g, h]);
            if [l0, l1, k0, k1] != READING_HEAD
                || tally.add(Reading { import, export }, zone, rate).is_err()
            {
                break;
            }
            count += 1;
        }
        *self = tally;
        count
    }
}

struct Sums {
    month: u16,
    zones: [Energy; ZONES],
    charge: u64,
    value: u64,
}

struct Book {
    month: u16,
    sale: [u32; ZONES],
    /// The zone of each hour of the month.
    zones: Vec<Zone>,
    month_rate: Option<u32>,
    hour_rates: Vec<u32>,
    hours_read: usize,
    tally: Tally,
}

impl Book {
    fn open(month: u16, tariff: &Tariff) -> Answer<Self> {
        let working = Zone::of_marks(tariff.working)?;
        let weekend = Zone::of_marks(tariff.weekend)?;
        refuse_if(
            tariff.sale.iter().any(|&price| price > LARGEST_PRICE),
            Refusal::SalePriceTooHigh,
        )?;
        Ok(Self {
            month,
            sale: tariff.sale,
            zones: MonthDays::of(month).zones(&working, &weekend),
            month_rate: None,
            hour_rates: Vec::new(),
            hours_read: 0,
            tally: Tally::default(),
        })
    }

    fn set_month_price(&mut self, price: i32) -> Answer<()> {
        check_price(price)?;
        self.month_rate = Some(rate_of(price));
        Ok(())
    }

    fn set_hour_prices(&mut self, prices: &[[u8; 4]]) -> Answer<()> {
        let prices = prices.iter().map(|&price| i32::from_le_bytes(price));
        prices.clone().try_for_each(check_price)?;
        self.hour_rates.clear();
        self.hour_rates.extend(prices.map(rate_of));
        Ok(())
    }

    fn read(&mut self, reading: Reading) -> Answer<()> {
        refuse_if(reading.import.max(reading.export) > LARGEST_READING, Refusal::ReadingTooLarge)?;
        let &zone = self.zones.get(self.hours_read).ok_or(Refusal::BookComplete)?;
        let rate = self.hour_rates.get(self.hours_read).copied().or(self.month_rate);
        self.tally.add(reading, zone, rate)?;
        self.hours_read += 1;
        Ok(())
    }

    /// Reads the readings that the bytes begin with, up to the first record that is none or would be
    /// refused, and returns the rest.
    fn read_run<'a>(&mut self, bytes: &'a [u8]) -> &'a [u8] {
        let (records, _) = bytes.as_chunks();
        let zones = self.zones.get(self.hours_read..).unwrap_or_default();
        let listed = self.hour_rates.get(self.hours_read..).unwrap_or_default();
        let mut count = self.tally.add_run(records, zones, listed.iter().copied().map(Some));
        if count == listed.len() {
            let (records, zones) = (&records[count..], &zones[count..]);
            // a type of rates for either, so that there is a loop for either
            count += match self.month_rate {
                Some(rate) => self.tally.add_run(records, zones, iter::repeat(rate).map(Some)),
                None => self.tally.add_run(records, zones, iter::repeat(None)),
            };
        }
        self.hours_read += count;
        &bytes[count * READING_RECORD..]
    }

    fn sums(&self) -> Answer<Sums> {
        refuse_if(self.hours_read < self.zones.len(), Refusal::HoursMissing)?;
        let Tally { zones, value } = self.tally;
        let charge =
            zones.iter().zip(self.sale).map(|(zone, price)| zone.taken * u64::from(price)).sum();
        Ok(Sums { month: self.month, zones, charge, value })
    }
}

// Store

struct Portion {
    month: u16,
    left: u64,
    /// The most that is refunded at its end, 0 for energy.
    cap: u64,
    /// What the current settlement took of it.
    used: u64,
}

impl Portion {
    fn take(&mut self, amount: u64) {
        self.left -= amount;
        self.used += amount;
    }
}

#[derive(Default)]
struct RunOut {
    refunded: u64,
    lost: u64,
}

#[derive(Clone, Copy)]
enum DrawRule {
    Proportional,
    OldestFirst,
}

/// Open portions, oldest first.
#[derive(Default)]
struct Store {
    portions: Vec<Portion>,
}

impl Store {
    fn enter(&mut self, month: u16, amount: u64, cap: u64) {
        self.portions.push(Portion { month, left: amount, cap, used: 0 });
    }

    fn begin_settlement(&mut self) {
        for portion in &mut self.portions {
            portion.used = 0;
        }
    }

    /// Takes what is wanted, or else all that is left, and returns how much that is.
    fn draw(&mut self, wanted: u64, rule: DrawRule) -> u64 {
        let total = self.portions.iter().map(|portion| portion.left).sum();
        let taken = wanted.min(total);
        match rule {
            _ if taken == 0 => {}
            DrawRule::Proportional => self.draw_shares(taken, total),
            DrawRule::OldestFirst => self.draw_oldest(taken),
        }
        taken
    }

    fn draw_shares(&mut self, taken: u64, total: u64) {
        let (mut running, mut given) = (0, 0);
        for portion in &mut self.portions {
            running += portion.left;
            let due = taken * running / total;
            portion.take(due - given);
            given = due;
        }
    }

    fn draw_oldest(&mut self, taken: u64) {
        let mut rest = taken;
        for portion in &mut self.portions {
            let amount = rest.min(portion.left);
            portion.take(amount);
            rest -= amount;
        }
    }

    /// Ends the portions that are past their life in this month.
    fn turn_to(&mut self, month: u16, run_out: &mut RunOut) {
        let ended = self.portions.partition_point(|portion| portion.month + LIFE < month);
        for portion in self.portions.drain(..ended) {
            let refund = portion.left.min(portion.cap);
            run_out.refunded += refund;
            run_out.lost += portion.left - refund;
        }
    }

    fn tell(&self, zone: u64, report: &mut Report) {
        for portion in &self.portions {
            report.line(b'L', [zone, portion.month.into(), portion.used, portion.left]);
        }
    }
}

// Accounts

#[derive(Clone, Copy)]
enum Period {
    Month,
    TwoMonths,
    HalfYear,
}

impl Period {
    fn of_months(months: u8) -> Answer<Self> {
        match months {
            1 => Ok(Self::Month),
            2 => Ok(Self::TwoMonths),
            6 => Ok(Self::HalfYear),
            _ => Err(Refusal::PeriodUnknown),
        }
    }

    fn ends_with(self, month: u16) -> bool {
        let months = match self {
            Self::Month => 1,
            Self::TwoMonths => 2,
            Self::HalfYear => 6,
        };
        (month + 1).is_multiple_of(months)
    }
}

struct Metering {
    /// Of ten units stored, how many are given back.
    tenths: u64,
    period: Period,
    stores: [Store; ZONES],
    pending: [u64; ZONES],
}

impl Metering {
    fn enter(&mut self, sums: &Sums) {
        let zones = self.stores.iter_mut().zip(&mut self.pending).zip(&sums.zones);
        for ((store, pending), energy) in zones {
            store.enter(sums.month, energy.given, 0);
            *pending += energy.taken;
        }
    }

    /// What stays of an energy pending after a draw on a store.
    fn cover(pending: u64, tenths: u64, store: &mut Store, rule: DrawRule) -> u64 {
        let drawn = store.draw((10 * pending).div_ceil(tenths), rule);
        pending - pending.min(drawn * tenths / 10)
    }

    fn settle(&mut self, rule: DrawRule, report: &mut Report) {
        self.stores.iter_mut().for_each(Store::begin_settlement);
        let mut due = std::mem::take(&mut self.pending);
        for (rest, store) in due.iter_mut().zip(&mut self.stores) {
            *rest = Self::cover(*rest, self.tenths, store, rule);
        }
        for (zone, rest) in due.iter_mut().enumerate() {
            for (_, store) in self.stores.iter_mut().enumerate().filter(|&(other, _)| other != zone)
            {
                *rest = Self::cover(*rest, self.tenths, store, rule);
            }
        }
        for (zone, store) in (1..).zip(&self.stores) {
            store.tell(zone, report);
        }
        for (zone, due) in (1..).zip(due) {
            report.line(b'D', [zone, due]);
        }
    }
}

struct Billing {
    percentage: u64,
    store: Store,
    bill: u64,
}

impl Billing {
    fn enter(&mut self, sums: &Sums) {
        let deposit = (sums.value * 123 + 50_000_000) / 100_000_000;
        let cap = sums.value * self.percentage / 100_000_000;
        self.store.enter(sums.month, deposit, cap);
        self.bill = (sums.charge + 500_000) / 1_000_000;
    }

    fn settle(&mut self, rule: DrawRule, report: &mut Report) {
        self.store.begin_settlement();
        let bill = std::mem::take(&mut self.bill);
        let used = self.store.draw(bill, rule);
        self.store.tell(0, report);
        report.line(b'D', [0, bill - used]);
    }
}

enum Sort {
    Metering(Metering),
    Billing(Billing),
}

#[derive(Clone, Copy)]
enum State {
    Waiting,
    Entered,
    Settled,
}

struct Account {
    month: u16,
    state: State,
    sort: Sort,
}

impl Account {
    fn open(month: u16, sort: impl FnOnce() -> Answer<Sort>) -> Answer<Self> {
        refuse_if(!(FIRST_MONTH..=LAST_MONTH).contains(&month), Refusal::MonthOutOfRange)?;
        Ok(Self { month, state: State::Waiting, sort: sort()? })
    }

    fn open_metering(month: u16, power: u32, period: u8) -> Answer<Self> {
        Self::open(month, || {
            refuse_if(!(1..=50_000).contains(&power), Refusal::PowerOutOfRange)?;
            Ok(Sort::Metering(Metering {
                tenths: if power <= 10_000 { 8 } else { 7 },
                period: Period::of_months(period)?,
                stores: array::from_fn(|_| Store::default()),
                pending: [0; ZONES],
            }))
        })
    }

    fn open_billing(month: u16, percentage: u8) -> Answer<Self> {
        Self::open(month, || {
            refuse_if(percentage > 100, Refusal::PercentageTooHigh)?;
            let percentage = percentage.into();
            Ok(Sort::Billing(Billing { percentage, store: Store::default(), bill: 0 }))
        })
    }

    fn period_ends(&self) -> bool {
        match &self.sort {
            Sort::Metering(metering) => metering.period.ends_with(self.month),
            Sort::Billing(_) => true,
        }
    }

    fn enter(&mut self, sums: &Sums) -> Answer<()> {
        refuse_if(sums.month != self.month, Refusal::OtherMonth)?;
        refuse_if(!matches!(self.state, State::Waiting), Refusal::AlreadyEntered)?;
        match &mut self.sort {
            Sort::Metering(metering) => metering.enter(sums),
            Sort::Billing(billing) => billing.enter(sums),
        }
        self.state = State::Entered;
        Ok(())
    }

    fn settle(&mut self, report: &mut Report) -> Answer<()> {
        match self.state {
            State::Waiting => return Err(Refusal::NothingEntered),
            State::Settled => return Err(Refusal::AlreadySettled),
            State::Entered => refuse_if(!self.period_ends(), Refusal::PeriodGoesOn)?,
        }
        let rule = if self.month <= LAST_PROPORTIONAL_MONTH {
            DrawRule::Proportional
        } else {
            DrawRule::OldestFirst
        };
        match &mut self.sort {
            Sort::Metering(metering) => metering.settle(rule, report),
            Sort::Billing(billing) => billing.settle(rule, report),
        }
        self.state = State::Settled;
        Ok(())
    }

    fn turn(&mut self, report: &mut Report) -> Answer<()> {
        refuse_if(self.month == LAST_MONTH, Refusal::LastMonth)?;
        match self.state {
            State::Waiting => return Err(Refusal::NothingEntered),
            State::Entered => refuse_if(self.period_ends(), Refusal::NotSettled)?,
            State::Settled => {}
        }
        self.month += 1;
        self.state = State::Waiting;
        let stores = match &mut self.sort {
            Sort::Metering(metering) => metering.stores.as_mut_slice(),
            Sort::Billing(billing) => array::from_mut(&mut billing.store).as_mut_slice(),
        };
        let mut run_out = RunOut::default();
        for store in stores {
            store.turn_to(self.month, &mut run_out);
        }
        report.line(b'T', [run_out.refunded, run_out.lost]);
        Ok(())
    }
}

// The run

/// A line, put together from its end: a letter and up to four numbers.
struct Line {
    text: [u8; Self::ROOM],
    start: usize,
}

impl Line {
    const ROOM: usize = 2 + 4 * 21;

    fn new() -> Self {
        Self { text: [b'\n'; Self::ROOM], start: Self::ROOM - 1 }
    }

    fn put(&mut self, byte: u8) {
        self.start -= 1;
        self.text[self.start] = byte;
    }

    fn put_number(&mut self, number: u64) {
        let mut rest = number;
        loop {
            self.put(b'0' + (rest % 10) as u8);
            rest /= 10;
            if rest == 0 {
                break;
            }
        }
        self.put(b' ');
    }
}

/// The lines printed.
#[derive(Default)]
struct Report {
    text: Vec<u8>,
}

impl Report {
    fn line<const COUNT: usize>(&mut self, letter: u8, numbers: [u64; COUNT]) {
        const { assert!(COUNT <= 4) };
        let mut line = Line::new();
        for number in numbers.into_iter().rev() {
            line.put_number(number);
        }
        line.put(letter);
        self.text.extend_from_slice(&line.text[line.start..]);
    }

    fn refused(&mut self, place: usize, refusal: Refusal) {
        self.line(b'R', [place as u64, refusal as u64]);
    }
}

#[derive(Default)]
struct Desk {
    account: Option<Account>,
    book: Option<Book>,
}

impl Desk {
    fn account(&mut self) -> Answer<&mut Account> {
        self.account.as_mut().ok_or(Refusal::OutOfPlace)
    }

    fn book(&mut self) -> Answer<&mut Book> {
        self.book.as_mut().ok_or(Refusal::OutOfPlace)
    }

    fn take(&mut self, record: Record, report: &mut Report) -> Answer<()> {
        match record {
            Record::OpenMetering { month, power, period } => {
                self.open(|| Account::open_metering(month, power, period))
            }
            Record::OpenBilling { month, percentage } => {
                self.open(|| Account::open_billing(month, percentage))
            }
            Record::OpenBook(tariff) => self.open_book(&tariff),
            Record::MonthPrice(price) => self.book()?.set_month_price(price),
            Record::HourPrices(prices) => self.book()?.set_hour_prices(prices),
            Record::Reading(reading) => self.book()?.read(reading),
            Record::Finish => self.finish(),
            Record::Settle => self.account()?.settle(report),
            Record::Turn => self.account()?.turn(report),
        }
    }

    /// Takes the readings that the bytes begin with, as many as would be accepted, and returns the rest.
    fn take_readings<'a>(&mut self, bytes: &'a [u8]) -> &'a [u8] {
        match &mut self.book {
            Some(book) => book.read_run(bytes),
            None => bytes,
        }
    }

    fn open(&mut self, account: impl FnOnce() -> Answer<Account>) -> Answer<()> {
        refuse_if(self.account.is_some(), Refusal::OutOfPlace)?;
        self.account = Some(account()?);
        Ok(())
    }

    fn open_book(&mut self, tariff: &Tariff) -> Answer<()> {
        let month = self.account()?.month;
        refuse_if(self.book.is_some(), Refusal::OutOfPlace)?;
        self.book = Some(Book::open(month, tariff)?);
        Ok(())
    }

    /// A book with hours missing stays open, any other is gone, whatever the account says of its sums.
    fn finish(&mut self) -> Answer<()> {
        let sums = self.book()?.sums()?;
        self.book = None;
        self.account()?.enter(&sums)
    }
}

fn report(file: &[u8]) -> Report {
    let mut desk = Desk::default();
    let mut report = Report::default();
    let mut rest = file;
    while !rest.is_empty() {
        let place = file.len() - rest.len();
        let Some((kind, payload, after)) = split_record(rest) else {
            report.refused(place, Refusal::FileEnds);
            break;
        };
        match decode(kind, payload).and_then(|record| desk.take(record, &mut report)) {
            Ok(()) => rest = desk.take_readings(after),
            Err(refusal) => {
                report.refused(place, refusal);
                rest = after;
            }
        }
    }
    report
}

fn main() -> io::Result<()> {
    let mut file = Vec::new();
    io::stdin().lock().read_to_end(&mut file)?;
    io::stdout().lock().write_all(&report(&file).text)
}
