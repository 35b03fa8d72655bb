//! Compares the library with a plain planner, through the C interface, on random inputs.
//!
//! usage: fuzz [COUNT [SEED]]
//!
//! Each of COUNT rounds asks for the answer to an input, compares two inputs, and asks for a quote and a charge. Inputs are
//! made valid, and half of them are then damaged. All lent memory stands between guard bytes: these, the memory past a text
//! and what a refused call may not write have to keep what they held.

use std::collections::{BTreeMap, BTreeSet};
use std::process::ExitCode;

// The library

mod library {
    unsafe extern "C" {
        pub safe fn vulzhedor_charge(rate: u32, minutes: u32) -> u64;
        pub fn vulzhedor_quote(
            speed: u32,
            rate: u32,
            work: u32,
            minutes: *mut u32,
            cents: *mut u64,
        ) -> u32;
        pub fn vulzhedor_answer(
            input: *const u8,
            input_length: usize,
            text: *mut u8,
            text_length: usize,
            written: *mut usize,
        ) -> u32;
        pub fn vulzhedor_same_bargains(
            first: *const u8,
            first_length: usize,
            second: *const u8,
            second_length: usize,
            equal: *mut u32,
            about: *mut u32,
            carried: *mut u64,
        ) -> u32;
    }
}

const DONE: u32 = 0;
const NO_QUOTE: u32 = 255;

// Random numbers

/// The generator SplitMix64.
struct Random {
    state: u64,
}

impl Random {
    fn new(seed: u64) -> Random {
        Random { state: seed }
    }

    fn next(&mut self) -> u64 {
        self.state = self.state.wrapping_add(0x9E37_79B9_7F4A_7C15);
        let mut mixed = self.state;
        mixed = (mixed ^ (mixed >> 30)).wrapping_mul(0xBF58_476D_1CE4_E5B9);
        mixed = (mixed ^ (mixed >> 27)).wrapping_mul(0x94D0_49BB_1331_11EB);
        mixed ^ (mixed >> 31)
    }

    /// One of so many numbers, from 0.
    fn below(&mut self, count: usize) -> usize {
        (self.next() % count as u64) as usize
    }

    fn within(&mut self, least: u32, greatest: u32) -> u32 {
        least + (self.next() % (u64::from(greatest - least) + 1)) as u32
    }

    /// True once in so many times.
    fn once_in(&mut self, times: usize) -> bool {
        self.below(times) == 0
    }

    fn one_of<T: Copy>(&mut self, choices: &[T]) -> T {
        choices[self.below(choices.len())]
    }

    fn byte(&mut self) -> u8 {
        self.next() as u8
    }

    fn shuffle<T>(&mut self, items: &mut [T]) {
        for place in (1..items.len()).rev() {
            let other = self.below(place + 1);
            items.swap(place, other);
        }
    }
}

// The plain reader

#[derive(Clone, Copy, PartialEq, Eq, Debug)]
struct Refusal {
    number: u32,
    carried: Option<usize>,
}

fn plain(number: u32) -> Refusal {
    let carried = None;
    Refusal { number, carried }
}

fn carrying(number: u32, value: usize) -> Refusal {
    let carried = Some(value);
    Refusal { number, carried }
}

#[derive(Clone, Default, Debug)]
struct Batch {
    /// Speed and rate by machine.
    lines: Vec<(u32, u32)>,
    /// The works of each stage; tasks are numbered through.
    stages: Vec<Vec<u32>>,
}

#[derive(Clone, Copy, Debug)]
enum Question {
    Front,
    Budget(u32),
    Deadline(u32),
}

struct Reader<'a> {
    bytes: &'a [u8],
    place: usize,
}

impl<'a> Reader<'a> {
    fn new(bytes: &'a [u8]) -> Self {
        Reader { bytes, place: 0 }
    }

    fn number(&mut self) -> Result<u32, Refusal> {
        let start = self.place;
        let mut value = 0;
        for group in 0..5 {
            let Some(&byte) = self.bytes.get(start + group) else {
                return Err(carrying(11, start));
            };
            value |= u32::from(byte & 0x7F) << (7 * group);
            let last = byte < 0x80;
            if (group == 4 && byte > 0x0F) || (group > 0 && byte == 0) {
                return Err(carrying(12, start));
            }
            if last {
                self.place = start + group + 1;
                return Ok(value);
            }
        }
        unreachable!("a fifth byte that goes on is above 0x0F")
    }

    fn lines(&mut self) -> Result<Vec<(u32, u32)>, Refusal> {
        let mut lines = Vec::new();
        for _ in 0..self.number()? {
            let place = self.place;
            let speed = self.number()?;
            let rate = self.number()?;
            if lines.len() == 32 {
                return Err(carrying(4, place));
            }
            if !line_in_range(speed, rate) {
                return Err(carrying(5, place));
            }
            lines.push((speed, rate));
        }
        Ok(lines)
    }

    fn stages(&mut self) -> Result<Vec<Vec<u32>>, Refusal> {
        let mut stages = Vec::new();
        let mut tasks = 0;
        for _ in 0..self.number()? {
            let place = self.place;
            let count = self.number()?;
            if stages.len() == 16 {
                return Err(carrying(1, place));
            }
            let mut works = Vec::new();
            for _ in 0..count {
                let place = self.place;
                let work = self.number()?;
                if tasks == 256 {
                    return Err(carrying(1, place));
                }
                if !work_in_range(work) {
                    return Err(carrying(3, place));
                }
                works.push(work);
                tasks += 1;
            }
            stages.push(works);
        }
        Ok(stages)
    }

    fn batch(&mut self) -> Result<Batch, Refusal> {
        let lines = self.lines()?;
        let stages = self.stages()?;
        Ok(Batch { lines, stages })
    }

    fn question(&mut self) -> Result<Question, Refusal> {
        let place = self.place;
        match self.number()? {
            0 => Ok(Question::Front),
            1 => Ok(Question::Budget(self.number()?)),
            2 => Ok(Question::Deadline(self.number()?)),
            _ => Err(carrying(14, place)),
        }
    }

    fn end(&self) -> Result<(), Refusal> {
        if self.place < self.bytes.len() {
            return Err(carrying(13, self.place));
        }
        Ok(())
    }
}

fn line_in_range(speed: u32, rate: u32) -> bool {
    (1..=10_000).contains(&speed) && rate <= 1_000_000
}

fn work_in_range(work: u32) -> bool {
    (1..=1_000_000).contains(&work)
}

fn read_key(bytes: &[u8]) -> Result<(Batch, Question), Refusal> {
    let mut reader = Reader::new(&bytes[..bytes.len().min(1_024)]);
    let batch = reader.batch()?;
    let question = reader.question()?;
    reader.end()?;
    Ok((batch, question))
}

fn read_batch(bytes: &[u8]) -> Result<Batch, Refusal> {
    let mut reader = Reader::new(bytes);
    let batch = reader.batch()?;
    reader.end()?;
    Ok(batch)
}

// The plain planner: it joins the fronts of single stages, and has no cells

#[derive(Clone, Copy, PartialEq, Eq, Debug)]
struct Quote {
    minutes: u32,
    cents: u64,
}

fn charge(rate: u32, minutes: u32) -> u64 {
    let product = u128::from(rate) * u128::from(minutes);
    product.div_ceil(60).min(1_000_000_000_000_000) as u64
}

fn quote((speed, rate): (u32, u32), work: u32) -> Option<Quote> {
    let minutes = work / speed + u32::from(work % speed > 0);
    (minutes <= 1_440).then(|| Quote {
        minutes,
        cents: charge(rate, minutes),
    })
}

/// The least cost for each length that is on a front.
type Front = BTreeMap<u32, u64>;

/// Pairs that no other beats.
fn unbeaten(pairs: impl IntoIterator<Item = (u32, u64)>) -> Front {
    let mut least = Front::new();
    for (length, cost) in pairs {
        let entry = least.entry(length).or_insert(cost);
        *entry = cost.min(*entry);
    }
    let mut cheapest = u64::MAX;
    least.retain(|_, cost| {
        let kept = *cost < cheapest;
        cheapest = cheapest.min(*cost);
        kept
    });
    least
}

/// The least cost within so many minutes.
fn within(front: &Front, minutes: u32) -> Option<u64> {
    front.range(..=minutes).next_back().map(|(_, cost)| *cost)
}

/// A batch with every quote looked up once, by stage, task and machine.
struct Planner {
    quotes: Vec<Vec<Vec<Option<Quote>>>>,
}

impl Planner {
    fn new(batch: &Batch) -> Planner {
        let of_task = |work: &u32| batch.lines.iter().map(|line| quote(*line, *work)).collect();
        let of_stage = |works: &Vec<u32>| works.iter().map(of_task).collect();
        let quotes = batch.stages.iter().map(of_stage).collect();
        Planner { quotes }
    }

    fn cells_needed(&self) -> u64 {
        let longest = |stage: &Vec<Vec<Option<Quote>>>| {
            let quotes = stage.iter().flatten().flatten();
            quotes.map(|quote| u64::from(quote.minutes)).max()
        };
        let span: u64 = self.quotes.iter().filter_map(longest).sum();
        (self.quotes.len() as u64 + 1) * (span + 1)
    }

    fn lowest_unquoted(&self) -> Option<usize> {
        let mut tasks = self.quotes.iter().flatten();
        tasks.position(|quotes| quotes.iter().all(Option::is_none))
    }

    /// What a stage costs within each time quoted in it.
    fn stage_front(&self, stage: usize) -> Front {
        let tasks = &self.quotes[stage];
        if tasks.is_empty() {
            return unbeaten([(0, 0)]);
        }
        let quotes = tasks.iter().flatten().flatten();
        let times: BTreeSet<u32> = quotes.map(|quote| quote.minutes).collect();
        let cost_within = |minutes: u32| {
            let cheapest = |task: &Vec<Option<Quote>>| {
                let quotes = task.iter().flatten();
                let fitting = quotes.filter(|quote| quote.minutes <= minutes);
                fitting.map(|quote| quote.cents).min()
            };
            tasks.iter().map(cheapest).sum::<Option<u64>>()
        };
        unbeaten(
            times
                .into_iter()
                .filter_map(|minutes| cost_within(minutes).map(|cost| (minutes, cost))),
        )
    }

    /// The front of the stages from each on, the last without stages.
    fn fronts(&self) -> Vec<Front> {
        let mut fronts = vec![unbeaten([(0, 0)])];
        for stage in (0..self.quotes.len()).rev() {
            let behind = &fronts[fronts.len() - 1];
            let here = self.stage_front(stage);
            let joined = unbeaten(here.iter().flat_map(|(minutes, cost)| {
                behind
                    .iter()
                    .map(move |(length, more)| (minutes + length, cost + more))
            }));
            fronts.push(joined);
        }
        fronts.reverse();
        fronts
    }

    /// The first list of allowances of this sum and cost.
    fn allowances(&self, fronts: &[Front], length: u32, cost: u64) -> Vec<u32> {
        let mut left = length;
        let mut to_pay = cost;
        let mut allowances = Vec::new();
        for stage in 0..self.quotes.len() {
            let here = self.stage_front(stage);
            let last = stage + 1 == self.quotes.len();
            let least = if last { left } else { 0 };
            let (allowance, cost) = (least..=left)
                .filter_map(|minutes| within(&here, minutes).map(|cost| (minutes, cost)))
                .find(|(minutes, cost)| {
                    let rest = within(&fronts[stage + 1], left - minutes);
                    rest.is_some_and(|rest| cost + rest == to_pay)
                })
                .expect("a pair of the front has a list");
            allowances.push(allowance);
            left -= allowance;
            to_pay -= cost;
        }
        allowances
    }

    /// The machine of each task within the allowances: the cheapest, the lowest among equals.
    fn plan(&self, allowances: &[u32]) -> Vec<usize> {
        let mut machines = Vec::new();
        for (tasks, allowance) in self.quotes.iter().zip(allowances) {
            for quotes in tasks {
                let fitting = quotes.iter().enumerate().filter_map(|(machine, quote)| {
                    quote
                        .filter(|quote| quote.minutes <= *allowance)
                        .map(|quote| (quote.cents, machine))
                });
                let (_, machine) = fitting.min().expect("a task of a list has a machine");
                machines.push(machine);
            }
        }
        machines
    }
}

/// The front over all assignments one by one, unless there are too many of them.
fn enumerated_front(planner: &Planner) -> Option<Front> {
    const MOST: usize = 300;
    let mut pairs = vec![(0, 0)];
    for tasks in &planner.quotes {
        let mut stage = vec![(0, 0)];
        for quotes in tasks {
            if stage.len() * quotes.len() > MOST {
                return None;
            }
            let with = |(time, cost): &(u32, u64)| {
                let (time, cost) = (*time, *cost);
                let quoted = quotes.iter().flatten();
                quoted
                    .map(move |quote| (time.max(quote.minutes), cost + quote.cents))
                    .collect::<Vec<_>>()
            };
            stage = stage.iter().flat_map(with).collect();
        }
        if pairs.len() * stage.len() > MOST {
            return None;
        }
        let joined = |(length, cost): &(u32, u64)| {
            let (length, cost) = (*length, *cost);
            stage
                .iter()
                .map(move |(time, more)| (length + time, cost + more))
                .collect::<Vec<_>>()
        };
        pairs = pairs.iter().flat_map(joined).collect();
    }
    Some(unbeaten(pairs))
}

fn limit_lines(
    planner: &Planner,
    found: impl FnOnce(&Front) -> Option<(u32, u64)>,
) -> Result<String, Refusal> {
    if let Some(task) = planner.lowest_unquoted() {
        return Err(carrying(9, task));
    }
    let fronts = planner.fronts();
    let (length, cost) = found(&fronts[0]).ok_or(plain(10))?;
    let machines = planner.plan(&planner.allowances(&fronts, length, cost));
    let mut text = format!("{length} {cost}\n");
    for (task, machine) in machines.iter().enumerate() {
        text += &format!("{task} {machine}\n");
    }
    Ok(text)
}

fn front_of(planner: &Planner) -> Result<Front, Refusal> {
    if planner.cells_needed() > 4_096 {
        return Err(plain(7));
    }
    let front = planner.fronts().swap_remove(0);
    if let Some(enumerated) = enumerated_front(planner) {
        assert_eq!(front, enumerated, "the plain planner is wrong");
    }
    Ok(front)
}

fn answer_lines(bytes: &[u8]) -> Result<String, Refusal> {
    let (batch, question) = read_key(bytes)?;
    let planner = Planner::new(&batch);
    let front = front_of(&planner)?;
    let pair = |(length, cost): (&u32, &u64)| (*length, *cost);
    match question {
        Question::Front => Ok(front
            .iter()
            .map(|(length, cost)| format!("{length} {cost}\n"))
            .collect()),
        Question::Budget(limit) => limit_lines(&planner, |front| {
            let mut pairs = front.iter();
            pairs.find(|(_, cost)| **cost <= u64::from(limit)).map(pair)
        }),
        Question::Deadline(limit) => limit_lines(&planner, |front| {
            front.range(..=limit).next_back().map(pair)
        }),
    }
}

fn answer_text(answer: &Result<String, Refusal>) -> String {
    match answer {
        Ok(lines) => lines.clone(),
        Err(refusal) => match refusal.carried {
            Some(value) => format!("refused {} {value}\n", refusal.number),
            None => format!("refused {}\n", refusal.number),
        },
    }
}

/// Whether two fronts are equal, or the input that a refusal is about with the refusal.
fn verdict(first: &[u8], second: &[u8]) -> Result<bool, (u32, Refusal)> {
    let mine = read_batch(first).map_err(|refusal| (1, refusal))?;
    let yours = read_batch(second).map_err(|refusal| (2, refusal))?;
    let front = |batch| front_of(&Planner::new(batch)).map_err(|refusal| (0, refusal));
    Ok(front(&mine)? == front(&yours)?)
}

fn one_quote(speed: u32, rate: u32, work: u32) -> Result<Option<Quote>, u32> {
    if !work_in_range(work) {
        return Err(3);
    }
    if !line_in_range(speed, rate) {
        return Err(5);
    }
    Ok(quote((speed, rate), work))
}

// Random inputs

#[derive(Clone, Copy)]
enum Shape {
    /// A few machines, stages and tasks, and short times.
    Small,
    /// Numbers over all their range.
    Wide,
    /// Counts at their limits.
    Large,
    /// Cells at their limit.
    Full,
}

fn random_shape(random: &mut Random) -> Shape {
    match random.below(100) {
        0..80 => Shape::Small,
        80..90 => Shape::Wide,
        90..93 => Shape::Large,
        _ => Shape::Full,
    }
}

fn random_line(random: &mut Random, shape: Shape) -> (u32, u32) {
    match shape {
        Shape::Small | Shape::Full => (random.within(1, 20), random.within(0, 3_000)),
        Shape::Wide => {
            let speed = random.within(1, 10_000);
            (speed, random.within(0, 1_000_000))
        }
        Shape::Large => (random.within(9_000, 10_000), random.within(0, 1_000_000)),
    }
}

/// Works whose times on a machine of speed 1 add up to the longest for which there are cells, or one minute more or less.
fn full_stages(random: &mut Random) -> Vec<Vec<u32>> {
    let count = random.one_of(&[3_u32, 7, 15]);
    let sum = 4_096 / (count + 1) - random.within(0, 2);
    let each = sum / count;
    let mut works = vec![vec![each]; count as usize];
    works[0][0] += sum - each * count;
    works
}

fn random_batch(random: &mut Random) -> Batch {
    let shape = random_shape(random);
    let (lines, stages, tasks, work) = match shape {
        Shape::Small => (random.below(6), random.below(5), 4, 200),
        Shape::Wide => (random.below(9), random.below(4), 3, 1_000_000),
        Shape::Large => {
            let work = random.one_of(&[100_000, 1_000_000]);
            (28 + random.below(6), 14 + random.below(4), 32, work)
        }
        Shape::Full => (random.below(3), 0, 0, 0),
    };
    let mut batch = Batch::default();
    for _ in 0..lines {
        batch.lines.push(random_line(random, shape));
    }
    for _ in 0..stages {
        let count = random.below(tasks);
        batch
            .stages
            .push((0..count).map(|_| random.within(1, work)).collect());
    }
    if let Shape::Full = shape {
        batch.lines.push((1, random.within(0, 3_000)));
        batch.stages = full_stages(random);
    }
    batch
}

/// A limit at a point of the front, or next to it, or any.
fn random_limit(random: &mut Random, batch: &Batch, by_cost: bool) -> u32 {
    if random.once_in(4) {
        return random.next() as u32;
    }
    let planner = Planner::new(batch);
    if planner.cells_needed() > 4_096 {
        return random.within(0, 1_000);
    }
    let front = planner.fronts().swap_remove(0);
    let place = random.below(front.len().max(1));
    let (length, cost) = front.iter().nth(place).unwrap_or((&5, &100));
    let limit = if by_cost { *cost as u32 } else { *length };
    (limit + random.within(0, 2)).saturating_sub(1)
}

fn batch_numbers(batch: &Batch) -> Vec<u32> {
    let mut numbers = vec![batch.lines.len() as u32];
    numbers.extend(batch.lines.iter().flat_map(|(speed, rate)| [*speed, *rate]));
    numbers.push(batch.stages.len() as u32);
    for works in &batch.stages {
        numbers.push(works.len() as u32);
        numbers.extend(works);
    }
    numbers
}

fn key_numbers(random: &mut Random) -> Vec<u32> {
    let batch = random_batch(random);
    let mut numbers = batch_numbers(&batch);
    match random.below(3) {
        0 => numbers.push(0),
        1 => numbers.extend([1, random_limit(random, &batch, true)]),
        _ => numbers.extend([2, random_limit(random, &batch, false)]),
    }
    numbers
}

fn spelled(number: u32) -> Vec<u8> {
    let mut bytes = Vec::new();
    let mut left = number;
    while left >= 0x80 {
        bytes.push(0x80 | (left & 0x7F) as u8);
        left >>= 7;
    }
    bytes.push(left as u8);
    bytes
}

/// The number in a form with so many groups more, all 0.
fn padded(number: u32, more: usize) -> Vec<u8> {
    let mut bytes = spelled(number);
    for _ in 0..more {
        let last = bytes.len() - 1;
        bytes[last] |= 0x80;
        bytes.push(0);
    }
    bytes
}

/// The bytes of the numbers, one of them perhaps another number or in a longer form.
fn number_bytes(random: &mut Random, numbers: &[u32], damaged: bool) -> Vec<u8> {
    let mut bytes: Vec<Vec<u8>> = numbers.iter().map(|number| spelled(*number)).collect();
    if damaged {
        let place = random.below(numbers.len());
        bytes[place] = match random.below(3) {
            0 => padded(numbers[place], 1 + random.below(5)),
            1 => {
                let limits = [0, 17, 33, 257, 10_001, 1_000_001, u32::MAX];
                spelled(random.one_of(&limits))
            }
            _ => spelled(
                numbers[place]
                    .wrapping_add(random.within(0, 2))
                    .wrapping_sub(1),
            ),
        };
    }
    bytes.concat()
}

/// Alters, cuts or adds bytes.
fn damage(random: &mut Random, bytes: &mut Vec<u8>) {
    let place = random.below(bytes.len() + 1);
    match random.below(6) {
        0 => {
            if let Some(byte) = bytes.get_mut(place) {
                *byte = random.byte();
            }
        }
        1 => bytes.truncate(place),
        2 => {
            let count = if random.once_in(20) { 1_200 } else { 3 };
            let more = (0..1 + random.below(count)).map(|_| random.byte());
            bytes.extend(more);
        }
        3 => bytes.insert(place, random.byte()),
        4 if place < bytes.len() => {
            bytes.remove(place);
        }
        _ => {
            if let Some(byte) = bytes.get_mut(place) {
                *byte ^= 1 << random.below(8);
            }
        }
    }
}

/// The bytes of the numbers, in half of the cases damaged; seldom any bytes.
fn input_bytes(random: &mut Random, numbers: &[u32], damaged: bool) -> Vec<u8> {
    if !damaged {
        return number_bytes(random, numbers, false);
    }
    match random.below(20) {
        0 => (0..random.below(30)).map(|_| random.byte()).collect(),
        1..8 => number_bytes(random, numbers, true),
        _ => {
            let mut bytes = number_bytes(random, numbers, false);
            for _ in 0..1 + random.below(2) {
                damage(random, &mut bytes);
            }
            bytes
        }
    }
}

/// A batch that has the same front, or one that differs a little.
fn like(random: &mut Random, batch: &Batch) -> Batch {
    let mut other = batch.clone();
    match random.below(5) {
        0 => random.shuffle(&mut other.lines),
        1 => random.shuffle(&mut other.stages),
        2 => other
            .stages
            .iter_mut()
            .for_each(|works| random.shuffle(works)),
        3 => {
            let again = random.below(other.lines.len().max(1));
            if let Some((speed, rate)) = other.lines.get(again).copied() {
                let dearer = (rate + random.within(0, 1)).min(1_000_000);
                other.lines.push((speed, dearer));
            }
        }
        _ => {
            if let Some(work) = other.stages.iter_mut().flatten().next() {
                *work = (*work + random.within(0, 2)).max(2) - 1;
            }
        }
    }
    other
}

fn random_pair(random: &mut Random) -> (Vec<u8>, Vec<u8>) {
    let first = random_batch(random);
    let second = if random.once_in(5) {
        random_batch(random)
    } else {
        like(random, &first)
    };
    let damage_first = random.once_in(8);
    let damage_second = random.once_in(8);
    let first = input_bytes(random, &batch_numbers(&first), damage_first);
    let second = input_bytes(random, &batch_numbers(&second), damage_second);
    (first, second)
}

/// A number near one of these, or in a range, or any.
fn random_number(random: &mut Random, limits: &[u32], usual: u32) -> u32 {
    match random.below(4) {
        0 => (random.one_of(limits).wrapping_add(random.within(0, 2))).wrapping_sub(1),
        1 => random.next() as u32,
        _ => random.within(0, usual),
    }
}

// Memory that is lent

const GUARD: usize = 64;

/// Bytes between guards, all of them random.
struct Lent {
    bytes: Vec<u8>,
    before: Vec<u8>,
}

impl Lent {
    fn holding(random: &mut Random, held: &[u8]) -> Lent {
        let mut bytes = Vec::with_capacity(held.len() + 2 * GUARD);
        bytes.extend((0..GUARD).map(|_| random.byte()));
        bytes.extend_from_slice(held);
        bytes.extend((0..GUARD).map(|_| random.byte()));
        let before = bytes.clone();
        Lent { bytes, before }
    }

    fn of_length(random: &mut Random, length: usize) -> Lent {
        let first = random.byte();
        let held: Vec<u8> = (0..length).map(|place| first ^ place as u8).collect();
        Lent::holding(random, &held)
    }

    fn len(&self) -> usize {
        self.bytes.len() - 2 * GUARD
    }

    fn as_mut_ptr(&mut self) -> *mut u8 {
        self.bytes[GUARD..].as_mut_ptr()
    }

    fn as_ptr(&self) -> *const u8 {
        self.bytes[GUARD..].as_ptr()
    }

    /// Whether these bytes stand at the start, and all else is as it was.
    fn begins_with(&self, text: &[u8]) -> bool {
        let end = GUARD + text.len();
        self.bytes[..GUARD] == self.before[..GUARD]
            && &self.bytes[GUARD..end] == text
            && self.bytes[end..] == self.before[end..]
    }

    fn kept(&self) -> bool {
        self.bytes == self.before
    }
}

/// A number between guards.
struct LentNumber<T> {
    guarded: [T; 5],
    before: [T; 5],
}

impl<T: Copy + PartialEq> LentNumber<T> {
    fn new(guarded: [T; 5]) -> Self {
        LentNumber {
            guarded,
            before: guarded,
        }
    }

    fn as_mut_ptr(&mut self) -> *mut T {
        &raw mut self.guarded[2]
    }

    /// Whether it holds this value, or what it held if there is none, and the guards are as they were.
    fn holds(&self, value: Option<T>) -> bool {
        let mut after = self.before;
        after[2] = value.unwrap_or(after[2]);
        self.guarded == after
    }
}

fn lent_u32(random: &mut Random) -> LentNumber<u32> {
    LentNumber::new([(); 5].map(|()| random.next() as u32))
}

fn lent_u64(random: &mut Random) -> LentNumber<u64> {
    LentNumber::new([(); 5].map(|()| random.next()))
}

fn lent_usize(random: &mut Random) -> LentNumber<usize> {
    LentNumber::new([(); 5].map(|()| random.next() as usize))
}

// Rounds

#[derive(Default)]
struct Tally {
    differences: usize,
    counts: BTreeMap<String, usize>,
}

impl Tally {
    fn count(&mut self, what: &str) {
        match self.counts.get_mut(what) {
            Some(count) => *count += 1,
            None => {
                self.counts.insert(what.to_owned(), 1);
            }
        }
    }

    /// Counts a difference and tells the first few of them.
    fn expect(&mut self, same: bool, what: impl FnOnce() -> String) {
        if !same {
            self.differences += 1;
            if self.differences <= 5 {
                println!("difference: {}", what());
            }
        }
    }
}

fn hex(bytes: &[u8]) -> String {
    bytes.iter().map(|byte| format!("{byte:02X}")).collect()
}

/// The length of the memory for a text: none, too short, just enough, or more.
fn text_room(random: &mut Random, text: usize) -> usize {
    match random.below(8) {
        0 => 0,
        1 => random.below(text.max(1)),
        2 => text.saturating_sub(1),
        3 => text,
        4 if random.once_in(50) => 98_304,
        _ => text + random.below(100),
    }
}

fn answer_round(random: &mut Random, tally: &mut Tally) {
    let numbers = key_numbers(random);
    let damaged = random.once_in(2);
    let bytes = input_bytes(random, &numbers, damaged);
    let answer = answer_lines(&bytes);
    let text = answer_text(&answer).into_bytes();
    match &answer {
        Ok(_) => tally.count("answers"),
        Err(refusal) => tally.count(&format!("answers refused {:2}", refusal.number)),
    }
    let input = Lent::holding(random, &bytes);
    let room = text_room(random, text.len());
    let mut memory = Lent::of_length(random, room);
    let mut written = lent_usize(random);
    // SAFETY: pointers and lengths are those of memory that is lent apart.
    let status = unsafe {
        library::vulzhedor_answer(
            input.as_ptr(),
            input.len(),
            memory.as_mut_ptr(),
            memory.len(),
            written.as_mut_ptr(),
        )
    };
    let same = if text.len() <= room {
        status == DONE && memory.begins_with(&text) && written.holds(Some(text.len()))
    } else {
        tally.count("texts too long");
        status == 8 && memory.kept() && written.holds(None)
    };
    tally.expect(same && input.kept(), || {
        let text = String::from_utf8_lossy(&text);
        let found = String::from_utf8_lossy(&memory.bytes);
        let bytes = hex(&bytes);
        format!(
            "answer to {bytes} in {room} bytes: expected {text:?}, status {status}, memory {found:?}"
        )
    });
}

fn pair_round(random: &mut Random, tally: &mut Tally) {
    let (mine, yours) = random_pair(random);
    let expected = verdict(&mine, &yours);
    let first = Lent::holding(random, &mine);
    let second = Lent::holding(random, &yours);
    let mut equal = lent_u32(random);
    let mut about = lent_u32(random);
    let mut carried = lent_u64(random);
    // SAFETY: pointers and lengths are those of memory that is lent apart.
    let status = unsafe {
        library::vulzhedor_same_bargains(
            first.as_ptr(),
            first.len(),
            second.as_ptr(),
            second.len(),
            equal.as_mut_ptr(),
            about.as_mut_ptr(),
            carried.as_mut_ptr(),
        )
    };
    let same = match &expected {
        Ok(same) => {
            tally.count(if *same {
                "pairs equal"
            } else {
                "pairs different"
            });
            status == DONE
                && equal.holds(Some(u32::from(*same)))
                && about.holds(None)
                && carried.holds(None)
        }
        Err((input, refusal)) => {
            tally.count(&format!("pairs refused {:2}", refusal.number));
            let value = refusal.carried.map_or(u64::MAX, |value| value as u64);
            status == refusal.number
                && equal.holds(None)
                && about.holds(Some(*input))
                && carried.holds(Some(value))
        }
    };
    tally.expect(same && first.kept() && second.kept(), || {
        let (mine, yours) = (hex(&mine), hex(&yours));
        format!("pair {mine} and {yours}: expected {expected:?}, status {status}")
    });
}

fn quote_round(random: &mut Random, tally: &mut Tally) {
    let speed = random_number(random, &[0, 1, 694, 10_000], 1_000);
    let rate = random_number(random, &[0, 60, 1_000_000], 1_000_000);
    let work = random_number(random, &[0, 1, 1_000_000], 1_000_000);
    let expected = one_quote(speed, rate, work);
    let mut minutes = lent_u32(random);
    let mut cents = lent_u64(random);
    // SAFETY: the pointers are those of numbers that are lent apart.
    let status = unsafe {
        library::vulzhedor_quote(speed, rate, work, minutes.as_mut_ptr(), cents.as_mut_ptr())
    };
    let (number, quote) = match expected {
        Ok(Some(quote)) => (DONE, Some(quote)),
        Ok(None) => (NO_QUOTE, None),
        Err(refusal) => (refusal, None),
    };
    tally.count(&format!("quotes {number:3}"));
    let same = status == number
        && minutes.holds(quote.map(|quote| quote.minutes))
        && cents.holds(quote.map(|quote| quote.cents));
    tally.expect(same, || {
        format!("quote {speed} {rate} {work}: expected {expected:?}, status {status}")
    });
}

fn charge_round(random: &mut Random, tally: &mut Tally) {
    let rate = random_number(random, &[0, 60, 1_000_000, u32::MAX], 1_000_000);
    let minutes = random_number(random, &[0, 1, 60, 1_440, u32::MAX], 1_440);
    let expected = charge(rate, minutes);
    let found = library::vulzhedor_charge(rate, minutes);
    tally.count("charges");
    tally.expect(found == expected, || {
        format!("charge {rate} {minutes}: expected {expected}, found {found}")
    });
}

fn run(count: usize, seed: u64) -> ExitCode {
    let mut random = Random::new(seed);
    let mut tally = Tally::default();
    for _ in 0..count {
        answer_round(&mut random, &mut tally);
        pair_round(&mut random, &mut tally);
        quote_round(&mut random, &mut tally);
        charge_round(&mut random, &mut tally);
    }
    for (what, count) in &tally.counts {
        println!("{what}: {count}");
    }
    println!("{count} inputs, {} differences", tally.differences);
    if tally.differences > 0 {
        return ExitCode::FAILURE;
    }
    ExitCode::SUCCESS
}

fn main() -> ExitCode {
    let mut arguments = std::env::args().skip(1);
    let count = arguments.next().map_or(Ok(200_000), |count| count.parse());
    let seed = arguments.next().map_or(Ok(1), |seed| seed.parse());
    match (count, seed, arguments.next()) {
        (Ok(count), Ok(seed), None) => run(count, seed),
        _ => {
            eprintln!("usage: fuzz [COUNT [SEED]]");
            ExitCode::FAILURE
        }
    }
}
