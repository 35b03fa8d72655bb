//! A plain planner for comparison: the same cells, answers and plans as the proved one, without proofs.
//!
//! `plain CASE RUNS` takes the cases of `speed` and prints the same lines. Compiled with `--cfg drops` it goes over a row only
//! for the times at which the stage costs less than before, as the proved planner does; else for all its quoted times.

use std::time::Instant;

const MAX_MINUTES: u32 = 1_440;
const MAX_TASKS: usize = 256;
const STRUCK_BYTE: u8 = 255;
const ONLY_DROPS: bool = cfg!(drops);

// Costs

trait Cost: Copy + Ord {
    const NEUTRAL: Self;

    fn join(self, other: Self) -> Self;

    fn amount(self) -> u64;
}

#[derive(Clone, Copy, PartialEq, Eq, PartialOrd, Ord)]
struct Cents(u64);

impl Cents {
    const GREATEST: u64 = 1_000_000_000_000_000;
}

impl Cost for Cents {
    const NEUTRAL: Cents = Cents(0);

    fn join(self, other: Cents) -> Cents {
        Cents((self.0 + other.0).min(Cents::GREATEST))
    }

    fn amount(self) -> u64 {
        self.0
    }
}

#[derive(Clone, Copy, PartialEq, Eq, PartialOrd, Ord)]
struct Grade(u8);

impl Cost for Grade {
    const NEUTRAL: Grade = Grade(0);

    fn join(self, other: Grade) -> Grade {
        self.max(other)
    }

    fn amount(self) -> u64 {
        u64::from(self.0)
    }
}

// Tariffs

#[derive(Clone, Copy)]
struct Quote<C> {
    minutes: u32,
    cost: C,
}

trait Tariff {
    type Cost: Cost;

    fn machines(&self) -> usize;

    fn quote(&self, machine: usize, work: u32) -> Option<Quote<Self::Cost>>;
}

struct Line {
    speed: u32,
    rate: u32,
}

struct RateCard(Vec<Line>);

impl Tariff for RateCard {
    type Cost = Cents;

    fn machines(&self) -> usize {
        self.0.len()
    }

    fn quote(&self, machine: usize, work: u32) -> Option<Quote<Cents>> {
        let line = self.0.get(machine)?;
        let minutes = work.div_ceil(line.speed);
        if minutes > MAX_MINUTES {
            return None;
        }
        let cost = Cents((u64::from(line.rate) * u64::from(minutes)).div_ceil(60));
        Some(Quote { minutes, cost })
    }
}

struct Row {
    machine: usize,
    work: u32,
    minutes: u32,
    grade: u8,
}

struct QuoteTable(Vec<Row>);

impl Tariff for QuoteTable {
    type Cost = Grade;

    fn machines(&self) -> usize {
        32
    }

    fn quote(&self, machine: usize, work: u32) -> Option<Quote<Grade>> {
        let row = self
            .0
            .iter()
            .find(|row| row.machine == machine && row.work == work)?;
        Some(Quote {
            minutes: row.minutes,
            cost: Grade(row.grade),
        })
    }
}

// Sheets

struct Task {
    stage: usize,
    work: u32,
    struck: bool,
}

struct Sheet {
    stages: usize,
    tasks: Vec<Task>,
}

// The planner

#[derive(Clone, Copy)]
struct Cell<C> {
    reached: bool,
    cost: C,
}

impl<C: Cost> Cell<C> {
    const NOT_REACHED: Cell<C> = Cell {
        reached: false,
        cost: C::NEUTRAL,
    };

    const NOTHING_LEFT: Cell<C> = Cell {
        reached: true,
        cost: C::NEUTRAL,
    };
}

#[derive(Clone, Copy)]
struct Point<C> {
    length: u32,
    cost: C,
}

#[derive(Clone, Copy)]
enum Limit<C> {
    Budget(C),
    Deadline(u32),
}

#[derive(Debug)]
#[allow(dead_code, reason = "the task without a quote is told by Debug alone")]
enum Refusal {
    TooFewCells,
    TooShort,
    Unquoted(usize),
    NoneWithin,
}

/// A sheet with every quote looked up once.
struct Quoted<'a, C> {
    sheet: &'a Sheet,
    machines: usize,
    /// By task and machine.
    quotes: Vec<Option<Quote<C>>>,
    /// By stage: what it costs within the times quoted in it, by rising time.
    stage_costs: Vec<Vec<Quote<C>>>,
    width: usize,
}

impl<'a, C: Cost> Quoted<'a, C> {
    fn new<T: Tariff<Cost = C>>(sheet: &'a Sheet, tariff: &T) -> Self {
        let machines = tariff.machines();
        let quotes = sheet
            .tasks
            .iter()
            .flat_map(|task| (0..machines).map(|machine| tariff.quote(machine, task.work)))
            .collect();
        let mut quoted = Quoted {
            sheet,
            machines,
            quotes,
            stage_costs: Vec::new(),
            width: 1,
        };
        for stage in 0..sheet.stages {
            quoted.add_stage(stage);
        }
        quoted
    }

    fn quotes_of(&self, task: usize) -> &[Option<Quote<C>>] {
        &self.quotes[task * self.machines..(task + 1) * self.machines]
    }

    fn standing_in(&self, stage: usize) -> impl Iterator<Item = usize> + '_ {
        self.sheet
            .tasks
            .iter()
            .enumerate()
            .filter(move |(_, task)| task.stage == stage && !task.struck)
            .map(|(number, _)| number)
    }

    /// Reckons what a stage costs within its times: the tasks' quotes are taken by rising time, and each task keeps
    /// its cheapest so far.
    fn add_stage(&mut self, stage: usize) {
        let mut offers = Vec::new();
        let mut cheapest = Vec::new();
        for (place, task) in self.standing_in(stage).enumerate() {
            let quotes = self.quotes_of(task).iter().flatten();
            offers.extend(quotes.map(|quote| (place, *quote)));
            cheapest.push(None::<C>);
        }
        offers.sort_unstable_by_key(|(_, quote)| quote.minutes);
        let mut costs = Vec::new();
        for group in offers.chunk_by(|(_, a), (_, b)| a.minutes == b.minutes) {
            for (place, quote) in group {
                let best = &mut cheapest[*place];
                *best = Some(best.map_or(quote.cost, |cost| cost.min(quote.cost)));
            }
            let joined = cheapest
                .iter()
                .try_fold(C::NEUTRAL, |sum, cost| cost.map(|cost| sum.join(cost)));
            if let Some(cost) = joined
                && (!ONLY_DROPS || costs.last().is_none_or(|last: &Quote<C>| cost < last.cost))
            {
                let minutes = group[0].1.minutes;
                costs.push(Quote { minutes, cost });
            }
        }
        if cheapest.is_empty() {
            costs.push(Quote {
                minutes: 0,
                cost: C::NEUTRAL,
            });
        }
        self.width += offers.last().map_or(0, |(_, quote)| quote.minutes as usize);
        self.stage_costs.push(costs);
    }

    fn size(&self) -> usize {
        (self.sheet.stages + 1) * self.width
    }

    fn fill(&self, cells: &mut [Cell<C>]) -> Result<(), Refusal> {
        if cells.len() < self.size() {
            return Err(Refusal::TooFewCells);
        }
        let width = self.width;
        let last = self.sheet.stages * width;
        cells[last..last + width].fill(Cell::NOTHING_LEFT);
        for (stage, costs) in self.stage_costs.iter().enumerate().rev() {
            let (row, behind) = cells[stage * width..(stage + 2) * width].split_at_mut(width);
            row.fill(Cell::NOT_REACHED);
            for quote in costs {
                lower(&mut row[quote.minutes as usize..], behind, quote.cost);
            }
        }
        Ok(())
    }

    fn front(&self, cells: &mut [Cell<C>], points: &mut [Point<C>]) -> Result<usize, Refusal> {
        self.fill(cells)?;
        let row = &cells[..self.width];
        let count = drops(row).count();
        if points.len() < count {
            return Err(Refusal::TooShort);
        }
        for (place, point) in points.iter_mut().zip(drops(row)) {
            *place = point;
        }
        Ok(count)
    }

    fn lowest_unquoted(&self) -> Option<usize> {
        (0..self.sheet.tasks.len()).find(|&task| {
            !self.sheet.tasks[task].struck && self.quotes_of(task).iter().all(Option::is_none)
        })
    }

    fn answer(
        &self,
        limit: Limit<C>,
        cells: &mut [Cell<C>],
        plan: &mut [u8],
    ) -> Result<Point<C>, Refusal> {
        if cells.len() < self.size() {
            return Err(Refusal::TooFewCells);
        }
        if plan.len() < self.sheet.tasks.len() {
            return Err(Refusal::TooShort);
        }
        if let Some(task) = self.lowest_unquoted() {
            return Err(Refusal::Unquoted(task));
        }
        self.fill(cells)?;
        let point = best_within(&cells[..self.width], limit).ok_or(Refusal::NoneWithin)?;
        self.write_plan(cells, point, plan);
        Ok(point)
    }

    /// For each stage the least allowance with which the stages behind it still reach the cost. Between two quoted times a
    /// stage costs no less, so only these are tried.
    fn allowances(&self, cells: &[Cell<C>], point: Point<C>) -> Vec<u32> {
        let mut left = point.length;
        let mut spent = C::NEUTRAL;
        let mut allowances = Vec::new();
        for (stage, costs) in self.stage_costs.iter().enumerate() {
            let behind = &cells[(stage + 1) * self.width..][..self.width];
            let chosen = costs
                .iter()
                .take_while(|quote| quote.minutes <= left)
                .find(|quote| {
                    let rest = behind[(left - quote.minutes) as usize];
                    rest.reached && spent.join(quote.cost).join(rest.cost) <= point.cost
                })
                .expect("a point of the first row is reached");
            allowances.push(chosen.minutes);
            left -= chosen.minutes;
            spent = spent.join(chosen.cost);
        }
        allowances
    }

    /// The cheapest machine within the allowance, the lowest among equals.
    fn cheapest(&self, task: usize, allowance: u32) -> Option<usize> {
        self.quotes_of(task)
            .iter()
            .enumerate()
            .filter_map(|(machine, quote)| quote.map(|quote| (machine, quote)))
            .filter(|(_, quote)| quote.minutes <= allowance)
            .min_by_key(|(_, quote)| quote.cost)
            .map(|(machine, _)| machine)
    }

    fn write_plan(&self, cells: &[Cell<C>], point: Point<C>, plan: &mut [u8]) {
        let allowances = self.allowances(cells, point);
        for (number, (byte, task)) in plan.iter_mut().zip(&self.sheet.tasks).enumerate() {
            *byte = if task.struck {
                STRUCK_BYTE
            } else {
                self.cheapest(number, allowances[task.stage])
                    .map_or(STRUCK_BYTE, |machine| machine as u8)
            };
        }
    }
}

/// Lowers each cell to the cost joined to the cell behind it, where that is less.
fn lower<C: Cost>(row: &mut [Cell<C>], behind: &[Cell<C>], cost: C) {
    for (cell, rest) in row.iter_mut().zip(behind) {
        if rest.reached {
            let offer = cost.join(rest.cost);
            if !cell.reached || offer < cell.cost {
                *cell = Cell {
                    reached: true,
                    cost: offer,
                };
            }
        }
    }
}

/// The points of a row: where it gets cheaper.
fn drops<C: Cost>(row: &[Cell<C>]) -> impl Iterator<Item = Point<C>> + '_ {
    (0..row.len())
        .filter(|&minute| {
            let cell = row[minute];
            let before = minute.checked_sub(1).map(|before| row[before]);
            cell.reached && !before.is_some_and(|before| before.reached && before.cost <= cell.cost)
        })
        .map(|minute| Point {
            length: minute as u32,
            cost: row[minute].cost,
        })
}

fn first_within<C: Cost>(row: &[Cell<C>], limit: C) -> Option<Point<C>> {
    let length = row
        .iter()
        .position(|cell| cell.reached && cell.cost <= limit)?;
    Some(Point {
        length: length as u32,
        cost: row[length].cost,
    })
}

fn best_within<C: Cost>(row: &[Cell<C>], limit: Limit<C>) -> Option<Point<C>> {
    match limit {
        Limit::Budget(cost) => first_within(row, cost),
        Limit::Deadline(minutes) => {
            let last = (minutes as usize).min(row.len() - 1);
            let cell = row[last];
            if !cell.reached {
                return None;
            }
            first_within(&row[..=last], cell.cost)
        }
    }
}

fn fill<T: Tariff>(sheet: &Sheet, tariff: &T, cells: &mut [Cell<T::Cost>]) -> Result<(), Refusal> {
    Quoted::new(sheet, tariff).fill(cells)
}

fn front<T: Tariff>(
    sheet: &Sheet,
    tariff: &T,
    cells: &mut [Cell<T::Cost>],
    points: &mut [Point<T::Cost>],
) -> Result<usize, Refusal> {
    Quoted::new(sheet, tariff).front(cells, points)
}

fn answer<T: Tariff>(
    sheet: &Sheet,
    tariff: &T,
    limit: Limit<T::Cost>,
    cells: &mut [Cell<T::Cost>],
    plan: &mut [u8],
) -> Result<Point<T::Cost>, Refusal> {
    Quoted::new(sheet, tariff).answer(limit, cells, plan)
}

// The cases, as in crates/speed/src/cases.rt

struct Sequence {
    state: u32,
}

impl Sequence {
    fn new() -> Sequence {
        Sequence { state: 1 }
    }

    /// The next number from `least` on, one of `count`.
    fn next(&mut self, least: u32, count: u32) -> u32 {
        self.state = self
            .state
            .wrapping_mul(1_664_525)
            .wrapping_add(1_013_904_223);
        least + (self.state >> 8) % count
    }
}

const SLOWEST: u32 = 100;
const ROWS_A_TASK: usize = 4;

#[derive(Clone, Copy)]
struct Shape {
    stages: usize,
    tasks: usize,
    machines: usize,
    longest: u32,
}

impl Shape {
    fn new(stages: usize, tasks: usize, machines: usize, longest: u32) -> Shape {
        Shape {
            stages,
            tasks,
            machines,
            longest,
        }
    }

    fn named(name: &str) -> Option<Shape> {
        match name {
            "usual" => Some(Shape::new(10, 100, 12, 480)),
            "largest" => Some(Shape::new(16, 256, 32, 1_440)),
            "minutes-180" => Some(Shape::new(8, 32, 8, 180)),
            "minutes-360" => Some(Shape::new(8, 32, 8, 360)),
            "minutes-720" => Some(Shape::new(8, 32, 8, 720)),
            "minutes-1440" => Some(Shape::new(8, 32, 8, 1_440)),
            "machines-4" => Some(Shape::new(8, 64, 4, 1_440)),
            "machines-8" => Some(Shape::new(8, 64, 8, 1_440)),
            "machines-16" => Some(Shape::new(8, 64, 16, 1_440)),
            "machines-32" => Some(Shape::new(8, 64, 32, 1_440)),
            _ => None,
        }
    }

    /// Tasks in each stage in turn. The first of a stage takes the longest time on the slowest machine.
    fn sheet(self) -> Sheet {
        let mut sequence = Sequence::new();
        let mut sheet = open_stages(self.stages);
        let most = self.longest * SLOWEST;
        for number in 0..self.tasks {
            let work = if number < self.stages {
                most
            } else {
                sequence.next(most / 10, most / 10 * 9)
            };
            sheet.add(number % self.stages, work);
        }
        sheet
    }

    /// Machines of any speed up to ten times the slowest; the faster, the dearer a unit of work.
    fn card(self) -> RateCard {
        let mut sequence = Sequence::new();
        let lines = (0..self.machines)
            .map(|machine| {
                let speed = if machine == 0 {
                    SLOWEST
                } else {
                    sequence.next(SLOWEST, 9 * SLOWEST)
                };
                let rate = (sequence.next(20, 10) + speed / 20) * speed;
                Line { speed, rate }
            })
            .collect();
        RateCard(lines)
    }
}

impl Sheet {
    fn add(&mut self, stage: usize, work: u32) {
        self.tasks.push(Task {
            stage,
            work,
            struck: false,
        });
    }
}

fn open_stages(stages: usize) -> Sheet {
    Sheet {
        stages,
        tasks: Vec::new(),
    }
}

fn worked_sheet() -> Sheet {
    let mut sheet = open_stages(2);
    for (stage, work) in [(0, 100), (0, 60), (1, 60)] {
        sheet.add(stage, work);
    }
    sheet
}

fn worked_card() -> RateCard {
    RateCard(vec![
        Line {
            speed: 10,
            rate: 600,
        },
        Line {
            speed: 20,
            rate: 1_500,
        },
        Line {
            speed: 60,
            rate: 6_000,
        },
    ])
}

fn table_sheet() -> Sheet {
    let mut sheet = open_stages(8);
    for number in 0..64 {
        sheet.add(number % 8, 1_000 + number as u32);
    }
    sheet
}

fn table_rows() -> QuoteTable {
    let mut sequence = Sequence::new();
    let rows = (0..256)
        .map(|number| {
            let minutes = sequence.next(1, 1_440);
            Row {
                machine: number * 7 % 32,
                work: 1_000 + (number / ROWS_A_TASK) as u32,
                minutes,
                grade: (sequence.next(0, 4) + (1_440 - minutes) / 120) as u8,
            }
        })
        .collect();
    QuoteTable(rows)
}

// Timing, and what was found

fn mixed(sum: u64, number: u64) -> u64 {
    sum.wrapping_mul(31).wrapping_add(number)
}

fn cells_sum<C: Cost>(cells: &[Cell<C>]) -> u64 {
    cells.iter().fold(0, |sum, cell| {
        mixed(mixed(sum, u64::from(cell.reached)), cell.cost.amount())
    })
}

fn points_sum<C: Cost>(points: &[Point<C>]) -> u64 {
    points.iter().fold(0, |sum, point| {
        mixed(mixed(sum, u64::from(point.length)), point.cost.amount())
    })
}

fn plan_sum(plan: &[u8]) -> u64 {
    plan.iter()
        .fold(0, |sum, &machine| mixed(sum, u64::from(machine)))
}

fn quoted_times<C: Cost>(quoted: &Quoted<C>) -> usize {
    (0..quoted.sheet.stages)
        .map(|stage| {
            let mut times: Vec<u32> = quoted
                .standing_in(stage)
                .flat_map(|task| quoted.quotes_of(task).iter().flatten())
                .map(|quote| quote.minutes)
                .collect();
            times.sort_unstable();
            times.dedup();
            times.len()
        })
        .sum()
}

fn print_answer<C: Cost>(question: &str, point: Point<C>, plan: &[u8]) {
    let length = point.length;
    let cost = point.cost.amount();
    let sum = plan_sum(plan);
    println!("{question} {length} {cost}, plan {sum}");
}

/// Runs a step so many times, prints the nanoseconds of one run, and returns what the last one found.
fn time<R>(step: &str, runs: u32, mut run: impl FnMut() -> Result<R, Refusal>) -> R {
    let mut found = None;
    let start = Instant::now();
    for _ in 0..runs {
        found = Some(run().expect("no case is refused"));
    }
    println!("{step} {}", start.elapsed().as_nanos() / u128::from(runs));
    found.expect("there is a run")
}

/// Times each step on a case. The budget and the deadline are those of the middle of the front.
fn time_case<T: Tariff>(runs: u32, sheet: &Sheet, tariff: &T) {
    let quoted = Quoted::new(sheet, tariff);
    let mut cells = vec![Cell::NOT_REACHED; quoted.size()];
    let point = Point {
        length: 0,
        cost: T::Cost::NEUTRAL,
    };
    let mut points = vec![point; quoted.width];
    let mut plan = [0; MAX_TASKS];

    time("fill", runs, || fill(sheet, tariff, &mut cells));
    println!("times {}, span {}", quoted_times(&quoted), quoted.width - 1);
    println!("cells {}", cells_sum(&cells));

    let count = time("answer", runs, || {
        front(sheet, tariff, &mut cells, &mut points)
    });
    println!("front of {count}, points {}", points_sum(&points[..count]));

    let middle = points[count / 2];
    let budget = Limit::Budget(middle.cost);
    let point = time("plan", runs, || {
        answer(sheet, tariff, budget, &mut cells, &mut plan)
    });
    print_answer("budget", point, &plan);

    let deadline = Limit::Deadline(middle.length);
    let point = answer(sheet, tariff, deadline, &mut cells, &mut plan).expect("it is not refused");
    print_answer("deadline", point, &plan);
}

fn main() {
    let arguments: Vec<String> = std::env::args().skip(1).collect();
    let [name, count] = arguments.as_slice() else {
        return println!("usage: plain CASE RUNS");
    };
    let Ok(runs @ 1..) = count.parse::<u32>() else {
        return println!("usage: plain CASE RUNS");
    };
    match name.as_str() {
        "worked" => time_case(runs, &worked_sheet(), &worked_card()),
        "grades" => time_case(runs, &table_sheet(), &table_rows()),
        other => match Shape::named(other) {
            Some(shape) => time_case(runs, &shape.sheet(), &shape.card()),
            None => println!("usage: plain CASE RUNS"),
        },
    }
}
