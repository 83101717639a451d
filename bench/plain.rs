// The program `ram` in plain Rust, without contracts and proofs: reads a run
// sheet from standard input and prints its page. It is here to be timed beside
// the proved program (bench/run.py) and prints the same bytes for every sheet.
//
//     rustc --edition 2021 -O -o plain bench/plain.rs && ./plain < sheets/year.sheet
//
// All numbers fit u64: a volume stays below 10^14 times a fraction below 2^16,
// or times a concentration of at most 20,000, and totals stay below 10^18.

use std::fmt::{self, Write as _};
use std::io::{self, Read, Write as _};

const LONGEST_SHEET: usize = 65_536;
const LONGEST_LINE: usize = 200;
const LONGEST_NUMBER: usize = 9;
const MOST_NUMBERS: usize = 21;

const LARGEST_NUMBER: u64 = 256;
const NODE_CELLS: usize = 64;
const MOST_INCOME: u64 = 1_000_000_000_000_000_000;
const CAPACITY: u64 = 100_000_000_000_000;
const WHOLE: u64 = 65_536;
const GRAM: u64 = 10_000_000;

/// Why a line is refused.
struct Refusal {
    layer: u64,
    cause: u64,
    place: u64,
}

const fn refusal(layer: u64, cause: u64) -> Refusal {
    Refusal {
        layer,
        cause,
        place: 0,
    }
}

const BAD_FORM: Refusal = refusal(1, 13);
const OUT_OF_TURN: Refusal = refusal(1, 14);
const NO_SUCH_NUMBER: Refusal = refusal(2, 6);
const OPEN: Refusal = refusal(2, 7);
const WITHDRAWN: Refusal = refusal(2, 8);
const NO_CELL: Refusal = refusal(2, 9);
const TOO_MUCH: Refusal = refusal(2, 10);
const NEW: Refusal = refusal(2, 11);
const BAD_AREAS: Refusal = refusal(3, 1);
const BAD_SOIL: Refusal = refusal(3, 2);
const BAD_CONCENTRATION: Refusal = refusal(3, 3);
const BAD_FORCING: Refusal = refusal(3, 12);

fn bad_settings(place: usize) -> Refusal {
    Refusal {
        layer: 4,
        cause: 4,
        place: place as u64 + 1,
    }
}

fn too_full(place: usize) -> Refusal {
    Refusal {
        layer: 4,
        cause: 5,
        place: place as u64 + 1,
    }
}

// Reservoirs

#[derive(Clone, Copy)]
struct Linear {
    a: u64,
    b: u64,
    storage: u64,
}

impl Linear {
    fn new(a: u64, b: u64) -> Option<Linear> {
        (a <= b && b < WHOLE).then_some(Linear { a, b, storage: 0 })
    }

    fn take(&mut self, inflow: u64) -> u64 {
        let old = self.storage;
        self.storage = (self.a * old + self.b * inflow) / WHOLE;
        old + inflow - self.storage
    }
}

/// What stands in one of the six places of a node.
enum Reservoir {
    Single(Linear),
    /// A linear reservoir and what it gave in the step before.
    Lagged(Linear, u64),
    Double(Linear, Linear),
}

impl Reservoir {
    fn held(&self) -> u64 {
        match self {
            Reservoir::Single(linear) => linear.storage,
            Reservoir::Lagged(linear, late) => linear.storage + late,
            Reservoir::Double(first, second) => first.storage + second.storage,
        }
    }

    fn take(&mut self, inflow: u64) -> u64 {
        match self {
            Reservoir::Single(linear) => linear.take(inflow),
            Reservoir::Lagged(linear, late) => std::mem::replace(late, linear.take(inflow)),
            Reservoir::Double(first, second) => second.take(first.take(inflow)),
        }
    }
}

const SEWER: usize = 2;
const SLOW: usize = 5;

fn reservoir(place: usize, a: u64, b: u64) -> Result<Reservoir, Refusal> {
    let linear = Linear::new(a, b).ok_or(bad_settings(place))?;
    Ok(match place {
        SEWER => Reservoir::Lagged(linear, 0),
        SLOW => Reservoir::Double(linear, linear),
        _ => Reservoir::Single(linear),
    })
}

fn reservoirs(settings: &[u64]) -> Result<[Reservoir; 6], Refusal> {
    let at = |place: usize| reservoir(place, settings[2 * place], settings[2 * place + 1]);
    Ok([at(0)?, at(1)?, at(2)?, at(3)?, at(4)?, at(5)?])
}

// Cards

#[derive(Clone, Copy)]
struct Areas {
    open: u64,
    paved: u64,
    sewer: u64,
    unpaved: u64,
}

impl Areas {
    fn hard(&self) -> u64 {
        self.open + self.paved + self.sewer
    }

    fn total(&self) -> u64 {
        self.hard() + self.unpaved
    }

    fn fit(&self) -> bool {
        (1..=100_000_000).contains(&self.total())
    }
}

#[derive(Clone, Copy)]
struct Soil {
    wilting_point: u64,
    field_capacity: u64,
    saturation: u64,
    infiltration_limit: u64,
    percolation_limit: u64,
    depression_limit: u64,
    crop_factor: u64,
    slow_share: u64,
}

impl Soil {
    fn fits(&self) -> bool {
        self.wilting_point <= self.field_capacity
            && self.field_capacity < self.saturation
            && self.saturation <= 200_000
            && self.infiltration_limit <= 100_000
            && self.depression_limit <= 100_000
            && self.percolation_limit <= self.saturation - self.field_capacity
            && self.crop_factor <= 200
            && self.slow_share <= 100
    }
}

type Concentrations = [[u64; 3]; 7];

fn concentrations(numbers: &[u64]) -> Concentrations {
    let mut flows = [[0; 3]; 7];
    for (flow, three) in flows.iter_mut().zip(numbers.chunks(3)) {
        flow.copy_from_slice(three);
    }
    flows
}

fn check_card(areas: &Areas, soil: &Soil, concentrations: &Concentrations) -> Result<(), Refusal> {
    if !areas.fit() {
        return Err(BAD_AREAS);
    }
    if !soil.fits() {
        return Err(BAD_SOIL);
    }
    if concentrations
        .iter()
        .flatten()
        .any(|&amount| amount > 20_000)
    {
        return Err(BAD_CONCENTRATION);
    }
    Ok(())
}

// Nodes

struct Forcing {
    rain: u64,
    evaporation: u64,
    seepage: i64,
}

impl Forcing {
    fn check(&self) -> Result<(), Refusal> {
        let fits = self.rain <= 100_000
            && self.evaporation <= 10_000
            && (-10_000..=10_000).contains(&self.seepage);
        if fits {
            Ok(())
        } else {
            Err(BAD_FORCING)
        }
    }

    fn rising(&self) -> u64 {
        self.seepage.max(0) as u64
    }

    fn sinking(&self) -> u64 {
        (-self.seepage).max(0) as u64
    }
}

struct Node {
    areas: Areas,
    soil: Soil,
    concentrations: Concentrations,
    reservoirs: [Reservoir; 6],
    moisture: u64,
    depression: u64,
}

/// What a step does to the ground, before any reservoir has been asked.
struct Plan {
    moisture: u64,
    depression: u64,
    inflows: [u64; 6],
    rain: u64,
    rising: u64,
    evaporated: u64,
    sunk: u64,
}

impl Node {
    fn plan(&self, forcing: &Forcing) -> Plan {
        let (areas, soil) = (&self.areas, &self.soil);
        let span = soil.saturation - soil.field_capacity;

        let from_hard = forcing.rain.min(125 * forcing.evaporation / 100);
        let off_hard = forcing.rain - from_hard;

        let on_top = forcing.rain + self.depression;
        let room = soil.saturation - self.moisture + soil.percolation_limit;
        let infiltrated = on_top.min(soil.infiltration_limit).min(room);
        let depression = (on_top - infiltrated).min(soil.depression_limit);
        let excess = on_top - infiltrated - depression;
        let mut moisture = self.moisture + infiltrated;

        let demand = soil.crop_factor * forcing.evaporation / 100;
        let transpired = demand.min(moisture.saturating_sub(soil.wilting_point));
        moisture -= transpired;

        let above = moisture.saturating_sub(soil.field_capacity).min(span);
        let percolated = soil.percolation_limit * above / span;
        moisture -= percolated;

        let sunken = forcing
            .sinking()
            .min(moisture.saturating_sub(soil.field_capacity));
        moisture -= sunken;

        let ground = percolated * areas.unpaved;
        let slow = soil.slow_share * ground / 100;
        Plan {
            moisture,
            depression,
            inflows: [
                off_hard * areas.open,
                off_hard * areas.paved,
                off_hard * areas.sewer,
                excess * areas.unpaved,
                ground - slow,
                slow,
            ],
            rain: forcing.rain * areas.total(),
            rising: forcing.rising() * areas.total(),
            evaporated: from_hard * areas.hard() + transpired * areas.unpaved,
            sunk: sunken * areas.unpaved,
        }
    }

    fn ask(&self, inflows: &[u64; 6]) -> Result<(), Refusal> {
        for (place, (reservoir, inflow)) in self.reservoirs.iter().zip(inflows).enumerate() {
            if reservoir.held() + inflow > CAPACITY {
                return Err(too_full(place));
            }
        }
        Ok(())
    }

    /// The seven flows.
    fn take(&mut self, plan: &Plan) -> [u64; 7] {
        self.moisture = plan.moisture;
        self.depression = plan.depression;
        let mut flows = [0; 7];
        for (place, inflow) in plan.inflows.iter().enumerate() {
            flows[place] = self.reservoirs[place].take(*inflow);
        }
        flows[6] = plan.rising;
        flows
    }

    fn storage(&self) -> u64 {
        let held: u64 = self.reservoirs.iter().map(Reservoir::held).sum();
        held + (self.moisture + self.depression) * self.areas.unpaved
    }
}

// The district

#[derive(Default, Clone, Copy)]
struct Mass {
    grams: u64,
    rest: u64,
}

impl Mass {
    fn add(&mut self, load: u64) {
        let sum = self.rest + load;
        self.grams += sum / GRAM;
        self.rest = sum % GRAM;
    }
}

#[derive(Default)]
struct Book {
    rain: u64,
    rise: u64,
    brought_in: u64,
    evaporated: u64,
    discharged: u64,
    sunk: u64,
    ceded: u64,
    masses: [Mass; 3],
}

impl Book {
    fn check_income(&self, more: u64) -> Result<(), Refusal> {
        if self.rain + self.rise + self.brought_in + more > MOST_INCOME {
            return Err(TOO_MUCH);
        }
        Ok(())
    }
}

#[derive(Clone, Copy)]
enum Mark {
    New,
    Open(usize), // its cell
    Withdrawn,
}

struct District {
    marks: Vec<Mark>,         // by number, from 0, which is no node's
    cells: Vec<Option<Node>>, // the nodes that are open
    book: Book,
}

impl District {
    fn new() -> District {
        District {
            marks: vec![Mark::New; LARGEST_NUMBER as usize + 1],
            cells: (0..NODE_CELLS).map(|_| None).collect(),
            book: Book::default(),
        }
    }

    fn mark(&self, number: u64) -> Result<Mark, Refusal> {
        if !(1..=LARGEST_NUMBER).contains(&number) {
            return Err(NO_SUCH_NUMBER);
        }
        Ok(self.marks[number as usize])
    }

    /// The cell of an open number.
    fn cell(&self, number: u64) -> Result<usize, Refusal> {
        match self.mark(number)? {
            Mark::New => Err(NEW),
            Mark::Withdrawn => Err(WITHDRAWN),
            Mark::Open(cell) => Ok(cell),
        }
    }

    fn open(&mut self, number: u64, node: Node) -> Result<u64, Refusal> {
        match self.mark(number)? {
            Mark::Open(_) => return Err(OPEN),
            Mark::Withdrawn => return Err(WITHDRAWN),
            Mark::New => {}
        }
        let cell = self.cells.iter().position(Option::is_none).ok_or(NO_CELL)?;
        let brought_in = node.storage();
        self.book.check_income(brought_in)?;
        self.book.brought_in += brought_in;
        self.cells[cell] = Some(node);
        self.marks[number as usize] = Mark::Open(cell);
        Ok(brought_in)
    }

    fn step(&mut self, number: u64, forcing: &Forcing) -> Result<[u64; 7], Refusal> {
        let cell = self.cell(number)?;
        forcing.check()?;
        let node = self.cells[cell]
            .as_mut()
            .expect("an open number has a node");
        let plan = node.plan(forcing);
        node.ask(&plan.inflows)?;
        self.book.check_income(plan.rain + plan.rising)?;
        let flows = node.take(&plan);
        self.book.rain += plan.rain;
        self.book.rise += plan.rising;
        self.book.evaporated += plan.evaporated;
        self.book.discharged += flows.iter().sum::<u64>();
        self.book.sunk += plan.sunk;
        for (nutrient, mass) in self.book.masses.iter_mut().enumerate() {
            let carried = flows.iter().zip(&node.concentrations);
            mass.add(
                carried
                    .map(|(flow, amounts)| flow * amounts[nutrient])
                    .sum(),
            );
        }
        Ok(flows)
    }

    fn withdraw(&mut self, number: u64) -> Result<u64, Refusal> {
        let cell = self.cell(number)?;
        let node = self.cells[cell].take().expect("an open number has a node");
        self.marks[number as usize] = Mark::Withdrawn;
        let ceded = node.storage();
        self.book.ceded += ceded;
        Ok(ceded)
    }

    fn storage(&self) -> u64 {
        self.cells.iter().flatten().map(Node::storage).sum()
    }
}

// Lines

/// The letter of a line and its numbers; of step lines the seepage's sign too.
struct Words {
    letter: u8,
    numbers: [u64; MOST_NUMBERS],
    count: usize,
    negative: bool,
}

fn count_of(letter: u8) -> Option<usize> {
    match letter {
        b'o' => Some(5),
        b'g' => Some(8),
        b'k' => Some(12),
        b'c' => Some(21),
        b's' => Some(4),
        b'w' => Some(1),
        b'r' => Some(0),
        _ => None,
    }
}

fn parse_number(text: &[u8]) -> Option<u64> {
    if text.is_empty() || text.len() > LONGEST_NUMBER || (text[0] == b'0' && text.len() > 1) {
        return None;
    }
    text.iter().try_fold(0, |number, byte| {
        byte.is_ascii_digit()
            .then(|| 10 * number + u64::from(byte - b'0'))
    })
}

fn parse_line(line: &[u8]) -> Option<Words> {
    let mut texts = line.split(|&byte| byte == b' ');
    let &[letter] = texts.next()? else {
        return None;
    };
    let count = count_of(letter)?;
    let mut words = Words {
        letter,
        numbers: [0; MOST_NUMBERS],
        count,
        negative: false,
    };
    for place in 0..count {
        let mut text = texts.next()?;
        if letter == b's' && place == 3 && text.starts_with(b"-") {
            words.negative = true;
            text = &text[1..];
        }
        words.numbers[place] = parse_number(text)?;
        if words.negative && words.numbers[place] == 0 {
            return None;
        }
    }
    texts.next().is_none().then_some(words)
}

// The run

/// How far the card is that is being made.
enum Making {
    Nothing,
    Begun(u64, Areas),
    Grounded(u64, Areas, Soil),
    Piped(u64, Areas, Soil, [Reservoir; 6]),
}

struct Run {
    district: District,
    making: Making,
    page: String,
}

impl Run {
    fn new() -> Run {
        Run {
            district: District::new(),
            making: Making::Nothing,
            page: String::new(),
        }
    }

    fn line(&mut self, line_number: usize, line: &[u8]) {
        if line.len() <= LONGEST_LINE && (line.is_empty() || line[0] == b'#') {
            return;
        }
        // a refused line leaves no half-made card: what follows puts back what is
        let making = std::mem::replace(&mut self.making, Making::Nothing);
        if let Err(refusal) = self.obey(making, line) {
            self.refuse(line_number, refusal);
        }
    }

    fn obey(&mut self, making: Making, line: &[u8]) -> Result<(), Refusal> {
        if line.len() > LONGEST_LINE {
            return Err(BAD_FORM);
        }
        let words = parse_line(line).ok_or(BAD_FORM)?;
        let numbers = &words.numbers[..words.count];
        match (words.letter, making) {
            (b'o', Making::Nothing) => {
                let areas = Areas {
                    open: numbers[1],
                    paved: numbers[2],
                    sewer: numbers[3],
                    unpaved: numbers[4],
                };
                self.making = Making::Begun(numbers[0], areas);
            }
            (b'g', Making::Begun(number, areas)) => {
                let soil = Soil {
                    wilting_point: numbers[0],
                    field_capacity: numbers[1],
                    saturation: numbers[2],
                    infiltration_limit: numbers[3],
                    percolation_limit: numbers[4],
                    depression_limit: numbers[5],
                    crop_factor: numbers[6],
                    slow_share: numbers[7],
                };
                self.making = Making::Grounded(number, areas, soil);
            }
            (b'k', Making::Grounded(number, areas, soil)) => {
                self.making = Making::Piped(number, areas, soil, reservoirs(numbers)?);
            }
            (b'c', Making::Piped(number, areas, soil, reservoirs)) => {
                let concentrations = concentrations(numbers);
                check_card(&areas, &soil, &concentrations)?;
                let moisture = soil.field_capacity;
                let node = Node {
                    areas,
                    soil,
                    concentrations,
                    reservoirs,
                    moisture,
                    depression: 0,
                };
                let brought_in = self.district.open(number, node)?;
                self.print(format_args!("O {number} {brought_in}"));
            }
            (b's', Making::Nothing) => {
                let depth = numbers[3] as i64;
                let seepage = if words.negative { -depth } else { depth };
                let forcing = Forcing {
                    rain: numbers[1],
                    evaporation: numbers[2],
                    seepage,
                };
                let [a, b, c, d, e, f, g] = self.district.step(numbers[0], &forcing)?;
                self.print(format_args!("S {} {a} {b} {c} {d} {e} {f} {g}", numbers[0]));
            }
            (b'w', Making::Nothing) => {
                let ceded = self.district.withdraw(numbers[0])?;
                self.print(format_args!("W {} {ceded}", numbers[0]));
            }
            (b'r', Making::Nothing) => self.read(),
            _ => return Err(OUT_OF_TURN),
        }
        Ok(())
    }

    fn read(&mut self) {
        let storage = self.district.storage();
        let Book {
            rain,
            rise,
            brought_in,
            evaporated,
            discharged,
            sunk,
            ceded,
            masses,
        } = self.district.book;
        let [ammonium, nitrate, phosphor] = masses.map(|mass| mass.grams);
        self.print(format_args!(
            "B {rain} {rise} {brought_in} {evaporated} {discharged} {sunk} {ceded} {storage} \
             {ammonium} {nitrate} {phosphor}"
        ));
    }

    fn refuse(&mut self, line_number: usize, refusal: Refusal) {
        let Refusal {
            layer,
            cause,
            place,
        } = refusal;
        self.print(format_args!("X {line_number} {layer} {cause} {place}"));
    }

    fn end(&mut self, last_line: usize) {
        if !matches!(self.making, Making::Nothing) {
            self.refuse(last_line + 1, OUT_OF_TURN);
        }
    }

    fn print(&mut self, line: fmt::Arguments) {
        writeln!(self.page, "{line}").expect("a string takes every line");
    }
}

fn page(sheet: &[u8]) -> String {
    let mut run = Run::new();
    if sheet.len() > LONGEST_SHEET {
        run.refuse(0, BAD_FORM);
        return run.page;
    }
    let mut last_line = 0;
    if !sheet.is_empty() {
        let lines = sheet.strip_suffix(b"\n").unwrap_or(sheet);
        for line in lines.split(|&byte| byte == b'\n') {
            last_line += 1;
            run.line(last_line, line);
        }
    }
    run.end(last_line);
    run.page
}

fn main() -> io::Result<()> {
    let mut sheet = Vec::new();
    io::stdin()
        .lock()
        .take(LONGEST_SHEET as u64 + 1)
        .read_to_end(&mut sheet)?;
    io::stdout().lock().write_all(page(&sheet).as_bytes())
}
