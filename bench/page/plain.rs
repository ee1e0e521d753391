//! What ratebook-largest and ratebook-running do, in plain Rust: `plain RULE <PAGE` prints the
//! listing of a page, or its fault and ends with status 1. The rule is `largest` or `running`.

use std::cmp::Reverse;
use std::io::{self, Read, Write};
use std::ops::RangeInclusive;
use std::process::ExitCode;

const MOST_BYTES: usize = 65_536;
const MOST_RECORDS: usize = 512;
const MOST_GRANTED: u64 = 50_000;
const MOST_CENTS: u64 = 400_000_000_000;

const NUMBER: RangeInclusive<u64> = 1..=9_999;
const LOAD: RangeInclusive<u64> = 0..=20_050_000;
const CENTS: RangeInclusive<u64> = 1..=100_000_000_000;

/// The letters of the pools, in the order in which they are billed.
const POOLS: [u8; 4] = *b"CNST";

#[derive(Clone, Copy)]
enum Rule {
    Largest,
    Running,
}

impl Rule {
    /// The shares of a total by weights, whose sum is not 0.
    fn divide(self, total: u64, weights: &[u64]) -> Vec<u64> {
        let sum: u64 = weights.iter().sum();
        match self {
            Rule::Largest => {
                let mut left = total;
                let mut rests = Vec::with_capacity(weights.len());
                let mut shares: Vec<u64> = weights
                    .iter()
                    .enumerate()
                    .map(|(place, w)| {
                        let product = total * w;
                        let share = product / sum;
                        left -= share;
                        rests.push((Reverse(product % sum), place));
                        share
                    })
                    .collect();
                // The largest remainder first, and of equals the earlier place.
                rests.sort_unstable();
                for &(_, place) in &rests[..left as usize] {
                    shares[place] += 1;
                }
                shares
            }
            Rule::Running => {
                let mut through = 0;
                let mut given = 0;
                weights
                    .iter()
                    .map(|w| {
                        through += w;
                        let quotient = total * through / sum;
                        let share = quotient - given;
                        given = quotient;
                        share
                    })
                    .collect()
            }
        }
    }
}

/// Why a page is refused.
struct Cause {
    layer: &'static str,
    field: usize,
    number: u8,
}

impl Cause {
    fn page(field: usize, number: u8) -> Self {
        Cause {
            layer: "page",
            field,
            number,
        }
    }

    fn line(field: usize, number: u8) -> Self {
        Cause {
            layer: "line",
            field,
            number,
        }
    }

    fn book(number: u8) -> Self {
        Cause {
            layer: "book",
            field: 0,
            number,
        }
    }
}

/// A cause, and the line that it names.
struct Fault {
    line: usize,
    cause: Cause,
}

struct Customer<'a> {
    number: u64,
    name: &'a [u8],
    measured: u64,
    founding: u64,
    conservation: u64,
    retail: u64,
    large: u64,
    resources: u64,
    elected: u64,
    slice: u64,
    mark: u64,
    rhwm: u64,
}

impl Customer<'_> {
    fn founding_weight(&self) -> u64 {
        self.measured.saturating_sub(self.founding) + self.conservation
    }

    fn net_requirement(&self) -> u64 {
        self.retail
            .saturating_sub(self.large)
            .saturating_sub(self.resources)
    }

    fn tier1(&self) -> u64 {
        self.rhwm.min(self.net_requirement())
    }

    fn above(&self) -> u64 {
        self.net_requirement() - self.tier1()
    }

    fn slice_part(&self) -> u64 {
        self.slice.min(self.tier1())
    }

    /// The weight in the pool at a place of `POOLS`.
    fn weight(&self, pool: usize) -> u64 {
        match pool {
            0 => self.tier1(),
            1 => self.tier1() - self.slice_part(),
            2 => self.slice_part(),
            _ => self.elected.min(self.above()),
        }
    }
}

/// A cost line, with the pools whose cost side and credit side it raises.
struct Cost {
    number: u64,
    cost: Option<usize>,
    credit: Option<usize>,
    cents: u64,
}

enum Line<'a> {
    Header {
        total: u64,
        capability: u64,
    },
    Customer(Customer<'a>),
    Cost(Cost),
    Grant {
        customer: u64,
        load: u64,
    },
    Transfer {
        giver: u64,
        receiver: u64,
        load: u64,
    },
}

/// The fields of a line from the second on, read one after the other.
struct Fields<I> {
    parts: I,
    field: usize,
}

impl<'a, I: Iterator<Item = &'a [u8]>> Fields<I> {
    fn next(&mut self) -> &'a [u8] {
        self.field += 1;
        self.parts.next().unwrap_or_default()
    }

    fn refuse(&self, number: u8) -> Cause {
        Cause::line(self.field, number)
    }

    fn figure(&mut self, range: RangeInclusive<u64>) -> Result<u64, Cause> {
        let bytes = self.next();
        let leading_zero = bytes.len() > 1 && bytes[0] == b'0';
        if bytes.is_empty() || leading_zero || !bytes.iter().all(u8::is_ascii_digit) {
            return Err(self.refuse(5));
        }
        let value = bytes.iter().fold(0u64, |value, byte| {
            value
                .saturating_mul(10)
                .saturating_add(u64::from(byte - b'0'))
        });
        if range.contains(&value) {
            Ok(value)
        } else {
            Err(self.refuse(6))
        }
    }

    fn name(&mut self) -> Result<&'a [u8], Cause> {
        let bytes = self.next();
        let lawful = |byte: &u8| (32..=126).contains(byte);
        if (1..=24).contains(&bytes.len()) && bytes.iter().all(lawful) {
            Ok(bytes)
        } else {
            Err(self.refuse(7))
        }
    }

    /// The place of a pool, which is not the other one.
    fn pool(&mut self, other: Option<usize>) -> Result<usize, Cause> {
        let bytes = self.next();
        POOLS
            .iter()
            .position(|letter| bytes == [*letter])
            .filter(|pool| Some(*pool) != other)
            .ok_or_else(|| self.refuse(8))
    }
}

fn read(line: &[u8]) -> Result<Line<'_>, Cause> {
    let mut parts = line.split(|&byte| byte == b',');
    let letter = match parts.next() {
        Some(&[letter]) => letter,
        _ => return Err(Cause::line(0, 3)),
    };
    let count = match letter {
        b'H' | b'G' => 3,
        b'E' | b'R' | b'T' => 4,
        b'A' => 5,
        b'C' => 11,
        _ => return Err(Cause::line(0, 3)),
    };
    if line.iter().filter(|&&byte| byte == b',').count() + 1 != count {
        return Err(Cause::line(0, 4));
    }
    let mut fields = Fields { parts, field: 1 };
    Ok(match letter {
        b'H' => Line::Header {
            total: fields.figure(1..=20_000_000)?,
            capability: fields.figure(0..=20_000_000)?,
        },
        b'C' => Line::Customer(Customer {
            number: fields.figure(NUMBER)?,
            name: fields.name()?,
            measured: fields.figure(0..=2_000_000)?,
            founding: fields.figure(0..=2_000_000)?,
            conservation: fields.figure(0..=500_000)?,
            retail: fields.figure(0..=2_000_000)?,
            large: fields.figure(0..=2_000_000)?,
            resources: fields.figure(0..=2_000_000)?,
            elected: fields.figure(0..=30_000)?,
            slice: fields.figure(0..=2_000_000)?,
            mark: 0,
            rhwm: 0,
        }),
        b'E' => Line::Cost(Cost {
            number: fields.figure(NUMBER)?,
            cost: Some(fields.pool(None)?),
            credit: None,
            cents: fields.figure(CENTS)?,
        }),
        b'R' => Line::Cost(Cost {
            number: fields.figure(NUMBER)?,
            cost: None,
            credit: Some(fields.pool(None)?),
            cents: fields.figure(CENTS)?,
        }),
        b'A' => {
            let number = fields.figure(NUMBER)?;
            let cost = Some(fields.pool(None)?);
            Line::Cost(Cost {
                number,
                cost,
                credit: Some(fields.pool(cost)?),
                cents: fields.figure(CENTS)?,
            })
        }
        b'G' => Line::Grant {
            customer: fields.figure(NUMBER)?,
            load: fields.figure(LOAD)?,
        },
        _ => Line::Transfer {
            giver: fields.figure(NUMBER)?,
            receiver: fields.figure(NUMBER)?,
            load: fields.figure(LOAD)?,
        },
    })
}

struct Book<'a> {
    rule: Rule,
    total: u64,
    capability: u64,
    founded: bool,
    /// In rising order of their numbers.
    customers: Vec<Customer<'a>>,
    /// The customers' numbers in the page's order.
    order: Vec<u64>,
    /// The numbers of the cost lines, in rising order.
    lines: Vec<u64>,
    costs: [u64; 4],
    credits: [u64; 4],
    granted: u64,
    /// By pool, then by place of the customer.
    charges: [Vec<i64>; 4],
}

impl<'a> Book<'a> {
    /// A book with the header that the first line holds.
    fn new(rule: Rule, first: &[u8]) -> Result<Self, Cause> {
        let Line::Header { total, capability } = read(first)? else {
            return Err(Cause::page(1, 10));
        };
        Ok(Book {
            rule,
            total,
            capability,
            founded: false,
            customers: Vec::new(),
            order: Vec::new(),
            lines: Vec::new(),
            costs: [0; 4],
            credits: [0; 4],
            granted: 0,
            charges: Default::default(),
        })
    }

    fn place(&self, number: u64) -> Result<usize, usize> {
        self.customers.binary_search_by_key(&number, |c| c.number)
    }

    /// Does what a line after the first says.
    fn act(&mut self, line: &'a [u8]) -> Result<(), Cause> {
        match read(line)? {
            Line::Header { .. } => Err(Cause::page(1, 10)),
            Line::Customer(_) if self.founded => Err(Cause::page(1, 11)),
            Line::Customer(customer) => self.enter(customer),
            Line::Cost(cost) => {
                self.found()?;
                self.post(cost)
            }
            Line::Grant { customer, load } => {
                self.found()?;
                self.grant(customer, load)
            }
            Line::Transfer {
                giver,
                receiver,
                load,
            } => {
                self.found()?;
                self.transfer(giver, receiver, load)
            }
        }
    }

    fn enter(&mut self, customer: Customer<'a>) -> Result<(), Cause> {
        if self.customers.len() == MOST_RECORDS {
            return Err(Cause::book(20));
        }
        let Err(place) = self.place(customer.number) else {
            return Err(Cause::book(21));
        };
        self.order.push(customer.number);
        self.customers.insert(place, customer);
        Ok(())
    }

    /// Founds the book, unless it is founded.
    fn found(&mut self) -> Result<(), Cause> {
        if self.founded {
            return Ok(());
        }
        let weights: Vec<u64> = self
            .customers
            .iter()
            .map(Customer::founding_weight)
            .collect();
        if weights.iter().all(|w| *w == 0) {
            return Err(Cause::book(23));
        }
        let marks = self.rule.divide(self.total, &weights);
        for (customer, mark) in self.customers.iter_mut().zip(marks) {
            customer.mark = mark;
        }
        self.founded = true;
        Ok(())
    }

    fn post(&mut self, line: Cost) -> Result<(), Cause> {
        if self.lines.len() == MOST_RECORDS {
            return Err(Cause::book(20));
        }
        let Err(place) = self.lines.binary_search(&line.number) else {
            return Err(Cause::book(21));
        };
        let over = |sides: &[u64; 4], pool: Option<usize>| {
            pool.is_some_and(|p| sides[p] + line.cents > MOST_CENTS)
        };
        if over(&self.costs, line.cost) || over(&self.credits, line.credit) {
            return Err(Cause::book(33));
        }
        if let Some(pool) = line.cost {
            self.costs[pool] += line.cents;
        }
        if let Some(pool) = line.credit {
            self.credits[pool] += line.cents;
        }
        self.lines.insert(place, line.number);
        Ok(())
    }

    fn grant(&mut self, customer: u64, load: u64) -> Result<(), Cause> {
        let place = self.place(customer).map_err(|_| Cause::book(25))?;
        if load == 0 {
            return Err(Cause::book(26));
        }
        if self.granted + load > MOST_GRANTED {
            return Err(Cause::book(27));
        }
        self.granted += load;
        self.customers[place].mark += load;
        Ok(())
    }

    fn transfer(&mut self, giver: u64, receiver: u64, load: u64) -> Result<(), Cause> {
        let from = self.place(giver).map_err(|_| Cause::book(25))?;
        if load == 0 {
            return Err(Cause::book(26));
        }
        if load > self.customers[from].mark {
            return Err(Cause::book(29));
        }
        let to = self.place(receiver).map_err(|_| Cause::book(31))?;
        if from == to {
            return Err(Cause::book(32));
        }
        self.customers[from].mark -= load;
        self.customers[to].mark += load;
        Ok(())
    }

    fn close(&mut self) {
        let marks: Vec<u64> = self.customers.iter().map(|c| c.mark).collect();
        let rhwms = self.rule.divide(self.capability, &marks);
        for (customer, rhwm) in self.customers.iter_mut().zip(rhwms) {
            customer.rhwm = rhwm;
        }
    }

    fn cost(&self, pool: usize) -> i64 {
        self.costs[pool] as i64 - self.credits[pool] as i64
    }

    fn bill(&mut self, pool: usize) -> Result<(), Cause> {
        let cost = self.cost(pool);
        if cost == 0 {
            self.charges[pool] = vec![0; self.customers.len()];
            return Ok(());
        }
        let weights: Vec<u64> = self.customers.iter().map(|c| c.weight(pool)).collect();
        if weights.iter().all(|w| *w == 0) {
            return Err(Cause::book(37));
        }
        let shares = self.rule.divide(cost.unsigned_abs(), &weights);
        self.charges[pool] = shares
            .into_iter()
            .map(|share| share as i64 * cost.signum())
            .collect();
        Ok(())
    }

    /// Founds the book if no line did, closes it and bills every pool.
    fn settle(&mut self) -> Result<(), Cause> {
        self.found()?;
        self.close();
        (0..POOLS.len()).try_for_each(|pool| self.bill(pool))
    }

    fn list(&self, out: &mut Vec<u8>) -> io::Result<()> {
        for number in &self.order {
            let place = self.place(*number).expect("every customer listed stands");
            let customer = &self.customers[place];
            write!(out, "{number},")?;
            out.extend_from_slice(customer.name);
            let [c, n, s, t] = [0, 1, 2, 3].map(|pool: usize| self.charges[pool][place]);
            writeln!(
                out,
                ",{},{},{},{c},{n},{s},{t}",
                customer.mark,
                customer.rhwm,
                customer.above()
            )?;
        }
        let sum = |figure: fn(&Customer) -> u64| self.customers.iter().map(figure).sum::<u64>();
        let [c, n, s, t] = [0, 1, 2, 3].map(|pool| self.cost(pool));
        writeln!(
            out,
            "0,SUM,{},{},{},{c},{n},{s},{t}",
            sum(|c| c.mark),
            sum(|c| c.rhwm),
            sum(|c| c.above())
        )
    }
}

/// Takes a page to its closed and billed book.
fn bill_page(rule: Rule, page: &[u8]) -> Result<Book<'_>, Fault> {
    let at = |line| move |cause| Fault { line, cause };
    if page.len() > MOST_BYTES {
        return Err(at(0)(Cause::page(0, 1)));
    }
    let Some((b'\n', body)) = page.split_last() else {
        return Err(at(0)(Cause::page(0, 2)));
    };
    let mut lines = body.split(|&byte| byte == b'\n');
    let mut last = 1;
    let mut book = Book::new(rule, lines.next().unwrap_or_default()).map_err(at(last))?;
    for line in lines {
        last += 1;
        book.act(line).map_err(at(last))?;
    }
    book.settle().map_err(at(last))?;
    Ok(book)
}

fn run(rule: Rule) -> io::Result<ExitCode> {
    let mut page = Vec::new();
    // One byte more than a page may have tells that it is too long.
    io::stdin()
        .lock()
        .take(MOST_BYTES as u64 + 1)
        .read_to_end(&mut page)?;
    let mut out = Vec::new();
    let status = match bill_page(rule, &page) {
        Ok(book) => {
            book.list(&mut out)?;
            ExitCode::SUCCESS
        }
        Err(Fault { line, cause }) => {
            let Cause {
                layer,
                field,
                number,
            } = cause;
            writeln!(out, "F,{layer},{line},{field},{number}")?;
            ExitCode::FAILURE
        }
    };
    io::stdout().write_all(&out)?;
    Ok(status)
}

fn main() -> ExitCode {
    let rule = match std::env::args().nth(1).as_deref() {
        Some("largest") => Rule::Largest,
        Some("running") => Rule::Running,
        _ => {
            eprintln!("usage: plain largest|running <PAGE");
            return ExitCode::from(2);
        }
    };
    run(rule).unwrap_or_else(|error| {
        eprintln!("plain: {error}");
        ExitCode::from(2)
    })
}
