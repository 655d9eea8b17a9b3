//! Any orders with the tables that `dso` lends: how long the slowest takes.

use crate::grouped;
use crate::turns::{shown, time};
use dohvrin::{Order, Refusal, Tables};

/// Times so many orders as they are drawn, and as many with the greatest length
/// and degree, and prints the slowest of either kind.
pub fn slowest(orders: usize) {
    println!("\nAny orders with the tables that `dso` lends, 512 events and 2,048 paths:\n");
    println!("| | orders | median | slowest | its order |");
    println!("|---|---|---|---|---|");
    row("any", orders, draw);
    row("N=128 · m=12", orders, |random| {
        let drawn = draw(random);
        let (v, d) = (drawn.v(), drawn.d());
        Order::new(drawn.generators(), v, 128, 12, d).expect("a right order")
    });
}

fn row(name: &str, orders: usize, draw: fn(&mut Random) -> Order) {
    let mut random = Random(1);
    let mut tables = Tables::with_entries(512, 2048);
    let mut times: Vec<(f64, Order)> = (0..orders)
        .map(|_| {
            let order = draw(&mut random);
            (time(|| tables.search(&order)).0, order)
        })
        .collect();
    times.sort_by(|one, other| one.0.total_cmp(&other.0));
    let (median, (most, order)) = (times[orders / 2].0, &times[orders - 1]);
    let octal: Vec<String> = order
        .generators()
        .iter()
        .map(|g| format!("{g:o}"))
        .collect();
    println!(
        "| {name} | {} | {} | {} | {} · N={} · m={} · d={} |",
        grouped(orders),
        shown(median),
        shown(*most),
        octal.join(", "),
        order.bits(),
        order.m(),
        order.d()
    );
}

/// A right order: all values may come, low thresholds more often, since tables
/// of this size hold little more.
fn draw(random: &mut Random) -> Order {
    let v = random.within(1, 8);
    let bits = random.within(v.max(2), 128);
    let m = random.within(1, 12.min(bits - 1));
    let most = random.within(1, 64);
    let d = random.within(1, most);
    let n = random.within(2, 4) as usize;
    loop {
        let mut generators: Vec<u64> = (0..n).map(|_| random.within(1, (2 << v) - 1)).collect();
        generators[0] |= 1 << v;
        generators[n - 1] |= 1;
        match Order::new(&generators, v, bits, m, d) {
            Err(Refusal::SharedFactor) => continue,
            order => return order.expect("a right order"),
        }
    }
}

/// The same numbers in every run (splitmix64).
struct Random(u64);

impl Random {
    fn within(&mut self, low: u64, high: u64) -> u64 {
        self.0 = self.0.wrapping_add(0x9E37_79B9_7F4A_7C15);
        let mut x = self.0;
        x = (x ^ x >> 30).wrapping_mul(0xBF58_476D_1CE4_E5B9);
        x = (x ^ x >> 27).wrapping_mul(0x94D0_49BB_1331_11EB);
        low + (x ^ x >> 31) % (high - low + 1)
    }
}
