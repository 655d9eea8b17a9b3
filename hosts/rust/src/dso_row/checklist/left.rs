//! Point 5, of a set alone: what each length left.

use crate::lengths::{all_of_degree, Left};
use dohvrin::Order;
use std::io::{self, Write};

/// A line for each length; of a row that is not that of a set there is none.
pub fn write(out: &mut impl Write, order: &Order, left: &[Left]) -> io::Result<()> {
    if left.is_empty() {
        return Ok(());
    }
    let all = all_of_degree(order).len();
    writeln!(out, "\n5. What each length left, of {all} polynomials")?;
    for Left { bits, first, who } in left {
        let unseen = match *first == order.d() {
            true => format!("nothing undetected below {first}"),
            false => format!("first undetected weight {first}"),
        };
        writeln!(out, "   length {bits}: {unseen}, {} left", who.len())?;
    }
    Ok(())
}
