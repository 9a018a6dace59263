//! Each node's balance, in numbers and as a bar.

use super::markup::{direction, scrolling, table};
use crate::book::{Balance, CYCLE};
use crate::text::count;

/// The length of the longest bar, and the height of each.
const LONGEST: f64 = 240.0;
const HEIGHT: f64 = 14.0;

/// What a balance does not say.
const NOT_FOR_SALE: &str =
    "<p class=\"warning\"><strong>Free slots of a node are not what is left \
    to sell.</strong> A stream needs free slots along its whole route, one after the other, and \
    none in which its hop would clash with a hop nearby. <code>lindurask quote</code> says what \
    can be had between two nodes.</p>\n";

/// The balances of all nodes, with a warning against reading them as stock.
pub fn bars(balances: &[Balance]) -> String {
    let most = balances.iter().map(|balance| balance.data).max().unwrap_or(0).max(1);
    let rows = balances
        .iter()
        .enumerate()
        .map(|(node, balance)| line(node, balance, most))
        .collect::<String>();
    let caption = format!(
        "Slots in a cycle of {CYCLE} tiles. The full part of a bar is used, the empty part free."
    );
    let columns = ["Node", "Data", "Used", "Free", "Used and free"];
    let body = table("balances", &caption, &columns, &rows);
    format!("{NOT_FOR_SALE}{}", scrolling("Table of balances", "", &body))
}

fn line(node: usize, balance: &Balance, most: u32) -> String {
    let Balance { data, used, free } = balance;
    format!(
        "<tr><th scope=\"row\">{node}</th><td class=\"number\">{data}</td>\
         <td class=\"number\">{used}</td><td class=\"number\">{free}</td>\
         <td class=\"bar\">{}</td></tr>\n",
        bar(balance, most)
    )
}

/// A bar as long as the node's data slots, filled as far as they are used.
fn bar(balance: &Balance, most: u32) -> String {
    let long = |slots: u32| direction(LONGEST * f64::from(slots) / f64::from(most));
    let label = format!("{} used, {} free", count(balance.used, "slot"), balance.free);
    format!(
        "<svg viewBox=\"-1 -1 {} {}\" role=\"img\" aria-label=\"{label}\">\
         <rect class=\"free\" width=\"{}\" height=\"{HEIGHT}\"/>\
         <rect class=\"used\" width=\"{}\" height=\"{HEIGHT}\"/></svg>",
        LONGEST + 2.0,
        HEIGHT + 2.0,
        long(balance.data),
        long(balance.used)
    )
}

#[cfg(test)]
mod tests {
    use super::*;

    #[test]
    fn a_bar_is_filled_as_far_as_it_is_used() {
        let drawn = bars(&[
            Balance { data: 250, used: 50, free: 200 },
            Balance { data: 250, used: 0, free: 250 },
        ]);
        let cell = |slots: u32| format!("<td class=\"number\">{slots}</td>");
        assert!(drawn.contains(&[250, 50, 200].map(cell).concat()));
        let part = |class: &str, long: u32| {
            format!("<rect class=\"{class}\" width=\"{long}\" height=\"14\"/>")
        };
        assert!(drawn.contains(&(part("free", 240) + &part("used", 48))));
        assert!(drawn.contains("aria-label=\"50 slots used, 200 free\""));
        assert!(drawn.contains("<rect class=\"used\" width=\"0\" height=\"14\"/>"));
    }

    #[test]
    fn a_plan_without_data_slots_has_empty_bars() {
        let drawn = bars(&[Balance { data: 0, used: 0, free: 0 }]);
        assert!(drawn.contains("<rect class=\"free\" width=\"0\" height=\"14\"/>"));
    }

    #[test]
    fn free_is_not_called_what_is_left_to_sell() {
        assert!(bars(&[]).contains("Free slots of a node are not what is left to sell."));
    }
}
