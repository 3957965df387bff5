//! A floor as a linear program in the CPLEX layout: its optimum is what any flow can
//! carry. Variable x I E is commodity I's amount on arc E from tail to head, y I E that
//! from head to tail, if E is reversible, and u I V its use of the limited node V.

use crate::network::{Arc, Commodity, Network};

/// As the papers have it, or wrongly: a reversible belt has a capacity for each
/// direction, as two opposite belts have; a station's limit does not count the pairs
/// that start or end there; what enters and what leaves a station both count.
#[derive(Clone, Copy, PartialEq)]
pub enum Reading {
    Right,
    Apart,
    Passing,
    Twice,
}

/// The variables of an arc for a commodity, the forward one first.
fn variables(i: usize, e: usize, arc: &Arc) -> Vec<String> {
    let backward = arc.reversible().then(|| format!("y{i}_{e}"));
    std::iter::once(format!("x{i}_{e}")).chain(backward).collect()
}

/// What leaves a node less what enters it, of one commodity.
fn net_out(net: &Network, i: usize, node: u64) -> String {
    let mut terms = String::new();
    for (e, arc) in net.arcs.iter().enumerate() {
        for (variable, from) in variables(i, e, arc).iter().zip([arc.tail, arc.head]) {
            if [arc.tail, arc.head].contains(&node) {
                let sign = if from == node { '+' } else { '-' };
                terms += &format!(" {sign} {variable}");
            }
        }
    }
    terms
}

pub fn written(net: &Network, reading: Reading) -> String {
    let pairs = || net.commodities.iter().enumerate();
    let mut total: String = pairs().map(|(i, pair)| net_out(net, i, pair.source)).collect();
    if total.is_empty() {
        total += " 0 x0_0";
    }
    let mut text = format!("Maximize\n total:{total}\nSubject To\n");
    text.extend(pairs().map(|(i, pair)| balances(net, i, pair)));
    text.extend(net.arcs.iter().enumerate().map(|(e, arc)| capacities(net, e, arc, reading)));
    text.extend(net.limited_nodes().map(|node| limit(net, node, reading)));
    text + "End\n"
}

/// At every node but the commodity's own two that an arc touches.
fn balances(net: &Network, i: usize, pair: &Commodity) -> String {
    let others = (1..=net.nodes).filter(|node| ![pair.source, pair.sink].contains(node));
    let rows = others.map(|node| (node, net_out(net, i, node)));
    rows.filter(|(_, terms)| !terms.is_empty())
        .map(|(node, terms)| format!(" n{i}_{node}:{terms} = 0\n"))
        .collect()
}

fn capacities(net: &Network, e: usize, arc: &Arc, reading: Reading) -> String {
    let of = |i| variables(i, e, arc);
    let each: Vec<Vec<String>> = (0..net.commodities.len()).map(of).collect();
    let row = |name: &str, variables: Vec<&String>| {
        let terms: String = variables.iter().map(|variable| format!(" + {variable}")).collect();
        format!(" {name}{e}:{terms} <= {}\n", arc.capacity)
    };
    match reading {
        Reading::Apart if arc.reversible() => {
            let [ahead, back] = [0, 1].map(|which| each.iter().map(|both| &both[which]).collect());
            row("a", ahead) + &row("b", back)
        }
        _ => row("c", each.iter().flatten().collect()),
    }
}

/// A use is at least what the commodity brings to the node and what it takes from it.
fn limit(net: &Network, node: u64, reading: Reading) -> String {
    let (mut rows, mut sum) = (String::new(), String::new());
    for (i, pair) in net.commodities.iter().enumerate() {
        let own = [pair.source, pair.sink].contains(&node);
        let [out, into] = ways(net, i, node);
        let least = match reading {
            Reading::Passing if own => vec![],
            Reading::Twice => vec![out + &into],
            _ => vec![out, into],
        };
        for (which, terms) in least.iter().enumerate() {
            rows += &format!(" u{which}_{i}_{node}: u{i}_{node}{terms} >= 0\n");
        }
        sum += &format!(" + u{i}_{node}");
    }
    rows + &format!(" l{node}:{sum} <= {}\n", net.limits[node as usize - 1])
}

/// What leaves a node and what enters it, of one commodity, taken away.
fn ways(net: &Network, i: usize, node: u64) -> [String; 2] {
    let mut ways = [String::new(), String::new()];
    for (e, arc) in net.arcs.iter().enumerate() {
        for (variable, from) in variables(i, e, arc).iter().zip([arc.tail, arc.head]) {
            if [arc.tail, arc.head].contains(&node) {
                ways[usize::from(from != node)] += &format!(" - {variable}");
            }
        }
    }
    ways
}
