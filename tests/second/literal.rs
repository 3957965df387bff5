//! The choice word for word, of document 01 with the tie rule of request C-16, the
//! reversible belts of C-12 and the limited stations of C-17, by listing every path:
//! slow, and free of the thought behind distances, so that it can judge the searches.
//! Tie rules that are wrong stand beside the right one.

use crate::network::Network;
use crate::solver::{self, Choice};

/// Whether a choice goes before one that was listed earlier. Listed are commodity
/// by commodity its paths in dictionary order.
type Rule = fn(&Network, &Choice, &Choice) -> bool;

struct Listing<'a> {
    net: &'a Network,
    lengths: &'a [u64],
    own: [u64; 65],
    before: Rule,
    commodity: usize,
    path: Vec<usize>,
    /// Those that the path has left.
    nodes: Vec<u64>,
    first: Option<Choice>,
}

/// Shorter, or of the same commodity, as short and of fewer arcs.
pub fn choose(net: &Network, lengths: &[u64]) -> Option<Choice> {
    by_rule(net, lengths, |_, new, old| {
        new.alpha < old.alpha || tied(new, old) && new.path.len() < old.path.len()
    })
}

/// The plain form's choice, which has to be this one.
pub fn as_searched(net: &Network, lengths: &[u64]) -> Option<Choice> {
    let searched = solver::choose(net, lengths);
    assert_eq!(searched, choose(net, lengths), "the second solver chooses by two rules");
    searched
}

/// Wrong: dictionary order decides at once.
pub fn dictionary_first(net: &Network, lengths: &[u64]) -> Option<Choice> {
    by_rule(net, lengths, |_, new, old| new.alpha < old.alpha)
}

/// Wrong: most arcs come first.
pub fn most_arcs(net: &Network, lengths: &[u64]) -> Option<Choice> {
    by_rule(net, lengths, |_, new, old| {
        new.alpha < old.alpha || tied(new, old) && new.path.len() > old.path.len()
    })
}

/// Wrong: a limited node counts as an arc.
pub fn nodes_as_arcs(net: &Network, lengths: &[u64]) -> Option<Choice> {
    by_rule(net, lengths, |net, new, old| {
        let number = |choice: &Choice| {
            net.uses(net.commodities[choice.commodity].source, &choice.path).len()
        };
        new.alpha < old.alpha || tied(new, old) && number(new) < number(old)
    })
}

/// Wrong: fewer arcs decide between commodities too.
pub fn fewest_of_all(net: &Network, lengths: &[u64]) -> Option<Choice> {
    by_rule(net, lengths, |_, new, old| (new.alpha, new.path.len()) < (old.alpha, old.path.len()))
}

fn tied(new: &Choice, old: &Choice) -> bool {
    (new.alpha, new.commodity) == (old.alpha, old.commodity)
}

/// A path that meets a node twice is longer than some other, as lengths are at
/// least 1, and is not listed.
fn by_rule(net: &Network, lengths: &[u64], before: Rule) -> Option<Choice> {
    let (path, nodes, first) = (Vec::new(), Vec::new(), None);
    let own = net.node_lengths(lengths);
    let mut listing = Listing { net, lengths, own, before, commodity: 0, path, nodes, first };
    for (i, commodity) in net.commodities.iter().enumerate() {
        listing.commodity = i;
        listing.extend(commodity.source, own[commodity.source as usize]);
    }
    listing.first
}

impl Listing<'_> {
    fn extend(&mut self, node: u64, length: u64) {
        if node == self.net.commodities[self.commodity].sink {
            self.offer(length);
            return;
        }
        self.nodes.push(node);
        for (e, arc) in self.net.arcs.iter().enumerate() {
            let Some(next) = arc.leads(node) else { continue };
            if !self.nodes.contains(&next) {
                self.path.push(e);
                self.extend(next, length + self.lengths[e] + self.own[next as usize]);
                self.path.pop();
            }
        }
        self.nodes.pop();
    }

    fn offer(&mut self, alpha: u64) {
        let new = Choice { commodity: self.commodity, path: self.path.clone(), alpha };
        if self.first.as_ref().is_none_or(|first| (self.before)(self.net, &new, first)) {
            self.first = Some(new);
        }
    }
}
