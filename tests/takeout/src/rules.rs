//! The rules behind code 6, each by its own words in document 01.

use crate::lent::Lent;

/// Whether machine v keeps a rule, where the tree is sound and the tables have its length.
pub type Rule = fn(&Lent, usize) -> bool;

/// Every rule, under a name for the stand-ins that do without one.
pub const RULES: [(&str, Rule); 8] = [
    ("depth", depth_counts_steps),
    ("hub", hub_is_bare),
    ("mark", mark_is_known),
    ("name", name_is_at_most_v),
    ("sibling", name_is_a_sibling),
    ("own", name_is_its_own),
    ("ringed", both_are_ringed),
    ("carried", carried_is_under_ringed),
];

/// The least machine that breaks a rule.
pub fn least_breaking(tables: &Lent, rules: &[Rule]) -> Option<usize> {
    (0..tables.up.len()).find(|&v| rules.iter().any(|rule| !rule(tables, v)))
}

fn is_hub(t: &Lent, v: usize) -> bool {
    t.up[v] == v
}

/// The machine that names v's group. None for the hub, whose group has a rule of its own, and where the name is no machine.
fn name(t: &Lent, v: usize) -> Option<usize> {
    let g = t.group[v];
    (!is_hub(t, v) && g < t.up.len()).then_some(g)
}

fn depth_counts_steps(t: &Lent, v: usize) -> bool {
    let steps = if is_hub(t, v) {
        0
    } else {
        t.depth[t.up[v]] + 1
    };
    t.depth[v] == steps
}

fn hub_is_bare(t: &Lent, v: usize) -> bool {
    !is_hub(t, v) || (t.mark[v] == 0 && t.group[v] == v)
}

fn mark_is_known(t: &Lent, v: usize) -> bool {
    t.mark[v] <= 2
}

fn name_is_at_most_v(t: &Lent, v: usize) -> bool {
    is_hub(t, v) || name(t, v).is_some_and(|g| g <= v)
}

fn name_is_a_sibling(t: &Lent, v: usize) -> bool {
    is_hub(t, v) || name(t, v).is_some_and(|g| !is_hub(t, g) && t.up[g] == t.up[v])
}

fn name_is_its_own(t: &Lent, v: usize) -> bool {
    is_hub(t, v) || name(t, v).is_some_and(|g| t.group[g] == g)
}

fn both_are_ringed(t: &Lent, v: usize) -> bool {
    let ringed = |machine: usize| t.mark[machine] >= 1;
    is_hub(t, v) || t.group[v] == v || name(t, v).is_some_and(|g| ringed(g) && ringed(v))
}

fn carried_is_under_ringed(t: &Lent, v: usize) -> bool {
    t.mark[v] != 2 || (!is_hub(t, t.up[v]) && t.mark[t.up[v]] >= 1)
}
