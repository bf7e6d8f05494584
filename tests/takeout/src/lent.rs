//! What the library's calls are lent, and how they are answered.

use crate::file::Refusal;

/// The slices of a site, whatever their lengths and whatever they hold.
#[derive(Clone, Debug, PartialEq)]
pub struct Lent {
    pub up: Vec<usize>,
    pub depth: Vec<usize>,
    pub group: Vec<usize>,
    pub mark: Vec<usize>,
    pub machines: Vec<usize>,
    pub links: Vec<usize>,
}

/// The value of code 0, or the code and value of a refusal.
pub type Answer = Result<usize, Refusal>;

impl Lent {
    /// A tree, and slices of its length that nothing has been put into: a 9 stands for what no call writes.
    pub fn of_tree(up: &[usize]) -> Lent {
        let bare = vec![9; up.len()];
        Lent {
            up: up.to_vec(),
            depth: bare.clone(),
            group: bare.clone(),
            mark: bare.clone(),
            machines: bare.clone(),
            links: bare,
        }
    }

    /// The machines one step from `w` on the side away from the hub.
    pub fn children(&self, w: usize) -> Vec<usize> {
        (0..self.up.len())
            .filter(|&v| v != w && self.up[v] == w)
            .collect()
    }

    /// The machines of the group of that name.
    pub fn members(&self, name: usize) -> Vec<usize> {
        (0..self.group.len())
            .filter(|&v| self.group[v] == name)
            .collect()
    }
}

/// The machines from v to the hub, both included, in a tree that has passed its checks.
pub fn line(up: &[usize], v: usize) -> Vec<usize> {
    let mut line = vec![v];
    let mut here = v;
    while up[here] != here {
        here = up[here];
        line.push(here);
    }
    line
}
