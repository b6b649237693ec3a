//! Answers 1 to 6.

use crate::words::*;
use crate::{Checked, Probe, Slip, number::*};

/// The nodes that a slice of words has room for.
pub fn capacity(len: usize) -> usize {
    (len / NODE_WORDS).min(MAX_CAPACITY)
}

/// The capacity as a run takes it.
pub(crate) fn room(probe: &impl Probe, len: usize) -> usize {
    if probe.slips(Slip::CapacityUncapped) { len / NODE_WORDS } else { capacity(len) }
}

pub(crate) fn check(probe: &impl Probe, words: &[u64], count: u64, root: u64) -> Checked {
    let (number, place) = match refusal(probe, words, count, root) {
        Ok(()) => (DONE, 0),
        Err(refused) => refused,
    };
    Checked { number, place }
}

/// The first answer of 1 to 6 that holds, with its place.
fn refusal(probe: &impl Probe, words: &[u64], count: u64, root: u64) -> Result<(), (u64, u64)> {
    let room = room(probe, words.len()) as u64;
    if probe.slips(Slip::RootBeforeCount) && root >= count {
        return Err((ROOT_NOT_BELOW_COUNT, 0));
    }
    if count > room || probe.slips(Slip::CountAtCapacityRefused) && count == room {
        return Err((COUNT_ABOVE_CAPACITY, 0));
    }
    if root >= count {
        return Err((ROOT_NOT_BELOW_COUNT, 0));
    }
    let end = if probe.slips(Slip::ScanStopsAtRoot) { root + 1 } else { count };
    let bad = |index: u64| bad_node(probe, words, index as usize).map(|number| (number, index));
    let first = match probe.slips(Slip::LastBadNode) {
        true => (0..end).rev().find_map(bad),
        false => (0..end).find_map(bad),
    };
    first.map_or_else(|| limits(probe, words, count, root), Err)
}

/// 3 or 4, if the node is bad. The nodes below it are good.
fn bad_node(probe: &impl Probe, words: &[u64], index: usize) -> Option<u64> {
    let node = node_at(words, index);
    let form = form(probe, node, index);
    // The size of a node whose form is bad may be asked only where its children can be.
    let size = || (!well_sized(probe, words, node)).then_some(NOT_WELL_SIZED);
    if probe.slips(Slip::SizeBeforeForm) && node.uses().is_some() && node.left < index && node.right < index {
        return size().or(form);
    }
    form.or_else(size)
}

/// 3, if the node is not well formed.
fn form(probe: &impl Probe, node: Node, index: usize) -> Option<u64> {
    let wrong = |slip| Some(if probe.slips(slip) { NOT_WELL_SIZED } else { NOT_WELL_FORMED });
    let Some(uses) = node.uses() else { return wrong(Slip::UnknownKindIsSize) };
    let stray = |used: bool, field: u64, slip| !used && field != 0 && !probe.slips(slip);
    if uses.left && node.left >= index || uses.right && node.right >= index {
        return wrong(Slip::ForwardChildIsSize);
    }
    let bad = !uses.left && node.left != 0
        || stray(uses.right, node.right as u64, Slip::StrayRightPasses)
        || stray(uses.space, node.space, Slip::StraySpacePasses)
        || stray(uses.payload, node.payload, Slip::StrayPayloadPasses)
        || probe.slips(Slip::TopSizeIsForm) && node.kind == TOP && node.size != 0;
    bad.then_some(NOT_WELL_FORMED)
}

/// Whether a well formed node over good children is well sized.
fn well_sized(probe: &impl Probe, words: &[u64], node: Node) -> bool {
    let size = node.size;
    let top = |child: usize| node_at(words, child).kind == TOP;
    let child_size = |child: usize| node_at(words, child).size;
    let same = |child: usize| top(child) || child_size(child) == size;
    let no_wider = |child: usize| top(child) || child_size(child) <= size;
    let known = SIZES.contains(&size) || probe.slips(Slip::OddSizePasses) && (1..=8).contains(&size);
    let flag_size = size == 1 || probe.slips(Slip::WideFlagPasses) && size == 2;
    match node.kind {
        TOP => size == 0,
        _ if node.is_flag() => flag_size && flag_children(probe, words, node),
        _ if !known => false,
        ENTRY | BIND => true,
        CONST if probe.slips(Slip::ConstOneTooLarge) && size < 8 => node.payload <= mask(size) + 1,
        CONST => node.payload <= mask(size),
        LEFT_SHIFT | RIGHT_SHIFT | SIGNED_RIGHT_SHIFT => {
            same(node.left)
                && (no_wider(node.right) || probe.slips(Slip::WideAmountPasses))
                && (same(node.right) || !probe.slips(Slip::NarrowAmountRefused))
        }
        SIGN_EXTEND if probe.slips(Slip::SameSizeExtendRefused) => {
            top(node.left) || child_size(node.left) < size
        }
        SIGN_EXTEND => no_wider(node.left),
        INT_2COMP => same(node.left),
        _ => same(node.left) && same(node.right),
    }
}

/// Whether a flag's children have one size, or one of them is Top.
fn flag_children(probe: &impl Probe, words: &[u64], node: Node) -> bool {
    let (left, right) = (node_at(words, node.left), node_at(words, node.right));
    let top = left.kind == TOP || right.kind == TOP;
    left.size == right.size
        || top && !probe.slips(Slip::FlagOfTopRefused)
        || !top && probe.slips(Slip::FlagOfTwoSizesPasses)
}

/// Answers 5 and 6, for good nodes.
fn limits(probe: &impl Probe, words: &[u64], count: u64, root: u64) -> Result<(), (u64, u64)> {
    let (mut unfolded, mut path) = (Vec::new(), Vec::new());
    let last = if probe.slips(Slip::LimitsOverAllNodes) { count - 1 } else { root } as usize;
    for index in 0..=last {
        let node = node_at(words, index);
        let uses = node.uses().expect("a known kind");
        let (mut nodes, mut deepest) = (1u64, 0u64);
        for (used, child) in [(uses.left, node.left), (uses.right, node.right)] {
            if used {
                nodes = nodes.saturating_add(unfolded[child]);
                deepest = deepest.max(path[child]);
            }
        }
        unfolded.push(nodes);
        path.push(deepest + 1);
    }
    let mut nodes = unfolded[root as usize];
    let mut longest = path[root as usize];
    if probe.slips(Slip::LimitsOverAllNodes) {
        nodes = *unfolded.iter().max().expect("a node");
        longest = *path.iter().max().expect("a node");
    }
    if probe.slips(Slip::SharedCountedOnce) {
        nodes = reachable(words, root as usize).into_iter().filter(|&reached| reached).count() as u64;
    }
    let most_nodes = MAX_UNFOLDED - probe.slips(Slip::UnfoldedLimitOneLess) as u64;
    let longest_path =
        MAX_PATH - probe.slips(Slip::PathLimitOneLess) as u64 + probe.slips(Slip::PathLimitOneMore) as u64;
    if probe.slips(Slip::PathBeforeUnfolded) && longest > longest_path {
        return Err((PATH_TOO_LONG, 0));
    }
    if nodes > most_nodes {
        return Err((TOO_MANY_NODES, 0));
    }
    if longest > longest_path {
        return Err((PATH_TOO_LONG, 0));
    }
    Ok(())
}

/// Which nodes can be reached from a root of a well formed arena.
pub fn reachable(words: &[u64], root: usize) -> Vec<bool> {
    let mut reached = vec![false; root + 1];
    reached[root] = true;
    for index in (0..=root).rev().filter(|&index| node_at(words, index).kind > BIND) {
        if reached[index] {
            let node = node_at(words, index);
            reached[node.left] = true;
            if !node.is_unary() {
                reached[node.right] = true;
            }
        }
    }
    reached
}
