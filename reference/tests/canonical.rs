//! Canonical and the comparisons against the Rust's trees.

use eml::calls;
use reference::canonical::Canonical;
use reference::compare::{Tally, text};
use reference::generate::{self, Shape};
use reference::house::{self, Record};
use reference::port;
use reference::smt::constraint::EmlConstraint;
use reference::splitmix::SplitMix64;
use reference::tree::{EmlNode, EmlTree};

/// The expanded size and depth of a tree, as document 01 counts them.
fn extent(node: &EmlNode) -> (usize, usize) {
    match node {
        EmlNode::Eml { left, right } => {
            let ((ls, ld), (rs, rd)) = (extent(left), extent(right));
            (1 + ls + rs, 1 + ld.max(rd))
        }
        _ => (1, 1),
    }
}

/// A node list with free places after it, sometimes damaged, with two operands that sometimes name no node.
struct List {
    bytes: Vec<u8>,
    count: usize,
    x: usize,
    y: usize,
}

fn any_list(rng: &mut SplitMix64) -> List {
    let shape = match rng.below(4) {
        0 => Shape::large(rng),
        1 => Shape::medium(rng),
        _ => Shape::small(rng),
    };
    let parts = generate::problem(rng, &shape);
    let mut bytes = house::node_bytes(&parts.nodes);
    if rng.one_in(4) {
        generate::damage_nodes(rng, &mut bytes);
    }
    let mut count = bytes.len() / 16;
    let free = rng.below(12) * 16 + if rng.one_in(8) { rng.below(16) } else { 0 };
    bytes.extend((0..free).map(|_| rng.draw() as u8));
    if rng.one_in(10) {
        count = rng.pick(&[
            0,
            count.saturating_sub(1),
            count + 1,
            1024,
            1025,
            usize::MAX,
        ]);
    }
    let operand = |rng: &mut SplitMix64| {
        let far = rng.pick(&[count, count.wrapping_add(1), 1 << 32, usize::MAX]);
        if rng.one_in(12) || count == 0 {
            far
        } else {
            rng.below(count.min(2000))
        }
    };
    let (x, y) = (operand(rng), operand(rng));
    List { bytes, count, x, y }
}

/// Document 01's refusal of an append, from the trees that the Rust would make.
fn append_refusal(
    list: &List,
    operands: &[usize],
    made: impl Fn(&[EmlTree]) -> EmlTree,
    more: usize,
) -> u8 {
    let places = list.bytes.len() / 16;
    if list.count > 1024 || list.count > places {
        return 2;
    }
    let trees = match house::read_nodes(&list.bytes[..16 * list.count]) {
        Err(number) => return number,
        Ok(trees) => trees,
    };
    if operands.iter().any(|&k| k >= list.count) {
        return 3;
    }
    let (size, depth) = extent(&made(&trees).root);
    if size > 4096 || depth > 128 {
        return 4;
    }
    if places.min(1024) - list.count < more {
        return 10;
    }
    0
}

/// The list at exit: the older nodes and the bytes past the appended ones stay, and the last node has the Rust's tree.
fn check_appended(list: &List, after: &[u8], more: usize, made: impl Fn(&[EmlTree]) -> EmlTree) {
    let (start, end) = (16 * list.count, 16 * (list.count + more));
    assert_eq!(after[..start], list.bytes[..start]);
    assert_eq!(after[end..], list.bytes[end..]);
    let trees = house::read_nodes(&after[..end]).expect("the appended list is sound");
    assert_eq!(trees[list.count + more - 1], made(&trees));
}

#[test]
fn canonical() {
    let mut rng = SplitMix64::new(34);
    let mut lns = Tally::new("Canonical::ln");
    let mut subs = Tally::new("Canonical::sub");
    for _ in 0..60_000 {
        let list = any_list(&mut rng);
        let (x, y, count) = (list.x, list.y, list.count);

        let made = |trees: &[EmlTree]| Canonical::ln(&trees[x]);
        let mut after = list.bytes.clone();
        let ours = eml::canonical::ln(&mut after, count, x);
        let number = append_refusal(&list, &[x], made, 4);
        match ours {
            Err(_) => assert_eq!(after, list.bytes),
            Ok(at) => {
                assert_eq!(at, count + 3);
                check_appended(&list, &after, 4, made);
            }
        }
        assert_eq!(port::number(ours), number);
        lns.add(number);

        let made = |trees: &[EmlTree]| Canonical::sub(&trees[x], &trees[y]);
        let mut after = list.bytes.clone();
        let ours = eml::canonical::sub(&mut after, count, x, y);
        let number = append_refusal(&list, &[x, y], made, 7);
        match ours {
            Err(_) => assert_eq!(after, list.bytes),
            Ok(at) => {
                assert_eq!(at, count + 6);
                check_appended(&list, &after, 7, made);
            }
        }
        assert_eq!(port::number(ours), number);
        subs.add(number);
    }
    lns.done(&[0, 2, 3, 4, 10], 100);
    subs.done(&[0, 2, 3, 4, 10], 100);
}

type Compare = fn(&mut [u8], usize, usize, usize, &mut [u8]) -> Result<(), eml::Refusal>;
type Atom = fn(EmlTree, EmlTree) -> EmlConstraint;

#[test]
fn comparisons() {
    let calls: [(Compare, Atom); 4] = [
        (calls::lt, EmlConstraint::lt),
        (calls::le, EmlConstraint::le),
        (calls::gt, EmlConstraint::gt),
        (calls::ge, EmlConstraint::ge),
    ];
    let mut rng = SplitMix64::new(35);
    let mut tally = Tally::new("lt, le, gt, ge");
    for _ in 0..60_000 {
        let list = any_list(&mut rng);
        let (x, y, count) = (list.x, list.y, list.count);
        let (ours, theirs) = rng.pick(&calls);
        let room = if rng.one_in(6) {
            rng.below(24)
        } else {
            24 + rng.below(9)
        };
        let before: Vec<u8> = (0..room).map(|_| rng.draw() as u8).collect();
        let (mut after, mut record) = (list.bytes.clone(), before.clone());
        let number = port::number(ours(&mut after, count, x, y, &mut record));
        let made = |trees: &[EmlTree]| Canonical::sub(&trees[x], &trees[y]);
        let expected = match append_refusal(&list, &[x, y], made, 7) {
            0 if room < 24 => 10,
            other => other,
        };
        assert_eq!(number, expected);
        if number == 0 {
            check_appended(&list, &after, 7, made);
            let trees = house::read_nodes(&after[..16 * (count + 7)]).expect("sound");
            let atom = theirs(trees[x].clone(), trees[y].clone());
            let read = house::read_records(&after[..16 * (count + 7)], &record[..24]);
            let ours = read
                .expect("the record is an atom on the result")
                .constraint;
            assert_eq!(text(&ours), text(&atom));
            let kind = record[0];
            assert_eq!(
                record[..24],
                house::constraint_bytes(&[Record::new(kind, count + 6)])
            );
            assert_eq!(record[24..], before[24..]);
        } else {
            assert_eq!((&after, &record), (&list.bytes, &before));
        }
        tally.add(number);
    }
    tally.done(&[0, 2, 3, 4, 10], 100);
}
