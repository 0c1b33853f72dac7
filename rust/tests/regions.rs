//! Regions and zones: worked rows, random lists against sets of descendants, and what is refused.

use h3whole::{Cell, Error, Region, Resolution, Zones};
use std::collections::{BTreeMap, BTreeSet, HashSet};

const CELL: u64 = 0x8428347ffffffff;
const CHILDREN: [u64; 7] = [
    0x85283463fffffff,
    0x85283467fffffff,
    0x8528346bfffffff,
    0x8528346ffffffff,
    0x85283473fffffff,
    0x85283477fffffff,
    0x8528347bfffffff,
];
const PENTAGON: u64 = 0x8009fffffffffff;
/// What is left of the pentagon without 820807fffffffff.
const LEFT_OF_PENTAGON: [u64; 10] = [
    0x8108bffffffffff,
    0x8108fffffffffff,
    0x81093ffffffffff,
    0x81097ffffffffff,
    0x8109bffffffffff,
    0x820817fffffffff,
    0x82081ffffffffff,
    0x820827fffffffff,
    0x82082ffffffffff,
    0x820837fffffffff,
];

fn cell(index: u64) -> Cell {
    Cell::try_from(index).unwrap()
}

fn cells(indexes: &[u64]) -> Vec<Cell> {
    indexes.iter().map(|index| cell(*index)).collect()
}

fn region(indexes: &[u64]) -> Region {
    Region::of(&cells(indexes)).unwrap()
}

#[test]
fn unions() {
    let united = region(&[&CHILDREN[..3], &[CELL], &CHILDREN[..2]].concat());
    assert_eq!(united.as_slice(), [cell(CELL)]);
    assert_eq!(united, region(&[CHILDREN, CHILDREN].concat()));
    let parts = (&region(&CHILDREN[..3]), &region(&CHILDREN[2..]));
    assert_eq!(parts.0 | parts.1, united);
    assert_eq!(parts.0.union(parts.1), Ok(united.clone()));
    assert_eq!(&united | &Region::default(), united);
    assert!(region(&[]).is_empty() && !united.is_empty());
    assert_eq!(cells(&CHILDREN).into_iter().collect::<Region>(), united);
    assert_eq!(format!("{united:?}"), format!("{{{:?}}}", cell(CELL)));
    assert_eq!((&united).into_iter().count(), united.len());
    let set: HashSet<_> = [united.clone(), united, region(&[])].into_iter().collect();
    assert_eq!(set.len(), 2);
}

#[test]
fn differences() {
    let whole = region(&[CELL]);
    let six = [&CHILDREN[..4], &CHILDREN[5..]].concat();
    assert_eq!((&whole - &region(&CHILDREN[4..5])).as_slice(), cells(&six));
    let found = &region(&[PENTAGON]) - &region(&[0x820807fffffffff]);
    assert_eq!(found.as_slice(), cells(&LEFT_OF_PENTAGON));
    assert!((&whole - &whole).is_empty());
    // more cells than both lists have
    let finest = cell(CELL).center_child(Resolution::Fifteen).unwrap();
    let finest = Region::of(&[finest]).unwrap();
    let left = whole.difference(&finest).unwrap();
    assert_eq!(left.len(), 66);
    assert_eq!(&left | &finest, whole);
    assert!(left.is_subset(&whole) && !whole.is_subset(&left));
}

#[test]
fn intersections() {
    let other = region(&[0x85283473fffffff, 0x862834757ffffff, 0x8528340ffffffff]);
    let found = &region(&[CELL]) & &other;
    assert_eq!(found, region(&[0x85283473fffffff, 0x862834757ffffff]));
    assert_eq!(&region(&CHILDREN) & &region(&[CELL]), region(&[CELL]));
    assert!((&region(&[CELL]) & &region(&[PENTAGON])).is_empty());
}

#[test]
fn zones() {
    let zones = Zones::new(&cells(&[CHILDREN[4], PENTAGON])).unwrap();
    let places = cells(&[CHILDREN[4], 0x862834707ffffff, CELL, CHILDREN[4]]);
    let zone = Some(cell(CHILDREN[4]));
    assert_eq!(zones.zones_of(&places), Ok(vec![zone, zone, None, zone]));
    assert_eq!(zones.zone_of(cell(PENTAGON)), Some(cell(PENTAGON)));
    let counts = zones.count(&places).unwrap();
    let listed: BTreeMap<_, _> = counts.iter().collect();
    assert_eq!(
        listed,
        [(cell(PENTAGON), 0), (cell(CHILDREN[4]), 3)]
            .into_iter()
            .collect()
    );
    assert_eq!((counts.others(), counts.of(cell(PENTAGON))), (1, Some(0)));
    assert_eq!(counts.of(cell(CELL)), None);
    assert_eq!((zones.len(), zones.is_empty()), (2, false));
    for overlapping in [[CELL, CHILDREN[0]], [CELL, CELL]] {
        let refused = Zones::new(&cells(&overlapping)).unwrap_err();
        assert_eq!(refused, Error::DuplicateInput);
    }
    let none = Zones::new(&[]).unwrap();
    assert_eq!(none.count(&places).unwrap().others(), 4);
    assert_eq!((none.zones_of(&[]), none.is_empty()), (Ok(vec![]), true));
    assert_eq!(format!("{none:?}"), "{}");
}

/// Numbers as random as these tests need.
struct Chance(u64);

impl Chance {
    fn below(&mut self, end: usize) -> usize {
        self.0 ^= self.0 << 13;
        self.0 ^= self.0 >> 7;
        self.0 ^= self.0 << 17;
        usize::try_from(self.0 >> 33).unwrap() % end
    }

    /// A cell of resolution 1 to 4 in a hexagon or a pentagon.
    fn cell(&mut self) -> Cell {
        let base = cell([0x8001fffffffffff, PENTAGON][self.below(2)]);
        let resolutions = [
            Resolution::One,
            Resolution::Two,
            Resolution::Three,
            Resolution::Four,
        ];
        let children = base.children_vec(resolutions[self.below(4)]).unwrap();
        children[self.below(children.len().min(60))]
    }

    fn cells(&mut self) -> Vec<Cell> {
        (0..self.below(30)).map(|_| self.cell()).collect()
    }
}

/// The descendants of cells at resolution 4.
fn covered(cells: &[Cell]) -> BTreeSet<Cell> {
    cells
        .iter()
        .flat_map(|cell| cell.children(Resolution::Four).unwrap())
        .collect()
}

fn is_above(zone: Cell, cell: Cell) -> bool {
    cell.parent(zone.resolution()) == Ok(zone)
}

#[test]
fn random_regions() {
    let mut chance = Chance(88172645463325252);
    for _ in 0..100 {
        let (first, second) = (chance.cells(), chance.cells());
        let (a, b) = (covered(&first), covered(&second));
        let (x, y) = (Region::of(&first).unwrap(), Region::of(&second).unwrap());
        for (found, wanted) in [
            (x.clone(), a.clone()),
            (&x | &y, &a | &b),
            (&x & &y, &a & &b),
            (&x - &y, &a - &b),
        ] {
            // (what covers the same is the same list, and the descendants compact to it)
            let wanted: Vec<_> = wanted.into_iter().collect();
            assert_eq!(found.as_slice(), h3whole::compact(&wanted).unwrap());
        }
        assert_eq!(x.is_subset(&y), a.is_subset(&b));
        for cell in chance.cells() {
            assert_eq!(x.contains(cell), covered(&[cell]).is_subset(&a));
        }
    }
}

#[test]
fn random_zones() {
    let mut chance = Chance(362436069);
    for _ in 0..100 {
        let region = Region::of(&chance.cells()).unwrap();
        let zones = Zones::new(region.as_slice()).unwrap();
        let asked = chance.cells();
        let wanted: Vec<_> = asked
            .iter()
            .map(|cell| region.iter().find(|zone| is_above(*zone, *cell)))
            .collect();
        assert_eq!(zones.zones_of(&asked).unwrap(), wanted);
        let counts = zones.count(&asked).unwrap();
        for (zone, count) in counts.iter() {
            let found = wanted.iter().filter(|found| **found == Some(zone));
            assert_eq!(count, u64::try_from(found.count()).unwrap());
        }
        let all: u64 = counts.iter().map(|(_, count)| count).sum();
        assert_eq!(all + counts.others(), u64::try_from(asked.len()).unwrap());
        // the counts of two parts add up
        let (left, right) = asked.split_at(asked.len() / 2);
        let (left, right) = (zones.count(left).unwrap(), zones.count(right).unwrap());
        for ((whole, a), b) in counts.iter().zip(left.iter()).zip(right.iter()) {
            assert_eq!(whole, (a.0, a.1 + b.1));
        }
        assert_eq!(counts.others(), left.others() + right.others());
    }
}

#[test]
fn shared() {
    fn shared<T: Send + Sync>(_: &T) {}
    let zones = Zones::new(&cells(&CHILDREN)).unwrap();
    shared(&zones);
    shared(&region(&CHILDREN));
    std::thread::scope(|scope| {
        for index in CHILDREN {
            let zones = &zones;
            scope.spawn(move || assert_eq!(zones.zone_of(cell(index)), Some(cell(index))));
        }
    });
}

/// A column in parts, of one cell and of more, from one thread and from several at once: the answers are
/// those of the whole, before a table is kept and with it. A clone has its own.
#[test]
fn parts_in_zones_that_keep_a_table() {
    let zones = cell(CELL).children_vec(Resolution::Seven).unwrap();
    let column: Vec<Cell> = cell(0x832834fffffffff)
        .children(Resolution::Eight)
        .unwrap()
        .step_by(7)
        .collect();
    let zones = Zones::new(&zones).unwrap();
    let at_once = zones.clone();
    let whole = at_once.zones_of(&column).unwrap();
    let counts = at_once.count(&column).unwrap();
    for length in [1, 3, 100] {
        let zones = zones.clone();
        let mut found = Vec::new();
        let (mut others, mut sum) = (0, 0);
        for part in column.chunks(length) {
            found.extend(zones.zones_of(part).unwrap());
            let counts = zones.count(part).unwrap();
            others += counts.others();
            sum += counts.iter().map(|(_, count)| count).sum::<u64>();
        }
        assert_eq!(found, whole);
        assert_eq!(
            (others, others + sum),
            (counts.others(), column.len() as u64)
        );
    }
    std::thread::scope(|scope| {
        for _ in 0..4 {
            scope.spawn(|| assert_eq!(zones.zones_of(&column).unwrap(), whole));
        }
    });
    let region: Region = zones.iter().collect();
    assert!(column
        .iter()
        .zip(&whole)
        .all(|(cell, zone)| region.contains(*cell) == zone.is_some()));
}
