//! Worked examples, the errors, and what holds of many cells.

use h3whole::{
    columns, compact, uncompact, Cell, Edge, Error, Resolution, Table, TableError, Zones,
};
use std::collections::{BTreeSet, HashSet};
use std::iter::FusedIterator;

const CHILDREN: [u64; 7] = [
    0x862834707ffffff,
    0x86283470fffffff,
    0x862834717ffffff,
    0x86283471fffffff,
    0x862834727ffffff,
    0x86283472fffffff,
    0x862834737ffffff,
];
/// The children of the pentagon 8009fffffffffff.
const PENTAGON_CHILDREN: [u64; 6] = [
    0x81083ffffffffff,
    0x8108bffffffffff,
    0x8108fffffffffff,
    0x81093ffffffffff,
    0x81097ffffffffff,
    0x8109bffffffffff,
];
const INVALID: [u64; 8] = [
    0,
    5,
    u64::MAX,
    0x81087ffffffffff,  // the deleted subsequence of a pentagon
    0x80f5fffffffffff,  // base cell 122
    0x8109fffffffffff,  // a digit 7 within the resolution
    0x885283473fffffff, // the reserved bit
    0x115283473fffffff, // an edge
];

fn cell(index: u64) -> Cell {
    Cell::try_from(index).unwrap()
}

fn cells(indexes: &[u64]) -> Vec<Cell> {
    indexes.iter().map(|index| cell(*index)).collect()
}

#[test]
fn fields() {
    let hexagon = cell(0x85283473fffffff);
    assert_eq!(
        (hexagon.resolution(), hexagon.base_cell()),
        (Resolution::Five, 20)
    );
    assert!(!hexagon.is_pentagon() && hexagon.is_class3());
    let pentagon = cell(0x8009fffffffffff);
    assert_eq!(
        (pentagon.resolution(), pentagon.base_cell()),
        (Resolution::Zero, 4)
    );
    assert!(pentagon.is_pentagon() && !pentagon.is_class3());
    for index in INVALID {
        assert_eq!(Cell::try_from(index).unwrap_err(), Error::CellInvalid);
    }
}

#[test]
fn texts() {
    let hexagon = cell(0x85283473fffffff);
    for text in [
        "85283473fffffff",
        "0X85283473FFFFFFF",
        " \t085283473fffffff\r ",
    ] {
        assert_eq!(text.parse(), Ok(hexagon));
    }
    for text in [
        "",
        " ",
        "xyz",
        "0x",
        "00085283473fffffff",
        "85283473fffffff\n",
        "8528 3473fffffff",
        "é",
        "\0",
    ] {
        assert_eq!(text.parse::<Cell>().unwrap_err(), Error::Failed, "{text:?}");
        assert_eq!(text.parse::<Edge>().unwrap_err(), Error::Failed, "{text:?}");
    }
    assert_eq!("5".parse::<Cell>().unwrap_err(), Error::CellInvalid);
    assert_eq!(hexagon.to_string(), "85283473fffffff");
    assert_eq!(
        format!("{hexagon:?} {hexagon:#x} {hexagon:X}"),
        "Cell(85283473fffffff) 0x85283473fffffff 85283473FFFFFFF"
    );
    assert_eq!(format!("{hexagon:>17}|"), "  85283473fffffff|");
    assert_eq!(u64::from(hexagon), 0x85283473fffffff);
    assert_eq!(
        hexagon.edges().next().unwrap().to_string(),
        "115283473fffffff"
    );
}

#[test]
fn resolutions() {
    assert_eq!(
        Resolution::ALL.map(u8::from),
        [0, 1, 2, 3, 4, 5, 6, 7, 8, 9, 10, 11, 12, 13, 14, 15]
    );
    for number in [-1, 16, i32::MIN, i32::MAX] {
        assert_eq!(Resolution::try_from(number), Err(Error::ResDomain));
    }
    assert_eq!(Resolution::try_from(15), Ok(Resolution::Fifteen));
    assert_eq!(Resolution::try_from(16u8), Err(Error::ResDomain));
    for number in [16u32, u32::MAX] {
        assert_eq!(Resolution::try_from(number), Err(Error::ResDomain));
    }
    for number in [16usize, usize::MAX, 1 << 33] {
        assert_eq!(Resolution::try_from(number), Err(Error::ResDomain));
    }
    assert_eq!(Resolution::try_from(15u32), Ok(Resolution::Fifteen));
    assert_eq!(Resolution::try_from(0usize), Ok(Resolution::Zero));
    for pair in Resolution::ALL.windows(2) {
        assert_eq!(pair[0].succ(), Some(pair[1]));
        assert_eq!(pair[1].pred(), Some(pair[0]));
    }
    assert_eq!(
        (Resolution::Fifteen.succ(), Resolution::Zero.pred()),
        (None, None)
    );
    assert_eq!("7".parse(), Ok(Resolution::Seven));
    assert_eq!("16".parse::<Resolution>(), Err(Error::ResDomain));
    assert_eq!("seven".parse::<Resolution>(), Err(Error::Failed));
    assert_eq!(Resolution::Seven.to_string(), "7");
    assert_eq!(Resolution::Zero.cell_count(), 122);
    assert_eq!(Resolution::Fifteen.cell_count(), 569_707_381_193_162);
    assert_eq!(Cell::base_cells()[121], cell(0x80f3fffffffffff));
    assert_eq!(
        Resolution::Zero.pentagons()[..3],
        cells(&[0x8009fffffffffff, 0x801dfffffffffff, 0x8031fffffffffff])
    );
    for resolution in Resolution::ALL {
        let pentagons = resolution.pentagons();
        assert!(pentagons
            .iter()
            .all(|cell| cell.is_pentagon() && cell.resolution() == resolution));
        assert!(pentagons.windows(2).all(|pair| pair[0] < pair[1]));
    }
}

#[test]
fn hierarchy() {
    let hexagon = cell(0x85283473fffffff);
    assert_eq!(
        hexagon.parent(Resolution::Four),
        Ok(cell(0x8428347ffffffff))
    );
    assert_eq!(hexagon.parent(Resolution::Five), Ok(hexagon));
    assert_eq!(hexagon.parent(Resolution::Six), Err(Error::ResMismatch));
    assert_eq!(
        hexagon.center_child(Resolution::Fifteen),
        Ok(cell(0x8f2834700000000))
    );
    assert_eq!(
        hexagon.center_child(Resolution::Four),
        Err(Error::ResDomain)
    );
    assert_eq!(
        hexagon.last_child(Resolution::Seven),
        Ok(cell(0x872834736ffffff))
    );
    assert_eq!(hexagon.last_child(Resolution::Five), Ok(hexagon));
    assert_eq!(hexagon.last_child(Resolution::Four), Err(Error::ResDomain));
    assert_eq!(hexagon.children_vec(Resolution::Six), Ok(cells(&CHILDREN)));
    assert_eq!(
        hexagon.children_vec(Resolution::Four),
        Err(Error::ResDomain)
    );
    assert_eq!(
        hexagon.children(Resolution::Four).unwrap_err(),
        Error::ResDomain
    );
    let pentagon = cell(0x8009fffffffffff);
    assert_eq!(
        pentagon.children_vec(Resolution::One),
        Ok(cells(&PENTAGON_CHILDREN))
    );
    assert_eq!(
        pentagon.last_child(Resolution::One),
        Ok(cell(0x8109bffffffffff))
    );
    assert_eq!(
        pentagon.children_count(Resolution::Fifteen),
        Ok(3_956_301_258_286)
    );
    assert_eq!(
        cell(0x8029fffffffffff).children_count(Resolution::Fifteen),
        Ok(4_747_561_509_943)
    );
}

#[test]
fn positions() {
    let hexagon = cell(0x85283473fffffff);
    assert_eq!(hexagon.child_position(Resolution::Zero), Ok(2279));
    assert_eq!(hexagon.child_position(Resolution::Five), Ok(0));
    assert_eq!(
        hexagon.child_position(Resolution::Six),
        Err(Error::ResMismatch)
    );
    assert_eq!(
        cell(0x8209b7fffffffff).child_position(Resolution::Zero),
        Ok(40)
    );
    assert_eq!(
        cell(0x8029fffffffffff).child_at(2279, Resolution::Five),
        Ok(hexagon)
    );
    let pentagon = cell(0x8009fffffffffff);
    for position in [41, 1 << 63, u64::MAX] {
        assert_eq!(
            pentagon.child_at(position, Resolution::Two),
            Err(Error::Domain)
        );
    }
    assert_eq!(
        hexagon.child_at(u64::MAX, Resolution::Four),
        Err(Error::ResMismatch)
    );
}

#[test]
fn children_one_after_another() {
    for parent in [cell(0x85283473fffffff), cell(0x8009fffffffffff)] {
        for levels in 0..5 {
            let resolution = Resolution::ALL[usize::from(u8::from(parent.resolution()) + levels)];
            let all = parent.children_vec(resolution).unwrap();
            let children = parent.children(resolution).unwrap();
            assert_eq!(children.len(), all.len() as u64);
            assert_eq!(children.size_hint(), (all.len(), Some(all.len())));
            assert!(children.clone().eq(all.iter().copied()));
            assert!(children.clone().rev().eq(all.iter().rev().copied()));
            assert_eq!(
                children.clone().nth(all.len() / 2),
                Some(all[all.len() / 2])
            );
            assert_eq!(children.clone().nth(all.len()), None);
            assert!(all.windows(2).all(|pair| pair[0] < pair[1]));
        }
    }
}

/// The descendants that are passed over are not asked for, so none of this takes years.
#[test]
fn children_by_number() {
    let parent = cell(0x8029fffffffffff);
    let all = parent.children(Resolution::Fifteen).unwrap();
    let (count, last) = (4_747_561_509_943, cell(0x8f29b6db6db6db6));
    assert_eq!(all.clone().last(), Some(last));
    assert_eq!(all.clone().count(), count);
    assert_eq!(all.clone().nth(count - 1), Some(last));
    assert_eq!(all.clone().nth(count), None);
    assert_eq!(all.clone().nth_back(0), Some(last));
    assert_eq!(
        all.clone().nth_back(count - 1),
        Some(cell(0x8f2800000000000))
    );
    let mut rest = all;
    assert!(rest.nth(count - 3).is_some());
    assert_eq!((rest.len(), rest.clone().count()), (2, 2));
    assert_eq!(rest.next_back(), Some(last));
    assert!(rest.next().is_some() && rest.clone().last().is_none());
}

/// No index is 0, so there is room for the absence of one.
#[test]
fn sizes() {
    assert_eq!(std::mem::size_of::<Option<Cell>>(), 8);
    assert_eq!(std::mem::size_of::<Option<Edge>>(), 8);
}

#[test]
fn edges() {
    let hexagon = cell(0x85283473fffffff);
    let edge: Edge = "115283473fffffff".parse().unwrap();
    assert_eq!(edge.origin(), hexagon);
    assert_eq!(hexagon.edges().count(), 6);
    assert!(hexagon.edges().all(|edge| edge.origin() == hexagon));
    let indexes: Vec<u64> = cell(0x8009fffffffffff).edges().map(u64::from).collect();
    assert_eq!(
        indexes,
        [
            0x12009fffffffffff,
            0x13009fffffffffff,
            0x14009fffffffffff,
            0x15009fffffffffff,
            0x16009fffffffffff
        ]
    );
    for index in [
        0,
        0x11009fffffffffff,
        0x85283473fffffff,
        0x10085283473fffff,
        u64::MAX,
    ] {
        assert_eq!(Edge::try_from(index).unwrap_err(), Error::DirEdgeInvalid);
    }
}

#[test]
fn lists() {
    let mut siblings = cells(&CHILDREN);
    siblings.reverse();
    assert_eq!(compact(&siblings), Ok(cells(&[0x85283473fffffff])));
    assert_eq!(
        compact(&cells(&PENTAGON_CHILDREN)),
        Ok(cells(&[0x8009fffffffffff]))
    );
    assert_eq!(
        compact(&cells(&PENTAGON_CHILDREN[..5])),
        Ok(cells(&PENTAGON_CHILDREN[..5]))
    );
    assert_eq!(compact(&[]), Ok(vec![]));
    let hexagon = cell(0x85283473fffffff);
    assert_eq!(compact(&[hexagon, hexagon]), Err(Error::DuplicateInput));
    assert_eq!(
        compact(&cells(&[0x85283473fffffff, 0x8428347ffffffff])),
        Err(Error::DuplicateInput)
    );
    assert_eq!(uncompact(&[hexagon], Resolution::Six), Ok(cells(&CHILDREN)));
    assert_eq!(
        uncompact(&[hexagon], Resolution::Four),
        Err(Error::ResMismatch)
    );
    assert_eq!(uncompact(&[], Resolution::Four), Ok(vec![]));
    let both = uncompact(
        &cells(&[0x8009fffffffffff, 0x81283ffffffffff]),
        Resolution::One,
    )
    .unwrap();
    assert_eq!(both[..6], cells(&PENTAGON_CHILDREN));
    assert_eq!(both[6..], [cell(0x81283ffffffffff)]);
    // more cells than any memory has room for
    assert_eq!(
        uncompact(&Cell::base_cells(), Resolution::Fifteen),
        Err(Error::MemoryAlloc)
    );
}

#[test]
fn columns_of_all_kinds() {
    let mut indexes = vec![0x8009fffffffffff, 0x85283473fffffff];
    indexes.extend(INVALID);
    let n = indexes.len();
    let mut numbers = vec![7; n + 1];
    columns::valid(&indexes, &mut numbers).unwrap();
    assert_eq!(numbers[..4], [1, 1, 0, 0]);
    assert_eq!(numbers[n], 7);
    columns::valid_edges(&indexes, &mut numbers).unwrap();
    assert_eq!(numbers[n - 2..], [0, 1, 7]);
    let refused = columns::pentagons(&indexes, &mut numbers).unwrap_err();
    assert_eq!((refused.error, refused.at), (Error::CellInvalid, 2));
    assert_eq!(numbers[..3], [1, 0, -1]);
    columns::class3(&indexes[..2], &mut numbers).unwrap();
    assert_eq!(numbers[..3], [0, 1, -1]);
    columns::resolutions(&indexes[..2], &mut numbers).unwrap();
    assert_eq!(numbers[..2], [0, 5]);
    columns::base_cells(&indexes[..2], &mut numbers).unwrap();
    assert_eq!(numbers[..2], [4, 20]);

    let mut parents = vec![1; n];
    let refused = columns::parents(&indexes, Resolution::Three, &mut parents).unwrap_err();
    assert_eq!((refused.error, refused.at), (Error::ResMismatch, 0));
    assert_eq!(
        refused.to_string(),
        "at 0: error 12: E_RES_MISMATCH: 8009fffffffffff"
    );
    assert_eq!(parents[..3], [0, 0x832834fffffffff, 0]);
    let refused =
        columns::center_children(&indexes, Resolution::Fifteen, &mut parents).unwrap_err();
    assert_eq!((refused.error, refused.at), (Error::CellInvalid, 2));
    assert_eq!(parents[1], 0x8f2834700000000);
    let refused = columns::last_children(&indexes, Resolution::Seven, &mut parents).unwrap_err();
    assert_eq!((refused.error, refused.at), (Error::CellInvalid, 2));
    assert_eq!(parents[..3], [0x8709b6db6ffffff, 0x872834736ffffff, 0]);
    let mut counts = vec![1; n];
    columns::children_counts(&indexes[..2], Resolution::Fifteen, &mut counts).unwrap();
    assert_eq!(counts[..3], [3_956_301_258_286, 282_475_249, 1]);
    columns::child_positions(&indexes[..2], Resolution::Zero, &mut counts).unwrap();
    assert_eq!(counts[..3], [0, 2279, 1]);
    let mut starts = vec![1; 5];
    let few = [0x8029fffffffffff, 5, 0x8009fffffffffff];
    let refused = columns::children_starts(&few, Resolution::One, &mut starts).unwrap_err();
    assert_eq!((refused.error, refused.at), (Error::CellInvalid, 1));
    assert_eq!(starts, [0, 7, 7, 13, 1]);
    let mut all = vec![1; 14];
    let refused = columns::children(&few, Resolution::One, &mut all).unwrap_err();
    assert_eq!(
        (refused.error, refused.at, refused.index),
        (Error::CellInvalid, 1, Some(5))
    );
    assert_eq!(
        (all[0], all[6], all[13]),
        (0x81283ffffffffff, 0x8129bffffffffff, 1)
    );
    assert_eq!((all[7], all[12]), (0x81083ffffffffff, 0x8109bffffffffff));
    let refused = columns::children(&few, Resolution::One, &mut all[..12]).unwrap_err();
    assert_eq!(
        (refused.error, refused.at, refused.index),
        (Error::MemoryBounds, 2, None)
    );
    let refused = columns::children_starts(&few, Resolution::One, &mut starts[..3]).unwrap_err();
    assert_eq!((refused.error, refused.at), (Error::MemoryBounds, 3));
    assert_eq!(columns::children(&[], Resolution::Zero, &mut []), Ok(()));
    assert_eq!(
        columns::children_starts(&[], Resolution::Zero, &mut starts[..1]),
        Ok(())
    );
    let mut origins = vec![1; n];
    let refused = columns::origins(&indexes, &mut origins).unwrap_err();
    assert_eq!((refused.error, refused.at), (Error::DirEdgeInvalid, 0));
    assert_eq!(origins[n - 2..], [0, 0x85283473fffffff]);

    let refused = columns::parents(&indexes, Resolution::Zero, &mut parents[..n - 1]).unwrap_err();
    assert_eq!((refused.error, refused.at), (Error::MemoryBounds, n - 1));
    assert_eq!(
        refused.to_string(),
        format!("at {}: error 14: E_MEMORY_BOUNDS", n - 1)
    );
    assert_eq!(columns::parents(&[], Resolution::Zero, &mut []), Ok(()));
}

#[test]
fn order_and_hashes() {
    let given = cells(&[
        0x862834707ffffff,
        0x8029fffffffffff,
        0x8009fffffffffff,
        0x81083ffffffffff,
    ]);
    let ordered: Vec<Cell> = given
        .iter()
        .copied()
        .collect::<BTreeSet<_>>()
        .into_iter()
        .collect();
    assert_eq!(ordered, [given[2], given[1], given[3], given[0]]);
    assert_eq!(given.iter().chain(&given).collect::<HashSet<_>>().len(), 4);
}

#[test]
fn errors() {
    assert_eq!(
        (Error::Pentagon.number(), Error::Pentagon.name()),
        (9, "E_PENTAGON")
    );
    assert_eq!(
        Error::OptionInvalid.to_string(),
        "error 15: E_OPTION_INVALID"
    );
    let boxed: Box<dyn std::error::Error> = "xyz".parse::<Cell>().unwrap_err().into();
    assert_eq!(boxed.to_string(), "error 1: E_FAILED: \"xyz\"");
}

/// What was refused is named, a long text by its beginning.
#[test]
fn refusals() {
    for (text, wanted) in [
        ("it's\n", "error 1: E_FAILED: \"it's\\n\""),
        ("", "error 1: E_FAILED: \"\""),
        (" 0X5", "error 5: E_CELL_INVALID: 5"),
    ] {
        assert_eq!(text.parse::<Cell>().unwrap_err().to_string(), wanted);
    }
    let long = "é".repeat(50).parse::<Cell>().unwrap_err();
    assert_eq!(
        long.to_string(),
        format!("error 1: E_FAILED: \"{}\"", "é".repeat(40))
    );
    let refused = Edge::try_from(0x85283473fffffff).unwrap_err();
    assert_eq!(
        refused.to_string(),
        "error 6: E_DIR_EDGE_INVALID: 85283473fffffff"
    );
    assert_eq!(refused.error(), Error::DirEdgeInvalid);
    let parent = || -> Result<Cell, Error> {
        let cell = "xyz".parse::<Cell>()?;
        cell.parent(Resolution::Zero)
    };
    assert_eq!(parent(), Err(Error::Failed));
}

#[test]
fn threads() {
    let hexagon = cell(0x85283473fffffff);
    let wanted = hexagon.children_vec(Resolution::Nine).unwrap();
    std::thread::scope(|scope| {
        for _ in 0..8 {
            scope.spawn(|| {
                assert!(wanted.iter().enumerate().all(|(i, child)| {
                    child.parent(Resolution::Five) == Ok(hexagon)
                        && child.child_position(Resolution::Five) == Ok(i as u64)
                }));
                assert_eq!(compact(&wanted), Ok(vec![hexagon]));
            });
        }
    });
}

/// The file of a table whose links are known: a fixed step for each direction along the ring of the
/// base cells, the last of which this is.
fn table_file(last: u32) -> Vec<u8> {
    let pentagons = [4, 14, 24, 38, 49, 58, 63, 72, 83, 97, 107, 117];
    let mut file = String::from("base,dir,to,rot\n");
    for base in (0..122).filter(|base| !pentagons.contains(base)) {
        for (digit, step) in (1..).zip([110, 11, 121, 1, 111, last]) {
            file += &format!("{base},{digit},{},0\n", (base + step) % 122);
        }
    }
    file.into_bytes()
}

#[test]
fn walks_over_a_table() {
    let table = Table::from_csv(&table_file(12)).unwrap();
    let hexagon = cell(0x85283473fffffff);
    let disk = cells(&[
        0x85283473fffffff,
        0x85283447fffffff,
        0x8528347bfffffff,
        0x85283463fffffff,
        0x85283477fffffff,
        0x8528340ffffffff,
        0x8528340bfffffff,
    ]);
    let mut ring = disk[1..6].to_vec();
    ring.insert(0, disk[6]);
    assert_eq!(table.grid_disk_unsafe(hexagon, 1).as_ref(), Ok(&disk));
    let two = table.grid_disks_unsafe(&[hexagon, disk[1]], 1).unwrap();
    let second = table.grid_disk_unsafe(disk[1], 1).unwrap();
    assert_eq!(two, [&disk[..], &second[..]].concat());
    assert_eq!(table.grid_disks_unsafe(&[], 5), Ok(vec![]));
    let met = [hexagon, cell(0x800bfffffffffff), hexagon];
    let refused = table.grid_disks_unsafe(&met, 1).unwrap_err();
    assert_eq!((refused.error, refused.at), (Error::Pentagon, 1));
    assert_eq!(refused.index, Some(0x800bfffffffffff));
    let refused = table.grid_disks_unsafe(&met, 1 << 31).unwrap_err();
    assert_eq!((refused.error, refused.index), (Error::Domain, None));
    let refused = table.grid_disks_unsafe(&met, i32::MAX as u32).unwrap_err();
    assert_eq!((refused.error, refused.index), (Error::MemoryAlloc, None));
    assert_eq!(table.grid_ring_unsafe(hexagon, 1), Ok(ring));
    assert_eq!(table.grid_ring_unsafe(hexagon, 0), Ok(vec![hexagon]));
    let rings: Vec<_> = disk.into_iter().zip([0, 1, 1, 1, 1, 1, 1]).collect();
    assert_eq!(table.grid_disk_distances_unsafe(hexagon, 1), Ok(rings));
    // near the pentagon base cell 4, and at it
    let near = cell(0x800bfffffffffff);
    let pentagon = cell(0x8009fffffffffff);
    for origin in [near, pentagon] {
        assert_eq!(table.grid_disk_unsafe(origin, 1), Err(Error::Pentagon));
        assert_eq!(table.grid_ring_unsafe(origin, 1), Err(Error::Pentagon));
        let refused = table.grid_disk_distances_unsafe(origin, 1);
        assert_eq!(refused, Err(Error::Pentagon));
    }
    assert_eq!(table.grid_disk_unsafe(hexagon, 1 << 31), Err(Error::Domain));
    assert_eq!(
        table.grid_disk_unsafe(hexagon, i32::MAX as u32),
        Err(Error::MemoryAlloc)
    );
}

#[test]
fn edges_over_a_table() {
    let table = Table::from_csv(&table_file(12)).unwrap();
    let [a, b] = [0x85283473fffffff, 0x85283477fffffff].map(cell);
    let edge = Edge::try_from(0x115283473fffffff).unwrap();
    assert_eq!(table.edge_between(a, b), Ok(edge));
    assert_eq!(table.clone().edge_destination(edge), Ok(b));
    assert_eq!(table.edge_between(a, a), Err(Error::NotNeighbors));
    let coarse = cell(0x8428347ffffffff);
    assert_eq!(table.edge_between(a, coarse), Err(Error::ResMismatch));
    let met = Edge::try_from(0x11021fffffffffff).unwrap();
    assert_eq!(table.edge_destination(met), Err(Error::Pentagon));
    let other = cell(0x8528340ffffffff);
    assert_eq!(table.are_neighbors(other, a), Ok(true));
    assert_eq!(
        table.are_neighbors(other, cell(0x8528347bfffffff)),
        Ok(false)
    );
    assert_eq!(table.are_neighbors(other, other), Ok(false));
}

#[test]
fn refused_tables() {
    for (file, error) in [
        ("", TableError::Form(1)),
        ("base,dir,to,rot\n", TableError::Missing),
        ("base,dir,to,rot\n4,1,0,0\n", TableError::Range(2)),
    ] {
        assert_eq!(Table::from_csv(file.as_bytes()).err(), Some(error));
    }
    let refused = Table::from_csv(&table_file(13)).err();
    assert_eq!(refused, Some(TableError::Reversal(0, 1)));
    assert_eq!(refused.unwrap().to_string(), "table: reversal 0 1");
}

/// Iterators say how many items they have left, from both ends.
#[test]
fn iterators_have_lengths() {
    fn ends<I: DoubleEndedIterator + ExactSizeIterator + FusedIterator>(
        mut items: I,
    ) -> [usize; 4] {
        let whole = items.len();
        items.next();
        let less = items.len();
        items.next_back();
        [whole, less, items.len(), items.count()]
    }
    let hexagon = Cell::try_from(0x85283473fffffff).unwrap();
    let pentagon = Cell::try_from(0x8009fffffffffff).unwrap();
    assert_eq!(ends(hexagon.edges()), [6, 5, 4, 4]);
    assert_eq!(ends(pentagon.edges()), [5, 4, 3, 3]);
    let directions = |cell: Cell| {
        cell.edges()
            .map(|edge| u64::from(edge) >> 56 & 7)
            .collect::<Vec<_>>()
    };
    assert_eq!(directions(hexagon), [1, 2, 3, 4, 5, 6]);
    assert_eq!(directions(pentagon), [2, 3, 4, 5, 6]);
    assert_eq!(
        ends(hexagon.children(Resolution::Six).unwrap()),
        [7, 6, 5, 5]
    );
    assert_eq!(
        ends(pentagon.children(Resolution::One).unwrap()),
        [6, 5, 4, 4]
    );
    let zones = Zones::new(&[hexagon, pentagon]).unwrap();
    assert_eq!(ends(zones.count(&[hexagon]).unwrap().iter()), [2, 1, 0, 0]);
    assert_eq!(ends(zones.iter()), [2, 1, 0, 0]);
}
