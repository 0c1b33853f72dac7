//! What is written and read in JSON and in bincode, and what is refused.

use h3whole::{Cell, Edge, Region, Resolution, Zones};
use h3whole_serde::{Form, Serde};
use serde::{Deserialize, Serialize};
use std::collections::{BTreeMap, HashMap};
use std::fmt::Debug;

const CELL: u64 = 0x85283473fffffff;
const EDGE: u64 = 0x115283473fffffff;

fn cell(index: u64) -> Cell {
    Cell::try_from(index).unwrap()
}

fn tried<T: Form + Clone + PartialEq + Debug>(value: T, json: &str, numbers: &[u8]) {
    let value = Serde(value);
    assert_eq!(serde_json::to_string(&value).unwrap(), json);
    assert_eq!(serde_json::from_str::<Serde<T>>(json).unwrap(), value);
    assert_eq!(bincode::serialize(&value).unwrap(), numbers);
    assert_eq!(bincode::deserialize::<Serde<T>>(numbers).unwrap(), value);
}

/// A list in bincode: how many items there are, and these.
fn listed(cells: &[u64]) -> Vec<u8> {
    let length = cells.len() as u64;
    [length]
        .iter()
        .chain(cells)
        .flat_map(|number| number.to_le_bytes())
        .collect()
}

#[test]
fn forms() {
    tried(cell(CELL), "\"85283473fffffff\"", &CELL.to_le_bytes());
    tried(
        Edge::try_from(EDGE).unwrap(),
        "\"115283473fffffff\"",
        &EDGE.to_le_bytes(),
    );
    for (number, resolution) in (0u8..).zip(Resolution::ALL) {
        tried(resolution, &number.to_string(), &[number]);
    }
    tried(
        Some(cell(CELL)),
        "\"85283473fffffff\"",
        &[&[1], &CELL.to_le_bytes()[..]].concat(),
    );
    tried(None::<Cell>, "null", &[0]);
    let cells = [0x8009fffffffffff, CELL];
    let json = "[\"8009fffffffffff\",\"85283473fffffff\"]";
    tried(cells.map(cell).to_vec(), json, &listed(&cells));
    tried(Region::of(&cells.map(cell)).unwrap(), json, &listed(&cells));
    tried(Region::default(), "[]", &listed(&[]));
}

#[test]
fn regions_and_zones() {
    let children = cell(CELL).children_vec(Resolution::Seven).unwrap();
    let json = serde_json::to_string(&Serde(children.clone())).unwrap();
    let region: Serde<Region> = serde_json::from_str(&json).unwrap();
    assert_eq!(region.0.as_slice(), [cell(CELL)]);
    let zones = Serde(Zones::new(&children).unwrap());
    assert_eq!(serde_json::to_string(&zones).unwrap(), json);
    let again: Serde<Zones> = bincode::deserialize(&bincode::serialize(&zones).unwrap()).unwrap();
    assert_eq!(again.0.zone_of(children[5]), Some(children[5]));
    assert_eq!(again.0.len(), 49);
}

fn refused<T: Form>(json: &str, said: &str) {
    let error = serde_json::from_str::<Serde<T>>(json)
        .map(|_| ())
        .unwrap_err();
    assert!(error.to_string().starts_with(said), "{json}: {error}");
}

fn refused_number<T: Form>(bytes: &[u8], said: &str) {
    let error = bincode::deserialize::<Serde<T>>(bytes)
        .map(|_| ())
        .unwrap_err();
    assert_eq!(error.to_string(), said);
}

#[test]
fn errors() {
    refused::<Cell>("\"xyz\"", "error 1: E_FAILED: \"xyz\"");
    refused::<Cell>(
        "\"81087ffffffffff\"",
        "error 5: E_CELL_INVALID: 81087ffffffffff",
    );
    refused::<Cell>("\"115283473fffffff\"", "error 5: E_CELL_INVALID");
    refused::<Edge>(
        "\"85283473fffffff\"",
        "error 6: E_DIR_EDGE_INVALID: 85283473fffffff",
    );
    // (a number of JSON may have lost digits already)
    for json in ["599686042433355775", "5.5", "null", "[]", "true"] {
        refused::<Cell>(json, "invalid type: ");
    }
    for json in ["16", "256", "4294967296"] {
        refused::<Resolution>(json, "error 4: E_RES_DOMAIN");
    }
    refused::<Resolution>("-1", "invalid type: integer `-1`, expected a number");
    refused::<Vec<Cell>>("[\"85283473fffffff\",\"5\"]", "error 5: E_CELL_INVALID: 5");
    refused::<Region>("[\"5\"]", "error 5: E_CELL_INVALID: 5");
    refused::<Zones>(
        "[\"85283473fffffff\",\"8428347ffffffff\"]",
        "error 10: E_DUPLICATE_INPUT",
    );
    refused_number::<Cell>(&5u64.to_le_bytes(), "error 5: E_CELL_INVALID: 5");
    refused_number::<Edge>(
        &CELL.to_le_bytes(),
        "error 6: E_DIR_EDGE_INVALID: 85283473fffffff",
    );
    refused_number::<Resolution>(&[16], "error 4: E_RES_DOMAIN");
    refused_number::<Zones>(&listed(&[CELL, CELL]), "error 10: E_DUPLICATE_INPUT");
    refused_number::<Region>(&listed(&[5]), "error 5: E_CELL_INVALID: 5");
}

#[derive(Serialize, Deserialize, PartialEq, Debug)]
struct Place {
    #[serde(with = "h3whole_serde")]
    cell: Cell,
    #[serde(with = "h3whole_serde", default)]
    zone: Option<Cell>,
    #[serde(with = "h3whole_serde")]
    edges: Vec<Edge>,
    counts: BTreeMap<Serde<Cell>, u32>,
}

#[test]
fn fields() {
    let json = "{\"cell\":\"85283473fffffff\",\"edges\":[\"115283473fffffff\"],\"counts\":{\"8009fffffffffff\":3}}";
    let place: Place = serde_json::from_str(json).unwrap();
    assert_eq!(
        (place.cell, place.zone, place.edges.len()),
        (cell(CELL), None, 1)
    );
    assert_eq!(place.counts[&Serde(cell(0x8009fffffffffff))], 3);
    assert_eq!(
        serde_json::to_string(&place).unwrap(),
        json.replace(",\"edges", ",\"zone\":null,\"edges")
    );
    let bytes = bincode::serialize(&place).unwrap();
    assert_eq!(bincode::deserialize::<Place>(&bytes).unwrap(), place);
    let by_cell: HashMap<Serde<Cell>, Serde<Resolution>> =
        serde_json::from_str("{\"85283473fffffff\":5}").unwrap();
    assert_eq!(by_cell[&Serde(cell(CELL))].0, Resolution::Five);
}
