//! The plain Rust programs that the command h3 is measured against: the same work over the same kinds of buffers,
//! with no proof. `plain valid CELL`, `plain children CELL RES`, `plain uncompact RES` and `plain compact` (cells on
//! standard input), `plain positions COUNT` (that many positions and back), `plain table` (a table file; `table twisted`
//! and `table bases` are others, the last of format 2), `plain tables COUNT` (that many readings of the table file on
//! standard input), `plain steps COUNT` (that many times round the ring of radius 1000, over the table on standard
//! input), `plain disk CELL K TABLE` and `plain ring CELL K TABLE`. Of each index on standard input: `plain valid`,
//! `plain resolutions`, `plain parents RES` and `plain places RES` (its position below its ancestor). `plain zones COUNT
//! PERCENT ORDER` looks a million cells, `sorted` or `random`, up COUNT times in so many in a hundred of the cells of
//! resolution 5. `plain trips COUNT` writes a table of so many rows, and `plain rows FIELD RES` each row of one with the
//! parent of the cell in that field. `plain counts RES` writes each ancestor of the cells on standard input with how many
//! of them have it, `plain anywhere COUNT` so many random cells of resolution 9, and `plain areas CELL RES` a table of
//! the children, each with one of a thousand names.
//!
//! Lists to be compacted: `plain first COUNT CELL RES` (the first children), `plain shuffled CELL RES` (all children in a
//! random order, always the same), `plain lone CELL RES` (one child of each parent) and `plain mixed CELL RES` (the
//! compacted list of the children but one of 160, in a random way that is always the same, with the children one level
//! down in place of every tenth cell).

pub mod rows;
pub mod texts;
pub mod walks;

use std::env;
use std::fs;
use std::io::{self, Read, Write};
use texts::{Page, read_index, read_plain};

pub const PENTAGONS: [u64; 12] = [4, 14, 24, 38, 49, 58, 63, 72, 83, 97, 107, 117];

pub fn base(cell: u64) -> u64 {
    cell >> 45 & 127
}

pub fn resolution(cell: u64) -> u64 {
    cell >> 52 & 15
}

pub fn digit(cell: u64, r: u64) -> u64 {
    cell >> (45 - 3 * r) & 7
}

pub fn with_digit(cell: u64, r: u64, digit: u64) -> u64 {
    cell & !(7 << (45 - 3 * r)) | digit << (45 - 3 * r)
}

/// Whether a number is a cell's: all digits are tested at once.
pub fn is_valid(cell: u64) -> bool {
    if cell >> 56 != 8 || base(cell) > 121 {
        return false;
    }
    let places = 3 * (15 - resolution(cell));
    let unused = (1 << places) - 1;
    let digits = (cell & (1 << 45) - 1) >> places;
    let sevens = digits & digits >> 1 & digits >> 2 & 0o111_111_111_111_111;
    // the first digit that is not 0 is 1 where its highest bit is the lowest of three
    let leads_with_one = digits.leading_zeros() % 3 == 0;
    cell & unused == unused && sevens == 0 && !(leads_with_one && PENTAGONS.contains(&base(cell)))
}

pub fn is_pentagon(cell: u64) -> bool {
    (cell & (1 << 45) - 1) >> (3 * (15 - resolution(cell))) == 0 && PENTAGONS.contains(&base(cell))
}

pub fn center(cell: u64, res: u64) -> u64 {
    let finer = res - resolution(cell) << 52;
    cell + finer + (1 << (3 * (15 - res))) - (1 << (3 * (15 - resolution(cell))))
}

fn count(pentagon: bool, levels: u64) -> u64 {
    let sevens = 7u64.pow(levels as u32);
    if pentagon { 1 + 5 * (sevens - 1) / 6 } else { sevens }
}

/// The children of a cell: the next, how many are left, and what one more in the last digit adds to a number.
pub struct Children {
    next: u64,
    left: u64,
    unit: u64,
}

impl Children {
    pub fn of(cell: u64, res: u64) -> Children {
        Children {
            next: center(cell, res),
            left: count(is_pentagon(cell), res - resolution(cell)),
            unit: 1 << (3 * (15 - res)),
        }
    }
}

/// The next cell where it has another parent, or the one between is deleted.
fn next_cousin(cell: u64) -> u64 {
    let mut r = resolution(cell);
    let mut next = cell;
    while digit(next, r) == 6 {
        next = with_digit(next, r, 0);
        r -= 1;
    }
    let d = digit(next, r);
    // the digit 1 is deleted below a pentagon
    let skips = d == 0
        && PENTAGONS.contains(&base(cell))
        && (1..r).all(|above| digit(cell, above) == 0);
    with_digit(next, r, if skips { 2 } else { d + 1 })
}

impl Iterator for Children {
    type Item = u64;

    #[inline(always)]
    fn next(&mut self) -> Option<u64> {
        if self.left == 0 {
            return None;
        }
        self.left -= 1;
        let cell = self.next;
        if self.left > 0 {
            let last = cell & 7 * self.unit;
            self.next = if last == 6 * self.unit || last == 0 && is_pentagon(cell) {
                next_cousin(cell)
            } else {
                cell + self.unit
            };
        }
        Some(cell)
    }
}

fn cell_of(index: u64) -> u64 {
    Some(index).filter(|cell| is_valid(*cell)).expect("a cell")
}

/// Hands on the index of each line of standard input that is not blank.
#[inline(always)]
fn for_indexes(mut take: impl FnMut(u64) -> io::Result<()>) -> io::Result<()> {
    let mut input = io::stdin().lock();
    let mut page = vec![0; 65536];
    let mut held = 0;
    loop {
        let count = input.read(&mut page[held..])?;
        let end = held + count;
        let mut start = 0;
        loop {
            // lines of fifteen digits, one after another
            while start + 16 <= end
                && page[start + 15] == b'\n'
                && let Some(index) = read_plain(&page[start..start + 15])
            {
                take(index)?;
                start += 16;
            }
            let Some(length) = page[start..end].iter().position(|b| *b == b'\n') else {
                break;
            };
            let line = &page[start..start + length];
            if !line.trim_ascii().is_empty() {
                take(read_index(line).expect("an index"))?;
            }
            start += length + 1;
        }
        if count == 0 {
            if !page[start..end].trim_ascii().is_empty() {
                take(read_index(&page[start..end]).expect("an index"))?;
            }
            return Ok(());
        }
        page.copy_within(start..end, 0);
        held = end - start;
    }
}

fn read_cells() -> io::Result<Vec<u64>> {
    let mut cells = Vec::new();
    for_indexes(|index| {
        cells.push(cell_of(index));
        Ok(())
    })?;
    Ok(cells)
}

/// Writes each of these numbers, which are in order, with how often it is there.
pub fn put_counts(out: &mut Page<impl Write>, ordered: &[u64]) -> io::Result<()> {
    ordered.chunk_by(|one, other| one == other).try_for_each(|run| out.put_counted(run[0], run.len() as u64))
}

/// The ancestors at a resolution of the cells on standard input.
fn read_parents(res: u64) -> io::Result<Vec<u64>> {
    let mut parents = Vec::new();
    for_indexes(|index| {
        parents.push(parent_at(cell_of(index), res));
        Ok(())
    })?;
    Ok(parents)
}

/// The cell without its mode and resolution: in this order each cell comes right after its descendants.
fn post_order_key(cell: u64) -> u64 {
    cell & (1 << 52) - 1
}

pub fn parent_at(cell: u64, res: u64) -> u64 {
    assert!(res <= resolution(cell));
    cell & !(15 << 52) | res << 52 | (1 << (3 * (15 - res))) - 1
}

fn parent(cell: u64, level: u64) -> u64 {
    with_digit(cell & !(15 << 52) | (level - 1) << 52, level, 7)
}

/// The number of cells in a complete set of siblings of a resolution that the cells begin with; else 0.
fn siblings(cells: &[u64], level: u64) -> usize {
    let first = cells[0];
    if resolution(first) != level || digit(first, level) != 0 {
        return 0;
    }
    let skipped = usize::from(is_pentagon(parent(first, level)));
    let count = 7 - skipped;
    let is_whole = cells.len() >= count
        && (1..count).all(|i| cells[i] == with_digit(first, level, (i + skipped) as u64));
    if is_whole { count } else { 0 }
}

/// Replaces the complete sets of siblings of a resolution by their parents, and returns how many cells there are then.
pub fn merge(cells: &mut [u64], level: u64) -> usize {
    let mut written = 0;
    let mut i = 0;
    while i < cells.len() {
        let count = siblings(&cells[i..], level);
        cells[written] = if count > 0 { parent(cells[i], level) } else { cells[i] };
        i += count.max(1);
        written += 1;
    }
    written
}

/// Whether a cell comes before another one and all cells below that.
pub fn is_before(cell: u64, other: u64) -> bool {
    post_order_key(cell) + (1 << (3 * (15 - resolution(other)))) <= post_order_key(other)
}

/// The compacted list of cells of which no two overlap: one sort, and a pass for each resolution that some cell has.
pub fn compact(cells: &mut Vec<u64>) {
    cells.sort_unstable_by_key(|cell| post_order_key(*cell));
    assert!(cells.windows(2).all(|pair| is_before(pair[0], pair[1])), "two cells overlap");
    let mut used = cells.iter().fold(0u16, |used, cell| used | 1 << resolution(*cell));
    for level in (1..=15).rev() {
        if used >> level & 1 == 0 {
            continue;
        }
        let count = merge(cells, level);
        if count < cells.len() {
            used |= 1 << (level - 1);
            cells.truncate(count);
        }
    }
    cells.sort_unstable();
}

fn random(state: &mut u64) -> u64 {
    *state ^= *state << 13;
    *state ^= *state >> 7;
    *state ^= *state << 17;
    *state
}

/// Puts the cells into a random order, always the same.
fn shuffle(cells: &mut [u64]) {
    let mut state = 0x9e37_79b9_7f4a_7c15u64;
    for i in (1..cells.len()).rev() {
        cells.swap(i, (random(&mut state) % (i as u64 + 1)) as usize);
    }
}

/// A random number of 31 bits, the same from the same state.
fn congruence(state: &mut u64) -> u64 {
    *state = state.wrapping_mul(6_364_136_223_846_793_005).wrapping_add(1_442_695_040_888_963_407);
    *state >> 33
}

pub fn key(cell: u64) -> u64 {
    cell & (1 << 52) - 1
}

fn base_cell(base: u64) -> u64 {
    0x0800_1fff_ffff_ffff + (base << 45)
}

/// A random cell of resolution 9, the same from the same state.
fn anywhere(state: &mut u64) -> u64 {
    let base = base_cell(congruence(state) % 122);
    child_at(congruence(state) % 30_000_000, base, 9)
}

/// The sum of the zones of a million random cells of resolution 9, each looked up `rounds` times by `partition_point`
/// in zones that are so many in a hundred of the cells of resolution 5.
fn look_up(rounds: u64, percent: u64, sorted: bool) -> u64 {
    let mut state = 1;
    let mut zones: Vec<u64> = (0..122)
        .flat_map(|base| Children::of(base_cell(base), 5))
        .filter(|_| congruence(&mut state) % 100 < percent)
        .collect();
    zones.sort_unstable_by_key(|zone| key(*zone));
    let mut state = 2;
    let mut cells: Vec<u64> = (0..1_000_000).map(|_| anywhere(&mut state)).collect();
    if sorted {
        cells.sort_unstable();
    }
    let mut sum = 0u64;
    for _ in 0..rounds {
        for cell in std::hint::black_box(&cells) {
            sum = sum.wrapping_add(zone_of(&zones, *cell).unwrap_or(0));
        }
    }
    sum
}

/// The cells of a file.
pub fn cells_of_file(path: &str) -> io::Result<Vec<u64>> {
    let text = fs::read_to_string(path)?;
    Ok(text.lines().map(|line| cell_of(read_index(line.as_bytes()).expect("an index"))).collect())
}

/// The zone of a cell, of zones in ascending order of their keys.
fn zone_of(zones: &[u64], cell: u64) -> Option<u64> {
    let place = zones.partition_point(|zone| key(*zone) < key(cell));
    let step = |zone: u64| 1 << (3 * (15 - resolution(zone)));
    zones.get(place).copied().filter(|zone| key(*zone) - key(cell) < step(*zone))
}

fn write_cells(out: &mut Page<impl Write>, cells: impl Iterator<Item = u64>) -> io::Result<()> {
    for cell in cells {
        out.put(cell)?;
    }
    Ok(())
}

/// The children of a cell given in words.
fn children(cell: &str, res: &str) -> Children {
    Children::of(
        cell_of(read_index(cell.as_bytes()).expect("an index")),
        res.parse().expect("a resolution"),
    )
}

pub fn position(cell: u64, ancestor_res: u64) -> u64 {
    let res = resolution(cell);
    let mut pentagon = PENTAGONS.contains(&base(cell)) && (1..=ancestor_res).all(|r| digit(cell, r) == 0);
    let mut before = 0;
    for r in ancestor_res + 1..=res {
        let d = digit(cell, r);
        if !pentagon {
            before += d * count(false, res - r);
        } else if d != 0 {
            before += count(true, res - r) + (d - 2) * count(false, res - r);
            pentagon = false;
        }
    }
    before
}

pub fn child_at(position: u64, cell: u64, res: u64) -> u64 {
    let mut pentagon = is_pentagon(cell);
    let mut left = position;
    let mut child = center(cell, res);
    for r in resolution(cell) + 1..=res {
        let all = count(false, res - r);
        let first = if pentagon { count(true, res - r) } else { 0 };
        if pentagon && left < first {
            continue;
        }
        left -= first;
        child = with_digit(child, r, left / all + if pentagon { 2 } else { 0 });
        left %= all;
        pentagon = false;
    }
    child
}

const STEPS: [u8; 6] = [110, 11, 121, 1, 111, 12];

/// The directions K, J, JK, I, IK and IJ turned once.
const TURNED: [usize; 6] = [4, 2, 0, 5, 3, 1];

pub type Links = [[Option<(u8, u8)>; 6]; 122];

fn is_hexagon(base: u8) -> bool {
    base < 122 && !PENTAGONS.contains(&u64::from(base))
}

pub fn turned(direction: usize, n: u8) -> usize {
    (0..n).fold(direction, |d, _| TURNED[d])
}

fn number(field: &[u8]) -> Option<u16> {
    if field.is_empty() || field.len() > 3 {
        return None;
    }
    field.iter().try_fold(0, |n, b| b.is_ascii_digit().then(|| n * 10 + u16::from(b - b'0')))
}

const BASES_HEADER: &str = "base,k,j,jk,i,ik,ij,rk,rj,rjk,ri,rik,rij";

/// The links in the records of format 2.
fn read_bases<'a>(lines: impl Iterator<Item = &'a [u8]>) -> Option<Links> {
    let mut links = [[None; 6]; 122];
    for line in lines {
        let mut fields = line.split(|b| *b == b',').map(number);
        let base = fields.next()??;
        if base > 121 || !is_hexagon(base as u8) || links[base as usize][0].is_some() {
            return None;
        }
        let mut numbers = [0; 12];
        for number in &mut numbers {
            *number = fields.next()??;
        }
        if fields.next().is_some() || numbers[..6].iter().any(|to| *to > 121) || numbers[6..].iter().any(|turns| *turns > 5) {
            return None;
        }
        for (d, slot) in links[base as usize].iter_mut().enumerate() {
            *slot = Some((numbers[d] as u8, numbers[6 + d] as u8));
        }
    }
    Some(links)
}

fn read_records(text: &[u8]) -> Option<Links> {
    let mut lines = text.split(|b| *b == b'\n').filter(|line| !line.is_empty());
    let header = lines.next()?;
    if header == BASES_HEADER.as_bytes() {
        return read_bases(lines);
    }
    if header != b"base,dir,to,rot" {
        return None;
    }
    let mut links = [[None; 6]; 122];
    for line in lines {
        let mut fields = line.split(|b| *b == b',').map(number);
        let (base, direction) = (fields.next()??, fields.next()??);
        let (to, turns) = (fields.next()??, fields.next()??);
        let is_good = base < 122 && is_hexagon(base as u8) && (1..7).contains(&direction) && to < 122 && turns < 6;
        if fields.next().is_some() || !is_good {
            return None;
        }
        let slot = &mut links[base as usize][direction as usize - 1];
        if slot.replace((to as u8, turns as u8)).is_some() {
            return None;
        }
    }
    Some(links)
}

fn fits(links: &Links, base: u8, d: usize) -> Option<bool> {
    let own = &links[base as usize];
    let (to, turns) = own[d]?;
    let (next, next_turns) = own[TURNED[d]]?;
    let is_apart = to != base && (0..6).all(|e| e == d || own[e].is_some_and(|link| link.0 != to));
    if !is_apart || !is_hexagon(to) {
        return Some(is_apart);
    }
    let reverses = links[to as usize][turned(d, turns + 3)]? == (base, (6 - turns) % 6);
    let closes = !is_hexagon(next) || links[to as usize][turned(d, turns + 2)]? == (next, (next_turns + 6 - turns) % 6);
    Some(reverses && closes)
}

pub fn read_table(text: &[u8]) -> Option<Links> {
    let links = read_records(text)?;
    let are_good = (0..122).filter(|b| is_hexagon(*b)).all(|b| (0..6).all(|d| fits(&links, b, d) == Some(true)));
    are_good.then_some(links)
}

fn plain_neighbor(base: u8, direction: usize) -> u8 {
    ((u16::from(base) + u16::from(STEPS[direction])) % 122) as u8
}

/// A table file with these links.
fn write_table(out: &mut impl Write, link: impl Fn(u8, usize) -> (u8, u8)) -> io::Result<()> {
    writeln!(out, "base,dir,to,rot")?;
    for base in (0..122).filter(|b| is_hexagon(*b)) {
        for d in 0..6 {
            let (to, turns) = link(base, d);
            writeln!(out, "{base},{},{to},{turns}", d + 1)?;
        }
    }
    Ok(())
}

/// A table file of format 2 with these links.
fn write_bases(out: &mut impl Write, link: impl Fn(u8, usize) -> (u8, u8)) -> io::Result<()> {
    writeln!(out, "{BASES_HEADER}")?;
    for base in (0..122).filter(|b| is_hexagon(*b)) {
        write!(out, "{base}")?;
        (0..6).try_for_each(|d| write!(out, ",{}", link(base, d).0))?;
        (0..6).try_for_each(|d| write!(out, ",{}", link(base, d).1))?;
        writeln!(out)?;
    }
    Ok(())
}

fn main() -> io::Result<()> {
    let words: Vec<String> = env::args().skip(1).collect();
    let words: Vec<&str> = words.iter().map(String::as_str).collect();
    let mut out = Page::new(io::stdout().lock());
    match words[..] {
        ["valid", cell] => writeln!(out, "{}", u64::from_str_radix(cell, 16).is_ok_and(is_valid))?,
        ["children", cell, res] => write_cells(&mut out, children(cell, res))?,
        ["first", count, cell, res] => {
            write_cells(&mut out, children(cell, res).take(count.parse().expect("a number")))?
        }
        ["shuffled", cell, res] => {
            let mut cells: Vec<u64> = children(cell, res).collect();
            shuffle(&mut cells);
            write_cells(&mut out, cells.into_iter())?
        }
        // (of one cell in twenty-eight, at random, its children)
        ["uneven", cell, res] => {
            let mut state = 1;
            for cell in children(cell, res) {
                let res = resolution(cell) + u64::from(random(&mut state) % 28 == 0);
                write_cells(&mut out, Children::of(cell, res))?
            }
        }
        ["lone", cell, res] => {
            let level = res.parse().expect("a resolution");
            write_cells(&mut out, children(cell, res).filter(|child| digit(*child, level) == 3))?
        }
        ["mixed", cell, res] => {
            let mut state = 1;
            let mut cells: Vec<u64> = children(cell, res)
                .filter(|_| random(&mut state) % 160 > 0)
                .collect();
            compact(&mut cells);
            for (i, cell) in cells.into_iter().enumerate() {
                let res = resolution(cell) + u64::from(i % 10 == 0);
                write_cells(&mut out, Children::of(cell, res))?
            }
        }
        ["compact"] => {
            let mut cells = read_cells()?;
            compact(&mut cells);
            write_cells(&mut out, cells.into_iter())?
        }
        ["uncompact", res] => {
            let res = res.parse().expect("a resolution");
            for cell in read_cells()? {
                for child in Children::of(cell, res) {
                    out.put(child)?;
                }
            }
        }
        ["valid"] => for_indexes(|index| out.put_text(if is_valid(index) { b"true\n" } else { b"false\n" }))?,
        ["resolutions"] => for_indexes(|index| out.put_number(resolution(cell_of(index))))?,
        ["parents", res] => {
            let res = res.parse().expect("a resolution");
            for_indexes(|index| out.put(parent_at(cell_of(index), res)))?
        }
        ["counts", res] => {
            let mut parents = read_parents(res.parse().expect("a resolution"))?;
            parents.sort_unstable();
            put_counts(&mut out, &parents)?
        }
        ["anywhere", count] => {
            let mut state = 3;
            let count = count.parse().expect("a number");
            write_cells(&mut out, (0..count).map(|_: u64| anywhere(&mut state)))?
        }
        ["areas", cell, res] => {
            for (i, child) in children(cell, res).enumerate() {
                writeln!(out, "area {}\t{child:x}", i % 1000)?
            }
        }
        ["trips", count] => {
            let cells = children("8001fffffffffff", "9").step_by(7);
            rows::write_trips(&mut out, cells.take(count.parse().expect("a number")))?
        }
        ["rows", field, res] => {
            let (field, level) = (field.parse().expect("a number"), res.parse().expect("a resolution"));
            rows::answer(&mut out, b'\t', level, |bytes| rows::find(bytes, field, b'\t'))?
        }
        ["places", res] => {
            let res = res.parse().expect("a resolution");
            for_indexes(|index| out.put_number(position(cell_of(index), res)))?
        }
        ["lookup", zones] => {
            let mut zones = cells_of_file(zones)?;
            zones.sort_unstable_by_key(|zone| key(*zone));
            for_indexes(|index| match zone_of(&zones, cell_of(index)) {
                Some(zone) => out.put(zone),
                None => out.put_text(b"0\n"),
            })?
        }
        ["positions", places] => {
            let cell = 0x8009fffffffffff;
            let mut sum = 0u64;
            for place in 0..places.parse().expect("a number") {
                let child = child_at(place * 395_630, cell, 15);
                sum = sum.wrapping_add(child ^ position(child, 0));
            }
            writeln!(out, "{sum}")?;
        }
        ["zones", rounds, percent, order] => {
            let rounds = rounds.parse().expect("a number");
            let percent = percent.parse().expect("a number");
            writeln!(out, "{}", look_up(rounds, percent, order == "sorted"))?;
        }
        ["table"] => write_table(&mut out, |base, d| (plain_neighbor(base, d), 0))?,
        ["table", "bases"] => write_bases(&mut out, |base, d| (plain_neighbor(base, d), 0))?,
        ["table", "twisted"] => write_table(&mut out, |base, d| {
            let to = plain_neighbor(base, turned(d, 6 - base % 6));
            (to, (to % 6 + 6 - base % 6) % 6)
        })?,
        ["tables", count] => {
            let mut text = Vec::new();
            io::stdin().lock().read_to_end(&mut text)?;
            let mut sum = 0;
            for _ in 0..count.parse().expect("a number") {
                let links = read_table(std::hint::black_box(&text)).expect("a table");
                let (to, turns) = links[121][5].expect("a link");
                sum += u64::from(to) + u64::from(turns);
            }
            writeln!(out, "{sum}")?;
        }
        ["steps", rounds] => {
            let mut text = Vec::new();
            io::stdin().lock().read_to_end(&mut text)?;
            let links = read_table(&text).expect("a table");
            let rounds = rounds.parse().expect("a number");
            writeln!(out, "{}", walks::rounds(&links, 0x8f2800000000000, rounds))?;
        }
        [shape @ ("disk" | "ring"), cell, k, table] => {
            let links = read_table(&fs::read(table)?).expect("a table");
            let origin = u64::from_str_radix(cell, 16).expect("a cell");
            let k = k.parse().expect("a radius");
            match shape {
                "disk" => walks::disk(&mut out, &links, origin, k)?,
                _ => walks::ring(&mut out, &links, origin, k)?,
            }
        }
        _ => panic!("unknown words"),
    }
    out.flush()
}
