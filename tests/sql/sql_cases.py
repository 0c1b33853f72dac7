"""What tests/sql/sqlite and tests/sql/postgresql share: worked queries, wrong input, and random cells with what the
command h3 says of them. A text that is a cell stands for one in both engines."""
import os
import random
import subprocess
import sys

ROOT = os.path.dirname(os.path.dirname(os.path.dirname(os.path.realpath(__file__))))
sys.path.insert(0, os.path.join(ROOT, "tests"))
import plain_table  # noqa: E402

sys.path.append(os.path.join(ROOT, "python", "tests"))
import plain_cells as plain  # noqa: E402, F401 (cells in plain Python, which the tests of the package have)

PROGRAM = os.path.join(ROOT, "crates", "h3_cli", "out", "h3_cli")
PENTAGON_BASES = {4, 14, 24, 38, 49, 58, 63, 72, 83, 97, 107, 117}
PENTAGONS = [f"{0x8001FFFFFFFFFFF + (base << 45):x}" for base in sorted(PENTAGON_BASES)]
COUNT = 100_000

# of a query, the rows, whose values are divided by |; true is 1, and NULL is empty
ROWS = {
    "SELECT h3_is_valid_cell('85283473fffffff'), h3_is_valid_cell('8009fffffffffff')": ["1|1"],
    # a deleted subsequence, base cell 122, a digit 7, the reserved bit, an edge
    "SELECT h3_is_valid_cell('81087ffffffffff'), h3_is_valid_cell('80f5fffffffffff')": ["0|0"],
    "SELECT h3_is_valid_cell('8109fffffffffff'), h3_is_valid_cell('885283473fffffff')": ["0|0"],
    "SELECT h3_is_valid_cell('115283473fffffff'), h3_is_valid_cell('0')": ["0|0"],
    "SELECT h3_get_resolution('85283473fffffff'), h3_get_resolution('8009fffffffffff')": ["5|0"],
    "SELECT h3_get_base_cell_number('85283473fffffff')": ["20"],
    "SELECT h3_is_pentagon('85283473fffffff'), h3_is_pentagon('8009fffffffffff')": ["0|1"],
    "SELECT h3_is_res_class_iii('85283473fffffff'), h3_is_res_class_iii('8009fffffffffff')": ["1|0"],
    "SELECT h3_get_num_cells(15), h3_get_num_cells(0)": ["569707381193162|122"],
    "SELECT count(*) FROM h3_get_res_0_cells() AS value": ["122"],
    "SELECT h3_cell_to_parent('85283473fffffff', 4)": ["8428347ffffffff"],
    "SELECT h3_cell_to_parent(' 0X85283473FFFFFFF', 5)": ["85283473fffffff"],
    "SELECT h3_cell_to_center_child('85283473fffffff', 15)": ["8f2834700000000"],
    "SELECT h3_cell_to_last_child('85283473fffffff', 7)": ["872834736ffffff"],
    "SELECT h3_cell_to_last_child('85283473fffffff', 5)": ["85283473fffffff"],
    "SELECT h3_cell_to_last_child('8009fffffffffff', 1)": ["8109bffffffffff"],
    "SELECT h3_cell_to_children_size('8029fffffffffff', 15)": ["4747561509943"],
    "SELECT h3_cell_to_children_size('8009fffffffffff', 15)": ["3956301258286"],
    "SELECT value FROM h3_cell_to_children('85283473fffffff', 6) AS value": [
        "862834707ffffff",
        "86283470fffffff",
        "862834717ffffff",
        "86283471fffffff",
        "862834727ffffff",
        "86283472fffffff",
        "862834737ffffff",
    ],
    "SELECT value FROM h3_cell_to_children('8009fffffffffff', 1) AS value": [
        "81083ffffffffff",
        "8108bffffffffff",
        "8108fffffffffff",
        "81093ffffffffff",
        "81097ffffffffff",
        "8109bffffffffff",
    ],
    "SELECT value FROM h3_cell_to_children('85283473fffffff', 5) AS value": ["85283473fffffff"],
    "SELECT h3_cell_to_child_pos('85283473fffffff', 0), h3_cell_to_child_pos('85283473fffffff', 5)": ["2279|0"],
    "SELECT h3_cell_to_child_pos('8209b7fffffffff', 0)": ["40"],
    "SELECT h3_child_pos_to_cell(2279, '8029fffffffffff', 5)": ["85283473fffffff"],
    "SELECT h3_is_valid_directed_edge('115283473fffffff'), h3_is_valid_directed_edge('85283473fffffff')": ["1|0"],
    "SELECT h3_is_valid_directed_edge('11009fffffffffff')": ["0"],
    "SELECT h3_get_directed_edge_origin('115283473fffffff')": ["85283473fffffff"],
    "SELECT value FROM h3_origin_to_directed_edges('8009fffffffffff') AS value": [
        f"1{direction}009fffffffffff" for direction in range(2, 7)
    ],
    "SELECT value FROM h3_origin_to_directed_edges('85283473fffffff') AS value": [
        f"1{direction}5283473fffffff" for direction in range(1, 7)
    ],
    # NULL in, NULL out, and no rows
    "SELECT h3_is_valid_cell(NULL), h3_get_resolution(NULL), h3_cell_to_parent(NULL, 4)": ["||"],
    "SELECT h3_cell_to_parent('85283473fffffff', NULL), h3_child_pos_to_cell(0, NULL, 4)": ["|"],
    "SELECT h3_child_pos_to_cell(NULL, '8029fffffffffff', 4), h3_get_num_cells(NULL)": ["|"],
    "SELECT count(*) FROM h3_cell_to_children(NULL, 4) AS value": ["0"],
    "SELECT count(*) FROM h3_cell_to_children('85283473fffffff', NULL) AS value": ["0"],
    "SELECT count(*) FROM h3_get_pentagons(NULL) AS value": ["0"],
}

# the error of H3 that ends a query, and what it is about
ERRORS = {
    "SELECT h3_get_resolution('81087ffffffffff')": "error 5: E_CELL_INVALID: 81087ffffffffff",
    "SELECT h3_get_base_cell_number('80f5fffffffffff')": "error 5: E_CELL_INVALID: 80f5fffffffffff",
    "SELECT h3_is_pentagon('0')": "error 5: E_CELL_INVALID: 0",
    "SELECT h3_is_res_class_iii('115283473fffffff')": "error 5: E_CELL_INVALID: 115283473fffffff",
    "SELECT h3_cell_to_parent('ffffffffffffffff', 4)": "error 5: E_CELL_INVALID: ffffffffffffffff",
    "SELECT h3_cell_to_parent('81087ffffffffff', 16)": "error 5: E_CELL_INVALID: 81087ffffffffff",
    "SELECT h3_cell_to_parent(' 0X81087FFFFFFFFFF', 0)": "error 5: E_CELL_INVALID: 81087ffffffffff",
    "SELECT h3_cell_to_parent('85283473fffffff', 16)": "error 4: E_RES_DOMAIN: 85283473fffffff at resolution 16",
    "SELECT h3_cell_to_parent('85283473fffffff', -1)": "error 4: E_RES_DOMAIN: 85283473fffffff at resolution -1",
    "SELECT h3_cell_to_parent('85283473fffffff', 2147483647)": (
        "error 4: E_RES_DOMAIN: 85283473fffffff at resolution 2147483647"
    ),
    "SELECT h3_cell_to_parent('85283473fffffff', 6)": "error 12: E_RES_MISMATCH: 85283473fffffff at resolution 6",
    "SELECT h3_cell_to_center_child('85283473fffffff', 4)": "error 4: E_RES_DOMAIN: 85283473fffffff at resolution 4",
    "SELECT h3_cell_to_last_child('85283473fffffff', 4)": "error 4: E_RES_DOMAIN: 85283473fffffff at resolution 4",
    "SELECT h3_cell_to_last_child('81087ffffffffff', 16)": "error 5: E_CELL_INVALID: 81087ffffffffff",
    "SELECT h3_cell_to_children_size('85283473fffffff', 4)": "error 4: E_RES_DOMAIN: 85283473fffffff at resolution 4",
    "SELECT h3_cell_to_child_pos('85283473fffffff', 6)": "error 12: E_RES_MISMATCH: 85283473fffffff at resolution 6",
    "SELECT h3_child_pos_to_cell(-1, '8029fffffffffff', 5)": (
        "error 2: E_DOMAIN: position -1 in 8029fffffffffff at resolution 5"
    ),
    "SELECT h3_child_pos_to_cell(16807, '8029fffffffffff', 5)": (
        "error 2: E_DOMAIN: position 16807 in 8029fffffffffff at resolution 5"
    ),
    "SELECT h3_child_pos_to_cell(0, '85283473fffffff', 4)": (
        "error 12: E_RES_MISMATCH: position 0 in 85283473fffffff at resolution 4"
    ),
    "SELECT h3_child_pos_to_cell(0, '81087ffffffffff', 4)": "error 5: E_CELL_INVALID: 81087ffffffffff",
    "SELECT h3_get_num_cells(16)": "error 4: E_RES_DOMAIN: resolution 16",
    "SELECT value FROM h3_get_pentagons(-1) AS value": "error 4: E_RES_DOMAIN: resolution -1",
    "SELECT value FROM h3_cell_to_children('85283473fffffff', 16) AS value": (
        "error 4: E_RES_DOMAIN: 85283473fffffff at resolution 16"
    ),
    "SELECT value FROM h3_cell_to_children('81087ffffffffff', 4) AS value": "error 5: E_CELL_INVALID: 81087ffffffffff",
    "SELECT value FROM h3_origin_to_directed_edges('11009fffffffffff') AS value": (
        "error 5: E_CELL_INVALID: 11009fffffffffff"
    ),
    "SELECT h3_get_directed_edge_origin('85283473fffffff')": "error 6: E_DIR_EDGE_INVALID: 85283473fffffff",
}

# over the base cell table of tests/plain_table.py; within one base cell, as here, all tables are alike
DISK = [
    "85283473fffffff",
    "85283447fffffff",
    "8528347bfffffff",
    "85283463fffffff",
    "85283477fffffff",
    "8528340ffffffff",
    "8528340bfffffff",
]
OVER_TABLE = {
    "SELECT value FROM h3_grid_disk_unsafe('85283473fffffff', 1) AS value": DISK,
    "SELECT value FROM h3_grid_disk_unsafe('8108bffffffffff', 0) AS value": ["8108bffffffffff"],
    # a ring begins where the walk comes to it, with the cell that ends it in a disk
    "SELECT value FROM h3_grid_ring_unsafe('85283473fffffff', 1) AS value": [*DISK[-1:], *DISK[1:-1]],
    "SELECT value FROM h3_grid_ring_unsafe('8009fffffffffff', 0) AS value": ["8009fffffffffff"],
    "SELECT count(*) FROM h3_grid_ring_unsafe('88283472b9fffff', 5) AS value": ["30"],
    "SELECT * FROM h3_grid_disk_distances_unsafe('85283473fffffff', 1) AS value": [
        f"{cell}|{place > 0:d}" for place, cell in enumerate(DISK)
    ],
    "SELECT distance, count(*) FROM h3_grid_disk_distances_unsafe('88283472b9fffff', 3) AS value"
    " GROUP BY 1 ORDER BY 1": [
        "0|1",
        "1|6",
        "2|12",
        "3|18",
    ],
    f"SELECT h3_are_neighbor_cells('{DISK[0]}', '{DISK[1]}'), h3_are_neighbor_cells('{DISK[1]}', '{DISK[4]}')": ["1|0"],
    f"SELECT h3_are_neighbor_cells('{DISK[0]}', '{DISK[0]}')": ["0"],
    f"SELECT h3_get_directed_edge_origin(h3_cells_to_directed_edge('{DISK[0]}', '{DISK[5]}'))": [DISK[0]],
    f"SELECT h3_get_directed_edge_destination(h3_cells_to_directed_edge('{DISK[0]}', '{DISK[5]}'))": [DISK[5]],
    f"SELECT h3_is_valid_directed_edge(h3_cells_to_directed_edge('{DISK[0]}', '{DISK[5]}'))": ["1"],
    # NULL in, NULL out, and no rows
    "SELECT count(*) FROM h3_grid_disk_unsafe(NULL, 1) AS value": ["0"],
    "SELECT count(*) FROM h3_grid_ring_unsafe('85283473fffffff', NULL) AS value": ["0"],
    "SELECT h3_are_neighbor_cells(NULL, '85283473fffffff'), h3_get_directed_edge_destination(NULL)": ["|"],
    "SELECT h3_cells_to_directed_edge('85283473fffffff', NULL)": [""],
}
OVER_TABLE_ERRORS = {
    "SELECT value FROM h3_grid_disk_unsafe('8009fffffffffff', 1) AS value": (
        "error 9: E_PENTAGON: 1 steps from 8009fffffffffff"
    ),
    "SELECT value FROM h3_grid_disk_unsafe('81083ffffffffff', 0) AS value": (
        "error 9: E_PENTAGON: 0 steps from 81083ffffffffff"
    ),
    "SELECT * FROM h3_grid_disk_distances_unsafe('81083ffffffffff', 2) AS value": (
        "error 9: E_PENTAGON: 2 steps from 81083ffffffffff"
    ),
    # beside base cell 3 the table has base cell 14, which is a pentagon's
    "SELECT value FROM h3_grid_ring_unsafe('8007fffffffffff', 1) AS value": (
        "error 9: E_PENTAGON: 1 steps from 8007fffffffffff"
    ),
    "SELECT value FROM h3_grid_ring_unsafe('85283473fffffff', -1) AS value": (
        "error 2: E_DOMAIN: -1 steps from 85283473fffffff"
    ),
    "SELECT value FROM h3_grid_disk_unsafe('85283473fffffff', 4294967296) AS value": (
        "error 2: E_DOMAIN: 4294967296 steps from 85283473fffffff"
    ),
    "SELECT value FROM h3_grid_disk_unsafe('81087ffffffffff', 1) AS value": "error 5: E_CELL_INVALID: 81087ffffffffff",
    "SELECT h3_are_neighbor_cells('85283473fffffff', '5')": "error 5: E_CELL_INVALID: 5",
    "SELECT h3_are_neighbor_cells('81087ffffffffff', '5')": "error 5: E_CELL_INVALID: 81087ffffffffff",
    "SELECT h3_are_neighbor_cells('85283473fffffff', '8029fffffffffff')": (
        "error 12: E_RES_MISMATCH: 85283473fffffff and 8029fffffffffff"
    ),
    "SELECT h3_are_neighbor_cells('8009fffffffffff', '8029fffffffffff')": (
        "error 9: E_PENTAGON: 8009fffffffffff and 8029fffffffffff"
    ),
    "SELECT h3_cells_to_directed_edge('85283473fffffff', '85283473fffffff')": (
        "error 11: E_NOT_NEIGHBORS: 85283473fffffff and 85283473fffffff"
    ),
    f"SELECT h3_cells_to_directed_edge('{DISK[1]}', '{DISK[4]}')": (
        f"error 11: E_NOT_NEIGHBORS: {DISK[1]} and {DISK[4]}"
    ),
    "SELECT h3_get_directed_edge_destination('85283473fffffff')": "error 6: E_DIR_EDGE_INVALID: 85283473fffffff",
    "SELECT h3_get_directed_edge_destination('12009fffffffffff')": "error 9: E_PENTAGON: 12009fffffffffff",
}


def or_none(query):
    """The query with walks that have no rows in the place of error 9."""
    return query.replace("_unsafe(", "_unsafe_or_none(")


OR_NONE = {or_none(query): wanted for query, wanted in OVER_TABLE.items() if "_unsafe(" in query}
for query, error in OVER_TABLE_ERRORS.items():
    if "_unsafe(" in query and error.startswith("error 9: E_PENTAGON: "):
        OR_NONE[f"SELECT count(*) FROM ({or_none(query)}) AS walked"] = ["0"]
    elif "_unsafe(" in query:
        OR_NONE[or_none(query)] = error

# of 8428347ffffffff, and what is left of 8009fffffffffff without 820807fffffffff
SEVEN = [
    "85283463fffffff",
    "85283467fffffff",
    "8528346bfffffff",
    "8528346ffffffff",
    "85283473fffffff",
    "85283477fffffff",
    "8528347bfffffff",
]
LEFT_OF_PENTAGON = [
    "8108bffffffffff",
    "8108fffffffffff",
    "81093ffffffffff",
    "81097ffffffffff",
    "8109bffffffffff",
    "820817fffffffff",
    "82081ffffffffff",
    "820827fffffffff",
    "82082ffffffffff",
    "820837fffffffff",
]

# texts that parse as no index
NO_INDEX = ["xyz", "", "885283473fffffff0", "-1", "0x"]

# over a column of cells
COLUMNS = {
    "h3_get_resolution({})": ["getResolutions"],
    "h3_get_base_cell_number({})": ["getBaseCellNumbers"],
    "h3_is_pentagon({})": ["arePentagons"],
    "h3_is_res_class_iii({})": ["areResClassIII"],
    "h3_cell_to_parent({}, 0)": ["cellsToParents", "-r", "0"],
    "h3_cell_to_center_child({}, 15)": ["cellsToCenterChildren", "-r", "15"],
    "h3_cell_to_last_child({}, 15)": ["cellsToLastChildren", "-r", "15"],
    "h3_cell_to_children_size({}, 15)": ["cellsToChildrenSizes", "-r", "15"],
    "h3_cell_to_child_pos({}, 0)": ["cellsToChildPositions", "-r", "0"],
}


def random_cell(chance, res):
    """The text of a cell, made of a base cell and digits."""
    base = chance.randrange(122)
    digits = [chance.randrange(7) for _ in range(res)]
    leading = next((digit for digit in digits if digit), 0)
    if base in PENTAGON_BASES and leading == 1:
        digits = [0] * res
    number = 1 << 59 | res << 52 | base << 45
    for place in range(15):
        number |= (digits[place] if place < res else 7) << 3 * (14 - place)
    return f"{number:x}"


def random_cells(seed, count=COUNT):
    """Cells of all resolutions."""
    chance = random.Random(seed)
    return [random_cell(chance, chance.randrange(16)) for _ in range(count)]


def random_indexes(seed, count=COUNT):
    """Cells with a bit turned, as often as not."""
    chance = random.Random(seed)
    return [f"{int(cell, 16) ^ chance.choice([0, 1 << chance.randrange(63)]):x}" for cell in random_cells(seed, count)]


def without_overlap(seed):
    """100,000 cells of resolution 6 in two base cells, one of them a pentagon's, in no order."""
    chance = random.Random(seed)
    cells = h3(["uncompactCells", "-r", "6"], ["8001fffffffffff", "8009fffffffffff"])
    chance.shuffle(cells)
    return cells[:COUNT]


def overlapping(seed):
    """100,000 cells of resolutions 3 to 6 in two base cells, one of them a pentagon's, in no order, many twice."""
    chance = random.Random(seed)
    cells = h3(["uncompactCells", "-r", "6"], ["8001fffffffffff", "8009fffffffffff"])
    found = chance.choices(cells, k=COUNT - 1000)
    return found + h3(["cellsToParents", "-r", "5"], found[:900]) + h3(["cellsToParents", "-r", "3"], found[:100])


def write_table(path):
    """Writes a table of base cells into a file."""
    with open(path, "wb") as out:
        out.writelines(plain_table.rows())


def walked(words, cell, steps, path):
    """What the command h3 prints for a walk: its lines, whose columns are divided by |, or its error."""
    given = [PROGRAM, words, "-c", cell, "-k", str(steps), "--table", path]
    ran = subprocess.run(given, capture_output=True, text=True, check=False)
    return (
        [line.replace(" ", "|") for line in ran.stdout.split("\n")[:-1]] if ran.returncode == 0 else ran.stderr.strip()
    )


def h3(words, given):
    """The lines of the command h3 over a list; true is 1, as in the engines."""
    text = "".join(f"{index}\n" for index in given)
    ran = subprocess.run([PROGRAM, *words], input=text, capture_output=True, text=True, check=True)
    return [{"true": "1", "false": "0"}.get(line, line) for line in ran.stdout.split()]


def digits_of(number):
    """How many cells the first cells of a hexagon's descendants compact to."""
    return number % 7 + digits_of(number // 7) if number else 0
