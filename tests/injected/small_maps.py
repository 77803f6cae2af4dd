"""Three small maps with their certificates, as tests/rows/check.rows has them, and what each command is asked of them: a
square with a dead end, an island with a landmark on it, and two chains that are one line."""

from pathlib import Path

from rows import ROWS, rows_of

# The name of what is made.
MADE = "made"
# Of each map its row, its files of records, and the name that its certificate gets.
MAPS = [
    ("a square with a dead end", ["dead"], "dead.CERT"),
    ("an island with a landmark on it", ["island", "land"], "island.CERT"),
    ("two chains that are one line", ["pair"], "pair.CERT"),
]


def write_all(folder):
    """Writes the files of the maps into the folder, and gives the words of all runs over them."""
    rows = {row.title: row.files for row in rows_of(ROWS / "check.rows")}
    runs = []
    for title, records, certificate in MAPS:
        for name in records:
            Path(folder, name).write_bytes(rows[title][name])
        Path(folder, certificate).write_bytes(rows[title]["cert"])
        runs += [
            ["show", *records],
            ["landmarks", *records],
            ["locate", "@10,10", *records],
            ["locate", "@16,17", *records],
            ["audit", *records],
            ["audit", "--all", *records],
            ["audit", "--all", "--where", *records],
            ["audit", "--geojson", MADE, *records],
            ["build", "--out", MADE, *records],
            ["export", "--geojson", MADE, *records],
            ["draw", "--out", MADE, "--faults", *records],
            ["border", "--name", "B", "--out", MADE, *records],
            ["check", "--cert", certificate, *records],
            ["convert", certificate, MADE],
        ]
    return runs
