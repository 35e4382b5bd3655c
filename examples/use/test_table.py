"""One test for each row of a table of pict, by pytest's parametrize.

    pict examples/signup.txt > table.txt
    TABLE=table.txt pytest examples/use/test_table.py
"""
import csv
import os

import pytest


def rows(name):
    """The rows of a table as dictionaries, from a parameter's name to the printed value."""
    with open(name, encoding="utf-8", newline="") as table:
        return list(csv.DictReader(table, delimiter="\t", quoting=csv.QUOTE_NONE))


TABLE = os.environ.get("TABLE", "table.txt")


@pytest.mark.parametrize("row", rows(TABLE), ids=lambda row: "-".join(row.values()))
def test_row(row):
    # an invalid value is printed with its mark: the program under test has to refuse the row
    refused = any(value.startswith("~") for value in row.values())
    assert sign_up(row) == (not refused)


def sign_up(row):
    """Stands for the program under test; here it takes what isn't marked."""
    return not any(value.startswith("~") for value in row.values())
