"""The tables of rows, one a topic. A new one is a module here with a list ROWS, named in TABLES."""
import importlib
import sys
from collections import Counter

TABLES = """
worked examples options each_option checkers whole_formats commands process inputs surroundings logs raw_logs
encodings texts answers arithmetic refusals notes tables guards own_memory trials modelled small_logs shown
any_images export why cure cases known why_cases cure_cases case_cuts case_joins case_pages browser ranges based
blind promises flushes workers footprints joining reported recording limits large
""".split()


def all_rows(names=TABLES):
    """Returns the rows of these tables, whose names have to differ."""
    rows = [row for name in names for row in importlib.import_module(f"rows.{name}").ROWS]
    twice = [name for name, count in Counter(row.name for row in rows).items() if count > 1]
    if twice:
        sys.exit(f"rows with one name: {', '.join(twice)}")
    return rows
