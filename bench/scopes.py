#!/usr/bin/env python3
"""Measures the reader of cases on texts whose scopes are wide, deep or long. README.md says what a row shows.

A folder as the only word gets the texts, and nothing is measured. Two words `--reader PROGRAM` measure a program that is built already.
"""

import itertools
import os
import re
import subprocess
import sys
import tempfile
from dataclasses import dataclass
from pathlib import Path

from bench import MEGABYTE, RUNS, SHORTEST, cost, least
from steps import ROOT, built, libraries_in, program_in

TEMPLATE = ROOT / "bench" / "read_case.txt"
DEFAULT_STACK = 8_192
SQLITE = "/usr/bin/sqlite3"

MOST_ENTRIES = 31
MOST_BYTES = 1_048_576
MOST_LISTED = 256
MOST_OUTPUTS = 2_048
MOST_VIEWS = 254
MOST_OPERANDS = 64
DEEPEST = 60
MOST_LEVELS = 64

TABLE = "CREATE TABLE r (a INT, z INT);\n"
ONE_MORE = "SELECT a FROM r;\n"
UNION_ALL = "\nUNION ALL "

STAFF = """\
CREATE TABLE employees (id INT PRIMARY KEY, name VARCHAR(40), dept_id INT, salary INT, manager_id INT);
CREATE TABLE departments (id INT PRIMARY KEY, name VARCHAR(40), city VARCHAR(40));
CREATE TABLE assignments (employee_id INT, project_id INT, hours INT, PRIMARY KEY (employee_id, project_id));
"""
ORDINARY_BLOCKS = [
    "SELECT e.name, d.name AS department FROM employees e JOIN departments d ON e.dept_id = d.id"
    " WHERE e.salary > {number} AND d.city = 'Oslo'",
    "SELECT DISTINCT e.name, d.city FROM employees AS e, departments AS d, assignments AS a"
    " WHERE e.id = a.employee_id AND a.hours * 2 >= {number} AND e.dept_id = d.id",
    "SELECT d.name, COUNT(*) AS staff FROM departments d INNER JOIN employees e ON e.dept_id = d.id"
    " GROUP BY d.name HAVING COUNT(*) > {number}",
    "SELECT e.name, m.name AS manager FROM employees e JOIN employees m ON e.manager_id = m.id"
    " WHERE NOT (e.salary <= m.salary OR m.salary BETWEEN {number} AND 9000)",
    "SELECT e.name, e.id FROM employees e WHERE EXISTS (SELECT a.hours FROM assignments a WHERE a.employee_id = e.id"
    " AND a.hours > {number}) AND e.dept_id IN (1, 2, 3)",
    "SELECT t.name, t.total FROM (SELECT e.name, SUM(a.hours) AS total FROM employees e JOIN assignments a"
    " ON a.employee_id = e.id GROUP BY e.name) t WHERE t.total > {number}",
]


def view(name, columns):
    return f"CREATE VIEW {name} AS SELECT {', '.join(f'a AS {column}' for column in columns)} FROM r;\n"


def wide_view(name, parts=8):
    """A view of as many columns as there may be: all columns of views that list as many as a list may have."""
    names = [f"{name}{part}" for part in range(parts)]
    listed = (view(own, [f"c{part * MOST_LISTED + column}" for column in range(MOST_LISTED)]) for part, own in enumerate(names))
    return "".join(listed) + f"CREATE VIEW {name} AS SELECT * FROM {', '.join(names)};\n"


def view_of_tables(name, tables=MOST_LISTED // 8):
    """A view of all columns of tables that have one each."""
    declared = (f"CREATE TABLE t{number} (x{number} INT);\n" for number in range(tables))
    return "".join(declared) + f"CREATE VIEW {name} AS SELECT * FROM {', '.join(f't{number}' for number in range(tables))};\n"


def conjunction(conditions):
    """An AND of all of these, in parentheses where a chain would be too long."""
    if len(conditions) <= MOST_LISTED:
        return " AND ".join(conditions)
    chains = [conditions[start : start + MOST_LISTED] for start in range(0, len(conditions), MOST_LISTED)]
    return conjunction([f"({' AND '.join(chain)})" for chain in chains])


def as_many(condition, bytes_before=0):
    """An AND of this condition as often as fits, with so many bytes before it."""
    count = (MOST_BYTES - bytes_before - 4_000) // len(f"{condition} AND ")
    return conjunction([condition] * count)


def case(schema, query):
    return f"{TABLE}{schema}{query};\n{ONE_MORE}"


def start():
    """As little as a case may say."""
    return case("", "SELECT a FROM r")


def ordinary_queries():
    """Two unions of blocks as programs have them, in chains as long as there may be, as many as fit."""
    blocks = (form.format(number=number) for number, form in enumerate(itertools.cycle(ORDINARY_BLOCKS)))
    chains, length = [], len(STAFF)
    while length < MOST_BYTES:
        chains.append(f"({UNION_ALL.join(itertools.islice(blocks, MOST_OPERANDS))})")
        length += len(chains[-1]) + len(UNION_ALL)
    # The last one was too much.
    middle = len(chains) // 2
    return f"{STAFF}{UNION_ALL.join(chains[:middle])};\n{UNION_ALL.join(chains[middle:-1])};\n"


def sought_outwards(uses=1_000):
    """A name of the outermost block, used in the innermost of nested blocks over as many wide entries as there may be."""
    entries = ", ".join(f"w e{number}" for number in range(MOST_ENTRIES))
    equal = conjunction(["z = z"] * (uses // 2))
    nested = f"SELECT e0.c0 FROM {entries} WHERE "
    inner = f"EXISTS ({nested}" * DEEPEST + equal + ")" * DEEPEST
    return case(wide_view("w"), f"SELECT a FROM r WHERE {inner}")


def sought_often():
    """The same with half a megabyte of uses."""
    return sought_outwards(uses=100_000)


def sought_in_parts(uses=100_000):
    """A name of the outermost block, sought through derived tables each of which has 512 parts."""
    sources = ", ".join(f"m s{number}" for number in range(16))
    entries = ", ".join(f"(SELECT * FROM {sources}) e{number}" for number in range(MOST_ENTRIES))
    equal = conjunction(["z = z"] * (uses // 2))
    inner = f"EXISTS (SELECT 1 FROM {entries} WHERE " * DEEPEST + equal + ")" * DEEPEST
    return case(view_of_tables("m"), f"SELECT a FROM r WHERE {inner}")


def found_in_parts():
    """Names of a derived table of 961 parts, as many as fit, which stand in the last one."""
    sources = ", ".join(f"m s{number}" for number in range(MOST_ENTRIES - 1))
    names = as_many("last = last", bytes_before=4_000)
    return case(view_of_tables("m") + "CREATE TABLE t (last INT);\n", f"SELECT 1 FROM (SELECT * FROM {sources}, t) d WHERE {names}")


def stars():
    """Stars over a wide view, as many as fit."""
    star = "EXISTS (SELECT * FROM w)"
    return case(wide_view("w"), "SELECT a FROM r WHERE " + as_many(star, bytes_before=60_000))


def narrow_stars(stars=64):
    """Stars over entries of one column each, as many as a block may have."""
    entries = ", ".join(f"t e{number}" for number in range(MOST_ENTRIES))
    exists = f"EXISTS (SELECT {','.join('*' * stars)} FROM {entries})"
    return case("CREATE TABLE t (a INT);\n", "SELECT a FROM r WHERE " + as_many(exists))


def short_stars(width=7):
    """Stars over entries of seven columns each, as many as a block may have."""
    entries = ", ".join(f"t e{number}" for number in range(MOST_ENTRIES))
    stars = MOST_OUTPUTS // (MOST_ENTRIES * width)
    columns = ", ".join(f"c{number} INT" for number in range(width))
    return case(f"CREATE TABLE t ({columns});\n", "SELECT a FROM r WHERE " + as_many(f"EXISTS (SELECT {','.join('*' * stars)} FROM {entries})"))


def values_between_stars(pairs=MOST_LISTED // 2):
    """A value between each two stars over one column, in derived tables, as many as fit."""
    derived = f"(SELECT {','.join(['*,a'] * pairs)} FROM t)"
    entries = ",".join(f"{derived} e{number}" for number in range(MOST_ENTRIES))
    block = f"EXISTS(SELECT 1 FROM {entries} WHERE "
    blocks = (MOST_BYTES - 4_000) // len(f"{block})")
    return case("CREATE TABLE t (a INT);\n", "SELECT a FROM r WHERE " + block * blocks + "1=1" + ")" * blocks)


def joined_sources():
    """Derived tables of all columns of a wide view and of a table, in nested blocks."""
    return nested_derived("w, r")


def parted_sources():
    """The same with five sources."""
    return nested_derived("w, r, r b, r c, r d")


def nested_derived(sources):
    """Derived tables of all columns of these, as many as there may be around a place."""
    entries = ", ".join(f"(SELECT * FROM {sources}) e{number}" for number in range(MOST_ENTRIES))
    nested = f"EXISTS (SELECT e0.c0 FROM {entries} WHERE " * DEEPEST + "1 = 1" + ")" * DEEPEST
    return case(wide_view("w", parts=7), f"SELECT a FROM r WHERE {nested}")


def widened_views(views=245):
    """As many views as there may be of all columns of a wide one and one more."""
    widened = (f"CREATE VIEW v{number} AS SELECT *, 1 FROM w;\n" for number in range(views))
    return case(wide_view("w", parts=7) + "".join(widened), "SELECT a FROM r")


def long_named_sources(blocks=300, length=100_000):
    """Derived tables that have a column with a long name."""
    entries = ", ".join(f"(SELECT * FROM r, s) e{number}" for number in range(MOST_ENTRIES))
    exists = conjunction([f"EXISTS (SELECT 1 FROM {entries})"] * blocks)
    return f"CREATE TABLE r (a INT, {'n' * length} INT);\nCREATE TABLE s (b INT);\nSELECT a FROM r WHERE {exists};\n{ONE_MORE}"


def long_named_keys(rules=20_000, length=100_000):
    """A column with a long name that is UNIQUE so many times."""
    return f"CREATE TABLE r (a INT, {'n' * length} INT{' UNIQUE' * rules});\nSELECT a FROM r;\n{ONE_MORE}"


def nested_sources(chains=500):
    """Derived tables within derived tables, each all of the next one."""
    chain = "(SELECT * FROM " * DEEPEST + "w" + " d)" * DEEPEST
    exists = conjunction([f"EXISTS (SELECT d.c0 FROM {chain} d)"] * chains)
    return case(wide_view("w"), f"SELECT a FROM r WHERE {exists}")


def widened(source, levels):
    """Derived tables within derived tables, each one column more than the next one."""
    for _ in range(levels):
        source = f"(SELECT *,1 FROM {source} d)"
    return source


def widened_sources():
    """The same, around all columns of 961 entries, as many as fit."""
    source = "r"
    for _ in range(2):
        entries = ",".join(f"{source} {'abcd'[number % 4]}{number}" for number in range(MOST_ENTRIES))
        source = f"(SELECT * FROM {entries})"
    exists = f"EXISTS (SELECT 1 FROM {widened(source, DEEPEST - 5)} d)"
    return case("", "SELECT a FROM r WHERE " + as_many(exists))


def set_chains(chains=9):
    """Left chains of set operators, whose first operand is a chain again."""
    chain = "SELECT a FROM r"
    for _ in range(DEEPEST):
        chain = " UNION ALL ".join([f"({chain})"] + ["SELECT a FROM r"] * (MOST_OPERANDS - 1))
    return case("", "SELECT a FROM r WHERE " + conjunction([f"EXISTS ({chain})"] * chains))


def derived_from_sets(depth=20, length=8):
    """Derived tables over chains of sets, each over wide entries."""
    entries = ", ".join(f"(SELECT * FROM w) e{number}" for number in range(MOST_ENTRIES))
    source = "r"
    for _ in range(depth):
        block = f"SELECT s.a FROM {source} s, {entries}"
        source = "(" + " UNION ALL ".join([block] + ["SELECT a FROM r"] * length) + ")"
    return case(wide_view("w"), f"SELECT s.a FROM {source} s")


def named_views(views=240, shared=440):
    """Views whose columns have names that begin with as many equal bytes."""
    count = MOST_BYTES * 8 // 9 // (views * (shared + 10))
    columns = [f"{'n' * shared}{number}" for number in range(count)]
    return case("".join(view(f"v{number}", columns) for number in range(views)), "SELECT a FROM r")


def named_view():
    """One view that names as many columns as it may."""
    return case(wide_view("w"), "SELECT a FROM r")


def copied_names(listed=60, length=4_000):
    """A long name before three lists of IN in one another, which count as 216,000 copies of it."""
    name = "n" * length
    ones = ", ".join(["1"] * listed)
    value = name
    for _ in range(2):
        value = f"(SELECT COUNT(*) FROM r WHERE {value} IN ({ones}))"
    return f"CREATE TABLE r (a INT, {name} INT);\nSELECT a FROM r WHERE {value} IN ({ones});\n{ONE_MORE}"


def operands():
    """The longest chains of one column, as many as fit."""
    return case("", "SELECT a FROM r WHERE " + as_many("+".join(["a"] * MOST_OPERANDS) + "=1"))


def bounded_operands():
    """The same between two bounds, so that each chain is copied."""
    return case("", "SELECT a FROM r WHERE " + as_many("+".join(["a"] * MOST_OPERANDS) + " BETWEEN 1 AND 2"))


def listed_columns(listed=MOST_LISTED):
    """Lists of IN of one column, as long as there may be."""
    return case("", "SELECT a FROM r WHERE " + as_many(f"a IN ({','.join(['a'] * listed)})"))


def grown_lists():
    """Such lists of one member more than half as many, where room has just been taken for all."""
    return listed_columns(MOST_LISTED // 2 + 1)


def operators(first, most=MOST_OPERANDS):
    """The longest chains of both kinds of operators around a value."""
    return first + "*1" * (most - 1) + "+1" * (most - 1)


def sets(first, most=MOST_OPERANDS):
    """The longest chains of both kinds of set operators around a query."""
    one = "SELECT a FROM r"
    return first + f" INTERSECT {one}" * (most - 1) + f" UNION ALL {one}" * (most - 1)


def deepest_value(levels):
    """The deepest value that well-formed cases have: each level is compared in a scalar subquery, as an operand of the longest chains."""
    value = "a"
    for _ in range(levels):
        value = f"(SELECT COUNT(*) FROM r WHERE {operators(value)} = 1)"
    return value


def deepest_query(levels):
    """The deepest query that is read at all: each level is a scalar subquery in the longest chains of operators and of set operators."""
    query = "SELECT a FROM r"
    for _ in range(levels):
        query = sets(f"SELECT {operators(f'({query})')} FROM r")
    return query


def deep_values():
    """A value as deep as there may be; the parenthesis of the innermost COUNT opens a level too."""
    return case("", f"SELECT a FROM r WHERE {deepest_value(MOST_LEVELS - 1)} = 1")


def deepest_sources(levels):
    """Derived tables within derived tables, each in the longest chains of set operators."""
    query = "SELECT a FROM r"
    for _ in range(levels):
        query = sets(f"SELECT d.a FROM ({query}) d")
    return query


def deep_sources():
    """As many derived tables in one another as there may be."""
    return case("", deepest_sources(MOST_LEVELS))


def deepest_conditions(levels, test, query="SELECT a FROM r"):
    """Queries under this test within queries, each in an AND under an OR and in the longest chains of set operators."""
    for _ in range(levels):
        query = sets(f"SELECT a FROM r WHERE a = 1 OR a = 2 AND {test} ({query})")
    return query


def deep_exists():
    """As many EXISTS in one another as there may be."""
    return case("", deepest_conditions(MOST_LEVELS, "EXISTS"))


def deep_in():
    """As many queries behind IN in one another as there may be."""
    return case("", deepest_conditions(MOST_LEVELS, "a IN"))


def deepest_rope(name, views=8):
    """Views of views, each with columns one by one behind those of the one before: as deep a rope as there may be."""
    declared = f"CREATE VIEW u AS SELECT 1 FROM r;\nCREATE VIEW {name}0 AS SELECT z FROM r;\n"
    more = ", ".join(["u.*"] * (MOST_LISTED - 2))
    for number in range(views):
        declared += f"CREATE VIEW {name}{number + 1} AS SELECT {name}{number}.*, {more} FROM {name}{number}, u;\n"
    return declared


def deep_rope():
    """The deepest queries under EXISTS, in the innermost of which a name is sought in such a rope."""
    return case(deepest_rope("x"), deepest_conditions(MOST_LEVELS, "EXISTS", "SELECT z FROM x8 WHERE z = z"))


def deep_widened_views(levels=8):
    """The same where each view is some levels of all columns and one more: the most levels that a rope may have."""
    views = "CREATE VIEW v0 AS SELECT a z FROM r;\n"
    for number in range(1, MOST_VIEWS):
        views += f"CREATE VIEW v{number} AS {widened(f'v{number - 1}', levels)[1:-1]};\n"
    return case(views, deepest_conditions(MOST_LEVELS, "EXISTS", f"SELECT z FROM v{MOST_VIEWS - 1} WHERE z = z"))


def deep_query():
    """A query as deep as one may be in the text. Its scalar subqueries are refused, behind the reading."""
    return case("", deepest_query(MOST_LEVELS))


def deep_view():
    """The same as a view, whose tree is copied."""
    return case(f"CREATE VIEW v AS {deepest_query(MOST_LEVELS)};\n", "SELECT a FROM r")


def deep_operand():
    """The same as the operand that BETWEEN stands for twice."""
    return case("", f"SELECT a FROM r WHERE ({deepest_query(MOST_LEVELS - 1)}) BETWEEN 1 AND 2")


def deep_compared_value():
    """A value as deep as there may be before a list of IN: the left sides of its equalities are compared."""
    return case("", f"SELECT a FROM r WHERE {deepest_value(MOST_LEVELS - 1)} IN (1, 2)")


def deep_compared_sources():
    """The same with the deepest derived tables, in one scalar subquery."""
    return case("", f"SELECT a FROM r WHERE (SELECT COUNT(*) FROM ({deepest_sources(MOST_LEVELS - 2)}) d) IN (1, 2)")


def deep_bounded_value():
    """A value as deep as there may be between two bounds: it is compared with its copy, and what it resolves to is copied."""
    return case("", f"SELECT a FROM r WHERE {deepest_value(MOST_LEVELS - 1)} BETWEEN 1 AND 2")


def deep_bounded_operators():
    """The longest chains of operators in one another, between two bounds: the copy goes down all of them."""
    value = "a"
    for _ in range(MOST_LEVELS - 1):
        value = f"({operators(value)})"
    return case("", f"SELECT a FROM r WHERE {value} BETWEEN 1 AND 2")


def copied_operands(deep=14):
    """BETWEEN as an operand of BETWEEN: 400 bytes that stand for some 900,000 copied tokens."""
    return case("", "SELECT a FROM r WHERE " + "(" * deep + "(" + "a + " * 22 + "(a))" + " BETWEEN 1 AND 2)" * deep)


def copied_subqueries(deep=14):
    """BETWEEN of scalar subqueries in one another, which is well formed: 750 bytes that stand for some 490,000 copied tokens."""
    value = "a"
    for _ in range(deep):
        value = f"(SELECT COUNT(*) FROM r WHERE {value} BETWEEN 1 AND 2)"
    return case("", f"SELECT a FROM r WHERE {value} BETWEEN 1 AND 2")


WIDE_CASES = [
    sought_outwards,
    sought_often,
    sought_in_parts,
    found_in_parts,
    stars,
    narrow_stars,
    short_stars,
    values_between_stars,
    joined_sources,
    parted_sources,
    widened_views,
    nested_sources,
    widened_sources,
    set_chains,
    derived_from_sets,
    named_views,
    named_view,
]
LONG_CASES = [long_named_sources, long_named_keys, copied_names, operands, bounded_operands, listed_columns, grown_lists, copied_operands, copied_subqueries]
CASES = [start, ordinary_queries] + WIDE_CASES + LONG_CASES
DEEP_CASES = [deep_values, deep_sources, deep_exists, deep_in, deep_rope, deep_widened_views, deep_query, deep_view, deep_operand, deep_compared_value, deep_compared_sources, deep_bounded_value, deep_bounded_operators]


def write_all(folder):
    """Writes all texts to a folder, and answers where they are."""
    places = []
    for made in CASES + DEEP_CASES:
        place = folder / f"{made.__name__}.sql"
        place.write_text(made(), encoding="ascii")
        places.append(place)
    return places


def ends(reader, text, stack):
    """Whether the reader ends by itself with a stack of so many KiB."""
    ran = subprocess.run(["bash", "-c", f'ulimit -S -s {stack}; exec "$0" "$1"', reader, text], stdout=subprocess.DEVNULL, stderr=subprocess.DEVNULL)
    return ran.returncode == 0


def least_stack(reader, text):
    """The least stack, to 16 KiB, with which the reader ends by itself; None where the default stack does not suffice."""
    if not ends(reader, text, DEFAULT_STACK):
        return None
    too_small, enough = 0, DEFAULT_STACK
    while enough - too_small > 16:
        middle = (too_small + enough) // 2
        if ends(reader, text, middle):
            enough = middle
        else:
            too_small = middle
    return enough


def seconds_of_sqlite(text, folder):
    """The seconds in which sqlite3 takes the same schema and explains the same queries; None where it refuses them."""
    script = folder / "explained.sql"
    script.write_text(re.sub(r"(?m)^SELECT", "EXPLAIN SELECT", text.read_text(encoding="ascii")), encoding="ascii")
    command = [SQLITE, "-bail", ":memory:", f".read {script}"]
    ran = subprocess.run(command, stdout=subprocess.DEVNULL, stderr=subprocess.DEVNULL)
    return least(command).processor if ran.returncode == 0 else None


def shown(figure, form):
    return "-" if figure is None else format(figure, form)


@dataclass
class Taken:
    """What the reader takes for a text: processor seconds, resident bytes, and KiB of stack, each the least of what was tried."""

    seconds: float
    memory: int
    stack: int


def taken(reader, text):
    runs = [cost([reader, text], None) for _ in range(RUNS)]
    return Taken(min(run.processor for run in runs), min(run.memory for run in runs), least_stack(reader, text))


def measure(reader, text, folder, start):
    """Prints the figures of a text. Its own memory is what passes the start's, and is not stack."""
    size = text.stat().st_size
    took = taken(reader, text)
    seconds = max(took.seconds, SHORTEST)
    own, times = None, None
    if took.stack is not None and took.memory > 1.1 * start.memory:
        own = max(0, took.memory - start.memory - (took.stack - start.stack) * 1024) / MEGABYTE
        times = own * MEGABYTE / size
    other = seconds_of_sqlite(text, folder) if Path(SQLITE).exists() else None
    print(
        f"{text.stem:20}{size / MEGABYTE:>8.3f}{seconds:>9.3f}{size / MEGABYTE / seconds:>8.1f}{took.memory / MEGABYTE:>10.1f}"
        f"{shown(own, '.2f'):>8}{shown(times, '.1f'):>8}{shown(took.stack, ','):>12}{shown(other, '.3f'):>9}",
        flush=True,
    )


def main():
    words = sys.argv[1:]
    if len(words) == 1:
        for place in write_all(Path(words[0])):
            print(f"{place.stem}: {place.stat().st_size:,} bytes")
        return
    load = ", ".join(f"{it:.1f}" for it in os.getloadavg())
    print(f"{os.cpu_count()} processors, load {load}\n")
    with tempfile.TemporaryDirectory(prefix="udp-scopes-") as room:
        folder = Path(room)
        texts = write_all(folder)
        if words[:1] == ["--reader"]:
            reader = words[1]
        else:
            used = libraries_in(folder, ROOT, ["case_core", "udp_io"])
            reader = built(program_in(folder, "read_case", TEMPLATE, used), [str(texts[-1])])
        print(f"{'':20}{'MB':>8}{'seconds':>9}{'MB/s':>8}{'peak MB':>10}{'own MB':>8}{'x text':>8}{'stack KiB':>12}{'sqlite3':>9}")
        start = taken(reader, texts[0])
        for text in texts:
            measure(reader, text, folder, start)


if __name__ == "__main__":
    main()
