"""The cases and proofs that are measured, each made from the limits of the program and written to files."""

MOST_TABLES = 256
MOST_COLUMNS = 32
MOST_BLOCKS = 64
MOST_NODES = 200_000
MOST_DEPTH = 2_048

# What the case of `short_steps` has for both queries: the rows of one table of one column.
ROW = "S(*(R0(b0),=(b0,f0)))"
ROW_NODES = 7
ROW_DEPTH = 4


def table_term(number, width):
    """The term of `SELECT * FROM` a table of this number and width."""
    places = range(width - 1, -1, -1)
    factors = [f"R{number}({','.join(f'b{place}' for place in places)})"]
    factors += [f"=(b{place},f{name})" for name, place in enumerate(places)]
    product = "".join(f"*({factor}," for factor in factors[:-1]) + factors[-1] + ")" * (len(factors) - 1)
    return "S(" * width + product + ")" * width


def left_sum(terms):
    """The sum of terms that `UNION ALL`, which associates to the left, has."""
    return "+(" * (len(terms) - 1) + terms[0] + "".join(f",{term})" for term in terms[1:])


def balanced_sum(terms):
    """The sum of terms in this order, of the least depth."""
    if len(terms) == 1:
        return terms[0]
    middle = len(terms) // 2
    return f"+({balanced_sum(terms[:middle])},{balanced_sum(terms[middle:])})"


def add_ac(left, right):
    return f"/ > add_ac {left} {right}\n"


def beside(term, path, steps):
    """These steps below the path of a term that is under `#` beside the rows of a table, and is not there before and after them."""
    yield f"/ > mul_ac {ROW} *({ROW},1)\n"
    yield f"/r < sq_one {term}\n"
    yield from (f"{path} {step}\n" for step in steps)
    yield f"/r > sq_one {term}\n"
    yield f"/ > mul_ac *({ROW},1) {ROW}\n"


def to_and_fro(rule, times):
    for _ in range(times // 2):
        yield f"> {rule}"
        yield f"< {rule}"


def there_and_back(first, left, right, last, times):
    """Steps from the first term to the left one, that often on to the right one with the ways back between, and to the last term."""
    yield add_ac(first, left)
    yield add_ac(left, right)
    for _ in range(times - 1):
        yield add_ac(right, left)
        yield add_ac(left, right)
    yield add_ac(right, last)


def write_proof(path, outs, steps):
    with open(path, "w", encoding="ascii") as proof:
        proof.write(f"udp-proof 1\nouts {outs}\n")
        proof.writelines(steps)
        proof.write("end\n")


def write_case(path, tables, queries):
    """A case over tables, each a name with its columns; a query is the names of the tables that it unites."""
    with open(path, "w", encoding="ascii") as case:
        for name, columns in tables:
            case.write(f"CREATE TABLE {name} ({', '.join(f'{column} INT' for column in columns)});\n")
        for names in queries:
            case.write("\nUNION ALL ".join(f"SELECT * FROM {name}" for name in names) + ";\n")


def short_steps(case, proof, lines):
    """That many steps from the rows of a table to the same."""
    write_case(case, [("r", ["a"])], [["r"], ["r"]])
    write_proof(proof, 1, (add_ac(ROW, ROW) for _ in range(lines)))


def beside_large_term(case, proof, arguments):
    """100,000 steps at an equation, beside a term of so many arguments."""
    write_case(case, [("r", ["a"])], [["r"], ["r"]])
    term = f"R0({','.join(['f0'] * arguments)})"
    write_proof(proof, 1, beside(term, "/lir", to_and_fro("eq_sym f1 f0", 100_000)))


def long_paths(case, proof, sums):
    """10,000 steps under so many sums."""
    write_case(case, [("r", ["a"])], [["r"], ["r"]])
    term = "S(" * sums + "=(f0,f0)" + ")" * sums
    write_proof(proof, 1, beside(term, f"/riri{sums}", to_and_fro("eq_refl f0", 10_000)))


def opposite_leaves(case, proof, times):
    """Sums of as many nodes as an argument may have. Their leaves are the most that a case has, in opposite order, among zeros."""
    names = [f"t{number}" for number in range(MOST_BLOCKS)]
    write_case(case, [(name, ["a"]) for name in names], [names, names[::-1]])
    leaves = [table_term(number, 1) for number in range(MOST_BLOCKS)]
    zeros = (MOST_NODES - MOST_BLOCKS * (ROW_NODES + 1)) // (2 * MOST_BLOCKS)
    padded = [term for leaf in leaves for term in [leaf] + ["0"] * zeros]
    steps = there_and_back(
        left_sum(leaves), balanced_sum(padded), balanced_sum(padded[::-1]), left_sum(leaves[::-1]), times
    )
    write_proof(proof, 1, steps)


def deep_sums(case, proof, times):
    """Sums of the greatest depth of an argument, nested to the left and to the right."""
    write_case(case, [("r", ["a"])], [["r"], ["r"]])
    sums = MOST_DEPTH - ROW_DEPTH
    left = "+(" * sums + ROW + ",0)" * sums
    right = "+(0," * sums + ROW + ")" * sums
    write_proof(proof, 1, there_and_back(ROW, left, right, ROW, times))


def long_lists(case, proof, places):
    """Steps whose argument has a list of 131,073 values, in each line one place further."""
    write_case(case, [("r", ["a"])], [["r"], ["r"]])
    long = f"F0({','.join(['f0'] * 131_073)})"
    terms = (f"P0({'F0(f0),' * place}{long})" for place in range(places))
    steps = (f"/r {way} sq_one {term}\n" for term in terms for way in "<>")
    there, back = f"/ > mul_ac {ROW} *({ROW},1)\n", f"/ > mul_ac *({ROW},1) {ROW}\n"
    write_proof(proof, 1, [there, *steps, back])


def widest_case(case, proof, name_length):
    """As many tables, columns and blocks as a case has, under long names, and one step that turns the blocks round."""
    named = lambda letter, number: f"{letter}{number:0{name_length - 1}}"
    columns = [named("c", number) for number in range(MOST_COLUMNS)]
    tables = [(named("t", number), columns) for number in range(MOST_TABLES)]
    used = list(range(MOST_TABLES - MOST_BLOCKS, MOST_TABLES))
    names = [named("t", number) for number in used]
    write_case(case, tables, [names, names[::-1]])
    terms = [table_term(number, MOST_COLUMNS) for number in used]
    write_proof(proof, MOST_COLUMNS, [add_ac(left_sum(terms), left_sum(terms[::-1]))])
