"""Small plans for the tests of whole plans: makes them by chance, writes their text, and evaluates their tables and roles by rules of its own. It also
reads boxes of values, as the program prints them.
"""
import re
import subprocess
from datetime import date
from pathlib import Path

HERE = Path(__file__).resolve().parent
PROGRAM = HERE.parent.parent / "crates" / "adjudicate_cli" / "out" / "adjudicate_cli"
UNITS = 10_000
CENT = 100
GREATEST = 99_999_999_999 * UNITS + UNITS - 1
# The least and the greatest day, counted from 1 January of the year 1.
DAYS = (1, date(9999, 12, 31).toordinal())
UNNAMED = "no such text"
AMOUNTS = ["billed", "met", "oop", "paid", "fmet", "foop"]
# Names that tables read: their kind and the literals of their cells.
NAMES = {
    "category": ("text", ["A", "B", 'say "C"; d = 1', "D"]),
    "network": ("flag", [False, True]),
    "age": ("number", [-5 * UNITS, 0, 1, 18 * UNITS, 18 * UNITS + 1, GREATEST]),
    "since": ("day", [DAYS[0], date(2024, 2, 29).toordinal(), date(2024, 3, 1).toordinal(), DAYS[1]]),
    "service": ("day", [date(2024, 1, 1).toordinal(), date(2024, 12, 31).toordinal()]),
    "billed": ("number", [-1, 0, 50 * UNITS, 50 * UNITS + CENT, 50 * UNITS + 2 * CENT, 50 * UNITS + 150]),
    "met": ("number", [0, 1500 * UNITS, GREATEST]),
    "oop": ("number", [6000 * UNITS]),
}
FIELDS = ["category", "network", "age", "since"]
MONEY = ["0", "25", "62.5", "100"]
NOT_MONEY = ["-1", "10.005"]
ROLES = ["cover", "fee", "deductible", "copay", "rate", "oop_max"]
FAMILY_ROLES = ["family_deductible", "family_oop_max"]
NUMBER_OF = {"cover": 1, "fee": 2, "deductible": 3, "copay": 4, "rate": 5, "oop_max": 6, "family_deductible": 8, "family_oop_max": 9}


def units_of(text):
    """The ten-thousandths of a decimal."""
    sign = -1 if text.startswith("-") else 1
    whole, _, part = text.lstrip("-").partition(".")
    return sign * (int(whole or 0) * UNITS + int((part + "0000")[:4]))


def literal_of(kind, value):
    if kind == "number":
        whole, part = divmod(abs(value), UNITS)
        return ("-" if value < 0 else "") + f"{whole}.{part:04d}".rstrip("0").rstrip(".")
    if kind == "text":
        return '"' + value.replace("\\", "\\\\").replace('"', '\\"') + '"'
    if kind == "flag":
        return "true" if value else "false"
    return f'date("{date.fromordinal(value).isoformat()}")'


# A test is a literal, or an interval: its ends, None where there is none, and whether each belongs to it. A cell is a list of tests, and whether it is
# negated; None holds for all values.
def test_holds(test, value):
    if test[0] == "is":
        return value == test[1]
    _, low, low_in, high, high_in = test
    above = low is None or (value >= low if low_in else value > low)
    return above and (high is None or (value <= high if high_in else value < high))


def cell_holds(cell, value):
    return cell is None or any(test_holds(test, value) for test in cell[0]) != cell[1]


def test_text(kind, test):
    if test[0] == "is":
        return literal_of(kind, test[1])
    _, low, low_in, high, high_in = test
    if low is None:
        return ("<=" if high_in else "<") + literal_of(kind, high)
    if high is None:
        return (">=" if low_in else ">") + literal_of(kind, low)
    return ("[" if low_in else "]") + literal_of(kind, low) + ".." + literal_of(kind, high) + ("]" if high_in else "[")


def cell_text(kind, cell):
    if cell is None:
        return "-"
    tests = ",".join(test_text(kind, test) for test in cell[0])
    return f"not({tests})" if cell[1] else tests


def literals_in(cell):
    return [end for test in (cell[0] if cell else []) for end in ([test[1]] if test[0] == "is" else [test[1], test[3]]) if end is not None]


class Plans:
    """Makes plans by chance."""

    def __init__(self, chance):
        self.chance = chance

    def test(self, kind, literals):
        literal = self.chance.choice(literals)
        if kind in ("text", "flag") or self.chance.random() < 0.3:
            return ("is", literal)
        low, high = sorted([literal, self.chance.choice(literals)])
        ends = self.chance.choice([(low, high), (None, high), (low, None)])
        return ("in", ends[0], self.chance.random() < 0.5, ends[1], self.chance.random() < 0.5)

    def cell(self, kind, literals):
        if self.chance.random() < 0.3:
            return None
        return ([self.test(kind, literals) for _ in range(self.chance.choice([1, 1, 2]))], self.chance.random() < 0.2)

    def table(self, number, readable, hit, outputs):
        """A table: its inputs are names or earlier outputs, its outputs have a kind and possible entries."""
        names = self.chance.sample(sorted(readable), min(len(readable), self.chance.choice([1, 1, 2])))
        inputs = [(name, self.cell(*readable[name]) if self.chance.random() < 0.2 else None) for name in names]
        rules = []
        for _ in range(self.chance.randrange(1, 5)):
            entries = [self.chance.choice(values) for _, _, values in outputs]
            rules.append(([self.cell(*readable[name]) for name in names], entries))
        has_defaults = self.chance.random() < 0.5
        defaults = [self.chance.choice(values) if has_defaults else None for _, _, values in outputs]
        if hit == "C#" and has_defaults:
            defaults = ["1"]
        return {"number": number, "hit": hit, "inputs": inputs, "outputs": outputs, "rules": rules, "defaults": defaults}

    def with_ranks(self, plan):
        """The plan with a table whose rules are ranked by a list of entries."""
        given = self.chance.sample(sorted(NAMES), self.chance.choice([1, 2]))
        table = self.table(len(plan["tables"]) + 1, {name: NAMES[name] for name in given}, self.chance.choice(["P", "O"]), [("ranked", "text", ['"low"', '"high"', '"none"'])])
        table["priority"] = self.chance.sample(['"high"', '"low"', '"none"'], 3)
        return {**plan, "tables": plan["tables"] + [table]}

    def numbers(self, rate=False):
        good = ["0", "0.2", "1"] if rate else MONEY
        bad = ["1.0001", "20", "-0.1"] if rate else NOT_MONEY
        return good + (bad if self.chance.random() < 0.4 else [])

    def plan(self):
        version = self.chance.choice([1, 1, 3])
        given = self.chance.sample(sorted(NAMES), self.chance.choice([1, 2, 2, 3]))
        readable = {name: (NAMES[name][0], self.chance.sample(NAMES[name][1], min(3, len(NAMES[name][1])))) for name in given}
        keys = ROLES + (FAMILY_ROLES if version == 3 else [])
        roles = {key: "true" if key == "cover" else self.chance.choice(["0", "1"] if key == "rate" else MONEY) for key in keys}
        tables = []
        if self.chance.random() < 0.4:
            kind, values = self.chance.choice([("text", ['"x"', '"y"']), ("number", ["1", "2.5"])])
            hit = self.chance.choice(["U", "A", "F"]) if kind == "text" else self.chance.choice(["U", "A", "F", "C<", "C>", "C+", "C#"])
            tables.append(self.table(1, readable, hit, [("step", "number" if hit == "C#" else kind, values)]))
            literals = ["x", "y", "z"] if kind == "text" else [UNITS, 2 * UNITS, 25 * UNITS // 10]
            readable = {**readable, "step": (kind, literals)}
        for key in self.chance.sample(keys, self.chance.choice([0, 1, 1, 2])):
            self.role_table(tables, readable, roles, key)
        if self.chance.random() < 0.4 or not tables:
            tables.append(self.table(len(tables) + 1, readable, self.chance.choice(["R", "C"]), [("remark", "text", ['"one"', '"two"'])]))
            roles["remarks"] = "remark"
        return {"version": version, "tables": tables, "roles": roles}

    def role_table(self, tables, readable, roles, key):
        output = f"{key}_of_care"
        if key == "cover":
            hit, kind, values = self.chance.choice(["U", "A", "F"]), "flag", ["true", "false"]
        else:
            hit, kind, values = self.chance.choice(["U", "A", "F", "C+", "C<", "C>", "C#"]), "number", self.numbers(key == "rate")
            if hit == "C+" and self.chance.random() < 0.2:
                values = ["99999999999", "1"]
        tables.append(self.table(len(tables) + 1, readable, hit, [(output, kind, values)]))
        roles[key] = output


def plan_text(plan):
    """The text of a plan. `fields` has the fields that it declares, and `called` the name of a field where it is another one."""
    called = plan.get("called", {})
    fields = ", ".join(f'{{name = "{called.get(name, name)}", kind = "{NAMES[name][0]}"}}' for name in plan.get("fields", FIELDS))
    lines = [f"version = {plan['version']}", f"fields = [{fields}]"]
    lines += ["[roles]"] * bool(plan["roles"]) + [f"{key} = '{value}'" for key, value in plan["roles"].items()]
    kinds = {name: kind for name, (kind, _) in NAMES.items()}
    for table in plan["tables"]:
        inputs = [
            f"{{name = '{called.get(name, name)}'" + (f", values = '{cell_text(kinds[name], values)}'}}" if values else "}")
            for name, values in table["inputs"]
        ]
        ranks = f", priority = {table['priority']}" if "priority" in table else ""
        outputs = [
            f"{{name = '{name}', kind = '{kind}'" + ranks + (f", default = '{default}'}}" if default is not None else "}")
            for (name, kind, _), default in zip(table["outputs"], table["defaults"])
        ]
        rules = []
        for cells, entries in table["rules"]:
            when = ", ".join(f"'{cell_text(kinds[name], cell)}'" for (name, _), cell in zip(table["inputs"], cells))
            rules.append(f"{{when = [{when}], then = [{', '.join(repr(entry) for entry in entries)}]}}")
        lines += ["[[tables]]", f"hit = '{table['hit']}'", f"inputs = [{', '.join(inputs)}]", f"outputs = [{', '.join(outputs)}]"]
        lines.append(f"rules = [{', '.join(rules)}]")
        kinds.update({name: kind for name, kind, _ in table["outputs"]})
    return "\n".join(lines) + "\n"


def value_of(kind, literal):
    return units_of(literal) if kind == "number" else literal == "true" if kind == "flag" else literal.strip('"')


def value_by_hit(table, matches):
    """The answers of a table, or the reason of a fault, and the indices of the matches that give the answers; `matches` are indices and entries."""
    place, hit, kinds = table["number"], table["hit"], [kind for _, kind, _ in table["outputs"]]
    if hit in ("P", "O"):
        ranks = [value_of(kinds[0], literal) for literal in table["priority"]]
        matches = sorted(matches, key=lambda match: (ranks.index(match[1][0]), match[0]))
    every, columns = [at for at, _ in matches], [entries for _, entries in matches]
    if hit in ("R", "C", "O"):
        return [[entries[at] for entries in columns] for at in range(len(kinds))], None, every
    if not matches:
        if None in table["defaults"]:
            return None, f"norule:{place}", []
        return [value_of("number" if hit == "C#" else kind, it) for kind, it in zip(kinds, table["defaults"])], None, []
    if (hit == "U" and len(matches) > 1) or (hit == "A" and any(it != columns[0] for it in columns)):
        return None, f"clash:{place}", []
    numbers = [entries[0] for entries in columns]
    if hit == "C+" and abs(sum(numbers)) > GREATEST:
        return None, f"range:{place}", []
    of_numbers = {"C+": sum, "C<": min, "C>": max, "C#": lambda it: len(it) * UNITS}
    answers = [of_numbers[hit](numbers)] if hit in of_numbers else columns[0]
    if hit in ("F", "P"):
        return answers, None, every[:1]
    return answers, None, [at for at, entries in matches if entries == answers] if hit in ("C<", "C>") else every


def table_value(table, read, used):
    """The answers of a table for what its names have, or the reason of a fault. The rules and tests that are of use are added to `used`."""
    place, kinds = table["number"], [kind for _, kind, _ in table["outputs"]]
    for column, (name, values) in enumerate(table["inputs"], 1):
        if not cell_holds(values, read[name]):
            return None, f"outside:{place}:{column}"
    matches = []
    for rule, (cells, entries) in enumerate(table["rules"], 1):
        for column, ((name, _), cell) in enumerate(zip(table["inputs"], cells), 1):
            used.update((place, rule, column, at) for at, test in enumerate(cell[0] if cell else []) if test_holds(test, read[name]))
        if all(cell_holds(cell, read[name]) for (name, _), cell in zip(table["inputs"], cells)):
            matches.append((rule, [value_of(kind, entry) for kind, entry in zip(kinds, entries)]))
    answers, reason, giving = value_by_hit(table, matches)
    used.update((place, rule) for rule in giving)
    return answers, reason


def dead_lines(plan, used):
    """The lines of the rules and tests that are not used."""
    rules, tests = [], []
    kinds = {name: kind for name, (kind, _) in NAMES.items()}
    for table in plan["tables"]:
        for rule, (cells, _) in enumerate(table["rules"], 1):
            line = f"dead table {table['number']} rule {rule}"
            rules += [f"{line}: never gives the answer"] * ((table["number"], rule) not in used)
            for column, ((name, _), cell) in enumerate(zip(table["inputs"], cells), 1):
                for at, test in enumerate(cell[0] if cell else []):
                    if (table["number"], rule, column, at) not in used:
                        tests.append(f"{line} column {column}: {test_text(kinds[name], test)} is met nowhere")
        kinds.update({name: kind for name, kind, _ in table["outputs"]})
    return rules + tests


def determination_of(plan, given, used=None):
    """What a plan says of a claim: ("pended", reason), ("denied", remarks) or ("covered", remarks, the numbers of the other roles)."""
    read = dict(given)
    for table in plan["tables"]:
        answers, reason = table_value(table, read, set() if used is None else used)
        if reason:
            return ("pended", reason)
        read.update(zip([name for name, _, _ in table["outputs"]], answers))
    roles = plan["roles"]
    if not roles:
        return ("denied", ())
    remarks = tuple(read[roles["remarks"]]) if "remarks" in roles else ()
    if not (read[roles["cover"]] if roles["cover"] in read else roles["cover"] == "true"):
        return ("denied", remarks)
    terms = []
    for key in [key for key in ROLES[1:] + FAMILY_ROLES if key in roles]:
        units = read[roles[key]] if roles[key] in read else units_of(roles[key])
        if not (0 <= units <= UNITS if key == "rate" else units >= 0 and units % CENT == 0):
            return ("pended", f"term:{NUMBER_OF[key]}")
        terms.append((key, units))
    return ("covered", remarks, tuple(terms))


def cells_by_name(plans):
    """The literals of all cells of the plans by the name that they are asked of, for each name of a claim that a table reads."""
    found = {}
    for plan in plans:
        for table in plan["tables"]:
            for place, (name, values) in enumerate(table["inputs"]):
                if name in NAMES:
                    cells = [values] + [cells[place] for cells, _ in table["rules"]]
                    found.setdefault(name, set()).update(literal for cell in cells for literal in literals_in(cell))
    return found


def is_possible(name, value):
    """Whether a claim can have the value: it is in the range of its kind, and an amount is money."""
    if NAMES[name][0] == "day":
        return DAYS[0] <= value <= DAYS[1]
    if name in AMOUNTS:
        return 0 <= value <= GREATEST and value % CENT == 0
    return abs(value) <= GREATEST


def samples_of(name, literals):
    """Values that a claim can give the name: one in each region between its literals, and those at both ends of it."""
    kind = NAMES[name][0]
    if kind == "flag":
        return [False, True]
    if kind == "text":
        return sorted(literals) + [UNNAMED]
    cuts = sorted(literals)
    if name in AMOUNTS:
        near = [value for cut in cuts for value in (cut, (cut - 1) // CENT * CENT, (cut // CENT + 1) * CENT)]
    else:
        near = [value for cut in cuts for value in (cut, cut - 1, cut + 1)]
    return sorted({value for value in near if is_possible(name, value)}) or [0 if kind == "number" else DAYS[0]]


def region_of(name, literals, value):
    """What tells the regions of a name apart: for each literal, whether the value is it, and whether it is above it."""
    if NAMES[name][0] in ("text", "flag"):
        return value if value in literals or NAMES[name][0] == "flag" else None
    return tuple((value == cut, value > cut) for cut in sorted(literals))


TOKEN = re.compile(r'"(?:[^"\\]|\\.)*"|-?\d+(?:\.\d+)?|<=|>=|\.\.|[A-Za-z_]\w*|[^\s]')


class Cells:
    """Reads `name = cell; name = cell` by the grammar of a plan's cells."""

    def __init__(self, text):
        self.tokens = TOKEN.findall(text)
        self.texts = {}

    def take(self, wanted=None):
        token = self.tokens.pop(0)
        if wanted and token != wanted:
            raise ValueError(f"{token} in place of {wanted}")
        return token

    def next(self):
        return self.tokens[0] if self.tokens else ""

    def literal(self):
        token = self.take()
        if token.startswith('"'):
            return re.sub(r"\\(.)", r"\1", token[1:-1])
        if token == "date":
            self.take("(")
            day = date.fromisoformat(self.take().strip('"')).toordinal()
            self.take(")")
            return day
        return token == "true" if token in ("true", "false") else units_of(token)

    def test(self):
        if self.next() in ("<", "<=", ">", ">="):
            sign, end = self.take(), self.literal()
            return ("in", None, False, end, sign == "<=") if sign[0] == "<" else ("in", end, sign == ">=", None, False)
        if self.next() in ("[", "]"):
            opening, low, _, high, closing = self.take(), self.literal(), self.take(".."), self.literal(), self.take()
            return ("in", low, opening == "[", high, closing == "]")
        return ("is", self.literal())

    def tests(self):
        found = [self.test()]
        while self.next() == ",":
            self.take()
            found.append(self.test())
        return found

    def cell(self):
        if self.next() != "not":
            return (self.tests(), False)
        self.take()
        self.take("(")
        found = self.tests()
        self.take(")")
        return (found, True)

    def box(self):
        """The cell of each name."""
        found = {}
        while self.tokens:
            name = self.take()
            self.take("=")
            left = list(self.tokens)
            found[name] = self.cell()
            self.texts[name] = "".join(left[: len(left) - len(self.tokens)])
            if self.tokens:
                self.take(";")
        return found


def lies_in(box, given):
    return all(cell_holds(cell, given[name]) for name, cell in box.items())


def plan_of_cells(texts):
    """A plan with a rule for each of these: the text of a cell for some names."""
    fields = ", ".join(f'{{name = "{name}", kind = "{NAMES[name][0]}"}}' for name in FIELDS)
    inputs = ", ".join(f"{{name = '{name}'}}" for name in NAMES)
    rules = ["{when = [" + ", ".join(f"'{cells.get(name, '-')}'" for name in NAMES) + "], then = ['1']}" for cells in texts]
    table = f"hit = 'C'\ninputs = [{inputs}]\noutputs = [{{name = 'line', kind = 'number'}}]\nrules = [{', '.join(rules)}]\n"
    return f"version = 1\nfields = [{fields}]\n[[tables]]\n{table}"


def run(room, name, text, *words):
    path = room / name
    path.write_text(text)
    return subprocess.run([PROGRAM, *words, path], stdout=subprocess.PIPE, stderr=subprocess.PIPE, timeout=60)
