"""Units that rules of Apertium make by writing the signs of the stream into variables.

There a variable is a text: `x<n>$ ^y<n>` in an `lu` makes two units. Here it is a word, and
signs in it are escaped. So a variable that may hold more than one unit becomes several: `v`,
`v--2` and `v--3` hold its units, and `v--at` the number of the last one, where that isn't the
first. What writes it writes these, and an `out` that writes it chooses by `v--at`.
"""

import copy
import re

from .names import section_of
from .reading import all_elements, elements, line_of, made, remove, replace

MOST_UNITS = 3
MOST_CHOICES = 81
BREAK = "break"
OPEN = "open"
CLOSE = "close"
BLANK = "blank"
SIGNS = re.compile(r"\$\s*\^|\^|\$\s*|[{}]")


def is_break(atom):
    """Whether an atom says that a unit ends and another begins."""
    return isinstance(atom, tuple) and atom[0] == BREAK


def atoms_of(values):
    """The values in order, each `concat` as what it holds, and each literal with signs of the
    stream as the texts between them; a sign is a tuple of its kind and its literal."""
    atoms = []
    for value in values:
        if value.tag == "concat":
            atoms += atoms_of(elements(value))
        elif value.tag == "lit" and SIGNS.search(value.get("v", "")):
            atoms += atoms_of_text(value)
        else:
            atoms.append(value)
    return joined(atoms)


def atoms_of_text(literal):
    """The atoms of a literal that holds signs of the stream."""
    atoms, text, at = [], literal.get("v"), 0
    for sign in SIGNS.finditer(text):
        if text[at:sign.start()]:
            atoms.append(made("lit", v=text[at:sign.start()]))
        found = sign.group()
        if found.startswith("$") and found.endswith("^"):
            atoms.append((BREAK, literal))
        elif found.startswith("$"):
            atoms.append((CLOSE, literal))
            atoms += [(BLANK, literal)] if found != "$" else []
        else:
            atoms.append((OPEN if found == "^" else found, literal))
        at = sign.end()
    if text[at:]:
        atoms.append(made("lit", v=text[at:]))
    return atoms


def joined(atoms):
    """The atoms with each end of a unit, blanks and begin of a unit made one break."""
    out = []
    for atom in atoms:
        kind = atom[0] if isinstance(atom, tuple) else None
        if kind == OPEN:
            back = len(out)
            while back and is_blank(out[back - 1]):
                back -= 1
            if back and isinstance(out[back - 1], tuple) and out[back - 1][0] == CLOSE:
                out[back - 1:] = [(BREAK, atom[1])]
                continue
        out.append(atom)
    return out


def is_blank(atom):
    """Whether an atom is a blank: `b`, white space alone, or what stands behind a sign."""
    if isinstance(atom, tuple):
        return atom[0] == BLANK
    return atom.tag == "b" or (atom.tag == "lit" and atom.get("v", "x").isspace())


class Units:
    """The variables of a rule file that hold units, or blanks, and what becomes of them."""

    def __init__(self, root, telling):
        """`root` is the tree of the rule file."""
        self.root, self.telling = root, telling
        self.assignments = [(name_written(one), one) for one in all_elements(root, "let", "append")
                            if name_written(one) is not None]
        self.raw = {var.get("n") for var in all_elements(root, "var")
                    if var.getparent().tag in ("chunk", "out") and root.tag != "interchunk"
                    or var.getparent().tag == "out"}
        self.many = self.holders_of_many()
        self.blank = {name for name in self.raw if self.holds_blanks(name)}
        self.spaced = {name for name in self.raw if self.ends_in_blank(name)}

    def atoms_written(self, name):
        """The lists of atoms that the file writes to a variable."""
        return [atoms_of(values_written(one)) for written, one in self.assignments
                if written == name]

    def holders_of_many(self):
        """The variables that may hold more than one unit, by what is written to them."""
        many, before = set(), None
        while before != many:
            before = set(many)
            for name, one in self.assignments:
                for atom in atoms_of(values_written(one)):
                    if is_break(atom) or (not isinstance(atom, tuple) and atom.tag == "var"
                                          and atom.get("n") in many):
                        many.add(name)
        return many

    def holds_blanks(self, name):
        """Whether nothing but blanks, or nothing at all, is written to a variable."""
        lists = self.atoms_written(name)
        return bool(lists) and all(is_blank(atom) or is_empty(atom)
                                   for atoms in lists for atom in atoms)

    def ends_in_blank(self, name):
        """Whether some value that is written to a variable ends in a blank behind a unit."""
        return any(len(atoms) > 1 and is_blank(atoms[-1]) for atoms in self.atoms_written(name))


def is_empty(atom):
    """Whether an atom is the empty literal."""
    return not isinstance(atom, tuple) and atom.tag == "lit" and not atom.get("v")


def name_written(statement):
    """The name of the variable that a `let` or `append` writes, or None where it writes a
    clip."""
    if statement.tag == "append":
        return statement.get("n")
    children = elements(statement)
    return children[0].get("n") if children and children[0].tag == "var" else None


def values_written(statement):
    """The values that a `let` or `append` writes."""
    return elements(statement)[statement.tag == "let":]


def part(name, number):
    """The name of the variable for a unit of `name`, counted from 1."""
    return name if number == 1 else f"{name}--{number}"


def spell_units(root, telling):
    """Makes variables that hold units into variables that hold a unit each, in the whole file."""
    for unit in all_elements(root, "lu"):
        split_literals(unit, telling)
    units = Units(root, telling)
    tell_of_first_units(root, units)
    for name in sorted(units.many):
        variables = section_of(root, "def-var")
        for number in range(2, MOST_UNITS + 1):
            variables.append(made("def-var", n=part(name, number)))
        variables.append(made("def-var", n=f"{name}--at"))
    for name, one in units.assignments:
        if name in units.many:
            spread(one, name, units)
        elif name in units.raw:
            take_signs_off(one, name, units)
    for test in all_elements(root, "equal"):
        spell_test(test, units)
    if root.tag == "interchunk" or root.get("default") == "chunk":
        leave_out_among_chunks(root, units)
    for out in all_elements(root, "out"):
        spell_out(out, units)
    for var in all_elements(root, "var"):
        var.attrib.pop("done", None)


def split_literals(unit, telling):
    """Writes a unit with an end and a begin of units among its values as several."""
    atoms = atoms_of(elements(unit))
    if unit.getparent().tag == "mlu" or not any(is_break(atom) for atom in atoms):
        return
    pieces = [made("lu")]
    for atom in atoms:
        if is_break(atom):
            pieces += [made("b"), made("lu")]
        elif not isinstance(atom, tuple):
            pieces[-1].append(copy_of(atom))
    telling.change(line_of(unit), "an end and a begin of units in a unit", "units")
    replace(unit, pieces)


def tell_of_first_units(root, units):
    """Tells where a variable of several units is read for its first one alone."""
    for var in all_elements(root, "var"):
        parent = var.getparent()
        if var.get("n") not in units.many or parent.tag in ("lu", "chunk", "out", "equal"):
            continue
        holder = parent
        while holder.tag in ("concat", "get-case-from"):
            holder = holder.getparent()
        written = name_written(holder) if holder.tag in ("let", "append") else None
        if written is None and (parent.tag != "get-case-from" or holder.tag != "lu"):
            units.telling.change(line_of(var), f"the variable {var.get('n')} in {parent.tag}",
                                 "its first unit", "its later units, where it holds any")


def leave_out_among_chunks(root, units):
    """Leaves out the variables that stand among chunks and hold more than blanks."""
    for var in all_elements(root, "var"):
        if var.getparent().tag == "out" and var.get("n") not in units.blank:
            units.telling.change(line_of(var), f"the variable {var.get('n')} among chunks",
                                 "nothing", "the chunk that it may hold")
            remove(var)


def statement_let(name, *values):
    """A `let` that writes the values to a variable."""
    value = values[0] if len(values) == 1 else made("concat", *values)
    return made("let", made("var", n=name), value)


def take_signs_off(statement, name, units):
    """Takes the signs and blanks at the ends of a unit off what is written to a variable that
    becomes a unit of its own."""
    atoms = atoms_of(values_written(statement))
    if not any(isinstance(atom, tuple) for atom in atoms):
        return
    kept = [atom for atom in atoms if not isinstance(atom, tuple)]
    while kept and is_blank(kept[-1]):
        kept.pop()
    if any(isinstance(atom, tuple) and atom[0] in "{}" for atom in atoms):
        units.telling.change(line_of(statement), f"a chunk in the variable {name}",
                             "nothing", "the chunk")
        kept = []
    else:
        units.telling.change(line_of(statement), f"the signs of a unit in the variable {name}",
                             "nothing: its use is a unit")
    for value in values_written(statement):
        statement.remove(value)
    kept = kept or [made("lit", v="")]
    if statement.tag == "append" or len(kept) == 1:
        statement.extend(kept)
    else:
        statement.append(made("concat", *kept))


def spread(statement, name, units):
    """Writes a `let` or `append` to a variable of several units as statements on each."""
    atoms = [atom for atom in atoms_of(values_written(statement))
             if not isinstance(atom, tuple) or atom[0] == BREAK]
    if any(is_break(atom) for atom in atoms):
        units.telling.change(line_of(statement), f"an end and a begin of units in {name}",
                             f"the variables {part(name, 2)} to {part(name, MOST_UNITS)}",
                             f"units past the number {MOST_UNITS}, where a run makes so many")
    out, own = [], [atom for atom in atoms if is_variable(atom, name)]
    if statement.tag == "let":
        if own and atoms and atoms[0] is own[0] and len(own) == 1:
            out += appended(name, atoms[1:], None, units)
        elif own:
            units.telling.cannot(line_of(statement), f"the variable {name} inside its own value")
            return
        else:
            cleared = [part(name, number) for number in range(1, MOST_UNITS + 1)] + [f"{name}--at"]
            out += [statement_let(each, made("lit", v="")) for each in cleared]
            out += appended(name, atoms, 1, units)
    else:
        out += appended(name, atoms, None, units)
    replace(statement, out)


def is_variable(atom, name):
    """Whether an atom is the variable of that name."""
    return not isinstance(atom, tuple) and atom.tag == "var" and atom.get("n") == name


def appended(name, atoms, at, units):
    """The statements that append the atoms to a variable of several units; `at` is the number
    of its last unit, or None where only a run tells it."""
    out, run = [], []

    def flush():
        """Appends the values that were gathered to the last unit."""
        if run:
            out.extend(append_to_last(name, list(run), at))
            run.clear()

    for atom in atoms:
        if is_break(atom):
            flush()
            at = at + 1 if at is not None and at < MOST_UNITS else at
            out.extend(begin_unit(name, at))
        elif not isinstance(atom, tuple) and atom.tag == "var" and atom.get("n") in units.many:
            run.append(copy_of(atom))
            flush()
            out.append(append_units(name, atom.get("n")))
            at = None
        else:
            run.append(copy_of(atom))
    flush()
    return out


def copy_of(value):
    """A copy of an element, without the text behind it."""
    one = copy.deepcopy(value)
    one.tail = None
    return one


def last_is(name, number):
    """The condition that the last unit of a variable has that number."""
    return made("equal", made("var", n=f"{name}--at"),
                made("lit", v="" if number == 1 else str(number)))


def append_to_last(name, values, at):
    """The statements that append values to the last unit of a variable."""
    if at is not None:
        return [made("append", *values, n=part(name, at))]
    whens = [made("when", made("test", last_is(name, number)),
                  made("append", *map(copy_of, values), n=part(name, number)))
             for number in range(2, MOST_UNITS + 1)]
    return [made("choose", *whens, made("otherwise", made("append", *values, n=name)))]


def begin_unit(name, at):
    """The statements that begin a new unit of a variable; its number is `at`, where it is
    told."""
    if at is not None:
        return [statement_let(f"{name}--at", made("lit", v=str(at)))]
    whens = [made("when", made("test", last_is(name, number)),
                  statement_let(f"{name}--at", made("lit", v=str(number + 1))))
             for number in range(1, MOST_UNITS)]
    return [made("choose", *whens)]


def append_units(name, other):
    """The statement that appends the second and later units of `other` to those of `name`."""
    def unit(number):
        """The statements for one unit of `other`."""
        return begin_unit(name, None) + append_to_last(
            name, [made("var", n=part(other, number))], None)

    whens = []
    for last in range(2, MOST_UNITS + 1):
        statements = [one for number in range(2, last + 1) for one in unit(number)]
        whens.append(made("when", made("test", last_is(other, last)), *statements))
    return made("choose", *whens)


def spell_test(test, units):
    """Tests a variable of several units for emptiness by all of them."""
    children = elements(test)
    names = [child.get("n") for child in children
             if child.tag == "var" and child.get("n") in units.many]
    if not names or test.getparent() is None:
        return
    if len(names) == 1 and any(is_empty(child) for child in children):
        whole = made("and", made("equal", *[copy_of(child) for child in children]),
                     last_is(names[0], 1))
        units.telling.change(line_of(test), f"the test whether {names[0]} is empty",
                             "one of its units")
        replace(test, [whole])
    else:
        units.telling.change(line_of(test), f"a test of {' and '.join(names)}",
                             "one of its first unit", "its later units")


def spell_out(out, units):
    """Writes an `out` with variables of units as a choice by how many they hold."""
    holders = [child for child in out.iter("chunk", "out")]
    problems = [piece for holder in holders for piece in elements(holder)
                if choices_of(piece, units)]
    if not problems:
        return
    number = 1
    for piece in problems:
        number *= len(choices_of(piece, units))
    if number > MOST_CHOICES:
        units.telling.cannot(line_of(out), "an out with too many variables of units")
        return
    units.telling.change(line_of(out), "an out with variables of units or blanks",
                         f"a choice of {number} by what they hold", "nothing but what is told "
                         "where they are written")
    replace(out, [chosen(out, units)])


def chosen(out, units):
    """The statement that chooses for the first piece of an `out` that has choices, and within
    each choice for the next."""
    for holder in out.iter("chunk", "out"):
        for piece in elements(holder):
            choices = choices_of(piece, units)
            if choices:
                return choose_piece(out, piece, choices, units)
    return out


def choose_piece(out, piece, choices, units):
    """The choice of what stands in the place of `piece`."""
    branches = []
    for condition, pieces in choices:
        piece.set("here", "yes")
        one = copy_of(out)
        del piece.attrib["here"]
        place = next(found for found in one.iter(piece.tag) if found.get("here"))
        replace(place, pieces)
        inner = chosen(one, units)
        if condition is None:
            branches.append(made("otherwise", inner))
        else:
            branches.append(made("when", made("test", condition), inner))
    return made("choose", *branches)


def choices_of(piece, units):
    """What may stand in the place of a piece: pairs of a condition, None for the last one, and
    the pieces; nothing where it stays as it is."""
    if piece.tag == "var" and piece.getparent().tag in ("chunk", "out"):
        name = piece.get("n")
        if name not in units.raw:
            return []
        empty = made("and", made("equal", made("var", n=name), made("lit", v="")),
                     *([last_is(name, 1)] if name in units.many else []))
        if name in units.blank:
            return [(empty, []), (None, [made("b")])]
        behind = [made("b")] if name in units.spaced else []
        return [(empty, [])] + [(condition, pieces + [copy_of(one) for one in behind])
                                for condition, pieces in split(made("lu", copy_of(piece)), units)]
    if piece.tag == "lu":
        found = split(piece, units)
        return found if len(found) > 1 else []
    return choices_of_joined(piece, units) if piece.tag == "mlu" else []


def choices_of_joined(joined_unit, units):
    """The choices for a unit of joined words, by its first word that has any: the words before
    are joined with its first unit, and those behind with its last."""
    words = elements(joined_unit)
    for place, word in enumerate(words):
        found = split(word, units)
        if len(found) == 1:
            continue
        choices = []
        for condition, pieces in found:
            first = made("mlu", *map(copy_of, words[:place]), pieces[0])
            last = first if len(pieces) == 1 else made("mlu", pieces[-1])
            last.extend(map(copy_of, words[place + 1:]))
            between = pieces[1:-1] + [last] if len(pieces) > 1 else []
            choices.append((condition, [first] + between))
        return choices
    return []


def variable_of_many(value, units):
    """The variable of several units, not yet split, that a value is or takes its case, or
    None."""
    if value.tag not in ("var", "get-case-from"):
        return None
    return next((var for var in value.iter("var")
                 if var.get("n") in units.many and not var.get("done")), None)


def split(unit, units):
    """The choices for a unit by the number of units that its first variable of several holds;
    one choice where it has none."""
    for place, value in enumerate(elements(unit)):
        found = variable_of_many(value, units)
        if found is None:
            continue
        name = found.get("n")
        found.set("done", "yes")
        choices = []
        for last in range(MOST_UNITS, 0, -1):
            mine = [copy_of(each) for each in elements(unit)]
            pieces = [made("lu", *mine[:place + 1])]
            for number in range(2, last + 1):
                pieces += [made("b"), made("lu", made("var", n=part(name, number)))]
            pieces[-1].extend(mine[place + 1:])
            choices.append((None if last == 1 else last_is(name, last), pieces))
        del found.attrib["done"]
        return choices
    return [(None, [unit])]
