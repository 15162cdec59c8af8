"""Conversion of dictionaries."""

import re

from .expressions import rewritten
from .reading import all_elements, elements, line_of, made, remove, replace
from .tables import DICTIONARY, attributes_of, judge

VARIANTS = ("v", "vl", "vr", "alt")
TYPES = ("standard", "inconditional", "postblank", "preblank")


class Variants:
    """Which variant and alternative is asked for, as the words of the command say it."""

    def __init__(self, both="", left="", right="", alternative="", side=""):
        """`both`, `left`, `right` and `alternative` are the values, one or more words, that
        `v`, `vl`, `vr` and `alt` must have; `side` is `left` or `right` where entries of other
        variants are kept in the direction that leads away from that side, else empty."""
        self.both, self.left, self.right = both, left, right
        self.alternative, self.side = alternative, side

    def directions(self, element):
        """The directions, among `LR` and `RL`, in which an entry with these attributes is kept
        by `lt-comp` with the same words."""
        kept = {"LR", "RL"}
        for attribute, asked, gone in (
                ("v", self.both, self.gone()), ("vl", self.left, {"RL"}),
                ("vr", self.right, {"LR"}), ("alt", self.alternative, {"LR", "RL"})):
            values = element.get(attribute, "").split()
            if values and not set(asked.split()) & set(values) and (attribute != "v" or asked):
                kept -= gone
        side = element.get("r")
        return kept & {side} if side is not None else kept

    def gone(self):
        """The directions in which an entry of another variant than that of `v` is left out."""
        return {"left": {"RL"}, "right": {"LR"}}.get(self.side, {"LR", "RL"})


def convert(root, variants, telling):
    """Makes the tree of a dictionary into one that the program reads, in its place."""
    order_parts(root, telling)
    for entry in all_elements(root, "e"):
        keep_variant(entry, variants, telling)
    for group in all_elements(root, "ig"):
        spell_group(group, telling)
    for boundary in all_elements(root, "m"):
        telling.change(line_of(boundary), "a boundary of morphemes", "nothing")
        remove(boundary)
    for expression in all_elements(root, "re"):
        spell_expression(expression, telling)
    for element in all_elements(root):
        clean_attributes(element, telling)
    declare_symbols(root, telling)
    join_paradigms(root, telling)
    find_paradigms(root, telling)
    judge(root, DICTIONARY, telling)
    for section in all_elements(root, "section"):
        if section.get("type") not in TYPES:
            telling.cannot(line_of(section), f"a section of type {section.get('type')}")


def order_parts(root, telling):
    """Makes one `alphabet`, `sdefs` and `pardefs` of several, and puts them in order."""
    order = ["alphabet", "sdefs", "pardefs", "section"]
    for name in order[:3]:
        first, *others = [part for part in elements(root) if part.tag == name] or [None]
        for other in others:
            telling.change(line_of(other), f"a second {name}", "a part of the first")
            if name == "alphabet":
                first.text = (first.text or "") + (other.text or "")
            for child in list(other):
                first.append(child)
            remove(other)
    parts = elements(root)
    known = [part for part in parts if part.tag in order]
    wanted = sorted(known, key=lambda part: order.index(part.tag))
    if known != wanted:
        telling.change(line_of(root), "parts of the dictionary in another order", "their order")
        for part in wanted:
            root.append(part)


def keep_variant(entry, variants, telling):
    """Leaves an entry out, or keeps it in one direction, as the variants ask."""
    named = [name for name in VARIANTS if name in entry.attrib]
    side = entry.get("r")
    if not named and side in (None, "LR", "RL"):
        return
    was = f"an entry with {' '.join(f'{name}={entry.get(name)}' for name in named) or 'r=' + side}"
    kept = variants.directions(entry)
    if not kept:
        telling.change(line_of(entry), was, "nothing", "the entry, which that variant lacks")
        remove(entry)
        return
    for name in named:
        del entry.attrib[name]
    if len(kept) == 1:
        entry.set("r", kept.pop())
        became = f"one with r={entry.get('r')}"
    else:
        became = "one for both directions"
    telling.change(line_of(entry), was, became, "nothing of that variant")


def spell_group(group, telling):
    """Writes an identity with a queue on its right side as a pair."""
    left, right, queue = made("l"), made("r"), made("g")
    left.text = queue.text = group.text
    for child in list(group):
        left.append(made(child.tag, **dict(child.attrib)))
        left[-1].tail = child.tail
        queue.append(child)
    right.append(queue)
    telling.change(line_of(group), "ig", "a pair with g on its right side")
    replace(group, [made("p", left, right)])


def spell_expression(expression, telling):
    """Writes an expression as the program reads it, and tells what changed in it."""
    text = "".join(expression.itertext())
    spelt, lost = rewritten(text)
    if spelt is None:
        telling.cannot(line_of(expression), f"the expression {text}: {lost}")
    elif spelt != text:
        telling.change(line_of(expression), f"the expression {text}", spelt, lost or "nothing")
        for child in list(expression):
            expression.remove(child)
        expression.text = spelt


def clean_attributes(element, telling):
    """Leaves out the attributes that change nothing here, and weights."""
    if element.tag not in DICTIONARY:
        return
    allowed, _ = attributes_of(DICTIONARY, element.tag)
    for name in sorted(set(element.attrib) - allowed):
        lost = "the weight: readings stand by their bytes" if name == "w" else "nothing"
        telling.change(line_of(element), f"{name}={element.get(name)} of {element.tag}",
                       "nothing", lost)
        del element.attrib[name]
    if element.tag == "e" and element.get("i", "no") not in ("yes", "no"):
        telling.change(line_of(element), f"i={element.get('i')}", "i=no")
        element.set("i", "no")


def declare_symbols(root, telling):
    """Declares each tag that is used and not declared."""
    declared = {symbol.get("n") for symbol in all_elements(root, "sdef")}
    for use in all_elements(root, "s"):
        name = use.get("n")
        if name is None or name in declared:
            continue
        declared.add(name)
        telling.change(line_of(use), f"the tag {name} without a declaration", "declared")
        symbols = root.find("sdefs")
        if symbols is None:
            symbols = made("sdefs")
            root.insert(0 if root.find("alphabet") is None else 1, symbols)
        symbols.append(made("sdef", n=name))
    for symbol in all_elements(root, "sdef"):
        if re.search(r"[\s^$/<>{}\\\[\]]", symbol.get("n", "")) or symbol.get("n") == "":
            telling.cannot(line_of(symbol), f"a tag named {symbol.get('n')}")


def join_paradigms(root, telling):
    """Makes one paradigm of two with one name: the second takes in the first, which stays in its
    place under a name of its own, for its uses between them too."""
    seen = {}
    for paradigm in all_elements(root, "pardef"):
        name = paradigm.get("n")
        first = seen.get(name)
        if first is not None:
            own = f"{name} before line {line_of(paradigm)}"
            telling.change(line_of(paradigm), f"a second paradigm {name}",
                           "one with the entries of both")
            for use in uses_before(root, paradigm, name):
                use.set("n", own)
            first.set("n", own)
            paradigm.insert(0, made("e", made("par", n=own)))
        seen[name] = paradigm


def find_paradigms(root, telling):
    """Leaves out the ignored entries with a paradigm that isn't defined, which is a fault in them
    too; in other entries it has no form here."""
    defined = {paradigm.get("n") for paradigm in all_elements(root, "pardef")}
    for entry in all_elements(root, "e"):
        missing = [use.get("n") for use in entry.iter("par") if use.get("n") not in defined]
        if missing and entry.get("i") == "yes":
            telling.change(line_of(entry), f"an ignored entry with the paradigm {missing[0]}, "
                           "which isn't defined", "nothing")
            remove(entry)
        elif missing:
            telling.cannot(line_of(entry), f"the paradigm {missing[0]}, which isn't defined")


def uses_before(root, paradigm, name):
    """The uses of the paradigm `name` in paradigms in front of `paradigm`."""
    for other in all_elements(root, "pardef"):
        if other is paradigm:
            return
        yield from (use for use in other.iter("par") if use.get("n") == name)
