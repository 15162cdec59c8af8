"""Names of rule files: each defined once, and macros in front of their calls."""

from .reading import all_elements, elements, line_of, made, remove

PARTS = ("lem", "lemh", "lemq", "whole", "tags", "chcontent")
KINDS = {"def-cat": "section-def-cats", "def-attr": "section-def-attrs",
         "def-var": "section-def-vars", "def-list": "section-def-lists",
         "def-macro": "section-def-macros"}
USES = (("pattern-item", "n", "def-cat"), ("clip", "part", "def-attr"),
        ("case-of", "part", "def-attr"), ("var", "n", "def-var"), ("append", "n", "def-var"),
        ("chunk", "namefrom", "def-var"), ("chunk", "case", "def-var"), ("list", "n", "def-list"),
        ("call-macro", "n", "def-macro"))


def section_of(root, kind):
    """The section that holds definitions of a kind, made in its place where it isn't there."""
    name = KINDS[kind]
    section = root.find(name)
    if section is None:
        order = list(KINDS.values()) + ["section-rules"]
        section = made(name)
        before = [part for part in elements(root) if order.index(part.tag) < order.index(name)]
        root.insert(root.index(before[-1]) + 1 if before else 0, section)
    return section


def define(root, telling):
    """Makes every name that is used defined once, and puts macros in front of their calls."""
    for kind in KINDS:
        join_definitions(root, kind, telling)
    defined = {kind: {one.get("n") for one in all_elements(root, kind)} for kind in KINDS}
    for tag, attribute, kind in USES:
        for use in all_elements(root, tag):
            name = use.get(attribute)
            if name is None or name in defined[kind] or (kind == "def-attr" and name in PARTS):
                continue
            defined[kind].add(name)
            telling.change(line_of(use), f"{attribute}={name} of {tag} without a definition",
                           f"an empty {kind}")
            add_definition(root, kind, name)
    match_calls(root, telling)
    order_macros(root, telling)


def add_definition(root, kind, name):
    """Adds the definition of a name that gives nothing."""
    one = made(kind, n=name)
    if kind == "def-macro":
        calls = [call for call in all_elements(root, "call-macro") if call.get("n") == name]
        one.set("npar", str(max(len(elements(call)) for call in calls)))
    section_of(root, kind).append(one)


def join_definitions(root, kind, telling):
    """Makes one definition of several with one name: categories and lists get the items of all;
    of attributes, variables and macros the last counts."""
    seen = {}
    for one in all_elements(root, kind):
        name = one.get("n")
        first = seen.get(name)
        if kind == "def-attr" and name in PARTS:
            telling.change(line_of(one), f"an attribute named {name}", "nothing",
                           "its items: the part of that name is built in")
            remove(one)
        elif first is not None and kind in ("def-cat", "def-list"):
            telling.change(line_of(one), f"a second {kind} {name}", "items of the first")
            for item in list(one):
                first.append(item)
            remove(one)
        elif first is not None:
            telling.change(line_of(first), f"{kind} {name}, which is defined again", "nothing",
                           "the first definition")
            remove(first)
            seen[name] = one
        else:
            seen[name] = one


def match_calls(root, telling):
    """Makes each call of a macro one with as many parameters as the macro has."""
    wanted = {macro.get("n"): int(macro.get("npar")) for macro in all_elements(root, "def-macro")}
    for call in all_elements(root, "call-macro"):
        given, want = elements(call), wanted.get(call.get("n"), 0)
        for spare in given[want:]:
            telling.change(line_of(call), f"a call of {call.get('n')} with {len(given)} units",
                           f"one with {want}")
            call.remove(spare)
        if given and len(given) < want:
            last = given[-1].get("pos")
            telling.change(line_of(call), f"a call of {call.get('n')} with {len(given)} units",
                           f"one with {want}, of which the last are position {last}",
                           "that there are no such units")
            for _ in range(want - len(given)):
                call.append(made("with-param", pos=last))
        elif not given and want:
            telling.cannot(line_of(call), f"a call of {call.get('n')} without units")


def order_macros(root, telling):
    """Puts each macro behind those that it calls, and else leaves the order."""
    section = root.find("section-def-macros")
    if section is None:
        return
    macros = {macro.get("n"): macro for macro in elements(section) if macro.tag == "def-macro"}
    placed, open_ = [], []

    def place(name):
        """Places what the macro calls, and then the macro."""
        if name in open_:
            telling.cannot(line_of(macros[name]), f"the macro {name}, which calls itself")
            return
        if name in placed or name not in macros:
            return
        open_.append(name)
        for call in macros[name].iter("call-macro"):
            place(call.get("n"))
        open_.remove(name)
        placed.append(name)

    for name in macros:
        place(name)
    if placed != list(macros):
        tell_of_order(macros, telling)
        for name in placed:
            section.append(macros[name])


def tell_of_order(macros, telling):
    """Tells which macros stood behind a macro that calls them."""
    before = list(macros)
    for name in before:
        called = {call.get("n") for call in macros[name].iter("call-macro")}
        for other in before[before.index(name) + 1:]:
            if other in called:
                telling.change(line_of(macros[other]), f"the macro {other} behind its use in "
                               f"{name}", "the same in front of it")
