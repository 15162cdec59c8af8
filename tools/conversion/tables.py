"""The elements that the program reads: their attributes and what they may hold."""

VALUES = "clip lit lit-tag var get-case-from case-of concat b"
STATEMENTS = "choose let append out modify-case call-macro"
CONDITIONS = ("and or not equal begins-with begins-with-list ends-with ends-with-list "
              "contains-substring in")
SECTIONS = ("section-def-cats section-def-attrs section-def-vars section-def-lists "
            "section-def-macros section-rules")

DICTIONARY = {
    "dictionary": ("", "alphabet sdefs pardefs section"),
    "alphabet": ("", "#"),
    "sdefs": ("", "sdef"),
    "sdef": ("n!", ""),
    "pardefs": ("", "pardef"),
    "pardef": ("n!", "e"),
    "section": ("id type!", "e"),
    "e": ("lm a r i", "i p par re"),
    "p": ("", "l r"),
    "i": ("", "# b s j g a"),
    "l": ("", "# b s j g a"),
    "r": ("", "# b s j g a"),
    "g": ("", "# b s j a"),
    "b": ("", ""), "j": ("", ""), "a": ("", ""),
    "s": ("n!", ""),
    "par": ("n!", ""),
    "re": ("", "#"),
}

RULES = {
    "transfer": ("default", SECTIONS),
    "interchunk": ("", SECTIONS),
    "postchunk": ("", SECTIONS),
    "section-def-cats": ("", "def-cat"),
    "def-cat": ("n!", "cat-item"),
    "cat-item": ("tags lemma name", ""),
    "section-def-attrs": ("", "def-attr"),
    "def-attr": ("n!", "attr-item"),
    "attr-item": ("tags!", ""),
    "section-def-vars": ("", "def-var"),
    "def-var": ("n! v", ""),
    "section-def-lists": ("", "def-list"),
    "def-list": ("n!", "list-item"),
    "list-item": ("v!", ""),
    "section-def-macros": ("", "def-macro"),
    "def-macro": ("n! npar!", STATEMENTS),
    "section-rules": ("", "rule"),
    "rule": ("comment", "pattern action"),
    "pattern": ("", "pattern-item"),
    "pattern-item": ("n!", ""),
    "action": ("", STATEMENTS),
    "otherwise": ("", STATEMENTS),
    "choose": ("", "when otherwise"),
    "when": ("", "test " + STATEMENTS),
    "test": ("", CONDITIONS), "not": ("", CONDITIONS),
    "and": ("", CONDITIONS), "or": ("", CONDITIONS),
    "equal": ("caseless", VALUES),
    "begins-with": ("caseless", VALUES),
    "ends-with": ("caseless", VALUES),
    "contains-substring": ("caseless", VALUES),
    "in": ("caseless", VALUES + " list"),
    "begins-with-list": ("caseless", VALUES + " list"),
    "ends-with-list": ("caseless", VALUES + " list"),
    "list": ("n!", ""),
    "let": ("", VALUES),
    "modify-case": ("", VALUES),
    "append": ("n!", VALUES),
    "out": ("", "b lu mlu chunk"),
    "call-macro": ("n!", "with-param"),
    "with-param": ("pos!", ""),
    "clip": ("pos! part! side queue link-to", ""),
    "case-of": ("pos! part! side", ""),
    "get-case-from": ("pos!", VALUES),
    "lit": ("v!", ""), "lit-tag": ("v!", ""),
    "var": ("n!", ""),
    "concat": ("", VALUES),
    "b": ("pos", ""),
    "lu": ("", VALUES),
    "mlu": ("", "lu"),
    "chunk": ("name namefrom case", "tags lu mlu " + VALUES),
    "tags": ("", "tag"),
    "tag": ("", VALUES),
}


def attributes_of(table, name):
    """The attributes that the table lists for the element `name`, and which are required."""
    words = table[name][0].split()
    required = {word[:-1] for word in words if word.endswith("!")}
    return {word.rstrip("!") for word in words} | {"c"}, required


def judge(root, table, telling):
    """Tells each element that is in no row, stands in a wrong place or lacks an attribute."""
    for element in root.iter("*"):
        line, name = element.sourceline or 0, element.tag
        if name not in table:
            telling.cannot(line, f"the element {name}")
            continue
        allowed, required = attributes_of(table, name)
        for attribute in sorted(set(element.attrib) - allowed):
            telling.cannot(line, f"the attribute {attribute} of {name}")
        for attribute in sorted(required - set(element.attrib)):
            telling.cannot(line, f"{name} without the attribute {attribute}")
        holds = table[name][1].split()
        for child in element.iterchildren("*"):
            if child.tag in table and child.tag not in holds:
                telling.cannot(child.sourceline or line, f"{child.tag} in {name}")
        if "#" not in holds and any(text.strip() for text in texts_of(element)):
            telling.cannot(line, f"text in {name}")


def texts_of(element):
    """The texts that stand directly in an element."""
    return [element.text or ""] + [child.tail or "" for child in element]
