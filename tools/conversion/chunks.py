"""Chunks that interchunk rules of Apertium make of literals.

There a chunk is a text, and its content may be written as `{^de<pr>$}`. Here what a chunk holds
comes from other chunks alone, so such a chunk becomes one without content, under a name of its
own, and a postchunk rule for that name writes the units. Tags that only a run tells are the tags
of the chunk.
"""

import os
import re

from lxml import etree

from .names import section_of
from .reading import all_elements, elements, line_of, made, replace

SIGNS = re.compile(r"[\^${}]")


class Fault(Exception):
    """What of a chunk has no form here."""


def spell_chunks(root, made_file, telling):
    """Writes the chunks of interchunk rules that hold literals as chunks without content, and
    the postchunk rules for them into the file `made_file`, where it is named."""
    known, before = {}, made_before(made_file)
    for chunk in all_elements(root, "chunk"):
        spell_recased(chunk, telling)
        tokens = tokens_of(chunk)
        if not any(isinstance(token, str) for token in tokens):
            continue
        line = line_of(chunk)
        try:
            if any(is_content(token) for token in tokens):
                gather(chunk, tokens, telling)
            elif made_file:
                name = spell_chunk(chunk, tokens, known, len(before) // 2)
                telling.change(line, "a chunk of literals", f"the chunk {name} without content, "
                               "and a postchunk rule that writes its units")
            else:
                raise Fault("no file for its postchunk rule is named (--made)")
        except Fault as fault:
            telling.change(line, f"a chunk of literals ({fault})", "the same, escaped",
                           "the words in it")
    if made_file:
        write_made(known, before, made_file)


def spell_recased(chunk, telling):
    """Writes a whole chunk within a case as its lemma within the case, its tags and its
    content."""
    for cased in elements(chunk):
        inner = elements(cased) if cased.tag == "get-case-from" else []
        if len(inner) != 1 or inner[0].tag != "clip" or inner[0].get("part") != "whole":
            continue
        position = inner[0].get("pos")
        inner[0].set("part", "lem")
        telling.change(line_of(cased), "the case of a whole chunk", "the case of its lemma",
                       "small letters in its content")
        replace(cased, [cased, made("clip", pos=position, part="tags"),
                        made("clip", pos=position, part="chcontent")])


def is_content(token):
    """Whether a token takes the content of a chunk."""
    return not isinstance(token, str) and token.get("part") in ("content", "chcontent", "whole")


def is_blank(token):
    """Whether a token is a blank between units."""
    return not isinstance(token, str) and (
        token.tag == "b" or (token.tag == "lit" and token.get("v").isspace()))


def tokens_of(chunk):
    """What a chunk holds, in order: its elements, and each sign of the stream in its literals as
    a text. A literal with signs becomes literals without."""
    tokens = []
    for child in elements(chunk):
        text = child.get("v", "")
        if child.tag != "lit" or not SIGNS.search(text):
            tokens.append(child)
            continue
        for piece in re.split(r"([\^${}])", text):
            if SIGNS.fullmatch(piece):
                tokens.append(piece)
            elif piece:
                tokens.append(made("lit", v=piece))
    return tokens


def gather(chunk, tokens, telling):
    """Writes a chunk that holds the contents of others within braces as one with those
    contents."""
    brace = tokens.index("{") if "{" in tokens else len(tokens)
    inside = tokens[brace:]
    contents = [token for token in inside if is_content(token)]
    blanks = [token for token in inside if is_blank(token)]
    others = [token for token in inside if not isinstance(token, str)
              and not is_content(token) and not is_blank(token)]
    lost = ["blanks between the contents"] * bool(blanks) + ["units of literals"] * bool(others)
    telling.change(line_of(chunk), "contents within braces", "the same contents",
                   ", ".join(lost) or "nothing")
    kept = [token for token in tokens[:brace] if not isinstance(token, str)] + contents
    for child in elements(chunk):
        chunk.remove(child)
    chunk.extend(kept)


class Word:
    """A unit of literals in a chunk: its lemma, whether it takes a case, and its tags."""

    def __init__(self, values, name_tags):
        """`values` are the elements between its signs; `name_tags` those of the chunk's tags,
        one for each tag, to which tags that are numbers refer."""
        if not values:
            raise Fault("a unit without a lemma")
        first = values[0]
        self.carrier = first.get("pos") if first.tag == "get-case-from" else None
        inner = elements(first)[0] if self.carrier else first
        if inner.tag != "lit":
            raise Fault("a unit whose lemma only a run tells")
        self.lemma = inner.get("v")
        self.tags = [tag for value in values[1:] for tag in linked(value, name_tags)]

    def is_told(self):
        """Whether its tags are told by the rule."""
        return all(tag.tag == "lit-tag" for tag in self.tags)


def single_tags(values):
    """The values with each `lit-tag` as one for each of its tags."""
    out = []
    for value in values:
        if value.tag == "lit-tag":
            out += [made("lit-tag", v=tag) for tag in value.get("v").split(".") if tag]
        else:
            out.append(value)
    return out


def linked(value, name_tags):
    """The tags that a value gives, with each number as the chunk's tag of that number."""
    out = []
    for tag in single_tags([value]):
        if tag.tag == "lit-tag" and tag.get("v").isdigit():
            number = int(tag.get("v"))
            out += name_tags[number - 1:number]
        elif tag.tag in ("lit-tag", "clip", "var"):
            out.append(tag)
        else:
            raise Fault(f"a {tag.tag} among the tags of a unit")
    return out


def parse(tokens):
    """The values of a chunk's name and the lists of values of its units."""
    if "{" not in tokens or tokens[-1] != "}":
        raise Fault("no braces round its content")
    brace = tokens.index("{")
    units, here = [], None
    for token in tokens[brace + 1:-1]:
        if token == "^" and here is None:
            here = []
        elif token == "$" and here is not None:
            units.append(here)
            here = None
        elif isinstance(token, str):
            raise Fault(f"the sign {token} where none can stand")
        elif here is not None:
            here.append(token)
        elif not is_blank(token):
            raise Fault("a value between its units")
    if here is not None:
        raise Fault("a unit without an end")
    return tokens[:brace], units


def spell_chunk(chunk, tokens, known, before):
    """Writes a chunk of literals as one without content, and keeps its postchunk rule in
    `known`; gives the name of the chunk. `before` is the number of rules made before."""
    name_values, unit_values = parse(tokens)
    if not name_values or any(isinstance(value, str) for value in name_values):
        raise Fault("a name with signs, or none")
    name_values = [value for value in name_values if value.tag != "b"]
    name_tags = single_tags(name_values[1:])
    words = [Word(values, name_tags) for values in unit_values]
    told = [word.is_told() for word in words]
    if told.count(False) > 1:
        raise Fault("two units with tags that only a run tells")
    name_case = name_values[0].get("pos") if name_values[0].tag == "get-case-from" else None
    carrier = next((word.carrier for word in words if word.carrier), None) or name_case
    rule_words = tuple((word.lemma, bool(word.carrier) or (carrier is not None and place == 0
                                                           and name_case == carrier),
                        ".".join(tag.get("v") for tag in word.tags) if is_told else None)
                       for place, (word, is_told) in enumerate(zip(words, told)))
    name = known.setdefault(rule_words, f"made-{letters_of(before + len(known))}")
    for child in elements(chunk):
        chunk.remove(child)
    lemma = made("lit", v=name)
    chunk.append(made("get-case-from", lemma, pos=carrier) if carrier else lemma)
    chunk.extend(name_tags if all(told) else words[told.index(False)].tags)
    return name


def letters_of(number):
    """A number as letters: a to z, then aa, ab and so on."""
    text = ""
    number += 1
    while number:
        number, rest = divmod(number - 1, 26)
        text = chr(ord("a") + rest) + text
    return text


def made_before(made_file):
    """The categories and rules that the file holds from other interchunk rules."""
    if not made_file or not os.path.exists(made_file):
        return []
    return list(etree.parse(made_file, etree.XMLParser(remove_blank_text=True)).getroot())


def write_made(known, before, made_file):
    """Writes categories and rules of postchunk for the chunks without content, behind those
    that were made before."""
    root = made("made", *before)
    for words, name in known.items():
        root.append(made("def-cat", made("cat-item", name=name), n=name))
        pieces = []
        for lemma, cased, tags in words:
            literal = made("lit", v=lemma)
            value = made("get-case-from", literal, pos="0") if cased else literal
            tail = made("lit-tag", v=tags) if tags is not None else made(
                "clip", pos="0", part="tags")
            pieces += [made("b"), made("lu", value, *([tail] if tags != "" else []))]
        root.append(made("rule", made("pattern", made("pattern-item", n=name)),
                         made("action", made("out", *pieces[1:]))))
    etree.indent(root)
    with open(made_file, "wb") as into:
        into.write(etree.tostring(root, encoding="UTF-8") + b"\n")


def take_made(root, made_file, telling):
    """Adds the categories and rules for chunks without content to postchunk rules."""
    if not os.path.exists(made_file):
        return
    added = etree.parse(made_file).getroot()
    count = 0
    for one in list(added):
        if one.tag == "def-cat":
            section_of(root, "def-cat").append(one)
        else:
            rules = root.find("section-rules")
            if rules is None:
                rules = made("section-rules")
                root.append(rules)
            rules.append(one)
            count += 1
    if count:
        telling.change(line_of(root), "the rules", f"these and {count} for chunks that the "
                       "interchunk rules make of literals")
