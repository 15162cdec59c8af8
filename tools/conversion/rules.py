"""Conversion of rule files: what isn't about units in literals."""

import re

from . import chunks, names, units
from .reading import all_elements, elements, line_of, made, remove, replace
from .tables import RULES, SECTIONS, attributes_of, judge

FORBIDDEN = re.compile(r"[\s^$/<>{}\\\[\]]")
WITH_VARIANT = ("rule", "def-macro", "def-cat", "cat-item", "def-attr", "attr-item")


def convert(root, variant, made_file, telling):
    """Makes the tree of a rule file into one that the program reads, in its place. `made_file`
    names where the postchunk rules of made chunks are written or taken from, or is empty."""
    for element in all_elements(root, *WITH_VARIANT):
        keep_variant(element, variant, telling)
    order_sections(root, telling)
    leave_out_weights(root, telling)
    if root.tag == "interchunk":
        chunks.spell_chunks(root, made_file, telling)
    elif root.tag == "postchunk":
        count_words(root, telling)
        if made_file:
            chunks.take_made(root, made_file, telling)
    units.spell_units(root, telling)
    for element in all_elements(root):
        clean_attributes(element, root.tag, telling)
        clean_tags(element, telling)
    place_contents(root, telling)
    for body in all_elements(root, "rule", "def-macro"):
        place_positions(body, root.tag, telling)
    names.define(root, telling)
    tell_of_meaning(root, telling)
    judge(root, RULES, telling)


def keep_variant(element, variant, telling):
    """Leaves out what is of another variant; without a variant all is kept."""
    values = element.get("v")
    if values is None:
        return
    line, was = line_of(element), f"{element.tag} with v={values}"
    if variant and not set(variant.split()) & set(values.split()):
        telling.change(line, was, "nothing", "nothing of that variant")
        remove(element)
        return
    telling.change(line, was, "the same without v",
                   "nothing" if variant else "nothing: no variant was asked for")
    del element.attrib["v"]


def order_sections(root, telling):
    """Makes one section of each kind, and puts them in order."""
    order = SECTIONS.split()
    for name in order:
        first, *others = [part for part in elements(root) if part.tag == name] or [None]
        for other in others:
            telling.change(line_of(other), f"a second {name}", "a part of the first")
            for child in list(other):
                first.append(child)
            remove(other)
    known = [part for part in elements(root) if part.tag in order]
    wanted = sorted(known, key=lambda part: order.index(part.tag))
    if known != wanted:
        telling.change(line_of(root), "sections in another order", "their order")
        for part in wanted:
            root.append(part)


def leave_out_weights(root, telling):
    """Leaves out weights of rules, and the statement that rejects a rule."""
    for rule in all_elements(root, "rule"):
        if "weight" in rule.attrib:
            telling.change(line_of(rule), f"a rule with weight={rule.get('weight')}",
                           "one without", "its weight: the first of the longest is taken")
            del rule.attrib["weight"]
    for rejection in all_elements(root, "reject-current-rule"):
        telling.change(line_of(rejection), "reject-current-rule", "nothing",
                       "that another rule is tried")
        remove(rejection)


def count_words(root, telling):
    """Writes a comparison of the number of a chunk's words as two of its words."""
    for count in all_elements(root, "lu-count"):
        test = count.getparent()
        number = next((child.get("v", "") for child in elements(test) if child.tag == "lit"), "")
        if test.tag != "equal" or not number.isdigit():
            telling.cannot(line_of(count), "lu-count other than in a comparison with a number")
            continue
        there = made("not", word_is_empty(int(number)))
        gone = word_is_empty(int(number) + 1)
        telling.change(line_of(count), f"lu-count is {number}",
                       f"word {number} is there and word {int(number) + 1} isn't",
                       "words that are empty count as not there")
        replace(test, [made("and", there, gone) if int(number) else gone])


def word_is_empty(position):
    """The condition that the word at a position is empty or not there."""
    return made("equal", made("clip", pos=str(position), part="whole"), made("lit", v=""))


def clean_attributes(element, form, telling):
    """Leaves out the attributes that have no meaning here, and completes those of categories."""
    if element.tag not in RULES:
        return
    allowed, _ = attributes_of(RULES, element.tag)
    if element.tag == "cat-item":
        allowed -= {"tags", "lemma"} if form == "postchunk" else {"name"}
    if element.tag == "chunk" and form != "transfer":
        allowed = {"c"}
    for name in sorted(set(element.attrib) - allowed):
        telling.change(line_of(element), f"{name}={element.get(name)} of {element.tag}", "nothing")
        del element.attrib[name]
    if element.tag == "cat-item" and form != "postchunk" and "tags" not in element.attrib:
        telling.change(line_of(element), "a cat-item without tags", "one with tags of nothing")
        element.set("tags", "")
    if form == "transfer" and element.tag in ("clip", "case-of") and "side" not in element.attrib:
        telling.change(line_of(element), f"{element.tag} without side", "side=tl")
        element.set("side", "tl")
    if element.get("caseless", "no") not in ("yes", "no"):
        telling.change(line_of(element), f"caseless={element.get('caseless')}", "caseless=no")
        element.set("caseless", "no")
    if "name" in element.attrib and "namefrom" in element.attrib:
        telling.change(line_of(element), "a chunk with name and namefrom", "one with name")
        del element.attrib["namefrom"]


def clean_tags(element, telling):
    """Makes each list of tags one whose parts are names of tags."""
    attribute = {"cat-item": "tags", "attr-item": "tags", "lit-tag": "v"}.get(element.tag)
    text = element.get(attribute, "") if attribute else ""
    parts = text.split(".")
    wrong = [part for part in parts if part == "" or FORBIDDEN.search(part)]
    if element.tag == "attr-item" and "*" in parts:
        telling.change(line_of(element), f"the tags {text}", "one item less", "what * stands for")
        remove(element)
        return
    if not text or not wrong:
        return
    if element.tag != "lit-tag":
        telling.change(line_of(element), f"the tags {text}", "one item less",
                       "nothing: the item never fits")
        remove(element)
        return
    spelt = ".".join(FORBIDDEN.sub("_", part) for part in parts if part)
    telling.change(line_of(element), f"the tags {text}", spelt, "signs that no tag holds")
    element.set("v", spelt)


def place_contents(root, telling):
    """Gives the content of chunks its name here, and none where it can't be read."""
    for clip in all_elements(root, "clip"):
        if clip.get("part") not in ("content", "chcontent"):
            continue
        parent = clip.getparent()
        if root.tag == "interchunk" and parent.tag == "chunk":
            if clip.get("part") == "content":
                telling.change(line_of(clip), "the part content", "chcontent")
                clip.set("part", "chcontent")
            clip.attrib.pop("link-to", None)
            continue
        telling.change(line_of(clip), f"the part {clip.get('part')} in {parent.tag}",
                       "the empty literal", "the content, which only a chunk may take")
        leave_out_clip(clip)


def leave_out_clip(clip):
    """Puts the empty literal in the place of a clip; where it is written to, the statement
    goes."""
    parent = clip.getparent()
    if parent.tag in ("let", "modify-case") and elements(parent)[0] is clip:
        remove(parent)
    else:
        replace(clip, [made("lit", v="")])


def number_of(text):
    """The number at the front of a text, as C reads one: 0 where there is none."""
    found = re.match(r"\s*[+-]?\d+", text or "")
    return int(found.group()) if found else 0


def place_positions(body, form, telling):
    """Makes each position in a rule or macro one that it has."""
    if body.tag == "rule":
        most = 999 if form == "postchunk" else len(all_elements(body, "pattern-item"))
    else:
        most = min(max(number_of(body.get("npar")), 0), 64)
        set_number(body, "npar", most, telling)
    least = 0 if form == "postchunk" else 1
    for element in all_elements(body, "b", "clip"):
        for attribute in {"b": ("pos",), "clip": ("link-to",)}[element.tag]:
            place_slot(element, attribute, telling)
    for element in all_elements(body, "clip", "case-of", "get-case-from", "with-param"):
        position = number_of(element.get("pos"))
        if least <= position <= most:
            set_number(element, "pos", position, telling)
        else:
            leave_out_position(element, position, telling)


def set_number(element, attribute, number, telling):
    """Writes a number without signs, zeros and white space."""
    if element.get(attribute) != str(number):
        telling.change(line_of(element), f"{attribute}={element.get(attribute)!r}", str(number))
        element.set(attribute, str(number))


def place_slot(element, attribute, telling):
    """Leaves out the number of a blank, or of a tag to link to, that isn't from 1 to 99."""
    if attribute not in element.attrib:
        return
    number = number_of(element.get(attribute))
    if 1 <= number <= 99:
        set_number(element, attribute, number, telling)
    else:
        telling.change(line_of(element), f"{attribute}={element.get(attribute)}", "nothing")
        del element.attrib[attribute]


def leave_out_position(element, position, telling):
    """Writes what an element gives whose position no unit has."""
    line, was = line_of(element), f"{element.tag} at position {position}, where no unit is,"
    if element.tag == "clip":
        telling.change(line, was, "the empty literal")
        leave_out_clip(element)
    elif element.tag == "case-of":
        telling.change(line, was, "the literal aa")
        replace(element, [made("lit", v="aa")])
    elif element.tag == "get-case-from":
        telling.change(line, was, "its value", "the case of that unit")
        replace(element, elements(element))
    else:
        telling.change(line, was, "the first unit", "that there is none")
        element.set("pos", "1")


def tell_of_meaning(root, telling):
    """Tells what is read here, but means something else."""
    for literal in all_elements(root, "lit", "list-item", "def-var"):
        if not re.search(r"[\^${}\[\]]", literal.get("v", "")):
            continue
        compared = literal.tag == "list-item" or any(literal.iterancestors("test"))
        telling.change(line_of(literal), f"the text {literal.get('v')!r} with signs of the "
                       "stream", "letters", "nothing: it is compared alone" if compared
                       else "the units or blanks that it means: they are escaped")
    if root.tag == "postchunk":
        for clip in all_elements(root, "clip"):
            if clip.get("part") == "lemq":
                telling.change(line_of(clip), "lemq", "lemq in front of the tags",
                               "a queue that stands behind the tags")
