"""Reads a file as XML, and writes a tree in the notation of the program."""

from lxml import etree

XINCLUDE = "{http://www.w3.org/2001/XInclude}"


def line_of(element):
    """The line of an element's start tag; 0 for an element that the conversion made."""
    return element.sourceline or 0


def elements(parent):
    """The child elements of `parent`, without comments, as a list."""
    return [child for child in parent if isinstance(child.tag, str)]


def all_elements(root, *names):
    """Every element below `root`, and `root` itself, of one of the names, as a list."""
    return list(root.iter(*names)) if names else list(root.iter("*"))


def remove(element):
    """Takes `element` out of its parent, and keeps the text that stands behind it."""
    parent = element.getparent()
    if element.tail:
        before = element.getprevious()
        if before is not None:
            before.tail = (before.tail or "") + element.tail
        else:
            parent.text = (parent.text or "") + element.tail
    parent.remove(element)


def replace(element, others):
    """Puts the elements `others` in the place of `element`."""
    parent = element.getparent()
    at = parent.index(element)
    if others:
        others[-1].tail = element.tail
    parent.remove(element)
    for offset, other in enumerate(others):
        parent.insert(at + offset, other)


def made(tag, /, *children, **attributes):
    """A new element of the name `tag` with the children and attributes."""
    element = etree.Element(tag, attributes)
    element.extend(children)
    return element


def read(path, telling):
    """The root of the file's tree, with inclusions, entities and encodings resolved."""
    parser = etree.XMLParser(resolve_entities=True, no_network=True, strip_cdata=True,
                             remove_pis=True, huge_tree=True)
    tree = etree.parse(path, parser)
    encoding = (tree.docinfo.encoding or "UTF-8").upper()
    if encoding not in ("UTF-8", "US-ASCII", "ASCII"):
        telling.change(1, f"encoding {encoding}", "encoding UTF-8")
    subset = tree.docinfo.internalDTD
    if subset is not None and any(True for _ in subset.iterentities()):
        telling.change(1, "an inner subset with entities", "their texts")
    for include in all_elements(tree.getroot(), XINCLUDE + "include"):
        telling.change(line_of(include), f"xi:include of {include.get('href')}", "what it holds")
    tree.xinclude()
    root = tree.getroot()
    for element in all_elements(root):
        strip_names(element, telling)
    etree.cleanup_namespaces(root)
    return root


def strip_names(element, telling):
    """Takes the name space off an element, and attributes of other name spaces away."""
    if element.tag.startswith("{"):
        plain = element.tag.partition("}")[2]
        telling.change(line_of(element), f"element {element.tag}", plain)
        element.tag = plain
    for name in [name for name in element.attrib if name.startswith("{")]:
        telling.change(line_of(element), f"attribute {name}", "nothing")
        del element.attrib[name]


def write(root, into):
    """Writes the tree as UTF-8 into the binary file `into`, without DOCTYPE."""
    root.tail = None
    into.write(b'<?xml version="1.0" encoding="UTF-8"?>\n')
    into.write(etree.tostring(root, encoding="UTF-8", xml_declaration=False))
    into.write(b"\n")
