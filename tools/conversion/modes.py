"""Modes of Apertium: which stages translate, and by which files."""

import glob
import os
import re
import shlex

from lxml import etree


class Missing(OSError):
    """A mode that isn't there."""


def find(folder, wanted):
    """The name and the stages of the mode `wanted`, or of the first that translates, of a pair's
    folder; a stage is the list of its words."""
    modes = modes_of(folder)
    for name, stages in modes:
        if name == wanted or (not wanted and translates(stages)):
            return name, stages
    known = ", ".join(name for name, _ in modes) or "none"
    raise Missing(f"{folder}: no mode {wanted or 'that translates'}; there are: {known}")


def translates(stages):
    """Whether a mode has transfer and generation."""
    programs = [stage[0] for stage in stages]
    return "apertium-transfer" in programs and programs.count("lt-proc") > 1


def modes_of(folder):
    """The modes of a folder, as pairs of name and stages: those of its mode files, which name
    installed files, and those of modes.xml, of which the ones to be installed come first."""
    modes = []
    beside = os.path.join(os.path.dirname(os.path.abspath(folder)), "modes")
    for path in sorted(glob.glob(os.path.join(folder, "modes", "*.mode"))
                       + glob.glob(os.path.join(beside, "*.mode"))):
        with open(path, encoding="utf-8") as file:
            stages = stages_of(file.read())
        if any(is_here(word, folder) for stage in stages for word in stage):
            modes.append((os.path.basename(path)[:-len(".mode")], stages))
    path = os.path.join(folder, "modes.xml")
    if os.path.exists(path):
        found = etree.parse(path).getroot().iter("mode")
        listed = sorted(found, key=lambda mode: mode.get("install") != "yes")
        modes += [(mode.get("name"), [program_words(one) for one in mode.iter("program")])
                  for mode in listed]
    return modes


def is_here(word, folder):
    """Whether a word of a mode names a file of the folder."""
    return os.path.basename(os.path.dirname(word)) == os.path.basename(os.path.abspath(folder))


def stages_of(line):
    """The stages of a line of the shell with pipes."""
    return [shlex.split(part) for part in re.split(r"\s*\|\s*", line.strip()) if part]


def program_words(program):
    """The words of a `program` of modes.xml: its name with options, then its files."""
    return shlex.split(program.get("name")) + [file.get("name") for file in program.iter("file")]
