"""The folder of a pair: which files a stage reads, and what it becomes."""

import glob
import os
import re
import subprocess
import sys

from . import binary, dictionary, reading, rules
from .telling import Telling

LARGE = 50_000
NO_COUNTERPART = {
    "lrx-proc": "the first translation is taken, by the order of their bytes",
    "cg-proc": "all readings reach the next stage",
    "lsx-proc": "words that stand apart aren't joined",
    "apertium-anaphora": "no antecedent is found",
    "apertium-posttransfer": "blanks stay as they are",
}
OTHER_MODES = "lmostx"
MARKS = {"automorf": ("", "+#"), "autobil": ("+#", "+#"), "autogen": ("+#", "~"),
         "autopgen": ("~", "~")}


class Fault(Exception):
    """A file that isn't there, or can't be made."""


class Folder:
    """A pair's folder, and the folder into which its files are converted."""

    def __init__(self, folder, out, mode, variant, program, peer):
        """`variant` is that of dictionaries and rules, `program` this project's program; `peer`
        says that lttoolbox's compiler is used."""
        self.folder, self.out, self.mode = folder, out, mode
        self.variant, self.program, self.peer = variant, program, peer
        self.sound, self.bilingual, self.again = True, None, False
        self.made_file = os.path.join(out, "made.xml")
        if os.path.exists(self.made_file):
            os.remove(self.made_file)

    def tell(self, text):
        """Writes a line on standard error."""
        print(f"pair: {text}", file=sys.stderr)

    def stage(self, words):
        """The words of the command for a stage of the mode, or None where it is left out."""
        name, files = words[0], [word for word in words[1:] if re.search(r"\.\w+$", word)]
        options = [word for word in words[1:] if word not in files]
        if name == "lt-proc":
            return self.dictionary_stage(options, files)
        if name == "apertium-tagger":
            self.tell("apertium-tagger became first: the first reading, by the order of bytes")
            return ["first"]
        if name == "apertium-pretransfer":
            return ["pretransfer"]
        if name == "apertium-transfer":
            return self.transfer_stage(options, files)
        if name in ("apertium-interchunk", "apertium-postchunk"):
            return [name.partition("-")[2], self.rule_file(files[0])]
        why = NO_COUNTERPART.get(name, "nothing here does what it does")
        self.tell(f"{' '.join(words)}: left out; {why}")
        return None

    def dictionary_stage(self, options, files):
        """The command for a stage of lt-proc."""
        letters = set("".join(option[1:] for option in options if re.match(r"-[a-z]", option)))
        if letters & set(OTHER_MODES):
            self.tell(f"lt-proc {' '.join(options + files)}: left out; that mode isn't there")
            return None
        for spare in sorted(letters - set("abcdegnp")):
            self.tell(f"lt-proc -{spare}: the option is left out")
        mode = next((letter for letter in "bgndp" if letter in letters), "a")
        if "$1" in options:
            mode = "g"
        path = self.dictionary(files[0])
        if mode == "b":
            self.bilingual = path
            return None
        if mode == "p" and wakes(path):
            self.again = True
            self.tell(f"{os.path.basename(path)} writes ~ again: it is run twice")
        command = ["compound"] if "e" in letters else ["lt-proc", "-" + mode]
        return command + (["-c"] if "c" in letters else []) + [path]

    def transfer_stage(self, options, files):
        """The command for a stage of transfer; behind bilingual lookup it takes that
        dictionary."""
        if "-n" in options:
            self.tell(f"apertium-transfer -n {os.path.basename(files[0])}: left out; transfer "
                      "without a dictionary isn't there")
            return None
        bilingual = self.bilingual if "-b" in options else self.dictionary(files[2])
        if bilingual is None:
            raise Fault("apertium-transfer -b without bilingual lookup before it")
        return ["transfer", self.rule_file(files[0]), bilingual]

    def find(self, name):
        """The path of a file of the folder by its name: as it stands, or behind the name of the
        pair and a full stop, with the variant of its language left out or not; or None."""
        name = os.path.basename(name)
        for wanted in (name, re.sub(r"_\w+(?=\.)", "", name)):
            found = sorted(glob.glob(os.path.join(self.folder, wanted))
                           + glob.glob(os.path.join(self.folder, "*." + wanted)))
            if found:
                return found[0]
        return None

    def rule_file(self, name):
        """Converts a rule file and gives the path of what it became."""
        path = self.find(name)
        if path is None:
            raise Fault(f"{self.folder}: no file {os.path.basename(name)}")
        return self.converted(path, os.path.basename(name))

    def converted(self, path, name, variant=None):
        """Converts a file into the folder `out` under `name`, and gives its path."""
        telling = Telling(os.path.basename(path))
        root = reading.read(path, telling)
        asked = self.variant if variant is None else variant
        if root.tag == "dictionary":
            dictionary.convert(root, dictionary.Variants(asked), telling)
        else:
            rules.convert(root, asked, self.made_file, telling)
        into = os.path.join(self.out, name)
        with open(into, "wb") as file:
            reading.write(root, file)
        self.sound &= telling.write()
        return into

    def source_of(self, name):
        """The dictionary that a compiled one is made of, by the names that pairs have, and the
        direction in which it is compiled; None and the direction where it isn't there."""
        languages, _, rest = os.path.basename(name).partition(".")
        kind = rest.partition(".")[0]
        left, _, right = languages.partition("-")
        if kind == "autobil":
            for pair, way in ((f"{left}-{right}", "lr"), (f"{right}-{left}", "rl")):
                path = self.find(f"{pair}.dix")
                if path:
                    return path, way
            return None, "lr"
        if kind == "autopgen":
            return self.find(f"post-{right}.dix") or self.find(f"{right}.post.dix"), "lr"
        language = left if kind == "automorf" else right
        return self.find(f"{language}.dix"), "lr" if kind == "automorf" else "rl"

    def dictionary(self, name):
        """Converts a dictionary, compiles it where it gains by that, and gives its path."""
        base = os.path.basename(name)[:-len(".bin")]
        path, way = self.source_of(name)
        if path is None:
            path = self.find(name)
            if path is None:
                raise Fault(f"{self.folder}: neither {name} nor its dictionary")
            return self.rewritten(path, base, way)
        variant = "" if base.endswith("automorf") else self.variant
        source = self.converted(path, base + ".dix", variant)
        if os.path.getsize(source) < LARGE and not (way == "rl" and base.endswith("autobil")):
            return source
        if self.peer:
            compiled = os.path.join(self.out, base + ".bin")
            subprocess.run(["lt-comp", "-S", way, source, compiled], check=True,
                           stdout=subprocess.DEVNULL)
            return self.rewritten(compiled, base, way)
        into = os.path.join(self.out, base + ".ltc")
        subprocess.run([self.program, "lt-comp", way, source, into], check=True,
                       stdout=subprocess.DEVNULL)
        return into

    def rewritten(self, path, base, way):
        """Rewrites a compiled dictionary of Apertium as one of the program."""
        kind = base.rpartition(".")[2].partition("-")[0]
        try:
            lines, left_out = binary.compiled(path, way, MARKS.get(kind, ("", "")))
        except (binary.Fault, IndexError) as fault:
            raise Fault(f"{path}: no compiled dictionary that is read here ({fault})") from fault
        self.tell(f"{os.path.basename(path)} became {base}.ltc; lost: "
                  + (f"{left_out} edges with white space" if left_out else "nothing"))
        into = os.path.join(self.out, base + ".ltc")
        with open(into, "w", encoding="utf-8") as file:
            file.write("\n".join(lines) + "\n")
        return into

    def script(self, row):
        """Writes the script that translates by the row of commands, and gives its path."""
        if self.again:
            row = [each for command in row for each in [command] * (1 + ("-p" in command))]
        kinds = [command[0] for command in row]
        whole = ["lt-proc", "first", "pretransfer", "transfer", "interchunk", "postchunk",
                 "lt-proc"]
        plain = all("-c" not in command for command in row)
        if plain and kinds[:7] == whole and kinds[7:] in ([], ["lt-proc"]):
            post = row[7][-1] if len(row) > 7 else self.empty_dictionary()
            files = [row[0][-1], row[3][2], row[3][1], row[4][1], row[5][1], row[6][-1], post]
            commands = [["text"] + files]
        else:
            commands = [["destxt"]] + row + [["retxt"]]
        path = os.path.join(self.out, "translate")
        with open(path, "w", encoding="utf-8") as file:
            file.write(script_text(self.mode, self.program, commands))
        os.chmod(path, 0o755)
        return path

    def empty_dictionary(self):
        """Writes a dictionary without entries, for a mode without post-generation."""
        path = os.path.join(self.out, "empty.dix")
        with open(path, "w", encoding="utf-8") as file:
            file.write("<dictionary></dictionary>\n")
        return path


def wakes(path):
    """Whether a dictionary of post-generation, compiled or not, writes an alarm, which wakes
    post-generation again."""
    with open(path, encoding="utf-8") as file:
        text = file.read()
    if text.startswith("LTC"):
        return re.search(r"^\d+ \S+ A \d+$", text, re.MULTILINE) is not None
    return re.search(r"<(r|i)>[^/]*(<b/>[^/]*)*<a/>", text) is not None


def script_text(mode, program, commands):
    """The text of a script of the shell that runs the commands, each into the next."""
    def spelt(word):
        """A word of a command: files by the folder of the script."""
        return f'"$here/{os.path.basename(word)}"' if os.sep in word else word

    row = " |\n    ".join('"$program" ' + " ".join(map(spelt, words)) for words in commands)
    return (f"#!/bin/bash\n# Translates a plain text from standard input: the mode {mode}.\n"
            "set -o pipefail\n"
            'here=$(dirname "$(realpath "$0")")\n'
            f'program=${{APERTIUM:-{program}}}\n{row}\n')
