"""Expressions of dictionaries: from those of Apertium to those that the program reads."""

WHITE = "\t\n\r"
RESERVED = "()[]*+?|\\^"


def rewritten(text):
    """The expression that the program reads for `text`, and what that takes away, else None and
    the reason. A space in a class becomes a choice beside the class, since a class holds letters
    alone; a class that excludes becomes the characters below 256 that it leaves."""
    out, lost, at = [], "", 0
    while at < len(text):
        here = text[at]
        if here == "\\":
            if at + 1 == len(text) or text[at + 1] in WHITE + " ":
                return None, "a backslash before white space or at the end"
            out.append(text[at:at + 2])
            at += 2
        elif here == "[":
            end = end_of_class(text, at)
            if end is None:
                return None, "a class without an end"
            spelt, gone = class_spelt(text[at + 1:end])
            if spelt is None:
                return None, gone
            out.append(spelt)
            lost = lost or gone
            at = end + 1
        elif here in "^]{}":
            out.append("\\" + here if here in RESERVED else here)
            at += 1
        else:
            out.append(here)
            at += 1
    return "".join(out), lost


def end_of_class(text, start):
    """The place of the `]` that ends the class that begins at `start`, or None."""
    at = start + 1
    while at < len(text):
        if text[at] == "\\":
            at += 1
        elif text[at] == "]":
            return at
        at += 1
    return None


def class_spelt(body):
    """The class with the members `body` as the program reads it, and what is lost."""
    excluding = body.startswith("^")
    ranges, white = members(body[1:] if excluding else body)
    if ranges is None:
        return None, "a range that ends before it begins, or an empty class"
    if excluding:
        taken = {code for low, high in ranges for code in range(low, high + 1)}
        ranges = [(code, code) for code in range(1, 256)
                  if code not in taken and chr(code) not in WHITE + " "]
        white = " " if 32 not in taken and " " not in white else ""
    spelt = "[" + "".join(range_spelt(low, high) for low, high in ranges) + "]" if ranges else ""
    if " " in white and spelt:
        spelt = f"( |{spelt})"
    elif " " in white:
        spelt = " "
    lost = "white space other than a space" if set(white) & set(WHITE) else ""
    return (spelt, lost) if spelt else (None, "a class of white space")


def members(body):
    """The ranges of code points in a class, in order, and the white space among its members."""
    ranges, white, at, letters = [], "", 0, []
    while at < len(body):
        escaped = body[at] == "\\" and at + 1 < len(body)
        at += escaped
        letters.append((body[at], escaped))
        at += 1
    at = 0
    while at < len(letters):
        letter = letters[at][0]
        if at + 2 < len(letters) and letters[at + 1] == ("-", False):
            low, high = ord(letter), ord(letters[at + 2][0])
            if low > high:
                return None, white
            ranges.append((low, high))
            at += 3
        elif letter in WHITE + " ":
            white += letter
            at += 1
        else:
            ranges.append((ord(letter), ord(letter)))
            at += 1
    return (ranges, white) if ranges or white else (None, white)


def range_spelt(low, high):
    """A range as it is written in a class."""
    return letter_spelt(low) if low == high else f"{letter_spelt(low)}-{letter_spelt(high)}"


def letter_spelt(code):
    """A character as it is written in a class."""
    letter = chr(code)
    return "\\" + letter if letter in RESERVED + "-" else letter
