"""Names (RFC 1035 2.3.4, 3.1). A name is a tuple of labels, without the root's empty one."""


def lower(octets):
    """Octets with A to Z in lower case (RFC 4343 3)."""
    return bytes(octet + 32 if 65 <= octet <= 90 else octet for octet in octets)


def lower_name(labels):
    """A name with all its labels in lower case."""
    return tuple(lower(label) for label in labels)


def name_octets(labels):
    """A name in full: each label behind its length, and a zero octet (RFC 1035 3.1)."""
    return b"".join(bytes([len(label)]) + label for label in labels) + b"\0"


def is_under(name, ancestor):
    """Whether a name is the other one, or below it: the other's labels are its last ones."""
    return len(ancestor) <= len(name) and name[len(name) - len(ancestor):] == ancestor


def plain_labels(octets):
    """The labels of octets that are known to be a whole name in full."""
    labels, place = [], 0
    while octets[place] != 0:
        labels.append(bytes(octets[place + 1:place + 1 + octets[place]]))
        place += 1 + octets[place]
    return tuple(labels)


def name_text(labels):
    """The text of a name: each label and a dot, with escapes (RFC 1035 5.1)."""
    if not labels:
        return "."
    return "".join(label_text(label) + "." for label in labels)


def label_text(label):
    """The text of a label. A dot and a backslash have a backslash before them."""
    text = ""
    for octet in label:
        if octet in b".\\":
            text += "\\" + chr(octet)
        elif 33 <= octet <= 126:
            text += chr(octet)
        else:
            text += f"\\{octet:03d}"
    return text
