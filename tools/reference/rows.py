"""Worked rows: sessions in a text file, with what they are answered."""


def read_rows(path):
    """The rows of a file, each the words, the session, and the output with the status."""
    rows = []
    with open(path, encoding="latin-1", newline="\n") as lines:
        for line in lines:
            line = line.rstrip("\n")
            if line[:1] == "$":
                rows.append([line[1:].split(), "", ["", 0]])
            elif line[:2] == "< ":
                rows[-1][1] += line[2:] + "\n"
            elif line[:2] == "> ":
                rows[-1][2][0] += line[2:] + "\n"
            elif line[:2] == "? ":
                rows[-1][2][1] = int(line[2:])
    return [(words, session, tuple(wanted)) for words, session, wanted in rows]
