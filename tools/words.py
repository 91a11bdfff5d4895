"""tools/codes.txt: what is said of each code, of each reason, of each refusal, and of what is too long."""
import pathlib

FOLDER = pathlib.Path(__file__).resolve().parent


class Entry:
    """An entry: its words, and its texts by their names."""

    def __init__(self, head):
        self.head = head
        self.texts = {}

    def says(self, **words):
        return self.texts["says"].format(**words)

    def has_reason(self):
        """Whether records of this code have a reason in place of a third span."""
        return "{reason}" in self.texts["says"]


def entries():
    for line in (FOLDER / "codes.txt").read_text(encoding="utf-8").splitlines():
        if not line or line.startswith("#"):
            continue
        if line.startswith(" "):
            name, text = line.split(":", 1)
            entry.texts[name.strip()] = text.strip()
        else:
            entry = Entry(line.split())
            yield entry


class Words:
    """All entries: codes, reasons and refusals by number."""

    def __init__(self):
        self.codes, self.reasons, self.refusals = {}, {}, {}
        for entry in list(entries()):
            first, number = entry.head[0], entry.head[1]
            if first == "refused":
                self.refusals[int(number)] = entry
            elif first == "reason":
                self.reasons[int(number)] = entry
            elif first == "too":
                self.too_long = entry
            else:
                self.codes[int(first)] = entry

    def refused(self, line, size, most):
        """A refusal's line, `refused NUMBER PLACE` or `too long`, with what it means."""
        words = line.split()
        if words[0] == "refused":
            return f"{line}: {self.refusals[int(words[1])].says(place=words[2])}"
        return f"{line}: {self.too_long.says(bytes=f'{size:,}' if size else f'over {most:,}', most=f'{most:,}')}"
