"""SARIF logs of the program `desk` as one log, for editors: under the scripts' names, with lines and columns, and with what
each rule is. Not proved.

A region that has lines has no bytes, since a viewer takes one with bytes for a binary file's. Columns are UTF-16 code units.
"""
import json
import os

import trees
from desk import Wrong

PLAIN = frozenset(b"ABCDEFGHIJKLMNOPQRSTUVWXYZabcdefghijklmnopqrstuvwxyz0123456789-._~/")


def read(lines):
    """A log, and its results."""
    try:
        log = json.loads(b"".join(lines).decode("utf-8"))
        return log, log["runs"][0]["results"]
    except (ValueError, LookupError, TypeError):
        raise Wrong("the program desk gave no log of it") from None


def quoted(path):
    return "".join(chr(byte) if byte in PLAIN else f"%{byte:02X}" for byte in os.fsencode(path))


def uri_of(path):
    """A tree's script: below the current folder by its path from there, else by its whole path."""
    if path == "-":
        return "script.star"
    script = os.path.abspath(trees.script_of(path))
    here = os.path.join(os.getcwd(), "")
    return quoted(script[len(here) :]) if script.startswith(here) else "file://" + quoted(script)


def measured(region, script):
    """A region by lines; None where the script has no such place."""
    begin = region["byteOffset"]
    places = script.unit(begin), script.unit(begin + region["byteLength"])
    if None in places:
        return None
    (line, column), (last_line, last_column) = places
    return {"startLine": line, "startColumn": column, "endLine": last_line, "endColumn": last_column}


def described(rule, entry):
    """A rule of the proved log, with what tools/codes.txt says of it."""
    help_text = f"tools/lint --explain {rule['name']} has the rule and a small script that shows it."
    texts = {"shortDescription": entry.texts["short"], "fullDescription": entry.texts["rule"], "help": help_text}
    return {**rule, **{key: {"text": text} for key, text in texts.items()}}


class Log:
    """The logs of several files, gathered into one."""

    def __init__(self, codes, lines):
        self.codes, self.lines = codes, lines
        self.head, self.uris, self.rules, self.results = None, {}, {}, []

    def add(self, path, log, script):
        """Takes a file's log. Answers how many places stay byte offsets though lines are wanted."""
        run = log["runs"][0]
        self.head = self.head or log
        self.rules.update({rule["id"]: rule for rule in run["tool"]["driver"]["rules"]})
        self.results += run["results"]
        uri = uri_of(path)
        place = {"uri": uri, "index": self.uris.setdefault(uri, len(self.uris))}
        locations = [location for result in run["results"] for location in result["locations"] + result["relatedLocations"]]
        return sum(self.placed(location["physicalLocation"], place, script) for location in locations)

    def placed(self, location, place, script):
        location["artifactLocation"] = place
        region = measured(location["region"], script) if script else None
        location["region"] = region or location["region"]
        return self.lines and not region

    def text(self, complete):
        """The log, laid out as the proved one; complete: no file was left out."""
        numbers = sorted(self.rules, key=int)
        for result in self.results:
            result["ruleIndex"] = numbers.index(result["ruleId"])
        run = self.head["runs"][0]
        run["tool"]["driver"]["rules"] = [described(self.rules[number], self.codes[int(number)]) for number in numbers]
        run["artifacts"] = [{"location": {"uri": uri}} for uri in self.uris]
        run["results"] = self.results
        run["invocations"] = [{"executionSuccessful": complete}]
        if self.lines:
            run["columnKind"] = "utf16CodeUnits"
        text = json.dumps(self.head, ensure_ascii=False, separators=(",", ":"))
        # No string of JSON holds a bare quotation mark, so this finds rules and results only.
        for head in ('{"id":', '{"ruleId":'):
            text = text.replace(head, "\n" + head)
        return text.encode() + b"\n"
