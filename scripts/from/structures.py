#!/usr/bin/env python3
"""Writes a structures file from what other tools describe data sets with: structures.py FILE ..

FILE is a structure message of SDMX-ML 2.1 or 3.0 (data structure definitions, with the code lists that it holds), or JSON as
other engines of VTL take it: `datasets` with `DataStructure` (or `structures` with `components`), or a list of components
with name, type and role. The file is written to standard output. What has no counterpart is said on standard error.
"""

import csv
import json
import os
import re
import sys
import xml.etree.ElementTree as trees

TYPES = {
    "integer": "integer", "int": "integer", "long": "integer", "short": "integer", "biginteger": "integer", "count": "integer",
    "number": "number", "decimal": "number", "double": "number", "float": "number",
    "boolean": "boolean", "bool": "boolean",
    "date": "date", "gregorianday": "date",
    "time_period": "time_period", "timeperiod": "time_period", "observationaltimeperiod": "time_period",
    "standardtimeperiod": "time_period", "reportingtimeperiod": "time_period", "gregoriantimeperiod": "time_period",
    "reportingquarter": "time_period", "reportingmonth": "time_period", "reportingyear": "time_period", "gregorianyear": "time_period",
    "gregorianyearmonth": "time_period", "time": "time_period",
}  # fmt: skip


def say(text):
    print(f"notice:   {text}", file=sys.stderr)


def type_of(text, of):
    """The type that a word of another tool stands for; a text where it is none of those."""
    word = re.sub(r"^.*[:#]", "", text or "string").lower()
    if word not in TYPES and word not in ("string", "alpha", "alphanumeric", "numeric"):
        say(f"{of}: `{text}` is taken as a string")
    return TYPES.get(word, "string")


def plain(tag):
    return tag.rsplit("}", 1)[-1]


def children(node, *names):
    return [it for it in node if plain(it.tag) in names]


def first(node, *names):
    """The first node below another one that has the last of these names, each below the one before it."""
    for name in names:
        node = next((it for it in node.iter() if plain(it.tag) == name), None) if node is not None else None
    return node


def lists_of(root):
    """The codes of each code list of a message, by its name."""
    found = {}
    for node in root.iter():
        if plain(node.tag) == "Codelist":
            found[node.get("id")] = [it.get("id") for it in children(node, "Code")]
    return found


def list_named(representation):
    """The name of the code list that a representation refers to: a Ref, or an URN."""
    enumeration = first(representation, "Enumeration") if representation is not None else None
    if enumeration is None:
        return None
    ref = first(enumeration, "Ref")
    if ref is not None and ref.get("id"):
        return ref.get("id")
    urn = (first(enumeration, "URN").text if first(enumeration, "URN") is not None else enumeration.text) or ""
    found = re.search(r":([A-Za-z0-9_@$-]+)\([^)]*\)$", urn.strip())
    return found.group(1) if found else None


def of_component(node, role, lists, name):
    """A component: its name, role, type and codes."""
    local = first(node, "LocalRepresentation")
    text = first(local, "TextFormat") if local is not None else None
    codes = lists.get(list_named(local), []) if role == "identifier" else []
    sort = "string" if codes else type_of(text.get("textType") if text is not None else None, f"{name}.{node.get('id')}")
    if plain(node.tag) == "TimeDimension":
        sort, codes = "time_period", []
    if role == "measure" and plain(node.tag) == "PrimaryMeasure" and text is None and list_named(local) is None:
        sort = "number"
    return node.get("id"), role, sort, codes


def of_message(path):
    """The data sets of a structure message."""
    root = trees.parse(path).getroot()
    lists = lists_of(root)
    for structure in (it for it in root.iter() if plain(it.tag) == "DataStructure"):
        name, found = structure.get("id"), []
        for node in structure.iter():
            kind = plain(node.tag)
            if not node.get("id") or kind not in ("Dimension", "TimeDimension", "MeasureDimension", "PrimaryMeasure", "Measure", "Attribute"):
                continue
            role = {"PrimaryMeasure": "measure", "Measure": "measure", "Attribute": "attribute"}.get(kind, "identifier")
            found.append(of_component(node, role, lists, name))
        yield name, found


def of_json(path):
    """The data sets of a JSON file."""
    with open(path, encoding="utf-8") as it:
        said = json.load(it)
    if isinstance(said, list):
        said = {"datasets": [{"name": os.path.splitext(os.path.basename(path))[0], "DataStructure": said}]}
    shapes = {it["name"]: it.get("components", []) for it in said.get("structures", [])}
    for data in said.get("datasets", []):
        components = data.get("DataStructure") or shapes.get(data.get("structure"), [])
        found = []
        for it in components:
            role = str(it.get("role", "measure")).lower().replace("viral attribute", "attribute")
            if role not in ("identifier", "measure", "attribute"):
                say(f"{data['name']}.{it['name']}: the role `{it.get('role')}` is taken as attribute")
                role = "attribute"
            found.append((it["name"], role, type_of(it.get("type") or it.get("data_type"), f"{data['name']}.{it['name']}"), []))
        yield data["name"], found


def name_of(text):
    """A name of the language, near to a text."""
    name = re.sub(r"[^A-Za-z0-9_.]", "_", text)
    name = name if re.match(r"[A-Za-z]", name) else f"D_{name}"
    if name != text:
        say(f"the data set `{text}` is named `{name}`")
    return name[:64]


def main(paths):
    if not paths:
        print("structures.py FILE ..", file=sys.stderr)
        return 1
    out = csv.writer(sys.stdout, lineterminator="\n")
    out.writerow(["dataset", "component", "role", "type", "codes"])
    for path in paths:
        with open(path, "rb") as it:
            is_xml = it.read(200).lstrip(b"\xef\xbb\xbf \t\r\n").startswith(b"<")
        for name, components in (of_message if is_xml else of_json)(path):
            name = name_of(name)
            if not any(role == "identifier" for _, role, _, _ in components):
                say(f"{name}: no identifier, so it is left out")
                continue
            for component, role, sort, codes in components:
                bad = [it for it in codes if "|" in it]
                out.writerow([name, component, role, sort, "" if bad else "|".join(dict.fromkeys(codes))])
    return 0


if __name__ == "__main__":
    sys.exit(main(sys.argv[1:]))
