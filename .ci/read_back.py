"""Reads the JSON and CSV reports of the examples back with python's own json and csv, and compares them with the text."""

import csv
import io
import json
import re
import subprocess
import sys

PROGRAM = "crates/tom/out/tom"
FACT = re.compile(r"\s*([A-Za-z_][\w-]*)\s*\(\s*([A-Za-z_][\w-]*)\s*(?:,\s*([A-Za-z_][\w-]*)\s*)?\)")


def report(folder, stream, *options):
    """The report of a run over the folder's ontology and queries."""
    words = [PROGRAM, "watch", f"{folder}/ontology.txt", f"{folder}/queries.txt", *options]
    return subprocess.run(words, input=stream, capture_output=True, check=True, text=True).stdout


def of_text(text):
    """The items of a report in text form."""
    for line in text.splitlines():
        words = line.split(" ")
        if words[0] == "line" and words[2] == "accepted":
            yield ("accepted", words[1], words[3])
        elif words[0] == "line" and words[2] == "declared":
            yield ("declared", words[1], words[3])
        elif words[0] == "line":
            yield ("refused", words[1], words[3], words[4] if len(words) > 4 else "")
        elif words[0] == "answer":
            yield ("answer", words[1], tuple(words[2:]))
        elif words[0] == "kept":
            yield ("kept", words[1], words[2])
        else:
            yield ("end", words[2], words[4])


def of_json(text):
    """The items of a report in JSON form, each line of which is compact and has its keys in order."""
    for line in text.splitlines():
        event = json.loads(line)
        assert line == json.dumps(event, separators=(",", ":"), sort_keys=True), line
        if "end" in event:
            yield ("end", str(event["accepted"]), str(event["refused"]))
        elif "refused" in event:
            detail = event.get("name", event.get("units", str(event.get("clash", ""))))
            yield ("refused", str(event["line"]), event["refused"], detail)
        elif "declared" in event:
            yield ("declared", str(event["line"]), event["declared"])
        else:
            yield ("accepted", str(event["line"]), str(event["accepted"]))
            for query in event["answers"]:
                for row in query["tuples"]:
                    yield ("answer", query["query"], tuple(row))
                if "kept" in query:
                    yield ("kept", query["query"], str(query["kept"]))


def of_csv(text):
    """The items of a report in CSV form."""
    for row in csv.DictReader(io.StringIO(text, newline="")):
        if row["event"] == "accepted":
            yield ("accepted", row["line"], row["number"])
        elif row["event"] == "answer":
            yield ("answer", row["name"], tuple(row["detail"].split()))
        elif row["event"] == "kept":
            yield ("kept", row["name"], row["number"])
        elif row["event"] == "declared":
            yield ("declared", row["line"], row["name"])
        elif row["event"] == "refused":
            yield ("refused", row["line"], row["name"], row["detail"] or row["number"])
        else:
            yield ("end", row["number"], row["detail"])


def in_json(line):
    """A line of a stream in JSON form that says the same as this one in text form, comments aside."""
    text = line.split("#")[0].strip()
    if not text:
        return ""
    words = text.split()
    if words[0] == "individual":
        return json.dumps({"individual": words[1]} if len(words) == 2 else {})
    facts = FACT.findall(text[4:])
    if not text.startswith("snap") or FACT.sub("", text[4:]).strip():
        return "no object"
    return json.dumps({"facts": [[name for name in fact if name] for fact in facts], "at": 0})


def main():
    for folder in sys.argv[1:]:
        with open(f"{folder}/stream.txt", encoding="utf-8") as file:
            stream = file.read()
        objects = "\n".join(in_json(line) for line in stream.splitlines()) + "\n"
        for options in [[], ["--sizes"]]:
            wanted = list(of_text(report(folder, stream, *options)))
            assert wanted == list(of_json(report(folder, stream, "--report", "json", *options))), folder
            assert wanted == list(of_csv(report(folder, stream, *options, "--report=csv"))), folder
            assert wanted == list(of_text(report(folder, objects, "--form", "json", *options))), folder


if __name__ == "__main__":
    main()
