#!/usr/bin/env python3
"""Lists the places in src/ that docs/DESIGN-PASS.md counts.

tools/places.py [COMMIT]          how many of each point, in a commit or in the work tree
tools/places.py POINT [COMMIT]    each of one point, with its file and line

Comments are left out. What an expression finds is a candidate: the page says which of them are places of the point.
"""

import re
import subprocess
import sys

# from the name of a function to where its signature ends
SIGNATURE = r"(?:(?!\bfn \w|\brequires\b|\bensures\b|\{\n)[\s\S])*?"

POINTS = {
    # flags in structs
    "1a": [r"^ *(?:pub(?:\(crate\))? )?\w+: bool,$"],
    # constants that may name a kind, a status, a user
    "1b": [r"^ *(?:pub(?:\(crate\))? )?const \w+: u(?:8|16) = .*;$"],
    # functions and fields that give a kind, an answer or a refusal as a number
    "1c": [r"^ *(?:pub )?fn (?:refusal|number|expected|damaged|making)\b[^{;]*-> u8\b", r"^ *which: u8,$"],
    # a failure handed on by a match, or by a let with else
    "1d": [
        r"\blet (?:Some|Ok|Err)\([^;{}]*?(?:\{[^{}]*\}[^;{}]*?)?\belse \{\s*return (?:Err|None|Ok\(None)",
        r"\bErr\(\w+\) => return Err",
        r"\bNone => Err\(|\bErr\(_\) => Err\(|\bSome\(_\) => Err\(|\bSome\(\w+\) => Err\(|\bNone => None,|\b_ => None,|\b_ => Err\(",
        r"\.is_(?:none|err)\(\) \{\s*return Err",
    ],
    # functions and types that may be twins
    "2": [
        r"^ *(?:pub(?:\(crate\))? )?fn (?:u(?:16|32|48)_(?:of|at)|octets_of_u\d\d|put_u\d\d|number_at|put_number)\b",
        r"^ *(?:pub(?:\(crate\))? )?fn (?:twice|thrice|full_round|final_round|\w+_lead|status_telegram)\b",
        r"^ *(?:pub(?:\(crate\))? )?fn (?:place_of|free_place|write|clear|find|free|open|set|put)\b",
        r"^ *(?:pub(?:\(crate\))? )?fn (?:arrive|due|send|announce|hang_up|carry_out|wrap|notify|respond|number_32|number|mix)\b",
        r"^ *(?:pub )?enum Call\b",
        r"^const (?:KEY|OPEN|SIGNED|LAST_TIME|NUMBERS|LAST)\b|^pub const (?:NUMBERS|LAST_TIME)\b",
        r"^ *\w+::(?:Knx|Reading|BenchKnx|BenchReading)\((?:mut )?\w+\) =>",
    ],
    # loops over a range, counting by hand, and loops that look for a place
    "3": [r"\bfor \w+ in [^{\n]*\.\.", r"^ *\w+ \+= 1;$", r"\bfor \(\w+, \w+\) in [^{\n]*enumerate\(\)"],
    # equality, order, copying, conversion and printing written by hand
    "4": [
        r"^ *(?:pub )?fn (?:agree|saying|print|refusal_of|refusal|number|none|octet|digit|read_cipher|read_sealing|refusal_number)\b",
        r"^impl(?:<[^>]*>)? (?:fmt::Display|From<[^{]*|Default|PartialEq|Clone)\b",
        r"let mut (\w+) = self;",
    ],
    # facts in contracts
    "5": [r"^ *requires .*(?:Distinct |Fit \(|acceptable |largest_frame ≤|< slots|number_at|found self|sync ≤|< numbers|≤ largest_telegram)"],
    # number or time, serial and tag; latency and sync tolerance: together in a signature
    "5b": [
        r"\bfn \w+" + SIGNATURE + r"\bserial: u64,\s*tag: u16",
        r"\bfn \w+" + SIGNATURE + r"\blatency: u32,\s*sync: u32",
        r"\bstruct \w+[^}]*?\bserial: u64,\s*pub tag: u16",
        r"\w+ \{\s*session: u16,\s*number: u64,\s*serial: u64|\w+ \{\s*time: u64,\s*serial: u64",
    ],
    # buffers with a length beside them, and places in an array handed about as numbers
    "6": [
        r"^ *(?:pub(?:\(crate\))? )?fn \w+" + SIGNATURE + r"&mut (?:Buffer|Octets)\b",
        r"^ *\w+_room: usize,$",
        r"^ *(?:pub(?:\(crate\))? )?fn \w+" + SIGNATURE + r"-> (?:Option|Result)<\(?usize\b",
    ],
    # switches on which step to run
    "7": [r"\bmatch (?:call|item|step|\*step|mode\.as_str\(\)|self\.first_lapsed\(\)) \{"],
}


def sources(commit):
    tree = [commit] if commit else []
    names = subprocess.run(["git", "grep", "-lE", "^", *tree, "--", "crates/*/src/*.rt"], capture_output=True, text=True, check=True)
    for name in names.stdout.split():
        path = name.split(":", 1)[1] if commit else name
        if commit:
            text = subprocess.run(["git", "show", f"{commit}:{path}"], capture_output=True, text=True, check=True).stdout
        else:
            text = open(path, encoding="utf-8").read()
        yield path, re.sub(r"(?m)^ *//.*$", "", text)


def places(point, commit):
    for path, text in sources(commit):
        starts = sorted({match.start() for form in POINTS[point] for match in re.finditer(form, text, re.M)})
        for start in starts:
            begin = start + len(text[start:]) - len(text[start:].lstrip())
            line = text.count("\n", 0, begin) + 1
            yield f"{path}:{line}: {text[begin:].split(chr(10), 1)[0].strip()}"


def main():
    words = sys.argv[1:]
    if words and words[0] in POINTS:
        for place in places(words[0], words[1] if len(words) > 1 else None):
            print(place)
        return
    for point in POINTS:
        print(point, sum(1 for _ in places(point, words[0] if words else None)))


main()
