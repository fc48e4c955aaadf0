#!/usr/bin/env python3
"""Runs the kit's port.py on a repository in time: some of its lookups keep their answers.

usage: python3 tools/port_in_time.py        at the top of a checkout in the older form, once (docs/PORT.md)

port.py gives its longest script half an hour, and on the compiler's cycle of 38 functions that script needs more: for each of
some two thousand citations it asks of every function of the cycle what each of its calls may reach. Here that is asked once.
A copy of the kit's folder port is made, beside links to the rest of the kit; in turn_labels.py and entries.py of the copy the
functions below hand out what they gave before for the same arguments. They read nothing that changes while the script runs,
so what port.py writes is the same.
"""

import os
import shutil
import subprocess
import sys
import tempfile

KIT = "/opt/rattle"
LABELS = "port/notes/2026-11-18-labels-say-what-they-state/"

KEPT = '''    def {name}(self, {parameters}):
        kept = self.__dict__.setdefault("kept_{name}", {{}})
        key = {key}
        if key not in kept:
            kept[key] = {made}
        return kept[key]

    def {name}_anew(self, {parameters}):
'''

CHANGES = [
    ("turn_labels.py", "callees", "function, call", "(id(function), call.name, call.how, call.word, call.root, call.at, getattr(call, 'is_alias', None))", "{}"),
    ("turn_labels.py", "reached", "about, step", "(tuple(map(id, about)), step)", "list({})"),
    ("entries.py", "turned", "kind, arm, chain", "(kind, arm, tuple(chain))", "{}"),
    ("entries.py", "advice", "kind, arm, chain", "(kind, arm, tuple(chain))", "{}"),
]


def replaced(text, old, new):
    if text.count(old) != 1:
        sys.exit(f"this kit's port.py is another one: {old.strip()} stands {text.count(old)} times")
    return text.replace(old, new)


def main():
    top = tempfile.mkdtemp(prefix="port-in-time-")
    try:
        for name in os.listdir(KIT):
            if name != "port":
                os.symlink(os.path.join(KIT, name), os.path.join(top, name))
        shutil.copytree(os.path.join(KIT, "port"), os.path.join(top, "port"))
        for file, name, parameters, key, made in CHANGES:
            path = os.path.join(top, LABELS, file)
            with open(path, encoding="utf-8") as it:
                text = it.read()
            call = f"self.{name}_anew({parameters})"
            new = KEPT.format(name=name, parameters=parameters, key=key, made=made.format(call))
            text = replaced(text, f"    def {name}(self, {parameters}):\n", new)
            with open(path, "w", encoding="utf-8") as it:
                it.write(text)
        path = os.path.join(top, LABELS, "turn_labels.py")
        with open(path, encoding="utf-8") as it:
            text = it.read().replace("re.search(", "search(")
        line = "sys.dont_write_bytecode = True\n"
        text = replaced(text, line, line + "import functools\nsearch = functools.lru_cache(maxsize=None)(re.search)\n")
        with open(path, "w", encoding="utf-8") as it:
            it.write(text)
        return subprocess.call([sys.executable, os.path.join(top, "port", "port.py")])
    finally:
        shutil.rmtree(top, ignore_errors=True)


sys.exit(main())
