#!/usr/bin/env python3
"""Before the kit's port.py: writes the short names of modules with a dash for each underscore.

port.py takes an underscore in a name of a proof file for a sign that the file is turned already, and then leaves out most of
its steps. Only the short names behind 'as' are such names here: 'use .. as u32_at' becomes 'use .. as u32-at'.
after_port.py gives them their underscores back.

usage, at the top of the repository: python3 tools/before_port.py
"""

import os
import re

ALIAS = re.compile(r"(?m)^use \S+ as ([a-z0-9]+(?:_[a-z0-9]+)+)$")


def turned(text):
    for name in sorted(set(ALIAS.findall(text)), key=len, reverse=True):
        dashed = name.replace("_", "-")
        text = re.sub(rf"(?m)^(use \S+ as ){name}$", rf"\g<1>{dashed}", text)
        text = re.sub(rf"(?<![\w.\u00b7-]){name}\.(?=[A-Z{{])", f"{dashed}.", text)
    return text


def main():
    for folder, dirs, files in os.walk("crates"):
        dirs[:] = [d for d in dirs if d != "out"]
        for name in files:
            if name.endswith(".antt"):
                path = os.path.join(folder, name)
                with open(path, encoding="utf-8") as f:
                    text = f.read()
                new = turned(text)
                if new != text:
                    with open(path, "w", encoding="utf-8") as f:
                        f.write(new)


main()
