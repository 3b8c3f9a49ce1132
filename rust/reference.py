"""The 29 hashes and poly61 as docs/SPECIFICATION.md has them: the names of its programs are those of this module."""
import os
import re

PAGE = os.path.join(os.path.dirname(os.path.abspath(__file__)), "..", "docs", "SPECIFICATION.md")

with open(PAGE, encoding="utf-8") as page:
    for block in re.findall(r"^```python\n(.*?)^```$", page.read(), re.M | re.S):
        exec(compile(block, PAGE, "exec"))  # pylint: disable=exec-used
