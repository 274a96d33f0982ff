"""WebAssembly modules as text: read as nested lists of words, and written again."""
import re
import sys

# blocks are nested deeply
sys.setrecursionlimit(1_000_000)
WORD = re.compile(r';;.*|"(?:[^"\\]|\\.)*"|[()]|[^\s()"]+')


def read(text):
    """The one item of a text."""
    open_lists = [[]]
    for word in WORD.findall(text):
        if word == "(":
            open_lists.append([])
        elif word == ")":
            closed = open_lists.pop()
            open_lists[-1].append(closed)
        elif not word.startswith(";;"):
            open_lists[-1].append(word)
    ((item,),) = open_lists
    return item


def write(item):
    return item if isinstance(item, str) else f"({' '.join(map(write, item))})"


def items_of(module, kind):
    return [item for item in module if item[0] == kind]
