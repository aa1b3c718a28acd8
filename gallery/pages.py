#!/usr/bin/env python3
"""gallery/pages.py: writes the index and the page of each chapter from the programs, the reports and what formulas/ says of them."""
import os
import sys

sys.dont_write_bytecode = True
sys.path.insert(0, os.path.dirname(os.path.abspath(__file__)))
from formulas import GALLERY, chapters  # noqa: E402

SHOWN = 7  # rows on a page
INDEX = """# The gallery

{number} analyses in ten chapters, each with its question, its program, its report, what is known of its numbers, and what to notice.
Look for the one next to yours, copy it, and change it.

```sh
luo analyse gallery/02-trees/leaves.adl 20     # one of them
gallery/check PROGRAM                          # all of them
```

| Page | Has |
|---|---|
| [lecture.md](lecture.md) | from binary trees to the average path length, in twenty minutes |
| [cookbook.md](cookbook.md) | how do I say ..; and what can't be said, with the nearest that can |
| [beside.md](beside.md) | examples of the literature on ΛΥΩ, beside what is exact here |

**Where the numbers come from.** `formulas/` has a function for each analysis: a closed form or a recurrence of its own, in Python's
integers. `gallery/check PROGRAM` recomputes every row of every report with it, compares the equations with those of `equations.py`,
tries small sizes by brute force (`brute.py`), and only then compares the report with what the program writes. `gallery/spoil PROGRAM` changes
digits of the reports and shows that the check finds each. A number like A000108 is that of the sequence in the On-Line Encyclopedia of
Integer Sequences; where no source is named, or it says "computed here", the formula was derived for this page.
An offset may differ by one or two from the encyclopedia's.

**To add one:** write `NN-CHAPTER/NAME.adl` in the layout of `luo format`, add a function to the chapter's file in `formulas/`, then run
`gallery/check --make` (the report), `gallery/pages.py` (the pages) and `gallery/check PROGRAM NAME`.

"""


def text(path):
    with open(path) as f:
        return f.read()


def section(analysis):
    """What a chapter's page says of an analysis."""
    link = os.path.relpath(analysis.path(""), os.path.join(GALLERY, "any"))
    rows = [line for line in text(analysis.report()).split("\n") if line[:1].isdigit()][:SHOWN]
    return "## %s\n\n%s\n\n```\n%s```\n\n[%s.adl](%s.adl), its [report](%s.%d.report) to size %d, which begins:\n\n```\n%s\n```\n\n" \
           "**Known.** %s\n\n**Notice.** %s\n" % (
               analysis.name, analysis.question, text(analysis.program()), analysis.name, link if link.startswith("../..") else analysis.name,
               link if link.startswith("../..") else analysis.name, analysis.last, analysis.last, "\n".join(rows), analysis.known,
               analysis.notice)


def made():
    """Each page and its text."""
    index = [INDEX.format(number=sum(len(chapter.analyses) for chapter in chapters()))]
    for chapter in chapters():
        title = "%d. %s" % (chapter.number, chapter.title)
        index.append("## %s\n\n%s [The chapter](%s/README.md).\n\n![%s](pictures/%s.png)\n\n| Analysis | Question |\n|---|---|\n" % (
            title, chapter.opening, chapter.folder, chapter.title, chapter.folder))
        index += ["| [%s](%s/README.md#%s) | %s |\n" % (a.name, chapter.folder, a.name, a.question) for a in chapter.analyses]
        index.append("\n")
        page = "# %s\n\n%s [All chapters](../README.md).\n\n![%s](../pictures/%s.png)\n\n" % (title, chapter.opening, chapter.title,
                                                                                        chapter.folder)
        yield chapter.folder + "/README.md", page + "\n".join(map(section, chapter.analyses))
    yield "README.md", "".join(index).rstrip("\n") + "\n"


def stale():
    """Each page, and whether it is what it would be if it were written now."""
    for path, wanted in made():
        full = os.path.join(GALLERY, path)
        yield path, os.path.exists(full) and text(full) == wanted


if __name__ == "__main__":
    for path, wanted in made():
        with open(os.path.join(GALLERY, path), "w") as f:
            f.write(wanted)
