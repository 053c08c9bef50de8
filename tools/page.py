"""Parts of the pages that commands write: what is between the lines <!-- NAME --> and <!-- end of NAME -->."""
import difflib
import os
import re
import sys


def replaced(path, name, lines):
    """Returns a page, and the page with these lines as its part of this name."""
    with open(path, encoding="utf8") as file:
        page = file.read()
    part = re.compile(rf"(<!-- {name} -->\n).*?(<!-- end of {name} -->)", re.S)
    if len(part.findall(page)) != 1:
        sys.exit(f"{path} has no part <!-- {name} -->, or several")
    return page, part.sub(lambda it: it[1] + "".join(f"{line}\n" for line in lines) + it[2], page)


def settle(words, name, lines):
    """Prints the lines, or, as the words say, compares them with a page (--check PAGE) or writes them into it (--write
    PAGE). Returns the status."""
    if words[:1] not in (["--check"], ["--write"]):
        print("\n".join(lines))
        return 0
    path = words[1]
    page, now = replaced(path, name, lines)
    if words[0] == "--write":
        with open(path, "w", encoding="utf8") as file:
            file.write(now)
    elif page != now:
        print(f"{path} is not what {os.path.basename(sys.argv[0])} prints (with --write in place of --check it is written):")
        print("\n".join(difflib.unified_diff(page.split("\n"), now.split("\n"), lineterm="", n=0)))
        return 1
    return 0
