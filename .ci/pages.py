"""Runs the command lines of the pages, and compares what they give with what the pages show.

In a fenced block that begins with ```console each line after `$ ` is a command, a line after `> ` goes on with it, and
the lines below it are what it writes. A line `...` stands for any lines. Words after `console` name the tools that the
block needs: where one isn't installed, the block is passed over. All blocks of a page are run in one bash, in their
order, beginning in a copy of the repository. Blocks of ```sh are not run: they hold commands of the toolchain alone.
Of the man page the blocks between .EX and .EE that begin with `$ ` are run. Each link to a file, and each file named in
backticks, has to be there.
"""

import concurrent.futures
import os
import pathlib
import re
import shutil
import subprocess
import sys
import tempfile

COPIED = ["README.md", "CHANGELOG.md", "crates.txt", ".ci", "contrib", "docs", "examples", "tools"]
NOT_RUN = re.compile(r"parallel -S |\(cd crates/\w+ && rt |rt |\.ci/run$|\.ci/checks$|apt-get |git clone |cd |#|$")
NAMED = re.compile(r"`((?:crates|docs|examples|tools|contrib|\.ci)/[\w./+*-]*)`")
LINK = re.compile(r"\]\(([^)#\s]+)?(?:#([\w-]+))?\)")
MARK = "\x01"


class Command:
    """A command line of a page, and what the page shows below it."""

    def __init__(self, number, text):
        self.number, self.text, self.shown = number, text, []

    def is_given(self, lines):
        """Whether these lines are what the page shows."""
        parts = [re.escape(line) + "\n" if line != "..." else "(?:.*\n)*" for line in self.shown]
        return re.fullmatch("".join(parts), "".join(line + "\n" for line in lines))


def lines_of(page):
    """The lines of a page; of a man page with its examples as fenced blocks, and nothing else."""
    lines = page.read_text(encoding="utf-8").splitlines()
    if page.suffix != ".1":
        return lines
    shown, inside = [], False
    for line, after in zip(lines, lines[1:] + [""]):
        if line == ".EX" and after.startswith("$ "):
            shown.append("```console")
            inside = True
        elif line == ".EE" and inside:
            shown.append("```")
            inside = False
        else:
            shown.append(line.replace("\\-", "-") if inside else "")
    return shown


def read(page):
    """The commands of a page, its text outside of blocks, and what is at fault with its blocks."""
    commands, prose, faults = [], [], []
    inside, run = None, False
    for number, line in enumerate(lines_of(page), 1):
        fence = re.match(r"\s*```\s*(.*)", line)
        if fence and inside is None:
            inside, *tools = (fence[1] or "text").split()
            run = inside == "console" and all(shutil.which(tool) for tool in tools)
        elif fence:
            inside = None
        elif inside is None:
            prose.append(line)
        elif inside == "console" and line.startswith("$ "):
            if run:
                commands.append(Command(number, line[2:]))
        elif inside == "console" and run and line.startswith("> ") and not commands[-1].shown:
            commands[-1].text += "\n" + line[2:]
        elif inside == "console" and run:
            commands[-1].shown.append(line)
        elif inside == "sh" and not NOT_RUN.match(line.strip()):
            faults.append(f"{number}: a command that is not run")
        elif inside not in ("console", "sh") and re.match(r"\$ |tom [a-z]+ (--\S+ )*[a-z0-9]", line):
            faults.append(f"{number}: a command outside of a block that is run")
    return commands, "\n".join(prose), faults


def anchors(page):
    """The names by which a page's headings are linked."""
    text = re.sub(r"(?ms)^```.*?^```", "", page.read_text(encoding="utf-8"))
    heads = re.findall(r"(?m)^#+ (.*)$", text)
    return {re.sub(r"[^\w\- ]", "", head.lower()).replace(" ", "-") for head in heads}


def lost(page, prose, top):
    """The links and the named files of a page that lead nowhere."""
    for place, anchor in LINK.findall(prose):
        if place.startswith(("http:", "https:")):
            continue
        to = page.parent / place if place else page
        if not to.exists():
            yield f"no such file: {place}"
        elif anchor and anchor not in anchors(to):
            yield f"no such heading: {place}#{anchor}"
    for name in NAMED.findall(prose):
        if not re.search("/out/|NAME", name) and not list(top.glob(name.rstrip("/"))):
            yield f"no such file: {name}"


def run(commands, copy, top):
    """Runs the commands in one bash, and gives for each the lines that it wrote."""
    script = "".join(
        f"{{ {command.text}\n}} 2>&1; status=$?; printf '{MARK}'; (exit $status)\n" for command in commands
    )
    place = {
        "PATH": f"{top}/crates/tom/out:" + os.environ["PATH"],
        "HOME": f"{copy}/home",
        "TMPDIR": f"{copy}/scratch",
        "LC_ALL": "C.UTF-8",
        "MANWIDTH": "80",
    }
    for folder in ("home", "scratch"):
        (copy / folder).mkdir()
    words = ["bash", "-c", script]
    ran = subprocess.run(
        words, stdin=subprocess.DEVNULL, cwd=copy, env=place, capture_output=True, text=True, check=False, timeout=120
    )
    return [part.splitlines() for part in ran.stdout.split(MARK)], ran.stderr


def check(page, top):
    """What is at fault with a page."""
    commands, prose, faults = read(page)
    faults += lost(page, prose, top)
    if not commands:
        return faults
    with tempfile.TemporaryDirectory() as folder:
        copy = pathlib.Path(folder) / "tom"
        copy.mkdir()
        for name in COPIED:
            if (top / name).is_dir():
                shutil.copytree(top / name, copy / name)
            elif (top / name).exists():
                shutil.copy(top / name, copy / name)
        (copy / "crates").symlink_to(top / "crates")
        given, said = run(commands, copy, top)
        for command, lines in zip(commands, given + [["(not run)"]] * len(commands)):
            lines = [line.replace(str(copy), ".") for line in lines]
            if not command.is_given(lines):
                faults.append("\n".join([f"{command.number}: {command.text}", *lines]))
        if said:
            faults.append(said)
    return faults


def main():
    top = pathlib.Path(__file__).resolve().parent.parent
    pages = [top / "README.md", top / "CHANGELOG.md", top / "docs/tom.1"]
    for folder in ("docs", "examples", "contrib", "tools"):
        pages += sorted((top / folder).rglob("*.md"))
    if sys.argv[1:]:
        pages = [pathlib.Path(name).resolve() for name in sys.argv[1:]]
    with concurrent.futures.ThreadPoolExecutor() as pool:
        found = list(pool.map(lambda page: check(page, top) if page.exists() else ["is missing"], pages))
    for page, faults in zip(pages, found):
        for fault in faults:
            print(f"checks: {page.relative_to(top)}: {fault}")
    return any(found)


if __name__ == "__main__":
    sys.exit(main())
