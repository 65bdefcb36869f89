"""What tests/must_fail.py and tests/wrong.py share: edits, and the places at which the prover refuses an edited crate.

The comment `# refused at: PLACE` of an edit names a place as `FILE NAME`, a declaration of a file below the crate's proofs/ (a lemma, or the answer to a goal in
a function's Answers.antt), or as `fn MODULE::FUNCTION GOAL`, a goal that the prover was to show by itself and did not; a crate's root module is left out.
"""
import collections
import os
import re
import shutil
import subprocess
import tempfile

# A place of a log: the file below the crate and its line, or the function, and the declaration or goal that is named there ("?" where none is).
Place = collections.namedtuple("Place", "file line function name")

# A comment's place: the file or the function, which of the two, and the declaration or goal.
Named = collections.namedtuple("Named", "where is_function name")

# A proof that stands behind another, and one that only names what the edit took away: neither says what no longer holds.
BEHIND = re.compile(r"was not admitted|has no field|is not in scope|has no `")

ERROR = re.compile(r"^(?:note: )?(?:\./)?((?:src|specs|proofs)/\S+?):(\d+):\d+: (error: )?(.*)$", re.M)
OPEN = re.compile(r"^fn (\S+): no proof: .*did not prove (.*)$", re.M)
SIGNATURE = re.compile(r"( *)(?:pub |pub\(crate\) |abbrev |unfoldable |pattern |const |unsafe |extern \"C\" )*(?:fn (\w+)|([^\s(){}]+)(?: \{[^{}]*\}| \([^()]*\))* (?=:( |$)))")


def read(path):
    """A file's text."""
    with open(path, encoding="utf-8") as text:
        return text.read()


def write(path, text):
    """Writes a file, and the folders that it stands in."""
    os.makedirs(os.path.dirname(path), exist_ok=True)
    with open(path, "w", encoding="utf-8") as file:
        file.write(text)


def replacements(edit):
    """The crate that an edit names, if it names one, and its (file, old, new) in order."""
    crate, file, old, found = None, None, None, []
    for line in read(edit).split("\n"):
        word, _, text = line.partition(": ")
        if word == "crate":
            crate = text
        elif word == "file":
            file = text
        elif word == "old":
            old = text
        elif line.startswith("new:"):
            found.append((file, old, text))
    return crate, found


def edited(edit, folder):
    """The edited texts by file below a crate's folder, or why the edit cannot be applied: each old text stands once in its file."""
    texts = {}
    for file, old, new in replacements(edit)[1]:
        path = f"{folder}/{file}"
        if not os.path.isfile(path):
            return {}, f"there is no file {file}"
        text = texts.get(file) or read(path)
        if not old or old == new or text.count(old) != 1:
            return {}, f"a text does not stand once in {file}, or is replaced by itself: {old}"
        texts[file] = text.replace(old, new)
    return texts, None if texts else "it replaces nothing"


def promised(edit):
    """The place that the edit's comment names, or None."""
    found = re.search(r"^# refused at: (fn )?(\S+) (\S+)\s*$", read(edit), re.M)
    return found and Named(found.group(2), bool(found.group(1)), found.group(3))


def shown(named):
    """A place as a comment has it."""
    return f"{'fn ' if named.is_function else ''}{named.where} {named.name}"


def enclosing(path, number):
    """The names of the declarations that hold the line: of each lesser indent the nearest signature above it, or the function's name."""
    names, indent = [], None
    for line in reversed(read(path).split("\n")[:number]):
        found = SIGNATURE.match(line)
        if found and (indent is None or len(found.group(1)) < indent):
            indent = len(found.group(1))
            names.append(found.group(2) or found.group(3))
        if indent == 0:
            break
    return names


def place_of(line):
    """The place that one line of a log names, as `rt ci` prints the first, or None: an error of a proof, or a goal of a function that is not proved."""
    found = ERROR.match(line)
    if not found:
        return None
    path, number, is_error, text = found.groups()
    if is_error:
        name = re.match(r"`([^`]+)`: ", text)
        return Place(path, int(number), None, name.group(1) if name else "?")
    goal = re.search(r"it is not proved that .*?\(`([^`]+)`\)", text)
    return Place(path, int(number), None, goal.group(1)) if goal and path.startswith("src/") else None


def errors(log):
    """Every error of a log that names a file of the crate, those behind others too."""
    return [place_of(found.group(0)) for found in ERROR.finditer(log) if found.group(3)]


def roots(log, crate):
    """The places of a whole log that stand behind no other: errors of proofs, and goals of functions that were left open."""
    found = [place_of(it.group(0)) for it in ERROR.finditer(log) if it.group(3) and not (it.group(1).startswith("proofs/") and BEHIND.search(it.group(4)))]
    for function, goals in OPEN.findall(log):
        found += [Place(None, 0, function.removeprefix(f"{crate}::"), goal) for goal in re.findall(r"`([^`]+)`", goals)]
    return found


def functions_at(place, folder):
    """The function that holds a place of src/, as a comment may name it: with its module, and with the type whose method it may be left open."""
    module = re.sub(r"^src/|(/mod)?\.rt$", "", place.file).replace("/", "::")
    prefix = "" if module in ("lib", "main") else f"{module}::"
    held = [name for name in enclosing(f"{folder}/{place.file}", place.line) if re.search(rf"\bfn {re.escape(name)}\b", read(f"{folder}/{place.file}"))]
    return [(prefix, name) for name in held[:1]]


def is_named(place, named, folder):
    """The comment names this place of the crate in `folder`."""
    if place.function:
        return named.is_function and (named.where, named.name) == (place.function, place.name)
    if named.is_function:
        held = functions_at(place, folder) if place.file.startswith("src/") else []
        return place.name == named.name and any(re.fullmatch(rf"{re.escape(prefix)}(?:[^:]+::)?{re.escape(name)}", named.where) for prefix, name in held)
    return place.file == named.where and named.name in (place.name, *enclosing(f"{folder}/{place.file}", place.line))


def named_by(place, folder):
    """A place as a comment may name it."""
    if place.function:
        return Named(place.function, True, place.name)
    if place.file.startswith("src/"):
        prefix, name = (functions_at(place, folder) or [("", "?")])[0]
        return Named(prefix + name, True, place.name)
    inside = [place.name] if place.name != "?" else enclosing(f"{folder}/{place.file}", place.line)
    return Named(place.file, False, (inside or ["?"])[0])


class Copies:
    """Copies of some crates outside the checkout, where edited texts are checked: over what a check of the texts as they stand has proved."""

    def __init__(self, crates):
        self.crates, self.room, self.begun = crates, tempfile.mkdtemp(prefix="dymosaw-edits-"), {}
        self.base = f"{self.room}/base"
        for crate in crates:
            shutil.copytree(f"crates/{crate}", f"{self.base}/crates/{crate}", ignore=shutil.ignore_patterns("must-fail", "out"))
        lines = [line for line in read("crates.txt").split("\n") if re.split(r"[:\s]", line)[0] in crates]
        write(f"{self.base}/crates.txt", "\n".join(lines) + "\n")

    def begin(self, crate):
        """Proves a crate as it stands, once."""
        if crate not in self.begun:
            self.begun[crate] = rt_check(self.base, crate)
        status, told = self.begun[crate]
        return None if status == 0 else f"{crate} itself is not proved: {told[-400:]}"

    def check(self, crate, texts, above=()):
        """Checks the crate with these texts, and then the crates above it in the same copy, as long as each is proved: the crate that the last log is of,
        its status and the log."""
        copy = tempfile.mkdtemp(dir=self.room)
        try:
            shutil.copytree(self.base, copy, ignore=needless(self.base, crate, above), dirs_exist_ok=True, copy_function=linked)
            for file, text in texts.items():
                write(f"{copy}/crates/{crate}/{file}", text)
            for it in (crate, *above):
                status, log = rt_check(copy, it)
                if status:
                    break
            return it, status, log
        finally:
            shutil.rmtree(copy, ignore_errors=True)

    def end(self):
        """Removes the copies."""
        shutil.rmtree(self.room, ignore_errors=True)


def needless(base, crate, above):
    """What a copy in which this crate is edited goes without: its library, and the kept work of crates that are not checked there."""

    def ignored(folder, names):
        if os.path.basename(folder) != "out":
            return []
        owner = folder.removeprefix(f"{base}/crates/").split("/")[0]
        return [name for name in names if name == "rlib" and owner == crate or name == "incremental" and owner not in (crate, *above)]

    return ignored


def linked(one, other):
    """Copies a file; what was proved, and a library's files, which a check replaces and never changes, by a link."""
    if one.endswith(".oantt") or "/out/rlib/" in one:
        try:
            os.link(one, other)
            return
        except OSError:
            pass
    shutil.copy2(one, other)


def rt_check(root, crate):
    """The exit status of `rt check` in a crate's folder, and what it prints."""
    done = subprocess.run(["rt", "check", "--jobs", "1"], cwd=f"{root}/crates/{crate}", stdin=subprocess.DEVNULL, stdout=subprocess.PIPE, stderr=subprocess.STDOUT, encoding="utf-8", errors="replace", check=False)
    return done.returncode, done.stdout


def below(crate):
    """A crate and those of crates.txt below it."""
    listed = dict(re.findall(r"^(\w+)[^:#\n]*:(.*)$", read("crates.txt"), re.M))
    found, left = [], [crate]
    while left:
        it = left.pop()
        if it in listed and it not in found:
            found.append(it)
            left += listed[it].split()
    return found


def jobs():
    """How many checks run side by side: RT_JOBS, or one for each two processors."""
    return int(os.environ.get("RT_JOBS") or max(1, (os.cpu_count() or 1) // 2))
