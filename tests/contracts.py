"""contracts.py [--self-test]: no function that another crate or a caller can name is without a statement.

Every `pub fn` and `pub(crate) fn` of crates/*/src, and every function that a trait declares there, has an `ensures`, and every impl of a trait the trait's law of what
its functions give, or an `ensures` of each. The public calls are those of crate dymosaw and of crate dymosaw_c, which hands two of them to C, in the
modules that their lib.rt make public: none of them has a `requires`, since C and any bytes come in there, and each has its row in docs/STATEMENTS.md, "Two
outcomes allowed for one input". A call of crate dymosaw_c says word for word what the call of its name in crate dymosaw says, of which the promises speak.
With --self-test damaged copies must each be found out.
"""
import re

from damaged import verdict

PUBLIC = ("crates/dymosaw/src/", "crates/dymosaw_c/src/")
# The law by which an impl of the trait says what its functions give; one of any other trait says it by the `ensures` of each.
LAWS = {"From": "from_gives", "TryFrom": "try_from_gives", "Iterator": "next_gives", "Number": "value", "Kinds": "kind"}
PAGE, HEADING = "docs/STATEMENTS.md", "## Two outcomes allowed for one input"


def closing(text, at, pair):
    """The place behind the bracket that closes the one at `at`."""
    depth = 0
    for place in range(at, len(text)):
        depth += (text[place] == pair[0]) - (text[place] == pair[1])
        if depth == 0:
            return place + 1
    raise ValueError(f"no bracket closes: {text[at:at + 60]}")


def clauses_of(text, at):
    """The clauses of the function whose parameters open at `at`: (word, what it says, its label) of each."""
    at = closing(text, at, "()")
    found = []
    while True:
        word = re.compile(r"\b(requires|ensures)\b(?:\s+(\w+))?\s*(?=\{)|\{").search(text, at)
        if not word or not word.group(1) or re.search(r";\s*$", text[at : word.start()], re.M):
            return found
        at = closing(text, word.end(), "{}")
        found.append((word.group(1), text[word.end() + 1 : at - 1].strip(), word.group(2)))


def public_functions(text):
    """(name, clauses) of each public function of a file."""
    bare = re.sub(r"//[^\n]*", "", text)
    named = [*re.finditer(r'\bpub(?:\(crate\))? (?:const )?(?:extern "C" )?fn (\w+)', bare), *trait_functions(bare)]
    return [(f.group(1), clauses_of(bare, bare.index("(", f.end()))) for f in named]


def trait_functions(bare):
    """Each function that a trait of a file declares."""
    for head in re.finditer(r"\btrait \w+[^{;]*\{", bare):
        yield from re.compile(r"\bfn (\w+)").finditer(bare, head.end(), closing(bare, head.end() - 1, "{}"))


def trait_impls(text):
    """(trait, type, whether it says what its functions give) of each impl of a trait in a file."""
    bare = re.sub(r"//[^\n]*", "", text)
    for head in re.finditer(r"^\s*impl(?:<[^{]*?>)? (?:\w+::)*(\w+)(?:<[^{]*>)? for ([^{]+?) \{", bare, re.M):
        body = bare[head.end() : closing(bare, head.end() - 1, "{}")]
        law = re.search(rf"\bghost {LAWS.get(head.group(1), 'ensures')} = \{{([^}}]*)\}}", body)
        clauses = [clauses_of(body, body.index("(", f.end())) for f in re.finditer(r"\bfn \w+", body)]
        says = "⊤" not in law.group(1) if law else all(any(word == "ensures" for word, *_ in of) for of in clauses)
        yield head.group(1), head.group(2), says


def is_public(path, texts):
    """The file is one of the product's public modules."""
    home = next((it for it in PUBLIC if path.startswith(it)), None)
    module = path[len(home or "") : -len(".rt")]
    return home and (module == "lib" or re.search(rf"^pub mod {module};", texts[f"{home}lib.rt"], re.M))


def calls_of(texts):
    """(path, name, clauses, whether it is a public call) of each public function."""
    for path, text in texts.items():
        if path != PAGE:
            for name, clauses in public_functions(text):
                yield path, name, clauses, is_public(path, texts)


def impls_of(texts):
    """(path, trait, type, whether it says what its functions give) of each impl of a trait."""
    return [(path, *impl) for path, text in texts.items() if path != PAGE for impl in trait_impls(text)]


def words_of(text):
    """The words that the file's clauses are given, each with its module."""
    uses = re.findall(r"^ghost use ([\w.]+)\.\{([^}]*)\};", text, re.M)
    return {f"{module}.{word.strip()}" for module, words in uses for word in words.split(",")}


def handed_to_c(texts):
    """What is wrong with the calls of crate dymosaw_c beside those of crate dymosaw that they hand on."""
    home, thin = PUBLIC
    said = {name: clauses for path, name, clauses, _ in calls_of(texts) if path.startswith(home)}
    words = {word for path, text in texts.items() if path.startswith(home) for word in words_of(text)}
    for path, name, clauses, _ in calls_of(texts):
        if path.startswith(thin) and clauses != said.get(name):
            yield f"{path}: {name} does not say what crate dymosaw's {name} says"
    for path, text in texts.items():
        if path.startswith(thin):
            yield from (f"{path}: {word} is no word of crate dymosaw's clauses" for word in sorted(words_of(text) - words))


def complaints(texts):
    rows = texts[PAGE].split(HEADING)[-1]
    wrong = list(handed_to_c(texts))
    for path, name, clauses, public in calls_of(texts):
        says = [what for word, what, _ in clauses if word == "ensures"]
        if not says or any("⊤" in what for what in says):
            wrong.append(f"{path}: {name} ensures nothing")
        if public and any(word == "requires" for word, *_ in clauses):
            wrong.append(f"{path}: {name} is a public call and has a requires")
        if public and f"`{path.split('/')[1]}:{name}`" not in rows:
            wrong.append(f"{path}: {name} is a public call and has no row in {PAGE}, '{HEADING[3:]}'")
    return wrong + [f"{path}: the impl of {trait} for {of} says nothing of its functions" for path, trait, of, says in impls_of(texts) if not says]


def count(texts):
    public = [call for *_, call in calls_of(texts)]
    return f"{len(public)} public functions have an ensures, {len(impls_of(texts))} impls of traits a law, {sum(map(bool, public))} public calls no requires"


# Each damage: a file, one text for another, and the complaint that is due.
DAMAGES = [
    ("crates/dymosaw/src/correct.rt", "    ensures {", "    requires {", "correct.rt: correct ensures nothing"),
    ("crates/dymosaw/src/correct.rt", "    ensures {", "    requires { 1 ≡ 1 }\n    ensures {", "correct.rt: correct is a public call and has a requires"),
    ("crates/dymosaw/src/correct.rt", "fn dymosaw_correct(", "fn dymosaw_mend(", "dymosaw_mend is a public call and has no row"),
    ("crates/dymosaw_c/src/lib.rt", "fn dymosaw_correct(", "fn dymosaw_mend(", "dymosaw_mend is a public call and has no row"),
    ("crates/dymosaw_c/src/lib.rt", "    ensures {", "    requires {", "lib.rt: dymosaw_correct ensures nothing"),
    ("crates/dymosaw_c/src/lib.rt", "{ Bytes request.now }", "{ Bytes host.now }", "dymosaw_request does not say what crate dymosaw's dymosaw_request says"),
    ("crates/dymosaw_c/src/lib.rt", "    ensures bytes {", "    ensures known {", "dymosaw_request does not say what crate dymosaw's dymosaw_request says"),
    ("crates/dymosaw_c/src/lib.rt", "specs.Outcome.{outcome}", "specs.Desk.{outcome}", "Rattle.paper.specs.Desk.outcome is no word of crate dymosaw's clauses"),
    ("crates/dymosaw/src/serve.rt", "    ensures bytes {", "    requires bytes {", "serve.rt: serve is a public call and has a requires"),
    ("crates/wire/src/put.rt", "pub fn", "pub fn silent(x: u8) -> u8 {\n    x\n}\n\npub fn", "silent ensures nothing"),
    ("crates/avp/src/cursor.rt", "pub fn", "pub fn empty(x: [u8; 4]) -> u8\n    ensures { ⊤ }\n{\n    0\n}\n\npub fn", "empty ensures nothing"),
    ("crates/dymosaw/src/serve.rt", "    ghost from_gives = ", "    ghost from_given = ", "the impl of From for u32 says nothing of its functions"),
    ("crates/avp/src/cursor.rt", "    ghost next_gives = { YieldsFirst left };\n", "", "the impl of Iterator for Avps<'a> says nothing of its functions"),
    ("crates/wire/src/number.rt", "        requires { v < 256 ^ WIDTH }\n        ensures { value result ≡ v };", "        requires { v < 256 ^ WIDTH };", "narrowed ensures nothing"),
    ("crates/wire/src/number.rt", "    fn widened(self) -> u64\n        ensures { result ≡ value self };", "    fn widened(self) -> u64;", "widened ensures nothing"),
    ("crates/wire/src/number.rt", "    ghost value = { λ x. x };", "    ghost value = { λ x. ⊤ };", "the impl of Number for u8 says nothing of its functions"),
    ("crates/wire/src/put.rt", "pub fn", "impl Default for Silence {\n    fn default() -> Self {\n        Silence\n    }\n}\n\npub fn", "the impl of Default for Silence says nothing"),
]


verdict("contracts", ["crates/*/src/**/*.rt", PAGE], complaints, DAMAGES, count)
