"""proof_lines.py: for each crate of crates.txt the functions, the lines of code, specification and proof, and the must-fail edits, as the table of docs/PROOFS.md.

Lines without blanks and comments: code is src/, specification is specs/, proof is proofs/ (of it the files that stand for one function each, its
Invariants.antt and Answers.antt). What the prover shows by itself has no line.
"""
import glob
import re


def lines(pattern):
    count = 0
    for path in glob.glob(pattern, recursive=True):
        with open(path, encoding="utf-8") as text:
            count += sum(1 for line in text if line.strip() and not line.strip().startswith(("--", "//")))
    return count


def main():
    with open("crates.txt", encoding="utf-8") as listed:
        crates = [line.split(":")[0].split()[0] for line in listed if line.strip() and not line.startswith("#")]
    print("| crate | functions | code | specification | proof | of it, one function each | must-fail edits |")
    print("|---|---|---|---|---|---|---|")
    for crate in crates:
        folder = f"crates/{crate}"
        functions = 0
        for source in glob.glob(f"{folder}/src/**/*.rt", recursive=True):
            with open(source, encoding="utf-8") as code:
                functions += len(re.findall(r"^\s*(?:pub(?:\(crate\))? )?(?:extern \"C\" )?fn ", code.read(), re.M))
        edits = len(glob.glob(f"{folder}/must-fail/*.edit"))
        each = sum(lines(f"{folder}/proofs/**/{name}.antt") for name in ("Invariants", "Answers", "Proof"))
        print(f"| `{crate}` | {functions} | {lines(f'{folder}/src/**/*.rt')} | {lines(f'{folder}/specs/**/*.antt')} | {lines(f'{folder}/proofs/**/*.antt')} | {each} | {edits} |")


main()
