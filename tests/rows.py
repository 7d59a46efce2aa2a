"""The files of rows that the models write and the checker computes."""
import pathlib
import sys

CRATES = pathlib.Path(__file__).parent.parent / "crates"


def numbers(values):
    return " ∷ ".join([str(v) for v in values] + ["[]"])


def table(name, kind, rows):
    """A list of rows, a row to a line."""
    return f"\npub {name} : List {kind}\n{name} =\n    " + "\n    ∷ ".join(rows + ["[]"]) + "\n"


def settle(crate, text):
    """Writes the crate's rows; with --check, fails where the repository has others."""
    path = CRATES / crate / "proofs/Samples.antt"
    if "--check" not in sys.argv:
        path.write_text(text)
    elif path.read_text() != text:
        sys.exit(f"{path} is not what the model writes")
