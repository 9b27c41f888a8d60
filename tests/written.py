"""What the scripts beside this one share: cases as pairs of a line and its reply, written for a test program."""
from pathlib import Path

CRATES = Path(__file__).resolve().parent.parent / "crates"


def write(crate, by_hand, model, cases):
    """Writes the crate's stdin and stdout, the pairs by hand first; the model has to agree with those."""
    for line, reply in by_hand:
        assert model(line) == reply, (line, model(line), reply)
    pairs = [*by_hand, *cases]
    for name, texts in zip(("stdin", "stdout"), zip(*pairs)):
        (CRATES / crate / name).write_text("".join(text + "\n" for text in texts))
    print(len(pairs), "cases")
