"""What `encodings` and `steps` share: where the stored files are, and what is done with one that was recorded anew."""
import pathlib
import sys

CRATES = pathlib.Path(__file__).resolve().parents[2] / "crates"


def compare(stored, recorded, items):
    """Prints how many items differ, and the first of them; answers the exit status."""
    differ = [pair for pair in zip(items(stored), items(recorded)) if pair[0] != pair[1]]
    print(f"{len(items(recorded))} recorded, {len(differ)} differ from the stored ones")
    for old, new in differ[:10]:
        print(f"stored {old}\nrecorded {new}")
    return 0 if stored == recorded else 1


def main(path, record, items):
    """Records a stored file anew; with --compare, compares the two, and with a path, writes it there."""
    if len(sys.argv) != 2:
        sys.exit(f"usage: {pathlib.Path(sys.argv[0]).name} --compare | FILE")
    stored = path.read_bytes()
    recorded = record(stored)
    if sys.argv[1] == "--compare":
        sys.exit(compare(stored, recorded, items))
    pathlib.Path(sys.argv[1]).write_bytes(recorded)
