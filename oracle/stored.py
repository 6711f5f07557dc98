"""What is stored of a test program: its data/ and what it prints."""

import sys
from pathlib import Path

CRATES = Path(__file__).resolve().parent.parent / "crates"


def keep(crate, *parts):
    """Of each part the files of data/ by name, and a text; the texts are printed one after the other. They are written, or with --check
    compared with what is stored."""
    data = CRATES / crate / "data"
    files = {data / name: content for written, _ in parts for name, content in written.items()}
    assert len(files) == sum(len(written) for written, _ in parts)
    out, text = CRATES / crate / "stdout", "".join(text for _, text in parts).encode()
    if "--check" in sys.argv:
        same = {path: path.read_bytes() for path in data.iterdir()} == files and out.read_bytes() == text
        print(f"crates/{crate}:", "as written by this program" if same else "DIFFERENT")
        sys.exit(not same)
    data.mkdir(parents=True, exist_ok=True)
    for path, content in {**files, out: text}.items():
        path.write_bytes(content)
