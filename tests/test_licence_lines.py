# SPDX-License-Identifier: Apache-2.0
"""What tools/licence_lines.py takes for a source, and that it says which of them does not name its licence."""
from pathlib import Path

import licence_lines
import pytest

LINE = f"# {licence_lines.LINE}\n"


def test_a_source_without_the_line(tmp_path: Path, monkeypatch: pytest.MonkeyPatch) -> None:
    """In its first three lines, also of a script without an ending; data, documents and what is made are none."""
    monkeypatch.setattr(licence_lines, "TOP", str(tmp_path))
    kept = {"a.py": LINE, "b.rt": f"\n\n{LINE}", "mtool": f"#!/bin/sh\n{LINE}", "c.txt": "x", "d.md": "x", "out/e.py": "x", "examples/f.py": "x"}
    broken = {"g.antt": "x", "h.js": f"\n\n\n{LINE}", "tool": "#!/bin/sh\n", "within/i.css": ""}
    for name, text in {**kept, **broken}.items():
        (tmp_path / name).parent.mkdir(exist_ok=True)
        (tmp_path / name).write_text(text)
    assert sorted(licence_lines.without_line()) == sorted(broken)
    assert licence_lines.main() == 1
