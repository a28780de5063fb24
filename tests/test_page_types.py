# SPDX-License-Identifier: Apache-2.0
"""What tools/page_types.py says of a module that breaks its types."""
import shutil
from pathlib import Path

import page_types
import pytest

KEPT = "/** Twice a number. */\nexport function twice(number) {\n  return 2 * number;\n}\n"
BROKEN = {
    "a call that is not there": "document.nothing();\n",
    "a name that is not there": "twice(1);\n",
    "a text for a number": "Math.abs('x');\n",
    "a name without use": "const unused = 1;\nexport const used = 2;\n",
    "a module that has it not": 'import { thrice } from "./kept.js";\nthrice(1);\n',
}


@pytest.mark.skipif(shutil.which("tsc") is None, reason=page_types.INSTALL)
def test_types_that_are_broken(tmp_path: Path) -> None:
    (tmp_path / "kept.js").write_text(KEPT)
    names = {f"broken{number}.js": text for number, text in enumerate(BROKEN.values())}
    for name, text in names.items():
        (tmp_path / name).write_text(text)
    assert page_types.breaches(["kept.js"], str(tmp_path)) == []
    found = page_types.breaches(["kept.js", *names], str(tmp_path))
    assert sorted(line.partition("(")[0] for line in found) == sorted(names), found


def test_the_modules_of_both_pages() -> None:
    assert {"front/page/main.js", "front/page/codes.js", "front/admin/admin.js"} <= set(page_types.modules())
