"""The page of `site/` in a Chromium ($CHROMIUM, or one on the path)."""
import os

import pytest

from running import TOP, leave_out, needs, run

CHROMIUM = "chromium|chromium-browser|google-chrome|google-chrome-stable"


@pytest.mark.parametrize("bits", ["64", "32"])
def test_page(bits, tmp_path, request):
    """With each module of the library, and without flags, so this browser must accept it."""
    needs("node 20")
    chromium = os.environ.get("CHROMIUM") or needs(CHROMIUM)
    pictures = request.config.getoption("--pictures") or tmp_path
    test = TOP / "tests/site/test.mjs"
    said = run("node", test, bits, chromium, pictures.resolve(), cwd=tmp_path)
    if "has no 64-bit memories" in said:
        leave_out("the Chromium has no 64-bit memories")
