"""Each document keeps the rules of its name, and has the transcript of its name, by the command virraupez of the path."""
import pathlib
import subprocess

import pytest

HERE = pathlib.Path(__file__).parent


@pytest.mark.parametrize("document", sorted(HERE.glob("*.json")), ids=lambda it: it.stem)
def test_behaviour(document):
    words = ["virraupez", "check", document, "--rules", document.with_suffix(".rules"), "--golden", document.with_suffix(".txt")]
    ran = subprocess.run(words, stdout=subprocess.PIPE, stderr=subprocess.STDOUT)
    if ran.returncode:
        pytest.fail(ran.stdout.decode(), pytrace=False)
