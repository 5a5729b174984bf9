#!/usr/bin/env python3
"""Runs each recipe of examples/README.md in a shell, in one folder, one after another, and compares what it prints with what stands
below it. It needs `jq`; where there is none it says so and tries none. Usage: recipes.py [PROGRAM]   (PROGRAM as `rt run` left
it, unless another is named)"""
import os
import re
import shutil
import subprocess
import sys
import tempfile

sys.dont_write_bytecode = True

from program import PROGRAM, SCRIPTS

PAGE = f"{SCRIPTS}/../examples/README.md"
RECIPE = re.compile(r"^```sh\n(.*?)^```\n\n```\n(.*?)^```$", re.MULTILINE | re.DOTALL)


def main():
    if shutil.which("jq") is None:
        print("recipes: there is no jq here, and no recipe was tried", flush=True)
        return
    with open(PAGE, encoding="utf-8") as page:
        recipes = RECIPE.findall(page.read())
    assert recipes, "the page has no recipes"
    with tempfile.TemporaryDirectory() as top:
        os.mkdir(f"{top}/bin")
        os.symlink(PROGRAM, f"{top}/bin/pulsar_txn")
        there = {**os.environ, "PATH": f"{top}/bin:{os.environ['PATH']}"}
        for recipe, wanted in recipes:
            done = subprocess.run(["bash", "-ec", recipe], cwd=top, env=there, capture_output=True, text=True, timeout=60)
            assert (done.stdout, done.stderr) == (wanted, ""), f"{recipe}printed {done.stdout!r} and {done.stderr!r}, wanted {wanted!r}"
    print(f"recipes: {len(recipes)} print what the page says", flush=True)


main()
