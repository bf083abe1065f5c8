"""The modules of page/ without a browser: that each can be read, and what the pure ones do, by the tests in tests/page. They need `node`."""
from __future__ import annotations

import re
import shutil
import subprocess

from tests.support.cases import CountedTestCase
from tests.support.program import SECONDS, TOP
from tests.support.pages import page_tool


class Modules(CountedTestCase):
    """The modules of the script. Where there is no node its tests are left out, and the module says so."""

    def run_node(self, *words: str) -> subprocess.CompletedProcess[str]:
        """Runs node, or leaves the test out where it isn't there."""
        node = shutil.which("node")
        if not node:
            self.leave_out("the modules of page/", "there is no node")
            self.skipTest("there is no node")
        return subprocess.run([node, *words], cwd=TOP, capture_output=True, text=True, timeout=SECONDS, stdin=subprocess.DEVNULL)

    def test_each_module_can_be_read(self) -> None:
        for name in (it for modules in page_tool.SCRIPTS.values() for it in modules):
            ran = self.run_node("--check", f"page/{name}.js")
            self.check(name, (ran.returncode, ran.stderr), (0, ""))

    def test_modules_can_be_read_as_scripts(self) -> None:
        node = self.run_node("--version")
        assert node.returncode == 0
        texts = {name: page_tool.joined_script(name) for name in page_tool.SCRIPTS}
        for name, text in {**texts, "all, which share their names": "\n".join(texts.values())}.items():
            script = subprocess.run(
                [shutil.which("node") or "", "--check", "-"], input=text, capture_output=True, text=True, timeout=SECONDS,
            )
            self.check(name, (script.returncode, script.stderr), (0, ""))

    def test_pure_modules_do_as_their_tests_say(self) -> None:
        files = sorted(str(it.relative_to(TOP)) for it in (TOP / "tests/page").glob("*.mjs"))
        ran = self.run_node("--test", *files)
        passed = re.search(r"^# pass (\d+)$", ran.stdout, re.M)
        self.check("the tests", ran.returncode, 0)
        self.check_true(f"what they say: {ran.stdout[-3000:]}", ran.returncode == 0 and passed and int(passed.group(1)) >= len(files))
