"""Tests that the page's server runs tests on this processor for the page, and for nobody else.

    python3 tools gate.test_seen_here, or in tools/ python3 -m unittest gate.test_seen_here

The server is started in this process, and asked as the page asks it. A run needs a C compiler, objdump and the processor of tools/on_machine.py;
without them the answer has to be the reason. tools/check_documents.py calls all this (tools/gate/cases.py); the page's own
part is tried in a browser (tools/gate/browser/seen_here.py).
"""
from __future__ import annotations

import http.client
import json
import os
import shutil
import socket
import sys
import tempfile
import threading
import unittest
from typing import Any
from unittest import mock

from gate import cases
from gate.examples import read
from page import web_runs
from page.web_server import Server

SB = read("examples/SB-x86.litmus")


class Served(cases.Case):
    """A server of the page."""

    server: Server

    @classmethod
    def setUpClass(cls) -> None:
        """Starts a server."""
        listening = socket.socket()
        listening.bind(("127.0.0.1", 0))
        listening.listen(8)
        cls.addClassCleanup(listening.close)
        cls.server = Server(listening, {}, web_runs.Runs())
        cls.addClassCleanup(cls.server.runs.end_all)
        threading.Thread(target=cls.server.serve, daemon=True).start()

    def ask_server(self, question: object, **headers: str) -> tuple[int, dict[str, Any]]:
        """Returns the status and the object that the server answers."""
        own = f"http://127.0.0.1:{self.server.port}"
        connection = http.client.HTTPConnection("127.0.0.1", self.server.port, timeout=60)
        connection.request("POST", "/machine", json.dumps(question), {"Content-Type": "application/json", "Origin": own, **headers})
        answer = connection.getresponse()
        return answer.status, json.loads(answer.read())

    @unittest.skipUnless(shutil.which("cc") and shutil.which("objdump"), "cc or objdump is missing")
    def test_run(self) -> None:
        """A test is run, and each state that was seen says whether it is listed; a source test has its own names."""
        for name, states in (("SB-x86", 4), ("MP", 3)):
            status, answer = self.ask_server({"text": read(f"examples/{name}.litmus"), "seconds": 1})
            with self.subTest(name):
                self.assertEqual((200, states, [], name), (status, answer["listed"], answer["not_listed"], answer["name"]))
                self.assertEqual(states, len(answer["seen"]) + len(answer["not_seen"]))
                self.assertTrue(answer["runs"] > 0 and all(it["count"] > 0 and it["listed"] for it in answer["seen"]))

    def test_no_run(self) -> None:
        """Why nothing is run comes back: the text is none, or there is no compiler."""
        status, answer = self.ask_server({"text": "X86 A", "seconds": 1})
        self.assertEqual((500, True), (status, answer["error"].startswith("The test was not run on this machine: -:1:6: ")))
        with tempfile.TemporaryDirectory(prefix="lw-bin-") as bin:
            for command in filter(shutil.which, ("sh", "setpriv")):
                os.symlink(str(shutil.which(command)), f"{bin}/{command}")
            with mock.patch.dict(os.environ, PATH=bin):
                status, answer = self.ask_server({"text": SB, "seconds": 1})
        self.assertEqual((500, True), (status, "on_machine: there is no objdump" in answer["error"]))

    def test_refused(self) -> None:
        """A request that is not the page's is refused, and nothing is run."""
        with mock.patch.object(web_runs.Runs, "run_on_machine", side_effect=AssertionError):
            for request in ({"text": SB}, {"text": SB, "seconds": 0}, {"text": SB, "seconds": 11}, {"text": SB, "seconds": "1"}):
                self.assertEqual(400, self.ask_server(request)[0])
            self.assertEqual(403, self.ask_server({"text": SB, "seconds": 1}, Origin="http://another.example")[0])
            # (A compiler would quote words of the file.)
            including = 'C A\n{}\nP0 (int *x) {\n#include "/etc/passwd"\n}\nexists (x=1)\n'
            for text in (including, "(* A. *)\n" + including):
                self.assertEqual(400, self.ask_server({"text": text, "seconds": 1})[0])


if __name__ == "__main__":
    sys.exit(cases.main())
