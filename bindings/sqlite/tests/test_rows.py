"""The rows of large documents: each is one item, and LIMIT ends them."""

import json
import os
import subprocess
import sys
import tempfile
import unittest

from support import EXTENSION, Case

# Prints the first row of a query of the document in a file, the megabytes by which it raises the greatest memory of the process, and
# its seconds of the processor.
PROGRAM = """
import json, re, sqlite3, sys, time
def peak():
    return int(re.search("VmHWM:\\s*(\\d+)", open("/proc/self/status").read())[1]) // 1024
db = sqlite3.connect(":memory:")
db.enable_load_extension(True)
db.load_extension(sys.argv[1])
document = open(sys.argv[2], "rb").read()
before, begun = peak(), time.process_time()
print(json.dumps([db.execute(sys.argv[3], (document,)).fetchone(), peak() - before, time.process_time() - begun]))
"""
MEGABYTE = 1 << 20
IS_SANITIZED = "libasan" in os.environ.get("LD_PRELOAD", "")  # memory is not that of a user


class LargeDocuments(Case):
    def measure(self, text, sql):
        """The first row, the megabytes of the document, those that the query takes, and its seconds."""
        with tempfile.NamedTemporaryFile() as file:
            file.write(self.one("jdoc(?)", text))
            file.flush()
            said = subprocess.run([sys.executable, "-c", PROGRAM, EXTENSION, file.name, sql], capture_output=True, text=True, check=True)
            row, more, seconds = json.loads(said.stdout)
            return row, os.path.getsize(file.name) / MEGABYTE, more, seconds

    def takes_at_most(self, limit, megabytes):
        if not IS_SANITIZED:
            self.assertLess(megabytes, limit)

    def test_the_first_of_a_million_items(self):
        text = "[" + ('"' + "x" * 100 + '",') * 999_999 + "1]"
        row, size, more, seconds = self.measure(text, "SELECT key, value FROM jdoc_rows(?, '$[*]') LIMIT 1")
        self.assertEqual(row, [0, "x" * 100])
        self.takes_at_most(4 * size, more)
        self.assertLess(seconds, 10)

    def test_items_that_are_longer_than_their_document(self):
        """The items of 20,001 nested arrays take 1.6 gigabytes one after the other."""
        text = "[" * 20_001 + "]" * 20_001
        row, _, more, _ = self.measure(text, "SELECT count(*), sum(length(doc)) FROM jdoc_rows(?, '$.**')")
        self.assertEqual(row, [20_001, sum(4 + 8 * it for it in range(20_001))])
        self.takes_at_most(50, more)


if __name__ == "__main__":
    unittest.main()
