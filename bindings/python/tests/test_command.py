"""The command line: its results, its exit status and its messages for rows that are errors."""

import contextlib
import os
import signal
import subprocess
import sys
import tempfile
import time
import unittest

from jsonb_paths import dumps

PEOPLE = '{"name":"Ann","age":31}\n{"name":"Bob","age":47.5,"tags":["x",null]}\n'
PROGRAM = [sys.executable, "-m", "jsonb_paths"]


def run(*words, text=PEOPLE):
    ran = subprocess.run([*PROGRAM, *words], input=text.encode("utf-8", "surrogateescape"), capture_output=True)
    return ran.returncode, ran.stdout.decode(), ran.stderr.decode(errors="replace")


def read_terminal(terminal):
    """What was written to a terminal, or nothing at its end."""
    try:
        return os.read(terminal, 4096).decode()
    except OSError:
        return ""


class Commands(unittest.TestCase):
    def test_a_path_above_its_limit_is_an_error_of_the_row(self):
        status, out, said = run("select", "--path-limit", "5", "$[*]", text="[1,2,3]\n[1]\n")
        self.assertEqual((status, out), (5, "1\n"))
        self.assertIn("-:1: LimitExceeded: ", said)

    def test_results_and_exit_status(self):
        for words, text, status, expected in [
            (["select", "$.name"], PEOPLE, 0, '"Ann"\n"Bob"\n'),
            (["select", "-r", "$.name"], PEOPLE, 0, "Ann\nBob\n"),
            (["select", "$.tags[*]"], PEOPLE, 0, '"x"\nnull\n'),
            (["select", "-e", "$.tags[*]"], PEOPLE, 1, '"x"\nnull\n'),
            (["select", "-e", "$.none"], PEOPLE, 4, ""),
            (["select", "$.none"], PEOPLE, 0, ""),
            (["select", "--strict", "$.name"], PEOPLE, 0, '"Ann"\n"Bob"\n'),
            (["select", "$[*]", "--limit", "2"], "[1,2]\n[3]\n", 0, "1\n2\n"),
            (["exists", "--path-limit", "6", "$[*]"], "[1,2,3]\n[]\n", 0, "true\nfalse\n"),
            (["filter", "$.age > 40"], PEOPLE, 0, '{"age":47.5,"name":"Bob","tags":["x",null]}\n'),
            (["filter", "$.name == $who", "--arg", "who", 'Ann'], PEOPLE, 0, '{"age":31,"name":"Ann"}\n'),
            (["filter", '$.name == $who && "$who" != $.name', "--arg", "who", 'A"nn'], '{"name":"A\\"nn"}', 0, '{"name":"A\\"nn"}\n'),
            (["match", "$.age > $least", "--argjson", "least", "40"], PEOPLE, 0, "false\ntrue\n"),
            (["get", "{age}"], PEOPLE, 0, "31\n47.5\n"),
            (["exists", "$.tags"], PEOPLE, 0, "false\ntrue\n"),
            (["match", "$.age > 40"], PEOPLE, 0, "false\ntrue\n"),
            (["match", "-e", "$.name > 40"], PEOPLE, 1, "null\nnull\n"),
            (["contains", '{"name":"Ann"}'], PEOPLE, 0, "true\nfalse\n"),
            (["delete", "{tags}"], PEOPLE, 0, '{"age":31,"name":"Ann"}\n{"age":47.5,"name":"Bob"}\n'),
            (["keys", "--limit", "1"], PEOPLE, 0, '["age","name"]\n'),
            (["set", "{age}", '[1.50]', "--limit", "1"], PEOPLE, 0, '{"age":[1.50],"name":"Ann"}\n'),
            (["set", '{address, "zip code"}', "1", "--limit", "1"], PEOPLE, 0, '{"address":{"zip code":1},"age":31,"name":"Ann"}\n'),
            (["set", "{a,b,c}", "2"], '{"a":{"b":{"d":1}}}', 0, '{"a":{"b":{"c":2,"d":1}}}\n'),
            (["insert", "{new}", "null", "--limit", "1"], PEOPLE, 0, '{"age":31,"name":"Ann","new":null}\n'),
            (["key"], "1", 0, '"00048103e90200"\n'),
            (["key", "--wide"], "1", 0, '"0000048103e90200"\n'),
            (["sort"], '[2]\n"a"\n10\n9.5\nnull', 0, '9.5\n10\n"a"\n[2]\nnull\n'),
            (["get", "{a}"], '{"a":\n  1.50}\n\n[2,\n3]\n{"a":"é"}', 0, '1.50\n"é"\n'),
            (["get", "-e", "{a}"], "", 4, ""),
            (["get", "{a}"], '\ufeff{"a":1}\r\n{"a":2}\r\n', 0, "1\n2\n"),
            (["get", "{a}"], '\ufeff\n{"a":\n1}', 0, "1\n"),
            (["select", "--", "-$"], "5", 0, "-5\n"),
            (["--help"], "", 0, None),
            (["select", "--help"], "", 0, None),
        ]:
            with self.subTest(words=words):
                got = run(*words, text=text)
                self.assertEqual((got[0], expected if expected is None else got[1], got[2]), (status, expected, ""))

    def test_hexadecimal(self):
        document = "80000001200000025001"
        self.assertEqual(run("select", "--hex", "$[0]", text=document), (0, "20000000200000025001\n", ""))
        self.assertEqual(run("key", "--hex", text=document)[1], "000701048103e90200\n")
        self.assertEqual(run("select", "--hex", "-e", "$[0]", text=dumps([False]).hex())[:2], (1, dumps(False).hex() + "\n"))
        status, out, said = run("exists", "--hex", "$[0]", text=f"{document}\nxyz\n800000\n{document.upper()}\n")
        self.assertEqual((status, out), (5, "true\ntrue\n"))
        self.assertIn("-:2: InvalidJsonb", said)
        self.assertIn("-:3: InvalidJsonb", said)

    def test_rows_that_are_errors_are_named_and_the_others_have_results(self):
        text = '{"a":1}\n{"a":1e999}\n{"a":\n{"a":NaN}\n{"a":1,"a":2}\n{"a":"\\ud800"}\n\udcff\n{"a":1e%s}\n{"a":2}\n' % ("9" * 30)
        status, out, said = run("get", "{a}", text=text)
        self.assertEqual((status, out), (5, "1\n2\n"))
        for line, word in [(2, "UnsupportedNumber"), (3, "InvalidJson"), (4, "InvalidJson"), (5, "ObjectDuplicateKey"), (6, "NotUtf8"), (7, "InvalidJson"),
                           (8, "UnsupportedNumber")]:
            self.assertRegex(said, rf"-:{line}: {word}: ")
        self.assertIn('    {"a":1e999}\n', said)
        self.assertNotIn("Traceback", said)

    def test_what_it_shows_of_a_row(self):
        status, _, said = run("select", "$", text="[1,\x1b[31m%s\n2\n" % ("x" * 10_000))
        self.assertEqual(status, 5)
        self.assertNotIn("\x1b", said)
        self.assertLess(len(said), 1000)

    def test_files_are_named_and_left_as_they_are(self):
        with tempfile.TemporaryDirectory() as folder:
            file = os.path.join(folder, "people.json")
            with open(file, "w") as out:
                out.write('[\n {"age": 1},\n oops\n]')
            self.assertRegex(run("select", "$", file)[2], rf"{file}:3: InvalidJson: byte 16: ")
            with open(file) as kept:
                self.assertEqual(kept.read(), '[\n {"age": 1},\n oops\n]')
            self.assertEqual(run("select", "$", os.path.join(folder, "none"))[0], 2)
            self.assertEqual(run("select", "$", folder)[0], 2)

    def test_long_input_comes_in_blocks(self):
        rows = 60_000
        text = "".join(f'{{"row":{it},"text":"{"x" * 100}"}}\n' for it in range(rows)).replace('"row":59999', '"row":!')
        status, out, said = run("get", "{row}", text=text)
        self.assertEqual((status, out), (5, "".join(f"{it}\n" for it in range(rows - 1))))
        self.assertIn(f"-:{rows}: InvalidJson", said)

    def test_wrong_words(self):
        for words, status in [([], 2), (["other"], 2), (["select"], 2), (["select", "$["], 3), (["get", "{"], 3), (["contains", "{"], 2), (["contains", "5", "--hex"], 2),
                              (["contains", '{"a":1,"a":2}'], 2), (["contains", "[" * 2000], 2), (["select", "\udcff"], 3), (["select", "$.a == $b"], 3),
                              (["select", "$", "--argjson", "a", "[1]"], 2), (["select", "$", "--argjson", "a", "x"], 2), (["set", "{a,0}", "1"], 3), (["set", "{}", "1"], 3),
                              (["select", "$", "--limit", "x"], 2), (["select", "$", "--limit", "-1"], 2), (["select", "$", "--none"], 2)]:
            got = run(*words)
            self.assertEqual((got[0], got[1]), (status, ""), words)
            self.assertTrue(got[2])
            self.assertNotIn("Traceback", got[2])

    def test_a_path_that_is_not_a_predicate(self):
        """Steps and arithmetic, with any input."""
        for command in ("filter", "match"):
            for path, text in [("$.age", PEOPLE), ("$.age", ""), ("$", PEOPLE), ("", PEOPLE), ("true", PEOPLE), ("$?(@.age > 40)", PEOPLE),
                               ("$.age + 1", '{"age":1}'), ("$.age + 1", ""), ("-$.none", PEOPLE), ("+$.age", PEOPLE), ("$ - 1", "null\n5\n")]:
                with self.subTest(command=command, path=path):
                    status, out, said = run(command, "--", path, text=text)
                    self.assertEqual((status, out), (3, ""))
                    self.assertIn(f"{command} takes a predicate, such as $.age > 40, not {path}\n", said)
            for path, text in [("$.none > 1", PEOPLE), ("$.name > 1", PEOPLE), ("($.age > 99)", PEOPLE), ("exists($.none)", PEOPLE), ("null == 1", "null"),
                               ("$.a == null && $.b > 1", '{"a":null,"b":"x"}\n')]:
                with self.subTest(command=command, path=path):
                    status, out, said = run(command, path, text=text)
                    self.assertEqual((status, out.count("\n"), said), (0, text.count("{") or 1, "") if command == "match" else (0, 0, ""))

    def test_a_fraction_in_a_path(self):
        got = run("filter", "$.price > 9.99")
        self.assertEqual(got, (3, "", "InvalidJsonPath: byte 11: not a JSON path such as $.a[0]: numbers in a path are integers: '$.price > 9.99'\n"))

    def test_documents_of_the_wrong_type_are_named(self):
        for words, text, said in [
            (["delete", "{a}"], "5", "InvalidJsonType: the value has the wrong type: delete: expected an array or an object, found integer"),
            (["keys"], "[1]", "InvalidObject: the value is not an object: keys: expected an object, found array"),
            (["set", "{a}", "1"], '"x"', "InvalidObject: the value is not an object: set: expected an object, found string"),
            (["insert", '{a,"b c",d}', "1"], '{"a":{"b c":[]}}', 'InvalidObject: the value is not an object: insert: expected an object at {a,"b c"}, found array'),
        ]:
            got = run(*words, text=text)
            self.assertEqual(got, (5, "", f"-:1: {said}\n    {text}\n"), words)

    def test_a_key_that_is_there_is_not_inserted(self):
        self.assertRegex(run("insert", "{age}", "1")[2], "-:1: ObjectDuplicateKey(.|\n)*-:2: ObjectDuplicateKey")


class Streams(unittest.TestCase):
    def test_streams_that_are_closed_or_full(self):
        for shell, status in [(">&-", 2), ("<&-", 2), (">/dev/full", 2), ("2>/dev/full", 0)]:
            line = f'printf "1\\n" | {{ "{sys.executable}" -m jsonb_paths select "$" {shell}; }}'
            ran = subprocess.run(line, shell=True, capture_output=True)
            self.assertEqual(ran.returncode, status, shell)
            self.assertNotIn(b"Traceback", ran.stderr)
        line = f'printf "1\\n[\\n2\\n" | {{ "{sys.executable}" -m jsonb_paths select "$" 2>/dev/full; }}'
        self.assertEqual(subprocess.run(line, shell=True, capture_output=True).returncode, 5)

    def test_a_reader_that_has_enough(self):
        line = f'yes "[1]" | head -n 200000 | {{ "{sys.executable}" -m jsonb_paths select "$[*]"; }} | head -n 1'
        self.assertEqual(subprocess.run(line, shell=True, capture_output=True).stdout, b"1\n")

    def test_an_interrupt_ends_it(self):
        with subprocess.Popen([*PROGRAM, "select", "$"], stdin=subprocess.PIPE, stdout=subprocess.DEVNULL, stderr=subprocess.PIPE) as ran:
            ran.stdin.write(b"1\n" * 3_000_000)  # more than a block, so that it has begun
            os.kill(ran.pid, signal.SIGINT)
            with contextlib.suppress(BrokenPipeError):
                ran.stdin.close()
            self.assertEqual((ran.wait(60), ran.stderr.read()), (-signal.SIGINT, b""))

    def test_a_long_input_on_a_terminal_has_a_bar(self):
        try:
            import tqdm
        except ImportError:
            self.skipTest("tqdm is not installed (apt-get install python3-tqdm)")
        with tempfile.TemporaryDirectory() as folder:
            file = os.path.join(folder, "long.jsonl")
            with open(file, "w") as out:
                out.write('{"text":"%s"}\n' % ("x" * 500) * 10000)
            terminal, other = os.openpty()
            with subprocess.Popen([*PROGRAM, "select", "$.none", file], stdout=subprocess.DEVNULL, stderr=other) as ran:
                os.close(other)
                said = "".join(iter(lambda: read_terminal(terminal), ""))
            os.close(terminal)
        self.assertEqual(ran.returncode, 0)
        self.assertRegex(said, r"\d%.*/5\.\d+M")

    def test_duplicate_keys_take_linear_time(self):
        keys = ",".join(f'"k{it}":1' for it in range(200_000))
        start = time.monotonic()
        self.assertEqual(run("keys", text='{%s,"k7":2}\n' % keys)[0], 5)
        self.assertLess(time.monotonic() - start, 60)


if __name__ == "__main__":
    unittest.main()
