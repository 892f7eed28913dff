#!/usr/bin/env python3
"""test_timeline.py: the pages of tools/timeline.py on every stored event file. DRIVE names the program drive; without it one is built."""
import contextlib
import copy
import html.parser
import io
import os
import pathlib
import random
import re
import subprocess
import sys
import tempfile
import unittest

from timeline import model, page, source

ROOT = pathlib.Path(__file__).resolve().parent.parent
FILES = sorted(path for folder in ("examples", "cases", "cases/rust") for path in (ROOT / folder).glob("*.txt"))
VOID = {"meta", "br", "link", "img", "input", "hr"}


class Page(html.parser.HTMLParser):
    """A page taken apart: its tags in order, each with its attributes and the text inside."""

    def __init__(self, text):
        super().__init__()
        self.open, self.tags, self.faults = [], [], []
        self.feed(text)
        self.close()
        self.faults += [f"<{tag}> is not closed" for tag, _, _ in self.open]

    def handle_starttag(self, tag, attrs):
        entry = (tag, dict(attrs), [])
        self.tags.append(entry)
        if tag not in VOID:
            self.open.append(entry)

    def handle_startendtag(self, tag, attrs):
        self.tags.append((tag, dict(attrs), []))

    def handle_endtag(self, tag):
        if self.open and self.open[-1][0] == tag:
            self.open.pop()
        else:
            self.faults.append(f"</{tag}> closes {self.open[-1][0] if self.open else 'nothing'}")

    def handle_data(self, data):
        for _, _, texts in self.open:
            texts.append(data)

    def having(self, name, value=None):
        """The tags with an attribute, or with a word in it."""
        return [entry for entry in self.tags if name in entry[1] and (value is None or value in (entry[1][name] or "").split())]


def known_of(records):
    """The model of a list of records, and drive's lines."""
    lines = source.ask(program, [record.data for record in records])
    columns = source.columns(records, lines)
    return model.Model(columns, source.states(program, records, columns)), lines


def setUpModule():
    """The page of every file, once."""
    global program, room, made
    program, room = (os.environ["DRIVE"], None) if os.environ.get("DRIVE") else source.build()
    made = {}
    for path in FILES:
        known, lines = known_of(source.read(path))
        text = page.page(known, path.name, 2000)
        made[str(path.relative_to(ROOT))] = (known, lines, text, Page(text))


def of_bytes(data, last=2000):
    """The page of a file of these bytes."""
    with tempfile.TemporaryDirectory() as folder:
        path = pathlib.Path(folder) / "some"
        path.write_bytes(data)
        known, _ = known_of(source.read(path))
    return known, page.page(known, "some", last)


def of_text(text, last=2000):
    """The page of a text of records."""
    return of_bytes(text.encode(), last)


def missing(parsed):
    """The box on top of a page: the calls that it names, and its text."""
    calls = [int(entry[1]["data-call"]) for entry in parsed.having("data-call")]
    return calls, " ".join("".join(parsed.having("class", "missing")[0][2]).split())


class EveryFile(unittest.TestCase):
    """What holds of the page of every stored file."""

    def each(self):
        for name, parts in made.items():
            with self.subTest(name):
                yield parts

    def test_is_well_formed(self):
        for _, _, _, parsed in self.each():
            self.assertEqual(parsed.faults, [])
            ids = [entry[1]["id"] for entry in parsed.having("id")]
            self.assertEqual(len(ids), len(set(ids)))

    def test_needs_nothing_from_outside(self):
        for _, _, text, parsed in self.each():
            self.assertIsNone(re.search(r"https?://", text.replace("http://www.w3.org/2000/svg", "")))
            for tag, attributes, _ in parsed.tags:
                self.assertNotIn("src", attributes)
                self.assertNotEqual(tag, "link")
                self.assertTrue((attributes.get("href") or "#").startswith("#"))
            self.assertIsNone(re.search(r"@import|url\((?!#)", text))

    def test_has_each_record_once(self):
        for known, _, _, parsed in self.each():
            rows = [(int(entry[1]["data-first"]), int(entry[1]["data-last"])) for entry in parsed.having("data-first")]
            self.assertEqual([first for first, _ in rows], [1] + [last + 1 for _, last in rows[:-1]])
            self.assertEqual(rows[-1][1], known.columns[-1].last)

    def test_marks_each_refusal(self):
        for _, lines, text, parsed in self.each():
            rows = [entry[1] for entry in parsed.having("class", "is-refused")]
            self.assertEqual(sum(int(row["data-last"]) - int(row["data-first"]) + 1 for row in rows), len([1 for line in lines if line.startswith("refused ")]))
            drawn = text.partition('id="box"')[2].partition("</svg>")[0]
            self.assertEqual(drawn.count('href="#m-refused"'), len(rows))

    def test_labels_what_can_have_focus(self):
        for known, _, _, parsed in self.each():
            options = parsed.having("role", "option")
            self.assertEqual(len(options), len(known.columns))
            self.assertEqual(len([1 for option in options if option[1]["tabindex"] == "0"]), 1)
            for tag, attributes, texts in parsed.tags:
                if "tabindex" in attributes:
                    self.assertTrue(attributes.get("aria-label"))
                elif tag in ("a", "summary"):
                    self.assertTrue("".join(texts).strip())

    def test_links_lead_somewhere(self):
        for _, _, text, parsed in self.each():
            ids = {entry[1]["id"] for entry in parsed.having("id")}
            self.assertEqual({entry[1]["href"][1:] for entry in parsed.having("href")} - ids, set())
            self.assertEqual(set(re.findall(r"url\(#([\w-]+)\)", text)) - ids, set())

    def test_agrees_with_every_line(self):
        for known, _, _, _ in self.each():
            self.assertEqual(known.doubts, [])

    def test_names_the_calls_of_the_last_wait(self):
        for _, lines, _, parsed in self.each():
            if lines[-1].startswith("waits "):
                words = lines[-1].partition(" steps")[0].split()
                self.assertEqual(missing(parsed)[0], [int(word) for word in words[2:]])

    def test_knows_which_tasks_live(self):
        """A cancel behind a wait, where nothing is ready, is `done 0` of the tasks that the model takes for live, and of no others."""
        asked = {True: 0, False: 0}
        for known, _, _, _ in self.each():
            if len(known.tasks) > 12 or len(known.columns) > 120:
                continue
            data = [source.texts.record(column.text) * (column.last - column.first + 1) for column in known.columns]
            for upto in [at + 1 for at, column in enumerate(known.columns) if (column.line or "").startswith("waits ")]:
                then = model.Model(known.columns[:upto], known.changed[:upto])
                for number in range(1, len(then.tasks) + 1):
                    live = number in then.tasks and then.tasks[number].live
                    asked[live] += 1
                    self.assertEqual(source.ask(program, data[:upto] + [source.texts.record(f"cancel {number}")])[-1] == "done 0", live, f"task {number}")
        self.assertTrue(all(asked.values()), asked)


class Boxes(unittest.TestCase):
    """What is missing."""

    def test_hung_call(self):
        calls, text = missing(made["examples/hung-call.txt"][3])
        self.assertEqual(calls, [1])
        for words in ("The reply to call 1", "place 0 of gather 7", "task 2 (state pension) is blocked on gather 7", "place 1 of gather 3", "main is blocked on gather 3"):
            self.assertIn(words, text)
        self.assertNotIn("task 1 ", text)
        self.assertEqual(made["examples/hung-call.txt"][2].count('<b class="none">no reply yet</b>'), made["examples/hung-call.txt"][2].count('title="call 1: '))

    def test_finished(self):
        calls, text = missing(made["examples/eight-members.txt"][3])
        self.assertEqual(calls, [])
        self.assertIn("finished with list 8", text)
        self.assertIn("16020, 17430, 12790, 20960, 14990, 19340, 10310 and 24480", text)
        self.assertIn("error script 5", missing(Page(of_text("fail 5")[1]))[1])

    def test_other_endings(self):
        self.assertIn("while main runs", missing(Page(of_text("call")[1]))[1])
        self.assertIn("stuck", missing(made["cases/f08-cancel-grandchildren.txt"][3])[1])
        self.assertIn("it is no record", missing(made["cases/f03-one-byte.txt"][3])[1])
        self.assertIn("as soon as the host resumes", missing(Page(of_text("call\npending 0\nawait 0\nresults 0 return plain 1")[1]))[1])
        self.assertIn("There is no record", of_text("")[1])


class Lanes(unittest.TestCase):
    """What the lanes tell."""

    def test_replies_of_eight_members(self):
        known = made["examples/eight-members.txt"][0]
        shapes = {number: [shape for _, shape, _ in call.marks] for number, call in known.calls.items()}
        self.assertEqual(shapes[9], ["made", "future", "late-reply"])
        self.assertEqual(shapes[2], ["made", "reply", "twice"])
        self.assertEqual(shapes[99], ["unknown"])
        self.assertEqual([number for number, found in shapes.items() if found == ["made", "reply"]], [0, 1, 3, 4, 5, 6, 7, 8, 10, 11, 12, 13, 14, 15])

    def test_places_are_filled_with_their_values(self):
        marks = made["examples/by-place.txt"][0].gathers[3].marks
        self.assertEqual([(at + 1, shape, text) for at, shape, text in marks],
                         [(9, "place 2", "plain 18450"), (11, "completed", ""), (11, "place 0", "plain 52000"), (11, "place 1", "plain 175")])

    def test_ends_of_tasks(self):
        self.assertEqual([task.ending for task in made["cases/f12-first-start-wakes.txt"][0].tasks.values()], ["", "completed", "died", "completed"])
        self.assertEqual([task.ending for task in made["cases/f08-cancel-grandchildren.txt"][0].tasks.values()], ["", "cancelled", "cancelled", "cancelled"])


    def test_cancels_tell_who_was_ready(self):
        parsed = made["cases/n08-children.txt"][3]
        said = " ".join(" ".join(texts) for tag, _, texts in parsed.tags if tag in ("p", "li"))
        for words in ("none of the removed tasks was ready.", "1 of the removed tasks was ready.", "2 of the removed tasks were ready.",
                      "Task 10 is cancelled; it was ready.", "Task 11 is cancelled."):
            self.assertIn(words, said)

    def test_doubts_a_wrong_count(self):
        known = made["cases/p12.txt"][0]
        for line, doubts in (("done 1", 0), ("done 0", 1), ("done 2", 1), ("done", 1)):
            columns = [copy.copy(column) for column in known.columns]
            columns[14].line = line
            self.assertEqual(len(model.Model(columns, known.changed).doubts), doubts, line)


class Input(unittest.TestCase):
    """What the tool takes."""

    def test_bytes_are_read_as_their_text(self):
        text = ROOT / "examples/late-rate.txt"
        with tempfile.TemporaryDirectory() as folder:
            path, out = pathlib.Path(folder) / "late.bin", pathlib.Path(folder) / "late.html"
            path.write_bytes(b"".join(record.data for record in source.read(text)))
            subprocess.run([sys.executable, str(ROOT / "tools/timeline.py"), str(path), "-o", str(out), "--drive", str(program)], check=True, stdout=subprocess.DEVNULL)
            known, _ = known_of(source.read(path))
            self.assertIn("finished with list 2", out.read_text())
        self.assertEqual([(column.text, column.line) for column in known.columns], [(column.text, column.line) for column in made["examples/late-rate.txt"][0].columns])

    def test_an_answer_that_differs_is_told(self):
        self.assertIn("the file says: <code>call 7</code>", of_text("call => call 7")[1])
        self.assertNotIn("the file says", made["cases/run-calls.txt"][2])

    def test_comments_are_text(self):
        self.assertNotIn("<i>", of_text("coroutine 1 # <i>x</i>\ngather 0\nawait 1")[1])

    def test_only_the_last_columns_are_drawn(self):
        known, text = of_text("coroutine 1\n" * 30 + "call\npending 0\nawait 30", 5)
        rows = Page(text).having("data-first")
        self.assertEqual((rows[0][1]["data-last"], len(rows)), ("28", 6))
        self.assertEqual(missing(Page(text))[0], [0])
        self.assertNotIn('href="#c1"', of_text("call\npending 0\nawait 0\n" + "resume\n" * 3, 2)[1])

    def test_bytes_of_raw_are_the_records_that_drive_reads(self):
        """`raw` with two records, with none, with parts of one: no later line is shifted."""
        known, _ = of_text("raw c35902c35902 => call 1 # two\nraw\ncoroutine 3\nraw c359\nraw 02\nawait 0 => made 9")
        self.assertEqual([(column.text, column.line.partition(" steps")[0], column.stored, column.note) for column in known.columns],
                         [("call", "call 0", None, "two"), ("call", "call 1", "call 1", "two"), ("coroutine 3", "made 0", None, ""),
                          ("call", "call 2", None, ""), ("await 0", "runs 0 inline 0", "made 9", "")])

    def test_a_pending_with_unread_bytes_is_no_damage(self):
        known, _ = of_text("call\nraw c35903 00000000 00 01 0000000000000000\nawait 0")
        self.assertEqual([column.line.split()[0] for column in known.columns], ["call", "made", "waits"])


class Damage(unittest.TestCase):
    """Bytes that are no record: drive stops there, and the page with it."""

    def test_what_is_behind_them_is_not_drawn(self):
        whole = b"".join(record.data for record in source.read(ROOT / "examples/hung-call.txt"))
        known, text = of_bytes(whole + b"\xc3\x58" + bytes(12000))
        count = len(made["examples/hung-call.txt"][0].columns)
        self.assertEqual((len(known.columns), known.columns[-1].text, known.columns[-1].line), (count + 1, "raw c3 58", "refused 11"))
        calls, box = missing(Page(text))
        self.assertEqual(calls, [1])
        for words in ("The rest of the file", f"stopped at record {count + 1}: it is no record", "Not read: 12,000 bytes", "Missing up to there: the reply to call 1."):
            self.assertIn(words, box)
        self.assertNotIn("No line", text)

    def test_a_damaged_start_is_told(self):
        for data in (b"\xc3\x58\x02\xc3\x59\x02", b"\xff" * 5, bytes(5)):
            said = io.StringIO()
            with contextlib.redirect_stderr(said):
                known, text = of_bytes(data)
            self.assertEqual([column.line for column in known.columns], ["refused 11"])
            self.assertIn("stopped at record 1: it is no record", missing(Page(text))[1])
            self.assertIn("does not begin with the mark", said.getvalue())

    def test_it_is_told_behind_a_finish(self):
        text = of_text("complete plain 1\nraw c358 => refused 11\ncall => call 0")[1]
        box = missing(Page(text))[1]
        self.assertIn("the session finished with 1", box)
        self.assertIn("Behind that drive stopped at record 2: it is no record (refusal 11). Not read: 3 bytes behind it.", box)
        self.assertNotIn("missing well", text)
        self.assertNotIn("the file says", text)
        self.assertIn("the file says: <code>done</code>", of_text("complete plain 1\nraw c35801020304 => done")[1])
        self.assertNotIn("Behind that", missing(made["examples/eight-members.txt"][3])[1])

    def test_there_is_a_line_for_each_record(self):
        """Bytes changed or cut in a hundred ways: the records are those that drive finds."""
        chance = random.Random(17)
        whole = b"".join(record.data for record in source.read(ROOT / "examples/eight-members.txt"))
        for _ in range(100):
            data = bytearray(whole[:chance.randrange(2, len(whole))])
            for at in chance.sample(range(2, len(data)), min(chance.randrange(3), len(data) - 2)):
                data[at] = chance.choice([0, 1, 2, 9, 0x59, 0xc3, 255])
            found = source.read_bytes(bytes(data))
            self.assertEqual(len(source.ask(program, [bytes(data)])), len(found), data.hex())
            self.assertEqual(b"".join(record.data for record in found), data)


class Complaints(unittest.TestCase):
    """What cannot be done is said in one line, without a traceback."""

    def run_tool(self, *words):
        run = subprocess.run([sys.executable, *map(str, words)], cwd=ROOT / "tools", capture_output=True, text=True)
        self.assertEqual(len(run.stderr.splitlines()), 1, run.stderr)
        return run.returncode, run.stderr

    def test_a_repeat_without_a_number(self):
        with tempfile.TemporaryDirectory() as folder:
            path, out = pathlib.Path(folder) / "some.txt", pathlib.Path(folder) / "some.html"
            path.write_text("call\nrepeat x call\n")
            for words in (["records.py", "bytes", path], ["timeline.py", path, "--drive", program, "-o", out]):
                self.assertEqual(self.run_tool(*words), (1, f"{path}, line 2: 'repeat x call' is no record (repeat needs a number from 1 on, not 'x')\n"))
            self.assertFalse(out.exists())
        for line in ("repeat 0 call", "repeat -1 call", "repeat 5", "repeat call"):
            with self.assertRaisesRegex(SystemExit, f"line 1: '{line}' is no record"):
                of_text(line)
        self.assertEqual(of_text("repeat 3 call")[0].handed, 3)

    def test_what_is_missing(self):
        with tempfile.TemporaryDirectory() as folder:
            absent, there, out = pathlib.Path(folder) / "absent", ROOT / "examples/late-rate.txt", pathlib.Path(folder) / "out.html"
            for words in ([absent], [there, "--drive", absent], [there, "--drive", program, "-o", absent / "out.html"]):
                code, said = self.run_tool("timeline.py", "-o", out, *words)
                self.assertEqual(code, 2)
                self.assertIn(f"timeline: {words[-1]}: No such file or directory", said)
            self.assertEqual(self.run_tool("timeline.py", "-o", out, there, "--drive", "false"), (2, "timeline: false ended with 1\n"))
            self.assertFalse(out.exists())


if __name__ == "__main__":
    unittest.main()
