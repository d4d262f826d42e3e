"""Logs of other tools: one of each format, logs with faults, and words that aren't right."""

import unittest

import selfcheck
from selfcheck import logs

# a lost write, whose process goes on as another caller; a failed compare-and-set; two keys
JEPSEN = """
{:process 0, :type :invoke, :f :write, :value ["x" 1]}
{:process 1, :type :invoke, :f :read, :value ["x" nil]}
{:process :nemesis, :type :info, :f :start, :value nil}
{:process 1, :type :ok, :f :read, :value ["x" 1]}
{:process 0, :type :info, :f :write, :value ["x" 1]}
{:process 2, :type :invoke, :f :cas, :value ["y" [nil 3]]}
{:process 2, :type :ok, :f :cas, :value ["y" [nil 3]]}
{:process 1, :type :invoke, :f :cas, :value ["x" [1 2]]}
{:process 1, :type :fail, :f :cas, :value ["x" [1 2]]}
{:process 0, :type :invoke, :f :read, :value ["x" nil]}
{:process 0, :type :ok, :f :read, :value ["x" 1]}
"""

JSON_LINES = r"""{"process": "a", "type": "invoke", "f": "enqueue", "value": "x, \"y\""}
{"process": "a", "type": "ok", "f": "enqueue", "value": "x, \"y\""}
{"process": "b", "type": "invoke", "f": "enqueue", "value": 7}
{"process": "b", "type": "ok", "f": "enqueue", "value": 7}
{"process": "a", "type": "invoke", "f": "dequeue", "value": null}
{"process": "a", "type": "ok", "f": "dequeue", "value": 7}"""


class Logs(unittest.TestCase):
    def test_jepsen(self):
        x, y = logs.read(JEPSEN, "jepsen", "casreg", keyed=True)
        self.assertEqual((x.key, y.key), ('"x"', '"y"'))
        self.assertEqual((x.names, y.names), (("nil", "1"), ("nil", "3")))
        self.assertEqual(x.calls, ((0, 0, 2, None), (1, 0, 3, 5), (2, 0, 11, 12)))
        self.assertEqual(
            x.book,
            "book 2\nobject casreg\ncallers 3\ncalls 1 1 1\n0 0 write 1\n"
            "1 0 read =1 view 0:1 1:1\n2 0 read =1 view 0:1 1:1 2:1\nend\n",
        )
        self.assertTrue(selfcheck.verify(x.book))
        self.assertEqual(
            x.in_words(x.book), ["caller 0: write 1 (no answer)", "caller 1: read = 1", "caller 2: read = 1"]
        )
        self.assertEqual(y.in_words(y.book), ["caller 0: cas nil 3 yes"])

    def test_json_lines(self):
        (part,) = logs.read(JSON_LINES.encode(), "jsonl", "queue")
        self.assertIsNone(part.key)
        self.assertFalse(selfcheck.verify(part.book))
        self.assertEqual(
            part.in_words(selfcheck.smaller(part.book)),
            [r'caller 0: enq "x, \"y\"" done', "caller 0: deq = 7", "caller 1: enq 7 (no answer)"],
        )

    def test_csv(self):
        log = "begin,done,client,op,value,reply\n10,20,p,put_it,5,\n21,30,q,read,,\n"
        words = {"fields": {"start": "begin", "end": "done"}, "operations": {"put_it": "write"}}
        for error, legal in (None, False), (1, True):
            (part,) = logs.read(log, "csv", "register", error=error, **words)
            self.assertEqual(selfcheck.verify(part.book), legal)
        (part,) = logs.read("start,end,op,value,reply\n1,2,read,,5\n", "csv", "register", initial="5")
        self.assertEqual(part.names, ("5",))
        self.assertTrue(selfcheck.verify(part.book))

    def test_faults(self):
        invoked = "{:process 0, :type :invoke, :f :write, :value 5}\n"
        for rest, what in [
            ("{:process 0", "Line"),
            ("{:type :ok, :f :write, :value 5}", "Process"),
            ("{:process 0, :type :went, :f :write}", "Type"),
            ("{:process 0, :type :ok, :value 5}", "Operation"),
            (invoked, "Pending"),
            ("{:process 1, :type :ok, :f :read}", "Unasked"),
            ("{:process 1, :type :invoke, :f :write}", "Value"),
        ]:
            with self.subTest(rest), self.assertRaises(selfcheck.Refused) as raised:
                logs.read(invoked + rest, "jepsen", "register")
            self.assertEqual((raised.exception.line, raised.exception.what), (2, what))
        for log, kind, said in [
            ("", "map", "refused 1 Header"),
            ("start,end,op,key,reply\n5,4,get,k,\n", "map", "refused 2 Time"),
            ("start,end,op,reply\n1,2,inc,none\n", "counter", "refused 2 Reply"),
        ]:
            with self.subTest(log), self.assertRaises(selfcheck.Refused) as raised:
                logs.read(log, "csv", kind)
            self.assertEqual(str(raised.exception), said)

    def test_a_key_without_a_book(self):
        rows = "".join(f"1,9,{process},write,a,{process},\n" for process in range(17))
        a, b = logs.read(f"start,end,process,op,key,value,reply\n{rows}1,2,0,read,b,,\n", "csv", "register")
        self.assertEqual((a.key, a.book, str(a.refused)), ("a", None, "refused 18 TooMany"))
        self.assertEqual((b.key, b.refused), ("b", None))
        self.assertTrue(selfcheck.verify(b.book))

    def test_words(self):
        header = "start,end,op,value,reply\n"
        self.assertEqual(len(logs.read(header, "csv", "queue")), 1)
        for format, kind, words in [
            ("xml", "queue", {}),
            ("csv", "heap", {}),
            ("csv", "queue", {"operations": {"offer": "push"}}),
            ("csv", "queue", {"fields": {"moment": "t"}}),
            ("csv", "queue", {"initial": "a\n--keyed"}),
        ]:
            with self.subTest(words), self.assertRaises(ValueError) as raised:
                logs.read(header, format, kind, **words)
            self.assertNotIsInstance(raised.exception, selfcheck.Refused)

    def test_bytes_that_are_no_text(self):
        (part,) = logs.read(b"start,end,op,value,reply\n1,2,write,\xff\rx,\n", "csv", "register")
        self.assertEqual(part.names, ("", "\ufffd\rx"))
        self.assertEqual(part.in_words(part.book), ["caller 0: write \ufffd\rx done"])

    def test_a_long_text(self):
        rows = "".join(f"{2 * call},{2 * call + 1},{call % 16},inc,{call}\n" for call in range(16 * 256))
        log = "start,end,process,op,reply\n" + rows
        (part,) = logs.read(log, "csv", "counter")
        self.assertEqual(len(part.calls), 4096)
        self.assertGreater(len(part.book), 2 * len(log))
        self.assertTrue(selfcheck.verify(part.book))


if __name__ == "__main__":
    unittest.main()
