"""Replies as JSON, and walks over all pages."""

from tests.support.csictl import CONTROLLER, CREATE, Line, READY, VOL_1, call, entry, ok, refusal, run, text
from tests.support.data import tables
from tests.support.frames import MODE_NAMES
from tests.support.peers import CLOSED, Pages, Peer
from tests.support.rows import CsictlTest, each
from tests.test_csictl_show import PAGE


def entry_in_json(number):
    return ('{"status":{"publishedNodeIds":[]},'
            '"volume":{"accessibleTopology":[{"segments":{"zone":"a"}}],"capacityBytes":"1048576",'
            '"volumeContext":{"pool":"p1"},"volumeId":"vol-%d"}}' % number)


def numbered(names, form):
    """Returns the text `form` for each name. NN becomes the position of the name in the list, counted from 0,
    in hexadecimal, and NAME becomes the name."""
    return [form.replace("NN", "%02x" % number).replace("NAME", name) for number, name in enumerate(names)]


def asked_of(connections):
    """Returns the calls of a walk over pages of one entry, as a list for each connection. `connections` has
    what the server does at each call. After CLOSED the same page is asked for again."""
    tokens, wanted = iter(["", "120131", "120132"]), []
    token = next(tokens)
    for deeds in connections:
        wanted.append([])
        for deed in deeds:
            wanted[-1].append(call(CONTROLLER + "ListVolumes", "0801" + token))
            if deed is not CLOSED:
                token = next(tokens, "")
    return wanted


ROWS = tables("csictl_json", globals())


class JsonTest(CsictlTest):
    def call_json(self, method, reply, **streams):
        """Makes a call by csictl that gets this reply. Returns the output, the errors and the status."""
        peer = Peer(self.folder, [reply])
        words = ["call", "--json", "--socket", peer.path, "--method", method]
        came = run([self.csictl, *words], input=b"", **streams)
        peer.end()
        return came

    @each(ROWS["JSON"])
    def test_reply_is_one_line(self, name, method, reply, line):
        self.assertEqual(text(self.call_json(method, reply)), (line + "\n", "", 0))

    def test_refusal_is_an_object(self):
        came = self.call_json("Probe", refusal(5, "volume not found"))
        self.assertEqual(text(came), ('{"code":5,"message":"volume not found"}\n', "", 1))

    def test_body_that_is_no_response_is_reported(self):
        line = "csictl: the body is no response of the method\n"
        self.assertEqual(text(self.call_json("Probe", ok("0a"))), ("", line, 3))

    def test_full_output_is_reported(self):
        with open("/dev/full", "wb") as full:
            came = self.call_json("Probe", READY, stdout=full)
        self.assertEqual(came, (None, Line("csictl: standard output: "), 5))


class WalkTest(CsictlTest):
    def walk(self, connections, *words):
        """Returns the output, the errors and the status of csictl, with PATH for the socket, and the calls of
        each connection."""
        pages = Pages(self.folder, connections)
        words = ["call", "--all", "--socket", pages.path, "--method", "ListVolumes", *words]
        out, error, status = text(run([self.csictl, *words], input=b""))
        return (out, error.replace(pages.path, "PATH"), status), pages.end()

    @each(ROWS["WALKS"])
    def test_each_page_is_asked_for_and_shown(self, name, words, connections, out, reasons, last, status):
        error = "".join("csictl: PATH: %s: try 2 of 2\n" % why for why in reasons) + last
        came, asked = self.walk(connections, "--max", "1", *words)
        self.assertEqual(came, (out, error, status))
        self.assertEqual(asked, asked_of(connections))

    # In the first test, the token and the six bytes before it are a message of 1,048,576 bytes, the most that
    # a frame holds. In the second test the token is a byte longer.

    def test_longest_token_is_sent(self):
        token = "12faff3f" + "61" * 1048570
        came, asked = self.walk([[ok(token), ok("")]], "--json", "--timeout", "10", "--max", "1")
        self.assertEqual(came, ('{"entries":[],"nextToken":""}\n', "", 0))
        calls = [call(CONTROLLER + "ListVolumes", "0801" + it) for it in ("", token)]
        self.assertTrue(asked == [calls])

    def test_longer_token_is_refused(self):
        token = "12fbff3f" + "61" * 1048571
        came, asked = self.walk([[ok(token)]], "--json", "--timeout", "10", "--max", "1")
        self.assertEqual(came, ("", "csictl: the message has more than 1048576 bytes\n", 2))
        self.assertEqual(asked, [[call(CONTROLLER + "ListVolumes", "0801")]])

    def test_102_pages_are_walked(self):
        tokens = ["12%02x%s" % (len(str(number)), str(number).encode().hex()) for number in range(1, 102)]
        came, asked = self.walk([[ok(token) for token in tokens] + [ok("")]], "--json")
        self.assertEqual(came, ('{"entries":[],"nextToken":""}\n', "", 0))
        self.assertEqual(asked, [[call(CONTROLLER + "ListVolumes", token) for token in ["", *tokens]]])

    def test_walk_begins_at_the_given_token(self):
        asked = self.walk([[ok(entry(3))]], "--token", "2")[1]
        self.assertEqual(asked, [[call(CONTROLLER + "ListVolumes", "120132")]])
