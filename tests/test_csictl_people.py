"""The commands of csictl for people, over csid, and over servers that a test plays."""

import json
import os
import shlex
import time

from tests.support.csictl import (CONTROLLER, CREATE, IDENTITY, READY, Line, Server, VOL_1, call, ok, refusal,
                                  run, text)
from tests.support.data import tables
from tests.support.peers import CLOSED, Pages, Peer, next_call
from tests.support.rows import CsictlTest, each


def varint(number):
    out = b""
    while number > 0x7F:
        out += bytes([number & 0x7F | 0x80])
        number >>= 7
    return out + bytes([number])


def part(number, payload):
    """Returns a field of wire type 2."""
    return varint(8 * number + 2) + varint(len(payload)) + payload


def pairs(number, of):
    return b"".join(part(number, part(1, key.encode()) + part(2, of[key].encode())) for key in sorted(of))


def entry(name, size, topologies=(), nodes=(), **context):
    """Returns an entry of ListVolumes in hexadecimal (docs/PROTOCOL.md, "Messages"). A topology is a
    dictionary of segments."""
    volume = b"\x08" + varint(size % (1 << 64)) + part(2, name.encode()) + pairs(3, context)
    volume += b"".join(part(5, pairs(1, segments)) for segments in topologies)
    return part(1, part(1, volume) + part(2, b"".join(part(1, it.encode()) for it in nodes))).hex()


GIB, MIB = 1 << 30, 1 << 20
THREE = [
    entry("vol-1", GIB, [{"zone": "a"}], ["n1"], pool="p1"),
    entry("vol-22", 5 * MIB, [{"zone": "b", "rack": "7"}], ["n1", "n2"], pool="p22"),
    entry("vol-3", 1000),
]
NEXT = "120131"
HEADINGS = "ID  SIZE  TOPOLOGY  NODES  POOL\n"
VOLUMES = ("ID      SIZE    TOPOLOGY       NODES  POOL\n"
           "vol-1   1 GiB   zone=a         n1     p1\n"
           "vol-22  5 MiB   rack=7,zone=b  n1,n2  p22\n"
           "vol-3   1000 B  -              -      -\n")

# The call for the configuration, and the reply of a server that does not know it, such as csid.
CONFIGURATION = call("/fomaheti.v1.Front/GetConfiguration", "")
NOT_KNOWN = refusal(12, "unknown method")


def asks_configuration(line):
    """Returns True if a command asks for the configuration before it lists volumes."""
    words = shlex.split(line)
    return words[0] in ("nodes", "pools") or not {"--node", "--pool"}.isdisjoint(words)


# A configuration in the form of the front (docs/DEPLOY.md, "The control socket").
ROOM = ok(json.dumps({
    "pools": [{"name": "p1", "bytes": 3 * GIB, "segments": {"zone": "a"}},
              {"name": "p22", "bytes": 10 * MIB, "segments": {"zone": "b", "rack": "7"}},
              {"name": "p3", "bytes": MIB}],
    "nodes": [{"id": "n1", "maxVolumes": 2}, {"id": "n 2", "maxVolumes": 4}],
}).encode().hex())
POOLS_IN_ROOM = ("POOL  TOPOLOGY       VOLUMES  USED   FREE   SIZE\n"
                 "p1    zone=a         1        1 GiB  2 GiB  3 GiB\n"
                 "p22   rack=7,zone=b  1        5 MiB  5 MiB  10 MiB\n"
                 "p3    -              0        0 B    1 MiB  1 MiB\n")
NODES_IN_ROOM = ("NODE   VOLUMES  MAXIMUM  IDS\n"
                 "n1     2        2        vol-1,vol-22\n"
                 "n%202  0        4        -\n")
PLUGIN = ok((part(1, b"demo") + part(2, b"1.2")).hex())
OUTDATED = refusal(10, "bad starting token")
NO_RESPONSE = "csictl: the body is no response of the method\n"

# For each row: its name, the words, the replies with the configuration and the pages, the tokens of the
# pages, standard output, standard error, and the status.
CONFIGURED = [
    ("pools, also empty ones", "pools", [ROOM, ok(THREE[0] + THREE[1])], [""], POOLS_IN_ROOM, "", 0),
    ("a volume of no pool of the configuration", "pools", [ROOM, ok("".join(THREE))], [""],
     "POOL  TOPOLOGY       VOLUMES  USED    FREE   SIZE\n"
     "p1    zone=a         1        1 GiB   2 GiB  3 GiB\n"
     "p22   rack=7,zone=b  1        5 MiB   5 MiB  10 MiB\n"
     "p3    -              0        0 B     1 MiB  1 MiB\n"
     "-     -              1        1000 B  -      -\n", "", 0),
    ("pools without volumes in JSON", "pools --json", [ROOM, ok(THREE[0])], [""],
     '{"pools":[{"accessibleTopology":[{"segments":{"zone":"a"}}],"bytes":1073741824,"freeBytes":2147483648,'
     '"name":"p1","sizeBytes":3221225472,"volumes":1},{"accessibleTopology":[{"segments":{"rack":"7",'
     '"zone":"b"}}],"bytes":0,"freeBytes":10485760,"name":"p22","sizeBytes":10485760,"volumes":0},'
     '{"accessibleTopology":[],"bytes":0,"freeBytes":1048576,"name":"p3","sizeBytes":1048576,'
     '"volumes":0}]}\n', "", 0),
    ("a listing that begins again counts each volume once", "pools",
     [ROOM, ok(THREE[0] + NEXT), OUTDATED, ok(THREE[0] + NEXT), ok(THREE[1])], ["", NEXT, "", NEXT],
     POOLS_IN_ROOM, "", 0),
    ("nodes, also empty ones", "nodes", [ROOM, ok(THREE[0] + entry("vol-22", 5 * MIB, [], ["n1"]))], [""],
     NODES_IN_ROOM, "", 0),
    ("a node that the configuration does not have", "nodes", [ROOM, ok(THREE[1])], [""],
     "NODE   VOLUMES  MAXIMUM  IDS\n"
     "n1     1        2        vol-22\n"
     "n%202  0        4        -\n"
     "n2     1        -        vol-22\n", "", 0),
    ("nodes in JSON", "nodes --json", [ROOM, ok(THREE[0])], [""],
     '{"nodes":[{"bytes":1073741824,"id":"n1","maxVolumes":2,"volumeIds":["vol-1"],"volumes":1},'
     '{"bytes":0,"id":"n 2","maxVolumes":4,"volumeIds":[],"volumes":0}]}\n', "", 0),
    ("a pool that is there", "volumes --pool p3", [ROOM, ok("".join(THREE))], [""], HEADINGS, "", 0),
    ("a pool that the configuration does not have", "volumes --pool p9 --node n9", [ROOM], [], "",
     "csictl: p9: no pool of the configuration has this name\n", 1),
    ("a node of a filter that the configuration does not have", "volumes --json --node n9", [ROOM], [], "",
     "csictl: n9: no node of the configuration has this id\n", 1),
    ("no JSON", "pools", [ok("")], [], "", NO_RESPONSE, 3),
    ("JSON without lists", "nodes", [ok(b"{}".hex())], [], "", NO_RESPONSE, 3),
    ("a pool without bytes", "pools", [ok(b'{"pools":[{"name":"p"}],"nodes":[]}'.hex())], [], "",
     NO_RESPONSE, 3),
]

# Sizes in bytes, and their texts in the greatest unit that is exact to one decimal.
SIZES = {0: "0 B", 1: "1 B", 1023: "1023 B", 1024: "1 KiB", 1280: "1280 B", 1536: "1.5 KiB", 1537: "1537 B",
         MIB - 1: "1048575 B", MIB: "1 MiB", MIB + 512: "1024.5 KiB", 1025 * MIB: "1025 MiB",
         3 * GIB // 2: "1.5 GiB", 1 << 40: "1 TiB", 1 << 50: "1 PiB", 1 << 60: "1 EiB", 7 << 60: "7 EiB",
         (1 << 63) - 1: "9223372036854775807 B", -1: "-1 B"}

# Sizes as a user writes them, and their bytes.
WRITTEN = {"0": 0, "1": 1, "1B": 1, "1Ki": 1 << 10, "1Mi": 1 << 20, "1Gi": 1 << 30, "1Ti": 1 << 40,
           "1Pi": 1 << 50, "7Ei": 7 << 60, "1k": 10**3, "1K": 10**3, "1M": 10**6, "500M": 500 * 10**6,
           "1G": 10**9, "1T": 10**12, "1P": 10**15, "9E": 9 * 10**18, "0010Ki": 10240,
           "9223372036854775807": (1 << 63) - 1, "9007199254740991Ki": (1 << 63) - 1024, "1000 B": 1000,
           "1 KiB": 1 << 10, "1.5 KiB": 1536, "1024.5 KiB": MIB + 512, "5 MiB": 5 * MIB,
           "1.5 GiB": 3 * GIB // 2, "1 TiB": 1 << 40, "1 PiB": 1 << 50, "7 EiB": 7 << 60, "1 Ki": 1 << 10,
           "1KiB": 1 << 10, "1.5Gi": 3 * GIB // 2, "0.5Ki": 512, "1.0": 1, "0.1k": 100, "9.2E": 92 * 10**17,
           "7.5 EiB": 15 << 59}
NO_SIZES = ["", "Ki", "B", "+1", "1.5", "1.25Gi", "1.Gi", ".5Gi", "1.1Ki", "-1.5Gi", "9.3E", "1KB", "1 kB",
            "1BB", "1  Ki", "1Ki ", " 1", "1ki", "1m", "1e3", "0x1", "8Ei", "10E", "9007199254740992Ki",
            "9223372036854775808", "18446744073709551617", "18446744073709551616Gi"]
MODES = {"single-node-writer": 1, "single-node-reader-only": 2, "multi-node-reader-only": 3,
         "multi-node-single-writer": 4, "multi-node-multi-writer": 5, "single-node-single-writer": 6,
         "single-node-multi-writer": 7, "SINGLE_NODE_WRITER": 1, "SINGLE_NODE_READER_ONLY": 2,
         "MULTI_NODE_READER_ONLY": 3, "MULTI_NODE_SINGLE_WRITER": 4, "MULTI_NODE_MULTI_WRITER": 5,
         "SINGLE_NODE_SINGLE_WRITER": 6, "SINGLE_NODE_MULTI_WRITER": 7, "ReadOnlyMany": 3, "ReadWriteMany": 5,
         "ReadWriteOncePod": 6, "ReadWriteOnce": 7, "ROX": 3, "RWX": 5, "RWOP": 6, "RWO": 7, "rwo": 7,
         "readwriteonce": 7, "0": 0, "7": 7, "8": 8}
ID, NODE = "0a05766f6c2d31", "12026e31"
BLOCK = "1a060a001a020801"
CONTEXT = ok("0a110a08726561646f6e6c79120566616c7365")


# The call that deletes vol-1, and the page with vol-1 while it is published to n1.
DELETE = call(CONTROLLER + "DeleteVolume", ID)
AT_N1 = ok(entry("vol-1", GIB, [], ["n1"]))


def look(token=""):
    """Returns the call for the page of one entry after a token."""
    return call(CONTROLLER + "ListVolumes", "0801" + (part(2, token.encode()).hex() if token else ""))


NO_ID = "no volume has this id\n"
# The line that also shows the form of ids.
NO_FORM = ("no volume has this id; ids look like vol-1, and csid --list-tables or csid-etcd --list shows the"
           " name of each\n")
ROWS = tables("csictl_people", globals())


class SlowPages(Pages):
    """A server that needs 1.6 seconds for each page."""

    def play(self, peer, part):
        with peer, peer.makefile("rb") as calls:
            self.calls.append([])
            for answer in part:
                self.calls[-1].append(next_call(calls))
                time.sleep(1.6)
                peer.sendall(answer)
            calls.read()


class BusyPages(Pages):
    """A server that closes each connection after one reply, as csid does while another one is ready."""

    def play(self, peer, part):
        with peer, peer.makefile("rb") as calls:
            self.calls.append([next_call(calls)])
            peer.sendall(part)


class AskTest(CsictlTest):
    """A test that runs csictl over a socket. The line is split into words as a shell does it."""

    def ask(self, path, line):
        return text(run([self.csictl, *shlex.split(line), "--socket", path], input=b""))

    def compare(self, name, line, server, asked, out, said, status):
        """Compares the output over a played server, and the calls that the server got."""
        wanted = out, said.replace("PATH", server.path), status
        self.check(name, self.ask(server.path, line), wanted)
        self.check("what was asked: " + name, server.end(), asked)

    def over_csid(self, server, rows):
        for line, *wanted in rows:
            self.check("over csid: " + line, self.ask(server.path, line), tuple(wanted))
        server.kill()


class PeopleTest(AskTest):
    @each(ROWS["SHOWN"])
    def test_listing(self, name, line, connections, tokens, *wanted):
        asked = [[call(CONTROLLER + "ListVolumes", token) for token in of] for of in tokens]
        if asks_configuration(line):
            connections = [[NOT_KNOWN, *connections[0]], *connections[1:]]
            asked[0].insert(0, CONFIGURATION)
        self.compare(name, line, Pages(self.folder, connections), asked, *wanted)

    @each(CONFIGURED)
    def test_listing_over_a_configuration(self, name, line, replies, tokens, *wanted):
        asked = [CONFIGURATION, *[call(CONTROLLER + "ListVolumes", token) for token in tokens]]
        self.compare(name, line, Pages(self.folder, [replies]), [asked], *wanted)

    def test_reader_that_goes_away(self):
        """Nothing is reported. The status is 0, so a shell with pipefail does not fail."""
        server = Server(self.csid, os.path.join(self.folder, "p.sock"))
        listed = ["call", "--method", "ListVolumes"]
        for words in [["volumes"], ["pools", "--json"], ["status"], listed, [*listed, "--all"]]:
            self.gone(words, "--socket", server.path)
        server.kill()
        self.gone(["frame"], "--method", "Probe")
        self.gone(["show"], given=ok(""))

    def gone(self, words, *more, given=b""):
        read, write = os.pipe()
        os.close(read)
        came = run([self.csictl, *words, *more], stdout=write, input=given)
        os.close(write)
        self.check("a reader that goes away: " + " ".join(words), came, (None, "", 0))

    @each(SIZES.items())
    def test_size_of_a_listing(self, size, shown):
        out = "POOL  TOPOLOGY  VOLUMES  SIZE\n-     -         1        %s\n" % shown
        pages = Pages(self.folder, [[NOT_KNOWN, ok(entry("v", size))]])
        asked = [[CONFIGURATION, call(CONTROLLER + "ListVolumes", "")]]
        self.compare("%d bytes" % size, "pools", pages, asked, out, "", 0)

    def test_each_page_has_the_time_of_the_option(self):
        """Both pages come over one connection. Together they take longer than the option says."""
        pages = SlowPages(self.folder, [[ok(THREE[0] + NEXT), ok(THREE[1] + THREE[2])]])
        self.check("two slow pages", self.ask(pages.path, "volumes --timeout 3"), (VOLUMES, "", 0))
        self.check("what was asked", len(pages.end()[0]), 2)

    def test_connection_that_is_closed_between_two_calls(self):
        """The second call is sent on a new connection. This is no further try."""
        pages = BusyPages(self.folder, [NOT_KNOWN, ok(entry("v", MIB))])
        asked = [[CONFIGURATION], [call(CONTROLLER + "ListVolumes", "")]]
        out = "POOL  TOPOLOGY  VOLUMES  SIZE\n-     -         1        1 MiB\n"
        self.compare("a server that closes after a reply", "pools", pages, asked, out, "", 0)

    @each(ROWS["CHANGES"])
    def test_change(self, line, method, message, reply, *wanted):
        asked = [call(CONTROLLER + method, message.replace(" ", ""))]
        self.compare(line, line, Peer(self.folder, [reply]), asked, *wanted)

    @each(WRITTEN.items())
    def test_size_of_a_create(self, size, wanted):
        message = "0a0161" + part(2, b"\x08" + varint(wanted) if wanted else b"").hex() + BLOCK
        asked = [call(CONTROLLER + CREATE, message.replace(" ", ""))]
        peer, line = Peer(self.folder, [ok(VOL_1)]), "create a --size '%s'" % size
        self.compare("the size " + size, line, peer, asked, "created vol-1, 1 MiB\n", "", 0)

    @each(MODES.items())
    def test_mode_of_a_publish(self, mode, number):
        capability = part(3, bytes.fromhex("0a00" + ("1a0208%02x" % number if number else "1a00"))).hex()
        asked = [call(CONTROLLER + "ControllerPublishVolume", (ID + NODE + capability).replace(" ", ""))]
        peer, line = Peer(self.folder, [CONTEXT]), "publish vol-1 n1 --mode " + mode
        self.compare("the mode " + mode, line, peer, asked, "published vol-1 to n1\n", "", 0)

    @each([*ROWS["REFUSED"], *[("create a '--size=%s'" % size, "--size") for size in NO_SIZES]])
    def test_words_that_are_refused(self, line, said):
        """Nothing is sent if the words are not understood."""
        self.check("refused: " + line, self.ask("s", line), ("", Line("csictl: ", said), 2))

    def test_over_csid(self):
        row = "ID     SIZE   TOPOLOGY  NODES  POOL\nvol-1  1 MiB  zone=a    %s\n"
        self.over_csid(Server(self.csid, os.path.join(self.folder, "p.sock")), [
            ("volumes", HEADINGS, "", 0),
            ("create pvc-7 --size 1Mi --pool-topology zone=a", "created vol-1, 1 MiB\n", "", 0),
            ("volumes", row % "-      p1", "", 0),
            ("publish vol-1 n1", "published vol-1 to n1\n", "", 0),
            ("volumes", row % "n1     p1", "", 0),
            ("nodes", "NODE  VOLUMES  IDS\nn1    1        vol-1\n", "", 0),
            ("pools", "POOL  TOPOLOGY  VOLUMES  SIZE\np1    zone=a    1        1 MiB\n", "", 0),
            ("delete vol-1", "9 FAILED_PRECONDITION volume is in use\n", "", 1),
            ("unpublish vol-1", "unpublished vol-1 from all nodes\n", "", 0),
            ("delete vol-1", "deleted vol-1\n", "", 0),
            ("volumes", HEADINGS, "", 0),
        ])


class StatusTest(AskTest):
    def shown(self, name, words, replies, out, status):
        asked = [call(IDENTITY + "GetPluginInfo", ""), call(IDENTITY + "Probe", ""), CONFIGURATION]
        asked += [call(CONTROLLER + "ListVolumes", token) for token in ["", NEXT]]
        pages = Pages(self.folder, [replies])
        self.compare(name, "status " + words, pages, [asked[: len(replies)]], out, "", status)

    @each(ROWS["STATUSES"])
    def test_server_and_the_sums_of_its_volumes(self, name, words, replies, out, status):
        configuration = [NOT_KNOWN] if replies[2:] else []
        self.shown(name, words, [*replies[:2], *configuration, *replies[2:]], out, status)

    def test_pools_and_nodes_of_the_configuration(self):
        replies = [PLUGIN, READY, ROOM, ok(THREE[0] + NEXT), ok(THREE[1])]
        self.shown("in columns", "", replies,
                   "PLUGIN       demo 1.2\n"
                   "READY        true\n"
                   "VOLUMES      2\n"
                   "SIZE         1029 MiB\n"
                   "ATTACHMENTS  3\n"
                   "\n" + POOLS_IN_ROOM + "\n"
                   "NODE   VOLUMES  MAXIMUM\n"
                   "n1     2        2\n"
                   "n%202  0        4\n"
                   "n2     1        -\n", 0)
        pages = Pages(self.folder, [replies])
        came = json.loads(self.ask(pages.path, "status --json")[0])
        pages.end()
        self.assertEqual([(it["name"], it["freeBytes"], it["sizeBytes"]) for it in came["pools"]],
                         [("p1", 2 * GIB, 3 * GIB), ("p22", 5 * MIB, 10 * MIB), ("p3", MIB, MIB)])
        self.assertEqual([(it["id"], it["volumes"], it.get("maxVolumes")) for it in came["nodes"]],
                         [("n1", 2, 2), ("n 2", 0, 4), ("n2", 1, None)])

    def test_status_of_csid(self):
        server = Server(self.csid, os.path.join(self.folder, "p.sock"))
        self.ask(server.path, "create pvc-7 --size 1Mi --pool-topology zone=a")
        self.ask(server.path, "publish vol-1 n1")
        shown = self.ask(server.path, "status --json")
        server.kill()
        sums = {key: json.loads(shown[0])[key] for key in ["ready", "volumes", "bytes", "attachments"]}
        self.assertEqual(sums, {"ready": True, "volumes": 1, "bytes": MIB, "attachments": 1})


class RemovalTest(AskTest):
    """`csictl unpublish` and `csictl delete` check first if there is something to remove."""

    def removed(self, name, line, connections, *wanted):
        """Compares a removal over a played server, with the calls and replies of each connection."""
        pages = Pages(self.folder, [[answer for _, answer in part] for part in connections])
        self.compare(name, line, pages, [[asked for asked, _ in part] for part in connections], *wanted)

    @each(ROWS["REMOVALS"])
    def test_what_is_there_is_removed_over_the_same_connection(self, line, token, page, *others):
        removal, reply, *wanted = others
        self.removed(line, line, [[(look(token), page), (removal, reply)]], *wanted)

    @each(ROWS["NOTHING_REMOVED"])
    def test_where_nothing_is_there_nothing_is_called(self, line, token, page, *wanted):
        self.removed(line, line, [[(look(token), page)]], *wanted)

    @each([
        # The calls and replies of each connection, and the number of second tries.
        ("the page is tried again", [[(look(), CLOSED)], [(look(), AT_N1), (DELETE, ok(""))]], 1),
        ("the removal is tried again", [[(look(), AT_N1), (DELETE, CLOSED)], [(DELETE, ok(""))]], 1),
        ("each of the two calls has its tries",
         [[(look(), CLOSED)], [(look(), AT_N1), (DELETE, CLOSED)], [(DELETE, ok(""))]], 2),
    ])
    def test_repeated_removal_is_not_looked_up_again(self, name, connections, tries):
        """The first try may have removed it."""
        said = "csictl: PATH: closed without a reply: try 2 of 2\n" * tries
        self.removed(name, "delete vol-1 --tries 2", connections, "deleted vol-1\n", said, 0)

    def over_volumes(self, *rows):
        """Compares rows over a csid with two volumes, the first published to n1. A third volume was deleted.
        """
        server = Server(self.csid, os.path.join(self.folder, "p.sock"))
        for name in ["pvc-7", "pvc-8", "pvc-9"]:
            self.ask(server.path, "create %s --size 1Mi --pool-topology zone=a" % name)
        self.ask(server.path, "publish vol-1 n1")
        self.ask(server.path, "delete vol-3")
        self.over_csid(server, rows)

    def test_csid_has_nothing_to_remove(self):
        both = ("ID     SIZE   TOPOLOGY  NODES  POOL\n"
                "vol-1  1 MiB  zone=a    n1     p1\n"
                "vol-2  1 MiB  zone=a    -      p1\n")
        rows = [("delete vol-3", NO_ID), ("delete vol-4", NO_ID), ("delete vol-77", NO_ID),
                ("delete pvc-7", NO_FORM), ("unpublish vol-77 n1", NO_ID),
                ("unpublish vol-1 n9", "not published to n9\n"),
                ("unpublish vol-2 n1", "not published to n1\n"),
                ("unpublish vol-2", "not published to any node\n")]
        said = [(line, "", "csictl: %s: %s" % (line.split()[1], why), 1) for line, why in rows]
        self.over_volumes(*said, ("volumes", both, "", 0))

    def test_call_does_not_look_first(self):
        """`csictl call` shows the server's answer, which is OK."""
        self.over_volumes(("call --method DeleteVolume --volume vol-77", "0 OK -\n", "", 0),
                          ("call --method ControllerUnpublishVolume --volume vol-2", "0 OK -\n", "", 0))

    def test_volume_that_is_looked_for_by_its_name(self):
        """For a name in place of an id, `csictl volume` shows the form of ids."""
        self.over_volumes(("volume pvc-7", "", "csictl: pvc-7: " + NO_FORM, 1))
