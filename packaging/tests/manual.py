"""Tests the manual pages: their sections and options, refused sources, and that man and groff (if installed)
give no warning."""
import os
import pathlib
import re
import shutil
import subprocess
import tempfile

from sources import TOP, read, version
from tests.helps import options_of
from tests.rows import LeftOut

MANUAL = os.path.join(TOP, "packaging", "manual")
# For each page, sections that it must have, in this order. The page may have further sections between them.
SECTIONS = {
    "csid.1": ["NAME", "SYNOPSIS", "DESCRIPTION", "OPTIONS", "ARGUMENTS THAT ARE REFUSED", "LIMITS",
               "A NEWER CSID", "WHAT IS LEFT OUT", "SECRETS", "EXIT STATUS", "DIAGNOSTICS", "FILES",
               "EXAMPLES", "SEE ALSO"],
    "csictl.1": ["NAME", "SYNOPSIS", "DESCRIPTION", "OPTIONS", "FOR SCRIPTS", "A CALL THAT IS TRIED AGAIN",
                 "WHAT IS SHOWN", "VECTORS", "EXIT STATUS", "FILES", "EXAMPLES", "SEE ALSO"],
    "csid-front.1": ["NAME", "SYNOPSIS", "DESCRIPTION", "OPTIONS", "A FRONT THAT STANDS BY",
                     "A NODE PLUGIN ON THE SAME SOCKET", "THE CONTROL SOCKET", "WHAT A CALL IS ANSWERED",
                     "WATCHING THE FRONT", "CALLS ON THEIR WAY", "EXIT STATUS", "FILES", "EXAMPLES",
                     "SEE ALSO"],
    "csid-etcd.1": ["NAME", "SYNOPSIS", "DESCRIPTION", "OPTIONS", "THE FIRST ROW", "KEYS AND VALUES",
                    "THE LOCK", "WHAT IS ANSWERED, AND LINES", "WHAT IS BELIEVED OF ETCD",
                    "RIGHTS, USERS, TLS", "ROOM", "SNAPSHOTS", "FROM A FILE TO ETCD, AND BACK", "EXIT STATUS",
                    "FILES", "EXAMPLES", "SEE ALSO"],
    "csid-config.5": ["NAME", "DESCRIPTION", "A NODE OR A POOL THAT IS TAKEN AWAY", "FILES", "SEE ALSO"],
    "csid-protocol.7": ["NAME", "DESCRIPTION", "ENVELOPE", "STREAMS", "WIRE", "MESSAGES AS VALUES",
                        "MESSAGES", "PATHS", "STATUS CODES", "ARGUMENT CHECKS", "OTHER REFUSALS",
                        "CALLS ANSWERED", "THE CHANGE STORE", "FILES", "SEE ALSO"],
    "csid-new.8": ["NAME", "DESCRIPTION", "FILES", "SEE ALSO"],
}
# Texts of pages as roff, worked out by hand from docs/ and deploy/.
TEXTS = [
    ("csid.1", '.TH CSID 1 2001-09-09 "csid VERSION" "User Commands"\n'),
    ("csid.1", ".SH NAME\ncsid \\- storage-plugin controller for the Container Storage Interface\n"),
    ("csid.1",
     ("\\fBcsid\\fR [pipe [\\-\\-config\\ FILE] [\\-\\-tables FILE [\\-\\-existing]"
      " [\\-\\-low\\-memory]]]\n")),
    ("csid.1", ".TP\n\\fB\\-\\-socket PATH\\fR\n"),
    ("csid.1", ".TP\n\\fB/var/lib/csid/volumes.db\\fR\n"),
    ("csid.1", 'a copy in memory (docs/OPERATING.md, "Time and memory")\n'),
    ("csid.1",
     ('docs/DEPLOY.md, "From the Debian package".\nWithout it, with the paths of docs/OPERATING.md,'
      ' "Copies and restores", and')),
    ("csid.1", ' ("Arguments that are refused")\n'),
    ("csictl.1", "\\fBcsictl\\fR vectors FILE\n"),
    # The commands for people come first.
    ("csictl.1", ".ad l\n.PP\n\\fBcsictl\\fR status\n"),
    ("csictl.1", ".SH DESCRIPTION\n.PP\nThese commands make calls, and print short texts.\n"),
    ("csid-front.1", "curl http://127.0.0.1:9809/healthz\n"),
    ("csid-etcd.1", ".SH EXAMPLES\n.PP\nOne member of etcd is enough:\n\\fBetcd"),
    ("csid-new.8", '.TH CSID\\-NEW 8 2001-09-09 "csid VERSION" "System Manager\'s Manual"\n'),
    ("csid-new.8", ".SH DESCRIPTION\n.PP\nThis unit makes the file of volumes of "),
    ("csictl.1", '.SH "FOR SCRIPTS"\n'),
    ("csictl.1", ".TP\n\\fB/run/csid\\-front/control.sock\\fR\n"),
    ("csictl.1", 'after 3 seconds ("DESCRIPTION").\n'),
    ("csid-front.1", "\\fBcsid\\-front\\fR \\-\\-version\n"),
    ("csid-front.1", ".SH DESCRIPTION\n.PP\nFor operators: how to run \\fBcsid\\fR for an orchestrator"),
    ("csid-front.1", ' ("Watching the front")\n'),
    ("csid-front.1", '.SH "WATCHING THE FRONT"\n'),
    ("csid-front.1", 'Only one of them serves at a time (docs/DEPLOY.md, "Two replicas over etcd").\n'),
    ("csid-front.1", ".TP\n\\fB/run/csid\\-front/csi.sock\\fR\n"),
    ("csid-front.1", ".TP\n\\fB/run/csid\\-front/control.sock\\fR\n"),
    ("csid-front.1", ".TP\n\\fB/etc/default/csid\\fR\n"),
    ("csid-etcd.1",
     ("\\fBcsid\\-etcd\\fR \\-\\-import \\-\\-name NAME [\\-\\-endpoints\\ HOST:PORT,..]"
      " [\\-\\-cacert\\ PATH]")),
    ("csid-etcd.1", ".TP\n\\fB\\-\\-listen PATH\\fR\n"),
    ("csid-etcd.1", '.SS "From etcd to a file"\n'),
    ("csid-etcd.1", ".TP\n\\fB/run/csid\\-etcd/log.sock\\fR\n"),
    ("csid-etcd.1", ".TP\n\\fB/var/lib/csid\\-etcd/revision\\fR\n"),
    ("csid-config.5", '[[pool]]\nname = "p1"\n'),
    ("csid-protocol.7", ".TP\npath length\nbytes: 2, big-endian\n.br\nvalue: 1 to 128\n"),
    ("csid-protocol.7", ".TP\n\\fB/csi.v1.Identity/M\\fR\nGetPluginInfo, "),
]
# Pieces of Markdown, each with its roff.
PIECES = [
    ("a `b-c` d", ".PP\na \\fBb\\-c\\fR d\n"),
    ("*a* and **b**", ".PP\n\\fIa\\fR and \\fBb\\fR\n"),
    ("2^63 is ~9 \\ x", ".PP\n2\\(ha63 is \\(ti9 \\e x\n"),
    (".so is no request", ".PP\n\\&.so is no request\n"),
    ("One. Two", ".PP\nOne.\nTwo\n"),
    ("`a: ` and `B. C` or d", ".PP\n\\fBa: \\fR and \\fBB. C\\fR or d\n"),
    ("`%s,%s,c`" % ("a" * 40, "b" * 40),
     ".PP\n.na\n\\fB%s,\\:%s,\\:c\\fR\n.br\n.ad\n" % ("a" * 40, "b" * 40)),
    ("two\nlines", ".PP\ntwo lines\n"),
    ("a\n<!-- a list -->\n\n- b\n\n<!-- end -->", ".PP\na\n.IP \\(bu 4\nb\n"),
    ("a\n\n<!-- scripts/lists: contents -->\n\n- b\n\n<!-- end -->\nc", ".PP\na\n.PP\nc\n"),
    ("- a", ".IP \\(bu 4\na\n"),
    ("1. a\n2. b\n   c", ".IP 1. 4\na\n.IP 2. 4\nb c\n"),
    ("### Head `it`", '.SS "Head it"\n'),
    ("    'a-b'\n    .c", ".PP\n.in +4n\n.nf\n\\(aqa\\-b\\(aq\n\\&.c\n.fi\n.in\n"),
    ("```\na\n\nb\n```", ".PP\n.in +4n\n.nf\na\n\nb\n.fi\n.in\n"),
    ("| a | |\n|---|---|\n| b | c |", ".TP\nb\nc\n"),
    ("| a | b | c |\n|---|---|---|\n| d | e | |\n| | f | g |", ".TP\nd\nb: e\n.TP\nd\nb: f\n.br\nc: g\n"),
    ("\u2261", ".PP\n\\[u2261]\n"),
    ("see docs/PROTOCOL.md", ".PP\nsee csid-protocol(7)\n"),
    ("see [PROTOCOL](PROTOCOL.md)", ".PP\nsee csid-protocol(7)\n"),
    ("see [Envelope](#envelope)", '.PP\nsee "Envelope"\n'),
    ("see [the\nintroduction](#protocol)", '.PP\nsee "DESCRIPTION"\n'),
    ("see [OPERATING, \"Limits\"](OPERATING.md#limits)", '.PP\nsee docs/OPERATING.md, "Limits"\n'),
    ("see [`a`](../crates/b.rt)", ".PP\nsee \\fBa\\fR\n"),
    ("![A plot](plots/a.svg)", ".PP\ndocs/plots/a.svg:\nA plot\n"),
]


def run(manual, *words):
    variables = {**os.environ, "SOURCE_DATE_EPOCH": "1000000000"}
    done = subprocess.run([manual, *words], capture_output=True, text=True, env=variables)
    return done.returncode, done.stderr


def copied(folder, source, old, new):
    """Copies the sources of the pages, and replaces a text in one file of docs/. Returns the copied script.
    """
    for name in ("docs", "deploy", "packaging", "scripts"):
        shutil.copytree(os.path.join(TOP, name), os.path.join(folder, name))
    shutil.copy(os.path.join(TOP, "VERSION"), folder)
    path = os.path.join(folder, "docs", source)
    text = read(path)
    assert text.count(old) == 1, (source, old)
    pathlib.Path(path).write_text(text.replace(old, new), encoding="utf-8")
    return os.path.join(folder, "packaging", "manual")


def page_rows(pages):
    for name, wanted in SECTIONS.items():
        found = [it.strip('"') for it in re.findall(r"^\.SH (.*)$", pages[name], re.M)]
        yield "the sections of " + name, [it for it in found if it in wanted], wanted
    for name, text in TEXTS:
        text = text.replace("VERSION", version())
        yield "in %s: %r" % (name, text), text in pages[name], True


def reference_rows(pages):
    """Each reference of a page to a section of a manual page leads to an existing section."""
    texts = {name: re.sub(r"\\f.|\\(?=-)", "", text) for name, text in pages.items()}
    headings = {name: {it.strip('"').upper() for it in re.findall(r"^\.S[HS] (.*)$", text, re.M)}
                for name, text in texts.items()}
    for name, text in texts.items():
        for page, number, heading in re.findall(r'([\w-]+)\((\d)\),\s"([^"]+)"', text):
            of = headings["%s.%s" % (page, number)]
            yield '%s names "%s" of %s' % (name, heading, page), heading.upper() in of, True


def option_rows(pages, programs):
    """The options of a page are the options in the help of the program."""
    for name, program in programs.items():
        part = re.search(r"^\.SH OPTIONS\n(.*?)^\.SH ", pages[name + ".1"], re.M | re.S).group(1)
        tags = "".join(re.findall(r"^\.TP\n(.*)\n", part, re.M)).replace("\\-", "-")
        wanted = set().union(*options_of(name, program).values())
        yield "the options of " + name, sorted(
            set(re.findall(r"--[a-z-]+", tags)) - {"--help", "--version"}
        ), sorted(wanted)


def piece_rows():
    """Each piece is converted as a paragraph of the page of the protocol."""
    for piece, wanted in PIECES:
        with tempfile.TemporaryDirectory() as folder:
            manual = copied(folder, "PROTOCOL.md", "## Calls answered\n",
                            "## Calls answered\n\n%s\n\n## Behind it\n" % piece)
            done = run(manual, os.path.join(folder, "man"))
            text = read(os.path.join(folder, "man", "csid-protocol.7")) if done == (0, "") else done
        yield "the piece %r" % piece, re.search(r'\.SH "CALLS ANSWERED"\n(.*?)\.SH "THE CHANGE STORE"',
                                                str(text), re.S).group(1), wanted


def synopsis_rows():
    """An indented line continues a form of the command line. A form begins with the name of the installed
    program."""
    with tempfile.TemporaryDirectory() as folder:
        manual = copied(folder, "DEPLOY.md", "    front --version\n",
                        "    front --version\n          [--a B] c\n    front d\n")
        yield "a synopsis", run(manual, os.path.join(folder, "man")), (0, "")
        text = read(os.path.join(folder, "man", "csid-front.1"))
    wanted = "\\fBcsid\\-front\\fR \\-\\-version [\\-\\-a\\ B] c\n.PP\n\\fBcsid\\-front\\fR d\n.ad\n"
    yield "its forms", re.search(r"(\\fBcsid\\-front\\fR \\-\\-version.*?\.ad\n)", text, re.S).group(
        1
    ), wanted


def refusal_rows():
    usage = "manual: usage: packaging/manual [--without-etcd] FOLDER\n"
    yield "no folder", run(MANUAL), (2, usage)
    yield "an option", run(MANUAL, "--help"), (2, usage)
    yield "an option alone", run(MANUAL, "--without-etcd"), (2, usage)
    for old, new, count in [
        ("## Limits\n", "## Limit\n", 0),
        ("## Secrets\n", "## Limits\n\n## Secrets\n", 2),
    ]:
        with tempfile.TemporaryDirectory() as folder:
            out = os.path.join(folder, "man")
            came = run(copied(folder, "OPERATING.md", old, new), out), os.path.exists(out)
        yield "%d headings" % count, came, ((1,
                                             "manual: docs/OPERATING.md has %d headings 'Limits'\n" % count),
                                            False)


def dead_link_rows():
    with tempfile.TemporaryDirectory() as folder:
        manual = copied(folder, "PROTOCOL.md", "## Calls answered\n", "## Calls answered\n\n[it](#it)\n")
        said = "manual: docs/PROTOCOL.md has no heading of the link '#it'\n"
        yield "a link to no heading", run(manual, os.path.join(folder, "man")), (1, said)


def without_rows():
    """Without csid-etcd, its page is not made, and no page refers to it."""
    with tempfile.TemporaryDirectory() as folder:
        yield "the pages without that of csid-etcd", run(MANUAL, "--without-etcd", folder), (0, "")
        yield "what there is", sorted(os.listdir(folder)), sorted(set(SECTIONS) - {"csid-etcd.1"})
        texts = "".join(read(os.path.join(folder, name)) for name in os.listdir(folder))
        yield "what names it", re.findall(r"csid-etcd\(1\)|csid\\-etcd\\fR\(1\)", texts), []


def warning_rows(folder, *words):
    if not shutil.which(words[0]):
        raise LeftOut("%s is not here" % words[0])
    for name in sorted(os.listdir(folder)):
        done = subprocess.run([*words, os.path.join(folder, name)], capture_output=True, text=True,
                              env={**os.environ, "LC_ALL": "C.UTF-8", "MANWIDTH": "80"})
        yield "%s finds nothing in %s" % (words[0], name), (done.returncode, done.stderr), (0, "")


def made_rows(programs, folder):
    yield "the pages are made", run(MANUAL, folder), (0, "")
    pages = {name: read(os.path.join(folder, name)) for name in os.listdir(folder)}
    yield "the pages", sorted(pages), sorted(SECTIONS)
    yield from page_rows(pages)
    yield from reference_rows(pages)
    yield from option_rows(pages, programs)


def parts(programs, folder):
    """Returns the parts of the test. The first part makes the pages in a folder, and the last two parts read
    them."""
    warnings = [
        warning_rows(folder, "groff", "-man", "-ww", "-z"),
        warning_rows(folder, "man", "--warnings", "-l", "-Tutf8"),
    ]
    return [made_rows(programs, folder), piece_rows(), synopsis_rows(), refusal_rows(), dead_link_rows(),
            without_rows(), *warnings]
