"""The alerts and the dashboard in Prometheus: promtool accepts the expressions, each alert fires after its
time and ends, and the alerts of full pools and nodes fire at their shares."""

import json
import os
import re
import subprocess

from tests.support.deploy import DEPLOY, need, read
from tests.support.rows import RowTest, each

ALERTS = os.path.join(DEPLOY, "alerts.yaml")
# For each used share in percent, the alerts that must fire. At exactly 80 % no alert fires.
SHARES = [(79, []), (80, []), (81, [80]), (90, [80]), (91, [80, 90])]
# For each alert: its name, the series of the used and of the greatest value, and a label if there are several
# such series.
FULL = [
    ("Pool", "csid_front_pool_used_bytes", "csid_front_pool_size_bytes", ', pool="p1"'),
    ("Node", "csid_front_node_attachments", "csid_front_node_max_volumes", ', node="n1"'),
    ("Volumes", "csid_front_volumes", "csid_front_max_volumes", ""),
]
MINUTES = 60

CREATE = 'method="/csi.v1.Controller/CreateVolume"'
# From minute 11 to minute 30 every fifth call of the method takes more than 10 seconds.
SLOW = [("call_duration_seconds_bucket", '%s, le="10"', "0+10x10 108+8x19 270+10x30"),
        ("call_duration_seconds_bucket", '%s, le="30"', "0+10x60"),
        ("call_duration_seconds_bucket", '%s, le="+Inf"', "0+10x60")]
# Each row has an alert, an event, the series of the event (name, labels, and a value for each minute), and
# the minutes when the alert fires and ends. A failed scrape leaves `stale`.
FIRING = [
    ("CsidFrontDown", "no front answers for 20 minutes", [("build_info", "", "1x5 stale _x19 1x30")], 11, 26),
    ("CsidDown", "csid is away for 10 minutes", [("csid_up", "", "1x5 0x9 1x30")], 8, 16),
    ("CsidDown", "csid of a front that does not stand by",
     [("csid_up", "", "1x5 0x9 1x30"), ("standing_by", "", "0x60")], 8, 16),
    ("CsidDown", "the front stands by", [("csid_up", "", "0x60"), ("standing_by", "", "1x60")], None, None),
    ("CsidNodePluginDown", "the node plugin is away for 10 minutes",
     [("node_plugin_up", "", "1x5 0x9 1x30")], 8, 16),
    ("CsidNobodyServes", "both fronts stand by for 10 minutes",
     [("standing_by", "", "0x5 1x9 0x30"), ("standing_by", 'instance="b"', "1x60")], 7, 16),
    ("CsidNobodyServes", "one of two fronts serves",
     [("standing_by", "", "0x60"), ("standing_by", 'instance="b"', "1x60")], None, None),
    ("CsidNoStandby", "one of two fronts is away for 20 minutes",
     [("standing_by", "", "0x60"), ("standing_by", 'instance="b"', "1x5 stale _x19 1x30")], 16, 26),
    ("CsidNoStandby", "no front has --standby", [("csid_up", "", "1x60")], None, None),
    ("CsidInternalRefusals", "a refusal", [("internal_refusals_total", 'reason="store refused"', "0x5 1x50")],
     6, 11),
    ("CsidPoolFull", "no room for 20 minutes",
     [("available_capacity_bytes", 'topology="zone=a"', "1x5 0x19 1x30")], 21, 26),
    ("CsidNoRoom", "a create without room",
     [("calls_total", CREATE + ', code="ResourceExhausted"', "0x5 1x50")], 6, 21),
    ("CsidNoRoom", "a create that is refused otherwise",
     [("calls_total", CREATE + ', code="OutOfRange"', "0x5 1x50")], None, None),
    ("CsidCallsWait", "a fifth of the calls is slow", [(name, it % CREATE, its) for name, it, its in SLOW],
     18, 33),
    ("CsidCallsWait", "calls of a node plugin are slow",
     [(name, it % 'method="/csi.v1.Node/NodeStageVolume"', its) for name, it, its in SLOW], None, None),
]


def series_of(name, labels, values):
    """Returns a series of the front. Its instance is `a`, unless the labels name another instance."""
    instance = "" if "instance=" in labels else 'instance="a"'
    labels = ", ".join(filter(None, ['job="csid"', instance, labels]))
    return {"series": "csid_front_%s{%s}" % (name, labels), "values": values}


def constant(name, labels, value):
    series = '%s{job="csid", instance="a"%s}' % (name, labels)
    return {"series": series, "values": "%dx%d" % (value, MINUTES)}


def firing(pattern, minutes, names):
    """Returns an expectation of promtool: after `minutes` exactly these alerts of the pattern fire."""
    return {
        "expr": 'count by (alertname) (ALERTS{alertstate="firing", alertname=~"%s"})' % pattern,
        "eval_time": "%dm" % minutes,
        "exp_samples": [{"labels": '{alertname="%s"}' % name, "value": 1} for name in names],
    }


class AlertsTest(RowTest):
    def promtool(self, *words):
        ran = subprocess.run([need("promtool"), *words], capture_output=True, text=True)
        return ran.returncode, ran.stdout + ran.stderr if ran.returncode else ""

    def check_rules(self, name, series, expectations):
        path = os.path.join(self.folder, "rules.json")
        test = {
            "rule_files": [ALERTS],
            "evaluation_interval": "1m",
            "tests": [{"interval": "1m", "input_series": series, "promql_expr_test": expectations}],
        }
        with open(path, "w") as file:
            json.dump(test, file)
        self.check(name, self.promtool("test", "rules", path), (0, ""))

    def test_rules_are_rules(self):
        self.check("alerts.yaml", self.promtool("check", "rules", ALERTS), (0, ""))

    def test_queries_are_queries(self):
        """promtool accepts each query of the dashboard as the expression of a rule."""
        panels = json.loads(read("dashboard.json"))["panels"]
        queries = [target["expr"] for panel in panels for target in panel["targets"]]
        self.assertTrue(queries)
        rules = [{"record": "query:%d" % number, "expr": re.sub(r"\$__rate_interval", "1m", query)}
                 for number, query in enumerate(queries)]
        path = os.path.join(self.folder, "queries.json")
        with open(path, "w") as file:
            json.dump({"groups": [{"name": "queries", "rules": rules}]}, file)
        self.check("the queries", self.promtool("check", "rules", path), (0, ""))

    @each(FULL)
    def test_shares(self, what, used, most, labels):
        """An alert fires above its share, after 15 minutes."""
        for share, alerts in SHARES:
            names = ["Csid%sAbove%d" % (what, alert) for alert in alerts]
            self.check_rules("%s at %d %%" % (what, share),
                             [constant(used, labels, share * 1000), constant(most, labels, 100_000)],
                             [firing("Csid.+Above.+", 14, []), firing("Csid.+Above.+", 16, names)])

    @each([("%s: %s" % row[:2], row[0], *row[2:]) for row in FIRING])
    def test_alert_fires_and_ends(self, name, alert, series, begin, end):
        """Without `begin` and `end` the alert never fires."""
        minutes = {begin - 1: [], begin: [alert], end - 1: [alert], end: []} if begin else {
            minute: [] for minute in range(1, MINUTES, 5)
        }
        self.check_rules(name, [series_of(*it) for it in series],
                         [firing(alert, minute, names) for minute, names in minutes.items()])

    def test_each_alert_has_a_row(self):
        with open(ALERTS) as file:
            alerts = re.findall(r"alert: (\w+)", file.read())
        full = ["Csid%sAbove%d" % (it[0], share) for it in FULL for share in (80, 90)]
        tested = {it[0] for it in FIRING if it[3]} | {*full, "CsidListingOld"}
        self.check("the alerts", sorted(tested), sorted(alerts))

    def test_old_listing(self):
        """A listing that ended at 0 seconds is old after 15 minutes. The alert fires 5 minutes later."""
        self.check_rules("a listing that is not repeated",
                         [constant("csid_front_listing_timestamp_seconds", "", 0)],
                         [firing("CsidListingOld", 20, []), firing("CsidListingOld", 22, ["CsidListingOld"])])
