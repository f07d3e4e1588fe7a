"""The alerts and the dashboard of python/monitoring: each number that they ask for is one of a worker's, with these labels; Prometheus's own tool
checks the alerts, and tries them on series that are given. Grafana itself isn't asked."""

import json
import re
import subprocess
import unittest

import support  # isort: skip
import needs

if lacks := needs.lacks_server():
    raise unittest.SkipTest(lacks)
from palqytun.runtime import Queue, metrics
from palqytun.runtime.meter import Ended
from prometheus_client.parser import text_string_to_metric_families

FOLDER = support.PYTHON / "monitoring"
ALERTS, TESTS, DASHBOARD = FOLDER / "alerts.yml", FOLDER / "alerts_test.yml", FOLDER / "dashboard.json"
_NUMBER = re.compile(r"(palqytun_\w+)(?:\{([^}]*)\})?")
_LABEL = re.compile(r"(\w+)\s*(=~|!~|!=|=)\s*\"([^\"]*)\"")
_BY = re.compile(r"by \(([^)]*)\)")
OF_PROMETHEUS = {"instance", "job", "le"}
EVENTS = {"event": {"attempt failed", "attempt lost", "paused", "failed"}, "outcome": {"done", "failed", "continued"}}


def numbers():
    """The numbers of a worker of which each was counted: their labels by their names, and the values of labels that are words of ours."""
    measured = metrics.Measured()
    measured.ended(Ended("S", "h", "done", 1.0))
    measured.failed("S/h", "paused")
    measured.attempt("S", "h", "done", 1.0)
    measured.claimed("S", "h", 1.0)
    measured.fired(1.0)
    measured.committed(1, 1.0)
    queue = Queue("q", concurrency=1, per_key=1, per_worker=1, rate=(1, 1))
    shown = {"name": "q", "length": 1, "oldest": 1.0, "running": 1, "limits": queue.limits}
    now = metrics.Now({}, [("S", "h", 1, 1.0)], [shown], 1, 1, 1.0, {"attempts": 1, "sessions": 1, "fenced": 0})
    labels, values = {}, {name: set(it) for name, it in EVENTS.items()}
    for family in text_string_to_metric_families(metrics.text(measured, now).decode()):
        for it in family.samples:
            labels.setdefault(it.name, set()).update(it.labels)
            for name in ("status", "limit"):
                if name in it.labels:
                    values.setdefault(name, set()).add(it.labels[name])
    return labels, values


def asked():
    """The expressions of both files."""
    expressions = re.findall(r"expr: (?:\|\n((?: {10,}.*\n)+)|(.*)\n)", ALERTS.read_text())
    found = [one or other for one, other in expressions]
    panels = [it for it in json.loads(DASHBOARD.read_text())["panels"] if it["type"] != "row"]
    return found, [target["expr"] for it in panels for target in it["targets"]], panels


class Monitoring(unittest.TestCase):
    def test_each_number_is_there(self):
        labels, values = numbers()
        alerts, graphs, _ = asked()
        self.assertEqual((len(alerts), len(graphs) > 20), (12, True))
        seen = set()
        for expression in alerts + graphs:
            with self.subTest(expression):
                self.assertRegex(expression, "palqytun_")
                names = _NUMBER.findall(expression)
                for name, selected in names:
                    self.assertIn(name, labels)
                    seen.add(name)
                    for label, _, text in _LABEL.findall(selected):
                        self.assertIn(label, labels[name])
                        for value in text.split("|"):
                            self.assertIn(value, values[label])
                for label in [it.strip() for by in _BY.findall(expression) for it in by.split(",")]:
                    self.assertTrue(label in OF_PROMETHEUS or all(label in labels[name] for name, _ in names), label)
        self.assertLessEqual({"palqytun_queue_length", "palqytun_ended_total", "palqytun_commit_seconds_bucket"}, seen)

    def test_what_is_documented_is_there(self):
        labels, _ = numbers()
        page = (support.PYTHON.parent / "docs" / "OPERATING.md").read_text()
        table = page.partition("**Numbers.**")[2].partition("**SQL.**")[0]
        for name, given in re.findall(r"`(palqytun_\w+)(?:\{([\w,]*)\})?`", table):
            found = next((labels[it] for it in (name, f"{name}_bucket") if it in labels), None)
            self.assertIsNotNone(found, name)
            self.assertLessEqual(set(filter(None, given.split(","))), found, name)

    def test_the_dashboard(self):
        _, _, panels = asked()
        whole = json.loads(DASHBOARD.read_text())
        self.assertEqual(len({it["id"] for it in whole["panels"]}), len(whole["panels"]))
        taken = set()
        for it in panels:
            place = it["gridPos"]
            cells = {(x, y) for x in range(place["x"], place["x"] + place["w"]) for y in range(place["y"], place["y"] + place["h"])}
            self.assertFalse(cells & taken, it["title"])
            self.assertLessEqual(place["x"] + place["w"], 24)
            taken |= cells
            self.assertTrue(it["title"] and it["fieldConfig"]["defaults"]["unit"])
            self.assertEqual({target["datasource"]["uid"] for target in it["targets"]}, {"${datasource}"})
        self.assertEqual([it["name"] for it in whole["templating"]["list"]], ["datasource"])

    @unittest.skipIf(needs.lacks_command("promtool"), needs.lacks_command("promtool"))
    def test_prometheus_takes_the_alerts(self):
        for words in (["check", "rules", "alerts.yml"], ["test", "rules", "alerts_test.yml"]):
            done = subprocess.run(["promtool", *words], cwd=FOLDER, capture_output=True, text=True, timeout=support.LONG)
            self.assertEqual(done.returncode, 0, done.stdout + done.stderr)
        alerts = set(re.findall(r"- alert: (\w+)", ALERTS.read_text()))
        tried = set(re.findall(r"alertname: (\w+)\n\s+exp_alerts", TESTS.read_text()))
        self.assertEqual(tried, alerts)


if __name__ == "__main__":
    unittest.main()
