package main

import (
	"os"
	"regexp"
	"strings"
	"testing"
	"time"

	"google.golang.org/grpc/codes"
)

// reportedSeries returns the labels of each series that a front reports, by the name of the series.
func reportedSeries(t *testing.T) map[string]map[string]bool {
	t.Helper()
	h := replying(t, "00 0000 00 00000005 0880808007")
	h.standsBy = true
	h.node = newNodePlugin(h.backend.path + ".absent")
	h.metrics.observe(probe, codes.OK, time.Second)
	listings := newListings(h, room)
	listings.keep(&listing{})
	families, err := newRegistry(h, nil, listings).Gather()
	if err != nil {
		t.Fatal(err)
	}
	names := map[string]map[string]bool{}
	for _, family := range families {
		labels := map[string]bool{"job": true, "instance": true}
		for _, label := range family.Metric[0].Label {
			labels[label.GetName()] = true
		}
		names[family.GetName()] = labels
		if family.Metric[0].Histogram != nil {
			for _, part := range []string{"_bucket", "_sum", "_count"} {
				names[family.GetName()+part] = labels
			}
			labels["le"] = true
		}
	}
	return names
}

func page(t *testing.T, name string) string {
	t.Helper()
	text, err := os.ReadFile("../../" + name)
	if err != nil {
		t.Fatal(err)
	}
	return string(text)
}

var (
	named    = regexp.MustCompile(`\bcsid_front_\w+`)
	matched  = regexp.MustCompile(`\b(csid_front_\w+)\{([^}]*)\}`)
	grouped  = regexp.MustCompile(`by \(([^)]*)\) \(\w+\((csid_front_\w+)`)
	matchers = regexp.MustCompile(`(\w+)(=|!=|=~|!~)\\?"([^"\\]*)\\?"`)
)

// The dashboard, the alerts and docs/DEPLOY.md name only metrics of the front that exist, and only
// labels that these metrics have.
func TestMetricsThatAreNamed(t *testing.T) {
	names := reportedSeries(t)
	codeNames := map[string]bool{}
	for code := codes.OK; code <= codes.Unauthenticated; code++ {
		codeNames[code.String()] = true
	}
	for _, file := range []string{"deploy/dashboard.json", "deploy/alerts.yaml", "docs/DEPLOY.md"} {
		text := page(t, file)
		found := named.FindAllString(text, -1)
		if len(found) == 0 {
			t.Errorf("%s names no metric", file)
		}
		for _, name := range found {
			if names[name] == nil {
				t.Errorf("%s names %s", file, name)
			}
		}
		for _, group := range grouped.FindAllStringSubmatch(text, -1) {
			for _, label := range strings.Split(group[1], ", ") {
				if !names[group[2]][label] {
					t.Errorf("%s: %s has no label %s", file, group[2], label)
				}
			}
		}
		for _, selector := range matched.FindAllStringSubmatch(text, -1) {
			for _, matcher := range matchers.FindAllStringSubmatch(selector[2], -1) {
				label, value := matcher[1], matcher[3]
				isKnown := names[selector[1]][label] && (label != "method" || isMethod(matcher[2], value))
				if !isKnown || label == "code" && !codeNames[value] {
					t.Errorf("%s: %s has no label %s of %q", file, selector[1], label, value)
				}
			}
		}
	}
}

// isMethod reports whether a matcher of the label `method` matches a method that the front counts.
func isMethod(operator, value string) bool {
	if strings.HasSuffix(operator, "~") {
		pattern := regexp.MustCompile("^(?:" + value + ")$")
		for _, known := range []map[string]bool{methods, nodeMethods} {
			for method := range known {
				if pattern.MatchString(method) {
					return true
				}
			}
		}
		return false
	}
	return methodLabel(value) == value || nodeMethods[value]
}

// docs/DEPLOY.md has a row for each metric of the front itself, and for each alert.
func TestPageOfMetrics(t *testing.T) {
	text := page(t, "docs/DEPLOY.md")
	for name := range reportedSeries(t) {
		isPart := regexp.MustCompile(`_(bucket|sum|count)$`).MatchString(name)
		if strings.HasPrefix(name, namespace) && !isPart && !strings.Contains(text, "\n| `"+name) {
			t.Errorf("no row for %s", name)
		}
	}
	for _, alert := range regexp.MustCompile(`alert: (\w+)`).FindAllStringSubmatch(page(t, "deploy/alerts.yaml"), -1) {
		if !strings.Contains(text, "\n| `"+alert[1]+"` |") {
			t.Errorf("no row for %s", alert[1])
		}
	}
}
