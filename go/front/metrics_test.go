package main

import (
	"io"
	"os"
	"reflect"
	"regexp"
	"strings"
	"testing"
	"time"

	"github.com/prometheus/client_golang/prometheus/testutil"
	"google.golang.org/grpc/codes"
)

// inFront returns the handler of a front for the csid at this path.
func inFront(path string) *handler {
	return newHandler(options{csid: path, late: time.Minute, waiting: 1}, newLogger(io.Discard, textLines))
}

// The table methods has exactly the methods in docs/PROTOCOL.md.
func TestMethodsOfTheProtocol(t *testing.T) {
	page, err := os.ReadFile("../../docs/PROTOCOL.md")
	if err != nil {
		t.Fatal(err)
	}
	told := map[string]bool{}
	for _, row := range regexp.MustCompile("(?m)^\\| `(/csi\\.v1\\.\\w+/)M` \\| "+
		"(.*) \\|$").FindAllStringSubmatch(string(page), -1) {
		for _, method := range strings.Split(row[2], ", ") {
			told[row[1]+method] = true
		}
	}
	if !reflect.DeepEqual(told, methods) {
		t.Errorf("%v, and the page has %v", methods, told)
	}
}

func TestMethodLabel(t *testing.T) {
	rows := map[string]string{
		"/csi.v1.Identity/Probe":          "/csi.v1.Identity/Probe",
		"/csi.v1.Controller/ListVolumes":  "/csi.v1.Controller/ListVolumes",
		"/csi.v1.Controller/ListVolumes/": "other",
		"/csi.v1.Identity/ListVolumes":    "other",
		"":                                "other",
		"other":                           "other",
		"/\xff":                           "other",
		"/grpc.health.v1.Health/Check":    "/grpc.health.v1.Health/Check",
		"/grpc.health.v1.Health/Watch":    "other",
		"/csi.v1.Node/NodeGetInfo":        "other",
	}
	for path, want := range rows {
		if got := methodLabel(path); got != want {
			t.Errorf("%q: %s", path, got)
		}
	}
}

// The names and help texts of all metrics follow Prometheus' conventions, and no metric occurs
// twice.
func TestConventions(t *testing.T) {
	_, path := listening(t)
	h := inFront(path + ".absent")
	h.standsBy = true
	h.node = newNodePlugin(path + ".absent")
	h.metrics.observe(probe, codes.OK, time.Second)
	faults, err := testutil.GatherAndLint(newRegistry(h, nil, newListings(h, room)))
	if err != nil || len(faults) > 0 {
		t.Errorf("%v, %v", faults, err)
	}
}

// A node plugin may answer any number as a code. The codes that gRPC does not have count as
// UNKNOWN, so that their series are bounded.
func TestCodesThatGRPCDoesNotHave(t *testing.T) {
	for _, path := range []string{nodeService + "NodeGetInfo", nodeService + "NodeOther", probe} {
		t.Run(path, func(t *testing.T) {
			m := newMetrics()
			m.begin(nodeMethods)
			m.observe(path, codes.Unknown, time.Second)
			before := testutil.CollectAndCount(m.calls)
			for code := codes.Unauthenticated + 1; code < 100; code++ {
				m.observe(path, code, time.Second)
			}
			if after := testutil.CollectAndCount(m.calls); after != before {
				t.Errorf("%d series, and %d before", after, before)
			}
			method := path
			if !nodeMethods[path] {
				method = methodLabel(path)
			}
			if count := testutil.ToFloat64(m.calls.WithLabelValues(method, "Unknown")); count != 84 {
				t.Errorf("%v calls are UNKNOWN, wanted 84", count)
			}
		})
	}
}

// Attempts that failed are counted apart from connections that were made.
func TestCountedConnections(t *testing.T) {
	path, _ := csid(t, answering(notFound))
	b := newBackend(path+".absent", time.Minute)
	for attempt := 0; attempt < 2; attempt++ {
		if _, err := b.call(soon(t), "/a/b", nil); err == nil {
			t.Fatal("there is no csid")
		}
	}
	b.path = path
	wantReply(t, b, codes.NotFound)
	wantReply(t, b, codes.NotFound)
	if failed, made := testutil.ToFloat64(b.failures), testutil.ToFloat64(b.connections); failed != 2 || made != 1 {
		t.Errorf("%v attempts failed, %v connections were made", failed, made)
	}
}
