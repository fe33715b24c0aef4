package main

import (
	"errors"
	"flag"
	"io"
	"reflect"
	"strings"
	"testing"
	"time"
)

const sampleConfiguration = "[[pool]]\nname = \"p\"\nbytes = 1048576\n"

// defaultsWith returns the options of `--csid c --listen l` after a change.
func defaultsWith(change func(*options)) options {
	opts := options{listen: "l", csid: "c", grace: 20 * time.Second, late: time.Minute, waiting: 64, logFormat: "text"}
	change(&opts)
	return opts
}

func TestOptions(t *testing.T) {
	config := configuration{Pools: []pool{{"p", 1048576, nil}}, Nodes: []node{}}
	topologies := []topology{
		{"zone=a", fromHex(t, "1a0b 0a09 0a047a6f6e65 120161")},
		{"zone=b,rack=", fromHex(t, "1a15 0a09 0a047a6f6e65 120162 0a08 0a047261636b 1200")},
	}
	for _, c := range []struct {
		words, endpoint string
		change          func(*options)
	}{
		{"--csid c --listen l", "", func(o *options) {}},
		{"-csid=c -listen=l -grace=1m -late=30s -waiting=1", "",
			func(o *options) { o.grace, o.late, o.waiting = time.Minute, 30*time.Second, 1 }},
		{"--csid c --listen l --grace 0s --late 0s --waiting 1048576", "",
			func(o *options) { o.grace, o.late, o.waiting = 0, 0, 1048576 }},
		{"--csid c", "unix:///run/csi.sock", func(o *options) { o.listen = "/run/csi.sock" }},
		{"--csid c", "/run/csi.sock", func(o *options) { o.listen = "/run/csi.sock" }},
		{"--csid unix:c", "unix:l", func(o *options) {}},
		{"--csid c --listen unix://l", "unix:///run/csi.sock", func(o *options) {}},
		{"--csid c --listen l --log-format json --health --log-changes", "",
			func(o *options) { o.logFormat, o.health, o.logChanges = "json", true, true }},
		{"--csid c --listen l --node n", "", func(o *options) { o.node = "n" }},
		{"--csid c --listen l --node unix://n", "", func(o *options) { o.node = "n" }},
		{"--csid c --listen l --control unix://k", "", func(o *options) { o.control = "k" }},
		{"--csid c --listen l --control k --control-group csid", "",
			func(o *options) { o.control, o.controlGroup = "k", "csid" }},
		{"--csid c --listen l --standby 1s", "", func(o *options) { o.standby = time.Second }},
		{"--csid c --listen l --standby 60m", "", func(o *options) { o.standby = time.Hour }},
		{"--csid c --listen l --metrics 127.0.0.1:0", "", func(o *options) { o.metrics = "127.0.0.1:0" }},
		{"--csid c --listen l --metrics [::1]:65535", "", func(o *options) { o.metrics = "[::1]:65535" }},
		{"--csid c --listen l --metrics :9809", "", func(o *options) { o.metrics = ":9809" }},
		{"--csid c --listen l --metrics :9809 --config " + fileOf(t, sampleConfiguration), "",
			func(o *options) { o.metrics, o.configuration = ":9809", &config }},
		{"--csid c --listen l --control k --config " + fileOf(t, sampleConfiguration), "",
			func(o *options) { o.control, o.configuration = "k", &config }},
		{"--csid c --listen l --metrics-topology zone=a --metrics :9809 --metrics-topology zone=b,rack=", "",
			func(o *options) { o.metrics, o.topologies = ":9809", topologies }},
	} {
		t.Run(c.words+" "+c.endpoint, func(t *testing.T) {
			got, err := readOptions(strings.Fields(c.words), c.endpoint, io.Discard)
			if want := defaultsWith(c.change); err != nil || !reflect.DeepEqual(got, want) {
				t.Errorf("%v, %v, wanted %v", got, err, want)
			}
		})
	}
}

func TestRefusedOptions(t *testing.T) {
	rows := []struct{ words, endpoint, want string }{
		{"", "", "--listen or CSI_ENDPOINT: the path of a socket is missing"},
		{"--listen l", "", "--csid: the path of a socket is missing"},
		{"--csid c", "unix://", "--listen or CSI_ENDPOINT: the path of a socket is missing"},
		{"--csid c", "tcp://127.0.0.1:1", "is no Unix socket"},
		{"--csid c --listen c", "", "the two sockets are one"},
		{"--csid c --listen unix://c", "", "the two sockets are one"},
		{"--csid c --listen l x", "", "a word that is not known"},
		{"--csid c --listen l --frobnicate", "", "frobnicate"},
		{"--csid c --listen l --grace x", "", "grace"},
		{"--csid c --listen l --grace -1s", "", "--grace: -1s is below 0"},
		{"--csid c --listen l --late -1s", "", "--late: -1s is below 0"},
		{"--csid c --listen l --waiting 0", "", "--waiting: 0 is not 1 to 1048576"},
		{"--csid c --listen l --waiting 1048577", "", "--waiting: 1048577 is not 1 to 1048576"},
		{"--csid c --listen l --waiting x", "", "waiting"},
		{"--csid c --listen l --log-format xml", "", `--log-format: "xml" is neither text nor json`},
		{"--csid c --listen l --log-format=", "", `--log-format: "" is neither text nor json`},
		{"--csid c --listen l --node c", "", "--node: it is one of the other sockets"},
		{"--csid c --listen l --node unix:l", "", "--node: it is one of the other sockets"},
		{"--csid c --listen l --node k --control k", "", "--control: it is one of the other sockets"},
		{"--csid c --listen l --node tcp://127.0.0.1:1", "", "--node: \"tcp://127.0.0.1:1\" is no Unix socket"},
		{"--csid c --listen l --control c", "", "--control: it is one of the other sockets"},
		{"--csid c --listen l --control unix:l", "", "--control: it is one of the other sockets"},
		{"--csid c --listen l --control tcp://127.0.0.1:1", "", "--control: \"tcp://127.0.0.1:1\" is no Unix socket"},
		{"--csid c --listen l --control-group csid", "", "--control-group: there is no --control"},
		{"--csid c --listen l --standby 0", "", "standby: 0s is not 1s to 1h0m0s"},
		{"--csid c --listen l --standby 999ms", "", "standby: 999ms is not 1s to 1h0m0s"},
		{"--csid c --listen l --standby 61m", "", "standby: 1h1m0s is not 1s to 1h0m0s"},
		{"--csid c --listen l --standby x", "", "standby"},
		{"--csid c --listen l --metrics 9809", "", `--metrics: "9809" is no HOST:PORT`},
		{"--csid c --listen l --metrics localhost:x", "", `--metrics: "x" is no port from 0 to 65535`},
		{"--csid c --listen l --metrics localhost:65536", "", `--metrics: "65536" is no port from 0 to 65535`},
		{"--csid c --listen l --metrics localhost:", "", `--metrics: "" is no port from 0 to 65535`},
		{"--csid c --listen l --metrics-topology zone=a", "", "--metrics-topology: there is no --metrics"},
		{"--csid c --listen l --metrics :0 --metrics-topology zone", "", `"zone" is not KEY=VALUE`},
		{"--csid c --listen l --metrics :0 --metrics-topology =a", "", `"=a" is not KEY=VALUE`},
		{"--csid c --listen l --metrics :0 --metrics-topology zone=a,", "", `"" is not KEY=VALUE`},
		{"--csid c --listen l --metrics :0 --metrics-topology zone=a,zone=b", "", `the key "zone" is there twice`},
		{"--csid c --listen l --metrics :0 --metrics-topology zone=a --metrics-topology zone=a", "",
			"it is there twice"},
		{"--csid c --listen l --metrics :0 --metrics-topology zone=\xff", "", "it is not UTF-8"},
		{"--csid c --listen l --metrics :0 --config /absent/config.toml", "",
			"-config: open /absent/config.toml: no such file or directory"},
		{"--csid c --listen l --config " + fileOf(t, sampleConfiguration), "",
			"--config: there is neither --metrics nor --control"},
		{"--version x", "", "a word that is not known"},
		{"--csid", "l", "needs an argument"},
	}
	for _, row := range rows {
		if _, err := readOptions(strings.Fields(row.words), row.endpoint, io.Discard); err == nil ||
			!strings.Contains(err.Error(), row.want) {
			t.Errorf("%s, %s: %v", row.words, row.endpoint, err)
		}
	}
}

func TestHelp(t *testing.T) {
	var shown strings.Builder
	_, err := readOptions([]string{"--help"}, "", &shown)
	if !errors.Is(err, flag.ErrHelp) {
		t.Error(err)
	}
	words := []string{"usage: ", "-csid", "-listen", "-node", "-grace", "-late", "-waiting", "-log-format",
		"-log-changes", "-control", "-control-group", "-standby", "-health", "-metrics", "-metrics-topology",
		"-config", "-version"}
	for _, word := range words {
		if !strings.Contains(shown.String(), word) {
			t.Errorf("no %s in %s", word, shown.String())
		}
	}
}
