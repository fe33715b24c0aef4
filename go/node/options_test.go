package main

import (
	"os"
	"path/filepath"
	"reflect"
	"strings"
	"syscall"
	"testing"
)

func TestServeOptions(t *testing.T) {
	here, err := os.Getwd()
	if err != nil {
		t.Fatal(err)
	}
	zones := &topology{Segments: map[string]string{"zone": "a", "rack": ""}}
	cases := []struct {
		name, args string
		want       serveOptions
	}{
		{"defaults", "--listen l --controller c --node n1 --pool p1=/a", serveOptions{"l", "c", "pools.example.org",
			nodeInfo{NodeID: "n1"}, pools{"p1": "/a"}, devices{}}},
		{"all options", "--listen l --controller c --node n1 --pool p1=a/../b --pool p2=/a=b --without-devices " +
			"--name x " +
			"--max-volumes 3 --topology zone=a,rack=", serveOptions{"l", "c", "x",
			nodeInfo{NodeID: "n1", MaxVolumes: 3, AccessibleTopology: zones},
			pools{"p1": filepath.Join(here, "b"), "p2": "/a=b"}, folders{}}},
	}
	for _, c := range cases {
		t.Run(c.name, func(t *testing.T) {
			got, err := readServeOptions(strings.Fields(c.args), os.Stdout)
			if err != nil || !reflect.DeepEqual(got, c.want) {
				t.Errorf("got %v, error %v, want %v", got, err, c.want)
			}
		})
	}
}

// A refused command line, and a sweep of a missing folder, have this standard error and this exit
// status.
func TestUsageErrors(t *testing.T) {
	const serve = "serve --listen l --controller c --node n1 --pool p1=/a "
	cases := []struct {
		args   string
		status int
		want   string
	}{
		{"", exitUsage, usageText},
		{"mount", exitUsage, usageText},
		{"serve", exitUsage, "node-plugin: --listen is missing\n"},
		{"serve --listen l", exitUsage, "node-plugin: --controller is missing\n"},
		{"serve --listen l --controller c", exitUsage, "node-plugin: --node is missing\n"},
		{"serve --listen l --controller c --node n1", exitUsage, "node-plugin: --pool is missing\n"},
		{serve + "--name=", exitUsage, "node-plugin: --name is missing\n"},
		{serve + "x", exitUsage, "node-plugin: a word that is not known: \"x\"\n"},
		{serve + "--max-volumes -1", exitUsage, "node-plugin: --max-volumes: -1 is below 0\n"},
		{serve + "--frobnicate", exitUsage, "node-plugin: flag provided but not defined: -frobnicate\n"},
		{serve + "--pool p1=/b", exitUsage,
			"node-plugin: invalid value \"p1=/b\" for flag -pool: the pool \"p1\" is there twice\n"},
		{serve + "--pool p2", exitUsage,
			"node-plugin: invalid value \"p2\" for flag -pool: \"p2\" is not NAME=FOLDER\n"},
		{serve + "--pool =/b", exitUsage,
			"node-plugin: invalid value \"=/b\" for flag -pool: \"=/b\" is not NAME=FOLDER\n"},
		{serve + "--pool p2=", exitUsage,
			"node-plugin: invalid value \"p2=\" for flag -pool: \"p2=\" is not NAME=FOLDER\n"},
		{serve + "--topology zone", exitUsage,
			"node-plugin: invalid value \"zone\" for flag -topology: \"zone\" is not KEY=VALUE\n"},
		{serve + "--topology =a", exitUsage,
			"node-plugin: invalid value \"=a\" for flag -topology: \"=a\" is not KEY=VALUE\n"},
		{serve + "--topology zone=a,zone=b", exitUsage,
			"node-plugin: invalid value \"zone=a,zone=b\" for flag -topology: the key \"zone\" is there twice\n"},
		{"call Probe", exitUsage, "node-plugin: --socket is missing\n"},
		{"call --socket s", exitUsage, "node-plugin: METHOD is missing\n"},
		{"call --socket s Probe {} x", exitUsage, "node-plugin: a word that is not known: \"x\"\n"},
		{"call --socket s Probe {", exitUsage, "node-plugin: JSON: unexpected EOF\n"},
		{"call --socket s NodeUnstageVolume {\"id\":\"vol-1\"}", exitUsage,
			"node-plugin: JSON: json: unknown field \"id\"\n"},
		{"call --socket s Frobnicate", exitUsage,
			"node-plugin: METHOD: \"Frobnicate\" is none of ControllerPublishVolume, ControllerUnpublishVolume, " +
				"CreateVolume, " +
				"DeleteVolume, GetPluginCapabilities, GetPluginInfo, ListVolumes, NodeGetCapabilities, NodeGetInfo, " +
				"NodeGetVolumeStats, " +
				"NodePublishVolume, NodeStageVolume, NodeUnpublishVolume, NodeUnstageVolume, Probe\n"},
		{"sweep", exitUsage, "node-plugin: --controller is missing\n"},
		{"sweep --controller c", exitUsage, "node-plugin: --pool is missing\n"},
		{"sweep --controller c --pool p1=/nowhere", exitFailure,
			"node-plugin: open /nowhere: no such file or directory\n"},
	}
	for _, c := range cases {
		t.Run(strings.TrimSpace("node-plugin "+c.args), func(t *testing.T) {
			var out, log strings.Builder
			status := run(strings.Fields(c.args), &out, &log)
			if status != c.status || log.String() != c.want || out.String() != "" {
				t.Errorf("got %d, %q, output %q, want %d, %q", status, log.String(), out.String(), c.status, c.want)
			}
		})
	}
}

func TestHelp(t *testing.T) {
	cases := []struct{ name, args, want string }{
		{"help", "--help", usageText},
		{"version", "--version", "node-plugin unknown\n"},
		{"help of serve", "serve --help", usageText},
		{"options of serve", "serve --help", "-without-devices"},
		{"options of call", "call --help", "-socket PATH"},
		{"options of sweep", "sweep --help", "-remove"},
	}
	for _, c := range cases {
		t.Run(c.name, func(t *testing.T) {
			var out, log strings.Builder
			status := run(strings.Fields(c.args), &out, &log)
			if status != exitOK || !strings.Contains(out.String(), c.want) || log.String() != "" {
				t.Errorf("got %d, %q, errors %q, want %q", status, out.String(), log.String(), c.want)
			}
		})
	}
}

// failingOutput is an output to which no write succeeds.
type failingOutput struct{ err error }

func (o failingOutput) Write([]byte) (int, error) { return 0, o.err }

// If the help or the version cannot be written, the exit status is 5, but 0 if the reader has gone.
func TestHelpToAFailingOutput(t *testing.T) {
	for _, args := range []string{"--help", "--version", "serve --help"} {
		var log strings.Builder
		status := run(strings.Fields(args), failingOutput{syscall.ENOSPC}, &log)
		if want := "node-plugin: a write to standard output failed\n"; status != 5 || log.String() != want {
			t.Errorf("%s: got %d, %q, want 5, %q", args, status, log.String(), want)
		}
		log.Reset()
		status = run(strings.Fields(args), failingOutput{syscall.EPIPE}, &log)
		if status != exitOK || log.String() != "" {
			t.Errorf("%s to a reader that has gone: got %d, %q, want 0", args, status, log.String())
		}
	}
}

// Words after the JSON of a call are refused, and not dropped.
func TestMoreThanOneJSON(t *testing.T) {
	const one = `{"volume_id":"vol-1"}`
	for text, isGood := range map[string]bool{"": true, one: true, one + "\n": true, one + one: false, one + "}": false,
		one + ` x`: false} {
		request := new(deleteRequest)
		if err := decodeJSON(text, request); (err == nil) != isGood {
			t.Errorf("%q: got error %v, want none: %v", text, err, isGood)
		}
	}
}
