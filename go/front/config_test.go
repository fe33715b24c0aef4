package main

import (
	"os"
	"path/filepath"
	"reflect"
	"strings"
	"testing"

	"google.golang.org/grpc/codes"
)

// fileOf makes the file config.toml with this text in a new folder, and returns its path.
func fileOf(t *testing.T, text string) string {
	t.Helper()
	path := filepath.Join(t.TempDir(), "config.toml")
	if err := os.WriteFile(path, []byte(text), 0o600); err != nil {
		t.Fatal(err)
	}
	return path
}

// The pools and nodes of the sample in docs/OPERATING.md are read. Keys of csid that the front does
// not need are skipped.
func TestConfiguration(t *testing.T) {
	_, sample, _ := strings.Cut(page(t, "docs/OPERATING.md"), "\n```\n")
	sample, _, _ = strings.Cut(sample, "```\n")
	got, err := readConfiguration(fileOf(t, sample))
	want := &configuration{[]pool{{"p1", 10485760, map[string]string{"zone": "a"}},
		{"p2", 4194304, map[string]string{"zone": "b"}}}, []node{{"n1", 2}, {"n2", 2}}}
	if err != nil || !reflect.DeepEqual(got, want) {
		t.Errorf("%v, %v", got, err)
	}
	const pool = "[[pool]]\nname = \"p\"\nbytes = 1048576\n"
	if got, err := readConfiguration(fileOf(t, pool+"unknown = [1]\n")); err != nil || len(got.Nodes) != 0 {
		t.Errorf("a pool without nodes: %v, %v", got, err)
	}
	if got, err := readConfiguration(fileOf(t, pool+"[[node]]\nid = \"p\"\nmax_volumes = 1\n")); err != nil ||
		len(got.Nodes) != 1 {
		t.Errorf("a node that has the name of a pool: %v, %v", got, err)
	}
}

// The front reads a file as csid does: a key counts only in its own case, and a byte order mark is
// skipped.
func TestConfigurationAsCsidReadsIt(t *testing.T) {
	const poolP, nodeN = "[[pool]]\nname = \"p\"\nbytes = 2097152\n", "[[node]]\nid = \"n\"\nmax_volumes = 2\n"
	want := &configuration{[]pool{{"p", 2097152, nil}}, []node{{"n", 2}}}
	for _, row := range []struct{ name, text string }{
		{"a byte order mark", "\ufeff" + poolP + nodeN},
		{"another list of pools", poolP + nodeN + "[[Pool]]\nname = \"q\"\nbytes = 1048576\n"},
		{"another name", poolP + "Name = \"q\"\n" + nodeN},
		{"another size", poolP + "Bytes = 1048576\n" + nodeN},
		{"other segments", poolP + "Segments = { zone = \"a\" }\n" + nodeN},
		{"another list of nodes", poolP + nodeN + "[[NODE]]\nid = \"m\"\nmax_volumes = 1\n"},
		{"another id", poolP + nodeN + "ID = \"m\"\n"},
		{"another number of volumes", poolP + nodeN + "Max_Volumes = 1\n"},
	} {
		t.Run(row.name, func(t *testing.T) {
			if got, err := readConfiguration(fileOf(t, row.text)); err != nil || !reflect.DeepEqual(got, want) {
				t.Errorf("%v, %v", got, err)
			}
		})
	}
}

// A configuration is answered as the JSON that csictl reads. Without a configuration the call is
// refused.
func TestConfigurationInJSON(t *testing.T) {
	const pool, node = "[[pool]]\nname = \"p\"\nbytes = 1048576\n", "[[node]]\nid = \"n 1\"\nmax_volumes = 2\n"
	rows := []struct{ text, want string }{
		{pool, `{"pools":[{"name":"p","bytes":1048576}],"nodes":[]}`},
		{pool + "segments = { zone = \"a\", rack = \"7\" }\n" + node,
			`{"pools":[{"name":"p","bytes":1048576,"segments":{"rack":"7","zone":"a"}}],` +
				`"nodes":[{"id":"n 1","maxVolumes":2}]}`},
	}
	for _, row := range rows {
		config, err := readConfiguration(fileOf(t, row.text))
		if err != nil {
			t.Fatal(err)
		}
		if got := config.reply(); got.Code != codes.OK || string(got.Body) != row.want {
			t.Errorf("%q: %v %q %s", row.text, got.Code, got.Text, got.Body)
		}
	}
	var none *configuration
	if got := none.reply(); got.Code != codes.Unimplemented || got.Text != "the front has no --config" ||
		got.Body != nil {
		t.Errorf("without a configuration: %v", got)
	}
}

func TestRefusedConfiguration(t *testing.T) {
	const p, n = "[[pool]]\nname = \"p\"\nbytes = 1048576\n", "[[node]]\nid = \"n\"\nmax_volumes = 1\n"
	rows := []struct{ text, want string }{
		{"", "there is no pool"}, {n, "there is no pool"}, {"pool = 1", "pool"}, {"[[pool", "toml: "},
		{p + p, `pool "p"`}, {p + n + n, `node "n"`},
		{"[[pool]]\nname = \"p\"\n", `pool "p"`}, {"[[pool]]\nbytes = 1\n", `pool ""`},
		{"[[pool]]\nname = \"p\"\nbytes = \"1\"\n", "bytes"},
		{"[[pool]]\nname = \"p\"\nbytes = -1\n", `pool "p"`}, {p + "[[node]]\nid = \"n\"\n", `node "n"`},
		{p + "[[node]]\nmax_volumes = 1\n", `node ""`},
	}
	for _, row := range rows {
		if got, err := readConfiguration(fileOf(t, row.text)); err == nil || !strings.Contains(err.Error(), row.want) {
			t.Errorf("%q: %v, %v", row.text, got, err)
		}
	}
	if _, err := readConfiguration(filepath.Join(t.TempDir(), "absent")); !os.IsNotExist(err) {
		t.Errorf("a file that is not there: %v", err)
	}
}
