package main

import (
	"os"
	"path/filepath"
	"reflect"
	"sort"
	"strings"
	"testing"
)

// sweep prints the data of unlisted volumes in two folders, and removes them only with --remove.
// Other files stay.
func TestSweep(t *testing.T) {
	socket := startController(t, pageServer{[]int{1, 3}, 9, 1}.list)
	first, second := folder(t), folder(t)
	for _, path := range []string{
		first + "/vol-1.img", first + "/vol-2.img", first + "/vol-02.img", first + "/notes", first + "/vol-4.img.new",
		second + "/vol-3.img",
	} {
		if err := os.WriteFile(path, []byte("data"), 0o600); err != nil {
			t.Fatal(err)
		}
	}
	for _, path := range []string{second + "/vol-9.d/sub", second + "/vol-1.d"} {
		if err := os.MkdirAll(path, 0o700); err != nil {
			t.Fatal(err)
		}
	}
	unlisted := []string{first + "/vol-2.img", first + "/vol-4.img.new", second + "/vol-9.d"}
	sort.Strings(unlisted)
	all := []string{"notes", "vol-02.img", "vol-1.d", "vol-1.img", "vol-2.img", "vol-3.img", "vol-4.img.new", "vol-9.d"}
	kept := []string{"notes", "vol-02.img", "vol-1.d", "vol-1.img", "vol-3.img"}
	cases := []struct {
		name, option string
		out, left    []string
	}{
		{"show", "", unlisted, all},
		{"remove", "--remove", unlisted, kept},
		{"remove again", "--remove", nil, kept},
	}
	for _, c := range cases {
		t.Run(c.name, func(t *testing.T) {
			var out, log strings.Builder
			args := []string{"sweep", "--controller", socket, "--pool", "p1=" + first, "--pool", "p2=" + second}
			status := run(append(args, strings.Fields(c.option)...), &out, &log)
			got := strings.Fields(out.String())
			sort.Strings(got)
			if status != exitOK || log.String() != "" || strings.Join(got, " ") != strings.Join(c.out, " ") {
				t.Errorf("got %d, %q, errors %q, want %q", status, out.String(), log.String(), c.out)
			}
			if left := names(t, first, second); !reflect.DeepEqual(left, c.left) {
				t.Errorf("got %v left, want %v", left, c.left)
			}
		})
	}
}

// names returns the sorted names of the files in these folders, or nil if the folders are empty.
func names(t *testing.T, folders ...string) (all []string) {
	t.Helper()
	for _, each := range folders {
		paths, err := filepath.Glob(each + "/*")
		if err != nil {
			t.Fatal(err)
		}
		for _, path := range paths {
			all = append(all, filepath.Base(path))
		}
	}
	sort.Strings(all)
	return all
}

// If the controller is not reachable, nothing is removed.
func TestSweepWithoutController(t *testing.T) {
	pool := folder(t)
	if err := os.WriteFile(pool+"/vol-1.img", nil, 0o600); err != nil {
		t.Fatal(err)
	}
	var out, log strings.Builder
	status := run([]string{"sweep", "--controller", pool + "/csi.sock", "--pool", "p1=" + pool, "--remove"}, &out, &log)
	if status != exitFailure || !strings.HasPrefix(log.String(), "node-plugin: Unavailable: ") || out.String() != "" {
		t.Errorf("got %d, %q, errors %q, want 1 and Unavailable", status, out.String(), log.String())
	}
	if left := names(t, pool); !reflect.DeepEqual(left, []string{"vol-1.img"}) {
		t.Errorf("got %v left, want vol-1.img", left)
	}
}
