package main

import (
	"errors"
	"fmt"
	"os"
	"os/signal"
	"path/filepath"
	"strings"
	"testing"
	"time"

	"golang.org/x/sys/unix"
)

// openOrFail calls openRevisions, and fails the test after an error.
func openOrFail(t *testing.T, path string, acceptOlder bool) *revisions {
	t.Helper()
	r, err := openRevisions(path, acceptOlder)
	if err != nil {
		t.Fatal(err)
	}
	return r
}

func saveOrFail(t *testing.T, r *revisions) {
	t.Helper()
	if err := r.save(); err != nil {
		t.Fatal(err)
	}
}

// wantFile checks the text of a file.
func wantFile(t *testing.T, path, want string) {
	t.Helper()
	if text, err := os.ReadFile(path); err != nil || string(text) != want {
		t.Errorf("%s: got %q, error %v, want %q", path, text, err, want)
	}
}

// The file keeps the greatest revision over a stop. A lower one is refused from then on.
func TestRevisions(t *testing.T) {
	path := filepath.Join(t.TempDir(), "revision")
	first := openOrFail(t, path, false)
	if err := first.check(first.least(), 1); err != nil {
		t.Fatal(err)
	}
	first.record(110)
	first.record(105)
	saveOrFail(t, first)
	wantFile(t, path, "110\n")
	second := openOrFail(t, path, false)
	if err := second.check(second.least(), 110); err != nil {
		t.Errorf("the same revision: got error %v", err)
	}
	// A request sent before another answer may have an older answer.
	before := second.least()
	second.record(112)
	if err := second.check(before, 111); err != nil {
		t.Errorf("sent before: got error %v", err)
	}
	const want = "etcd is at revision 111, and 112 was answered: it was restored from an older snapshot, and volumes " +
		"may be missing; --accept-older goes on"
	for _, revision := range []int64{111, 200} {
		if err := second.check(second.least(), revision); errorText(err) != want {
			t.Errorf("revision %d: got error %v, want %s", revision, err, want)
		}
	}
	// The refusal outlasts a stop.
	saveOrFail(t, second)
	wantFile(t, path, "112 111\n")
	again := openOrFail(t, path, false)
	if again.saved != "112 111\n" {
		t.Errorf("after a stop: got the text %q", again.saved)
	}
	if err := again.check(again.least(), 200); errorText(err) != want {
		t.Errorf("after a stop: got error %v, want %s", err, want)
	}
}

// With --accept-older the revision in the file is forgotten for good, even if the program ends
// before it answers csid.
func TestAcceptOlder(t *testing.T) {
	path := filepath.Join(t.TempDir(), "revision")
	if err := os.WriteFile(path, []byte("112 111\n"), 0o600); err != nil {
		t.Fatal(err)
	}
	first := openOrFail(t, path, true)
	if err := first.check(first.least(), 50); err != nil {
		t.Fatal(err)
	}
	saveOrFail(t, first)
	second := openOrFail(t, path, false)
	if err := second.check(second.least(), 1); err != nil {
		t.Errorf("after no answer: got error %v", err)
	}
	first.record(50)
	saveOrFail(t, first)
	third := openOrFail(t, path, false)
	if third.greatest != 50 || third.check(third.least(), 49) == nil {
		t.Errorf("after an answer at 50: got revision %d, and 49 is accepted", third.greatest)
	}
}

// A lower revision of etcd is written to the file at once, not at the next regular time: the
// program may be stopped before.
func TestOlderIsWrittenAtOnce(t *testing.T) {
	path := filepath.Join(t.TempDir(), "revision")
	r, err := openRevisions(path, false)
	if err != nil {
		t.Fatal(err)
	}
	r.record(112)
	end := make(chan struct{})
	defer close(end)
	go r.saveUntil(end, t.Logf)
	if r.check(r.least(), 111) == nil {
		t.Fatal("an older etcd is not refused")
	}
	for begin := time.Now(); ; time.Sleep(time.Millisecond) {
		text, _ := os.ReadFile(path)
		if string(text) == "112 111\n" {
			return
		}
		if time.Since(begin) > savePause/2 {
			t.Fatalf("got %q in the file", text)
		}
	}
}

func TestBadRevisionFile(t *testing.T) {
	path := filepath.Join(t.TempDir(), "revision")
	cases := []string{"", "\n", "x", "-1\n", "01\n", "1\n\n", "1 \n", " 1\n", "1 1\n", "1 2\n", "2 01\n", "2 1 0\n",
		"9223372036854775808\n"}
	for _, text := range cases {
		t.Run(fmt.Sprintf("%q", text), func(t *testing.T) {
			if err := os.WriteFile(path, []byte(text), 0o600); err != nil {
				t.Fatal(err)
			}
			if r, err := openRevisions(path, false); err == nil {
				t.Errorf("got revision %d, want an error", r.greatest)
			}
		})
	}
	t.Run("no file", func(t *testing.T) {
		if r, err := openRevisions(path+".none", false); err != nil || r.greatest != 0 {
			t.Errorf("got %v, error %v, want revision 0", r, err)
		}
	})
	t.Run("folder", func(t *testing.T) {
		if _, err := openRevisions(filepath.Dir(path), false); err == nil {
			t.Error("got no error")
		}
	})
}

// After a failure the file is written later, even without a new answer. The file is replaced as a
// whole: a crash leaves the old text or the new one.
func TestSaveAgain(t *testing.T) {
	folder := filepath.Join(t.TempDir(), "none")
	r := &revisions{path: filepath.Join(folder, "revision")}
	r.record(7)
	if r.save() == nil {
		t.Fatal("it was written without its folder")
	}
	if err := os.Mkdir(folder, 0o700); err != nil {
		t.Fatal(err)
	}
	saveOrFail(t, r)
	old := r.path + ".old"
	if err := os.Link(r.path, old); err != nil {
		t.Fatal(err)
	}
	r.record(8)
	saveOrFail(t, r)
	wantFile(t, old, "7\n")
	wantFile(t, r.path, "8\n")
}

// A file that could not be written completely does not replace the old one.
func TestNotWrittenWhole(t *testing.T) {
	path := filepath.Join(t.TempDir(), "revision")
	r := &revisions{path: path}
	for _, c := range []struct {
		revision int64
		isFull   bool
		want     string
	}{{7, false, "7\n"}, {8, true, "7\n"}, {9, false, "9\n"}} {
		r.record(c.revision)
		save := r.save
		if c.isFull {
			save = func() error { return withoutRoom(t, r.save) }
		}
		if err := save(); (err != nil) != c.isFull {
			t.Errorf("revision %d: got error %v, want one: %v", c.revision, err, c.isFull)
		}
		if at, err := os.Lstat(path); err != nil || !at.Mode().IsRegular() {
			t.Fatalf("revision %d: got no regular file, error %v", c.revision, err)
		}
		wantFile(t, path, c.want)
	}
}

// withoutRoom calls do while no file may grow.
func withoutRoom(t *testing.T, do func() error) error {
	t.Helper()
	signal.Ignore(unix.SIGXFSZ)
	defer signal.Reset(unix.SIGXFSZ)
	var before unix.Rlimit
	if err := unix.Getrlimit(unix.RLIMIT_FSIZE, &before); err != nil {
		t.Fatal(err)
	}
	if err := unix.Setrlimit(unix.RLIMIT_FSIZE, &unix.Rlimit{Cur: 0, Max: before.Max}); err != nil {
		t.Fatal(err)
	}
	defer unix.Setrlimit(unix.RLIMIT_FSIZE, &before)
	return do()
}

// A link at PATH.new is not followed: its target keeps its bytes, and the link is reported.
func TestLinkIsNotFollowed(t *testing.T) {
	folder := t.TempDir()
	path, other := filepath.Join(folder, "revision"), filepath.Join(folder, "other")
	if err := os.WriteFile(other, []byte("other"), 0o600); err != nil {
		t.Fatal(err)
	}
	if err := os.Symlink(other, path+".new"); err != nil {
		t.Fatal(err)
	}
	r := &revisions{path: path}
	r.record(7)
	if err := r.save(); !errors.Is(err, os.ErrExist) || !strings.Contains(err.Error(), path+".new") {
		t.Errorf("got error %v, want one that names the link", err)
	}
	wantFile(t, other, "other")
	if _, err := os.Lstat(path); err == nil {
		t.Error("the link became the file")
	}
	// After the link is removed, the file is written, even if a crash left an unfinished file.
	if err := os.Remove(path + ".new"); err != nil {
		t.Fatal(err)
	}
	if err := os.WriteFile(path+".new", []byte("12345"), 0o600); err != nil {
		t.Fatal(err)
	}
	saveOrFail(t, r)
	wantFile(t, path, "7\n")
}

// Several failures in a row are reported once. The first failure after a success is reported again.
func TestFailuresAreReported(t *testing.T) {
	folder := filepath.Join(t.TempDir(), "none")
	r := &revisions{path: filepath.Join(folder, "revision"), olderSeen: make(chan struct{})}
	lines := 0
	end, done := make(chan struct{}), make(chan struct{})
	go func() {
		defer close(done)
		r.saveUntil(end, func(string, ...interface{}) { lines++ })
	}()
	for i, step := range []struct {
		begin func() error
		want  int
	}{
		{func() error { return nil }, 1},
		{func() error { return os.Mkdir(folder, 0o700) }, 1},
		{func() error { return os.RemoveAll(folder) }, 2},
		{func() error { return os.Mkdir(folder, 0o700) }, 2},
	} {
		if err := step.begin(); err != nil {
			t.Fatal(err)
		}
		r.record(int64(i) + 1)
		// The second value is received after the write that the first one caused.
		r.olderSeen <- struct{}{}
		r.olderSeen <- struct{}{}
		if lines != step.want {
			t.Errorf("step %d: got %d lines, want %d", i, lines, step.want)
		}
	}
	close(end)
	<-done
}

// saveUntil writes the file a last time at the end. Several failures in a row are reported once.
func TestKeepRevisions(t *testing.T) {
	folder := filepath.Join(t.TempDir(), "none")
	r := &revisions{path: filepath.Join(folder, "revision")}
	lines := 0
	end, done := make(chan struct{}), make(chan struct{})
	go func() {
		defer close(done)
		r.saveUntil(end, func(string, ...interface{}) { lines++ })
	}()
	r.record(7)
	time.Sleep(2*savePause + savePause/2)
	if err := os.Mkdir(folder, 0o700); err != nil {
		t.Fatal(err)
	}
	r.record(8)
	close(end)
	<-done
	wantFile(t, r.path, "8\n")
	if lines != 1 {
		t.Errorf("got %d lines, want 1", lines)
	}
}
