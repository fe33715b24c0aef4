package files

import (
	"os"
	"path/filepath"
	"syscall"
	"testing"
)

// Create replaces a regular file. Anything else with its name stays unchanged and is not opened.
func TestCreate(t *testing.T) {
	cases := []struct {
		name   string
		put    func(path, other string) error
		isMade bool
	}{
		{"nothing", func(path, other string) error { return nil }, true},
		{"a file", func(path, other string) error { return os.WriteFile(path, []byte("longer than new"), 0o644) },
			true},
		{"another name of a file", func(path, other string) error { return os.Link(other, path) }, true},
		{"a link to a file", func(path, other string) error { return os.Symlink(other, path) }, false},
		{"a link to nothing", func(path, other string) error { return os.Symlink(other+".none", path) }, false},
		{"a folder", func(path, other string) error { return os.Mkdir(path, 0o700) }, false},
		{"a pipe", func(path, other string) error { return syscall.Mkfifo(path, 0o600) }, false},
	}
	for _, c := range cases {
		t.Run(c.name, func(t *testing.T) {
			folder := t.TempDir()
			path, other := filepath.Join(folder, "a.new"), filepath.Join(folder, "other")
			if err := os.WriteFile(other, []byte("other"), 0o600); err != nil {
				t.Fatal(err)
			}
			if err := c.put(path, other); err != nil {
				t.Fatal(err)
			}
			before, _ := os.Lstat(path)
			file, err := Create(path, 0o600)
			if !c.isMade {
				after, statErr := os.Lstat(path)
				if !os.IsExist(err) || statErr != nil || !os.SameFile(before, after) {
					t.Errorf("%v, and what is there is %v, %v", err, after, statErr)
				}
			} else if err != nil {
				t.Error(err)
			} else {
				wantsNew(t, file, path)
			}
			if text, err := os.ReadFile(other); err != nil || string(text) != "other" {
				t.Errorf("the other file has %q, %v", text, err)
			}
			if _, err := os.Lstat(other + ".none"); err == nil {
				t.Error("a file was made through the link")
			}
		})
	}
}

// wantsNew writes "new" to a file, and checks that the file then has no other text, and mode 0600.
func wantsNew(t *testing.T, file *os.File, path string) {
	t.Helper()
	_, err := file.WriteString("new")
	if closing := file.Close(); err == nil {
		err = closing
	}
	text, readErr := os.ReadFile(path)
	stat, statErr := os.Lstat(path)
	if err != nil || readErr != nil || statErr != nil || string(text) != "new" || stat.Mode() != 0o600 {
		t.Errorf("%q, %v, %v, %v, %v", text, stat, err, readErr, statErr)
	}
}
