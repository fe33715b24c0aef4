package main

import (
	"errors"
	"os"
	"path/filepath"
	"syscall"
	"testing"
)

// A device that cannot be read gets no file system. blkid has the same exit status for it as for a
// device without contents. A folder plays the device: it can be opened, and each read fails.
func TestUnreadableDeviceIsNotFormatted(t *testing.T) {
	programs, device := t.TempDir(), t.TempDir()
	formatted := filepath.Join(programs, "formatted")
	script := "#!/bin/sh\n: > '" + formatted + "'\n"
	if err := os.WriteFile(filepath.Join(programs, "mkfs.ext4"), []byte(script), 0o755); err != nil {
		t.Fatal(err)
	}
	t.Setenv("PATH", programs+":"+os.Getenv("PATH"))
	err := format(device)
	if _, found := os.Lstat(formatted); !errors.Is(err, syscall.EISDIR) || found == nil {
		t.Errorf("got error %v, formatted %v, want %v and no file system", err, found == nil, syscall.EISDIR)
	}
	empty := filepath.Join(programs, "empty.img")
	if err := os.WriteFile(empty, make([]byte, 4096), 0o600); err != nil {
		t.Fatal(err)
	}
	if err := format(empty); err != nil {
		t.Errorf("without contents: got error %v", err)
	}
	if _, err := os.Lstat(formatted); err != nil {
		t.Error("without contents: got no file system")
	}
}
