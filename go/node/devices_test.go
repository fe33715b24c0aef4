package main

import (
	"bytes"
	"errors"
	"io"
	"os"
	"os/exec"
	"path/filepath"
	"strings"
	"syscall"
	"testing"
)

// Values of statfs for ext4 and for a mount with noatime.
const (
	ext4Magic = 0xef53
	noATime   = 1024
)

// newDeviceSession returns a session with devices, or skips the test if they are not available.
func newDeviceSession(t *testing.T) *session {
	t.Helper()
	needsDevices(t)
	s := newSession(t)
	t.Cleanup(func() { release(t, s.folder) })
	return s
}

// needsDevices skips the test if no file can be attached, or if a command is missing.
func needsDevices(t *testing.T) {
	t.Helper()
	for _, name := range []string{"losetup", "blkid", "mkfs.ext4", "mkswap", "mount", "umount", "findmnt"} {
		if _, err := exec.LookPath(name); err != nil {
			t.Skipf("left out: nothing is mounted, since there is no %s", name)
		}
	}
	data := filepath.Join(folder(t), "trial.img")
	if err := (devices{}).create(data, 1<<20); err != nil {
		t.Fatal(err)
	}
	device, err := attach(data, false)
	if err != nil {
		t.Log(err)
		t.Skip("left out: nothing is mounted, since no loop device can be attached (it takes root)")
	}
	if err := command("losetup", "--detach", device); err != nil {
		t.Fatal(err)
	}
}

// release unmounts and detaches the mounts and loop devices that a test has left in a folder. Each
// of them fails the test.
func release(t *testing.T, folder string) {
	t.Helper()
	for _, each := range []struct{ list, words, undo string }{
		{"findmnt", "--list --noheadings --output TARGET", "umount"},
		{"losetup", "--list --noheadings --output NAME,BACK-FILE", "losetup --detach"},
	} {
		listed, err := output(each.list, strings.Fields(each.words)...)
		if err != nil {
			t.Error(err)
		}
		for _, line := range strings.Split(listed, "\n") {
			if !strings.Contains(line, folder+"/") {
				continue
			}
			t.Errorf("left: %s", line)
			undo := append(strings.Fields(each.undo), strings.Fields(line)[0])
			if err := command(undo[0], undo[1:]...); err != nil {
				t.Error(err)
			}
		}
	}
}

func statistics(t *testing.T, path string) (of syscall.Statfs_t) {
	t.Helper()
	if err := syscall.Statfs(path, &of); err != nil {
		t.Fatal(err)
	}
	return of
}

func TestLifeInDevices(t *testing.T) {
	t.Parallel()
	testLife(t, newDeviceSession(t))
}

func TestStagingFolderOfDevices(t *testing.T) {
	t.Parallel()
	testStagingFolder(t, newDeviceSession(t))
}

// A mounted volume has the file system ext4, the size that the controller reports, and the flags of
// its mount.
func TestMountedVolume(t *testing.T) {
	t.Parallel()
	s := newDeviceSession(t)
	s.run(t, attachedRows(asMount)...)
	s.run(t, stageRow(ofMount), publishRow(ofMount, ""))
	if file, err := os.Stat(s.at("p1/vol-1.img")); err != nil || file.Size() != 4194304 {
		t.Errorf("got %v, error %v, want 4 MiB", file, err)
	}
	of := statistics(t, s.at("targets/a"))
	total := int64(of.Blocks) * of.Frsize
	if of.Type != ext4Magic || of.Flags&noATime == 0 || total < 2<<20 || total > 4<<20 {
		t.Errorf("got %+v, want ext4 with noatime and 2 to 4 MiB", of)
	}
	used, err := devices{}.usage(s.at("p1/vol-1.img"), s.at("targets/a"))
	if err != nil || used == nil || used.Total != total || used.Available != int64(of.Bavail)*of.Frsize ||
		used.Used != int64(of.Blocks-of.Bfree)*of.Frsize {
		t.Errorf("got %v, error %v, want those of statfs %+v", used, err, of)
	}
	s.run(t, unpublishRow, unstageRow,
		row{nodeSocket, "NodeGetVolumeStats", `{` + vol1 + `,"volume_path":"AT/targets/a"}`,
			"node-plugin: NotFound: the volume is not at AT/targets/a"},
		stageRow(strings.Replace(ofMount, "ext4", "xfs", 1)).
			answers(`node-plugin: InvalidArgument: volume_capability: the file system "xfs" is not ext4`))
}

// A volume can be published read-only and writable at two paths. A repeat with another flag is
// refused.
func TestReadOnlyMount(t *testing.T) {
	t.Parallel()
	s := newDeviceSession(t)
	const (
		readOnly  = `,"readonly":true`
		otherwise = "node-plugin: AlreadyExists: the volume is published otherwise at AT/targets/"
	)
	at := func(name string, r row) row {
		r.message = strings.Replace(r.message, "targets/a", "targets/"+name, 1)
		return r
	}
	s.run(t, attachedRows(asMount)...)
	s.run(t, stageRow(ofMount), publishRow(ofMount, ""), at("b", publishRow(ofMount, readOnly)),
		at("b", publishRow(ofMount, readOnly)))
	s.writes(t, "targets/a/file")
	s.finds(t, "targets/b/file")
	if err := os.WriteFile(s.at("targets/b/file"), nil, 0o600); !errors.Is(err, syscall.EROFS) {
		t.Errorf("a write: got error %v", err)
	}
	s.run(t,
		publishRow(ofMount, readOnly).answers(otherwise+"a"),
		at("b", publishRow(ofMount, "")).answers(otherwise+"b"),
		at("b", unpublishRow), unpublishRow, unstageRow)
	s.isEmpty(t)
}

// A volume that the controller attached read-only is not writable, also if it is published without
// the read-only flag.
func TestReadOnlyAttachment(t *testing.T) {
	t.Parallel()
	s := newDeviceSession(t)
	stage := stageRow(ofMount + `,"publish_context":{"readonly":"true"}`)
	s.run(t, attachedRows(asMount)...)
	s.run(t, stageRow(ofMount), unstageRow, stage, stage)
	for _, more := range []string{"", `,"readonly":true`} {
		s.run(t, publishRow(ofMount, more), publishRow(ofMount, more))
		if err := os.WriteFile(s.at("targets/a/file"), nil, 0o600); !errors.Is(err, syscall.EROFS) {
			t.Errorf("a write: got error %v", err)
		}
		s.run(t, unpublishRow)
	}
	s.run(t, unstageRow)
}

// A block volume is a device of its size, and keeps its data.
func TestBlockVolume(t *testing.T) {
	t.Parallel()
	s := newDeviceSession(t)
	s.run(t, attachedRows(asBlock)...)
	s.run(t, publishRow(ofBlock, "").answers(notStaged))
	s.run(t, stageRow(ofBlock), stageRow(ofBlock), publishRow(ofBlock, ""), publishRow(ofBlock, ""),
		publishRow(ofBlock, `,"readonly":true`).answers("node-plugin: FailedPrecondition: a block volume is "+
			"read-only only where the controller attached it so"),
		row{nodeSocket, "NodeGetVolumeStats", `{` + vol1 +
			`,"volume_path":"AT/targets/a"}`, `{"usage":[{"total":4194304,"unit":1}]}`})
	writeDevice(t, s.at("targets/a"))
	s.run(t, unpublishRow, unpublishRow, unstageRow, unstageRow)
	s.isEmpty(t)
	if data, err := os.ReadFile(s.at("p1/vol-1.img")); err != nil || string(data[:4]) != "kept" {
		t.Errorf("%v", err)
	}
	s.run(t, stageRow(ofBlock+`,"publish_context":{"readonly":"true"}`), publishRow(ofBlock, `,"readonly":true`))
	if err := os.WriteFile(s.at("targets/a"), []byte("lost"), 0o600); !errors.Is(err, syscall.EPERM) {
		t.Errorf("a write: got error %v", err)
	}
	s.run(t, unpublishRow, unstageRow)
}

// writeDevice checks that a device has 4 MiB, and writes "kept" to its start.
func writeDevice(t *testing.T, path string) {
	t.Helper()
	file, err := os.OpenFile(path, os.O_RDWR|os.O_SYNC, 0)
	if err != nil {
		t.Fatal(err)
	}
	defer file.Close()
	if size, err := file.Seek(0, io.SeekEnd); err != nil || size != 4194304 {
		t.Errorf("%d bytes, %v", size, err)
	}
	if _, err := file.WriteAt([]byte("kept"), 0); err != nil {
		t.Error(err)
	}
}

// A file with other contents gets no file system, and stays unchanged.
func TestOtherContents(t *testing.T) {
	t.Parallel()
	s := newDeviceSession(t)
	data := s.at("p1/vol-1.img")
	s.run(t, attachedRows(asMount)...)
	if err := os.WriteFile(data, make([]byte, 4194304), 0o600); err != nil {
		t.Fatal(err)
	}
	if err := command("mkswap", data); err != nil {
		t.Fatal(err)
	}
	before, err := os.ReadFile(data)
	if err != nil {
		t.Fatal(err)
	}
	stage := stageRow(ofMount)
	if got := s.call(stage.socket, stage.method, stage.message); !strings.HasPrefix(got,
		"node-plugin: Internal: mount: exit status ") {
		t.Error(got)
	}
	s.run(t, publishRow(ofMount, "").answers(notStaged), unstageRow)
	if after, err := os.ReadFile(data); err != nil || !bytes.Equal(after, before) {
		t.Errorf("the file was changed, %v", err)
	}
}

// Files in a target without a mount are not removed.
func TestFilesInTarget(t *testing.T) {
	t.Parallel()
	s := newDeviceSession(t)
	s.run(t, attachedRows(asMount)...)
	s.run(t, stageRow(ofMount))
	if err := os.Mkdir(s.at("targets/a"), 0o700); err != nil {
		t.Fatal(err)
	}
	s.writes(t, "targets/a/file")
	s.run(t, unpublishRow.answers("node-plugin: Internal: remove AT/targets/a: directory not empty"))
	s.finds(t, "targets/a/file")
	s.run(t, unstageRow)
}
