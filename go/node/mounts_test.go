package main

import (
	"os"
	"os/exec"
	"path/filepath"
	"strings"
	"syscall"
	"testing"
	"time"
)

var (
	mountUse = &capability{Mount: &mountAccess{}}
	blockUse = &capability{Block: &blockAccess{}}
)

// bench is a folder with the data of two volumes, and with folders to stage and publish them. A
// test calls the storage itself.
type bench struct {
	devices
	folder string
}

func newBench(t *testing.T) bench {
	t.Helper()
	needsDevices(t)
	b := bench{folder: folder(t)}
	t.Cleanup(func() { release(t, b.folder) })
	for _, data := range []string{"vol-1.img", "vol-2.img"} {
		if err := b.create(b.at(data), 4<<20); err != nil {
			t.Fatal(err)
		}
	}
	for _, name := range []string{"staging", "other", "targets"} {
		if err := os.Mkdir(b.at(name), 0o755); err != nil {
			t.Fatal(err)
		}
	}
	return b
}

func (b bench) at(name string) string { return filepath.Join(b.folder, name) }

// gives checks the error of a call. The folder of the bench is AT in the wanted text; each device
// is DEVICE.
func (b bench) gives(t *testing.T, call string, err error, want string) {
	t.Helper()
	got := ""
	if err != nil {
		got = strings.ReplaceAll(err.Error(), b.folder, "AT")
	}
	if got != want {
		t.Errorf("%s: got %q, want %q", call, got, want)
	}
}

// refused returns the text of an error with this code of gRPC.
func refused(code, text string) string { return "rpc error: code = " + code + " desc = " + text }

// The kernel escapes characters of paths in the mount table.
func TestUnescape(t *testing.T) {
	for field, want := range map[string]string{
		"/a":                       "/a",
		`/a\040b`:                  "/a b",
		`/\011\012\134\043`:        "/\t\n\\#",
		`/a\`:                      `/a\`,
		`/a\04`:                    `/a\04`,
		`/a\999b`:                  `/a\999b`,
		"/caf\xc3\xa9\\040\\040\\": "/caf\xc3\xa9  \\",
	} {
		if got := unescape(field); got != want {
			t.Errorf("%q: got %q, want %q", field, got, want)
		}
	}
}

// A volume that is published is not unstaged: its device would go to the next volume, and the path
// of the publication would lead to the data of that volume. Afterwards it is unpublished and
// unstaged as ever.
func TestUnstageBeforeUnpublish(t *testing.T) {
	t.Parallel()
	for name, use := range map[string]*capability{"mount": mountUse, "block": blockUse} {
		for _, target := range []string{"targets/a", "targets/a b\\c#"} {
			use, target := use, target
			t.Run(name+" at "+target, func(t *testing.T) {
				b := newBench(t)
				data, staging, target := b.at("vol-1.img"), b.at("staging"), b.at(target)
				b.gives(t, "stage", b.stage(data, staging, use, false), "")
				b.gives(t, "publish", b.publish(data, staging, target, use, false), "")
				want := refused("FailedPrecondition", "the volume is still published at "+
					strings.ReplaceAll(target, b.folder, "AT"))
				b.gives(t, "unstage", b.unstage(data, staging), want)
				b.gives(t, "unstage", b.unstage(data, staging), want)
				if device, err := attached(data); device == "" || err != nil {
					t.Errorf("got the device %q, error %v", device, err)
				}
				b.gives(t, "unpublish", b.unpublish(data, target), "")
				b.gives(t, "unstage", b.unstage(data, staging), "")
			})
		}
	}
}

// A block volume whose device a program still has open while it is unstaged cannot be staged again:
// the kernel takes the file from the device when the program ends, and the next volume may get it.
func TestBlockVolumeThatIsStillOpen(t *testing.T) {
	t.Parallel()
	b := newBench(t)
	data, staging := b.at("vol-1.img"), b.at("staging")
	b.gives(t, "stage", b.stage(data, staging, blockUse, false), "")
	device, err := attached(data)
	if err != nil {
		t.Fatal(err)
	}
	program, err := os.Open(device)
	if err != nil {
		t.Fatal(err)
	}
	defer program.Close()
	b.gives(t, "unstage", b.unstage(data, staging), device+" is still open somewhere")
	want := refused("Aborted", "the volume is being unstaged, and "+device+" is still open somewhere")
	b.gives(t, "stage", b.stage(data, staging, blockUse, false), want)
	b.gives(t, "publish", b.publish(data, staging, b.at("targets/a"), blockUse, false), want)
	program.Close()
	for end := time.Now().Add(patience); time.Now().Before(end); time.Sleep(10 * time.Millisecond) {
		if left, err := attached(data); left == "" || err != nil {
			break
		}
	}
	b.gives(t, "stage", b.stage(data, staging, blockUse, false), "")
	b.gives(t, "unstage", b.unstage(data, staging), "")
}

// A volume that is staged is not staged again with another right to write: it would be writable
// where the controller said read-only, or the other way round.
func TestStagedOtherwise(t *testing.T) {
	t.Parallel()
	otherwise := refused("AlreadyExists", "the volume is staged otherwise: unstage it first")
	for name, use := range map[string]*capability{"mount": mountUse, "block": blockUse} {
		for _, readOnly := range []bool{false, true} {
			use, readOnly := use, readOnly
			t.Run(name, func(t *testing.T) {
				b := newBench(t)
				data, staging := b.at("vol-1.img"), b.at("staging")
				b.gives(t, "format", b.stage(data, staging, mountUse, false), "")
				b.gives(t, "unstage", b.unstage(data, staging), "")
				b.gives(t, "stage", b.stage(data, staging, use, readOnly), "")
				b.gives(t, "stage otherwise", b.stage(data, staging, use, !readOnly), otherwise)
				b.gives(t, "stage again", b.stage(data, staging, use, readOnly), "")
				b.gives(t, "unstage", b.unstage(data, staging), "")
				b.gives(t, "stage", b.stage(data, staging, use, !readOnly), "")
				b.gives(t, "unstage", b.unstage(data, staging), "")
			})
		}
	}
}

// A volume is neither staged nor published over another one. Otherwise the other one is hidden, and
// the second one cannot be unpublished.
func TestPathsInUse(t *testing.T) {
	t.Parallel()
	for name, use := range map[string]*capability{"mount": mountUse, "block": blockUse} {
		use := use
		t.Run(name, func(t *testing.T) {
			b := newBench(t)
			first, second, target := b.at("vol-1.img"), b.at("vol-2.img"), b.at("targets/a")
			inUse := func(path string) string {
				return refused("AlreadyExists", "something else is mounted at AT/"+path)
			}
			b.gives(t, "stage", b.stage(first, b.at("staging"), use, false), "")
			b.gives(t, "stage the other", b.stage(second, b.at("other"), use, false), "")
			b.gives(t, "publish", b.publish(first, b.at("staging"), target, use, false), "")
			b.gives(t, "publish the other", b.publish(second, b.at("other"), target, use, false), inUse("targets/a"))
			b.gives(t, "unpublish", b.unpublish(first, target), "")
			b.gives(t, "publish the other", b.publish(second, b.at("other"), target, use, false), "")
			b.gives(t, "unpublish the other", b.unpublish(second, target), "")
			b.gives(t, "unstage the other", b.unstage(second, b.at("other")), "")
			if use == mountUse {
				b.gives(t, "stage the other", b.stage(second, b.at("staging"), use, false), inUse("staging"))
				b.gives(t, "unstage the other", b.unstage(second, b.at("staging")), "")
			}
			b.gives(t, "unstage", b.unstage(first, b.at("staging")), "")
		})
	}
}

// NodeUnpublishVolume removes only what NodePublishVolume makes. It is no error if something else,
// or nothing, is at the path.
func TestUnpublishOfOtherFiles(t *testing.T) {
	t.Parallel()
	b := newBench(t)
	data := b.at("vol-1.img")
	file, link := b.at("targets/file"), b.at("targets/link")
	if err := os.WriteFile(file, []byte("kept"), 0o600); err != nil {
		t.Fatal(err)
	}
	if err := os.Symlink(file, link); err != nil {
		t.Fatal(err)
	}
	for _, isStaged := range []bool{false, true} {
		if isStaged {
			b.gives(t, "stage", b.stage(data, b.at("staging"), mountUse, false), "")
		}
		for _, target := range []string{file, link, file + "/below", b.at("targets/none")} {
			b.gives(t, "unpublish "+target, b.unpublish(data, target), "")
		}
		if kept, err := os.ReadFile(link); err != nil || string(kept) != "kept" {
			t.Errorf("got %q, error %v, want the file and the link", kept, err)
		}
	}
	b.gives(t, "unstage", b.unstage(data, b.at("staging")), "")
}

// NodeUnpublishVolume removes the empty folder or file that NodePublishVolume made, also if an
// earlier NodeUnpublishVolume was stopped after it had unmounted the volume.
func TestUnpublishOfUnmountedTargets(t *testing.T) {
	t.Parallel()
	b := newBench(t)
	for name, make := range map[string]func(path string) error{
		"folder": func(path string) error { return os.Mkdir(path, 0o755) },
		"file":   func(path string) error { return os.WriteFile(path, nil, 0o600) },
	} {
		target := b.at("targets/" + name)
		if err := make(target); err != nil {
			t.Fatal(err)
		}
		b.gives(t, "unpublish", b.unpublish(b.at("vol-1.img"), target), "")
		if _, err := os.Lstat(target); !os.IsNotExist(err) {
			t.Errorf("%s is left, %v", name, err)
		}
	}
}

// A file that another program has attached too is still the data of its volume.
func TestFileWithTwoDevices(t *testing.T) {
	t.Parallel()
	for _, isFirst := range []bool{true, false} {
		b := newBench(t)
		data, staging, target := b.at("vol-1.img"), b.at("staging"), b.at("targets/a")
		if !isFirst {
			b.gives(t, "stage", b.stage(data, staging, mountUse, false), "")
		}
		other, err := output("losetup", "--find", "--show", data)
		if err != nil {
			t.Fatal(err)
		}
		b.gives(t, "stage", b.stage(data, staging, mountUse, false), "")
		b.gives(t, "publish", b.publish(data, staging, target, mountUse, false), "")
		if used, err := b.usage(data, target); used == nil || err != nil {
			t.Errorf("got %v, error %v", used, err)
		}
		b.gives(t, "unpublish", b.unpublish(data, target), "")
		b.gives(t, "unstage", b.unstage(data, staging), "")
		if !isFirst {
			b.gives(t, "losetup", command("losetup", "--detach", other), "")
		}
	}
}

// SIGINT, as a terminal sends it to all processes of its group, lets the running call end: it does
// not end the mkfs of the call.
func TestInterruptDuringMkfs(t *testing.T) {
	t.Parallel()
	b := newBench(t)
	begun, socket := b.at("begun"), b.at("node.sock")
	script := "#!/bin/sh\n: > " + begun + "\nsleep 1\nPATH=$REST exec mkfs.ext4 \"$@\"\n"
	if err := os.WriteFile(b.at("mkfs.ext4"), []byte(script), 0o755); err != nil {
		t.Fatal(err)
	}
	program := os.Getenv("NODE_PLUGIN")
	if program == "" {
		program = "out/node-plugin"
	}
	serving := exec.Command(program, "serve", "--listen", socket, "--controller", b.at("none.sock"), "--node", "n1",
		"--pool", "p1="+b.folder)
	serving.Env = append(os.Environ(), "PATH="+b.folder+":"+os.Getenv("PATH"), "REST="+os.Getenv("PATH"))
	serving.SysProcAttr = &syscall.SysProcAttr{Setpgid: true}
	if err := serving.Start(); err != nil {
		t.Fatal(err)
	}
	defer serving.Process.Kill()
	b.awaits(t, socket)
	called := make(chan string, 1)
	s := &session{folder: b.folder}
	go func() { called <- s.call(nodeSocket, "NodeStageVolume", `{`+vol1+staging+ofMount+inPool1+`}`) }()
	b.awaits(t, begun)
	if err := syscall.Kill(-serving.Process.Pid, syscall.SIGINT); err != nil {
		t.Fatal(err)
	}
	if got := <-called; got != "{}" {
		t.Errorf("the call: got %s", got)
	}
	if err := serving.Wait(); err != nil {
		t.Errorf("the plugin: %v", err)
	}
	b.gives(t, "unstage", b.unstage(b.at("vol-1.img"), b.at("staging")), "")
}

// awaits waits until a file exists.
func (b bench) awaits(t *testing.T, path string) {
	t.Helper()
	for end := time.Now().Add(patience); time.Now().Before(end); time.Sleep(2 * time.Millisecond) {
		if _, err := os.Lstat(path); err == nil {
			return
		}
	}
	t.Fatalf("%s is missing", path)
}
