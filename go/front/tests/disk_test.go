package tests

import (
	"fmt"
	"os"
	"os/exec"
	"path/filepath"
	"strconv"
	"strings"
	"syscall"
	"testing"
	"time"

	"google.golang.org/grpc/codes"

	"./processes"
)

// After a fault has passed, service must be back within this time.
const soonBack = 2 * time.Second

// smallDisk mounts a file system with this number of bytes, and returns its folder. It skips the
// test if no file system can be mounted.
func smallDisk(t *testing.T, bytes int) string {
	t.Helper()
	if os.Geteuid() != 0 {
		t.Skip("left out: only root mounts a file system")
	}
	path := processes.Folder(t)
	if err := syscall.Mount("tmpfs", path, "tmpfs", 0, fmt.Sprintf("size=%d", bytes)); err != nil {
		t.Skipf("left out: no file system can be mounted: %v", err)
	}
	t.Cleanup(func() { syscall.Unmount(path, syscall.MNT_DETACH) })
	return path
}

// fill makes a file that takes all the room of a disk.
func fill(t *testing.T, path string) {
	t.Helper()
	file, err := os.Create(path)
	if err != nil {
		t.Fatal(err)
	}
	defer file.Close()
	for size := 4096; size > 0; {
		if _, err := file.Write(make([]byte, size)); err != nil {
			size /= 2
		}
	}
}

// back tries to create a volume until it succeeds. It returns the volume's id and how long that
// took.
func back(t *testing.T, front *client, name string) (string, time.Duration) {
	t.Helper()
	for begin := time.Now(); ; time.Sleep(10 * time.Millisecond) {
		id, got := create(soon(t, processes.Patience), front, name)
		if got.code == codes.OK {
			return id, time.Since(begin)
		}
		if got.code != codes.Unavailable || time.Since(begin) > 20*time.Second {
			t.Fatalf("%s: %v after %v", name, got, time.Since(begin))
		}
	}
}

// While the disk is full, a change succeeds or its outcome is open, and calls without a change are
// answered. When there is room again, service is back without a restart, and exactly the reported
// volumes exist.
func TestFullDisk(t *testing.T) {
	t.Parallel()
	disk := smallDisk(t, 1<<20)
	csid := processes.NewServer(t, roomy)
	csid.Tables = filepath.Join(disk, "volumes.db")
	front := newClient(t, processes.StartFront(t, csid.Start(t).Socket()).Socket)
	told := &book{}
	for round := 0; round < 3; round++ {
		name := fmt.Sprintf("before-%d", round)
		id, _ := back(t, front, name)
		told.note(t, name, id)
		fill(t, filepath.Join(disk, "filler"))
		refusals := refusedCreates(t, front, round, told)
		if len(refusals) == 0 {
			t.Fatal("the disk is full, and every volume was made")
		}
		front.wantReply(t, probe, "", ok(ready))
		if err := os.Remove(filepath.Join(disk, "filler")); err != nil {
			t.Fatal(err)
		}
		begin := time.Now()
		for _, name := range refusals {
			id, _ := back(t, front, name)
			told.note(t, name, id)
		}
		if spent := time.Since(begin); spent > soonBack {
			t.Errorf("service was back after %v", spent)
		}
	}
	told.isListed(t, front)
}

// refusedCreates creates volumes on a full disk, and returns the names of the refused ones. A few
// others still have room in the log of SQLite.
func refusedCreates(t *testing.T, front *client, round int, told *book) (names []string) {
	t.Helper()
	for i := 0; i < 50 && len(names) < 3; i++ {
		name := fmt.Sprintf("full-%d-%d", round, i)
		id, got := create(soon(t, processes.Patience), front, name)
		switch got.code {
		case codes.OK:
			told.note(t, name, id)
		case codes.Unavailable:
			names = append(names, name)
		default:
			t.Fatalf("%s: %v", name, got)
		}
	}
	return names
}

// inject makes the next system call with one of these names fail once in a process. It skips the
// test if strace is missing or cannot attach.
func inject(t *testing.T, p *processes.Process, calls, fault string) {
	t.Helper()
	program, err := exec.LookPath("strace")
	if err != nil {
		t.Skip("left out: strace is not here")
	}
	command := exec.Command(program, "-f", "-qq", "-o", "/dev/null", "-p", strconv.Itoa(p.Process.Pid), "-e",
		"trace="+calls, "-e", "inject="+calls+":error="+fault+":when=1")
	said := &processes.ErrorLog{}
	command.Stderr = said
	if err := command.Start(); err != nil {
		t.Fatal(err)
	}
	ended := make(chan struct{})
	go func() {
		command.Wait()
		close(ended)
	}()
	t.Cleanup(func() {
		command.Process.Signal(syscall.SIGTERM)
		<-ended
	})
	processes.Eventually(t, "strace to attach", func() bool {
		select {
		case <-ended:
			t.Skipf("left out: strace cannot attach: %s", said)
		default:
		}
		return isTraced(t, p.Process.Pid)
	})
}

func isTraced(t *testing.T, id int) bool {
	t.Helper()
	text, err := os.ReadFile(fmt.Sprintf("/proc/%d/status", id))
	if err != nil {
		t.Fatal(err)
	}
	return !strings.Contains(string(text), "\nTracerPid:\t0\n")
}

// If a write or a sync fails once, the outcome of the change is open, and the same call soon
// succeeds over the next connection.
func TestFaultOfTheDisk(t *testing.T) {
	t.Parallel()
	for calls, fault := range map[string]string{"fdatasync": "EIO", "pwrite64": "ENOSPC"} {
		calls, fault := calls, fault
		t.Run(calls, func(t *testing.T) {
			t.Parallel()
			csid := processes.NewServer(t, roomy).Start(t)
			front := newClient(t, processes.StartFront(t, csid.Socket()).Socket)
			told := &book{}
			id, _ := back(t, front, "before")
			told.note(t, "before", id)
			inject(t, csid.Current, calls, fault)
			if id, got := create(soon(t, processes.Patience), front, "open"); got.code != codes.Unavailable {
				t.Errorf("%s, %v, wanted UNAVAILABLE", id, got)
			}
			front.wantReply(t, probe, "", ok(ready))
			id, spent := back(t, front, "open")
			told.note(t, "open", id)
			if spent > soonBack {
				t.Errorf("service was back after %v", spent)
			}
			told.isListed(t, front)
		})
	}
}
