package main

import (
	"errors"
	"fmt"
	"io"
	"os"
	"os/exec"
	"path/filepath"
	"strings"
	"syscall"
	"time"

	"google.golang.org/grpc/codes"
	"google.golang.org/grpc/status"

	"fomaheti/files"
)

// detachTime limits the wait for other programs that hold a detached loop device open.
const detachTime = 2 * time.Second

// blkidNotFound is the exit status of blkid if it recognizes no contents.
const blkidNotFound = 2

// probedBytes is the length of the start of a device that must be readable before it is formatted.
const probedBytes = 1 << 20

// devices keeps each volume as a sparse file, attaches the file to a loop device and mounts it. It
// needs root.
type devices struct{}

func (devices) suffix() string { return ".img" }

func (devices) supports(use *capability, _ bool) error {
	if use.Mount != nil && use.Mount.FsType != "" && use.Mount.FsType != "ext4" {
		return status.Errorf(codes.InvalidArgument, "volume_capability: the file system %q is not ext4",
			use.Mount.FsType)
	}
	return nil
}

// create makes the file under another name first, so that a file with the volume's name always has
// its full size.
func (devices) create(data string, bytes int64) error {
	unfinished := data + ".new"
	file, err := files.Create(unfinished, 0o666)
	if err != nil {
		return err
	}
	err = file.Truncate(bytes)
	if closing := file.Close(); err == nil {
		err = closing
	}
	if err != nil {
		return err
	}
	return os.Rename(unfinished, data)
}

// stage attaches the file to a loop device, and mounts the device unless the volume is used as a
// block device. Before it mounts a volume without contents, it makes a file system there.
func (devices) stage(data, staging string, use *capability, readOnly bool) error {
	device, err := attach(data, readOnly)
	if err != nil {
		return err
	}
	if use.Block != nil {
		return checkStays(device)
	}
	if ok, err := isMounted(device, staging); ok || err != nil {
		return err
	}
	if err := checkUnused(staging); err != nil {
		return err
	}
	if err := format(device); err != nil {
		return err
	}
	flags := append([]string{"defaults"}, use.Mount.MountFlags...)
	if readOnly {
		flags = append(flags, "ro")
	}
	return command("mount", "-t", "ext4", "-o", strings.Join(flags, ","), device, staging)
}

func (devices) unstage(data, staging string) error {
	device, err := attached(data)
	if err != nil || device == "" {
		return err
	}
	if ok, err := isMounted(device, staging); err != nil {
		return err
	} else if ok {
		if err := command("umount", staging); err != nil {
			return err
		}
	}
	if err := checkUnpublished(device); err != nil {
		return err
	}
	return detach(data, device)
}

// checkUnpublished refuses to detach a device that is mounted or bound anywhere. The path of a
// publication would lead to the next volume that gets the device.
func checkUnpublished(device string) error {
	paths, err := mountPoints(device)
	if err == nil && len(paths) > 0 {
		err = status.Errorf(codes.FailedPrecondition, "the volume is still published at %s", paths[0])
	}
	return err
}

// checkStays refuses a device that the kernel will detach as soon as nobody has it open. Nothing
// keeps a device open for a block volume, and another volume may get the device.
func checkStays(device string) error {
	isEnding, err := hasFlag(device, "loop/autoclear")
	if err == nil && isEnding {
		err = status.Errorf(codes.Aborted, "the volume is being unstaged, and %s is still open somewhere", device)
	}
	return err
}

// checkUnused refuses a path at which anything is mounted.
func checkUnused(path string) error {
	isUsed, err := isMountPoint(path)
	if err == nil && isUsed {
		err = status.Errorf(codes.AlreadyExists, "something else is mounted at %s", path)
	}
	return err
}

// hasFlag reports whether an attribute of a loop device is 1, by its file in /sys/block.
func hasFlag(device, attribute string) (bool, error) {
	text, err := os.ReadFile(filepath.Join("/sys/block", filepath.Base(device), attribute))
	return strings.TrimSpace(string(text)) == "1", err
}

func (devices) publish(data, staging, target string, use *capability, readOnly bool) error {
	device, err := attached(data)
	if err != nil {
		return err
	}
	if device == "" {
		return errNotStaged
	}
	if use.Block != nil {
		return publishBlock(device, target, readOnly)
	}
	if ok, err := isMounted(device, staging); err != nil {
		return err
	} else if !ok {
		return errNotStaged
	}
	return publishMount(device, staging, target, readOnly)
}

func publishMount(device, staging, target string, readOnly bool) error {
	if ok, err := isMounted(device, target); err != nil {
		return err
	} else if ok {
		return checkSame(staging, target, readOnly)
	}
	if err := checkUnused(target); err != nil {
		return err
	}
	if err := os.Mkdir(target, 0o755); err != nil && !errors.Is(err, os.ErrExist) {
		return err
	}
	flags := "bind"
	if readOnly {
		flags = "bind,ro"
	}
	return command("mount", "-o", flags, staging, target)
}

// checkSame refuses a second publication at the same path if the mount there is read-only and the
// new one would not be, or the other way round.
func checkSame(staging, target string, readOnly bool) error {
	isStagingReadOnly, err := isReadOnly(staging)
	if err != nil {
		return err
	}
	isTargetReadOnly, err := isReadOnly(target)
	if err != nil {
		return err
	}
	if isTargetReadOnly != (isStagingReadOnly || readOnly) {
		return status.Errorf(codes.AlreadyExists, "the volume is published otherwise at %s", target)
	}
	return nil
}

// publishBlock binds the device to a path. Programs can write to a device over a read-only bind
// mount, so a read-only volume needs a read-only device.
func publishBlock(device, target string, readOnly bool) error {
	if err := checkStays(device); err != nil {
		return err
	}
	if isReadOnly, err := hasFlag(device, "ro"); err != nil {
		return err
	} else if readOnly && !isReadOnly {
		return status.Error(codes.FailedPrecondition,
			"a block volume is read-only only where the controller attached it so")
	}
	if ok, err := isDevice(device, target); ok || err != nil {
		return err
	}
	if err := checkUnused(target); err != nil {
		return err
	}
	file, err := os.OpenFile(target, os.O_CREATE|os.O_WRONLY, 0o600)
	if err != nil {
		return err
	}
	if err := file.Close(); err != nil {
		return err
	}
	return command("mount", "-o", "bind", device, target)
}

func (devices) unpublish(data, target string) error {
	if at, err := findPresence(data, target); err != nil {
		return err
	} else if at != nowhere {
		if err := command("umount", target); err != nil {
			return err
		}
	}
	return removeTarget(target)
}

// removeTarget removes what publish makes at a target: an empty folder or an empty file. Any other
// file stays, and is no error.
func removeTarget(target string) error {
	file, err := os.Lstat(target)
	if errors.Is(err, os.ErrNotExist) || errors.Is(err, syscall.ENOTDIR) {
		return nil
	}
	if err != nil {
		return err
	}
	if file.Mode().IsRegular() && file.Size() > 0 || file.Mode()&os.ModeSymlink != 0 {
		return nil
	}
	return os.Remove(target)
}

// usage returns the total, used and available bytes of a mounted file system, or only the size of a
// block device. It returns nil if the volume is not at the path.
func (devices) usage(data, path string) (*usage, error) {
	at, err := findPresence(data, path)
	if err != nil || at == nowhere {
		return nil, err
	}
	if at == mounted {
		return fileSystemUsage(path)
	}
	file, err := os.Stat(data)
	if err != nil {
		return nil, err
	}
	return &usage{Total: file.Size(), Unit: unitBytes}, nil
}

// presence is the state of a volume at a path: not there, there as a mounted file system, or there
// as a block device.
type presence int

const (
	nowhere presence = iota
	mounted
	asDevice
)

func findPresence(data, path string) (presence, error) {
	device, err := attached(data)
	if err != nil || device == "" {
		return nowhere, err
	}
	if ok, err := isMounted(device, path); ok || err != nil {
		return mounted, err
	}
	if ok, err := isDevice(device, path); ok || err != nil {
		return asDevice, err
	}
	return nowhere, nil
}

// attach returns the loop device of a file. If there is none, it makes one, read-only if readOnly
// is true. It refuses a device that was made otherwise.
func attach(data string, readOnly bool) (string, error) {
	device, err := attached(data)
	if err != nil {
		return "", err
	}
	if device != "" {
		isReadOnly, err := hasFlag(device, "ro")
		if err == nil && isReadOnly != readOnly {
			err = status.Error(codes.AlreadyExists, "the volume is staged otherwise: unstage it first")
		}
		return device, err
	}
	args := []string{"--find", "--show", data}
	if readOnly {
		args = append(args, "--read-only")
	}
	return output("losetup", args...)
}

// attached returns the loop device of a file, or "" if there is none. Another program may have
// attached the file too: then it is the device that is mounted or bound, or the first one.
func attached(data string) (string, error) {
	listed, err := output("losetup", "--noheadings", "--output", "NAME", "--associated", data)
	found := strings.Fields(listed)
	if err != nil || len(found) == 0 {
		return "", err
	}
	for i := 0; len(found) > 1 && i < len(found); i++ {
		if paths, err := mountPoints(found[i]); err != nil || len(paths) > 0 {
			return found[i], err
		}
	}
	return found[0], nil
}

// detach detaches a file from its loop device. Another program may have the device open, such as a
// blkid that probes all devices. Then the kernel detaches the file only when that program closes
// the device, so detach waits. An error of losetup counts only if the file is still attached: after
// such a late detach, losetup reports that there is no file.
func detach(data, device string) error {
	err := command("losetup", "--detach", device)
	for end := time.Now().Add(detachTime); ; time.Sleep(detachTime / 100) {
		found, lookupErr := attached(data)
		if lookupErr != nil || found != device {
			return lookupErr
		}
		if err != nil {
			return err
		}
		if time.Now().After(end) {
			return fmt.Errorf("%s is still open somewhere", device)
		}
	}
}

// format makes a file system of ext4 on a device without contents that blkid recognizes. Any other
// device stays unchanged, and so does one whose start cannot be read.
func format(device string) error {
	if err := checkReadable(device); err != nil {
		return err
	}
	_, err := output("blkid", "--probe", device)
	var exitErr *exec.ExitError
	if errors.As(err, &exitErr) && exitErr.ExitCode() == blkidNotFound {
		return command("mkfs.ext4", "-q", device)
	}
	return err
}

// checkReadable reads the start of a device, where most contents have their marks. blkid recognizes
// nothing on a device that cannot be read, and reports no error.
func checkReadable(device string) error {
	file, err := os.Open(device)
	if err != nil {
		return err
	}
	defer file.Close()
	if _, err := io.CopyN(io.Discard, file, probedBytes); err != io.EOF {
		return err
	}
	return nil
}

// isMounted reports whether the path is in the file system of the device, isDevice whether the path
// is the device.
func isMounted(device, path string) (bool, error) {
	deviceStat, pathStat, err := statBoth(device, path)
	return pathStat.Dev == deviceStat.Rdev && err == nil, err
}

func isDevice(device, path string) (bool, error) {
	deviceStat, pathStat, err := statBoth(device, path)
	return pathStat.Mode&syscall.S_IFMT == syscall.S_IFBLK && pathStat.Rdev == deviceStat.Rdev && err == nil, err
}

// statBoth returns the status of a device and of a path. The status of a path that does not exist
// is zero.
func statBoth(device, path string) (deviceStat, pathStat syscall.Stat_t, err error) {
	if err := syscall.Stat(device, &deviceStat); err != nil {
		return deviceStat, pathStat, fmt.Errorf("%s: %w", device, err)
	}
	if err := syscall.Stat(path, &pathStat); err != nil && err != syscall.ENOENT && err != syscall.ENOTDIR {
		return deviceStat, pathStat, fmt.Errorf("%s: %w", path, err)
	}
	return deviceStat, pathStat, nil
}

func isReadOnly(path string) (bool, error) {
	var stat syscall.Statfs_t
	if err := syscall.Statfs(path, &stat); err != nil {
		return false, fmt.Errorf("%s: %w", path, err)
	}
	return stat.Flags&syscall.MS_RDONLY != 0, nil
}

func command(name string, args ...string) error {
	_, err := output(name, args...)
	return err
}

// output runs a command and returns its standard output, without spaces and newlines at its ends.
// If the command fails, the error contains its standard error. The command has a process group of
// its own: a SIGINT of the terminal ends the plugin once the running calls are answered, and must
// not end a mkfs of such a call.
func output(name string, args ...string) (string, error) {
	command := exec.Command(name, args...)
	command.SysProcAttr = &syscall.SysProcAttr{Setpgid: true}
	written, err := command.Output()
	var exitErr *exec.ExitError
	if errors.As(err, &exitErr) {
		err = fmt.Errorf("%s: %w: %s", name, err, strings.TrimSpace(string(exitErr.Stderr)))
	}
	return strings.TrimSpace(string(written)), err
}
