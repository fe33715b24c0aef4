package main

import (
	"fmt"
	"os"
	"path/filepath"
	"strconv"
	"strings"

	"golang.org/x/sys/unix"
)

// mountTable has the mounts that this process sees (proc_pid_mountinfo(5)).
const mountTable = "/proc/self/mountinfo"

// mount is a line of the mount table: the device of the file system as MAJOR:MINOR, the part of the
// file system that is mounted, and the path at which it is mounted.
type mount struct{ device, root, path string }

func readMounts() (mounts []mount, err error) {
	text, err := os.ReadFile(mountTable)
	if err != nil {
		return nil, err
	}
	for _, line := range strings.Split(strings.TrimSuffix(string(text), "\n"), "\n") {
		fields := strings.Fields(line)
		if len(fields) < 5 {
			return nil, fmt.Errorf("%s: a line has no mount: %q", mountTable, line)
		}
		mounts = append(mounts, mount{fields[2], unescape(fields[3]), unescape(fields[4])})
	}
	return mounts, nil
}

// unescape returns a field of the mount table as a path. The kernel writes a space, a tab, a
// newline, a backslash and a # as a backslash and three octal digits.
func unescape(field string) string {
	var path strings.Builder
	for i := 0; i < len(field); i++ {
		if field[i] == '\\' && i+3 < len(field) {
			if code, err := strconv.ParseUint(field[i+1:i+4], 8, 8); err == nil {
				path.WriteByte(byte(code))
				i += 3
				continue
			}
		}
		path.WriteByte(field[i])
	}
	return path.String()
}

// mountPoints returns the paths at which the file system of a device is mounted, and those to which
// the device itself is bound.
func mountPoints(device string) (paths []string, err error) {
	mounts, err := readMounts()
	if err != nil {
		return nil, err
	}
	var stat unix.Stat_t
	if err := unix.Stat(device, &stat); err != nil {
		return nil, fmt.Errorf("%s: %w", device, err)
	}
	number := fmt.Sprintf("%d:%d", unix.Major(stat.Rdev), unix.Minor(stat.Rdev))
	for _, one := range mounts {
		isThere := one.device == number
		// Only these are looked at: a look at any mount could wait for a server that is away.
		if !isThere && filepath.Base(one.root) == filepath.Base(device) {
			if isThere, err = isDevice(device, one.path); err != nil {
				return nil, err
			}
		}
		if isThere {
			paths = append(paths, one.path)
		}
	}
	return paths, nil
}

// isMountPoint reports whether anything is mounted at a path, which may not exist.
func isMountPoint(path string) (bool, error) {
	mounts, err := readMounts()
	if err != nil {
		return false, err
	}
	if real, err := filepath.EvalSymlinks(path); err == nil {
		path = real
	}
	for _, one := range mounts {
		if one.path == path {
			return true, nil
		}
	}
	return false, nil
}
