package main

import (
	"errors"
	"os"
	"path/filepath"
	"syscall"

	"google.golang.org/grpc/codes"
	"google.golang.org/grpc/status"
)

// folders keeps each volume as a folder, and makes a symbolic link instead of a mount. It needs no
// root and no loop device, and does not limit sizes.
type folders struct{}

func (folders) suffix() string { return ".d" }

func (folders) supports(use *capability, readOnly bool) error {
	if use.Block != nil {
		return status.Error(codes.InvalidArgument, "there are no block devices with --without-devices")
	}
	if readOnly {
		return status.Error(codes.InvalidArgument, "nothing is read-only with --without-devices")
	}
	return nil
}

func (folders) create(data string, _ int64) error { return os.Mkdir(data, 0o755) }

// stagingLink returns the path of the link in a staging folder. CSI wants a folder at the staging
// path.
func stagingLink(staging string) string { return filepath.Join(staging, "volume") }

func (folders) stage(data, staging string, _ *capability, _ bool) error {
	return link(data, stagingLink(staging))
}

func (folders) unstage(data, staging string) error {
	return unlink(data, stagingLink(staging))
}

func (folders) publish(data, staging, target string, _ *capability, _ bool) error {
	if ok, err := isLinkTo(stagingLink(staging), data); err != nil {
		return err
	} else if !ok {
		return errNotStaged
	}
	return link(data, target)
}

func (folders) unpublish(data, target string) error {
	return unlink(data, target)
}

// usage returns the total, used and available bytes of the file system that has the folder, since a
// volume here has no size limit. It returns nil if the volume is not at the path.
func (folders) usage(data, path string) (*usage, error) {
	for _, candidate := range []string{path, stagingLink(path)} {
		if ok, err := isLinkTo(candidate, data); err != nil {
			return nil, err
		} else if ok {
			return fileSystemUsage(data)
		}
	}
	return nil, nil
}

func link(data, path string) error {
	ok, err := isLinkTo(path, data)
	if ok || err != nil {
		return err
	}
	err = os.Symlink(data, path)
	if errors.Is(err, os.ErrExist) {
		return status.Errorf(codes.AlreadyExists, "something else is at %s", path)
	}
	return err
}

// unlink removes the file at `path` if it is a symbolic link to a volume's data. Any other file
// there stays, and is no error.
func unlink(data, path string) error {
	ok, err := isLinkTo(path, data)
	if !ok || err != nil {
		return err
	}
	return os.Remove(path)
}

// isLinkTo reports whether path is a symbolic link to a volume's data. It returns false if nothing
// is at the path.
func isLinkTo(path, data string) (bool, error) {
	file, err := os.Lstat(path)
	if errors.Is(err, os.ErrNotExist) || errors.Is(err, syscall.ENOTDIR) {
		return false, nil
	}
	if err != nil || file.Mode()&os.ModeSymlink == 0 {
		return false, err
	}
	found, err := os.Readlink(path)
	return found == data, err
}
