// Package files creates unfinished files. When such a file is complete, the caller renames it over
// the file that it replaces.
package files

import (
	"os"
	"syscall"
)

// Create creates an unfinished file and opens it for writing. If a regular file with this name
// exists, an earlier crash left it, and Create removes it first. Anything else with this name
// stays, and is an error for which os.IsExist reports true. Create never follows a symbolic link
// and never writes into an existing file, so it is safe in a folder to which other users can write.
func Create(path string, mode os.FileMode) (*os.File, error) {
	if left, err := os.Lstat(path); err == nil && left.Mode().IsRegular() {
		if err := os.Remove(path); err != nil {
			return nil, err
		}
	}
	return os.OpenFile(path, os.O_WRONLY|os.O_CREATE|os.O_EXCL|syscall.O_NOFOLLOW, mode)
}
