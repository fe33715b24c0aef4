package main

import (
	"errors"
	"fmt"
	"os"
	"path/filepath"
	"strconv"
	"strings"
	"sync"
	"time"

	"fomaheti/files"
)

// savePause is the shortest time between two regular writes of the file.
const savePause = time.Second

// revisions holds the greatest revision of etcd in any answer to csid. If etcd is later at a lower
// revision, it was restored from an older snapshot, and volumes in those answers may be missing.
type revisions struct {
	// The path of the file; empty without a file.
	path     string
	mutex    sync.Mutex
	greatest int64
	// older is the refusal that reports a lower revision of etcd, or nil if none was seen. lower is
	// this lower revision.
	lower int64
	older error
	// The text in the file.
	saved string
	// Receives a value when a lower revision is seen, which must be written at once.
	olderSeen chan struct{}
}

// openRevisions reads the file. A missing file counts as revision 0, and a malformed file is an
// error. With acceptOlder it does not read the file, and the next save replaces the contents.
func openRevisions(path string, acceptOlder bool) (*revisions, error) {
	r := &revisions{path: path, olderSeen: make(chan struct{}, 1)}
	if path == "" || acceptOlder {
		return r, nil
	}
	r.saved = r.text()
	text, err := os.ReadFile(path)
	if errors.Is(err, os.ErrNotExist) {
		return r, nil
	}
	if err != nil {
		return nil, err
	}
	if !r.read(string(text)) {
		return nil, fmt.Errorf("%s: it has no revision", path)
	}
	r.saved = r.text()
	return r, nil
}

// text returns the line of the file: the greatest revision and, if etcd had a lower one, a space
// and the lower revision. So the refusal survives a restart, even after etcd's revision has risen
// again: it rises with each put of the key of the lock.
func (r *revisions) text() string {
	if r.older != nil {
		return fmt.Sprintf("%d %d\n", r.greatest, r.lower)
	}
	return fmt.Sprintf("%d\n", r.greatest)
}

// read parses the line of the file, and reports whether it is valid.
func (r *revisions) read(text string) bool {
	greatest, lower, isOlder := strings.Cut(strings.TrimSuffix(text, "\n"), " ")
	ok := true
	if r.greatest, ok = readRevision(greatest); !ok || !isOlder {
		return ok
	}
	if r.lower, ok = readRevision(lower); !ok || r.lower >= r.greatest {
		return false
	}
	r.older = olderRefusal(r.greatest, r.lower)
	return true
}

func readRevision(digits string) (int64, bool) {
	n, err := strconv.ParseInt(digits, 10, 64)
	return n, err == nil && n >= 0 && strconv.FormatInt(n, 10) == digits
}

// least returns the lowest revision that etcd may have in answers to requests sent from now on.
func (r *revisions) least() int64 {
	r.mutex.Lock()
	defer r.mutex.Unlock()
	return r.greatest
}

// check returns a refusal if etcd was at a lower revision than least. least is the result of the
// method least when the request was sent. After the first refusal check always refuses, since other
// writers may raise the revision again.
func (r *revisions) check(least, revision int64) error {
	r.mutex.Lock()
	defer r.mutex.Unlock()
	if r.older == nil && revision < least {
		r.lower, r.older = revision, olderRefusal(least, revision)
		select {
		case r.olderSeen <- struct{}{}:
		default:
		}
	}
	return r.older
}

// isOlder reports whether a lower revision was seen. From then on check always refuses.
func (r *revisions) isOlder() bool {
	r.mutex.Lock()
	defer r.mutex.Unlock()
	return r.older != nil
}

func olderRefusal(answered, revision int64) error {
	return refuse("etcd is at revision %d, and %d was answered: it was restored from an older snapshot, and volumes "+
		"may be missing; --accept-older goes on", revision, answered)
}

// record notes the revision of an answer to csid in greatest, if it is greater.
func (r *revisions) record(revision int64) {
	r.mutex.Lock()
	defer r.mutex.Unlock()
	if revision > r.greatest {
		r.greatest = revision
	}
}

// saveUntil writes the file every savePause, and at once after a lower revision, until end is
// closed; then it writes a last time. It reports only the first of several failures in a row.
func (r *revisions) saveUntil(end <-chan struct{}, logf func(format string, args ...interface{})) {
	isFailing := false
	for isEnding := false; !isEnding; {
		select {
		case <-end:
			isEnding = true
		case <-r.olderSeen:
		case <-time.After(savePause):
		}
		err := r.save()
		if err != nil && !isFailing {
			logf("--revision: %v", err)
		}
		isFailing = err != nil
	}
}

// save writes the file if its text has changed. After a crash the file has the old text or the new.
func (r *revisions) save() error {
	r.mutex.Lock()
	text := r.text()
	r.mutex.Unlock()
	if r.path == "" || text == r.saved {
		return nil
	}
	if err := replaceFile(r.path, []byte(text)); err != nil {
		return err
	}
	r.saved = text
	return nil
}

// replaceFile writes and synchronises PATH.new, renames it to PATH, and synchronises the folder.
func replaceFile(path string, text []byte) error {
	file, err := files.Create(path+".new", 0o600)
	if err != nil {
		return err
	}
	_, err = file.Write(text)
	if err == nil {
		err = file.Sync()
	}
	if closeErr := file.Close(); err == nil {
		err = closeErr
	}
	if err == nil {
		err = os.Rename(path+".new", path)
	}
	if err != nil {
		return err
	}
	return syncFolder(filepath.Dir(path))
}

func syncFolder(path string) error {
	folder, err := os.Open(path)
	if err != nil {
		return err
	}
	defer folder.Close()
	return folder.Sync()
}
