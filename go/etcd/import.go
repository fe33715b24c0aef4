package main

import (
	"bufio"
	"bytes"
	"context"
	"errors"
	"fmt"
	"io"
	"strings"
	"time"

	"go.etcd.io/etcd/clientv3"
	pb "go.etcd.io/etcd/etcdserver/etcdserverpb"
	"go.etcd.io/etcd/mvcc/mvccpb"

	"fomaheti/frames"
)

// A transaction of an import has at most maxBatchRows rows. If it has more than one row, it has at
// most targetBatchBytes. By default etcd accepts 128 operations and 1.5 MiB. Each key is in a
// transaction three times.
const (
	maxBatchRows     = 64
	targetBatchBytes = 1 << 20
)

// importLine is a row of standard input: its key in etcd, with the name of the plugin, and its
// value.
type importLine struct {
	key   string
	value []byte
}

var (
	errNoEnd   = errors.New("it has no end: what comes in was cut off")
	errNoTab   = errors.New("it has no tab")
	errLate    = errors.New("meta is not the last line")
	errMissing = errors.New("the last line is not meta: it is missing, or what comes in was cut off")
)

// readLines reads and checks rows, one per line: the key without the name of the plugin, a tab, and
// the value as etcd has it. Each key may occur once. The last line must be meta: so readLines finds
// an input that was cut off.
func readLines(in io.Reader, k keys) (rows []importLine, found counts, err error) {
	from, lineOf := bufio.NewReaderSize(in, 1<<20), map[string]int{}
	for {
		text, err := from.ReadBytes('\n')
		if err == io.EOF && len(text) == 0 {
			break
		}
		number := len(rows) + 1
		if err != nil && err != io.EOF {
			return nil, counts{}, err
		}
		if lineOf[k.meta()] != 0 {
			err = errLate
		} else if err == io.EOF {
			err = errNoEnd
		}
		if err != nil {
			return nil, counts{}, fmt.Errorf("line %d: %w", number, err)
		}
		row, read, err := readLine(bytes.TrimSuffix(text, []byte("\n")), k)
		if err == nil && lineOf[row.key] != 0 {
			err = fmt.Errorf("%s: line %d has this key too", k.display(row.key), lineOf[row.key])
		}
		if err != nil {
			return nil, counts{}, fmt.Errorf("line %d: %w", number, err)
		}
		lineOf[row.key] = number
		rows = append(rows, row)
		found.add(read)
	}
	if lineOf[k.meta()] == 0 {
		return nil, counts{}, errMissing
	}
	return rows, found, checkFormat(found.meta)
}

func readLine(text []byte, k keys) (importLine, tableRow, error) {
	key, value, ok := strings.Cut(string(text), "\t")
	if !ok {
		return importLine{}, nil, errNoTab
	}
	row := importLine{k.all() + key, []byte(value)}
	read, _, err := k.pageRow(row.key, row.value)
	if err != nil {
		err = brokenRow(k, row.key, err)
	}
	return row, read, err
}

// importRows writes the rows of standard input into etcd. The plugin must have no keys there, and
// no program may hold the lock or wait for it.
func importRows(m *members, in io.Reader, out io.Writer) error {
	k := keys{m.opts.name}
	rows, found, err := readLines(in, k)
	if err != nil {
		return fmt.Errorf("%w; nothing was written", err)
	}
	client, err := m.connect()
	if err != nil {
		return fmt.Errorf("%w; nothing was written", err)
	}
	defer client.Close()
	i := &importer{client: client, keys: k, timeout: m.opts.timeout}
	if err := i.checkEmpty(); err != nil {
		return i.explainStop(err, len(rows))
	}
	for i.written < len(rows) {
		count := batchSize(rows[i.written:])
		if err := i.write(rows[i.written : i.written+count]); err != nil {
			return i.explainStop(err, len(rows))
		}
		i.written += count
	}
	return printLine(out, found.String())
}

// batchSize returns the number of rows in the next transaction, at least one.
func batchSize(rows []importLine) int {
	size := 0
	for count, row := range rows {
		size += 3*len(row.key) + len(row.value)
		if count > 0 && (count == maxBatchRows || size > targetBatchBytes) {
			return count
		}
	}
	return len(rows)
}

// importer is the state of one import: its settings, and what it has written so far.
type importer struct {
	client  *clientv3.Client
	keys    keys
	timeout time.Duration
	// The number of rows written, the key of the first of them, and the create revision of this
	// key.
	written   int
	first     string
	firstMade int64
}

// checkEmpty checks that etcd answers and has no key of the plugin. Such a key may still be made
// later, so each transaction compares again that the lock has no key and that its own keys do not
// exist.
func (i *importer) checkEmpty() error {
	r, k := &snapshot{client: i.client, timeout: i.timeout}, i.keys
	locks, err := r.get(k.locks(), clientv3.WithRange(rangeEnd(k.locks())), clientv3.WithLimit(1))
	if err != nil {
		return err
	}
	there, err := r.get(k.all(), clientv3.WithRange(rangeEnd(k.all())), clientv3.WithKeysOnly(), clientv3.WithLimit(1))
	if err != nil {
		return err
	}
	return i.found(locks.Kvs, there.Kvs)
}

// found returns an error about the first key in locks, the found keys of the lock, or in there,
// other found keys of the plugin. Without found keys it returns nil.
func (i *importer) found(locks, there []*mvccpb.KeyValue) error {
	for _, lock := range locks {
		return fmt.Errorf("%s: %s has the lock or waits for it, and must be stopped first",
			i.keys.display(string(lock.Key)), frames.Text(string(lock.Value)))
	}
	for _, row := range there {
		return fmt.Errorf("%s: it is there already", i.keys.display(string(row.Key)))
	}
	return nil
}

// write makes one transaction of an import, and compares that none of its keys exists. The first
// transaction also compares that the plugin has no key, so at most one of several imports
// continues. Each later one also compares that the lock has no key, and that the first key is still
// the key that this import created. So a transaction that arrives late, after the rows were removed
// by hand, fails.
func (i *importer) write(rows []importLine) error {
	k := i.keys
	var compares []clientv3.Cmp
	var success []clientv3.Op
	// If a comparison fails, etcd reads the first key of the lock, whose value names its holder,
	// and the keys that must not exist.
	failure := []clientv3.Op{clientv3.OpGet(k.locks(), clientv3.WithRange(rangeEnd(k.locks())), clientv3.WithLimit(1))}
	if i.written == 0 {
		compares = append(compares, rangeEmpty(k.all(), rangeEnd(k.all())))
		failure = append(failure, firstKey(k.all(), clientv3.WithRange(rangeEnd(k.all()))))
	} else {
		compares = append(compares, rangeEmpty(k.locks(), rangeEnd(k.locks())),
			clientv3.Compare(clientv3.CreateRevision(i.first), "=", i.firstMade))
	}
	for _, row := range rows {
		compares = append(compares, keyMissing(row.key))
		success = append(success, clientv3.OpPut(row.key, string(row.value)))
		if i.written > 0 {
			failure = append(failure, firstKey(row.key))
		}
	}
	ctx, cancel := context.WithTimeout(clientv3.WithRequireLeader(context.Background()), i.timeout)
	defer cancel()
	done, err := i.client.Txn(withSendOnce(ctx)).If(compares...).Then(success...).Else(failure...).Commit()
	if reason, ok := notMade(err); ok {
		return brokenRow(k, rows[0].key, reason)
	}
	if err != nil {
		return unknownOutcome{err}
	}
	if !done.Succeeded {
		return i.compareFailure(done.Responses)
	}
	if i.written == 0 {
		i.first, i.firstMade = rows[0].key, done.Header.Revision
	}
	return nil
}

// compareFailure returns an error about the key that made a comparison of a transaction fail.
func (i *importer) compareFailure(read []*pb.ResponseOp) error {
	var there []*mvccpb.KeyValue
	for _, part := range read[1:] {
		there = append(there, part.GetResponseRange().Kvs...)
	}
	if err := i.found(read[0].GetResponseRange().Kvs, there); err != nil {
		return err
	}
	return fmt.Errorf("%s: it was removed in the meantime", i.keys.display(i.first))
}

// explainStop adds to an error how many of all rows the unfinished import has written, and that
// these must be removed.
func (i *importer) explainStop(err error, all int) error {
	_, isOpen := err.(unknownOutcome)
	switch {
	case isOpen:
		return fmt.Errorf("%w; %d of %d rows were written before: remove what is there, and start again", err,
			i.written, all)
	case i.written == 0:
		return fmt.Errorf("%w; nothing was written", err)
	}
	return fmt.Errorf("%w; %d of %d rows were written: remove them, and start again", err, i.written, all)
}
