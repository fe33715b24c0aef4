package main

import (
	"context"
	"errors"
	"fmt"
	"io"
	"os"
	"syscall"

	"go.etcd.io/etcd/clientv3"
)

// counts summarizes rows: the numbers of volumes and attachments, and the row of meta. Its text
// equals csid's summary of a file.
type counts struct {
	volumes, attachments int
	meta                 meta
}

func (c *counts) add(row tableRow) {
	switch row := row.(type) {
	case meta:
		c.meta = row
	case volume:
		c.volumes++
	case attachment:
		c.attachments++
	}
}

// String returns the summary as a line, without a newline.
func (c counts) String() string {
	return fmt.Sprintf("volumes %d, attachments %d, next number %d, format %d", c.volumes, c.attachments, c.meta.next,
		c.meta.format)
}

// checkFormat refuses rows in the format of another version of csid. This program makes changes,
// and csid makes new tables, in the format of firstMeta only.
func checkFormat(row meta) error {
	if row.format != firstMeta.format {
		return fmt.Errorf("meta: its format is %d, and that of rows in etcd %d", row.format, firstMeta.format)
	}
	return nil
}

// runOnce makes the first row, imports, exports or lists rows, and returns the exit status. It
// needs no lock and no socket.
func runOnce(opts options, lines *logger) int {
	// Such a command writes its result alone, without lines about certificates.
	m := newMembers(opts, func(string, ...interface{}) {})
	var option string
	var err error
	switch {
	case opts.isNew:
		option, err = "--new", makeNew(m, os.Stdout)
	case opts.isExport:
		option, err = "--export", export(m, os.Stdout, lines)
	case opts.isList:
		option, err = "--list", list(m, os.Stdout)
	default:
		option, err = "--import", importRows(m, os.Stdin, os.Stdout)
	}
	// The reader of a listing may close the pipe before the end, as head does.
	if opts.isList && errors.Is(err, syscall.EPIPE) {
		return exitOK
	}
	if err != nil {
		lines.fails(fmt.Errorf("%s: %w%s", option, err, m.membersOf(err)))
		return exitFailure
	}
	return exitOK
}

var errUnfinishedImport = errors.New("rows are there, and meta is not: an import was not ended")

// makeNew makes the first row, and prints that it did. If the row of meta exists already, it prints
// this row. If other keys of the plugin exist without the row of meta, makeNew returns
// errUnfinishedImport.
func makeNew(m *members, to io.Writer) error {
	opts := m.opts
	client, err := m.connect()
	if err != nil {
		return err
	}
	defer client.Close()
	k := keys{opts.name}
	first := k.firstRow()
	var answer *clientv3.TxnResponse
	getMeta := clientv3.OpGet(k.meta())
	err = retry(context.Background(), client, opts.timeout, func(ctx context.Context) (err error) {
		answer, err = client.Txn(ctx).If(first.compares...).Then(first.success...).Else(getMeta).Commit()
		return err
	})
	if err != nil {
		return err
	}
	if answer.Succeeded {
		return printLine(to, fmt.Sprintf("made: %v", counts{meta: firstMeta}))
	}
	found := answer.Responses[0].GetResponseRange().Kvs
	if len(found) == 0 {
		return errUnfinishedImport
	}
	row, err := readMeta(found[0].Value)
	if err != nil {
		return brokenRow(k, k.meta(), err)
	}
	return printLine(to, fmt.Sprintf("exists: next number %d, format %d", row.next, row.format))
}

func printLine(to io.Writer, line string) error {
	_, err := io.WriteString(to, line+"\n")
	return err
}
