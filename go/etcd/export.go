package main

import (
	"bufio"
	"context"
	"errors"
	"fmt"
	"io"
	"strings"
	"time"

	"go.etcd.io/etcd/clientv3"
	"go.etcd.io/etcd/etcdserver/api/v3rpc/rpctypes"
)

// The methods below return SQL statements that put rows into new tables of csid (docs/TABLES.md).
// New tables already have the row of meta.

func (m meta) statement() string {
	return fmt.Sprintf("UPDATE meta SET next_number = %d;", m.next)
}

func (v volume) statement() string {
	return fmt.Sprintf("INSERT INTO volumes VALUES (%d,%s,%d,%s,X'%x',X'%x');", v.number, quoteSQL(v.name), v.bytes,
		quoteSQL(v.pool), v.caps, v.params)
}

func (a attachment) statement() string {
	readonly := 0
	if a.isReadonly {
		readonly = 1
	}
	return fmt.Sprintf("INSERT INTO attachments VALUES (%d,%s,X'%x',%d);", a.number, quoteSQL(a.node), a.cap, readonly)
}

// quoteSQL returns a text as an SQL literal. A text with control characters is written as bytes:
// sqlite3 reads SQL by lines, drops a carriage return at the end of a line, and ends a text at a
// NUL.
func quoteSQL(text string) string {
	for i := 0; i < len(text); i++ {
		if text[i] < 0x20 {
			return fmt.Sprintf("CAST(X'%x' AS TEXT)", text)
		}
	}
	return "'" + strings.ReplaceAll(text, "'", "''") + "'"
}

var (
	errNoMeta    = errors.New("meta is not there: nothing was made there yet, or an import was not ended")
	errCompacted = errors.New("etcd compacted the revision of this reading: start again")
)

// snapshot reads rows without the lock, all at the revision of its first answer.
type snapshot struct {
	client   *clientv3.Client
	timeout  time.Duration
	revision int64
}

func (r *snapshot) get(key string, opts ...clientv3.OpOption) (read *clientv3.GetResponse, err error) {
	err = retry(context.Background(), r.client, r.timeout, func(ctx context.Context) error {
		read, err = r.client.Get(ctx, key, append(opts, clientv3.WithRev(r.revision))...)
		return err
	})
	if err == rpctypes.ErrCompacted {
		return nil, errCompacted
	}
	if err == nil && r.revision == 0 {
		r.revision = read.Header.Revision
	}
	return read, err
}

// export prints all rows at one revision as SQL. COMMIT comes last, once all rows were checked and
// printed, so the SQL of an export that stops early changes no tables.
func export(m *members, to io.Writer, lines *logger) error {
	client, err := m.connect()
	if err != nil {
		return err
	}
	defer client.Close()
	r := &snapshot{client: client, timeout: m.opts.timeout}
	out := bufio.NewWriter(to)
	found, err := r.print(keys{m.opts.name}, out)
	if err == nil {
		err = printLine(out, "COMMIT;")
	}
	if err == nil {
		err = out.Flush()
	}
	if err == nil {
		lines.infof("at revision %d: %v", r.revision, found)
	}
	return err
}

// readMeta reads the row of meta. If the row is missing, it returns errNoMeta. It refuses a row in
// another format than firstMeta.
func (r *snapshot) readMeta(k keys) (row meta, err error) {
	read, err := r.get(k.meta())
	if err != nil {
		return row, err
	}
	if len(read.Kvs) == 0 {
		return row, errNoMeta
	}
	if row, err = readMeta(read.Kvs[0].Value); err != nil {
		return row, brokenRow(k, k.meta(), err)
	}
	return row, checkFormat(row)
}

// print prints the SQL transaction without its COMMIT, and returns the counts of its rows.
func (r *snapshot) print(k keys, out io.Writer) (found counts, err error) {
	row, err := r.readMeta(k)
	if err != nil {
		return found, err
	}
	if err := printLine(out, "BEGIN;\n"+row.statement()); err != nil {
		return found, err
	}
	found.add(row)
	return found, r.forEach(k, func(row tableRow) error {
		found.add(row)
		return printLine(out, row.statement())
	})
}

// forEach calls take for each row except meta, in ascending order of keys. It skips the keys of the
// lock. It stops at the first error of take, and at the first key or value that is not a row.
func (r *snapshot) forEach(k keys, take func(tableRow) error) error {
	limit := int64(firstLimit)
	for from := k.all(); from != ""; {
		read, err := r.get(from, clientv3.WithRange(rangeEnd(k.all())), clientv3.WithLimit(limit))
		if err != nil {
			return err
		}
		var size int64
		for _, found := range read.Kvs {
			size += int64(len(found.Value))
			if key := string(found.Key); key != k.meta() && !strings.HasPrefix(key, k.locks()) {
				row, _, err := k.pageRow(key, found.Value)
				if err != nil {
					return brokenRow(k, key, err)
				}
				if err := take(row); err != nil {
					return err
				}
			}
		}
		from = ""
		if read.More {
			from = keyAfter(string(read.Kvs[len(read.Kvs)-1].Key))
			limit = nextLimit(int64(len(read.Kvs)), size)
		}
	}
	return nil
}
