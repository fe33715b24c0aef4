package main

import (
	"bytes"
	"context"
	"fmt"

	"go.etcd.io/etcd/clientv3"
	"go.etcd.io/etcd/mvcc/mvccpb"
	"google.golang.org/grpc/codes"

	"fomaheti/frames"
)

// A page ends once its rows have targetPageBytes, and its rows never have more than maxPageBytes.
const (
	targetPageBytes = 1 << 20
	maxPageBytes    = 3 << 20
)

// The limits of a read in rows. The first read is small; later ones have about the rows of a page,
// at most maxLimit. For each read, even with a small limit, etcd visits the keys of all remaining
// rows.
const (
	firstLimit = 64
	maxLimit   = 10000
)

// walk reads all rows at one revision, page by page.
type walk struct {
	term     *term
	revision int64
	// Set once the walk has read all volumes.
	isAtAttachments bool
	// The lowest key that was not read yet; empty after the last key of this kind.
	from  string
	pages int
	// The limit of the next read, in rows.
	limit int64
	// The token of the next page, and the channel that delivers that page. Both are nil after the
	// last page.
	token []byte
	ahead chan page
}

// page is the body of a page and the token of the next page (nil after the last page), or the error
// of reading this page.
type page struct {
	body  []byte
	token []byte
	err   error
}

// newWalk starts a walk and returns the start of its first page: the row of meta, or nil if there
// is none. It refuses a walk if the plugin has unknown keys.
func newWalk(ctx context.Context, t *term) (*walk, []byte, error) {
	if err := t.fence(ctx); err != nil {
		return nil, nil, err
	}
	done, err := t.lockedRead(ctx, append(t.keys.unknownKeys(), clientv3.OpGet(t.keys.meta()))...)
	if err != nil {
		return nil, nil, err
	}
	last := len(done.Responses) - 1
	for _, part := range done.Responses[:last] {
		for _, found := range part.GetResponseRange().Kvs {
			return nil, nil, brokenRow(t.keys, string(found.Key), errUnknownKey)
		}
	}
	w := &walk{term: t, revision: done.Header.Revision, from: t.keys.volumes(), limit: firstLimit}
	for _, found := range done.Responses[last].GetResponseRange().Kvs {
		row, err := readMeta(found.Value)
		if err != nil {
			return nil, nil, brokenRow(t.keys, t.keys.meta(), err)
		}
		return w, appendBytes(nil, 1, row.message()), nil
	}
	return w, nil, nil
}

// unknownKeys returns reads that find the keys of the plugin that belong neither to rows nor to the
// lock: one read for each gap between the known ranges.
func (k keys) unknownKeys() (reads []clientv3.Op) {
	begin := k.all()
	for _, known := range []struct{ begin, end string }{
		{k.attachments(), rangeEnd(k.attachments())},
		{k.locks(), rangeEnd(k.locks())},
		{k.meta(), keyAfter(k.meta())},
		{k.volumes(), rangeEnd(k.volumes())},
		{rangeEnd(k.all()), ""},
	} {
		reads = append(reads, firstKey(begin, clientv3.WithRange(known.begin)))
		begin = known.end
	}
	return reads
}

// first returns the first page, which starts with begin.
func (w *walk) first(ctx context.Context, begin []byte) ([]byte, error) {
	return w.deliver(ctx, w.read(ctx, begin))
}

// next returns the next page, which is being read ahead. It must not be called after the last page.
func (w *walk) next(ctx context.Context) ([]byte, error) { return w.deliver(ctx, <-w.ahead) }

// deliver returns a page and starts to read the next one while csid puts the rows of this page into
// its tables. waitAhead must be called before the term is used for anything else.
func (w *walk) deliver(ctx context.Context, p page) ([]byte, error) {
	w.token, w.ahead = p.token, nil
	if p.token != nil {
		w.ahead = make(chan page, 1)
		go func() { w.ahead <- w.read(ctx, nil) }()
	}
	return p.body, p.err
}

// waitAhead waits until the page that is being read ahead is read, if there is one.
func (w *walk) waitAhead() {
	if w != nil && w.ahead != nil {
		w.ahead <- <-w.ahead
	}
}

// read appends rows to the start of a page until the page is large enough or no row is left.
func (w *walk) read(ctx context.Context, body []byte) page {
	for isFull := false; !isFull; {
		var err error
		if body, isFull, err = w.appendRows(ctx, body); err != nil {
			return page{err: err}
		}
		if !isFull && w.from == "" {
			if w.isAtAttachments {
				return page{body: appendBytes(body, 4, nil)}
			}
			w.isAtAttachments, w.from = true, w.term.keys.attachments()
		}
		isFull = isFull || len(body) >= targetPageBytes
	}
	w.pages++
	token := []byte(fmt.Sprintf("%d:%d", w.revision, w.pages))
	return page{body: appendBytes(body, 4, token), token: token}
}

// appendRows appends the next rows to a page. isFull reports that the next row did not fit.
func (w *walk) appendRows(ctx context.Context, page []byte) (longer []byte, isFull bool, err error) {
	all := w.term.keys.volumes()
	if w.isAtAttachments {
		all = w.term.keys.attachments()
	}
	read, err := w.term.get(ctx, w.from, clientv3.WithRange(rangeEnd(all)), clientv3.WithRev(w.revision),
		clientv3.WithLimit(w.limit))
	if err != nil {
		return nil, false, err
	}
	begin := len(page)
	for i, found := range read.Kvs {
		row, err := w.row(found)
		if err != nil {
			return nil, false, err
		}
		if len(page) > 0 && len(page)+len(row) > maxPageBytes {
			w.from = string(found.Key)
			w.limit = nextLimit(int64(i+1), int64(len(page)-begin+len(row)))
			return page, true, nil
		}
		page = append(page, row...)
	}
	w.from = ""
	if read.More {
		w.from = keyAfter(string(read.Kvs[len(read.Kvs)-1].Key))
	}
	if len(read.Kvs) > 0 {
		w.limit = nextLimit(int64(len(read.Kvs)), int64(len(page)-begin))
	}
	return page, false, nil
}

// nextLimit returns the limit of the next read, in rows. rows and bytes are the size of what was
// used of the last read, at least one row.
func nextLimit(rows, bytes int64) int64 {
	limit := targetPageBytes / (bytes/rows + 1)
	if limit > 8*rows {
		limit = 8 * rows
	}
	if limit > maxLimit {
		limit = maxLimit
	}
	if limit < 1 {
		limit = 1
	}
	return limit
}

// row checks a row of etcd, and encodes it as a field of a page. If the row is refused, the error
// names its key.
func (w *walk) row(found *mvccpb.KeyValue) ([]byte, error) {
	key := string(found.Key)
	_, field, err := w.term.keys.pageRow(key, found.Value)
	if err != nil {
		return nil, brokenRow(w.term.keys, key, err)
	}
	return field, nil
}

var errToken = refusal{codes.InvalidArgument,
	frames.Text("the token is not the last one that this connection was given")}

// isNext reports whether token is the token of the next page of this walk.
func (w *walk) isNext(token []byte) bool {
	return w != nil && w.token != nil && bytes.Equal(w.token, token)
}
