package main

import (
	"bytes"
	"context"
	"fmt"
	"sort"
	"strings"
	"sync"
	"testing"
	"time"

	"go.etcd.io/etcd/etcdserver/api/v3rpc/rpctypes"
	pb "go.etcd.io/etcd/etcdserver/etcdserverpb"
	"go.etcd.io/etcd/mvcc/mvccpb"

	"fomaheti/frames"
)

// firstRevision is the revision in the first answer of rowServer.
const firstRevision = 100

// rowServer is an etcd that answers reads of its rows. Its revision rises with each answer to a
// Range.
type rowServer struct {
	pb.KVServer
	rows map[string]string
	// Set if the revision of a walk was compacted.
	isCompacted bool
	mutex       sync.Mutex
	// The requested revisions, 0 for the newest.
	revisions []int64
}

func (s *rowServer) Range(_ context.Context, request *pb.RangeRequest) (*pb.RangeResponse, error) {
	if s.isCompacted && request.Revision != 0 {
		return nil, rpctypes.ErrGRPCCompacted
	}
	s.mutex.Lock()
	s.revisions = append(s.revisions, request.Revision)
	header := &pb.ResponseHeader{Revision: firstRevision - 1 + int64(len(s.revisions))}
	s.mutex.Unlock()
	return s.read(request, header), nil
}

// Txn makes the reads of a transaction at firstRevision, and ignores its comparisons.
func (s *rowServer) Txn(_ context.Context, request *pb.TxnRequest) (*pb.TxnResponse, error) {
	done := &pb.TxnResponse{Header: &pb.ResponseHeader{Revision: firstRevision}, Succeeded: true}
	for _, part := range request.Success {
		reading := part.GetRequestRange()
		if reading == nil {
			continue
		}
		read := s.read(reading, done.Header)
		done.Responses = append(done.Responses,
			&pb.ResponseOp{Response: &pb.ResponseOp_ResponseRange{ResponseRange: read}})
	}
	return done, nil
}

func (s *rowServer) read(request *pb.RangeRequest, header *pb.ResponseHeader) *pb.RangeResponse {
	var keys []string
	for key := range s.rows {
		if key == string(request.Key) || (key > string(request.Key) && key < string(request.RangeEnd)) {
			keys = append(keys, key)
		}
	}
	sort.Strings(keys)
	read := &pb.RangeResponse{Header: header}
	if request.Limit > 0 && int64(len(keys)) > request.Limit {
		keys, read.More = keys[:request.Limit], true
	}
	for _, key := range keys {
		read.Kvs = append(read.Kvs, &mvccpb.KeyValue{Key: []byte(key), Value: []byte(s.rows[key])})
	}
	return read
}

// checkRevisions checks that the first Range asked for the newest revision or for firstRevision,
// and each later one for firstRevision.
func (s *rowServer) checkRevisions(t *testing.T) {
	t.Helper()
	for i, revision := range s.revisions {
		if (i == 0 && revision != 0 && revision != firstRevision) || (i > 0 && revision != firstRevision) {
			t.Errorf("reading %d: got revision %d, want %d", i, revision, firstRevision)
		}
	}
	if len(s.revisions) < 3 {
		t.Errorf("got %d readings, want at least 3", len(s.revisions))
	}
}

// sized returns a volume whose field in a page has size bytes.
func sized(t *testing.T, number uint64, size int) volume {
	t.Helper()
	row := volume{number: number, name: "a", pool: "p"}
	row.caps = make([]byte, size-64)
	row.caps = append(row.caps, make([]byte, size-len(appendBytes(nil, row.field(), row.message())))...)
	if got := len(appendBytes(nil, row.field(), row.message())); got != size {
		t.Fatalf("got a row of %d bytes, want %d", got, size)
	}
	return row
}

// A row may fill a page of 3 MiB. A row with one more byte is refused.
func TestLongestRow(t *testing.T) {
	for size, want := range map[int]error{3 << 20: nil, 3<<20 + 1: errRowTooLong} {
		t.Run(fmt.Sprintf("%d bytes", size), func(t *testing.T) {
			row := sized(t, 7, size)
			_, field, err := sampleKeys.pageRow(sampleKeys.volume(7), row.encoded())
			if err != want || (err == nil && len(field) != size) {
				t.Errorf("got a field of %d bytes, error %v, want error %v", len(field), err, want)
			}
		})
	}
}

// adjacent returns attachments with adjacent keys: wherever a read ends, the next key has a row.
func adjacent() (rows []attachment) {
	for count := 0; count < 100; count++ {
		rows = append(rows, attachment{1, "n" + strings.Repeat("\x00", count), nil, false})
	}
	return rows
}

// The pages of a walk over long rows have all rows once, in ascending order of keys and at one
// revision. No page is longer than the body of a frame may be, even if rows fill a page to the last
// byte. After each page, the revision at which the rows were read is noted as a revision that csid
// got in an answer.
func TestPages(t *testing.T) {
	for size, count := range map[int]uint64{1 << 19: 10, 1 << 20: 8} {
		t.Run(fmt.Sprintf("%d rows of %d bytes", count, size), func(t *testing.T) {
			server := &rowServer{rows: map[string]string{sampleKeys.meta(): string(firstMeta.encoded())}}
			want := appendBytes(nil, 1, firstMeta.message())
			for n := uint64(1); n <= count; n++ {
				row := sized(t, n, size)
				server.rows[sampleKeys.volume(n)] = string(row.encoded())
				want = appendBytes(want, row.field(), row.message())
			}
			for _, row := range adjacent() {
				server.rows[sampleKeys.attachment(row.number, row.node)] = string(row.encoded())
				want = appendBytes(want, row.field(), row.message())
			}
			leading := newWalkTerm(t, server)
			if got := readPages(t, leading); !bytes.Equal(got, want) {
				t.Errorf("got %d bytes in all pages, want %d", len(got), len(want))
			}
			server.checkRevisions(t)
		})
	}
}

// newWalkTerm returns a term over the rows of the server.
func newWalkTerm(t *testing.T, server *rowServer) *term {
	t.Helper()
	return &term{client: startServer(t, server, 1), keys: sampleKeys, lease: &lease{}, revisions: &revisions{},
		timeout: 10 * time.Second, ctx: context.Background(), key: "k"}
}

// readPages reads all pages of a new walk, checks each, and returns their rows.
func readPages(t *testing.T, leading *term) (rows []byte) {
	t.Helper()
	c := &connection{}
	var token []byte
	for isFirst := true; isFirst || len(token) > 0; isFirst = false {
		page, err := c.read(leading.ctx, leading, appendBytes(nil, 1, token))
		if err != nil || len(page) > frames.MaxBodyBytes {
			t.Fatalf("got a page of %d bytes, error %v, want at most %d bytes", len(page), err, frames.MaxBodyBytes)
		}
		if got := leading.revisions.least(); got != firstRevision {
			t.Errorf("got the answered revision %d, want %d", got, firstRevision)
		}
		// The token of the next page comes after the rows.
		token = c.walk.token
		last := appendBytes(nil, 4, token)
		if !bytes.HasSuffix(page, last) {
			t.Fatal("got a page without its token")
		}
		rows = append(rows, bytes.TrimSuffix(page, last)...)
	}
	return rows
}

// Only the token of the page that was read last is accepted, over the same connection and in the
// same term. After a page that could not be read, no token is accepted, and no read waits for a
// page.
func TestTokens(t *testing.T) {
	server := &rowServer{rows: map[string]string{}}
	for n := uint64(1); n <= 8; n++ {
		server.rows[sampleKeys.volume(n)] = string(sized(t, n, 1<<20).encoded())
	}
	leading := newWalkTerm(t, server)
	later := *leading
	c := &connection{}
	read := func(in *term, token []byte) error {
		done := make(chan error, 1)
		go func() {
			_, err := c.read(context.Background(), in, appendBytes(nil, 1, token))
			c.walk.waitAhead()
			done <- err
		}()
		select {
		case err := <-done:
			return err
		case <-time.After(20 * time.Second):
			t.Fatal("the read waits for a page")
			return nil
		}
	}
	if err := read(leading, nil); err != nil {
		t.Fatal(err)
	}
	first := c.walk.token
	if err := read(&later, first); err != errToken {
		t.Errorf("in a later term: got error %v, want %v", err, errToken)
	}
	// The second page was read ahead. The revision of the third page is compacted.
	server.isCompacted = true
	if err := read(leading, first); err != nil {
		t.Errorf("the second page: got error %v", err)
	}
	second := c.walk.token
	if err := read(leading, first); err != errToken {
		t.Errorf("a used token: got error %v, want %v", err, errToken)
	}
	if err := read(leading, second); err == nil || err == errToken {
		t.Errorf("the third page: got error %v, want that of its reading", err)
	}
	for _, token := range [][]byte{second, first} {
		if err := read(leading, token); err != errToken {
			t.Errorf("after a page that could not be read, with the token %s: got error %v, want %v", token, err,
				errToken)
		}
	}
}

// countingServer counts the bytes of the rows that it sends.
type countingServer struct {
	rowServer
	sent int64
}

func (s *countingServer) Range(ctx context.Context, request *pb.RangeRequest) (*pb.RangeResponse, error) {
	read, err := s.rowServer.Range(ctx, request)
	for _, found := range read.GetKvs() {
		s.sent += int64(len(found.Value))
	}
	return read, err
}

// Long rows after many short ones are not read again for each page. A page takes few of the rows
// that the read after the short ones asks for, so later reads ask for fewer.
func TestLongRowsAfterShortOnes(t *testing.T) {
	server := &countingServer{rowServer: rowServer{rows: map[string]string{}}}
	all := int64(0)
	for n := uint64(1); n <= 3000; n++ {
		size := 100
		if n > 2000 {
			size = 16 << 10
		}
		server.rows[sampleKeys.volume(n)] = string(sized(t, n, size).encoded())
		all += int64(len(server.rows[sampleKeys.volume(n)]))
	}
	leading := newWalkTerm(t, &server.rowServer)
	leading.client = startServer(t, server, 1)
	readPages(t, leading)
	if server.sent > 5*all/2 {
		t.Errorf("got %d bytes of rows from etcd, want at most 2.5 times %d", server.sent, all)
	}
}
