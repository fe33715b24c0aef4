package main

import (
	"context"
	"errors"
	"fmt"
	"testing"
	"time"

	pb "go.etcd.io/etcd/etcdserver/etcdserverpb"
)

// compareServer is an etcd that evaluates comparisons for missing keys. If all hold, it makes the
// transaction; otherwise it reads.
type compareServer struct{ rowServer }

func (s *compareServer) Txn(_ context.Context, request *pb.TxnRequest) (*pb.TxnResponse, error) {
	done := &pb.TxnResponse{Header: &pb.ResponseHeader{Revision: firstRevision}, Succeeded: true}
	for _, compare := range request.Compare {
		if compare.Target != pb.Compare_CREATE || compare.Result != pb.Compare_EQUAL ||
			compare.GetCreateRevision() != 0 {
			return nil, errors.New("another comparison")
		}
		found := s.read(&pb.RangeRequest{Key: compare.Key, RangeEnd: compare.RangeEnd}, done.Header)
		done.Succeeded = done.Succeeded && len(found.Kvs) == 0
	}
	if !done.Succeeded {
		for _, part := range request.Failure {
			read := s.read(part.GetRequestRange(), done.Header)
			done.Responses = append(done.Responses,
				&pb.ResponseOp{Response: &pb.ResponseOp_ResponseRange{ResponseRange: read}})
		}
	}
	return done, nil
}

// The first row is made only if the plugin has no key except keys of the lock. An import starts
// only if the plugin has no key at all. Keys of other plugins do not count.
func TestFirstOfAll(t *testing.T) {
	const name = "example.fomaheti"
	cases := []struct {
		key               string
		isFirst, isImport bool
	}{
		{"", true, true},
		{name, true, true},
		{name + ".other/meta", true, true},
		{name + "0", true, true},
		{"a", true, true},
		{name + "/lock/1", true, false},
		{name + "/lock/", true, false},
		{name + "/", false, false},
		{name + "/attachments/00000000000000000001/n", false, false},
		{name + "/lock", false, false},
		{name + "/lock0", false, false},
		{name + "/meta", false, false},
		{name + "/volumes/00000000000000000001", false, false},
		{name + "/z", false, false},
		{name + "/\xff", false, false},
	}
	for _, c := range cases {
		t.Run(fmt.Sprintf("key %q", c.key), func(t *testing.T) {
			server := &compareServer{rowServer{rows: map[string]string{}}}
			if c.key != "" {
				server.rows[c.key] = "x"
			}
			client := startServer(t, server, 1)
			first := sampleKeys.firstRow()
			txn := client.Txn(context.Background()).If(first.compares...).Then(first.success...).Else(first.failure...)
			if done, err := txn.Commit(); err != nil || done.Succeeded != c.isFirst {
				t.Errorf("first row: got %v, error %v, want made: %v", done, err, c.isFirst)
			}
			i := &importer{client: client, keys: sampleKeys, timeout: 5 * time.Second}
			err := i.write([]importLine{{sampleKeys.meta(), firstMeta.encoded()}})
			if (err == nil) != c.isImport {
				t.Errorf("import: got error %v, want made: %v", err, c.isImport)
			}
		})
	}
}
