package main

import (
	"context"
	"errors"
	"fmt"
	"reflect"
	"testing"
	"time"

	pb "go.etcd.io/etcd/etcdserver/etcdserverpb"
	"go.etcd.io/etcd/mvcc/mvccpb"
)

// A leading program that sees an older snapshot closes the connection of csid and refuses the calls
// of csid, also after later answers with higher revisions. The program does not repeat its last
// line.
func TestOlderWhileLeading(t *testing.T) {
	const older = "etcd is at revision 90, and 110 was answered: it was restored from an older snapshot, and volumes " +
		"may be missing; --accept-older goes on"
	var lines []string
	drops := 0
	state := &leadership{}
	c := &candidate{keys: sampleKeys, revisions: &revisions{}, state: state, drop: func() { drops++ },
		logf: func(format string, args ...interface{}) { lines = append(lines, fmt.Sprintf(format, args...)) }}
	ctx, cancel := context.WithCancel(context.Background())
	defer cancel()
	term := &term{key: sampleKeys.locks() + "1", client: startServer(t, &queueServer{}, 1), ctx: ctx, end: cancel}
	isLeading := c.lead(term, queue{own: 5, ownPut: 6, revision: 110, least: 100}, false)
	if got, _ := state.current(); got != term || !isLeading || term.created != 5 || term.put != 6 || term.seen != 110 ||
		drops != 0 {
		t.Errorf("first look: got term %+v, %d drops, want %+v, 0 drops", got, drops, term)
	}
	for _, observed := range []queue{{revision: 90, least: 110}, {revision: 200, least: 110},
		{revision: 201, least: 110}} {
		isLeading = c.lead(term, observed, isLeading)
		if term, reason := state.current(); term != nil || reason.code != 9 || reason.text != older || isLeading ||
			drops != 1 {
			t.Errorf("at revision %d: got term %+v, refusal %v, %d drops, want %s and 1 drop",
				observed.revision, term, reason, drops, older)
		}
	}
	want := []string{"leads, from revision 110 on, by the key lock/1", "leads no more: " + older, "no lock: " + older}
	if !reflect.DeepEqual(lines, want) {
		t.Errorf("got %q, want %q", lines, want)
	}
}

// queueServer is an etcd that accepts each transaction. It answers each read of the queue with the
// next one of looks. After the last one it ends the term.
type queueServer struct {
	pb.KVServer
	looks    []look
	requests int
	state    *leadership
	end      context.CancelFunc
	// For each read, true if this program led.
	led []bool
}

// look is an answer to a read of the queue: the create revisions of another key and of this
// program's key, 0 for a missing key; or an error.
type look struct {
	others, own int64
	err         error
}

func (s *queueServer) Txn(context.Context, *pb.TxnRequest) (*pb.TxnResponse, error) {
	return &pb.TxnResponse{Header: &pb.ResponseHeader{}, Succeeded: true}, nil
}

func (s *queueServer) Range(context.Context, *pb.RangeRequest) (*pb.RangeResponse, error) {
	term, _ := s.state.current()
	s.led = append(s.led, term != nil)
	if s.requests == len(s.looks) {
		s.end()
		return nil, errors.New("the end")
	}
	observed := s.looks[s.requests]
	s.requests++
	if observed.err != nil {
		return nil, observed.err
	}
	read := &pb.RangeResponse{Header: &pb.ResponseHeader{Revision: 100}}
	if observed.others != 0 {
		read.Kvs = append(read.Kvs, &mvccpb.KeyValue{Key: []byte("other"), Value: []byte("other"),
			CreateRevision: observed.others})
	}
	if observed.own != 0 {
		read.Kvs = append(read.Kvs, &mvccpb.KeyValue{Key: []byte("own"), Value: []byte("me"),
			CreateRevision: observed.own})
	}
	return read, nil
}

// If the key is gone, the term ends, both while this program leads and while it waits. A failed
// read ends no term, and a leading program keeps leading.
func TestHoldLock(t *testing.T) {
	failed := errors.New("any")
	cases := []struct {
		name  string
		looks []look
		led   []bool
		want  error
	}{
		{"it waits, and then leads", []look{{5, 6, nil}, {0, 6, nil}}, []bool{false, false, true}, context.Canceled},
		{"gone while it waits", []look{{5, 6, nil}, {5, 0, nil}}, []bool{false, false}, errKeyGone},
		{"gone while it leads", []look{{0, 6, nil}, {0, 0, nil}}, []bool{false, true}, errKeyGone},
		{"made again while it leads", []look{{0, 6, nil}, {0, 7, nil}}, []bool{false, true}, errKeyGone},
		{"an earlier key while it leads", []look{{0, 6, nil}, {5, 6, nil}}, []bool{false, true}, errKeyGone},
		{"a look that failed while it leads", []look{{0, 6, nil}, {0, 0, failed}}, []bool{false, true, true},
			context.Canceled},
		{"a look that failed while it waits", []look{{5, 6, nil}, {0, 0, failed}, {0, 6, nil}},
			[]bool{false, false, false, true}, context.Canceled},
	}
	for _, c := range cases {
		c := c
		t.Run(c.name, func(t *testing.T) {
			t.Parallel()
			state := &leadership{}
			ctx, cancel := context.WithTimeout(context.Background(), 20*time.Second)
			defer cancel()
			server := &queueServer{looks: c.looks, state: state, end: cancel}
			campaign := &candidate{keys: sampleKeys, revisions: &revisions{}, state: state, drop: func() {},
				logf: t.Logf}
			err := campaign.holdLock(&term{client: startServer(t, server, 1), keys: sampleKeys, lease: &lease{},
				revisions: campaign.revisions, timeout: 5 * time.Second, ctx: ctx, end: cancel, key: "own", id: "me"})
			if err != c.want || !reflect.DeepEqual(server.led, c.led) {
				t.Errorf("got error %v, led %v, want %v, %v", err, server.led, c.want, c.led)
			}
		})
	}
}
