package main

import (
	"context"
	"errors"
	"time"

	"go.etcd.io/etcd/clientv3"
	"go.etcd.io/etcd/etcdserver/api/v3rpc/rpctypes"
	pb "go.etcd.io/etcd/etcdserver/etcdserverpb"
	"go.etcd.io/etcd/mvcc/mvccpb"
	"google.golang.org/grpc"
	"google.golang.org/grpc/codes"
)

// term is a period in which this program leads. Its calls are served one at a time.
type term struct {
	client    *clientv3.Client
	keys      keys
	lease     *lease
	revisions *revisions
	timeout   time.Duration
	// ctx ends with the term.
	ctx context.Context
	end context.CancelFunc
	// The key of the lock, its value, and its create revision.
	key     string
	id      string
	created int64
	// The revision at which the key was last put. Each transaction compares it.
	put int64
	// Set after a transaction with an unknown outcome, which etcd may still make.
	needsFence bool
	// The greatest revision in an answer so far.
	seen int64
	// Receives a value when the key of the lock turns out to be gone. Its capacity is one.
	gone chan struct{}
}

// isOver reports whether the term has ended, its lease has ended by this program's own clock, or an
// answer came from an older snapshot. In the first two cases this program may have lost the lock.
// In the last case it keeps the lock: otherwise a program that knows only lower revisions could
// serve. The next read of the queue then ends the use of the term.
func (t *term) isOver() bool {
	return t.ctx.Err() != nil || !t.lease.isAlive() || t.revisions.isOlder()
}

// errOver is the error of a call during which the term ended.
var errOver = errors.New("the lock was lost")

// request returns the context of one request to etcd. A member without a leader refuses it at once,
// so that another member can be asked.
func (t *term) request(ctx context.Context) (context.Context, context.CancelFunc) {
	return context.WithTimeout(clientv3.WithRequireLeader(ctx), t.timeout)
}

// leadRetryPause is the pause before confirmLead asks again if etcd did not answer.
const leadRetryPause = 50 * time.Millisecond

// maxTries limits the attempts of a request that may be repeated.
const maxTries = 3

// retry makes a request that may be repeated. If etcd has several members, retry repeats a request
// after a deadline, up to maxTries attempts: they share the timeout and go to the members in turn.
func (t *term) retry(ctx context.Context, request func(context.Context) error) error {
	return retry(ctx, t.client, t.timeout, request)
}

func retry(ctx context.Context, client *clientv3.Client, timeout time.Duration,
	request func(context.Context) error) (err error) {
	count := 1
	if len(client.Endpoints()) > 1 {
		count = maxTries
	}
	for i := 0; i < count; i++ {
		attempt, cancel := context.WithTimeout(clientv3.WithRequireLeader(ctx), timeout/time.Duration(count))
		err = request(attempt)
		cancel()
		if err != context.DeadlineExceeded {
			break
		}
	}
	return err
}

// get reads a key or a range: at the newest revision unless an option names another.
func (t *term) get(ctx context.Context, key string, opts ...clientv3.OpOption) (read *clientv3.GetResponse, err error) {
	least := t.revisions.least()
	err = t.retry(ctx, func(ctx context.Context) error {
		read, err = t.client.Get(ctx, key, opts...)
		return err
	})
	if err != nil {
		return nil, readError(err)
	}
	if err := t.observe(least, read.Header.Revision); err != nil {
		return nil, err
	}
	return read, nil
}

// readError turns an error of a read into the answer of the call. A read changes nothing, but after
// an error that is not known to be a refusal the call gets no reply.
func readError(err error) error {
	if err == rpctypes.ErrCompacted {
		return refuse("etcd compacted the revision of this walk over the rows: start again")
	}
	if reason, ok := notMade(err); ok {
		return reason
	}
	return unknownOutcome{err}
}

// observe notes the revision of an answer in seen. It returns a refusal if etcd is at a lower
// revision than least, the lowest possible one when the request was sent: then it was restored from
// an older snapshot, and isOver is true from then on.
func (t *term) observe(least, revision int64) error {
	if err := t.revisions.check(least, revision); err != nil {
		return err
	}
	if revision > t.seen {
		t.seen = revision
	}
	return nil
}

// commit makes one change, as a whole or not at all. First it stops an earlier transaction with an
// unknown outcome, by fence.
func (t *term) commit(ctx context.Context, c change) error {
	if err := t.fence(ctx); err != nil {
		return err
	}
	planned, err := c.plan(ctx, t)
	if err != nil {
		return err
	}
	_, err = t.transact(ctx, planned)
	return err
}

// fence stops an earlier transaction with an unknown outcome, if there is one. Without the fence,
// etcd might still make that transaction after csid's next read. The fence puts the key of the lock
// again, and so makes the comparison of that transaction fail.
func (t *term) fence(ctx context.Context) error {
	if !t.needsFence {
		return nil
	}
	isOurs := clientv3.Compare(clientv3.CreateRevision(t.key), "=", t.created)
	again := clientv3.OpPut(t.key, t.id, clientv3.WithLease(t.lease.id))
	least := t.revisions.least()
	var done *clientv3.TxnResponse
	err := t.retry(ctx, func(ctx context.Context) (err error) {
		done, err = t.client.Txn(withSendOnce(ctx)).If(isOurs).Then(again).Commit()
		return err
	})
	if err == rpctypes.ErrNoSpace {
		return refusal{codes.ResourceExhausted, err.Error()}
	}
	if err != nil {
		return unknownOutcome{err}
	}
	if !done.Succeeded {
		return t.endTerm()
	}
	t.put, t.needsFence = done.Header.Revision, false
	return t.observe(least, done.Header.Revision)
}

// endTerm ends the term because the key of the lock is gone or was replaced. It returns the refusal
// of the running call.
func (t *term) endTerm() error {
	select {
	case t.gone <- struct{}{}:
	default:
	}
	t.end()
	return refuse("this program does not lead any more: its key of the lock is gone")
}

// endReason returns errKeyGone if endTerm ended the term, and otherwise the error of the context,
// which is nil before the end.
func (t *term) endReason() error {
	select {
	case <-t.gone:
		return errKeyGone
	default:
		return t.ctx.Err()
	}
}

// confirmLead asks etcd if this program leads. It returns an error if the program does not lead, or
// if etcd does not answer within the timeout of a request. If it returns nil, the program led at
// some moment after confirmLead was called. Neither the program's own clock nor a watch can confirm
// this: if the key is deleted or the lease is revoked by hand, another program may lead before a
// watch reports it. First it stops an earlier transaction with an unknown outcome, by fence: no
// call is answered before the outcome is decided.
func (t *term) confirmLead(ctx context.Context) error {
	if err := t.fence(ctx); err != nil {
		return err
	}
	ctx, cancel := context.WithTimeout(ctx, t.timeout)
	defer cancel()
	var reason error
	for {
		read, err := t.get(ctx, t.key, clientv3.WithKeysOnly())
		if err == nil && len(read.Kvs) > 0 && read.Kvs[0].CreateRevision == t.created {
			return nil
		}
		if err == nil {
			return t.endTerm()
		}
		if unknown, ok := err.(unknownOutcome); ok {
			err = unknown.err
		}
		// An error from before the deadline says more than the deadline itself.
		if reason == nil || ctx.Err() == nil {
			reason = err
		}
		sleep(ctx, leadRetryPause)
		if ctx.Err() != nil || t.isOver() {
			return refuse("etcd does not say whether this program leads: %v", reason)
		}
	}
}

// watch ends the term as soon as etcd reports that the key of the lock is gone, was created again,
// or lost its lease. It starts after the revision seen, at which the key existed. If etcd ends the
// watch, it starts again and skips compacted revisions: holdLock also reads the key, though less
// often.
func (t *term) watch(seen int64) {
	for t.ctx.Err() == nil {
		seen = t.watchStream(seen)
		sleep(t.ctx, waitingPause)
	}
}

// watchStream watches over one stream until it ends, and returns the last revision that it saw. It
// avoids the watcher of etcd's client, which panics if etcd creates or cancels a watch twice.
func (t *term) watchStream(seen int64) int64 {
	ctx, cancel := context.WithCancel(clientv3.WithRequireLeader(t.ctx))
	defer cancel()
	stream, err := pb.NewWatchClient(t.client.ActiveConnection()).Watch(ctx, grpc.WaitForReady(true))
	if err != nil {
		return seen
	}
	create := &pb.WatchCreateRequest{Key: []byte(t.key), StartRevision: seen + 1}
	request := &pb.WatchRequest{RequestUnion: &pb.WatchRequest_CreateRequest{CreateRequest: create}}
	if err := stream.Send(request); err != nil {
		return seen
	}
	for {
		report, err := stream.Recv()
		if err != nil {
			return seen
		}
		for _, event := range report.Events {
			if event.Type == mvccpb.DELETE || event.Kv.CreateRevision != t.created ||
				event.Kv.Lease != int64(t.lease.id) {
				t.endTerm()
			}
			seen = event.Kv.ModRevision
		}
		if compacted := report.CompactRevision; compacted > seen {
			seen = compacted
		}
		if report.Canceled {
			return seen
		}
	}
}

// lockHeld returns the comparison that the key of the lock was not put or deleted since this term
// put it last. If it holds, this program leads, and etcd has made no later fence.
func (t *term) lockHeld() clientv3.Cmp {
	return clientv3.Compare(clientv3.ModRevision(t.key), "=", t.put)
}

// transact makes a transaction if this program holds the lock, and returns etcd's responses. An
// error is a refusal or an unknownOutcome.
func (t *term) transact(ctx context.Context, planned plan) (*clientv3.TxnResponse, error) {
	least := t.revisions.least()
	done, err := t.send(ctx, planned)
	if err == rpctypes.ErrNoSpace {
		return nil, t.noSpaceOutcome(ctx, planned)
	}
	if reason, ok := notMade(err); ok {
		return nil, reason
	}
	if err != nil {
		t.needsFence = true
		return nil, unknownOutcome{err}
	}
	if err := t.observe(least, done.Header.Revision); err != nil {
		return nil, unknownOutcome{err}
	}
	if !done.Succeeded {
		return nil, t.compareFailure(done, planned)
	}
	t.revisions.record(done.Header.Revision)
	return done, nil
}

// send sends a transaction to one member. If this member has no leader, it has not made the
// transaction, and send asks the next member.
func (t *term) send(ctx context.Context, planned plan) (done *clientv3.TxnResponse, err error) {
	ctx, cancel := t.request(ctx)
	defer cancel()
	compares := append([]clientv3.Cmp{t.lockHeld()}, planned.compares...)
	failure := append([]clientv3.Op{clientv3.OpGet(t.key)}, planned.failure...)
	for range t.client.Endpoints() {
		done, err = t.client.Txn(withSendOnce(ctx)).If(compares...).Then(planned.success...).Else(failure...).Commit()
		if err != rpctypes.ErrNoLeader {
			break
		}
	}
	return done, err
}

// lockedRead makes several reads at the newest revision, in one transaction, if this program holds
// the lock.
func (t *term) lockedRead(ctx context.Context, reads ...clientv3.Op) (done *clientv3.TxnResponse, err error) {
	least := t.revisions.least()
	err = t.retry(ctx, func(ctx context.Context) error {
		done, err = t.client.Txn(ctx).If(t.lockHeld()).Then(reads...).Else(clientv3.OpGet(t.key)).Commit()
		return err
	})
	if err != nil {
		return nil, readError(err)
	}
	if err := t.observe(least, done.Header.Revision); err != nil {
		return nil, err
	}
	if !done.Succeeded {
		return nil, t.compareFailure(done, plan{})
	}
	return done, nil
}

// compareFailure returns the refusal that names the failed comparison of a transaction. If the key
// of the lock is gone, it ends the term.
func (t *term) compareFailure(done *clientv3.TxnResponse, planned plan) error {
	read := make([]*pb.RangeResponse, len(done.Responses))
	for i, part := range done.Responses {
		read[i] = part.GetResponseRange()
	}
	if len(read[0].Kvs) == 0 || read[0].Kvs[0].CreateRevision != t.created {
		return t.endTerm()
	}
	if read[0].Kvs[0].ModRevision != t.put {
		t.needsFence = true
		return refuse("the key of the lock was put again")
	}
	if planned.explain != nil {
		if reason := planned.explain(read[1:]); reason != "" {
			return refuse("%s", reason)
		}
	}
	return refuse("a comparison failed")
}

// noSpaceOutcome finds out if etcd made a transaction although it answered that it has no space.
// The outcome was decided before that answer, so the keys that the transaction puts show it. If
// none of them has a revision above the greatest one seen before, the transaction was not made, and
// the result is a refusal. Otherwise, or if the transaction also deletes keys, or if a key cannot
// be read, the outcome counts as unknown.
func (t *term) noSpaceOutcome(ctx context.Context, planned plan) error {
	before := t.seen
	for _, op := range planned.success {
		if !op.IsPut() {
			return unknownOutcome{rpctypes.ErrNoSpace}
		}
		read, err := t.get(ctx, string(op.KeyBytes()), clientv3.WithKeysOnly())
		if err != nil {
			return unknownOutcome{err}
		}
		if len(read.Kvs) > 0 && read.Kvs[0].ModRevision > before {
			return unknownOutcome{rpctypes.ErrNoSpace}
		}
	}
	return refusal{codes.ResourceExhausted, rpctypes.ErrNoSpace.Error()}
}
