package main

import (
	"context"
	"errors"
	"fmt"
	"math/rand"
	"sync"
	"time"

	"go.etcd.io/etcd/clientv3"
	"go.etcd.io/etcd/etcdserver/api/v3rpc/rpctypes"

	"fomaheti/frames"
)

// Pauses between two reads of the queue; leadingPause is a mean. A waiting program reads more
// often: its turn to lead may come at any time.
const (
	waitingPause = 250 * time.Millisecond
	leadingPause = time.Second
)

// leadership holds the current term, or without one the refusal that answers each call.
type leadership struct {
	mutex   sync.Mutex
	term    *term
	refusal refusal
}

// current returns the term, or nil and the refusal of each call.
func (l *leadership) current() (*term, refusal) {
	l.mutex.Lock()
	defer l.mutex.Unlock()
	return l.term, l.refusal
}

func (l *leadership) set(term *term, reason refusal) {
	l.mutex.Lock()
	defer l.mutex.Unlock()
	l.term, l.refusal = term, reason
}

// candidate campaigns for the lock, and leads while it holds the lock. The lock is an election by
// etcd's own rule: each candidate puts a key with its lease below one prefix, and the key created
// first leads. Unlike clientv3/concurrency, a candidate also checks that its own key exists, and
// each of its waits has a deadline.
type candidate struct {
	opts      options
	members   *members
	keys      keys
	revisions *revisions
	state     *leadership
	logf      func(format string, args ...interface{})
	// drop closes the connection of csid.
	drop func()
	// Leases of earlier terms that etcd has not revoked yet.
	leases []clientv3.LeaseID
	// The last line on the lock or on unreachable members, without the member that refused a call:
	// calls go to the members in turn, so this member differs from line to line.
	lastLine string
}

// init sets the refusal of calls that arrive before the first answer of etcd.
func (c *candidate) init() { c.state.set(nil, refuse("waiting for the lock: etcd was not asked yet")) }

// run campaigns again and again until the context ends, with waitingPause between two campaigns.
func (c *candidate) run(ctx context.Context) {
	for ctx.Err() == nil {
		if err := c.campaign(ctx); ctx.Err() == nil {
			c.reportWaiting(err)
		}
		sleep(ctx, waitingPause)
	}
}

// report writes a line unless it repeats the last one.
func (c *candidate) report(line string) { c.reportError(line, nil) }

// reportError writes a line with the members that caused the error, unless it repeats the last one.
func (c *candidate) reportError(line string, err error) {
	if what := line + c.members.reasons(err); what != c.lastLine {
		c.logf("%s", frames.Text(line+c.members.membersOf(err)))
		c.lastLine = what
	}
}

// campaign gets a lease, puts a key into the queue and leads when its turn comes. It returns nil
// after the term has ended, for any reason. If it gets no connection or no lease, it returns the
// error. Each campaign reads the certificates and the password again.
func (c *candidate) campaign(parent context.Context) error {
	client, err := c.members.connect()
	if err != nil {
		return err
	}
	defer client.Close()
	least := c.revisions.least()
	requestCtx, cancelRequest := context.WithTimeout(parent, c.opts.timeout)
	lease, revision, err := grantLease(clientv3.WithRequireLeader(requestCtx), client, c.opts.lease)
	cancelRequest()
	if err != nil {
		return err
	}
	c.revisions.check(least, revision)
	ctx, cancel := context.WithCancel(parent)
	defer cancel()
	leaseDone := make(chan error, 1)
	go func() {
		reason := lease.keepAlive(ctx)
		cancel()
		// Close the connection of csid here too, since stopLeading below may be called only after
		// an answer of etcd.
		c.drop()
		leaseDone <- reason
	}()
	c.releaseLeases(client)
	c.leases = append(c.leases, lease.id)
	defer c.releaseLeases(client)
	err = c.holdLock(c.newTerm(ctx, cancel, client, lease))
	cancel()
	if over := <-leaseDone; over == errLeaseOver {
		err = over
	} else if parent.Err() != nil {
		err = errEnding
	}
	c.stopLeading(err, refuse("waiting for the lock: %v", err))
	return nil
}

func (c *candidate) newTerm(ctx context.Context, end context.CancelFunc, client *clientv3.Client, lease *lease) *term {
	return &term{client: client, keys: c.keys, lease: lease, revisions: c.revisions, timeout: c.opts.timeout,
		ctx: ctx, end: end, key: c.keys.lock(lease.id), id: c.opts.id, gone: make(chan struct{}, 1)}
}

// releaseLeases revokes the leases of earlier terms, so that the next candidate need not wait until
// they expire. It also deletes their keys: a key that was put by hand without the lease would stay
// for ever. If etcd does not answer, the next campaign tries again.
func (c *candidate) releaseLeases(client *clientv3.Client) {
	ctx, cancel := context.WithTimeout(context.Background(), c.opts.timeout)
	defer cancel()
	var left []clientv3.LeaseID
	for _, id := range c.leases {
		_, err := client.Delete(ctx, c.keys.lock(id))
		if err == nil {
			_, err = client.Revoke(ctx, id)
		}
		if err != nil && err != rpctypes.ErrLeaseNotFound {
			left = append(left, id)
		}
	}
	c.leases = left
}

// The reasons for the end of a term, other than the end of its lease.
var (
	errKeyGone = errors.New("its key is gone")
	errEnding  = errors.New("it was asked to end")
)

// holdLock puts the key, reads the queue, and leads when the key of this program is the first one.
// It returns when the term ends, with the reason.
func (c *candidate) holdLock(t *term) error {
	hasKey, isLeading := false, false
	for t.ctx.Err() == nil {
		if !hasKey {
			err := t.putKey()
			hasKey = err == nil
			c.reportWaiting(err)
		}
		queue, err := t.queue()
		switch {
		case err == rpctypes.ErrAuthFailed:
			// The password was changed after it was read. The lease might still be renewed for
			// ever, so the term ends here, and the next one reads the password again.
			return err
		case errors.As(err, new(otherCluster)):
			return err
		case err != nil && !isLeading:
			c.reportWaiting(err)
		case err != nil:
			// etcd did not answer this read. The program still leads until its lease ends.
		case isLeading && (queue.own != t.created || queue.first != t.created), hasKey && queue.own == 0:
			return errKeyGone
		case queue.own == 0:
		case queue.own != queue.first:
			c.report(fmt.Sprintf("waits for the lock, which %s holds", queue.holder))
			c.state.set(nil, refuse("waiting for the lock, which %s holds", queue.holder))
		default:
			isLeading = c.lead(t, queue, isLeading)
		}
		if isLeading {
			// Calls go to the members in turn. With a steady rhythm this read might always reach
			// the same member, which may be one that does not answer.
			sleep(t.ctx, leadingPause/2+time.Duration(rand.Int63n(int64(leadingPause))))
		} else {
			sleep(t.ctx, waitingPause)
		}
	}
	return t.endReason()
}

// reportWaiting writes a line with err, the reason why the program has no lock, and sets the
// refusal of calls to this reason. It does nothing if err is nil.
func (c *candidate) reportWaiting(err error) {
	if err != nil {
		c.reportError(fmt.Sprintf("no lock: %v", err), err)
		c.state.set(nil, refuse("waiting for the lock: %v", err))
	}
}

// lead starts to lead, and reports whether the program leads. If etcd was restored from an older
// snapshot it does not lead, but keeps the lock: then no other program leads either.
func (c *candidate) lead(t *term, queue queue, isLeading bool) bool {
	if err := c.revisions.check(queue.least, queue.revision); err != nil {
		c.stopLeading(err, err.(refusal))
		return false
	}
	if !isLeading {
		t.created, t.put, t.seen = queue.own, queue.ownPut, queue.revision
		c.state.set(t, refusal{})
		c.report(fmt.Sprintf("leads, from revision %d on, by the key %s", queue.revision, c.keys.display(t.key)))
		go t.watch(queue.revision)
	}
	return true
}

// stopLeading ends the use of the current term, and sets the refusal of later calls to answer. If
// there was a term, it also closes the connection of csid at once. It writes a line with the
// reason.
func (c *candidate) stopLeading(reason error, answer refusal) {
	before, _ := c.state.current()
	c.state.set(nil, answer)
	if before == nil {
		c.reportError(fmt.Sprintf("no lock: %v", reason), reason)
		return
	}
	c.drop()
	c.reportError(fmt.Sprintf("leads no more: %v", reason), reason)
}

// putKey puts the key of this program unless it exists.
func (t *term) putKey() error {
	ctx, cancel := t.request(t.ctx)
	defer cancel()
	put := clientv3.OpPut(t.key, t.id, clientv3.WithLease(t.lease.id))
	_, err := t.client.Txn(ctx).If(keyMissing(t.key)).Then(put).Commit()
	return err
}

// queue is the state of the election: the create revisions of the first key and of this program's
// own key, 0 for a missing key.
type queue struct {
	first, own int64
	// The revision at which the own key was last put.
	ownPut int64
	// The revision of etcd in this answer, and the lowest revision that it could have.
	revision, least int64
	holder          string
}

// queue reads the keys of all candidates. The holder is the value of the key that was created
// first, or "" if there is no key.
func (t *term) queue() (queue, error) {
	least := t.revisions.least()
	order := clientv3.WithSort(clientv3.SortByCreateRevision, clientv3.SortAscend)
	var read *clientv3.GetResponse
	err := t.retry(t.ctx, func(ctx context.Context) (err error) {
		read, err = t.client.Get(ctx, t.keys.locks(), clientv3.WithRange(rangeEnd(t.keys.locks())), order)
		return err
	})
	if err != nil {
		return queue{}, err
	}
	q := queue{revision: read.Header.Revision, least: least}
	for i, found := range read.Kvs {
		if i == 0 {
			q.first, q.holder = found.CreateRevision, string(found.Value)
		}
		if string(found.Key) == t.key {
			q.own, q.ownPut = found.CreateRevision, found.ModRevision
		}
	}
	return q, nil
}

// sleep pauses until the time has passed or the context ends.
func sleep(ctx context.Context, length time.Duration) {
	select {
	case <-time.After(length):
	case <-ctx.Done():
	}
}
