package main

import (
	"context"
	"errors"
	"sync"
	"time"

	"go.etcd.io/etcd/clientv3"
	pb "go.etcd.io/etcd/etcdserver/etcdserverpb"
	"golang.org/x/sys/unix"
	"google.golang.org/grpc"
)

// lease is a lease of etcd that is kept alive. Each renewal that etcd answers sets the expiry to
// the moment at which this process sent the request, plus the length of the lease. etcd counts from
// the moment at which it received the request, which is later, so the lease never expires in etcd
// before it expires here. An answer that arrives late, for example after a stop of this process,
// still counts from the moment of its request.
type lease struct {
	client *clientv3.Client
	id     clientv3.LeaseID
	length time.Duration
	mutex  sync.Mutex
	// The end of the lease on the clock of sinceBoot.
	expiry time.Duration
}

// sinceBoot returns the time since this machine started, including the time in which it slept. The
// clock of package time stops during sleep, but an etcd on another machine goes on counting the
// time of the lease.
func sinceBoot() time.Duration {
	var now unix.Timespec
	if err := unix.ClockGettime(unix.CLOCK_BOOTTIME, &now); err != nil {
		// Linux has this clock since 2.6.39. Without it the end of a lease is unknown.
		panic(err)
	}
	return time.Duration(now.Nano())
}

// clockPause limits the wait between two looks at the clock: timers stop while the machine sleeps.
const clockPause = time.Second

var errLeaseOver = errors.New("its lease is over")

// grantLease gets a lease of this many seconds from etcd, which may make it longer. It also returns
// the revision of etcd in the answer.
func grantLease(ctx context.Context, client *clientv3.Client, seconds int64) (*lease, int64, error) {
	sent := sinceBoot()
	granted, err := client.Grant(ctx, seconds)
	if err != nil {
		return nil, 0, err
	}
	l := &lease{client: client, id: granted.ID, length: time.Duration(granted.TTL) * time.Second}
	l.extend(sent)
	return l, granted.ResponseHeader.Revision, nil
}

// isAlive reports whether the lease has time left on the clock of this process.
func (l *lease) isAlive() bool { return l.remaining() > 0 }

func (l *lease) remaining() time.Duration {
	l.mutex.Lock()
	defer l.mutex.Unlock()
	return l.expiry - sinceBoot()
}

// extend sets the expiry after etcd has answered a request that was sent at this time, on the clock
// of sinceBoot.
func (l *lease) extend(sent time.Duration) {
	l.mutex.Lock()
	defer l.mutex.Unlock()
	l.expiry = sent + l.length
}

// keepAlive keeps the lease alive and returns the reason of its end: errLeaseOver or the error of
// the context. It watches the clock in a separate goroutine, so that a request that hangs in etcd's
// client does not delay the end.
func (l *lease) keepAlive(ctx context.Context) error {
	ctx, cancel := context.WithCancel(ctx)
	defer cancel()
	done := make(chan error, 2)
	go func() { done <- l.waitExpired(ctx) }()
	go func() { done <- l.renew(ctx) }()
	return <-done
}

// waitExpired waits until the lease has expired or the context has ended. It returns errLeaseOver
// or the error of the context.
func (l *lease) waitExpired(ctx context.Context) error {
	for {
		remaining := l.remaining()
		if remaining <= 0 {
			return errLeaseOver
		}
		if remaining > clockPause {
			remaining = clockPause
		}
		select {
		case <-time.After(remaining):
		case <-ctx.Done():
			return ctx.Err()
		}
	}
}

// renew renews the lease in etcd until etcd reports its end (errLeaseOver) or the context ends.
// After any other failure it opens a new stream.
func (l *lease) renew(ctx context.Context) error {
	for {
		if err := l.renewStream(ctx); err == errLeaseOver || ctx.Err() != nil {
			return err
		}
		select {
		case <-time.After(l.length / 20):
		case <-ctx.Done():
			return ctx.Err()
		}
	}
}

// renewStream renews over one stream, four times per lease length. It gives up a stream on which an
// answer takes longer than a quarter of the lease length. If etcd reports that the lease is over,
// it returns errLeaseOver.
func (l *lease) renewStream(ctx context.Context) error {
	ctx, cancel := context.WithCancel(clientv3.WithRequireLeader(ctx))
	defer cancel()
	timer := time.AfterFunc(l.length/4, cancel)
	defer timer.Stop()
	stream, err := pb.NewLeaseClient(l.client.ActiveConnection()).LeaseKeepAlive(ctx, grpc.WaitForReady(true))
	if err != nil {
		return err
	}
	for {
		sent := sinceBoot()
		if err := stream.Send(&pb.LeaseKeepAliveRequest{ID: int64(l.id)}); err != nil {
			return err
		}
		answer, err := stream.Recv()
		if err != nil {
			return err
		}
		if answer.TTL <= 0 {
			return errLeaseOver
		}
		l.extend(sent)
		timer.Stop()
		select {
		case <-time.After(l.length / 4):
		case <-ctx.Done():
			return ctx.Err()
		}
		timer.Reset(l.length / 4)
	}
}
