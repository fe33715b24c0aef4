package main

import (
	"context"
	"errors"
	"fmt"
	"net/http"
	"strings"
	"sync"
	"time"

	"google.golang.org/grpc/codes"
	"google.golang.org/grpc/status"

	"fomaheti/sockets"
)

// askingPause is the pause between two Probes while the front waits for csid, or while csid is
// silent.
const askingPause = time.Second

// The bounds of --standby.
const (
	leastStandby = time.Second
	mostStandby  = time.Hour
)

// standBy makes the socket when csid is ready. It serves until csid has given no reply for the time
// of --standby, or until the front fails or gets a signal. It returns the exit status. An
// orchestrator's sidecars wait for a missing socket, but end if their first Probe is answered
// UNAVAILABLE. With a node plugin it calls serveWhileItWaits instead.
func (f *front) standBy() int {
	if err := startMonitor(f.handler, f.opts, f.failed); err != nil {
		return f.fail(err, exitNoSocket)
	}
	if f.handler.node != nil {
		return f.serveWhileItWaits()
	}
	ctx, cancel := context.WithCancel(context.Background())
	defer cancel()
	ready := make(chan struct{})
	go func() {
		defer close(ready)
		f.handler.await(ctx)
	}()
	select {
	case err := <-f.failed:
		return f.fail(err, exitNoSocket)
	case <-f.stop:
		// No gRPC call runs, but calls of the control socket may.
		return f.end(newServer(f.handler))
	case <-ready:
	}
	listener, err := sockets.Listen(f.opts.listen)
	if err != nil {
		return f.fail(err, exitNoSocket)
	}
	defer listener.Close()
	go func() { f.silent <- f.handler.watch(f.opts.standby) }()
	return f.serve(listener)
}

// serveWhileItWaits makes the socket at once, and serves until the front gets a signal to end. The
// node plugin belongs to this machine, so its calls need no csid. Until csid is ready, the calls of
// csid are answered UNAVAILABLE.
func (f *front) serveWhileItWaits() int {
	listener, err := sockets.Listen(f.opts.listen)
	if err != nil {
		return f.fail(err, exitNoSocket)
	}
	defer listener.Close()
	go f.handler.follow(f.opts.standby)
	return f.serve(listener)
}

// follow waits until csid is ready, and then until csid has given no reply for the time limit,
// again and again. It never returns.
func (h *handler) follow(limit time.Duration) {
	for {
		h.await(context.Background())
		h.watch(limit)
	}
}

// life has the time of the last reply of csid, with any status.
type life struct {
	mutex sync.Mutex
	shown time.Time
}

func (l *life) shows() {
	l.mutex.Lock()
	defer l.mutex.Unlock()
	l.shown = time.Now()
}

func (l *life) silence() time.Duration {
	l.mutex.Lock()
	defer l.mutex.Unlock()
	return time.Since(l.shown)
}

// await asks csid by Probe until csid is ready or the context ends. It logs why it waits, again
// only if the reason has changed.
func (h *handler) await(ctx context.Context) {
	h.isWaiting.Store(true)
	defer h.isWaiting.Store(false)
	for shown := ""; ; {
		next := time.After(askingPause)
		err := soonReady(ctx, h.isCsidReady, questionTime)
		if ctx.Err() != nil {
			return
		}
		if err == nil {
			h.log.isReady()
			return
		}
		if why := reason(err); why != shown {
			h.log.waits(why)
			shown = why
		}
		select {
		case <-next:
		case <-ctx.Done():
			return
		}
	}
}

// watch returns when csid has given no reply for the time limit, with the reason. Each reply
// counts, so watch sends a Probe only if no reply came for a third of the limit. A Probe that waits
// for other calls ends nothing while these calls get replies.
func (h *handler) watch(limit time.Duration) error {
	for why := ""; ; {
		if pause := limit/3 - h.backend.life.silence(); pause > 0 {
			why = ""
			time.Sleep(pause)
			continue
		}
		next := time.After(least(askingPause, limit/3))
		left := limit - h.backend.life.silence()
		if left < limit/10 {
			// The silence may be long because the front itself hung. So csid gets at least this
			// time for one more Probe.
			left = limit / 10
		}
		err := soonReady(context.Background(), h.isCsidReady, left)
		// An earlier reason says more than the timeout of this Probe, so it is kept.
		if err != nil && (why == "" || status.Code(err) != codes.DeadlineExceeded) {
			why = reason(err)
		}
		if err != nil && h.backend.life.silence() >= limit {
			return fmt.Errorf("nothing was answered by csid for %v: %s", limit, why)
		}
		<-next
	}
}

// soonReady runs a check by Probe whose context ends after this length of time, if not before.
func soonReady(ctx context.Context, check func(context.Context) error, length time.Duration) error {
	ctx, cancel := context.WithTimeout(ctx, length)
	defer cancel()
	return check(ctx)
}

// livez answers 503 if csid hangs: no reply came for questionTime, and the Probe of this request
// got no turn in time, timed out, or was lost when the front closed its connection for a late
// reply. Otherwise it answers "ok". A csid that closes each connection, since another csid has the
// lock, does not hang. A csid that answers other calls before the Probe does not hang either.
func (h *handler) livez(answer http.ResponseWriter, request *http.Request) {
	err := h.checkInTurn(request.Context(), h.isCsidReady)
	isUnanswered := status.Code(err) == codes.DeadlineExceeded || errors.As(err, new(lateReply))
	if isUnanswered && h.backend.life.silence() >= questionTime {
		http.Error(answer, "csid hangs", http.StatusServiceUnavailable)
		return
	}
	fmt.Fprintln(answer, "ok")
}

// reason returns the text of an error of Probe, without the prefix "csid: ". It is empty for nil.
func reason(err error) string { return strings.TrimPrefix(status.Convert(err).Message(), "csid: ") }

func least(one, other time.Duration) time.Duration {
	if one < other {
		return one
	}
	return other
}
