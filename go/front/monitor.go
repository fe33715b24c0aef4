package main

import (
	"context"
	"fmt"
	"log"
	"net"
	"net/http"
	"time"

	"github.com/prometheus/client_golang/prometheus/promhttp"
	"google.golang.org/grpc/status"
)

// The greatest numbers of scrapes and of health requests that are answered at once. Each scrape and
// each health request asks csid.
const (
	maxScrapes      = 4
	maxHealthChecks = 4
)

// The time limits for a client's request, for the answer, and for a connection between two
// requests. Scrapes may be a minute apart.
const (
	requestTime = 5 * time.Second
	answerTime  = 2 * questionTime
	keepTime    = 2 * time.Minute
)

// maxRequestBytes is the greatest size of the first line and the headers of a request. net/http
// reads 4 KiB more before it refuses a request. With a greater limit, a request with ten thousand
// short headers would take some MiB of memory.
const maxRequestBytes = 8 << 10

// newMonitor returns the handler for monitoring: /metrics for Prometheus, /healthz for a health
// check of csid and the node plugin, and with --standby /livez for a liveness probe.
func newMonitor(h *handler, topologies []topology, listings *listings) http.Handler {
	mux := http.NewServeMux()
	mux.Handle("/metrics", promhttp.HandlerFor(newRegistry(h, topologies, listings),
		promhttp.HandlerOpts{MaxRequestsInFlight: maxScrapes}))
	mux.HandleFunc("/healthz", h.healthz)
	if h.standsBy {
		mux.HandleFunc("/livez", h.livez)
	}
	return mux
}

// newMonitorServer returns the HTTP server for a monitor, with limits against clients that send too
// much or too slowly.
func newMonitorServer(monitor http.Handler, log *log.Logger) *http.Server {
	return &http.Server{
		Handler:        duringRequests(monitor),
		ConnContext:    withWatcher,
		ReadTimeout:    requestTime,
		WriteTimeout:   answerTime,
		IdleTimeout:    keepTime,
		MaxHeaderBytes: maxRequestBytes,
		ErrorLog:       log,
	}
}

// watcher is the key under which the context of a request has its connection.
type watcher struct{}

func withWatcher(ctx context.Context, conn net.Conn) context.Context {
	return context.WithValue(ctx, watcher{}, conn)
}

// duringRequests keeps the connection of a request from being closed for another one until the
// request is answered.
func duringRequests(next http.Handler) http.Handler {
	return http.HandlerFunc(func(answer http.ResponseWriter, request *http.Request) {
		client, _ := request.Context().Value(watcher{}).(*clientConn)
		client.begin()
		defer client.end()
		next.ServeHTTP(answer, request)
	})
}

// startMonitor begins to serve --metrics, if the option is given. If serving fails later, the
// reason is sent to failed, and the front must end.
func startMonitor(h *handler, opts options, failed chan<- error) error {
	if opts.metrics == "" {
		return nil
	}
	listener, err := net.Listen("tcp", opts.metrics)
	if err != nil {
		return fmt.Errorf("--metrics: %w", err)
	}
	var all *listings
	if opts.configuration != nil {
		all = newListings(h, opts.configuration)
		go all.run(context.Background())
	}
	h.log.listens(listener.Addr().String())
	const who = "HTTP server"
	server := newMonitorServer(newMonitor(h, opts.topologies, all), log.New(saying{h.log, who}, "", 0))
	watchers := limitListener(listener, maxWatchers, h.log.closedFor(who, "--metrics", maxWatchers))
	go func() { failed <- fmt.Errorf("telling metrics: %w", server.Serve(watchers)) }()
	return nil
}

// healthz answers "ok" if csid is ready, and the node plugin too if there is one. Otherwise it
// answers 503 with the reason.
func (h *handler) healthz(answer http.ResponseWriter, request *http.Request) {
	if err := h.checkInTurn(request.Context(), h.isReady); err != nil {
		http.Error(answer, status.Convert(err).Message(), http.StatusServiceUnavailable)
		return
	}
	fmt.Fprintln(answer, "ok")
}

// checkInTurn runs a check as soon as fewer than maxHealthChecks others run. The wait and the check
// take at most questionTime together.
func (h *handler) checkInTurn(ctx context.Context, check func(context.Context) error) error {
	ctx, cancel := context.WithTimeout(ctx, questionTime)
	defer cancel()
	select {
	case h.checks <- struct{}{}:
	case <-ctx.Done():
		return status.FromContextError(ctx.Err()).Err()
	}
	defer func() { <-h.checks }()
	return check(ctx)
}
