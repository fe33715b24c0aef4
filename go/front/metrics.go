package main

import (
	"context"
	"runtime"
	"sync"
	"time"

	"github.com/prometheus/client_golang/prometheus"
	"github.com/prometheus/client_golang/prometheus/collectors"
	"google.golang.org/grpc/codes"
)

// namespace is the prefix of the names of the front's own metrics.
const namespace = "csid_front"

// buckets are the bounds of the histogram in seconds, from a call that csid answers at once to the
// longest deadlines of sidecars.
var buckets = []float64{.001, .0025, .005, .01, .025, .05, .1, .25, .5, 1, 2.5, 5, 10, 30, 60}

// metrics has the counters and durations of calls of clients, the number of calls that wait, and
// the number of refusals by csid with one of the openReasons.
type metrics struct {
	calls    *prometheus.CounterVec
	seconds  *prometheus.HistogramVec
	waiting  prometheus.Gauge
	refusals *prometheus.CounterVec
	// The series of each known method, by its path. A look-up by labels would take longer.
	series map[string]*series
}

// series has the series of one method: the numbers of ended calls by code, and their durations. The
// series of durations is made at the first call.
type series struct {
	calls   [codes.Unauthenticated + 1]prometheus.Counter
	once    sync.Once
	seconds prometheus.Observer
}

func newMetrics() *metrics {
	m := &metrics{
		series: map[string]*series{},
		calls: prometheus.NewCounterVec(prometheus.CounterOpts{
			Namespace: namespace, Name: "calls_total", Help: "Calls that were answered, by method and gRPC code.",
		}, []string{"method", "code"}),
		seconds: prometheus.NewHistogramVec(prometheus.HistogramOpts{
			Namespace: namespace, Name: "call_duration_seconds",
			Help: "Seconds from the beginning of a call to its answer, by method.", Buckets: buckets,
		}, []string{"method"}),
		waiting: prometheus.NewGauge(prometheus.GaugeOpts{
			Namespace: namespace, Name: "waiting_calls", Help: "Calls that wait to be sent to csid, or for its reply.",
		}),
		refusals: prometheus.NewCounterVec(prometheus.CounterOpts{
			Namespace: namespace, Name: "internal_refusals_total",
			Help: "Calls that csid refused for lack of memory or for its store, by reason.",
		}, []string{"reason"}),
	}
	m.begin(methods)
	for reason := range openReasons {
		m.refusals.WithLabelValues(reason)
	}
	return m
}

// begin makes the counters of the given methods, with the value 0. Prometheus sees no increase of a
// counter that begins at 1.
func (m *metrics) begin(methods map[string]bool) {
	for method := range methods {
		own := &series{}
		for code := range own.calls {
			own.calls[code] = m.calls.WithLabelValues(method, codes.Code(code).String())
		}
		m.series[method] = own
	}
}

func newCounter(name, help string) prometheus.Counter {
	return prometheus.NewCounter(prometheus.CounterOpts{Namespace: namespace, Name: name, Help: help})
}

// observe counts a call that ended with this code, and records how long it took. A node plugin may
// answer any number as a code. Those that gRPC does not have count as UNKNOWN, since each code is a
// series.
func (m *metrics) observe(path string, code codes.Code, took time.Duration) {
	if code > codes.Unauthenticated {
		code = codes.Unknown
	}
	if own := m.series[path]; own != nil {
		own.once.Do(func() { own.seconds = m.seconds.WithLabelValues(path) })
		own.calls[code].Inc()
		own.seconds.Observe(took.Seconds())
		return
	}
	method := methodLabel(path)
	m.calls.WithLabelValues(method, code.String()).Inc()
	m.seconds.WithLabelValues(method).Observe(took.Seconds())
}

// newRegistry returns a registry with all metrics of the front. If listings is nil, there are no
// metrics of pools, nodes and volumes.
func newRegistry(h *handler, topologies []topology, listings *listings) *prometheus.Registry {
	registry := prometheus.NewRegistry()
	registry.MustRegister(
		h.metrics.calls, h.metrics.seconds, h.metrics.waiting, h.metrics.refusals,
		h.backend.connections, h.backend.failures,
		newCsidCollector(h, topologies),
		droppedLines(h.log),
		buildInfo(),
		collectors.NewGoCollector(),
		collectors.NewProcessCollector(collectors.ProcessCollectorOpts{}),
	)
	if h.standsBy {
		registry.MustRegister(standingBy(h))
	}
	if h.node != nil {
		registry.MustRegister(nodePluginUp(h), nodeCalls(h.node))
	}
	if listings != nil {
		registry.MustRegister(listings)
	}
	return registry
}

func standingBy(h *handler) prometheus.Collector {
	return prometheus.NewGaugeFunc(prometheus.GaugeOpts{
		Namespace: namespace, Name: "standing_by",
		Help: "Whether the front waits for csid: without --node it has no socket then.",
	}, func() float64 {
		if h.isWaiting.Load() {
			return 1
		}
		return 0
	})
}

// nodePluginUp returns a gauge that is 1 if the node plugin is ready, and 0 otherwise. Each scrape
// asks the plugin.
func nodePluginUp(h *handler) prometheus.Collector {
	return prometheus.NewGaugeFunc(prometheus.GaugeOpts{
		Namespace: namespace, Name: "node_plugin_up", Help: "Whether the node plugin answered that it is ready.",
	}, func() float64 {
		ctx, cancel := context.WithTimeout(context.Background(), questionTime)
		defer cancel()
		if h.isNodeReady(ctx) != nil {
			return 0
		}
		return 1
	})
}

func nodeCalls(n *nodePlugin) prometheus.Collector {
	return prometheus.NewGaugeFunc(prometheus.GaugeOpts{
		Namespace: namespace, Name: "node_calls",
		Help: "Calls of the Node service that the node plugin has not answered.",
	}, func() float64 { return float64(len(n.calls)) })
}

func droppedLines(log *logger) prometheus.Collector {
	return prometheus.NewCounterFunc(prometheus.CounterOpts{
		Namespace: namespace, Name: "log_lines_dropped_total",
		Help: "Lines that were dropped, since standard error did not take them.",
	}, func() float64 {
		if log.queue == nil {
			return 0
		}
		return float64(log.queue.Dropped())
	})
}

func buildInfo() prometheus.Collector {
	info := prometheus.NewGauge(prometheus.GaugeOpts{
		Namespace: namespace, Name: "build_info", Help: "Always 1, with the version of the front and of Go.",
		ConstLabels: prometheus.Labels{"version": version, "goversion": runtime.Version()},
	})
	info.Set(1)
	return info
}

// csidCollector asks csid at each scrape: by Probe if csid is ready, and by GetCapacity for the
// free bytes of each topology.
type csidCollector struct {
	handler    *handler
	topologies []topology
	up         *prometheus.Desc
	capacity   *prometheus.Desc
}

func newCsidCollector(h *handler, topologies []topology) *csidCollector {
	return &csidCollector{
		handler:    h,
		topologies: append([]topology{everywhere}, topologies...),
		up:         prometheus.NewDesc(namespace+"_csid_up", "Whether csid answered that it is ready.", nil, nil),
		capacity: prometheus.NewDesc(namespace+"_available_capacity_bytes",
			"Bytes that are free in the pools that serve a topology, by GetCapacity; without a topology, in all pools.",
			[]string{"topology"}, nil),
	}
}

func (c *csidCollector) Describe(out chan<- *prometheus.Desc) {
	out <- c.up
	out <- c.capacity
}

// Collect reports no capacity if csid is not ready, and leaves out a topology if csid does not
// answer with its capacity. The log has the reason.
func (c *csidCollector) Collect(out chan<- prometheus.Metric) {
	ctx, cancel := context.WithTimeout(context.Background(), questionTime)
	defer cancel()
	if c.handler.isCsidReady(ctx) != nil {
		out <- prometheus.MustNewConstMetric(c.up, prometheus.GaugeValue, 0)
		return
	}
	out <- prometheus.MustNewConstMetric(c.up, prometheus.GaugeValue, 1)
	for _, topology := range c.topologies {
		if bytes, err := c.handler.capacity(ctx, topology); err == nil {
			out <- prometheus.MustNewConstMetric(c.capacity, prometheus.GaugeValue, float64(bytes), topology.name)
		}
	}
}
