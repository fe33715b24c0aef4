package main

import (
	"context"
	"errors"
	"sync"
	"time"

	"github.com/prometheus/client_golang/prometheus"
	"google.golang.org/grpc/codes"
	"google.golang.org/grpc/status"
	"google.golang.org/protobuf/encoding/protowire"
)

// The pauses between two pages of at most 100 volumes each, between the beginnings of two listings,
// and after a failed listing. They bound the cost of listings for csid.
const (
	pagePause    = 100 * time.Millisecond
	listingPause = time.Minute
	failurePause = 10 * time.Second
)

// The greatest number of volumes of csid (docs/OPERATING.md, "Limits"), and the greatest number of
// pages of one listing: ten times the number of full pages that all volumes need.
const (
	maxVolumes = 100_000
	maxPages   = maxVolumes / 100 * 10
)

// listing has the sums over all volumes, from one walk over the pages of ListVolumes. A volume that
// is created or deleted during the walk may count or not.
type listing struct {
	endedAt time.Time
	volumes int
	// The use of each pool, by its name in the contexts of volumes. The number of volumes that are
	// attached at each node, by the node's id.
	pools       map[string]poolUse
	attachments map[string]int
}

type poolUse struct {
	volumes int
	bytes   int64
}

// listings lists all volumes again and again. It is a collector of metrics: the sums of the last
// complete listing, and the sizes and limits in the configuration.
type listings struct {
	handler *handler
	config  *configuration
	// The constants with these names, except in tests.
	pagePause, listingPause, failurePause time.Duration
	mutex                                 sync.Mutex
	last                                  *listing
	// True if a listing has ended, with success or with an error.
	hasListed bool
}

func newListings(h *handler, config *configuration) *listings {
	return &listings{handler: h, config: config, pagePause: pagePause, listingPause: listingPause,
		failurePause: failurePause}
}

// run lists volumes until the context ends. While the front waits for csid, it makes no listing and
// drops the last one.
func (l *listings) run(ctx context.Context) {
	for ctx.Err() == nil {
		next := l.failurePause
		if l.handler.isWaiting.Load() {
			l.keep(nil)
		} else {
			begin := time.Now()
			if l.list(ctx) == nil {
				next = l.listingPause - time.Since(begin)
			}
			l.hasListed = true
		}
		pause(ctx, next)
	}
}

func pause(ctx context.Context, length time.Duration) {
	timer := time.NewTimer(length)
	defer timer.Stop()
	select {
	case <-timer.C:
	case <-ctx.Done():
	}
}

// list walks over all pages and keeps the sums. If a page is refused or malformed, it returns and
// logs the reason. It does not log the reason if isAtStart is true, while the front waits for csid,
// or after the end of the context. After maxPages pages it returns an error without a line.
func (l *listings) list(ctx context.Context) error {
	begin, listed := time.Now(), &listing{pools: map[string]poolUse{}, attachments: map[string]int{}}
	token := ""
	for pages := 0; pages < maxPages; pages++ {
		if pages > 0 {
			pause(ctx, l.pagePause)
		}
		askCtx, cancel := context.WithTimeout(ctx, questionTime)
		var message []byte
		if token != "" {
			message = bytesField(2, []byte(token))
		}
		body, err := l.handler.ask(askCtx, listVolumes, message)
		cancel()
		if err == nil {
			token, err = listed.addPage(body)
		}
		if err != nil {
			if ctx.Err() == nil && !l.handler.isWaiting.Load() && !l.isAtStart(err) {
				l.handler.log.logRefusal("", listVolumes, nil, status.Convert(err), time.Since(begin))
			}
			return err
		}
		if token == "" {
			listed.endedAt = time.Now()
			l.keep(listed)
			return nil
		}
	}
	return errors.New("the pages of ListVolumes have no end")
}

// isAtStart reports whether err is UNAVAILABLE and no listing has ended yet. When a machine boots,
// csid makes its socket a moment after the front starts. The listing is repeated soon, and logs the
// reason if csid is still not reachable.
func (l *listings) isAtStart(err error) bool {
	return !l.hasListed && status.Code(err) == codes.Unavailable
}

func (l *listings) keep(listed *listing) {
	l.mutex.Lock()
	defer l.mutex.Unlock()
	l.last = listed
}

// kept returns the last listing. While the front waits for csid it returns nil: another csid may
// have changed the volumes since.
func (l *listings) kept() *listing {
	if l.handler.isWaiting.Load() {
		return nil
	}
	l.mutex.Lock()
	defer l.mutex.Unlock()
	return l.last
}

// addPage adds the volumes of a page (docs/PROTOCOL.md, "Messages"), and returns the token of the
// next page; the token is empty after the last page.
func (l *listing) addPage(body []byte) (token string, err error) {
	err = eachField(body, func(number protowire.Number, kind protowire.Type, value []byte) error {
		if kind != protowire.BytesType {
			return nil
		}
		bytes, _ := protowire.ConsumeBytes(value)
		switch number {
		case 1:
			return l.addEntry(bytes)
		case 2:
			token = string(bytes)
		}
		return nil
	})
	return token, err
}

// addEntry adds the volume of an entry. Field 1 of the entry is the volume. The ids of its nodes
// are field 1 of field 2.
func (l *listing) addEntry(entry []byte) error {
	l.volumes++
	return eachField(entry, func(number protowire.Number, kind protowire.Type, value []byte) error {
		if kind != protowire.BytesType {
			return nil
		}
		bytes, _ := protowire.ConsumeBytes(value)
		switch number {
		case 1:
			return l.addVolume(bytes)
		case 2:
			return eachField(bytes, func(number protowire.Number, kind protowire.Type, value []byte) error {
				if number == 1 && kind == protowire.BytesType {
					node, _ := protowire.ConsumeString(value)
					l.attachments[node]++
				}
				return nil
			})
		}
		return nil
	})
}

// addVolume adds a volume to the use of its pool. Field 1 of the volume is its size in bytes. Field
// 3 is its context, whose entry "pool" names the pool; without this entry the name is empty.
func (l *listing) addVolume(volume []byte) error {
	var bytes uint64
	var name string
	err := eachField(volume, func(number protowire.Number, kind protowire.Type, value []byte) error {
		switch {
		case number == 1 && kind == protowire.VarintType:
			bytes, _ = protowire.ConsumeVarint(value)
		case number == 3 && kind == protowire.BytesType:
			entry, _ := protowire.ConsumeBytes(value)
			if string(fieldOf(entry, 1)) == "pool" {
				name = string(fieldOf(entry, 2))
			}
		}
		return nil
	})
	use := l.pools[name]
	l.pools[name] = poolUse{use.volumes + 1, use.bytes + int64(bytes)}
	return err
}

// The descriptions of the series that listings reports.
var (
	poolSize = newDesc("pool_size_bytes", "Bytes of a pool, by the configuration.", "pool")
	poolUsed = newDesc("pool_used_bytes", "Bytes of a pool that its volumes take, by the last listing.", "pool")
	poolFree = newDesc("pool_free_bytes",
		"Bytes of a pool that are free, by the configuration and the last listing.", "pool")
	poolVolumes    = newDesc("pool_volumes", "Volumes of a pool, by the last listing.", "pool")
	nodeMaxVolumes = newDesc("node_max_volumes", "How many volumes can be attached at a node, by the configuration.",
		"node")
	nodeAttachments = newDesc("node_attachments", "Volumes that are attached at a node, by the last listing.", "node")
	volumesMost     = newDesc("max_volumes", "How many volumes csid can have.")
	volumesNow      = newDesc("volumes", "Volumes that there are, by the last listing.")
	listedAt        = newDesc("listing_timestamp_seconds",
		"When the last listing of all volumes ended, as seconds since 1970.")
)

func newDesc(name, help string, labels ...string) *prometheus.Desc {
	return prometheus.NewDesc(namespace+"_"+name, help, labels, nil)
}

func (l *listings) Describe(metrics chan<- *prometheus.Desc) {
	for _, desc := range []*prometheus.Desc{poolSize, poolUsed, poolFree, poolVolumes, nodeMaxVolumes, nodeAttachments,
		volumesMost, volumesNow, listedAt} {
		metrics <- desc
	}
}

// Collect reports maxVolumes, and the sizes and limits in the configuration. After the first
// complete listing, it also reports how much of them is used, and the time of the listing.
func (l *listings) Collect(metrics chan<- prometheus.Metric) {
	report := func(desc *prometheus.Desc, value float64, labels ...string) {
		metrics <- prometheus.MustNewConstMetric(desc, prometheus.GaugeValue, value, labels...)
	}
	last := l.kept()
	report(volumesMost, maxVolumes)
	if last != nil {
		report(volumesNow, float64(last.volumes))
		report(listedAt, float64(last.endedAt.UnixMilli())/1000)
	}
	for _, pool := range l.config.Pools {
		report(poolSize, float64(pool.Bytes), pool.Name)
		if last != nil {
			use := last.pools[pool.Name]
			report(poolUsed, float64(use.bytes), pool.Name)
			report(poolFree, float64(pool.Bytes-use.bytes), pool.Name)
			report(poolVolumes, float64(use.volumes), pool.Name)
		}
	}
	for _, node := range l.config.Nodes {
		report(nodeMaxVolumes, float64(node.MaxVolumes), node.ID)
		if last != nil {
			report(nodeAttachments, float64(last.attachments[node.ID]), node.ID)
		}
	}
}
