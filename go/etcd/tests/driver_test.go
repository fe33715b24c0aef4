package tests

import (
	"context"
	"fmt"
	"math/rand"
	"strings"
	"testing"
	"time"

	"google.golang.org/grpc/codes"
)

// driver acts as csid: it reads all rows over a connection and makes changes until one gets no OK.
// It keeps the rows that the replies promise. Each reading must be these rows, or these rows with
// the one change whose outcome is unknown.
type driver struct {
	t       *testing.T
	sockets []string
	random  *rand.Rand
	// The promised rows, and these rows with the change of unknown outcome.
	known, pending rows
	next           uint64
	// The number of refusals by text, of changes with OK, and of changes without a reply.
	refused map[string]int
	ok      int
	unknown int
	// The number of changes without a reply that were made.
	made int
	// The longest time between two replies with OK, and the time of the last one.
	gap  time.Duration
	last time.Time
	// The socket over which the last OK came.
	from string
}

func newDriver(t *testing.T, programs ...program) *driver {
	d := &driver{t: t, random: rand.New(rand.NewSource(1)), refused: map[string]int{}, last: time.Now()}
	for _, p := range programs {
		d.sockets = append(d.sockets, p.Socket)
	}
	return d
}

// run makes changes until the context ends, in sessions over its sockets in turn. The first error
// of a session fails the test and ends run.
func (d *driver) run(ctx context.Context) {
	for i := 0; ctx.Err() == nil; i++ {
		if err := d.session(ctx, d.sockets[i%len(d.sockets)]); err != nil {
			d.t.Error(err)
			return
		}
		time.Sleep(10 * time.Millisecond)
	}
}

// begin starts run in the background and returns a function that ends it.
func (d *driver) begin() (end func()) {
	ctx, cancel := context.WithCancel(context.Background())
	done := make(chan struct{})
	go func() {
		defer close(done)
		d.run(ctx)
	}()
	return func() {
		cancel()
		<-done
	}
}

// session does what csid does over one connection: it reads all rows, makes the first row if there
// are none, and makes changes until one gets no OK. It returns an error only for rows or replies
// that must not occur.
func (d *driver) session(ctx context.Context, socket string) error {
	l, err := dial(socket)
	if err != nil {
		return nil
	}
	defer l.Close()
	read, _, err := l.readAll()
	if err != nil {
		return d.notRead(err)
	}
	if len(read) == 0 {
		if reply, err := l.call(makePath, nil); err != nil || reply.Code != codes.OK {
			return nil
		}
		read = rows{"meta": "2 1"}
	}
	if err := d.compare(read); err != nil {
		return err
	}
	for ctx.Err() == nil {
		isOK, err := d.change(l)
		if err != nil {
			return err
		}
		if !isOK {
			return nil
		}
		d.recordOK(socket)
	}
	return nil
}

func (d *driver) recordOK(socket string) {
	now := time.Now()
	if gap := now.Sub(d.last); gap > d.gap {
		d.gap = gap
	}
	d.last, d.from = now, socket
	d.ok++
}

// notRead returns nil if all rows could not be read because the connection ended, or because the
// program does not lead. It returns an error for any other refusal.
func (d *driver) notRead(err error) error {
	if text := err.Error(); strings.HasPrefix(text, "9 ") {
		if !strings.HasPrefix(text, "9 waiting for the lock") &&
			!strings.HasPrefix(text, "9 this program does not lead any more") {
			return fmt.Errorf("Read: %s", text)
		}
		d.refused["waiting"]++
	}
	return nil
}

// compare returns an error if the rows that were read are not the promised ones, with or without
// the change of unknown outcome. Then it keeps the rows that were read as the promised ones.
func (d *driver) compare(read rows) error {
	if d.known != nil {
		switch got := read.String(); {
		case d.pending != nil && got == d.pending.String():
			d.made++
		case got != d.known.String():
			return fmt.Errorf("read\n%s\ntold\n%s\nor\n%s", difference(read, d.known), difference(d.known, read),
				difference(d.pending, read))
		}
	}
	d.known, d.pending = read, nil
	fmt.Sscanf(read["meta"], "2 %d", &d.next)
	return nil
}

// difference returns the rows of `one` that `other` does not have, or has with another value.
func difference(one, other rows) rows {
	found := rows{}
	for key, value := range one {
		if other[key] != value {
			found[key] = value
		}
	}
	return found
}

// change makes one change and reports whether it got OK. It returns an error for a refusal that
// must not occur.
func (d *driver) change(l *storeConn) (isOK bool, err error) {
	message, after := d.choose()
	reply, err := l.call(commitPath, message)
	if err != nil {
		d.unknown++
		d.pending = after
		return false, nil
	}
	if reply.Code == codes.OK {
		d.known = after
		fmt.Sscanf(after["meta"], "2 %d", &d.next)
		return true, nil
	}
	d.refused[fmt.Sprintf("%d %s", reply.Code, reply.Text)]++
	if !strings.HasPrefix(reply.Text, "waiting for the lock") &&
		!strings.HasPrefix(reply.Text, "this program does not lead any more") &&
		reply.Text != "the key of the lock was put again" && reply.Text != "etcdserver: no leader" &&
		reply.Text != "etcdserver: too many requests" {
		return false, fmt.Errorf("a change was refused: %d %s", reply.Code, reply.Text)
	}
	return false, nil
}

func (r rows) with(key, value string) rows {
	all := rows{}
	for key, value := range r {
		all[key] = value
	}
	if value == "" {
		delete(all, key)
	} else {
		all[key] = value
	}
	return all
}

// choose returns the message of a possible change, and the rows after it.
func (d *driver) choose() (message []byte, after rows) {
	var volumes []uint64
	nodes := map[uint64][]string{}
	for key := range d.known {
		var kind int
		var number uint64
		var node string
		count, _ := fmt.Sscanf(key, "%d %d %s", &kind, &number, &node)
		if count == 2 {
			volumes = append(volumes, number)
		} else if count == 3 {
			nodes[number] = append(nodes[number], node)
		}
	}
	if len(volumes) < 5 || (len(volumes) < 20 && d.random.Intn(3) == 0) {
		return d.add()
	}
	number := volumes[d.random.Intn(len(volumes))]
	key := fmt.Sprintf("1 %020d", number)
	switch what := d.random.Intn(6); {
	case what == 0:
		params := []string{"", "\x42\x00", "\x42\x03\x0a\x01k"}[d.random.Intn(3)]
		value := strings.Fields(d.known[key])
		return setMutable(number, params), d.known.with(key,
			strings.Join(value[:3], " ")+fmt.Sprintf(" %x %x", block, params))
	case len(nodes[number]) == 0 && what == 1:
		return removeVolume(number), d.known.with(key, "")
	case len(nodes[number]) > 0 && what < 4:
		if what == 2 {
			after = d.known
			for _, node := range nodes[number] {
				after = after.with(fmt.Sprintf("2 %020d %s", number, node), "")
			}
			return detachAll(number), after
		}
		node := nodes[number][0]
		return detach(number, node), d.known.with(fmt.Sprintf("2 %020d %s", number, node), "")
	default:
		for i := 0; ; i++ {
			node := fmt.Sprintf("n%d", i)
			key := fmt.Sprintf("2 %020d %s", number, node)
			if d.known[key] == "" {
				return attach(number, node, i%2 == 0), d.known.with(key, fmt.Sprintf("%x %d", block, (i+1)%2))
			}
		}
	}
}

func (d *driver) add() (message []byte, after rows) {
	volumeName := fmt.Sprintf("pvc-%d-%d", d.next, d.random.Intn(1000))
	key := fmt.Sprintf("1 %020d", d.next)
	after = d.known.with(key, fmt.Sprintf("%s %d ssd %x ", volumeName, 1<<20, block)).with("meta",
		fmt.Sprintf("2 %d", d.next+1))
	return addVolume(d.next, volumeName), after
}

// String returns the numbers of the outcomes, and the longest time between two OK, as one line.
func (d *driver) String() string {
	return fmt.Sprintf("%d OK, %d ends without a reply of which %d were made, refusals %v, at most %v between two OK",
		d.ok, d.unknown, d.made, d.refused, d.gap.Round(time.Millisecond))
}
