package main

import (
	"context"
	"errors"
	"fmt"
	"net"
	"os"
	"path/filepath"
	"sync"
	"sync/atomic"
	"syscall"
	"time"

	"google.golang.org/grpc"
	"google.golang.org/grpc/codes"
)

// The settings of the three measurements: a stop of csid, callers with short deadlines, and quiet
// peers. beforeStop and behindStop are how long callers run before the stop and after service came
// back.
const (
	stopCallers   = 100
	stopDeadline  = 10 * time.Second
	stopTime      = 15 * time.Second
	beforeStop    = 2 * time.Second
	behindStop    = 5 * time.Second
	hastyCallers  = 32
	hastyDeadline = 12 * time.Millisecond
	hastyTime     = 5 * time.Second
	quietPeers    = 1000
)

// allowed is the time for which service may be missing after the stop has ended, in addition to one
// opening of the file. waited is the longest wait of the bench for service.
const (
	allowed = 2 * time.Second
	waited  = 90 * time.Second
)

// repeating is a caller that creates and deletes volumes, with a deadline for each attempt at a
// call. A call that fails is repeated.
type repeating struct {
	*grpc.ClientConn
	number   int
	deadline time.Duration
	// The time at which its last successful call ended, in nanoseconds since 1970.
	served int64
	// The number of successful calls, and the number of failed attempts.
	done, lost int64
}

// run creates a volume and deletes it, again and again until the context ends.
func (r *repeating) run(ctx context.Context) {
	for i := 0; ctx.Err() == nil; i++ {
		name := fmt.Sprintf("stall-%d-%d", r.number, i)
		message := append([]byte{0x0a, byte(len(name))}, name...)
		body := r.repeat(ctx, controller+"CreateVolume", append(message, 0x1a, 6, 0x0a, 0, 0x1a, 2, 8, 1))
		if len(body) > 7 && int(body[7]) <= len(body)-8 {
			id := body[8 : 8+body[7]]
			r.repeat(ctx, controller+"DeleteVolume", append([]byte{0x0a, byte(len(id))}, id...))
		}
	}
}

// repeat makes a call until it succeeds, and returns the body of the reply. If the context ends
// first, it returns nil.
func (r *repeating) repeat(ctx context.Context, path string, message []byte) (body []byte) {
	for ctx.Err() == nil {
		limited, cancel := context.WithTimeout(ctx, r.deadline)
		err := r.Invoke(limited, path, message, &body)
		cancel()
		if err == nil {
			atomic.StoreInt64(&r.served, time.Now().UnixNano())
			atomic.AddInt64(&r.done, 1)
			return body
		}
		if ctx.Err() == nil {
			atomic.AddInt64(&r.lost, 1)
		}
		if grpc.Code(err) == codes.Unavailable {
			time.Sleep(10 * time.Millisecond)
		}
	}
	return nil
}

// crowd is a number of callers that make calls until the function end is called.
type crowd struct {
	callers []*repeating
	end     func()
}

func newCrowd(socket string, callers int, deadline time.Duration) (*crowd, error) {
	ctx, cancel := context.WithCancel(context.Background())
	var all sync.WaitGroup
	c := &crowd{}
	c.end = func() {
		cancel()
		all.Wait()
		for _, each := range c.callers {
			each.Close()
		}
	}
	for number := 0; number < callers; number++ {
		conn, err := newSidecar(socket)
		if err != nil {
			c.end()
			return nil, err
		}
		each := &repeating{ClientConn: conn.(sidecar).ClientConn, number: number, deadline: deadline}
		c.callers = append(c.callers, each)
		all.Add(1)
		go func() {
			defer all.Done()
			each.run(ctx)
		}()
	}
	return c, nil
}

// counts returns the numbers of successful calls and of failed attempts so far.
func (c *crowd) counts() (done, lost int64) {
	for _, each := range c.callers {
		done += atomic.LoadInt64(&each.done)
		lost += atomic.LoadInt64(&each.lost)
	}
	return done, lost
}

// servedSince returns how many callers had a successful call after begin.
func (c *crowd) servedSince(begin time.Time) (callers int) {
	for _, each := range c.callers {
		if atomic.LoadInt64(&each.served) > begin.UnixNano() {
			callers++
		}
	}
	return callers
}

// until waits until at least this number of callers had a successful call after begin, and returns
// the time since begin. It fails after the time waited.
func (c *crowd) until(begin time.Time, callers int) (time.Duration, error) {
	for time.Since(begin) < waited {
		if c.servedSince(begin) >= callers {
			return time.Since(begin), nil
		}
		time.Sleep(2 * time.Millisecond)
	}
	return 0, fmt.Errorf("%d of %d callers were served in %v", c.servedSince(begin), len(c.callers), waited)
}

// behindFront starts csid with a file of tables (a new file if tables is empty) and a front for it,
// and then calls do.
func behindFront(program, front, tables string, do func(csid *os.Process, csidSocket, socket string) error) error {
	folder, err := os.MkdirTemp("", "front")
	if err != nil {
		return err
	}
	defer os.RemoveAll(folder)
	csidSocket, socket := filepath.Join(folder, "csid.sock"), filepath.Join(folder, "csi.sock")
	if tables == "" {
		tables = filepath.Join(folder, "volumes.db")
	}
	csid, err := startCsid(program, folder, csidSocket, tables)
	if err != nil {
		return err
	}
	defer csid.Wait()
	defer csid.Process.Kill()
	running, err := start(socket, front, "--csid", csidSocket, "--listen", socket)
	if err != nil {
		return err
	}
	defer running.Wait()
	defer running.Process.Kill()
	return do(csid.Process, csidSocket, socket)
}

// opening returns how long csid takes from a new connection to its first reply, if there is no
// other connection.
func opening(socket string) (time.Duration, error) {
	// This first connection waits for the end of the connection with which start looked for the
	// socket.
	if _, err := firstReply(socket); err != nil {
		return 0, err
	}
	return firstReply(socket)
}

func firstReply(socket string) (time.Duration, error) {
	begin := time.Now()
	conn, err := net.Dial("unix", socket)
	if err != nil {
		return 0, err
	}
	defer conn.Close()
	_, err = (&direct{Conn: conn}).call("/csi.v1.Identity/Probe", nil)
	return time.Since(begin), err
}

// stop stops csid for stopTime while callers repeat their calls, and prints when they were served
// again.
func stop(csid *os.Process, csidSocket, socket string) error {
	opened, err := opening(csidSocket)
	if err != nil {
		return err
	}
	fmt.Printf("a file opened in %d ms; ", opened.Milliseconds())
	crowd, err := newCrowd(socket, stopCallers, stopDeadline)
	if err != nil {
		return err
	}
	defer crowd.end()
	if _, err := crowd.until(time.Now(), stopCallers); err != nil {
		return fmt.Errorf("before the stop: %w", err)
	}
	time.Sleep(beforeStop)
	if err := csid.Signal(syscall.SIGSTOP); err != nil {
		return err
	}
	time.Sleep(stopTime)
	if err := csid.Signal(syscall.SIGCONT); err != nil {
		return err
	}
	return comesBack(crowd, opened)
}

// comesBack prints how long after the stop the first and the last of the callers were served. It
// fails if the last one was served later than allowed plus the time of one opening.
func comesBack(crowd *crowd, opened time.Duration) error {
	begin := time.Now()
	first, err := crowd.until(begin, 1)
	if err != nil {
		return err
	}
	all, err := crowd.until(begin, stopCallers)
	if err != nil {
		return err
	}
	before, _ := crowd.counts()
	time.Sleep(behindStop)
	done, lost := crowd.counts()
	fmt.Printf("after the stop the first of %d callers was served after %d ms, the last after %d ms; then %.0f "+
		"calls/s; lost %d calls\n",
		stopCallers, first.Milliseconds(), all.Milliseconds(), float64(done-before)/behindStop.Seconds(), lost)
	if all > allowed+opened {
		return fmt.Errorf("service came back after %v, and not within %v and one opening of the file", all, allowed)
	}
	return nil
}

// crowdIn connects peers to csid. Each of them sends the same bytes, and then nothing more. The
// function end closes their connections, and is returned with an error too.
func crowdIn(socket string, peers int, sent []byte) (end func(), err error) {
	var conns []net.Conn
	end = func() {
		for _, conn := range conns {
			conn.Close()
		}
	}
	for number := 0; number < peers; number++ {
		conn, err := net.Dial("unix", socket)
		if err != nil {
			return end, err
		}
		conns = append(conns, conn)
		// csid may have closed the connection already.
		conn.Write(sent)
	}
	return end, nil
}

// quiet prints how long a call waits while quietPeers that send nothing and quietPeers that sent
// garbage stay connected. It measures a call over a new connection to csid, and then the first call
// of the front.
func quiet(_ *os.Process, csidSocket, socket string) error {
	opened, err := opening(csidSocket)
	if err != nil {
		return err
	}
	for _, sent := range []string{"", "garbage"} {
		end, err := crowdIn(csidSocket, quietPeers, []byte(sent))
		defer end()
		if err != nil {
			return err
		}
	}
	own, err := firstReply(csidSocket)
	if err != nil {
		return err
	}
	conn, err := newSidecar(socket)
	if err != nil {
		return err
	}
	defer conn.(sidecar).Close()
	begin := time.Now()
	if _, err := conn.call("/csi.v1.Identity/Probe", nil); err != nil {
		return err
	}
	took := time.Since(begin)
	fmt.Printf("a file opened in %d ms; after %d silent and %d garbage peers a connection was answered after %d ms, "+
		"and the front's after %d ms\n",
		opened.Milliseconds(), quietPeers, quietPeers, own.Milliseconds(), took.Milliseconds())
	if own > allowed+opened || took > allowed+opened {
		return fmt.Errorf("a call after quiet peers waited for longer than %v and one opening of the file", allowed)
	}
	return nil
}

// hasty compares callers with short deadlines to callers with a deadline of a minute. It fails if
// the hasty callers get less than half of the calls a second of the patient ones.
func hasty(_ *os.Process, _, socket string) error {
	rates := map[time.Duration]float64{}
	for _, deadline := range []time.Duration{time.Minute, hastyDeadline} {
		crowd, err := newCrowd(socket, hastyCallers, deadline)
		if err != nil {
			return err
		}
		if _, err := crowd.until(time.Now(), 1); err != nil {
			crowd.end()
			return err
		}
		before, lostBefore := crowd.counts()
		time.Sleep(hastyTime)
		done, lost := crowd.counts()
		crowd.end()
		done, lost = done-before, lost-lostBefore
		rates[deadline] = float64(done) / hastyTime.Seconds()
		fmt.Printf("%d callers with deadlines of %v: %.0f calls/s; lost %d calls\n", hastyCallers, deadline,
			rates[deadline], lost)
	}
	if rates[hastyDeadline] < rates[time.Minute]/2 {
		return errors.New("hasty callers get less than half of the calls a second of patient ones")
	}
	return nil
}
