// front answers gRPC calls (HTTP/2) on a Unix socket. It gets the replies from csid, which listens
// on another socket.
//
// The front sends the path and the message of a call to csid as one frame. The status, text and
// body of the reply come back. The front does not need to understand messages, with these
// exceptions: it makes some calls itself (Probe, GetCapacity and ListVolumes), it answers the
// health service, and with --log-changes it logs the names and ids in changes. With --node it sends
// the calls of the Node service to a node plugin, over gRPC and unread.
package main

import (
	"errors"
	"flag"
	"fmt"
	"net"
	"os"
	"os/signal"
	"path/filepath"
	"runtime"
	"syscall"
	"time"

	"google.golang.org/grpc"

	"fomaheti/logqueue"
	"fomaheti/sockets"
	_ "fomaheti/streams"
	"fomaheti/words"
)

// The exit statuses: exitOK after all calls have ended and for --help and --version, exitCutOff if
// calls still ran, exitUsage for arguments that are refused, exitNoReply if csid was silent for the
// time of --standby, exitNoSocket if a socket cannot be made or taking connections fails. The exit
// status is words.ExitOutput if the output of --help or --version cannot be written. csid uses the
// same numbers for the same outcomes, except for 3.
const (
	exitOK       = 0
	exitCutOff   = 1
	exitUsage    = 2
	exitNoReply  = 3
	exitNoSocket = 7
)

// version is the version of the repository. go/front/build takes it from the file VERSION.
var version = "unknown"

// The longest times that the front waits at its end: until its last lines are written, after the
// time of --grace until the last replies are sent, and until csid has answered calls that no client
// waits for.
const (
	lastLinesTime   = time.Second
	lastRepliesTime = 100 * time.Millisecond
	lastAnswersTime = time.Second
)

func main() {
	// The front goes on if the reader of standard error is gone.
	signal.Ignore(syscall.SIGPIPE)
	useOneProcessor()
	opts, err := readOptions(os.Args[1:], os.Getenv("CSI_ENDPOINT"), os.Stdout)
	// A refusal of the arguments is one line without a time, as in any command.
	log := newLog(os.Stderr, opts.logFormat, err == nil && !opts.version && !logqueue.HasJournal())
	status := run(opts, err, log)
	log.end(lastLinesTime)
	os.Exit(status)
}

// useOneProcessor keeps all goroutines on one processor, unless the environment has GOMAXPROCS. A
// call passes through several goroutines, one after the other. Waking a goroutine on another
// processor takes longer than its work.
func useOneProcessor() {
	if os.Getenv("GOMAXPROCS") == "" {
		runtime.GOMAXPROCS(1)
	}
}

// run runs the front with the options, or reports err, the reason why they were refused. It returns
// the exit status.
func run(opts options, err error, log *logger) int {
	if errors.Is(err, flag.ErrHelp) {
		return exitOK
	}
	if err == nil && opts.version {
		// The packages of packaging/ install the program under a longer name.
		if err = words.Print(os.Stdout, filepath.Base(os.Args[0])+" "+version+"\n"); err == nil {
			return exitOK
		}
	}
	if err != nil {
		log.logFailure(err)
		if errors.Is(err, words.ErrOutput) {
			return words.ExitOutput
		}
		return exitUsage
	}
	f := &front{opts, log, newHandler(opts, log), nil, make(chan os.Signal, 2), make(chan error, 2),
		make(chan error, 1)}
	signal.Notify(f.stop, syscall.SIGTERM, syscall.SIGINT)
	if f.control, err = startControl(f.handler, opts); err != nil {
		return f.fail(err, exitNoSocket)
	}
	defer f.control.close()
	if opts.standby > 0 {
		return f.standBy()
	}
	listener, err := sockets.Listen(opts.listen)
	if err != nil {
		return f.fail(err, exitNoSocket)
	}
	defer listener.Close()
	if err := startMonitor(f.handler, opts, f.failed); err != nil {
		return f.fail(err, exitNoSocket)
	}
	return f.serve(listener)
}

// front has the parts of the program that answer calls, and the channels for the reasons to end.
type front struct {
	opts    options
	log     *logger
	handler *handler
	control *control
	stop    chan os.Signal
	// Receives failures to take connections, for gRPC or at --metrics.
	failed chan error
	// Receives an error if csid has given no reply for the time of --standby. Used only with
	// --standby and without --node.
	silent chan error
}

// fail logs why the front ends, and returns status, the exit status.
func (f *front) fail(why error, status int) int {
	f.log.logFailure(why)
	return status
}

// serve answers calls until the front fails or gets a signal to end. It returns the exit status.
func (f *front) serve(listener net.Listener) int {
	server := newServer(f.handler)
	clients := limitListener(listener, maxClients, f.log.closedFor("gRPC", "--listen", maxClients))
	go func() { f.failed <- take(server, grpcListener{clients}) }()
	select {
	case err := <-f.failed:
		return f.fail(err, exitNoSocket)
	case err := <-f.silent:
		f.log.logFailure(err)
		f.endCalls(server)
		return exitNoReply
	case <-f.stop:
		return f.end(server)
	}
}

func take(server *grpc.Server, listener net.Listener) error {
	if err := server.Serve(listener); err != nil {
		return fmt.Errorf("taking connections: %w", err)
	}
	return errors.New("taking connections ended")
}

// end takes no further calls, and waits until the running calls have ended: then it returns exitOK.
// After the time of --grace, or at a second signal, it returns exitCutOff if a call still runs.
func (f *front) end(server *grpc.Server) int {
	if !f.endCalls(server) {
		return exitCutOff
	}
	f.handler.backend.stop(lastAnswersTime)
	return exitOK
}

// endCalls waits until all calls of clients have ended, until a second signal, or for the time of
// --grace. If a call still runs then, it logs this and returns false. A client that hangs delays
// the end of its connection, and is no call.
func (f *front) endCalls(server *grpc.Server) bool {
	ended := make(chan struct{})
	go func() {
		f.control.stop()
		server.GracefulStop()
		f.control.wait()
		close(ended)
	}()
	select {
	case <-ended:
		return true
	case <-f.stop:
	case <-time.After(f.opts.grace):
	}
	select {
	case <-ended:
		return true
	case <-time.After(lastRepliesTime):
	}
	if f.handler.isIdle() {
		return true
	}
	f.log.cutOff()
	return false
}
