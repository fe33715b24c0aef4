// csid-etcd is the change store of a csid whose rows are in etcd. It reads rows and makes changes
// for this csid while it holds a lock in etcd. Several csid-etcd can run, each with its own csid.
// Only the holder of the lock serves. When the holder loses the lock, another csid-etcd takes over.
package main

import (
	"context"
	"errors"
	"flag"
	"fmt"
	"os"
	"os/signal"
	"runtime"
	"syscall"
	"time"

	"fomaheti/logqueue"
	"fomaheti/sockets"
	_ "fomaheti/streams"
	"fomaheti/words"
)

// Exit statuses, besides words.ExitOutput. csid uses the same numbers for the same outcomes.
const (
	exitOK      = 0
	exitFailure = 1
	exitUsage   = 2
	exitSocket  = 7
)

// version is set by go/etcd/build from the file VERSION.
var version = "unknown"

// lastLinesTime is the longest wait at the end of the program until its last lines are written.
const lastLinesTime = time.Second

func main() {
	// The program goes on when the reader of standard error closes the pipe.
	signal.Ignore(syscall.SIGPIPE)
	opts, err := readOptions(os.Args[1:], os.Stdout)
	// Lines have no time if the program runs as a command, or if its arguments are refused.
	isTimed := err == nil && !opts.isOneShot() && !opts.version && !logqueue.HasJournal()
	lines, queue := newLogger(os.Stderr, opts.logFormat, isTimed)
	status := run(opts, err, lines)
	queue.End(lastLinesTime)
	os.Exit(status)
}

// run runs the program with the options, or reports err, the reason why they were refused. It
// returns the exit status.
func run(opts options, err error, lines *logger) int {
	if errors.Is(err, flag.ErrHelp) {
		return exitOK
	}
	if err == nil && opts.version {
		if err = words.Print(os.Stdout, "csid-etcd "+version+"\n"); err == nil {
			return exitOK
		}
	}
	if err != nil {
		lines.fails(err)
		if errors.Is(err, words.ErrOutput) {
			return words.ExitOutput
		}
		return exitUsage
	}
	if opts.isOneShot() {
		return runOnce(opts, lines)
	}
	stop := make(chan os.Signal, 2)
	signal.Notify(stop, syscall.SIGTERM, syscall.SIGINT)
	revisions, err := openRevisions(opts.revision, opts.acceptOlder)
	if err != nil {
		lines.fails(fmt.Errorf("--revision: %w", err))
		return exitFailure
	}
	// Calls are served one at a time, so a second processor would only have to be woken at each
	// step of a call.
	if os.Getenv("GOMAXPROCS") == "" {
		runtime.GOMAXPROCS(1)
	}
	// Only the user of this process may use the files and the socket that it makes.
	syscall.Umask(0o177)
	socket, err := sockets.Listen(opts.listen)
	if err != nil {
		lines.fails(err)
		return exitSocket
	}
	defer socket.Close()
	return serve(opts, socket, revisions, stop, lines)
}

// service is a running csid-etcd: it campaigns for the lock, answers csid, and saves the revision.
type service struct {
	socket *sockets.Socket
	server *server
	// Ends the campaign.
	cancel       context.CancelFunc
	campaignDone chan struct{}
	// Receives the error after which the socket takes no more connections.
	acceptFailed      chan error
	stopSaving, saved chan struct{}
}

func startService(opts options, socket *sockets.Socket, revisions *revisions, lines *logger) *service {
	ctx, cancel := context.WithCancel(context.Background())
	state := &leadership{}
	members := newMembers(opts, lines.infof)
	server := &server{state: state, members: members, requireRows: opts.requireRows, logf: lines.warnf}
	candidate := &candidate{opts: opts, members: members, keys: keys{opts.name}, revisions: revisions, state: state,
		logf: lines.infof, drop: server.drop}
	candidate.init()
	s := &service{socket: socket, server: server, cancel: cancel, campaignDone: make(chan struct{}),
		acceptFailed: make(chan error, 1), stopSaving: make(chan struct{}), saved: make(chan struct{})}
	go func() {
		defer close(s.campaignDone)
		candidate.run(ctx)
	}()
	go members.watchCertificates(ctx)
	go func() { s.acceptFailed <- server.accept(socket) }()
	go func() {
		defer close(s.saved)
		revisions.saveUntil(s.stopSaving, lines.warnf)
	}()
	return s
}

// end takes no further calls and waits for the running one, then releases the lock, and then saves
// the revision.
func (s *service) end() {
	s.socket.Close()
	s.server.end()
	s.cancel()
	<-s.campaignDone
	close(s.stopSaving)
	<-s.saved
}

// serve campaigns for the lock and answers csid until a signal arrives or taking connections fails.
// Then it ends, at once if a further signal arrives, and returns the exit status.
func serve(opts options, socket *sockets.Socket, revisions *revisions, stop <-chan os.Signal, lines *logger) int {
	s := startService(opts, socket, revisions, lines)
	defer s.cancel()
	status := exitOK
	select {
	case err := <-s.acceptFailed:
		lines.fails(err)
		status = exitSocket
	case <-stop:
	}
	finished := make(chan struct{})
	go func() {
		defer close(finished)
		s.end()
	}()
	select {
	case <-finished:
		return status
	case <-stop:
		lines.fails(errors.New("ended, and cut off what was under way"))
		return exitFailure
	}
}
