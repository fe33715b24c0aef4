// node-plugin is an example of a node plugin for one machine. It mounts csid's volumes as loop
// devices with ext4 over files. It is not part of the proved code.
package main

import (
	"context"
	"errors"
	"flag"
	"fmt"
	"io"
	"os"
	"os/signal"
	"syscall"

	"google.golang.org/grpc"
	"google.golang.org/grpc/status"

	"fomaheti/sockets"
	_ "fomaheti/streams"
	"fomaheti/words"
)

// Exit statuses, besides words.ExitOutput. A refused call is a failure.
const (
	exitOK      = 0
	exitFailure = 1
	exitUsage   = 2
)

// version is set by go/node/build from the file VERSION.
var version = "unknown"

const usageText = `Puts volumes of csid at paths of one machine: an example of a node plugin (go/node/README.md).

usage: node-plugin serve --listen PATH --controller PATH --node ID --pool NAME=FOLDER.. [--name NAME] [--topology KEY=VALUE,..]
                         [--max-volumes N] [--without-devices]
       node-plugin call --socket PATH METHOD [JSON]
       node-plugin sweep --controller PATH --pool NAME=FOLDER.. [--remove]
       node-plugin --version
`

func main() {
	os.Exit(run(os.Args[1:], os.Stdout, os.Stderr))
}

func run(args []string, out, log io.Writer) int {
	commands := map[string]func([]string, io.Writer) error{"serve": serve, "call": call, "sweep": sweep}
	command := ""
	if len(args) > 0 {
		command = args[0]
	}
	if command == "--version" {
		return exitStatus(words.Print(out, "node-plugin "+version+"\n"), log)
	}
	if command == "--help" {
		return exitStatus(words.Print(out, usageText), log)
	}
	if commands[command] == nil {
		fmt.Fprint(log, usageText)
		return exitUsage
	}
	return exitStatus(commands[command](args[1:], out), log)
}

// exitStatus returns the exit status of a command that ended with err, and logs err. nil and
// flag.ErrHelp are successes without a line.
func exitStatus(err error, log io.Writer) int {
	if err == nil || errors.Is(err, flag.ErrHelp) {
		return exitOK
	}
	if reason, ok := status.FromError(err); ok {
		fmt.Fprintf(log, "node-plugin: %v: %s\n", reason.Code(), reason.Message())
		return exitFailure
	}
	fmt.Fprintf(log, "node-plugin: %v\n", err)
	switch {
	case errors.As(err, new(usageError)):
		return exitUsage
	case errors.Is(err, words.ErrOutput):
		return words.ExitOutput
	}
	return exitFailure
}

// serve answers calls until SIGTERM or SIGINT, and then waits for the running calls. A second
// signal ends the program at once.
func serve(args []string, out io.Writer) error {
	opts, err := readServeOptions(args, out)
	if err != nil {
		return err
	}
	controller, err := dial(opts.controller)
	if err != nil {
		return err
	}
	defer controller.Close()
	// Handled before the socket exists: a program that finds the socket may already send a signal.
	ctx, cancel := signal.NotifyContext(context.Background(), syscall.SIGTERM, syscall.SIGINT)
	defer cancel()
	listener, err := sockets.Listen(opts.listen)
	if err != nil {
		return err
	}
	server := newServer(&plugin{name: opts.name, info: opts.info, pools: opts.pools, storage: opts.storage,
		controller: controller})
	go func() {
		<-ctx.Done()
		cancel()
		server.GracefulStop()
	}()
	if err := server.Serve(listener); !errors.Is(err, grpc.ErrServerStopped) {
		return err
	}
	return nil
}
