package main

import (
	"errors"
	"flag"
	"fmt"
	"io"
	"net"
	"strconv"
	"strings"
	"time"

	"fomaheti/words"
)

const usage = `Answers gRPC calls on a Unix socket by a csid that serves another one (docs/DEPLOY.md).

usage: front --csid PATH [--listen PATH] [--node PATH] [--grace TIME] [--late TIME] [--waiting MIB]
             [--log-format text|json] [--log-changes] [--control PATH [--control-group NAME]] [--standby TIME] [--health]
             [--config FILE] [--metrics HOST:PORT [--metrics-topology KEY=VALUE,..]..]
       front --version
`

// The greatest value of --waiting, in MiB.
const maxWaiting = 1 << 20

// options has the values of the command line. Sockets are paths, without unix: or unix://.
type options struct {
	listen string
	csid   string
	// The socket of a node plugin; empty without one.
	node      string
	grace     time.Duration
	late      time.Duration
	waiting   int
	logFormat string
	// True if each change is logged.
	logChanges bool
	// The path of the control socket, empty without --control. controlGroup is the name or number
	// of a group that may connect to it, or empty.
	control      string
	controlGroup string
	// The time for which csid may give no reply before the front ends. It is 0 without --standby:
	// then there is no limit, and the front makes its socket without waiting for csid.
	standby time.Duration
	health  bool
	// The HOST:PORT for metrics; empty without --metrics.
	metrics    string
	topologies []topology
	// The sizes of pools and the limits of nodes; nil without --config.
	configuration *configuration
	version       bool
}

// readOptions parses and checks the arguments. endpoint is the value of CSI_ENDPOINT, which counts
// if --listen is not given. For --help it writes the usage to shown, and returns flag.ErrHelp. With
// --version it checks no other value.
func readOptions(given []string, endpoint string, shown io.Writer) (options, error) {
	var opts options
	flags := flag.NewFlagSet("front", flag.ContinueOnError)
	flags.SetOutput(io.Discard)
	flags.StringVar(&opts.listen, "listen", endpoint,
		"the `PATH` of the socket for the orchestrator, also as unix://PATH; without it CSI_ENDPOINT")
	flags.StringVar(&opts.csid, "csid", "", "the `PATH` of the socket that csid serves")
	flags.StringVar(&opts.node, "node", "",
		"the `PATH` of the socket of a node plugin, which answers the calls of the Node service")
	flags.DurationVar(&opts.grace, "grace", 20*time.Second, "how long calls may go on after SIGTERM, as 20s: a `TIME`")
	flags.DurationVar(&opts.late, "late", time.Minute,
		"how long csid may take for the reply to a call that was given up, before its connection is closed: a `TIME`")
	flags.IntVar(&opts.waiting, "waiting", 64, "how many `MIB` the messages of all calls that wait may have together")
	flags.StringVar(&opts.logFormat, "log-format", textLines,
		"the `FORMAT` of lines on standard error: text, or json for one object a line")
	flags.BoolVar(&opts.logChanges, "log-changes", false,
		"log each call that changes volumes, with the name or id of its volume and its node")
	flags.StringVar(&opts.control, "control", "",
		"the `PATH` of a socket on which calls are taken as csid takes them, for csictl")
	flags.StringVar(&opts.controlGroup, "control-group", "",
		"the `NAME` or number of the group that may connect to the socket of --control; without it its owner alone may")
	flags.Func("standby", "make the socket only once csid is ready, and end where csid answered nothing for so long, "+
		"1s to 1h: a `TIME`", opts.setStandby)
	flags.BoolVar(&opts.health, "health", false, "answer gRPC's health service: Check, by a Probe")
	flags.StringVar(&opts.metrics, "metrics", "",
		"the `HOST:PORT` on which /metrics and /healthz are answered over HTTP; port 0 is any that is free, and the "+
			"log says which")
	flags.Func("metrics-topology",
		"a topology whose available capacity is one of the metrics, as `KEY=VALUE,..`; may be given again",
		opts.addTopology)
	flags.Func("config", "the configuration of csid, a `FILE`: what its pools and nodes have room for, and what all "+
		"volumes take of it, are among the metrics, and csictl shows them", opts.setConfiguration)
	flags.BoolVar(&opts.version, "version", false, "print the version, and end")
	if err := words.Parse(flags, given, usage, shown); err != nil {
		return options{}, err
	}
	if opts.version {
		return opts, nil
	}
	return checked(opts)
}

// checked returns the options with sockets as paths. It fails if a value is out of range or options
// contradict each other.
func checked(opts options) (options, error) {
	var err error
	if opts.listen, err = socketPath(opts.listen, "--listen or CSI_ENDPOINT"); err != nil {
		return options{}, err
	}
	if opts.csid, err = socketPath(opts.csid, "--csid"); err != nil {
		return options{}, err
	}
	if opts.listen == opts.csid {
		return options{}, errors.New("the two sockets are one")
	}
	if opts, err = checkNode(opts); err != nil {
		return options{}, err
	}
	if opts, err = checkControl(opts); err != nil {
		return options{}, err
	}
	if opts.grace < 0 {
		return options{}, fmt.Errorf("--grace: %v is below 0", opts.grace)
	}
	if opts.late < 0 {
		return options{}, fmt.Errorf("--late: %v is below 0", opts.late)
	}
	if opts.waiting < 1 || opts.waiting > maxWaiting {
		return options{}, fmt.Errorf("--waiting: %d is not 1 to %d", opts.waiting, maxWaiting)
	}
	if opts.logFormat != textLines && opts.logFormat != jsonLines {
		return options{}, fmt.Errorf("--log-format: %q is neither text nor json", opts.logFormat)
	}
	if err := checkMetrics(opts); err != nil {
		return options{}, err
	}
	return opts, nil
}

func checkNode(opts options) (options, error) {
	if opts.node == "" {
		return opts, nil
	}
	var err error
	if opts.node, err = socketPath(opts.node, "--node"); err != nil {
		return options{}, err
	}
	if opts.node == opts.csid || opts.node == opts.listen {
		return options{}, errors.New("--node: it is one of the other sockets")
	}
	return opts, nil
}

func checkControl(opts options) (options, error) {
	if opts.control == "" {
		if opts.controlGroup != "" {
			return options{}, errors.New("--control-group: there is no --control")
		}
		return opts, nil
	}
	var err error
	if opts.control, err = socketPath(opts.control, "--control"); err != nil {
		return options{}, err
	}
	if opts.control == opts.csid || opts.control == opts.listen || opts.control == opts.node {
		return options{}, errors.New("--control: it is one of the other sockets")
	}
	return opts, nil
}

func checkMetrics(opts options) error {
	if opts.metrics == "" {
		if len(opts.topologies) > 0 {
			return errors.New("--metrics-topology: there is no --metrics")
		}
		return checkConfiguration(opts)
	}
	_, port, err := net.SplitHostPort(opts.metrics)
	if err != nil {
		return fmt.Errorf("--metrics: %q is no HOST:PORT", opts.metrics)
	}
	if _, err := strconv.ParseUint(port, 10, 16); err != nil {
		return fmt.Errorf("--metrics: %q is no port from 0 to 65535", port)
	}
	return nil
}

// checkConfiguration refuses --config without --control. It is called only without --metrics, and
// one of the two must show the configuration.
func checkConfiguration(opts options) error {
	if opts.configuration != nil && opts.control == "" {
		return errors.New("--config: there is neither --metrics nor --control")
	}
	return nil
}

func (opts *options) setStandby(given string) (err error) {
	if opts.standby, err = time.ParseDuration(given); err != nil {
		return err
	}
	if opts.standby < leastStandby || opts.standby > mostStandby {
		return fmt.Errorf("%v is not %v to %v", opts.standby, leastStandby, mostStandby)
	}
	return nil
}

func (opts *options) setConfiguration(path string) (err error) {
	opts.configuration, err = readConfiguration(path)
	return err
}

// addTopology adds the topology of one --metrics-topology. It refuses a name that was given before,
// since each name is one series.
func (opts *options) addTopology(name string) error {
	added, err := readTopology(name)
	if err != nil {
		return err
	}
	for _, earlier := range opts.topologies {
		if earlier.name == name {
			return errors.New("it is there twice")
		}
	}
	opts.topologies = append(opts.topologies, added)
	return nil
}

// socketPath returns the path of a socket that is given as PATH, unix:PATH or unix://PATH. name is
// the option, for errors.
func socketPath(given, name string) (string, error) {
	path := strings.TrimPrefix(given, "unix://")
	if path == given {
		path = strings.TrimPrefix(given, "unix:")
	}
	if path == "" {
		return "", fmt.Errorf("%s: the path of a socket is missing", name)
	}
	if strings.Contains(path, "://") {
		return "", fmt.Errorf("%s: %q is no Unix socket", name, given)
	}
	return path, nil
}
