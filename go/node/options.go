package main

import (
	"errors"
	"flag"
	"fmt"
	"io"
	"strings"

	"fomaheti/words"
)

// usageError is an error in the command line: the program ends with exitUsage.
type usageError struct{ error }

func refuse(format string, args ...interface{}) error {
	return usageError{fmt.Errorf(format, args...)}
}

// serveOptions are the options of `serve`: the sockets of the node plugin and of the front, the
// name of the plugin, the reply to NodeGetInfo, the folder of each pool, and the storage of
// volumes.
type serveOptions struct {
	listen     string
	controller string
	name       string
	info       nodeInfo
	pools      pools
	storage    storage
}

func readServeOptions(args []string, out io.Writer) (serveOptions, error) {
	opts := serveOptions{pools: pools{}, storage: devices{}}
	withoutDevices := false
	flags := flag.NewFlagSet("serve", flag.ContinueOnError)
	flags.StringVar(&opts.listen, "listen", "", "the `PATH` of the socket for the orchestrator")
	flags.StringVar(&opts.controller, "controller", "",
		"the `PATH` of the front's socket, which is asked for the sizes of volumes")
	flags.StringVar(&opts.info.NodeID, "node", "", "the `ID` of this node, as the configuration of csid has it")
	flags.StringVar(&opts.name, "name", "pools.example.org", "the plugin's `NAME`, as the configuration of csid has it")
	flags.Int64Var(&opts.info.MaxVolumes, "max-volumes", 0,
		"the greatest `NUMBER` of volumes at this node; 0 leaves it to the orchestrator")
	flags.Func("topology", "where this node is, as `KEY=VALUE,..`", opts.addTopology)
	flags.Func("pool", "the folder of a pool, as `NAME=FOLDER`; given again for further pools", opts.pools.add)
	flags.BoolVar(&withoutDevices, "without-devices", false,
		"keep volumes as folders, and link them: this needs no root, and bounds no size")
	if err := parseFlags(flags, args, 0, out); err != nil {
		return serveOptions{}, err
	}
	if withoutDevices {
		opts.storage = folders{}
	}
	if opts.info.MaxVolumes < 0 {
		return serveOptions{}, refuse("--max-volumes: %d is below 0", opts.info.MaxVolumes)
	}
	return opts, requireOptions(option{"--listen", opts.listen}, option{"--controller", opts.controller},
		option{"--node", opts.info.NodeID},
		option{"--name", opts.name}, option{"--pool", opts.pools.String()})
}

// addTopology sets the topology of the node to segments that are given as KEY=VALUE,... Each key
// may occur once.
func (opts *serveOptions) addTopology(pairs string) error {
	segments := map[string]string{}
	for _, pair := range strings.Split(pairs, ",") {
		key, value, ok := strings.Cut(pair, "=")
		if !ok || key == "" {
			return fmt.Errorf("%q is not KEY=VALUE", pair)
		}
		if _, ok := segments[key]; ok {
			return fmt.Errorf("the key %q is there twice", key)
		}
		segments[key] = value
	}
	opts.info.AccessibleTopology = &topology{Segments: segments}
	return nil
}

// parseFlags parses flags, and refuses more than maxArgs further arguments. For --help it prints
// the usage to out, and returns flag.ErrHelp, or words.ErrOutput if it cannot be written.
func parseFlags(flags *flag.FlagSet, args []string, maxArgs int, out io.Writer) error {
	flags.SetOutput(io.Discard)
	flags.Usage = func() {}
	err := flags.Parse(args)
	if errors.Is(err, flag.ErrHelp) {
		return words.Help(flags, usageText, out)
	}
	if err != nil {
		return usageError{err}
	}
	if flags.NArg() > maxArgs {
		return refuse("a word that is not known: %q", flags.Arg(maxArgs))
	}
	return nil
}

// option is a required option: its name and its value.
type option struct{ name, value string }

func requireOptions(options ...option) error {
	for _, o := range options {
		if o.value == "" {
			return refuse("%s is missing", o.name)
		}
	}
	return nil
}
