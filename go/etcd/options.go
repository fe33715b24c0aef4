package main

import (
	"errors"
	"flag"
	"fmt"
	"io"
	"os"
	"regexp"
	"strings"
	"time"

	"fomaheti/frames"
	"fomaheti/words"
)

const usage = "Keeps the rows of a csid in etcd, and makes its changes there while it holds a lock " +
	"(csid-etcd(1), docs/ETCD.md).\n" + `
usage: csid-etcd --name NAME --listen PATH [--endpoints HOST:PORT,..] [--cacert PATH] [--cert PATH --key PATH]
                 [--user NAME[:PASSWORD]] [--password-file PATH] [--timeout TIME] [--lease SECONDS] [--id TEXT]
                 [--revision PATH] [--accept-older] [--existing] [--log-format text|json]
       csid-etcd --new --name NAME [--endpoints HOST:PORT,..] [--cacert PATH] [--cert PATH --key PATH]
                 [--user NAME[:PASSWORD]] [--password-file PATH] [--timeout TIME]
       csid-etcd --import --name NAME [--endpoints HOST:PORT,..] [--cacert PATH] [--cert PATH --key PATH]
                 [--user NAME[:PASSWORD]] [--password-file PATH] [--timeout TIME]
       csid-etcd --export --name NAME [--endpoints HOST:PORT,..] [--cacert PATH] [--cert PATH --key PATH]
                 [--user NAME[:PASSWORD]] [--password-file PATH] [--timeout TIME]
       csid-etcd --list --plugin NAME [--id ID] [--name NAME] [--pool NAME] [--node ID] [--json] [--endpoints HOST:PORT,..]
                 [--cacert PATH] [--cert PATH --key PATH] [--user NAME[:PASSWORD]] [--password-file PATH] [--timeout TIME]
       csid-etcd --version
`

// The range of --lease in seconds. etcd grants no lease below 2.
const (
	minLease = 2
	maxLease = 600
)

// maxID is the greatest length of --id in bytes.
const maxID = 128

// options holds the parsed command line. In the result of readOptions, name is always the name of
// the plugin, and filter has what --list selects.
type options struct {
	name         string
	listen       string
	endpoints    []string
	cacert       string
	cert, key    string
	user         string
	password     string
	passwordFile string
	timeout      time.Duration
	lease        int64
	id           string
	revision     string
	acceptOlder  bool
	requireRows  bool
	logFormat    string
	isNew        bool
	isExport     bool
	isImport     bool
	isList       bool
	plugin       string
	filter       volumeFilter
	isJSON       bool
	version      bool
}

func readOptions(args []string, out io.Writer) (options, error) {
	var opts options
	var endpoints, user string
	flags := flag.NewFlagSet("csid-etcd", flag.ContinueOnError)
	flags.SetOutput(io.Discard)
	flags.StringVar(&endpoints, "endpoints", "127.0.0.1:2379",
		"the members of etcd, as `HOST:PORT,..`, each also after https://")
	flags.StringVar(&user, "user", "", "the user of etcd, as `NAME[:PASSWORD]`")
	opts.addFlags(flags)
	opts.addServingFlags(flags)
	opts.addOneShotFlags(flags)
	if err := words.Parse(flags, args, usage, out); err != nil {
		return options{}, err
	}
	if opts.version {
		return opts, nil
	}
	opts.endpoints = strings.Split(endpoints, ",")
	opts.user, opts.password, _ = strings.Cut(user, ":")
	if err := checkOneShot(flags); err != nil {
		return options{}, err
	}
	if err := opts.setFilter(); err != nil {
		return options{}, err
	}
	if opts.id == "" {
		opts.id = defaultID()
	}
	return opts, check(opts)
}

// setFilter completes filter for --list, where --id is the id of a volume. With --plugin, --name is
// the name of a volume, as in csid --list-tables. Without --plugin, --name is the name of the
// plugin.
func (opts *options) setFilter() error {
	if !opts.isList {
		return nil
	}
	opts.filter.id, opts.id = opts.id, ""
	if opts.plugin == "" {
		return nil
	}
	if opts.filter.volume != "" && opts.name != "" {
		return errors.New("--volume: not with --name and --plugin")
	}
	if opts.name != "" {
		opts.filter.volume = opts.name
	}
	opts.name, opts.plugin = opts.plugin, ""
	return nil
}

// addFlags adds the flags that every form of the command line takes.
func (opts *options) addFlags(flags *flag.FlagSet) {
	flags.StringVar(&opts.name, "name", "", "the `NAME` of the plugin: all keys in etcd begin with it and a slash; "+
		"next to --plugin it is the name of a volume")
	flags.StringVar(&opts.cacert, "cacert", "", "the `PATH` of the certificates of who signs for etcd")
	flags.StringVar(&opts.cert, "cert", "", "the `PATH` of this program's own certificate")
	flags.StringVar(&opts.key, "key", "", "the `PATH` of the key of --cert")
	flags.StringVar(&opts.passwordFile, "password-file", "",
		"the `PATH` of a file whose first line is the password of --user")
	flags.DurationVar(&opts.timeout, "timeout", 3*time.Second, "how long one request to etcd may take: a `TIME`")
	flags.BoolVar(&opts.version, "version", false, "print the version, and end")
}

func (opts *options) addServingFlags(flags *flag.FlagSet) {
	flags.StringVar(&opts.listen, "listen", "", "the `PATH` of the socket for csid")
	flags.Int64Var(&opts.lease, "lease", 10, "how many `SECONDS` the lock outlives this program, 2 to 600")
	flags.StringVar(&opts.id, "id", "",
		"the `TEXT` by which others know who holds the lock; without it the name of the host and the number of "+
			"the process; next to --list it is the id of a volume")
	flags.StringVar(&opts.revision, "revision", "",
		"the `PATH` of a file that remembers the revision of etcd over a stop")
	flags.BoolVar(&opts.acceptOlder, "accept-older", false,
		"go on with an etcd that was restored from an older snapshot")
	flags.BoolVar(&opts.requireRows, "existing", false, "make no first row: rows have to be there")
	flags.StringVar(&opts.logFormat, "log-format", textLines,
		"the `FORMAT` of lines on standard error: text, or json for one object a line")
}

func (opts *options) addOneShotFlags(flags *flag.FlagSet) {
	flags.BoolVar(&opts.isNew, "new", false, "make the first row in an etcd that has none, and end")
	flags.BoolVar(&opts.isExport, "export", false, "print all rows as SQL for a file of csid, and end")
	flags.BoolVar(&opts.isImport, "import", false, "put the rows of standard input into an etcd that has none, and end")
	flags.BoolVar(&opts.isList, "list", false, "list the volumes, and what each pool and node has of them, and end")
	flags.StringVar(&opts.plugin, "plugin", "",
		"the `NAME` of the plugin whose volumes --list shows; then --name is a volume's")
	flags.StringVar(&opts.filter.volume, "volume", "",
		"list the volume with this `NAME` alone: the older word for --name next to --plugin")
	flags.StringVar(&opts.filter.pool, "pool", "", "list the volumes of the pool with this `NAME` alone")
	flags.StringVar(&opts.filter.node, "node", "",
		"list the volumes that are published at the node with this `ID` alone")
	flags.BoolVar(&opts.isJSON, "json", false, "list in JSON, with a volume a line")
}

// oneShotFlags make the program do one thing and end. listFlags go with --list. servingFlags go
// with a program that keeps running and answers csid.
var (
	oneShotFlags = map[string]bool{"new": true, "export": true, "import": true, "list": true}
	listFlags    = map[string]bool{"plugin": true, "volume": true, "pool": true, "node": true, "json": true}
	servingFlags = map[string]bool{"listen": true, "lease": true, "id": true, "revision": true, "accept-older": true,
		"existing": true, "log-format": true}
)

// isOneShot reports whether a one-shot flag was given: then the program does one thing and ends.
func (opts options) isOneShot() bool {
	return opts.isNew || opts.isExport || opts.isImport || opts.isList
}

// checkOneShot returns an error for a second one-shot flag, a serving flag next to a one-shot flag
// (except --id with --list), and a flag of --list without --list.
func checkOneShot(flags *flag.FlagSet) (err error) {
	var once string
	flags.Visit(func(f *flag.Flag) {
		switch {
		case !oneShotFlags[f.Name]:
		case once == "":
			once = f.Name
		case err == nil:
			err = fmt.Errorf("--%s: not with --%s", f.Name, once)
		}
	})
	flags.Visit(func(f *flag.Flag) {
		switch {
		case err != nil:
		case once == "list" && f.Name == "id":
		case once != "" && servingFlags[f.Name]:
			err = fmt.Errorf("--%s: not with --%s", f.Name, once)
		case once != "list" && listFlags[f.Name]:
			err = fmt.Errorf("--%s: not without --list", f.Name)
		}
	})
	return err
}

// defaultID names this process as holder of the lock when --id is missing: HOST:PID.
func defaultID() string {
	host, err := os.Hostname()
	if err != nil {
		host = "unknown"
	}
	return frames.Text(fmt.Sprintf("%s:%d", host, os.Getpid()))
}

// nameForm matches the plugin names that CSI allows.
var nameForm = regexp.MustCompile(`^[A-Za-z0-9]([A-Za-z0-9.-]{0,61}[A-Za-z0-9])?$`)

// check refuses missing options, malformed values and values out of range.
func check(opts options) error {
	switch {
	case opts.name == "":
		return errors.New("--name: the name of the plugin is missing")
	case !nameForm.MatchString(opts.name):
		return fmt.Errorf("--name: %q is not 1 to 63 letters, digits, dots and dashes with a letter or digit at "+
			"both ends", opts.name)
	case opts.listen == "" && !opts.isOneShot():
		return errors.New("--listen: the path of a socket is missing")
	case opts.timeout <= 0:
		return fmt.Errorf("--timeout: %v is not above 0", opts.timeout)
	case opts.lease < minLease || opts.lease > maxLease:
		return fmt.Errorf("--lease: %d is not %d to %d", opts.lease, minLease, maxLease)
	case opts.logFormat != textLines && opts.logFormat != jsonLines:
		return fmt.Errorf("--log-format: %q is neither text nor json", opts.logFormat)
	case len(opts.id) > maxID || frames.Text(opts.id) != opts.id:
		return fmt.Errorf("--id: %q is not at most %d characters of ASCII that can be shown", opts.id, maxID)
	case (opts.cert == "") != (opts.key == ""):
		return errors.New("--cert, --key: one of the two is missing")
	}
	for _, endpoint := range opts.endpoints {
		if endpoint == "" {
			return errors.New("--endpoints: one of them is empty")
		}
	}
	return checkUser(opts)
}

func checkUser(opts options) error {
	switch {
	case opts.user == "" && (opts.password != "" || opts.passwordFile != ""):
		return errors.New("--user: the name is missing")
	case opts.user != "" && opts.password == "" && opts.passwordFile == "":
		return errors.New("--password-file: the password of --user is missing")
	case opts.password != "" && opts.passwordFile != "":
		return errors.New("--password-file: --user has a password too")
	}
	return nil
}
