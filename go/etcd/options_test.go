package main

import (
	"bytes"
	"flag"
	"os"
	"reflect"
	"strings"
	"testing"
	"time"
)

func read(args string) (options, error) {
	return readOptions(strings.Fields(args), &bytes.Buffer{})
}

func TestOptions(t *testing.T) {
	plain := options{name: "a", listen: "s", endpoints: []string{"127.0.0.1:2379"}, timeout: 3 * time.Second,
		lease: 10, id: defaultID(), logFormat: "text"}
	full := options{name: "example.fomaheti", listen: "s", endpoints: []string{"https://a:1", "https://b:2"},
		cacert: "ca", cert: "c", key: "k", user: "u", password: "p:q", timeout: time.Second, lease: 600, id: "me",
		revision: "r", acceptOlder: true, requireRows: true, logFormat: "json"}
	exporting := plain
	exporting.listen, exporting.isExport = "", true
	listing := func(filter volumeFilter) options {
		opts := plain
		opts.listen, opts.isList, opts.filter = "", true, filter
		return opts
	}
	makingNew := plain
	makingNew.listen, makingNew.isNew = "", true
	longest := plain
	longest.name, longest.id, longest.lease = "0"+strings.Repeat(".-", 30)+"Az", strings.Repeat("a", 128), 2
	cases := []struct {
		name, args string
		want       options
	}{
		{"export", "--export --name a", exporting},
		{"new", "--new --name a", makingNew},
		{"defaults", "--name a --listen s", plain},
		{"longest texts, least lease", "--name " + longest.name + " --listen s --lease 2 --id " + longest.id, longest},
		{"all options", "--name example.fomaheti --listen s --endpoints https://a:1,https://b:2 --cacert ca --cert c " +
			"--key k --user u:p:q --timeout 1s --lease 600 --id me --revision r --accept-older --existing " +
			"--log-format json", full},
		{"listing", "--list --name a", listing(volumeFilter{})},
		{"listing of a plugin", "--list --plugin a", listing(volumeFilter{})},
		{"listing of a volume", "--list --plugin a --name v --id vol-1 --pool p --node n",
			listing(volumeFilter{"vol-1", "v", "p", "n"})},
		{"listing by the older word", "--list --name a --volume v", listing(volumeFilter{volume: "v"})},
	}
	for _, c := range cases {
		t.Run(c.name, func(t *testing.T) {
			if got, err := read(c.args); err != nil || !reflect.DeepEqual(got, c.want) {
				t.Errorf("%s: got %+v, error %v, want %+v", c.args, got, err, c.want)
			}
		})
	}
}

func TestOptionErrors(t *testing.T) {
	const (
		good    = "--name a --listen s "
		badName = " is not 1 to 63 letters, digits, dots and dashes with a letter or digit at both ends"
		badID   = " is not at most 128 characters of ASCII that can be shown"
	)
	cases := []struct{ args, want string }{
		{"", "--name: the name of the plugin is missing"},
		{"--name a", "--listen: the path of a socket is missing"},
		{"--name a/b --listen s", `--name: "a/b"` + badName},
		{"--name a. --listen s", `--name: "a."` + badName},
		{"--name " + strings.Repeat("a", 64) + " --listen s", `--name: "` + strings.Repeat("a", 64) + `"` + badName},
		{"--export", "--name: the name of the plugin is missing"},
		{"--export --import --name a", "--import: not with --export"},
		{"--export --new --name a", "--new: not with --export"},
		{"--new --name a --existing", "--existing: not with --new"},
		{"--export --name a --listen s", "--listen: not with --export"},
		{"--import --name a --lease 10", "--lease: not with --import"},
		{"--import --name a --id b", "--id: not with --import"},
		{"--export --name a --revision r", "--revision: not with --export"},
		{"--import --name a --accept-older", "--accept-older: not with --import"},
		{"--list", "--name: the name of the plugin is missing"},
		{"--list --plugin a --name v --volume w", "--volume: not with --name and --plugin"},
		{"--list --plugin a --log-format json", "--log-format: not with --list"},
		{"--export --plugin a", "--plugin: not without --list"},
		{good + "--plugin a", "--plugin: not without --list"},
		{good + "--log-format xml", `--log-format: "xml" is neither text nor json`},
		{"--import --name a x", `a word that is not known: "x"`},
		{"--export --name a --timeout 0s", "--timeout: 0s is not above 0"},
		{good + "x", `a word that is not known: "x"`},
		{good + "--x", "flag provided but not defined: -x"},
		{good + "--endpoints a:1,", "--endpoints: one of them is empty"},
		{good + "--lease 1", "--lease: 1 is not 2 to 600"},
		{good + "--lease 601", "--lease: 601 is not 2 to 600"},
		{good + "--timeout 0s", "--timeout: 0s is not above 0"},
		{good + "--id " + strings.Repeat("a", 129), `--id: "` + strings.Repeat("a", 129) + `"` + badID},
		{good + "--id é", `--id: "é"` + badID},
		{good + "--cert c", "--cert, --key: one of the two is missing"},
		{good + "--key k", "--cert, --key: one of the two is missing"},
		{good + "--user u", "--password-file: the password of --user is missing"},
		{good + "--password-file f", "--user: the name is missing"},
		{good + "--user :p", "--user: the name is missing"},
		{good + "--user u:p --password-file f", "--password-file: --user has a password too"},
	}
	for _, c := range cases {
		t.Run(strings.TrimSpace("csid-etcd "+c.args), func(t *testing.T) {
			if got, err := read(c.args); errorText(err) != c.want {
				t.Errorf("got %+v, error %v, want %s", got, err, c.want)
			}
		})
	}
}

// docs/ETCD.md has each form of the command line and each option.
func TestHelp(t *testing.T) {
	var shown bytes.Buffer
	if _, err := readOptions([]string{"--help"}, &shown); err != flag.ErrHelp ||
		!strings.HasPrefix(shown.String(), usage) {
		t.Errorf("got error %v, text %s, want the usage", err, shown.String())
	}
	page, err := os.ReadFile("../../docs/ETCD.md")
	if err != nil {
		t.Fatal(err)
	}
	_, forms, _ := strings.Cut(usage, "usage: ")
	for _, line := range strings.Split(strings.TrimSpace(forms), "\n") {
		if !strings.Contains(string(page), strings.TrimSpace(line)) {
			t.Errorf("docs/ETCD.md has no line %q", line)
		}
	}
	for _, word := range strings.Fields(shown.String()) {
		if strings.HasPrefix(word, "-") && len(word) > 2 && !strings.Contains(string(page), "`-"+word) &&
			!strings.Contains(string(page), "`"+word) {
			t.Errorf("docs/ETCD.md has no %q", word)
		}
	}
}

func TestVersionAlone(t *testing.T) {
	if got, err := read("--version"); err != nil || !got.version {
		t.Errorf("got %+v, error %v, want the version", got, err)
	}
}
