package main

import (
	"bufio"
	"bytes"
	"encoding/json"
	"fmt"
	"reflect"
	"strings"
	"testing"

	"google.golang.org/protobuf/encoding/protowire"
)

// Encoded capabilities: a block device with mode 1, a mount of any file system with mode 1, and a
// mount of ext4 with mode 5.
const (
	blockCap = "1a060a001a020801"
	mountCap = "1a0612001a020801"
	ext4Cap  = "1a0c12060a04657874341a020805"
)

// The encoded parameters k=v and l="a b", and the mutable parameter m with an empty value.
const someParams = "22060a016b120176" + "22080a016c1203612062" + "42050a016d1200"

// volumesToList returns four volumes in two pools. Three of them are published.
func volumesToList(t *testing.T) []*listedVolume {
	t.Helper()
	rows := []struct {
		volume
		caps, params string
		nodes        []string
	}{
		{volume{number: 1, name: "pvc-1", bytes: 3 << 30, pool: "ssd"}, blockCap, "", []string{"n1"}},
		{volume{number: 2, name: "a b", bytes: 1536 << 20, pool: "hdd"}, mountCap +
			ext4Cap, someParams, []string{"n1", "n2"}},
		{volume{number: 7, name: `pvc-"7"`, bytes: 5 << 20, pool: "ssd"}, blockCap, "", nil},
		{volume{number: 8, name: "ä\n", bytes: 1 << 62, pool: "hdd"}, blockCap, "", []string{"n,1"}},
	}
	var volumes []*listedVolume
	for _, row := range rows {
		row.volume.caps, row.volume.params = fromHex(t, row.caps), fromHex(t, row.params)
		v, err := readListed(row.volume)
		if err != nil {
			t.Fatal(err)
		}
		v.nodes = row.nodes
		volumes = append(volumes, v)
	}
	return volumes
}

const listedTable = `ID     NAME       POOL  SIZE     CAPABILITIES                                           PARAMETERS   MUTABLE  NODES
vol-1  pvc-1      ssd   3 GiB    block:SINGLE_NODE_WRITER                               -            -        n1
vol-2  a%20b      hdd   1.5 GiB  mount:SINGLE_NODE_WRITER,ext4:MULTI_NODE_MULTI_WRITER  k=v,l=a%20b  m=       n1,n2
vol-7  pvc-"7"    ssd   5 MiB    block:SINGLE_NODE_WRITER                               -            -        -
vol-8  %C3%A4%0A  hdd   4 EiB    block:SINGLE_NODE_WRITER                               -            -        n,1

POOL  VOLUMES  SIZE
hdd   2        4294967297.5 GiB
ssd   2        3077 MiB

NODE  VOLUMES  SIZE
n,1   1        4 EiB
n1    2        4.5 GiB
n2    1        1.5 GiB
`

func TestListedTable(t *testing.T) {
	cases := []struct {
		name    string
		volumes []*listedVolume
		want    string
	}{
		{"four volumes", volumesToList(t), listedTable},
		{"no volumes", nil, "ID  NAME  POOL  SIZE  CAPABILITIES  PARAMETERS  MUTABLE  NODES\n\n" +
			"POOL  VOLUMES  SIZE\n\nNODE  VOLUMES  SIZE\n"},
	}
	for _, c := range cases {
		t.Run(c.name, func(t *testing.T) {
			var shown bytes.Buffer
			out := bufio.NewWriter(&shown)
			writeTable(out, c.volumes)
			out.Flush()
			if shown.String() != c.want {
				t.Errorf("got\n%s\nwant\n%s", shown.String(), c.want)
			}
		})
	}
}

// A cell of 80 bytes widens its column. A longer one moves only the rest of its own row.
func TestLongCells(t *testing.T) {
	for _, c := range []struct{ length, width int }{{80, 80}, {81, 1}} {
		t.Run(fmt.Sprintf("%d bytes", c.length), func(t *testing.T) {
			long := strings.Repeat("x", c.length)
			var shown bytes.Buffer
			out := bufio.NewWriter(&shown)
			writeRows(out, [][]string{{"a", "b"}, {long, "c"}})
			out.Flush()
			want := "a" + strings.Repeat(" ", c.width+1) + "b\n" + long + "  c\n"
			if got := shown.String(); got != want {
				t.Errorf("got %q, want %q", got, want)
			}
		})
	}
}

const listedDocument = `{"volumes": [
  {"id": "vol-1", "name": "pvc-1", "pool": "ssd", "bytes": 3221225472, "capabilities": [{"access": "block", "mode": "SINGLE_NODE_WRITER"}],
   "parameters": {}, "mutableParameters": {}, "nodes": ["n1"]},
  {"id": "vol-2", "name": "a b", "pool": "hdd", "bytes": 1610612736, "capabilities": [{"access": "mount", "fsType": "", "mode": "SINGLE_NODE_WRITER"},
   {"access": "mount", "fsType": "ext4", "mode": "MULTI_NODE_MULTI_WRITER"}], "parameters": {"k": "v", "l": "a b"}, "mutableParameters": {"m": ""}, "nodes": ["n1", "n2"]},
  {"id": "vol-7", "name": "pvc-\"7\"", "pool": "ssd", "bytes": 5242880, "capabilities": [{"access": "block", "mode": "SINGLE_NODE_WRITER"}],
   "parameters": {}, "mutableParameters": {}, "nodes": []},
  {"id": "vol-8", "name": "ä\n", "pool": "hdd", "bytes": 4611686018427387904, "capabilities": [{"access": "block", "mode": "SINGLE_NODE_WRITER"}],
   "parameters": {}, "mutableParameters": {}, "nodes": ["n,1"]}],
 "pools": [{"name": "hdd", "volumes": 2, "bytes": 4611686020038000640}, {"name": "ssd", "volumes": 2, "bytes": 3226468352}],
 "nodes": [{"id": "n,1", "volumes": 1, "bytes": 4611686018427387904}, {"id": "n1", "volumes": 2, "bytes": 4831838208}, {"id": "n2", "volumes": 1, "bytes": 1610612736}]}`

func readJSON(t *testing.T, text string) (value interface{}) {
	t.Helper()
	reader := json.NewDecoder(strings.NewReader(text))
	reader.UseNumber()
	if err := reader.Decode(&value); err != nil {
		t.Fatalf("%v: %s", err, text)
	}
	return value
}

func TestListedJSON(t *testing.T) {
	cases := []struct {
		name    string
		volumes []*listedVolume
		want    string
		lines   int
	}{
		{"four volumes", volumesToList(t), listedDocument, 8},
		{"no volumes", nil, `{"volumes": [], "pools": [], "nodes": []}`, 4},
	}
	for _, c := range cases {
		t.Run(c.name, func(t *testing.T) {
			var shown bytes.Buffer
			out := bufio.NewWriter(&shown)
			if err := writeJSON(out, c.volumes); err != nil {
				t.Fatal(err)
			}
			out.Flush()
			got := shown.String()
			if !reflect.DeepEqual(readJSON(t, got), readJSON(t, c.want)) {
				t.Errorf("got\n%s\nwant\n%s", got, c.want)
			}
			if lines := strings.Count(got, "\n"); lines != c.lines {
				t.Errorf("got %d lines, want %d:\n%s", lines, c.lines, got)
			}
			if strings.Contains(got, `\u0020`) {
				t.Errorf("a space is escaped: %s", got)
			}
		})
	}
}

func TestVolumeFilter(t *testing.T) {
	cases := []struct {
		name   string
		filter volumeFilter
		want   []uint64
	}{
		{"none", volumeFilter{}, []uint64{1, 2, 7, 8}},
		{"id", volumeFilter{id: "vol-7"}, []uint64{7}},
		{"start of an id", volumeFilter{id: "vol-"}, nil},
		{"id in another pool", volumeFilter{id: "vol-7", pool: "hdd"}, nil},
		{"name", volumeFilter{volume: "a b"}, []uint64{2}},
		{"start of a name", volumeFilter{volume: "pvc-"}, nil},
		{"pool", volumeFilter{pool: "ssd"}, []uint64{1, 7}},
		{"node", volumeFilter{node: "n1"}, []uint64{1, 2}},
		{"node of one volume", volumeFilter{node: "n2"}, []uint64{2}},
		{"start of a node", volumeFilter{node: "n"}, nil},
		{"pool and node", volumeFilter{pool: "hdd", node: "n1"}, []uint64{2}},
		{"name in another pool", volumeFilter{volume: "pvc-1", pool: "hdd"}, nil},
	}
	for _, c := range cases {
		t.Run(c.name, func(t *testing.T) {
			var got []uint64
			for _, v := range volumesToList(t) {
				if c.filter.matches(v) {
					got = append(got, v.number)
				}
			}
			if !reflect.DeepEqual(got, c.want) {
				t.Errorf("got %v, want %v", got, c.want)
			}
		})
	}
}

func TestFormatWord(t *testing.T) {
	cases := []struct{ text, want string }{
		{"pvc-1", "pvc-1"}, {"", "-"}, {"-", "-"}, {"a b", "a%20b"}, {"100%", "100%25"}, {"a,b=c", "a,b=c"},
		{"~!", "~!"}, {"\x7f\x20\x1f", "%7F%20%1F"}, {"ä", "%C3%A4"},
	}
	for _, c := range cases {
		t.Run(fmt.Sprintf("%q", c.text), func(t *testing.T) {
			if got := formatWord(c.text); got != c.want {
				t.Errorf("got %s, want %s", got, c.want)
			}
		})
	}
}

// Characters of HTML are not escaped, even in a volume.
func TestUnescapedJSON(t *testing.T) {
	text, err := encode(&listedVolume{volume: volume{name: "<&>"}, parameters: map[string]string{"<": "&"}})
	if err != nil || !strings.Contains(string(text), `"name":"<&>"`) || !strings.Contains(string(text), `{"<":"&"}`) {
		t.Errorf("got %s, error %v", text, err)
	}
}

func TestFormatSize(t *testing.T) {
	cases := []struct {
		bytes uint64
		want  string
	}{
		{0, "0 B"}, {1, "1 B"}, {512, "512 B"}, {1000, "1000 B"}, {1023, "1023 B"}, {1024, "1 KiB"}, {1025, "1025 B"},
		{1536, "1.5 KiB"}, {1 << 20, "1 MiB"}, {1<<20 + 1024, "1025 KiB"}, {3 << 29, "1.5 GiB"}, {1 << 40, "1 TiB"},
		{1 << 50, "1 PiB"}, {1 << 60, "1 EiB"}, {1 << 63, "8 EiB"}, {1<<64 - 1, "18446744073709551615 B"},
	}
	for _, c := range cases {
		t.Run(fmt.Sprintf("%d bytes", c.bytes), func(t *testing.T) {
			if got := formatSize(c.bytes); got != c.want {
				t.Errorf("got %s, want %s", got, c.want)
			}
		})
	}
}

// A sum of bytes above the greatest uint64 stays the greatest uint64.
func TestSums(t *testing.T) {
	s := sums{}
	s.add("p", 1<<63)
	s.add("p", 1<<63)
	if s["p"] != (sum{2, 1<<64 - 1}) {
		t.Errorf("got %+v, want 2 volumes of 2^64-1 bytes", s["p"])
	}
}

// Columns that are not the fields of a volume are refused.
func TestBrokenColumns(t *testing.T) {
	cases := []struct{ name, caps, params string }{
		{"cut off capability", "1a", ""},
		{"capability with a number", "1a020801", ""},
		{"field before the capabilities", "08011a060a001a020801", ""},
		{"cut off parameter", blockCap, "22"},
		{"unknown field", blockCap, "2a00"},
		{"key that is not UTF-8", blockCap, "22030a01ff"},
		{"file system that is not UTF-8", "1a0612040a02ffff", ""},
	}
	for _, c := range cases {
		t.Run(c.name, func(t *testing.T) {
			v, err := readListed(volume{caps: fromHex(t, c.caps), params: fromHex(t, c.params)})
			if err != errColumns {
				t.Errorf("got %+v, error %v, want %v", v, err, errColumns)
			}
		})
	}
}

// A mode without a name is shown as unknown.
func TestModeName(t *testing.T) {
	cases := []struct {
		mode uint64
		want string
	}{
		{1, "SINGLE_NODE_WRITER"}, {7, "SINGLE_NODE_MULTI_WRITER"}, {8, "UNKNOWN"}, {0, "UNKNOWN"},
	}
	for _, c := range cases {
		t.Run(fmt.Sprintf("mode %d", c.mode), func(t *testing.T) {
			access := protowire.AppendBytes(nil, protowire.AppendVarint([]byte{8}, c.mode))
			got, err := readCapability(append([]byte{0x0a, 0, 0x1a}, access...))
			if err != nil || got.String() != "block:"+c.want {
				t.Errorf("got %v, error %v, want block:%s", got, err, c.want)
			}
		})
	}
}
