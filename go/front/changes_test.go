package main

import (
	"reflect"
	"regexp"
	"strings"
	"testing"
)

// changeOf reads the logged fields of each request. The messages are worked out by hand from
// docs/PROTOCOL.md, "Messages". Field 5 is secrets, which is never read.
func TestChangeOf(t *testing.T) {
	const secrets = "2a07 0a0168 12027077"
	rows := []struct {
		method, message, body string
		want                  *change
	}{
		{"CreateVolume", "0a0161" + secrets, "0a0b 0880808040 12047631 6162", &change{Name: "a", Volume: "v1ab"}},
		{"CreateVolume", "0a0161", "", &change{Name: "a"}},
		{"CreateVolume", "0a0161 0a0162", "", &change{Name: "b"}},
		{"CreateVolume", "0a0161 0a", "", &change{}},
		{"CreateVolume", "", "0a", &change{}},
		{"DeleteVolume", "0a05 766f6c2d31 1207 0a0168 12027077", "", &change{Volume: "vol-1"}},
		{"ControllerPublishVolume", "0a05 766f6c2d31 12026e31 1a06 0a00 1a020801" +
			secrets, "", &change{Volume: "vol-1", Node: "n1"}},
		{"ControllerUnpublishVolume", "0a05 766f6c2d31 12026e31", "", &change{Volume: "vol-1", Node: "n1"}},
		{"ControllerUnpublishVolume", "0a05 766f6c2d31", "", &change{Volume: "vol-1"}},
		{"ControllerModifyVolume", "0a05 766f6c2d31 1a06 0a016b 120176", "", &change{Volume: "vol-1"}},
		{"ListVolumes", "0a0161", "", nil},
		{"ValidateVolumeCapabilities", "0a0161", "", nil},
	}
	for _, row := range rows {
		if got := changeOf(controller+row.method, fromHex(t, row.message),
			fromHex(t, row.body)); !reflect.DeepEqual(got, row.want) {
			t.Errorf("%s %s: %v, wanted %v", row.method, row.message, got, row.want)
		}
	}
}

// Texts that are too long for csid are cut. Texts that would not be one word are quoted.
func TestShownChange(t *testing.T) {
	long := strings.Repeat("a", 300)
	message := append(bytesField(1, []byte(long)), bytesField(2, []byte(long))...)
	if got := changeOf(controller+"ControllerPublishVolume", message, nil); len(got.Volume) != 128 ||
		len(got.Node) != 256 {
		t.Errorf("%v", got)
	}
	rows := []struct {
		change *change
		want   string
	}{
		{nil, ""}, {&change{}, ""}, {&change{"pvc-1", "vol-1", "n1", nil}, " name=pvc-1 volume=vol-1 node=n1"},
		{&change{Volume: "vol-1", sender: &sender{0, 77}}, " volume=vol-1 uid=0 pid=77"},
		{&change{Name: "a b"}, ` name="a b"`}, {&change{Name: "a\n"}, ` name="a\n"`},
		{&change{Name: `a"`}, ` name="a\""`}, {&change{Node: "\xff"}, ` node="\xff"`},
	}
	for _, row := range rows {
		if got := row.change.words(); got != row.want {
			t.Errorf("%v: %s, wanted %s", row.change, got, row.want)
		}
	}
}

// Each method of csid either is logged as a change or only reads.
func TestMethodsThatChange(t *testing.T) {
	reads := regexp.MustCompile(`/(Probe|Get\w+|ControllerGetCapabilities|ListVolumes|ValidateVolumeCapabilities)$`)
	for path := range methods {
		if _, is := changes[path]; is == reads.MatchString(path) {
			t.Errorf("%s is logged as a change: %v", path, is)
		}
	}
	for path := range changes {
		if !methods[path] {
			t.Errorf("%s is no method", path)
		}
	}
}
