package main

import (
	"encoding/hex"
	"reflect"
	"strings"
	"testing"
)

// Changes are decoded from messages as csid writes them, with all fields, even 0 and empty ones,
// and from other messages that proto3 allows. All messages are written by hand.
func TestReadChange(t *testing.T) {
	caps := fromHex(t, "1a060a001a020801")
	cases := []struct {
		name, message string
		want          change
	}{
		{"add volume", "0a1e 0807 1205 7076632d37 18808040 2203 737364 2a08 1a060a001a020801 3200",
			&addVolume{volume{7, "pvc-7", 1048576, "ssd", caps, []byte{}}}},
		{"add volume of empty fields", "0a0c 0800 1200 1800 2200 2a00 3200",
			&addVolume{volume{0, "", 0, "", []byte{}, []byte{}}}},
		{"add volume without fields", "0a00", &addVolume{}},
		{"remove volume", "1202 0807", &removeVolume{7}},
		{"remove volume 2^63-1", "120a 08ffffffffffffffff7f", &removeVolume{1<<63 - 1}},
		{"remove volume 7 in ten bytes", "120b 0887808080808080808000", &removeVolume{7}},
		{"attach", "1a12 0807 1202 6e31 1a08 1a060a001a020801 2001", &attach{attachment{7, "n1", caps, true}}},
		{"the last of two booleans counts", "1a06 0807 2000 2005", &attach{attachment{7, "", nil, true}}},
		{"detach", "2206 0807 1202 6e31", &detach{7, "n1"}},
		{"detach all", "2a02 0807", &detachAll{7}},
		{"set mutable", "320c 0807 1208 42060a016b120176", &setMutable{7, fromHex(t, "42060a016b120176")}},
		{"the last of two numbers counts", "1204 0806 0807", &removeVolume{7}},
		{"two messages of one change are merged", "2202 0807 2204 1202 6e31", &detach{7, "n1"}},
		{"unknown fields around a change", "7801 2a02 0807 7a01ff", &detachAll{7}},
		{"unknown field in a change", "2a04 0807 7801", &detachAll{7}},
		{"number with a length", "2a04 0807 0a00", &detachAll{7}},
		{"boolean with a length", "1a06 0807 2001 2200", &attach{attachment{7, "", nil, true}}},
		{"text with a number", "1a07 0807 12016e 1005", &attach{attachment{7, "n", nil, false}}},
		{"bytes with a number", "1a07 0807 1a0141 1805", &attach{attachment{7, "", []byte{0x41}, false}}},
		{"change with a number", "1001 2a02 0807", &detachAll{7}},
		{"fields of 4 bytes", "7d01020304 2a07 0807 0d01020304", &detachAll{7}},
		{"fields of 8 bytes", "2a0b 0807 090102030405060708 790102030405060708", &detachAll{7}},
	}
	for _, c := range cases {
		t.Run(c.name, func(t *testing.T) {
			got, err := readChange(fromHex(t, c.message))
			if err != nil || !reflect.DeepEqual(got, c.want) {
				t.Errorf("got %+v, error %v, want %+v", got, err, c.want)
			}
		})
	}
}

func TestReadChangeErrors(t *testing.T) {
	const (
		noChange  = "no change that is known"
		moreThan1 = "more than one change"
		malformed = "malformed message"
		above     = "a number is above 9223372036854775807"
	)
	cases := []struct{ name, message, want string }{
		{"empty", "", noChange},
		{"unknown field", "7801", noChange},
		{"change with a number", "0801", noChange},
		{"change 7", "3a00", noChange},
		{"two changes", "1200 2a00", moreThan1},
		{"two changes, and the first again", "0a00 1a00 0a00", moreThan1},
		{"field 0", "00", malformed},
		{"no length", "12", malformed},
		{"cut off change", "1203 0807", malformed},
		{"cut off number", "1201 08", malformed},
		{"group in a change", "1202 0b0c", malformed},
		{"group", "0b0c", malformed},
		{"text that is not UTF-8", "2205 0807 1201ff", malformed},
		{"cut off change with a text that is not UTF-8", "2207 1201ff 1200", malformed},
		{"text that is not UTF-8 before another one", "2209 0807 1201 ff 1202 6e31", malformed},
		{"number above 2^64-1", "120b 08ffffffffffffffffff02", malformed},
		{"add_volume of 2^63", "0a0b 0880808080808080808001", above},
		{"remove_volume of 2^63", "120b 0880808080808080808001", above},
		{"attach of 2^63", "1a0b 0880808080808080808001", above},
		{"detach of 2^63", "220b 0880808080808080808001", above},
		{"detach_all of 2^63", "2a0b 0880808080808080808001", above},
		{"set_mutable of 2^63", "320b 0880808080808080808001", above},
		{"set_mutable of 2^64-1", "320b 08ffffffffffffffffff01", above},
		{"the last number counts", "120d 0801 0880808080808080808001", above},
	}
	for _, c := range cases {
		t.Run(c.name, func(t *testing.T) {
			got, err := readChange(fromHex(t, c.message))
			if err == nil || err.Error() != c.want || err.(refusal).code != 3 {
				t.Errorf("got %v, error %v, want code 3, %q", got, err, c.want)
			}
		})
	}
}

func TestReadToken(t *testing.T) {
	cases := []struct {
		name, message, want string
		isBad               bool
	}{
		{"no token", "", "", false},
		{"empty token", "0a00", "", false},
		{"token", "0a023132", "3132", false},
		{"the last of two tokens counts", "0a0131 0a0132", "32", false},
		{"token with a number", "0801", "", false},
		{"cut off token", "0a02", "", true},
	}
	for _, c := range cases {
		t.Run(c.name, func(t *testing.T) {
			got, err := readToken(fromHex(t, c.message))
			if hex.EncodeToString(got) != c.want || (err != nil) != c.isBad {
				t.Errorf("got %x, error %v, want %s, an error: %v", got, err, c.want, c.isBad)
			}
		})
	}
}

// Each field of a row is written, even 0 and empty ones.
func TestRowMessages(t *testing.T) {
	caps := fromHex(t, "1a060a001a020801")
	cases := []struct {
		name string
		got  []byte
		want string
	}{
		{"meta", meta{2, 8}.message(), "0802 1008"},
		{"volume", volume{7, "pvc-7", 1048576, "ssd", caps, nil}.message(),
			"0807 1205 7076632d37 18808040 2203 737364 2a08 1a060a001a020801 3200"},
		{"empty volume", volume{}.message(), "0800 1200 1800 2200 2a00 3200"},
		{"attachment", attachment{7, "n1", caps, true}.message(), "0807 1202 6e31 1a08 1a060a001a020801 2001"},
		{"empty attachment", attachment{}.message(), "0800 1200 1a00 2000"},
	}
	for _, c := range cases {
		t.Run(c.name, func(t *testing.T) {
			if got := hex.EncodeToString(c.got); got != strings.ReplaceAll(c.want, " ", "") {
				t.Errorf("got %s, want %s", got, c.want)
			}
		})
	}
}
