package main

import (
	"fmt"
	"testing"
)

var sampleKeys = keys{"example.fomaheti"}

func TestKeys(t *testing.T) {
	k := sampleKeys
	cases := []struct{ name, got, want string }{
		{"meta", k.meta(), "example.fomaheti/meta"},
		{"volume", k.volume(7), "example.fomaheti/volumes/00000000000000000007"},
		{"volume 2^63-1", k.volume(1<<63 - 1), "example.fomaheti/volumes/09223372036854775807"},
		{"volume 2^64-1", k.volume(1<<64 - 1), "example.fomaheti/volumes/18446744073709551615"},
		{"attachment", k.attachment(7, "a/b"), "example.fomaheti/attachments/00000000000000000007/a/b"},
		{"attachment without a node", k.attachment(0, ""), "example.fomaheti/attachments/00000000000000000000/"},
		{"end of all keys", rangeEnd(k.all()), "example.fomaheti0"},
		{"end of a volume's attachments", rangeEnd(k.attachmentsOf(7)),
			"example.fomaheti/attachments/000000000000000000070"},
		{"next key", keyAfter("a"), "a\x00"},
		{"displayed key", k.display(k.attachment(7, "né\n")),
			`attachments/00000000000000000007/n\xc3\xa9\x0a`},
	}
	for _, c := range cases {
		t.Run(c.name, func(t *testing.T) {
			if c.got != c.want {
				t.Errorf("got %q, want %q", c.got, c.want)
			}
		})
	}
}

func TestReadKeys(t *testing.T) {
	k := sampleKeys
	cases := []struct {
		digits string
		number uint64
		want   error
	}{
		{"00000000000000000007", 7, nil},
		{"09223372036854775807", 1<<63 - 1, nil},
		{"09223372036854775808", 0, errKeyRange},
		{"99999999999999999999", 0, errKeyRange},
		{"", 0, errKeyNumber},
		{"7", 0, errKeyNumber},
		{"0000000000000000007", 0, errKeyNumber},
		{"000000000000000000007", 0, errKeyNumber},
		{"+0000000000000000007", 0, errKeyNumber},
		{"0000000000000000_007", 0, errKeyNumber},
		{"0000000000000000000a", 0, errKeyNumber},
	}
	for _, c := range cases {
		t.Run("volume "+c.digits, func(t *testing.T) {
			if number, err := k.volumeNumber(k.volumes() + c.digits); number != c.number || err != c.want {
				t.Errorf("got %d, error %v, want %d, error %v", number, err, c.number, c.want)
			}
		})
		for _, node := range []string{"n1", "", "a/b/", "é"} {
			t.Run("attachment "+c.digits+" of "+node, func(t *testing.T) {
				number, got, err := k.attachmentParts(k.attachments() + c.digits + "/" + node)
				if number != c.number || err != c.want || (err == nil && got != node) {
					t.Errorf("got %d, %q, error %v, want %d, error %v", number, got, err, c.number, c.want)
				}
			})
		}
	}
}

func TestReadKeyErrors(t *testing.T) {
	k := sampleKeys
	cases := []struct {
		key  string
		want error
	}{
		{"00000000000000000007", errKeyNumber},
		{"00000000000000000007/\xff", errKeyNode},
		{"x/00000000000000000007", errKeyNumber},
	}
	for _, c := range cases {
		t.Run(fmt.Sprintf("attachment %q", c.key), func(t *testing.T) {
			if _, _, err := k.attachmentParts(k.attachments() + c.key); err != c.want {
				t.Errorf("got error %v, want %v", err, c.want)
			}
		})
	}
	t.Run("volume with more after its number", func(t *testing.T) {
		if _, err := k.volumeNumber(k.volumes() + "00000000000000000007/"); err != errKeyNumber {
			t.Errorf("got error %v, want %v", err, errKeyNumber)
		}
	})
}
