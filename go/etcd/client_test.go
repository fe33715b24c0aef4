package main

import (
	"os"
	"path/filepath"
	"testing"
)

// The password is the first line of its file, unchanged.
func TestPassword(t *testing.T) {
	path := filepath.Join(t.TempDir(), "password")
	missing := "--password-file: " + path + " has no password"
	cases := []struct{ name, text, want, wantErr string }{
		{"a line", "secret\n", "secret", ""},
		{"no newline", "secret", "secret", ""},
		{"two lines", "first\nsecond\n", "first", ""},
		{"spaces", " a b \n", " a b ", ""},
		{"empty file", "", "", missing},
		{"empty first line", "\nsecond\n", "", missing},
	}
	for _, c := range cases {
		t.Run(c.name, func(t *testing.T) {
			if err := os.WriteFile(path, []byte(c.text), 0o600); err != nil {
				t.Fatal(err)
			}
			got, err := readPassword(options{user: "u", passwordFile: path})
			if got != c.want || errorText(err) != c.wantErr {
				t.Errorf("got %q, error %v, want %q, error %q", got, err, c.want, c.wantErr)
			}
		})
	}
	if got, err := readPassword(options{user: "u", password: "p"}); got != "p" || err != nil {
		t.Errorf("--user u:p: got %q, error %v, want p", got, err)
	}
	if _, err := readPassword(options{user: "u", passwordFile: path + ".none"}); err == nil {
		t.Error("missing file: got no error")
	}
}

// errorText returns the text of an error, and "" for nil.
func errorText(err error) string {
	if err == nil {
		return ""
	}
	return err.Error()
}
