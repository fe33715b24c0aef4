package main

import (
	"crypto/ecdsa"
	"crypto/elliptic"
	"crypto/rand"
	"crypto/x509"
	"crypto/x509/pkix"
	"encoding/pem"
	"fmt"
	"math/big"
	"net"
	"os"
	"path/filepath"
	"reflect"
	"strings"
	"testing"
	"time"
)

// writeCertificate writes a new self-signed certificate for this name and its key to the paths cert
// and key. The certificate ends at the time until.
func writeCertificate(t *testing.T, cert, key, name string, until time.Time) {
	t.Helper()
	pair, err := ecdsa.GenerateKey(elliptic.P256(), rand.Reader)
	if err != nil {
		t.Fatal(err)
	}
	template := &x509.Certificate{SerialNumber: big.NewInt(1), Subject: pkix.Name{CommonName: name},
		NotBefore: until.AddDate(-1, 0, 0), NotAfter: until,
		IPAddresses: []net.IP{net.IPv4(127, 0, 0, 1)}}
	der, err := x509.CreateCertificate(rand.Reader, template, template, &pair.PublicKey, pair)
	if err != nil {
		t.Fatal(err)
	}
	secret, err := x509.MarshalECPrivateKey(pair)
	if err != nil {
		t.Fatal(err)
	}
	for path, block := range map[string]*pem.Block{cert: {Type: "CERTIFICATE", Bytes: der},
		key: {Type: "EC PRIVATE KEY", Bytes: secret}} {
		if err := os.WriteFile(path, pem.EncodeToMemory(block), 0o600); err != nil {
			t.Fatal(err)
		}
	}
}

// The files of --cacert, --cert and --key are read, and a file that cannot be used gives an error
// that names its option.
func TestReadCertificates(t *testing.T) {
	folder := t.TempDir()
	cert, key, empty := filepath.Join(folder, "cert"), filepath.Join(folder, "key"), filepath.Join(folder, "empty")
	writeCertificate(t, cert, key, "a", time.Now().AddDate(1, 0, 0))
	if err := os.WriteFile(empty, nil, 0o600); err != nil {
		t.Fatal(err)
	}
	cases := []struct {
		name     string
		template options
		roots    int
		hasOwn   bool
		want     string
	}{
		{"none", options{}, 0, false, ""},
		{"roots", options{cacert: cert}, 1, false, ""},
		{"its own", options{cert: cert, key: key}, 0, true, ""},
		{"both", options{cacert: cert, cert: cert, key: key}, 1, true, ""},
		{"no certificate", options{cacert: empty}, 0, false, "--cacert: " + empty + " has no certificate"},
		{"no file of roots", options{cacert: folder + "/none"}, 0, false, "--cacert: open "},
		{"no file of its own", options{cert: folder + "/none", key: key}, 0, false, "--cert, --key: open "},
		{"no key", options{cacert: cert, cert: cert, key: empty}, 0, false, "--cert, --key: "},
	}
	for _, c := range cases {
		t.Run(c.name, func(t *testing.T) {
			got, err := readCertificates(c.template)
			if (err == nil) != (c.want == "") || err != nil && !strings.HasPrefix(err.Error(), c.want) {
				t.Fatalf("got error %v, want %q", err, c.want)
			}
			tlsConfig := got.tlsConfig()
			if err != nil {
				return
			}
			if len(got.roots) != c.roots || (tlsConfig.RootCAs != nil) != (c.roots > 0) {
				t.Errorf("got %d roots and the pool %v, want %d", len(got.roots), tlsConfig.RootCAs, c.roots)
			}
			if (got.own != nil) != c.hasOwn {
				t.Errorf("got own certificate %v, want one: %v", got.own, c.hasOwn)
			}
			if tlsConfig.InsecureSkipVerify {
				t.Error("members are not verified")
			}
		})
	}
}

// The scheme of the first endpoint decides on TLS. Without a scheme, --cacert or --cert means TLS.
func TestIsSecure(t *testing.T) {
	cases := []struct {
		name                   string
		endpoint, cacert, cert string
		want                   bool
	}{
		{"no scheme", "a:1", "", "", false},
		{"no scheme, --cacert", "a:1", "ca", "", true},
		{"no scheme, --cert", "a:1", "", "own", true},
		{"https", "https://a:1", "", "", true},
		{"https, both options", "https://a:1", "ca", "own", true},
		{"http, both options", "http://a:1", "ca", "own", false},
	}
	for _, c := range cases {
		t.Run(c.name, func(t *testing.T) {
			m := newMembers(options{endpoints: []string{c.endpoint}, cacert: c.cacert, cert: c.cert}, nil)
			if got := m.isSecure(); got != c.want {
				t.Errorf("got %v, want %v", got, c.want)
			}
		})
	}
}

// A line names the subject and the end of each certificate: at the start, and after a change.
func TestCertificatesLine(t *testing.T) {
	folder := t.TempDir()
	cert, key, roots := filepath.Join(folder, "cert"), filepath.Join(folder, "key"), filepath.Join(folder, "roots")
	first, second := time.Date(2031, 1, 2, 3, 4, 5, 0, time.UTC), time.Date(2032, 1, 2, 3, 4, 5, 0, time.UTC)
	writeCertificate(t, roots, filepath.Join(folder, "other"), "root", second)
	writeCertificate(t, cert, key, "csid", first)
	var lines []string
	m := newMembers(options{endpoints: []string{"a"}, cacert: roots, cert: cert, key: key},
		func(format string, parts ...interface{}) {
			lines = append(lines, fmt.Sprintf(format, parts...))
		})
	for i := 0; i < 3; i++ {
		if i == 2 {
			writeCertificate(t, cert, key, "csid", second)
		}
		if _, err := m.certificates(); err != nil {
			t.Fatal(err)
		}
	}
	want := []string{
		`certificates: --cert "CN=csid" until 2031-01-02T03:04:05Z, --cacert "CN=root" until 2032-01-02T03:04:05Z`,
		`certificates: --cert "CN=csid" until 2032-01-02T03:04:05Z, --cacert "CN=root" until 2032-01-02T03:04:05Z`,
	}
	if !reflect.DeepEqual(lines, want) {
		t.Errorf("got %q, want %q", lines, want)
	}
}

// A warning is given for a certificate that has expired or ends within 30 days.
func TestExpiryWarnings(t *testing.T) {
	until := time.Date(2031, 1, 31, 0, 0, 0, 0, time.UTC)
	held := certificates{leaf: &x509.Certificate{Subject: pkix.Name{CommonName: "csid"}, NotAfter: until}}
	const line = `certificate: --cert "CN=csid" until 2031-01-31T00:00:00Z: `
	cases := []struct {
		name string
		left time.Duration
		want []string
	}{
		{"30 days left", 30 * 24 * time.Hour, nil},
		{"a moment less than 30 days left", 30*24*time.Hour - 1, []string{line + "it ends in 29 days"}},
		{"an hour left", time.Hour, []string{line + "it ends in 0 days"}},
		{"expired a moment ago", -1, []string{line + "it is over"}},
	}
	for _, c := range cases {
		t.Run(c.name, func(t *testing.T) {
			if got := held.warnings(until.Add(-c.left)); !reflect.DeepEqual(got, c.want) {
				t.Errorf("got %q, want %q", got, c.want)
			}
		})
	}
}
