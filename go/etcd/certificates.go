package main

import (
	"bytes"
	"crypto/tls"
	"crypto/x509"
	"encoding/pem"
	"errors"
	"fmt"
	"os"
	"strings"
	"time"
)

// A certificate that has expired or ends within expirySoon is reported every warningPause. The
// files are read every filesPause.
const (
	expirySoon   = 30 * 24 * time.Hour
	warningPause = 24 * time.Hour
	filesPause   = time.Minute
)

// certificates holds the contents of the TLS files: the authorities that sign etcd's certificates,
// and this program's own certificate and key. Without --cacert roots is nil, and the system's
// authorities apply. Without --cert own and leaf are nil.
type certificates struct {
	roots []*x509.Certificate
	own   *tls.Certificate
	leaf  *x509.Certificate
}

// readCertificates reads the files of --cacert, --cert and --key. Fields without an option stay
// nil. A file that cannot be read or has no certificate is an error, and so is a key that does not
// fit the certificate of --cert. The error names the option.
func readCertificates(opts options) (certs certificates, err error) {
	if opts.cacert != "" {
		text, err := os.ReadFile(opts.cacert)
		if err != nil {
			return certs, fmt.Errorf("--cacert: %w", err)
		}
		if certs.roots = parseCertificates(text); len(certs.roots) == 0 {
			return certs, fmt.Errorf("--cacert: %s has no certificate", opts.cacert)
		}
	}
	if opts.cert != "" {
		pair, err := tls.LoadX509KeyPair(opts.cert, opts.key)
		if err == nil {
			certs.own = &pair
			certs.leaf, err = x509.ParseCertificate(pair.Certificate[0])
		}
		if err != nil {
			return certs, fmt.Errorf("--cert, --key: %w", err)
		}
	}
	return certs, nil
}

// parseCertificates returns the certificates of a PEM file. It skips blocks that are not valid
// certificates.
func parseCertificates(text []byte) (all []*x509.Certificate) {
	for block, rest := pem.Decode(text); block != nil; block, rest = pem.Decode(rest) {
		if one, err := x509.ParseCertificate(block.Bytes); block.Type == "CERTIFICATE" && err == nil {
			all = append(all, one)
		}
	}
	return all
}

// tlsConfig returns the configuration of a connection that uses these certificates.
func (c certificates) tlsConfig() *tls.Config {
	tlsConfig := &tls.Config{MinVersion: tls.VersionTLS12}
	if c.roots != nil {
		tlsConfig.RootCAs = x509.NewCertPool()
		for _, root := range c.roots {
			tlsConfig.RootCAs.AddCert(root)
		}
	}
	if c.own != nil {
		tlsConfig.Certificates = []tls.Certificate{*c.own}
	}
	return tlsConfig
}

// equal reports whether both have the same own certificate, and the same authorities in the same
// order.
func (c certificates) equal(other certificates) bool { return bytes.Equal(c.raw(), other.raw()) }

func (c certificates) raw() (all []byte) {
	for _, used := range c.used() {
		all = append(all, used.certificate.Raw...)
	}
	return all
}

// used returns the own certificate and the authorities, each with the option that names its file.
func (c certificates) used() (all []usedCertificate) {
	if c.leaf != nil {
		all = append(all, usedCertificate{"--cert", c.leaf})
	}
	for _, root := range c.roots {
		all = append(all, usedCertificate{"--cacert", root})
	}
	return all
}

// usedCertificate is a certificate and the option of its file.
type usedCertificate struct {
	option      string
	certificate *x509.Certificate
}

// String describes the certificate, after its option.
func (u usedCertificate) String() string { return u.option + " " + describeCertificate(u.certificate) }

// describeCertificate names the subject of a certificate and the end of its validity.
func describeCertificate(c *x509.Certificate) string {
	return fmt.Sprintf("%q until %s", c.Subject.String(), c.NotAfter.UTC().Format(time.RFC3339))
}

// line describes the certificates in use. It is empty if the files have no certificate.
func (c certificates) line() string {
	var all []string
	for _, used := range c.used() {
		all = append(all, used.String())
	}
	if len(all) == 0 {
		return ""
	}
	return "certificates: " + strings.Join(all, ", ")
}

// warnings returns a line for each certificate that has expired or ends within expirySoon.
func (c certificates) warnings(now time.Time) (lines []string) {
	for _, used := range c.used() {
		left := used.certificate.NotAfter.Sub(now)
		switch {
		case left < 0:
			lines = append(lines, fmt.Sprintf("certificate: %v: it is over", used))
		case left < expirySoon:
			lines = append(lines, fmt.Sprintf("certificate: %v: it ends in %d days", used, left/(24*time.Hour)))
		}
	}
	return lines
}

// handshakeError describes a failed handshake. If a certificate was refused, the text names it, and
// leaves out the parts of the error that differ between attempts: then equal failures give equal
// lines. Otherwise it is the text of err.
func handshakeError(err error) string {
	var unknown x509.UnknownAuthorityError
	var invalid x509.CertificateInvalidError
	var host x509.HostnameError
	switch {
	case errors.As(err, &unknown):
		return fmt.Sprintf("its certificate %s is refused: x509: signed by unknown authority %q",
			describeCertificate(unknown.Cert), unknown.Cert.Issuer.String())
	case errors.As(err, &invalid) && invalid.Reason == x509.Expired:
		return fmt.Sprintf("the certificate %s is refused: x509: it is over, or not valid before %s",
			describeCertificate(invalid.Cert), invalid.Cert.NotBefore.UTC().Format(time.RFC3339))
	case errors.As(err, &invalid):
		return fmt.Sprintf("the certificate %s is refused: %v", describeCertificate(invalid.Cert), err)
	case errors.As(err, &host):
		return fmt.Sprintf("its certificate %s is refused: %v", describeCertificate(host.Certificate), err)
	}
	return err.Error()
}
