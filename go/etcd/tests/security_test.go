package tests

import (
	"crypto/ecdsa"
	"crypto/elliptic"
	"crypto/rand"
	"crypto/x509"
	"crypto/x509/pkix"
	"encoding/pem"
	"fmt"
	"math/big"
	"net"
	"os"
	"path/filepath"
	"regexp"
	"strings"
	"testing"
	"time"

	"google.golang.org/grpc/codes"

	"../../front/tests/processes"
	"./clusters"
)

// authority signs certificates and keeps them in a folder.
type authority struct {
	folder string
	cert   *x509.Certificate
	key    *ecdsa.PrivateKey
	count  int64
}

func newAuthority(t *testing.T) *authority {
	t.Helper()
	a := &authority{folder: processes.Folder(t)}
	a.cert, a.key = a.sign(t, "ca", &x509.Certificate{IsCA: true, BasicConstraintsValid: true,
		KeyUsage: x509.KeyUsageCertSign})
	return a
}

func (a *authority) path(name string) string { return filepath.Join(a.folder, name) }

// sign makes a certificate for loopback, and its key, as the files NAME.pem and NAME.key. The first
// certificate of an authority is its own, signed with its own key.
func (a *authority) sign(t *testing.T, name string, request *x509.Certificate) (*x509.Certificate, *ecdsa.PrivateKey) {
	t.Helper()
	a.count++
	request.SerialNumber = big.NewInt(a.count)
	request.Subject = pkix.Name{CommonName: name}
	request.NotBefore, request.NotAfter = time.Now().Add(-time.Hour), time.Now().Add(time.Hour)
	request.IPAddresses = []net.IP{net.IPv4(127, 0, 0, 1)}
	key, err := ecdsa.GenerateKey(elliptic.P256(), rand.Reader)
	if err != nil {
		t.Fatal(err)
	}
	parent, signer := request, key
	if a.cert != nil {
		parent, signer = a.cert, a.key
	}
	der, err := x509.CreateCertificate(rand.Reader, request, parent, &key.PublicKey, signer)
	if err != nil {
		t.Fatal(err)
	}
	secret, err := x509.MarshalECPrivateKey(key)
	if err != nil {
		t.Fatal(err)
	}
	a.write(t, name+".pem", "CERTIFICATE", der)
	a.write(t, name+".key", "EC PRIVATE KEY", secret)
	cert, err := x509.ParseCertificate(der)
	if err != nil {
		t.Fatal(err)
	}
	return cert, key
}

func (a *authority) write(t *testing.T, name, kind string, der []byte) {
	t.Helper()
	if err := os.WriteFile(a.path(name), pem.EncodeToMemory(&pem.Block{Type: kind, Bytes: der}), 0o600); err != nil {
		t.Fatal(err)
	}
}

func (a *authority) client(t *testing.T, name string) []string {
	t.Helper()
	a.sign(t, name, &x509.Certificate{ExtKeyUsage: []x509.ExtKeyUsage{x509.ExtKeyUsageClientAuth}})
	return []string{"--cacert", a.path("ca.pem"), "--cert", a.path(name + ".pem"), "--key", a.path(name + ".key")}
}

// startSecure starts a cluster with TLS that verifies the certificates of clients.
func startSecure(t *testing.T, a *authority, count int) *clusters.Cluster {
	t.Helper()
	a.sign(t, "etcd", &x509.Certificate{ExtKeyUsage: []x509.ExtKeyUsage{x509.ExtKeyUsageServerAuth,
		x509.ExtKeyUsageClientAuth}})
	c := clusters.New(t, count, clusters.Settings{IsSecure: true,
		Args: []string{"--client-cert-auth", "--trusted-ca-file", a.path("ca.pem"),
			"--cert-file", a.path("etcd.pem"), "--key-file", a.path("etcd.key")}})
	c.Args = a.client(t, "root")
	c.StartAll(t)
	processes.Eventually(t, "etcd with TLS", func() bool { return c.Try("endpoint", "health") == nil })
	return c
}

// With certificates that are valid for both sides, a program reaches the members by TLS, also if
// the endpoints have no https://. Otherwise it waits for the lock, and its line names the
// certificate.
func TestTLS(t *testing.T) {
	t.Parallel()
	a := newAuthority(t)
	cluster := startSecure(t, a, 3)
	args := a.client(t, "csid")
	p := start(t, cluster.Endpoints(), args...).waitLeading(t)
	l := p.dial(t)
	l.wantReply(t, makePath, "", codes.OK, "")
	l.mustCommit(t, addVolume(1, "a"))
	plain := start(t, strings.ReplaceAll(cluster.Endpoints(), "https://", ""), append(args, "--timeout", "1s")...)
	plain.waitLog(t, "csid-etcd: waits for the lock, which ")
	others := newAuthority(t)
	own := others.client(t, "csid")
	const unknown = `its certificate "CN=etcd" until %s is refused: x509: signed by unknown authority "CN=ca"`
	for name, row := range map[string]struct {
		args   []string
		reason string
	}{
		"no certificate": {args[:2], "it refuses no certificate: tls: "},
		"a certificate of another authority": {append(args[:2:2], own[2:]...),
			`it refuses --cert "CN=csid" until %s: tls: `},
		"another authority":            {own, unknown},
		"an etcd of another authority": {append(own[:2:2], args[2:]...), unknown},
	} {
		t.Run(name, func(t *testing.T) { wantTLSRefusal(t, cluster, row.args, row.reason) })
	}
	// A program waits for missing files.
	missing := start(t, cluster.Endpoints(), "--cacert", a.path("later.pem"))
	missing.waitLog(t, "csid-etcd: no lock: --cacert: open "+a.path("later.pem")+": no such file or directory")
}

// wantTLSRefusal checks that a program waits for the lock, and that its line names the member and
// the certificate.
func wantTLSRefusal(t *testing.T, cluster *clusters.Cluster, args []string, reason string) {
	t.Helper()
	p := start(t, cluster.Endpoints(), append(args, "--timeout", "1s")...)
	// The end of a certificate differs from run to run.
	reason = regexp.QuoteMeta(reason)
	reason = strings.ReplaceAll(reason, "%s", `[0-9]{4}-[0-9]{2}-[0-9]{2}T[0-9:]{8}Z`)
	line := regexp.MustCompile(`csid-etcd: no lock: .* \(.*https://127\.0\.0\.1:[0-9]+: ` + reason)
	processes.Eventually(t, "the certificate in "+line.String(),
		func() bool { return line.MatchString(p.Log.String()) })
	dialled := p.dial(t)
	if reply, err := dialled.call(readPath, nil); err != nil || reply.Code != codes.FailedPrecondition ||
		!strings.HasPrefix(reply.Text, "waiting for the lock: ") {
		t.Errorf("got %v, error %v, want a refusal for want of the lock", reply, err)
	}
}

// The authority is replaced in the order of docs/ETCD.md, "Certificates". The program, with or
// without a user, leads all the time, and reports each time which certificates are in use.
func TestRotation(t *testing.T) {
	t.Parallel()
	for _, withUser := range []bool{false, true} {
		withUser := withUser
		t.Run(map[bool]string{false: "by certificates", true: "by a password"}[withUser], func(t *testing.T) {
			t.Parallel()
			r := newRotation(t)
			args := append([]string{"--lease", "60", "--timeout", "20s"}, r.args...)
			if withUser {
				addUser(t, r.cluster)
				args = append(args, "--user", "csid:first")
			}
			p := start(t, r.cluster.Endpoints(), args...).waitLeading(t)
			l := p.dial(t)
			l.wantReply(t, makePath, "", codes.OK, "")
			for i, step := range []func(){
				func() { r.trust(t, r.first, r.second) },
				func() { r.replace(t, "etcd"); r.replace(t, "csid"); r.replace(t, "root") },
				func() { r.trust(t, r.second) },
			} {
				step()
				r.restart(t)
				l.mustCommit(t, addVolume(uint64(i+1), fmt.Sprint("a", i)))
			}
			lines := p.Log.String()
			if strings.Count(lines, "leads, from revision ") != 1 || strings.Contains(lines, "leads no more") {
				t.Errorf("got another term, want one: %s", lines)
			}
			p.waitLog(t, `csid-etcd: certificates: --cert "CN=csid" until `)
			if got := strings.Count(lines, "csid-etcd: certificates: "); got < 4 {
				t.Errorf("got %d lines of certificates, want 4 or more: %s", got, lines)
			}
		})
	}
}

// rotation is an etcd whose authority is replaced. All files are in the folder of the first
// authority. Clients and etcd read the same file of trusted authorities.
type rotation struct {
	first, second *authority
	cluster       *clusters.Cluster
	args          []string
}

func newRotation(t *testing.T) *rotation {
	t.Helper()
	r := &rotation{first: newAuthority(t), second: newAuthority(t)}
	r.cluster = startSecure(t, r.first, 1)
	r.args = r.first.client(t, "csid")
	for _, name := range []string{"etcd", "csid", "root"} {
		r.second.sign(t, name, &x509.Certificate{ExtKeyUsage: []x509.ExtKeyUsage{x509.ExtKeyUsageServerAuth,
			x509.ExtKeyUsageClientAuth}})
	}
	return r
}

// trust makes the certificates of these authorities the content of the file ca.pem.
func (r *rotation) trust(t *testing.T, trusted ...*authority) {
	t.Helper()
	var all []byte
	for _, a := range trusted {
		all = append(all, pem.EncodeToMemory(&pem.Block{Type: "CERTIFICATE", Bytes: a.cert.Raw})...)
	}
	if err := os.WriteFile(r.first.path("ca.pem"), all, 0o600); err != nil {
		t.Fatal(err)
	}
}

// replace replaces a certificate and its key by the files of the second authority.
func (r *rotation) replace(t *testing.T, name string) {
	t.Helper()
	for _, file := range []string{name + ".pem", name + ".key"} {
		text, err := os.ReadFile(r.second.path(file))
		if err != nil {
			t.Fatal(err)
		}
		if err := os.WriteFile(r.first.path(file), text, 0o600); err != nil {
			t.Fatal(err)
		}
	}
}

// restart restarts the member, which reads its trusted authorities only at its start.
func (r *rotation) restart(t *testing.T) {
	t.Helper()
	r.cluster.Members[0].Kill()
	r.cluster.Members[0].Start(t)
	processes.Eventually(t, "etcd after its start", func() bool { return r.cluster.Try("endpoint", "health") == nil })
}

// addUser adds the user csid, who may read and write the rows of the plugin, and enables
// authentication. The first password of csid is "first".
func addUser(t *testing.T, cluster *clusters.Cluster) {
	t.Helper()
	for _, args := range [][]string{
		{"user", "add", "root:secret"},
		{"role", "add", "csid"},
		{"role", "grant-permission", "csid", "readwrite", name + "/", "--prefix"},
		{"user", "add", "csid:first"},
		{"user", "grant-role", "csid", "csid"},
		{"auth", "enable"},
	} {
		cluster.Ctl(t, args...)
	}
}

// userCluster is an etcd with the user csid. password is the path of the file for this user's
// password, which write makes.
type userCluster struct {
	*clusters.Cluster
	password string
}

func newUserCluster(t *testing.T) *userCluster {
	t.Helper()
	cluster := clusters.Start(t, 1)
	addUser(t, cluster)
	cluster.Args = []string{"--user", "root:secret"}
	return &userCluster{cluster, filepath.Join(processes.Folder(t), "password")}
}

// args returns the arguments with which csid-etcd logs in as the user csid, followed by more.
func (u *userCluster) args(more ...string) []string {
	return append([]string{"--user", "csid", "--password-file", u.password}, more...)
}

// write makes text the content of the file of the password.
func (u *userCluster) write(t *testing.T, text string) {
	t.Helper()
	if err := os.WriteFile(u.password, []byte(text), 0o600); err != nil {
		t.Fatal(err)
	}
}

// refused returns the end of a line about a refused password.
func (u *userCluster) refused() string {
	return "etcdserver: authentication failed, invalid user ID or password (" + u.Endpoints() + ")\n"
}

// A user with a role that may read and write below NAME/ has all rights that the program needs.
func TestUser(t *testing.T) {
	t.Parallel()
	u := newUserCluster(t)
	u.write(t, "wrong\n")
	p := start(t, u.Endpoints(), u.args("--lease", "3")...)
	p.waitLog(t, "csid-etcd: no lock: "+u.refused())
	u.write(t, "first\n")
	p.waitLeading(t)
	l := p.dial(t)
	l.wantReply(t, makePath, "", codes.OK, "")
	l.mustCommit(t, addVolume(1, "a"))
	l.mustCommit(t, attach(1, "n", false))
	l.wantRefused(t, removeVolume(1), codes.FailedPrecondition, "attachments/00000000000000000001/n is there")
	l.mustCommit(t, detachAll(1))
	l.mustCommit(t, setMutable(1, "\x42\x00"))
	// The right is revoked, and granted again. The next change shows that the earlier token still
	// works.
	u.Ctl(t, "role", "revoke-permission", "csid", name+"/", "--prefix")
	l.wantRefused(t, addVolume(2, "b"), codes.Internal, "etcdserver: permission denied")
	u.Ctl(t, "role", "grant-permission", "csid", "readwrite", name+"/", "--prefix")
	l.mustCommit(t, addVolume(2, "b"))
	l.mustCommit(t, removeVolume(1))
	u.changePassword(t, p)
	// The role may also release the lock.
	wantEnd(t, p)
	if got := u.Ctl(t, "get", "--prefix", name+"/lock/"); got != "" {
		t.Errorf("got the lock %s, want none", got)
	}
	u.move(t)
}

// changePassword changes the password twice: once while nothing else ends a lease, and once
// together with a restart of etcd, which forgets all tokens. The leading program p and a waiting
// program take each password from the file.
func (u *userCluster) changePassword(t *testing.T, p program) {
	t.Helper()
	waiting := start(t, u.Endpoints(), u.args("--lease", "600")...)
	waiting.waitLog(t, "csid-etcd: waits for the lock, which ")
	before := len(p.Log.String())
	u.Type(t, "between\n", "user", "passwd", "csid", "--interactive=false")
	p.waitLog(t, "csid-etcd: leads no more: "+u.refused())
	waiting.waitLog(t, "csid-etcd: no lock: "+u.refused())
	seen := len(waiting.Log.String())
	u.write(t, "between\n")
	processes.Eventually(t, "that the other one campaigns again", func() bool {
		lines := waiting.Log.String()[seen:]
		return strings.Contains(lines, "waits for the lock, which ") || strings.Contains(lines, "leads, from revision ")
	})
	wantEnd(t, waiting)
	p.waitLeadingSince(t, before)
	p.dial(t).mustCommit(t, attach(2, "m", false))
	before = len(p.Log.String())
	u.Type(t, "second\n", "user", "passwd", "csid", "--interactive=false")
	u.Members[0].Kill()
	u.Members[0].Start(t)
	processes.Eventually(t, "that it leads no more", func() bool {
		return strings.Contains(p.Log.String()[before:], "leads no more: ")
	})
	p.waitLog(t, "csid-etcd: no lock: "+u.refused())
	u.write(t, "second\n")
	p.waitLeadingSince(t, before)
	p.dial(t).mustCommit(t, attach(2, "n", false))
}

// move imports and exports rows with the rights of the role. With fewer rights the import is
// refused.
func (u *userCluster) move(t *testing.T) {
	t.Helper()
	u.Ctl(t, "del", "--prefix", name+"/")
	runOnce(t, threeRows, "--import", u.Endpoints(), u.args()...).check(t, "an import by a user", 0, threeCounts, "")
	if got := runOnce(t, "", "--export", u.Endpoints(), u.args()...); got.status != 0 || got.stdout != threeSQL {
		t.Errorf("an export by a user: got %v, want %s", got, threeSQL)
	}
	u.Ctl(t, "del", "--prefix", name+"/")
	u.Ctl(t, "role", "revoke-permission", "csid", name+"/", "--prefix")
	u.Ctl(t, "role", "grant-permission", "csid", "read", name+"/", "--prefix")
	runOnce(t, threeRows, "--import", u.Endpoints(), u.args()...).
		check(t, "an import by a user who may only read", 1, "",
			"csid-etcd: --import: volumes/00000000000000000001: etcdserver: permission denied; nothing was written ("+
				u.Endpoints()+")\n")
}
