package main

import (
	"context"
	"errors"
	"fmt"
	"net"
	"strings"
	"sync"
	"time"

	"go.etcd.io/etcd/clientv3/balancer/resolver/endpoint"
	pb "go.etcd.io/etcd/etcdserver/etcdserverpb"
	"google.golang.org/grpc"
	"google.golang.org/grpc/codes"
	"google.golang.org/grpc/credentials"
	"google.golang.org/grpc/peer"
	"google.golang.org/grpc/status"
)

// members connects to the members of etcd. Each connection uses the certificates that the files
// have at that moment. For log lines, members also notes why a member could not be reached and
// which error a member returned.
type members struct {
	opts  options
	logf  func(format string, args ...interface{})
	mutex sync.Mutex
	// The certificates at the last reading of the files.
	last certificates
	// The endpoint of the options for each address that was reached.
	endpoints map[string]string
	// By endpoint: unreached has the reason why the last connection failed, and refused has the
	// error in the last answer. A successful call removes both.
	unreached, refused map[string]string
	// The id of the cluster in the last answer, by endpoint, until the member cannot be reached.
	clusters map[string]uint64
}

// otherCluster is the error of a call that a member of another cluster answered. Its text names the
// members and their clusters.
type otherCluster string

// Error returns the text.
func (o otherCluster) Error() string { return string(o) }

func newMembers(opts options, logf func(format string, args ...interface{})) *members {
	return &members{opts: opts, logf: logf, endpoints: map[string]string{}, unreached: map[string]string{},
		refused: map[string]string{}, clusters: map[string]uint64{}}
}

// isSecure reports whether connections use TLS. The scheme of the first endpoint decides. If it has
// no scheme, connections use TLS if --cacert or --cert is given.
func (m *members) isSecure() bool {
	_, _, scheme := endpoint.ParseEndpoint(m.opts.endpoints[0])
	return scheme == "https" || scheme == "" && (m.opts.cacert != "" || m.opts.cert != "")
}

// certificates reads the files, and writes a line if their certificates have changed since the last
// reading. The first reading counts as a change.
func (m *members) certificates() (certificates, error) {
	read, err := readCertificates(m.opts)
	if err != nil {
		return read, err
	}
	m.mutex.Lock()
	isNew := !read.equal(m.last)
	m.last = read
	m.mutex.Unlock()
	if isNew && read.line() != "" {
		m.logf("%s", read.line())
	}
	return read, nil
}

// watchCertificates reads the files until the context ends, so that a change is reported even while
// no connection is made. Once a day it reports certificates that have expired or end soon. Without
// TLS it returns at once.
func (m *members) watchCertificates(ctx context.Context) {
	var warned time.Time
	for m.isSecure() && ctx.Err() == nil {
		// If the files cannot be read, the next connection reports the reason.
		if read, err := m.certificates(); err == nil && time.Since(warned) >= warningPause {
			warned = time.Now()
			for _, line := range read.warnings(warned) {
				m.logf("%s", line)
			}
		}
		sleep(ctx, filesPause)
	}
}

// dial opens a connection to an endpoint, and notes the endpoint under the address that was
// reached. If this fails, it notes why the member is unreachable.
func (m *members) dial(ctx context.Context, to string) (net.Conn, error) {
	conn, err := endpoint.Dialer(ctx, to)
	if err != nil {
		m.noteUnreached(ctx, to, err)
		return nil, err
	}
	m.mutex.Lock()
	defer m.mutex.Unlock()
	m.endpoints[conn.RemoteAddr().String()] = to
	return conn, nil
}

// endpointOf returns the endpoint of an address, or the address itself if it is unknown.
func (m *members) endpointOf(address net.Addr) string {
	m.mutex.Lock()
	defer m.mutex.Unlock()
	if to, ok := m.endpoints[address.String()]; ok {
		return to
	}
	return address.String()
}

// noteUnreached notes why a member could not be reached, unless the attempt was canceled. It leaves
// out the addresses of the connection: the local one differs each time.
func (m *members) noteUnreached(ctx context.Context, to string, err error) {
	if ctx.Err() == context.Canceled {
		return
	}
	reason := handshakeError(err)
	var failure *net.OpError
	if errors.As(err, &failure) {
		reason = failure.Err.Error()
	}
	m.mutex.Lock()
	defer m.mutex.Unlock()
	m.unreached[to] = reason
	delete(m.clusters, to)
}

// recordAnswer is an interceptor that notes the error of the member that answered a call. After a
// call without an error, it forgets the noted errors of this member. It does not note a call that
// this program canceled: an earlier error may not be reported yet. If the member is of another
// cluster than the others, the call fails.
func (m *members) recordAnswer(ctx context.Context, method string, request, reply interface{}, conn *grpc.ClientConn,
	invoke grpc.UnaryInvoker, options ...grpc.CallOption) error {
	var from peer.Peer
	err := invoke(ctx, method, request, reply, conn, append(options[:len(options):len(options)], grpc.Peer(&from))...)
	if from.Addr == nil || err != nil && ctx.Err() == context.Canceled {
		return err
	}
	to := m.endpointOf(from.Addr)
	m.mutex.Lock()
	defer m.mutex.Unlock()
	delete(m.refused, to)
	if err != nil {
		m.refused[to] = status.Convert(err).Message()
	} else {
		delete(m.unreached, to)
		err = m.noteCluster(to, reply)
	}
	return err
}

// noteCluster notes the id of the cluster in an answer of a member. It returns an otherCluster if
// this member has answered with another id before, or if another member has another id: the rows of
// one cluster, and the lock of another one, would be used together.
func (m *members) noteCluster(to string, reply interface{}) error {
	answer, ok := reply.(interface{ GetHeader() *pb.ResponseHeader })
	id := uint64(0)
	if ok {
		id = answer.GetHeader().GetClusterId()
	}
	if id == 0 {
		return nil
	}
	before := m.clusters[to]
	m.clusters[to] = id
	if before != 0 && before != id {
		return otherCluster(fmt.Sprintf("%s was of cluster %x, and is of cluster %x", to, before, id))
	}
	for _, other := range m.opts.endpoints {
		if of := m.clusters[other]; of != 0 && of != id {
			return otherCluster(fmt.Sprintf("the members are of two clusters: %s of %x, %s of %x", other, of, to, id))
		}
	}
	return nil
}

// membersOf names the members that caused an error, in parentheses after a space. If no member
// answered, it names the unreachable members with their reasons. Otherwise it names the members
// whose last error this is. The result is empty for an error that does not come from etcd.
func (m *members) membersOf(err error) string {
	if m == nil || err == nil {
		return ""
	}
	m.mutex.Lock()
	defer m.mutex.Unlock()
	var found []string
	for _, to := range m.opts.endpoints {
		refused := m.refused[to]
		if reason := m.unreached[to]; reason != "" && isNoAnswer(err) {
			found = append(found, to+": "+reason)
		} else if refused != "" && strings.Contains(err.Error(), refused) {
			found = append(found, to)
		}
	}
	if len(found) == 0 && isNoAnswer(err) {
		found = m.opts.endpoints
	}
	if len(found) == 0 {
		return ""
	}
	return " (" + strings.Join(found, "; ") + ")"
}

// reasons joins the reasons why members were unreachable. The result is empty unless isNoAnswer is
// true of the error.
func (m *members) reasons(err error) string {
	if m == nil || err == nil || !isNoAnswer(err) {
		return ""
	}
	m.mutex.Lock()
	defer m.mutex.Unlock()
	var found []string
	for _, to := range m.opts.endpoints {
		found = append(found, m.unreached[to])
	}
	return strings.Join(found, ";")
}

// isNoAnswer reports whether the error means that no member answered in time: UNAVAILABLE, a
// deadline, or the end of the lease.
func isNoAnswer(err error) bool {
	if unknown, ok := err.(unknownOutcome); ok {
		err = unknown.err
	}
	return errors.Is(err, errLeaseOver) || status.Code(err) == codes.Unavailable ||
		strings.Contains(err.Error(), context.DeadlineExceeded.Error())
}

// memberCredentials secures each connection with the certificates that the files have when the
// connection is made. The certificate of the member must name the endpoint.
type memberCredentials struct {
	credentials.TransportCredentials
	members *members
}

func (m *members) credentials() credentials.TransportCredentials {
	return memberCredentials{credentials.NewTLS(nil), m}
}

// Clone returns credentials for the same members.
func (c memberCredentials) Clone() credentials.TransportCredentials { return c.members.credentials() }

// ClientHandshake reads the certificate files, and makes a TLS connection to a member over raw. The
// certificate of the member must name the host of the endpoint. A failure is noted.
func (c memberCredentials) ClientHandshake(ctx context.Context, _ string, raw net.Conn) (
	net.Conn, credentials.AuthInfo, error) {
	to := c.members.endpointOf(raw.RemoteAddr())
	used, err := c.members.certificates()
	if err != nil {
		raw.Close()
		c.members.noteUnreached(ctx, to, err)
		return nil, nil, err
	}
	_, host, _ := endpoint.ParseEndpoint(to)
	conn, info, err := credentials.NewTLS(used.tlsConfig()).ClientHandshake(ctx, host, raw)
	if err != nil {
		c.members.noteUnreached(ctx, to, err)
		return nil, nil, err
	}
	return &memberConn{conn, to, used, c.members}, info, nil
}

// memberConn notes a TLS alert: a member that refuses this program's certificate sends an alert
// after the handshake.
type memberConn struct {
	net.Conn
	to      string
	used    certificates
	members *members
}

// Read reads from the connection, and notes a TLS alert as the reason why the member is
// unreachable.
func (c *memberConn) Read(into []byte) (int, error) {
	count, err := c.Conn.Read(into)
	var failure *net.OpError
	if errors.As(err, &failure) && failure.Op == "remote error" {
		own := "no certificate"
		if c.used.leaf != nil {
			own = "--cert " + describeCertificate(c.used.leaf)
		}
		c.members.noteUnreached(context.Background(), c.to, fmt.Errorf("it refuses %s: %v", own, failure.Err))
	}
	return count, err
}
