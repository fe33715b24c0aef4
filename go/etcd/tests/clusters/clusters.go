// Package clusters runs clusters of etcd on loopback for tests. Each member has its own folder.
package clusters

import (
	"bytes"
	"context"
	"fmt"
	"net"
	"os"
	"os/exec"
	"path/filepath"
	"strings"
	"testing"
	"time"

	"go.etcd.io/etcd/clientv3"
	"go.uber.org/zap"

	"../../../front/tests/processes"
)

// Member is one etcd. It can be killed and started again with its data.
type Member struct {
	name   string
	folder string
	// Address is HOST:PORT for clients.
	Address string
	args    []string
	Current *processes.Process
}

// Cluster is a cluster of etcd: its members, and what etcdctl needs to reach them.
type Cluster struct {
	Members []*Member
	scheme  string
	// Args are arguments of each etcdctl, before its command, such as --user.
	Args []string
}

// Settings add arguments to all members of a cluster, and TLS to its clients. The zero value adds
// neither.
type Settings struct {
	// Args are further arguments of each member.
	Args []string
	// IsSecure makes clients use TLS.
	IsSecure bool
}

// Start starts a cluster with count members, and waits until it has a leader.
func Start(t *testing.T, count int, args ...string) *Cluster {
	t.Helper()
	c := New(t, count, Settings{Args: args})
	c.StartAll(t)
	c.WaitReady(t)
	return c
}

// New returns a cluster with count members. StartAll starts them.
func New(t *testing.T, count int, settings Settings) *Cluster {
	t.Helper()
	c := &Cluster{scheme: "http://"}
	if settings.IsSecure {
		c.scheme = "https://"
	}
	var all []string
	ports := FreePorts(t, 2*count)
	for i := 0; i < count; i++ {
		m := &Member{name: fmt.Sprintf("m%d", i), folder: processes.Folder(t), Address: ports[2*i]}
		peer := "http://" + ports[2*i+1]
		client := c.scheme + m.Address
		m.args = append([]string{
			"--name", m.name, "--data-dir", filepath.Join(m.folder, "data"), "--logger", "zap", "--log-level", "warn",
			"--listen-client-urls", client, "--advertise-client-urls", client,
			"--listen-peer-urls", peer, "--initial-advertise-peer-urls", peer,
		}, settings.Args...)
		all = append(all, m.name+"="+peer)
		c.Members = append(c.Members, m)
	}
	for _, m := range c.Members {
		m.args = append(m.args, "--initial-cluster", strings.Join(all, ","), "--initial-cluster-state", "new",
			"--initial-cluster-token", c.Members[0].folder)
	}
	return c
}

// FreePorts returns count unused addresses of loopback, as HOST:PORT.
func FreePorts(t *testing.T, count int) (addresses []string) {
	t.Helper()
	for i := 0; i < count; i++ {
		listener, err := net.Listen("tcp", "127.0.0.1:0")
		if err != nil {
			t.Fatal(err)
		}
		defer listener.Close()
		addresses = append(addresses, listener.Addr().String())
	}
	return addresses
}

// StartAll starts all members, and does not wait until they answer.
func (c *Cluster) StartAll(t *testing.T) {
	t.Helper()
	for _, m := range c.Members {
		m.Start(t)
	}
}

// Start starts a member with the data of its earlier run, if there was one. It does not wait until
// the member answers.
func (m *Member) Start(t *testing.T) {
	t.Helper()
	command := exec.Command("etcd", m.args...)
	command.Dir = m.folder
	m.Current = processes.Start(t, "", command)
}

// Kill sends SIGKILL to a member, and waits for its end.
func (m *Member) Kill() { m.Current.Kill() }

// Restore replaces the data of a stopped member by the data of a snapshot file. The cluster must
// have one member.
func (m *Member) Restore(t *testing.T, snapshot string) {
	t.Helper()
	if err := os.RemoveAll(filepath.Join(m.folder, "data")); err != nil {
		t.Fatal(err)
	}
	flags := map[string]string{}
	for i := 0; i+1 < len(m.args); i += 2 {
		flags[m.args[i]] = m.args[i+1]
	}
	args := []string{"snapshot", "restore", snapshot}
	for _, name := range []string{"--name", "--data-dir", "--initial-cluster", "--initial-cluster-token"} {
		args = append(args, name, flags[name])
	}
	args = append(args, "--initial-advertise-peer-urls", flags["--initial-advertise-peer-urls"])
	run(t, args)
}

// Endpoints returns all members as a value of csid-etcd's --endpoints.
func (c *Cluster) Endpoints() string {
	var all []string
	for _, m := range c.Members {
		all = append(all, m.endpoint(c.scheme))
	}
	return strings.Join(all, ",")
}

func (m *Member) endpoint(scheme string) string {
	if scheme == "http://" {
		return m.Address
	}
	return scheme + m.Address
}

// WaitReady waits until etcd answers and has a leader.
func (c *Cluster) WaitReady(t *testing.T) {
	t.Helper()
	client := c.Client(t)
	processes.Eventually(t, "an answer of etcd", func() bool {
		ctx, cancel := context.WithTimeout(context.Background(), time.Second)
		defer cancel()
		_, err := client.Get(ctx, "a")
		return err == nil
	})
}

// Client returns a client of a cluster without TLS. The client is closed at the end of the test.
func (c *Cluster) Client(t *testing.T) *clientv3.Client {
	t.Helper()
	client, err := clientv3.New(clientv3.Config{Endpoints: strings.Split(c.Endpoints(), ","),
		DialTimeout: 2 * time.Second, MaxCallSendMsgSize: 16 << 20,
		LogConfig: &zap.Config{Level: zap.NewAtomicLevelAt(zap.FatalLevel), Encoding: "json"}})
	if err != nil {
		t.Fatal(err)
	}
	t.Cleanup(func() { client.Close() })
	return client
}

// Ctl runs etcdctl and returns its standard output. If etcdctl fails, the test fails.
func (c *Cluster) Ctl(t *testing.T, args ...string) string {
	t.Helper()
	return run(t, append(append([]string{"--endpoints", c.Endpoints()}, c.Args...), args...))
}

// Try runs etcdctl. It returns nil if the exit status is 0, and otherwise an error with what
// etcdctl wrote to standard error.
func (c *Cluster) Try(args ...string) error {
	_, err := ctl(append(append([]string{"--endpoints", c.Endpoints()}, c.Args...), args...), "")
	return err
}

// Type runs etcdctl with text on its standard input, for example a password.
func (c *Cluster) Type(t *testing.T, text string, args ...string) {
	t.Helper()
	if _, err := ctl(append(append([]string{"--endpoints", c.Endpoints()}, c.Args...), args...), text); err != nil {
		t.Fatal(err)
	}
}

func run(t *testing.T, args []string) string {
	t.Helper()
	stdout, err := ctl(args, "")
	if err != nil {
		t.Fatal(err)
	}
	return stdout
}

func ctl(args []string, stdin string) (string, error) {
	command := exec.Command("etcdctl", args...)
	command.Env = append(os.Environ(), "ETCDCTL_API=3")
	var stdout, stderr bytes.Buffer
	command.Stdin, command.Stdout, command.Stderr = strings.NewReader(stdin), &stdout, &stderr
	if err := command.Run(); err != nil {
		return "", fmt.Errorf("etcdctl %v: %w: %s", args, err, stderr.String())
	}
	return stdout.String(), nil
}

// Leader waits until the cluster has a leader, and returns this member.
func (c *Cluster) Leader(t *testing.T) *Member {
	t.Helper()
	client := c.Client(t)
	var leader *Member
	processes.Eventually(t, "a leader of etcd", func() bool {
		for _, m := range c.Members {
			ctx, cancel := context.WithTimeout(context.Background(), time.Second)
			status, err := client.Status(ctx, m.endpoint(c.scheme))
			cancel()
			if err == nil && status.Leader == status.Header.MemberId {
				leader = m
				return true
			}
		}
		return false
	})
	return leader
}
