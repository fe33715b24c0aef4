package tests

import (
	"context"
	"encoding/json"
	"fmt"
	"math/rand"
	"net"
	"os"
	"os/exec"
	"path/filepath"
	"regexp"
	"sort"
	"strconv"
	"strings"
	"sync"
	"sync/atomic"
	"testing"
	"time"

	"go.etcd.io/etcd/clientv3"
	"google.golang.org/grpc"
	"google.golang.org/grpc/codes"
	"google.golang.org/grpc/status"

	"../../front/tests/processes"
	"./clusters"
)

// The pool is too small for the volumes of all callers, and the nodes have little room.
const (
	poolMebibytes = 40
	configuration = `name = "example.fomaheti"
vendor_version = "1.0.0"
default_bytes = 1048576
greatest_bytes = 8388608

[[pool]]
name = "p1"
bytes = 41943040

[[node]]
id = "n1"
max_volumes = 12

[[node]]
id = "n2"
max_volumes = 12
`
)

// stack is a csid-etcd with its csid and its front. Tests kill these programs and start them again.
type stack struct {
	name      string
	folder    string
	endpoints string
	store     *processes.Process
	csid      *processes.Process
	front     *processes.Process
}

func newStack(t *testing.T, volumeName, endpoints string) *stack {
	t.Helper()
	s := &stack{name: volumeName, folder: processes.Folder(t), endpoints: endpoints}
	if err := os.WriteFile(s.path("config.toml"), []byte(configuration), 0o600); err != nil {
		t.Fatal(err)
	}
	return s
}

func (s *stack) path(name string) string { return filepath.Join(s.folder, name) }

func (s *stack) startStore(t *testing.T) {
	t.Helper()
	s.store = startAt(t, s.path("log.sock"), s.endpoints,
		append(shortLease, "--id", s.name, "--revision", s.path("revision"))...).Process
}

func (s *stack) startCsid(t *testing.T) {
	t.Helper()
	// csid does not replace the socket of an earlier process.
	os.Remove(s.path("csid.sock"))
	s.csid = processes.Start(t, s.path("csid.sock"),
		exec.Command(processes.CsidProgram(t), "serve", "--socket", s.path("csid.sock"), "--log", s.path("log.sock"),
			"--config", s.path("config.toml")))
}

func (s *stack) startFront(t *testing.T) {
	t.Helper()
	s.front = processes.Start(t, s.path("csi.sock"),
		exec.Command(processes.FrontProgram(t), "--csid", s.path("csid.sock"), "--listen", s.path("csi.sock")))
}

func (s *stack) start(t *testing.T) *stack {
	t.Helper()
	s.startStore(t)
	s.startCsid(t)
	s.startFront(t)
	return s
}

// restartEnded starts again the programs that have ended: first csid-etcd, then csid, then the
// front.
func (s *stack) restartEnded(t *testing.T) {
	t.Helper()
	if hasEnded(s.store) {
		s.startStore(t)
	}
	if hasEnded(s.csid) {
		s.startCsid(t)
	}
	if hasEnded(s.front) {
		s.startFront(t)
	}
}

func hasEnded(p *processes.Process) bool {
	select {
	case <-p.Ended:
		return true
	default:
		return false
	}
}

// bytesCodec passes messages through as bytes.
type bytesCodec struct{}

func (bytesCodec) Marshal(v interface{}) ([]byte, error)      { return v.([]byte), nil }
func (bytesCodec) Unmarshal(data []byte, v interface{}) error { *v.(*[]byte) = data; return nil }
func (bytesCodec) Name() string                               { return "proto" }

// fleet is two stacks over one etcd, and their callers.
type fleet struct {
	t       *testing.T
	cluster *clusters.Cluster
	stacks  []*stack
	conns   []*grpc.ClientConn
	// The number of answers by code and text, and the time at which the last call with OK was sent.
	mutex    sync.Mutex
	answers  map[string]int
	lastCall time.Time
	// The name of each volume by its id.
	ids map[string]string
	// The number of calls with OK.
	ok int64
}

func newFleet(t *testing.T) *fleet {
	t.Helper()
	f := &fleet{t: t, cluster: clusters.Start(t, 3), answers: map[string]int{}, ids: map[string]string{}}
	for _, volumeName := range []string{"a", "b"} {
		s := newStack(t, volumeName, f.cluster.Endpoints()).start(t)
		f.stacks = append(f.stacks, s)
		dial := func(ctx context.Context, _ string) (net.Conn, error) {
			return (&net.Dialer{}).DialContext(ctx, "unix", s.path("csi.sock"))
		}
		conn, err := grpc.Dial("passthrough:///"+volumeName, grpc.WithInsecure(), grpc.WithContextDialer(dial),
			grpc.WithDefaultCallOptions(grpc.ForceCodec(bytesCodec{})),
			grpc.WithConnectParams(grpc.ConnectParams{MinConnectTimeout: time.Second}))
		if err != nil {
			t.Fatal(err)
		}
		t.Cleanup(func() { conn.Close() })
		f.conns = append(f.conns, conn)
	}
	return f
}

// call makes a call over both fronts in turn until the answer is not UNAVAILABLE.
func (f *fleet) call(method string, message []byte) ([]byte, *status.Status) {
	for i := 0; ; i++ {
		ctx, cancel := context.WithTimeout(context.Background(), time.Minute)
		var body []byte
		begin := time.Now()
		err := f.conns[i%2].Invoke(ctx, "/csi.v1.Controller/"+method, message, &body)
		cancel()
		why := status.Convert(err)
		f.note(method, why, begin)
		if why.Code() != codes.Unavailable {
			return body, why
		}
		if i%2 == 1 {
			time.Sleep(20 * time.Millisecond)
		}
	}
}

var details = regexp.MustCompile(`(dial|connect|read|write|transport|connection|csid:).*`)

func (f *fleet) note(method string, why *status.Status, begin time.Time) {
	f.mutex.Lock()
	defer f.mutex.Unlock()
	switch why.Code() {
	case codes.OK:
		f.ok++
		if begin.After(f.lastCall) {
			f.lastCall = begin
		}
	case codes.Unavailable:
		f.answers["Unavailable"]++
	default:
		f.answers[fmt.Sprintf("%s %v %q", method, why.Code(), details.ReplaceAllString(why.Message(), "$1.."))]++
	}
}

// servedSince reports whether a call that was sent after this time was answered OK.
func (f *fleet) servedSince(since time.Time) bool {
	f.mutex.Lock()
	defer f.mutex.Unlock()
	return f.lastCall.After(since)
}

// noteID notes the id of a volume. No other volume may ever have had it.
func (f *fleet) noteID(id, volumeName string) {
	f.mutex.Lock()
	defer f.mutex.Unlock()
	if before, ok := f.ids[id]; ok && before != volumeName {
		f.t.Errorf("got the id %s for %s, and then for %s", id, before, volumeName)
	}
	f.ids[id] = volumeName
}

// heldVolume is a volume of a caller, as the replies describe it.
type heldVolume struct{ volumeName, id, node, params string }

// caller has volumes that no other caller uses, so the replies determine what must be in etcd.
type caller struct {
	*fleet
	number  int
	random  *rand.Rand
	volumes []*heldVolume
	made    int
}

var volumeID = regexp.MustCompile(`vol-[0-9]+`)

// step creates, modifies, publishes, unpublishes or deletes a volume, chosen at random, and notes
// the replies. After a create with OK it repeats the create, which must return the same id.
func (c *caller) step() {
	if len(c.volumes) == 0 || (len(c.volumes) < 7 && c.random.Intn(3) == 0) {
		c.create()
		return
	}
	i := c.random.Intn(len(c.volumes))
	v := c.volumes[i]
	id := text(nil, 1, v.id)
	switch what := c.random.Intn(5); {
	case what == 0:
		value := strconv.Itoa(c.random.Intn(1000))
		entry := text(text(nil, 1, "k"), 2, value)
		if c.wantReply("ControllerModifyVolume", text(id, 3, string(entry))) {
			v.params = fmt.Sprintf("%x", text(nil, 8, string(entry)))
		}
	case v.node == "" && what < 3:
		node := []string{"n1", "n2"}[c.random.Intn(2)]
		if c.wantReply("ControllerPublishVolume", text(text(id, 2, node), 3, block[2:]), "node is full") {
			v.node = node
		}
	case v.node != "" && what < 4:
		if c.wantReply("ControllerUnpublishVolume", text(id, 2, v.node)) {
			v.node = ""
		}
	case v.node == "":
		if c.wantReply("DeleteVolume", id) {
			c.volumes = append(c.volumes[:i], c.volumes[i+1:]...)
		}
	default:
		if c.wantReply("DeleteVolume", id, "volume is in use") {
			c.t.Errorf("%s was deleted in use", v.id)
		}
	}
}

func (c *caller) create() {
	c.made++
	v := &heldVolume{volumeName: fmt.Sprintf("pvc-%d-%d", c.number, c.made)}
	message := text(text(nil, 1, v.volumeName), 3, block[2:])
	for again := 0; again < 2; again++ {
		body, why := c.call("CreateVolume", message)
		if why.Code() == codes.ResourceExhausted && why.Message() == "no room in the topology" && again == 0 {
			return
		}
		id := string(volumeID.Find(body))
		if why.Code() != codes.OK || id == "" || (again == 1 && id != v.id) {
			c.t.Errorf("%s: %v %q, %q", v.volumeName, why.Code(), why.Message(), id)
			return
		}
		v.id = id
		c.noteID(id, v.volumeName)
	}
	c.volumes = append(c.volumes, v)
}

// wantReply makes a call that must get OK or one of these refusals. It reports whether it got OK.
func (c *caller) wantReply(method string, message []byte, refusals ...string) bool {
	_, why := c.call(method, message)
	if why.Code() == codes.OK {
		return true
	}
	for _, text := range refusals {
		if why.Message() == text {
			return false
		}
	}
	c.t.Errorf("%s %x: %v %q", method, message, why.Code(), why.Message())
	return false
}

// wantedRows returns the keys and values that must be in etcd after the replies.
func wantedRows(callers []*caller) (all []string) {
	for _, c := range callers {
		for _, v := range c.volumes {
			number, _ := strconv.Atoi(strings.TrimPrefix(v.id, "vol-"))
			all = append(all, fmt.Sprintf(`volumes/%020d `+
				`{"name":"%s","bytes":1048576,"pool":"p1","caps":"%x","params":"%s"}`, number, v.volumeName, block,
				v.params))
			if v.node != "" {
				all = append(all, fmt.Sprintf(`attachments/%020d/%s {"cap":"%x","readonly":0}`, number, v.node, block))
			}
		}
	}
	sort.Strings(all)
	return all
}

// storedRows returns the rows of etcd at one revision except meta, and the next number.
func storedRows(client *clientv3.Client) (all []string, next int, err error) {
	ctx, cancel := context.WithTimeout(context.Background(), 5*time.Second)
	defer cancel()
	read, err := client.Get(ctx, name+"/", clientv3.WithPrefix())
	if err != nil {
		return nil, 0, err
	}
	for _, found := range read.Kvs {
		key := strings.TrimPrefix(string(found.Key), name+"/")
		switch {
		case strings.HasPrefix(key, "lock/"):
		case key == "meta":
			fmt.Sscanf(string(found.Value), `{"format_no":2,"next_number":%d}`, &next)
		default:
			all = append(all, key+" "+string(found.Value))
		}
	}
	sort.Strings(all)
	return all, next, nil
}

// watchRows reads the rows again and again until the context ends, and checks them at each revision
// that it reads. It returns the number of checks. The volumes must fit in the pool. No name may
// occur twice. Each number must be below the next number. Each attachment must have a volume, and
// be the only attachment of this volume.
func watchRows(t *testing.T, client *clientv3.Client, ctx context.Context) (checks int) {
	for ; ctx.Err() == nil; time.Sleep(50 * time.Millisecond) {
		all, next, err := storedRows(client)
		if err != nil {
			continue
		}
		checks++
		names, volumes, attached := map[string]bool{}, map[string]bool{}, map[string]bool{}
		for i := len(all) - 1; i >= 0; i-- {
			key, value, _ := strings.Cut(all[i], " ")
			parts := strings.Split(key, "/")
			if parts[0] == "volumes" {
				var row struct{ Name string }
				if err := json.Unmarshal([]byte(value), &row); err != nil || names[row.Name] {
					t.Errorf("%s: %v", all[i], err)
				}
				if number, _ := strconv.Atoi(parts[1]); number >= next {
					t.Errorf("%s, and the next number is %d", all[i], next)
				}
				names[row.Name], volumes[parts[1]] = true, true
				continue
			}
			if !volumes[parts[1]] || attached[parts[1]] {
				t.Errorf("%s: of no volume, or next to another one", all[i])
			}
			attached[parts[1]] = true
		}
		if len(volumes) > poolMebibytes {
			t.Errorf("the pool has %d MiB, and volumes of %d MiB", poolMebibytes, len(volumes))
		}
	}
	return checks
}

// leader returns the stack whose csid-etcd has the lock, or nil if none is known.
func (f *fleet) leader(client *clientv3.Client) *stack {
	ctx, cancel := context.WithTimeout(context.Background(), 2*time.Second)
	defer cancel()
	read, err := client.Get(ctx, name+"/lock/", clientv3.WithFirstCreate()...)
	if err != nil || len(read.Kvs) == 0 {
		return nil
	}
	for _, s := range f.stacks {
		if s.name == string(read.Kvs[0].Value) && !hasEnded(s.store) {
			return s
		}
	}
	return nil
}

// kills returns the number of kills, from the environment variable KILLS, or 10 without it.
func kills(t *testing.T) int {
	t.Helper()
	stdout := os.Getenv("KILLS")
	if stdout == "" {
		return 10
	}
	count, err := strconv.Atoi(stdout)
	if err != nil {
		t.Fatal(err)
	}
	return count
}

// victim is a program to kill. With isBound, the csid-etcd of its stack is then told to end, as
// systemd does if the unit of csid-etcd is bound to the unit of the victim.
type victim struct {
	name    string
	isBound bool
}

func (v victim) String() string {
	if v.isBound {
		return v.name + " and an end of its csid-etcd"
	}
	return v.name
}

// Members of etcd as victims.
const (
	anyMember     = "member of etcd"
	leadingMember = "leader of etcd"
)

// member returns the member of etcd to kill, or nil if the victim is not a member of etcd.
func (f *fleet) member(who victim, random *rand.Rand) *clusters.Member {
	switch who.name {
	case anyMember:
		return f.cluster.Members[random.Intn(len(f.cluster.Members))]
	case leadingMember:
		return f.cluster.Leader(f.t)
	}
	return nil
}

// Eight callers make calls to two stacks. Again and again the serving stack loses its csid-etcd,
// its csid or its front, or etcd loses one of its three members. At the end etcd has exactly the
// rows that the replies promise.
func TestStacks(t *testing.T) {
	help, err := exec.Command(processes.CsidProgram(t), "serve", "--help").Output()
	if err != nil || !strings.Contains(string(help), "--log") {
		t.Skip("left out: this csid knows no --log")
	}
	f := newFleet(t)
	client := f.cluster.Client(t)
	watched, endWatch := context.WithCancel(context.Background())
	checks := make(chan int, 1)
	go func() { checks <- watchRows(t, client, watched) }()
	callers, isOver := make([]*caller, 8), int32(0)
	var running sync.WaitGroup
	for i := range callers {
		callers[i] = &caller{fleet: f, number: i, random: rand.New(rand.NewSource(int64(i)))}
		running.Add(1)
		go func(c *caller) {
			defer running.Done()
			for atomic.LoadInt32(&isOver) == 0 && !t.Failed() {
				c.step()
			}
		}(callers[i])
	}
	f.kill(client)
	atomic.StoreInt32(&isOver, 1)
	running.Wait()
	endWatch()
	all, next, err := storedRows(client)
	want := wantedRows(callers)
	if err != nil || strings.Join(all, "\n") != strings.Join(want, "\n") {
		t.Errorf("error %v: got the rows\n%s\nwant\n%s", err, strings.Join(all, "\n"), strings.Join(want, "\n"))
	}
	t.Logf("%d OK, answers beside them %v, %d volumes and attachments, next number %d, %d ids given, rows looked at "+
		"%d times", f.ok, f.answers, len(all), next, len(f.ids), <-checks)
}

// kill kills victims in turn. Service must be back within the lease and 2 s, or within 10 s after
// the kill of a member of etcd.
func (f *fleet) kill(client *clientv3.Client) {
	random := rand.New(rand.NewSource(9))
	victims := []victim{
		{"csid-etcd", false}, {"csid", false}, {"front", false}, {"csid", true}, {"front", true},
		{anyMember, false}, {leadingMember, false},
	}
	gaps := map[victim][]time.Duration{}
	count := kills(f.t)
	for i := 0; i < count && !f.t.Failed(); i++ {
		who := victims[i%len(victims)]
		gaps[who] = append(gaps[who], f.killOnce(client, random, who))
	}
	for _, who := range victims {
		all := gaps[who]
		if len(all) == 0 {
			continue
		}
		sort.Slice(all, func(i, j int) bool { return all[i] < all[j] })
		f.t.Logf("%d kills of %v: service was back within %v in the middle, %v at most", len(all), who,
			all[len(all)/2].Round(time.Millisecond), all[len(all)-1].Round(time.Millisecond))
	}
}

// killOnce kills a victim while the fleet serves, and returns the time until it serves again. A
// time above the limit for this victim fails the test.
func (f *fleet) killOnce(client *clientv3.Client, random *rand.Rand, who victim) time.Duration {
	begin := time.Now()
	var s *stack
	processes.Eventually(f.t, "service by a leader", func() bool {
		s = f.leader(client)
		return s != nil && f.servedSince(begin)
	})
	time.Sleep(time.Duration(100+random.Intn(400)) * time.Millisecond)
	member := f.member(who, random)
	at := time.Now()
	if member != nil {
		member.Kill()
	} else {
		map[string]*processes.Process{"csid-etcd": s.store, "csid": s.csid, "front": s.front}[who.name].Kill()
	}
	if who.isBound {
		s.store.Terminate(f.t)
		s.store.Status(f.t)
	}
	gap, limit := f.waitServed(s, who, at), leaseLength+2*time.Second
	if member != nil {
		// An election of etcd takes a second round now and then.
		limit = 10 * time.Second
	}
	if gap > limit {
		f.t.Errorf("kill of %v: got no service for %v, want at most %v", who, gap, limit)
	}
	s.restartEnded(f.t)
	if member != nil {
		member.Start(f.t)
		f.cluster.WaitReady(f.t)
		// A new leader of etcd keeps each lease for its whole length, and an election takes longer.
		time.Sleep(leaseLength)
	}
	return gap
}

// waitServed waits until a call that was sent after the kill is answered OK, and returns the time
// since the kill. After a moment it starts the killed programs again.
func (f *fleet) waitServed(s *stack, who victim, killed time.Time) time.Duration {
	restarted := false
	for !f.servedSince(killed) {
		if time.Since(killed) > 20*time.Second {
			f.t.Fatalf("kill of %v of %s: got no service\n%s\n%s\n%s", who, s.name, s.store.Log, s.csid.Log,
				s.front.Log)
		}
		if !restarted && time.Since(killed) > 200*time.Millisecond {
			s.restartEnded(f.t)
			restarted = true
		}
		time.Sleep(2 * time.Millisecond)
	}
	return time.Since(killed)
}
