// Package sidecars makes the calls of Kubernetes' csi-provisioner and csi-attacher to the built
// front and the built csid. It makes them in the sidecars' order, with their deadlines and repeats,
// and reads codes as they do. The pauses between repeats are shorter, so that the tests end.
package sidecars

import (
	"context"
	"errors"
	"fmt"
	"os"
	"strconv"
	"sync/atomic"
	"testing"
	"time"

	"google.golang.org/grpc"
	"google.golang.org/grpc/codes"
	"google.golang.org/grpc/status"

	"../processes"
)

const (
	identity   = "/csi.v1.Identity/"
	controller = "/csi.v1.Controller/"
)

var (
	// The factor for all times. It is 1 for a proved csid. A csid that checks contracts at run time
	// needs more, since it takes seconds for a connection.
	slowness = factor("CSID_SLOWNESS")

	// The deadlines of calls: in deploy/kubernetes.yaml (--timeout), and in csi-attacher for the
	// calls at its start.
	callTimeout  = 30 * time.Second * slowness
	shortTimeout = time.Second * slowness

	// The pauses, which are shorter than in Kubernetes. There a sidecar repeats a call after 1 s,
	// then after twice as long, up to 5 minutes, and a kubelet restarts a container after 10 s.
	firstPause   = 10 * time.Millisecond * slowness
	longestPause = 320 * time.Millisecond * slowness
	restartPause = 100 * time.Millisecond * slowness

	// The time that a sidecar may take for one call, with all repeats, before the test fails.
	patience = processes.Patience * slowness
)

// factor returns the number in an environment variable, or 1 if the variable is not set.
func factor(variable string) time.Duration {
	text := os.Getenv(variable)
	if text == "" {
		return 1
	}
	number, err := strconv.Atoi(text)
	if err != nil || number < 1 {
		panic(fmt.Sprintf("%s=%s is no whole number from 1 on", variable, text))
	}
	return time.Duration(number)
}

// Capabilities of a plugin and of its controller service, and access modes, as the specification
// numbers them.
const (
	controllerService        = 1
	accessibilityConstraints = 2

	createDeleteVolume        = 1
	publishUnpublishVolume    = 2
	listVolumes               = 3
	getCapacity               = 4
	publishReadonly           = 8
	listVolumesPublishedNodes = 10
	singleNodeMultiWriter     = 13
	modifyVolume              = 14

	modeSingleNodeWriter      = 1
	modeSingleNodeMultiWriter = 7
)

// sidecar is a sidecar that has started: its connection, and the capabilities that it got at its
// start.
type sidecar struct {
	*grpc.ClientConn
	driver     string
	plugin     map[int32]bool
	controller map[int32]bool
	// The number of calls that were repeated because their outcome was open.
	repeats int32
}

// startSidecar starts a sidecar as a kubelet does: if the start fails, it starts the sidecar again
// after restartPause. If no start succeeds within patience, the test fails.
func startSidecar(t *testing.T, socket string) *sidecar {
	t.Helper()
	for end := time.Now().Add(patience); ; time.Sleep(restartPause) {
		started, err := comeUp(t, socket)
		if err == nil {
			return started
		}
		if time.Now().After(end) {
			t.Fatalf("the sidecar did not come up: %v", err)
		}
	}
}

// comeUp runs the start of a sidecar: its first Probe, and its questions for the driver's name and
// capabilities. It returns the error after which the sidecar would end.
func comeUp(t *testing.T, socket string) (*sidecar, error) {
	t.Helper()
	conn, err := grpc.Dial("unix:"+socket, grpc.WithInsecure(), grpc.WithBlock(), grpc.WithTimeout(patience))
	if err != nil {
		t.Fatal(err)
	}
	t.Cleanup(func() { conn.Close() })
	s := &sidecar{ClientConn: conn}
	for _, step := range []func() error{s.probeForever, s.askDriverName, s.askCapabilities} {
		if err := step(); err != nil {
			return nil, err
		}
	}
	return s, nil
}

// ask makes one call, whose deadline is length from now.
func (s *sidecar) ask(length time.Duration, path string, request, response interface{}) error {
	ctx, cancel := context.WithTimeout(context.Background(), length)
	defer cancel()
	return s.Invoke(ctx, path, request, response)
}

// probeForever waits until the driver is ready. After a deadline it tries again. Any other error
// ends the sidecar.
func (s *sidecar) probeForever() error {
	for {
		got := &probeResponse{}
		err := s.ask(callTimeout, identity+"Probe", &empty{}, got)
		if err != nil && grpc.Code(err) != codes.DeadlineExceeded {
			return err
		}
		if err == nil && (got.Ready == nil || got.Ready.Value) {
			return nil
		}
		time.Sleep(firstPause)
	}
}

func (s *sidecar) askDriverName() error {
	got := &getPluginInfoResponse{}
	if err := s.ask(shortTimeout, identity+"GetPluginInfo", &empty{}, got); err != nil {
		return err
	}
	if got.Name == "" {
		return errors.New("the driver has no name")
	}
	s.driver = got.Name
	return nil
}

func (s *sidecar) askCapabilities() (err error) {
	if s.plugin, err = s.capabilities(identity + "GetPluginCapabilities"); err != nil {
		return err
	}
	s.controller, err = s.capabilities(controller + "ControllerGetCapabilities")
	return err
}

func (s *sidecar) capabilities(path string) (map[int32]bool, error) {
	got := &capabilitiesResponse{}
	if err := s.ask(shortTimeout, path, &empty{}, got); err != nil {
		return nil, err
	}
	set := map[int32]bool{}
	for _, one := range got.Capabilities {
		if one.Kind != nil {
			set[one.Kind.Type] = true
		}
	}
	return set, nil
}

// isFinal reports whether the driver has ended a call with this error for good. After any other
// error the call may still run in the driver.
func isFinal(err error) bool {
	state, is := status.FromError(err)
	if !is {
		return false
	}
	switch state.Code() {
	case codes.Canceled, codes.DeadlineExceeded, codes.Unavailable, codes.ResourceExhausted, codes.Aborted:
		return false
	}
	return true
}

// repeat makes a call until it succeeds or has a final error. The pauses between two attempts
// double, up to longestPause. After patience it returns an error.
func (s *sidecar) repeat(path string, request, response interface{}) error {
	end, pause := time.Now().Add(patience), firstPause
	for {
		err := s.ask(callTimeout, path, request, response)
		if err == nil || isFinal(err) {
			return err
		}
		if time.Now().After(end) {
			return fmt.Errorf("not over in time: %w", err)
		}
		atomic.AddInt32(&s.repeats, 1)
		time.Sleep(pause)
		if pause *= 2; pause > longestPause {
			pause = longestPause
		}
	}
}
