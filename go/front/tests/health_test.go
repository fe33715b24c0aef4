package tests

import (
	"context"
	"testing"
	"time"

	"google.golang.org/grpc"
	"google.golang.org/grpc/codes"
	"google.golang.org/grpc/health/grpc_health_v1"

	"./processes"
)

// health asks the health service at the socket of a front. Its method wants checks an answer.
type health struct {
	grpc_health_v1.HealthClient
}

func newHealth(t *testing.T, socket string) health {
	t.Helper()
	conn, err := grpc.Dial("unix:"+socket, grpc.WithInsecure(), grpc.WithBlock(), grpc.WithTimeout(processes.Patience))
	if err != nil {
		t.Fatal(err)
	}
	t.Cleanup(func() { conn.Close() })
	return health{grpc_health_v1.NewHealthClient(conn)}
}

func (h health) wantReply(t *testing.T, service string, want grpc_health_v1.HealthCheckResponse_ServingStatus,
	code codes.Code) {
	t.Helper()
	got, err := h.Check(soon(t, processes.Patience), &grpc_health_v1.HealthCheckRequest{Service: service})
	if grpc.Code(err) != code || got.GetStatus() != want {
		t.Errorf("%q: %v, %v", service, got, err)
	}
}

// Check reports if csid serves, for the plugin as a whole and for its two services. Any other
// service is refused with NOT_FOUND.
func TestHealth(t *testing.T) {
	t.Parallel()
	const serving, notServing = grpc_health_v1.HealthCheckResponse_SERVING,
		grpc_health_v1.HealthCheckResponse_NOT_SERVING
	csid := processes.NewServer(t, "")
	health := newHealth(t, processes.StartFront(t, csid.Socket(), "--health").Socket)
	for round := 0; round < 2; round++ {
		health.wantReply(t, "", notServing, codes.OK)
		csid.Start(t)
		processes.Eventually(t, "a csid that serves", func() bool {
			got, err := health.Check(soon(t, processes.Patience), &grpc_health_v1.HealthCheckRequest{})
			return err == nil && got.Status == serving
		})
		for _, service := range []string{"csi.v1.Identity", "csi.v1.Controller"} {
			health.wantReply(t, service, serving, codes.OK)
		}
		for _, service := range []string{"csi.v1.Node", "csi.v1", "grpc.health.v1.Health"} {
			health.wantReply(t, service, grpc_health_v1.HealthCheckResponse_UNKNOWN, codes.NotFound)
		}
		csid.Kill(t)
	}
}

// If csid hangs, Check waits 5 seconds for a Probe, and then answers NOT_SERVING.
func TestHealthWhileCsidStandsStill(t *testing.T) {
	t.Parallel()
	csid := startFake(t, step{mute: true})
	health := newHealth(t, processes.StartFront(t, csid.socket, "--health").Socket)
	begin := time.Now()
	health.wantReply(t, "", grpc_health_v1.HealthCheckResponse_NOT_SERVING, codes.OK)
	if spent := time.Since(begin); spent < 5*time.Second || spent > 10*time.Second {
		t.Errorf("it took %v", spent)
	}
}

// Watch is answered as csid answers any unknown method. So is Check without --health
// (TestCallsOfVolumes).
func TestHealthThatIsNotAnswered(t *testing.T) {
	t.Parallel()
	csid := processes.StartCsid(t)
	watching, err := newHealth(t, processes.StartFront(t, csid.Socket(), "--health").Socket).Watch(soon(t,
		processes.Patience), &grpc_health_v1.HealthCheckRequest{})
	if err != nil {
		t.Fatal(err)
	}
	if got, err := watching.Recv(); grpc.Code(err) != codes.Unimplemented {
		t.Errorf("%v, %v", got, err)
	}
}

// A malformed Check is refused, counted and logged like any call.
func TestMalformedHealthCheck(t *testing.T) {
	t.Parallel()
	process, monitor := watched(t, startFake(t).socket, "--health")
	const check = "/grpc.health.v1.Health/Check"
	newClient(t, process.Socket).wantReply(t, check, "0a", refused(codes.InvalidArgument, "malformed message"))
	newHealth(t, process.Socket).Check(context.Background(), &grpc_health_v1.HealthCheckRequest{})
	wantSeries(t, counted(series(t, monitor)), "csid_front_calls_total", map[string]string{
		`csid_front_calls_total{code="InvalidArgument",method="` + check + `"}`: "1",
		`csid_front_calls_total{code="OK",method="` + check + `"}`:              "1",
	})
}
