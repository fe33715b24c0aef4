package main

import (
	"context"
	"fmt"
	"net"
	"os"
	"path/filepath"
	"reflect"
	"strconv"
	"testing"
	"time"

	"google.golang.org/grpc"
	"google.golang.org/grpc/codes"
	"google.golang.org/grpc/status"
)

// pageServer plays a controller. It lists the volumes with these numbers. page is the greatest
// number of volumes on a page, and last is the greatest number that any volume has had.
type pageServer struct {
	numbers []int
	last    int
	page    int
}

// volumeBytes returns the size of a volume of pageServer.
func volumeBytes(number int) int64 { return int64(number) << 20 }

func (l pageServer) list(request *listRequest) (*listResponse, error) {
	begin, most := 0, l.page
	if request.StartingToken != "" {
		begin, _ = strconv.Atoi(request.StartingToken)
		if begin < 1 || begin > l.last {
			return nil, status.Error(codes.Aborted, "bad starting token")
		}
	}
	if request.MaxEntries > 0 {
		most = int(request.MaxEntries)
	}
	page := new(listResponse)
	for _, number := range l.numbers {
		if number > begin && len(page.Entries) == most {
			page.NextToken = strconv.Itoa(begin)
			break
		}
		if number > begin {
			page.Entries = append(page.Entries, &listEntry{Volume: &volume{VolumeID: "vol-" +
				strconv.Itoa(number), CapacityBytes: volumeBytes(number)}})
			begin = number
		}
	}
	return page, nil
}

// startController serves ListVolumes and returns the path of its socket.
func startController(t *testing.T, list func(*listRequest) (*listResponse, error)) string {
	t.Helper()
	handle := func(_ interface{}, _ context.Context, decode func(interface{}) error,
		_ grpc.UnaryServerInterceptor) (interface{}, error) {
		request := new(listRequest)
		if err := decode(request); err != nil {
			return nil, err
		}
		return list(request)
	}
	service := grpc.ServiceDesc{ServiceName: controllerName, HandlerType: (*interface{})(nil),
		Methods: []grpc.MethodDesc{{MethodName: "ListVolumes", Handler: handle}}}
	socket := filepath.Join(folder(t), "csi.sock")
	listener, err := net.Listen("unix", socket)
	if err != nil {
		t.Fatal(err)
	}
	server := grpc.NewServer()
	server.RegisterService(&service, nil)
	go server.Serve(listener)
	t.Cleanup(server.Stop)
	return socket
}

func newController(t *testing.T, socket string) controller {
	t.Helper()
	c, err := dial(socket)
	if err != nil {
		t.Fatal(err)
	}
	t.Cleanup(func() { c.Close() })
	return c
}

// folder returns a new folder. Its path is short, as the path of a socket must be.
func folder(t *testing.T) string {
	t.Helper()
	path, err := os.MkdirTemp("", "node")
	if err != nil {
		t.Fatal(err)
	}
	t.Cleanup(func() { os.RemoveAll(path) })
	return path
}

func TestSize(t *testing.T) {
	c := newController(t, startController(t, pageServer{[]int{1, 7, 9}, 9, 100}.list))
	cases := []struct {
		id   string
		size int64
		code codes.Code
	}{
		{"vol-1", volumeBytes(1), codes.OK},
		{"vol-7", volumeBytes(7), codes.OK},
		{"vol-9", volumeBytes(9), codes.OK},
		{"vol-2", 0, codes.NotFound},
		{"vol-10", 0, codes.NotFound},
		{"vol-11", 0, codes.NotFound},
		{"vol-18446744073709551615", 0, codes.NotFound},
		{"vol-18446744073709551616", 0, codes.NotFound},
		{"vol-0", 0, codes.NotFound},
		{"vol-07", 0, codes.NotFound},
		{"vol-", 0, codes.NotFound},
		{"", 0, codes.NotFound},
	}
	for _, each := range cases {
		t.Run(fmt.Sprintf("id %q", each.id), func(t *testing.T) {
			size, err := c.size(context.Background(), each.id)
			if size != each.size || status.Code(err) != each.code {
				t.Errorf("got %d, error %v, want %d, %v", size, err, each.size, each.code)
			}
		})
	}
}

func TestVolumes(t *testing.T) {
	cases := []struct {
		name    string
		numbers []int
		want    map[string]bool
	}{
		{"no volumes", nil, map[string]bool{}},
		{"one page", []int{1, 2}, map[string]bool{"vol-1": true, "vol-2": true}},
		{"three pages", []int{1, 2, 5, 8, 9},
			map[string]bool{"vol-1": true, "vol-2": true, "vol-5": true, "vol-8": true, "vol-9": true}},
	}
	for _, each := range cases {
		t.Run(each.name, func(t *testing.T) {
			c := newController(t, startController(t, pageServer{each.numbers, 9, 2}.list))
			if got, err := c.volumes(context.Background()); err != nil || !reflect.DeepEqual(got, each.want) {
				t.Errorf("got %v, error %v, want %v", got, err, each.want)
			}
		})
	}
}

// A call waits for a controller that is about to start, even if an earlier call found no
// controller.
func TestControllerThatStartsLater(t *testing.T) {
	started := startController(t, pageServer{[]int{1}, 1, 100}.list)
	socket := filepath.Join(filepath.Dir(started), "later.sock")
	c := newController(t, socket)
	if _, err := c.size(context.Background(), "vol-1"); status.Code(err) != codes.Unavailable {
		t.Errorf("no controller: got error %v, want %v", err, codes.Unavailable)
	}
	go func() {
		time.Sleep(300 * time.Millisecond)
		os.Symlink(started, socket)
	}()
	if size, err := c.size(context.Background(), "vol-1"); size != volumeBytes(1) || err != nil {
		t.Errorf("a controller that starts: got %d, error %v, want %d", size, err, volumeBytes(1))
	}
}

// A controller that has just started may take longer for its answer than a call waits for its
// start.
func TestControllerThatStartsAndAnswersLate(t *testing.T) {
	t.Parallel()
	pages := pageServer{[]int{1}, 1, 100}
	started := startController(t, func(request *listRequest) (*listResponse, error) {
		time.Sleep(startTime + 200*time.Millisecond)
		return pages.list(request)
	})
	socket := filepath.Join(filepath.Dir(started), "later.sock")
	c := newController(t, socket)
	go func() {
		time.Sleep(300 * time.Millisecond)
		os.Symlink(started, socket)
	}()
	if size, err := c.size(context.Background(), "vol-1"); size != volumeBytes(1) || err != nil {
		t.Errorf("got %d, error %v, want %d", size, err, volumeBytes(1))
	}
}

// The error of a controller is returned unchanged. An entry without a volume is an error.
func TestControllerErrors(t *testing.T) {
	cases := []struct {
		name string
		list func(*listRequest) (*listResponse, error)
		want codes.Code
	}{
		{"unavailable", func(*listRequest) (*listResponse, error) {
			return nil, status.Error(codes.Unavailable, "away")
		}, codes.Unavailable},
		{"entry without a volume", func(*listRequest) (*listResponse, error) {
			return &listResponse{Entries: []*listEntry{{}}}, nil
		}, codes.Internal},
	}
	for _, each := range cases {
		t.Run(each.name, func(t *testing.T) {
			c := newController(t, startController(t, each.list))
			if _, err := c.size(context.Background(), "vol-1"); status.Code(err) != each.want {
				t.Errorf("size: got error %v, want %v", err, each.want)
			}
			if _, err := c.volumes(context.Background()); status.Code(err) != each.want {
				t.Errorf("volumes: got error %v, want %v", err, each.want)
			}
		})
	}
}
