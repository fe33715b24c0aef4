package main

import (
	"context"
	"testing"

	"google.golang.org/grpc/codes"
	"google.golang.org/grpc/status"
)

// A call that waits for another one is not carried out later if its caller gives it up. Otherwise a
// late NodeStageVolume could stage a volume again after its NodeUnstageVolume.
func TestCallGivenUpBeforeItsTurn(t *testing.T) {
	isDone := false
	stage := alone(func(*plugin, context.Context, *stageRequest) (*empty, error) {
		isDone = true
		return new(empty), nil
	})
	p := new(plugin)
	p.mutex.Lock()
	ctx, giveUp := context.WithCancel(context.Background())
	ended := make(chan error, 1)
	go func() {
		_, err := stage(p, ctx, new(stageRequest))
		ended <- err
	}()
	giveUp()
	p.mutex.Unlock()
	if err := <-ended; status.Code(err) != codes.Canceled || isDone {
		t.Errorf("%v, done: %v", err, isDone)
	}
}
