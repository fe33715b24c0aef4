package main

import (
	"os"
	"runtime"
	"testing"
)

// The front uses one processor, unless GOMAXPROCS is set.
func TestProcessors(t *testing.T) {
	before := runtime.GOMAXPROCS(3)
	defer runtime.GOMAXPROCS(before)
	t.Setenv("GOMAXPROCS", "3")
	useOneProcessor()
	if got := runtime.GOMAXPROCS(0); got != 3 {
		t.Errorf("%d processors, though GOMAXPROCS is 3", got)
	}
	os.Unsetenv("GOMAXPROCS")
	useOneProcessor()
	if got := runtime.GOMAXPROCS(0); got != 1 {
		t.Errorf("%d processors without GOMAXPROCS", got)
	}
}
