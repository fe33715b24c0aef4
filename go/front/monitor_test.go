package main

import (
	"context"
	"net/http"
	"net/http/httptest"
	"testing"
	"time"
)

// asks returns the answer of a monitor to a request with a time limit.
func asks(h *handler, path string, limit time.Duration) (status int, text string) {
	ctx, cancel := context.WithTimeout(context.Background(), limit)
	defer cancel()
	answer := httptest.NewRecorder()
	newMonitor(h, nil, nil).ServeHTTP(answer, httptest.NewRequest(http.MethodGet, path, nil).WithContext(ctx))
	return answer.Code, answer.Body.String()
}

// If the greatest number of health checks run, a further one waits. If it gets no turn in time,
// /healthz answers 503. /livez then reports that csid hangs only if csid was silent for
// questionTime.
func TestHealthChecksThatWait(t *testing.T) {
	h := replying(t, "00 0000 00 00000000")
	h.standsBy = true
	for i := 0; i < maxHealthChecks; i++ {
		h.checks <- struct{}{}
	}
	rows := []struct {
		path   string
		silent time.Duration
		status int
		text   string
	}{
		{"/healthz", 0, 503, "context deadline exceeded\n"},
		{"/livez", 0, 200, "ok\n"},
		{"/livez", questionTime, 503, "csid hangs\n"},
	}
	for _, row := range rows {
		h.backend.life.shown = time.Now().Add(-row.silent)
		if status, text := asks(h, row.path, 50*time.Millisecond); status != row.status || text != row.text {
			t.Errorf("%s after %v: %d %q, wanted %d %q", row.path, row.silent, status, text, row.status, row.text)
		}
	}
	for _, path := range []string{"/healthz", "/livez"} {
		begin := time.Now()
		go func() {
			time.Sleep(50 * time.Millisecond)
			<-h.checks
		}()
		if status, text := asks(h, path, 10*time.Second); status != 200 || text != "ok\n" ||
			time.Since(begin) < 50*time.Millisecond {
			t.Errorf("%s: %d %q after %v", path, status, text, time.Since(begin))
		}
		h.checks <- struct{}{}
	}
}
