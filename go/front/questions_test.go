package main

import (
	"context"
	"encoding/binary"
	"io"
	"net"
	"testing"
	"time"
)

// soon returns a context that ends after 10 seconds.
func soon(t *testing.T) context.Context {
	t.Helper()
	ctx, cancel := context.WithTimeout(context.Background(), 10*time.Second)
	t.Cleanup(cancel)
	return ctx
}

// answering returns a function that serves a connection: it reads calls without messages, and
// answers each with the same reply.
func answering(reply []byte) func(net.Conn) {
	return func(conn net.Conn) {
		for head := make([]byte, 2); ; {
			if _, err := io.ReadFull(conn, head); err != nil {
				return
			}
			io.CopyN(io.Discard, conn, int64(binary.BigEndian.Uint16(head))+5)
			conn.Write(reply)
		}
	}
}

func replying(t *testing.T, frame string) *handler {
	t.Helper()
	path, _ := csid(t, answering(fromHex(t, frame)))
	return inFront(path)
}

// Readiness is decoded from the body of the reply to Probe. Each reason why a node plugin is not
// ready names the node plugin.
func TestReadinessOfANodePlugin(t *testing.T) {
	rows := []struct{ name, body, want string }{
		{"ready", "0a020801", ""},
		{"nothing is said", "", ""},
		{"an unknown field", "1001", ""},
		{"not ready", "0a020800", "rpc error: code = Unavailable desc = node plugin is not ready"},
		{"not ready, as the default", "0a00", "rpc error: code = Unavailable desc = node plugin is not ready"},
		{"cut short", "0a02", "rpc error: code = Unavailable desc = node plugin: malformed reply: bad message"},
		{"cut short inside", "0a0108",
			"rpc error: code = Unavailable desc = node plugin: malformed reply: bad message"},
	}
	for _, row := range rows {
		got := ""
		if err := readiness(nodePluginName, fromHex(t, row.body)); err != nil {
			got = err.Error()
		}
		if got != row.want {
			t.Errorf("%s: %q", row.name, got)
		}
	}
}

func TestReadiness(t *testing.T) {
	rows := []struct{ name, frame, want string }{
		{"ready", "00 0000 00 00000004 0a020801", ""},
		{"ready, by another number than 1", "00 0000 00 00000004 0a020802", ""},
		{"nothing is said", "00 0000 00 00000000", ""},
		{"an unknown field before it", "00 0000 00 00000006 1001 0a020801", ""},
		{"not ready", "00 0000 00 00000004 0a020800", "rpc error: code = Unavailable desc = csid is not ready"},
		{"not ready, as the default", "00 0000 00 00000002 0a00",
			"rpc error: code = Unavailable desc = csid is not ready"},
		{"the last one counts", "00 0000 00 00000008 0a020801 0a020800",
			"rpc error: code = Unavailable desc = csid is not ready"},
		{"cut short", "00 0000 00 00000002 0a02",
			"rpc error: code = Unavailable desc = csid: malformed reply: bad message"},
		{"cut short inside", "00 0000 00 00000003 0a0108",
			"rpc error: code = Unavailable desc = csid: malformed reply: bad message"},
		{"no tag", "00 0000 00 00000001 00", "rpc error: code = Unavailable desc = csid: malformed reply: bad message"},
		{"refused", "09 0002 6e6f 00 00000000", "rpc error: code = FailedPrecondition desc = no"},
	}
	for _, row := range rows {
		got := ""
		if err := replying(t, row.frame).isReady(soon(t)); err != nil {
			got = err.Error()
		}
		if got != row.want {
			t.Errorf("%s: %q", row.name, got)
		}
	}
}

func TestCapacity(t *testing.T) {
	rows := []struct {
		frame string
		want  int64
		fails bool
	}{
		{"00 0000 00 00000005 0880808007", 14680064, false},
		{"00 0000 00 0000000c 0880808007 1205 0880808004", 14680064, false},
		{"00 0000 00 00000000", 0, false},
		{"00 0000 00 00000001 08", 0, true},
		{"03 0000 00 00000000", 0, true},
	}
	for _, row := range rows {
		got, err := replying(t, row.frame).capacity(soon(t), everywhere)
		if got != row.want || (err != nil) != row.fails {
			t.Errorf("%s: %d, %v", row.frame, got, err)
		}
	}
}
