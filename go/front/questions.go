package main

import (
	"context"
	"errors"
	"fmt"
	"strings"
	"time"
	"unicode/utf8"

	"google.golang.org/grpc/codes"
	"google.golang.org/grpc/status"
	"google.golang.org/protobuf/encoding/protowire"
)

// questionTime is the longest wait of the front for the reply to a call that it makes itself.
const questionTime = 5 * time.Second

// errNoMessage is the error if the body of a reply of csid cannot be decoded as a message.
var errNoMessage = malformed(csidName)

func malformed(who string) error {
	return status.Errorf(codes.Unavailable, "%s: malformed reply: bad message", who)
}

// topology is a topology whose free bytes the metrics show: by GetCapacity, the sum over the pools
// that serve the topology.
type topology struct {
	// The text on the command line: pairs KEY=VALUE, with commas between them.
	name string
	// The message of GetCapacity that asks for this topology.
	message []byte
}

// everywhere is the topology that all pools serve: its name and its message are empty.
var everywhere topology

// readTopology parses the segments of a topology, and encodes the message of GetCapacity. Field 3
// of the message is the topology. Each segment is a field 1 of the topology, with the key as field
// 1 and the value as field 2.
func readTopology(name string) (topology, error) {
	if !utf8.ValidString(name) {
		return topology{}, errors.New("it is not UTF-8")
	}
	var segments []byte
	known := map[string]bool{}
	for _, segment := range strings.Split(name, ",") {
		key, value, isPair := strings.Cut(segment, "=")
		if !isPair || key == "" {
			return topology{}, fmt.Errorf("%q is not KEY=VALUE", segment)
		}
		if known[key] {
			return topology{}, fmt.Errorf("the key %q is there twice", key)
		}
		known[key] = true
		entry := append(bytesField(1, []byte(key)), bytesField(2, []byte(value))...)
		segments = append(segments, bytesField(1, entry)...)
	}
	return topology{name, bytesField(3, segments)}, nil
}

func bytesField(number protowire.Number, value []byte) []byte {
	return protowire.AppendBytes(protowire.AppendTag(nil, number, protowire.BytesType), value)
}

// question makes a call of the front itself to csid. It returns the value of field 1 of the reply
// if this field has the wire type kind, and whether the reply has such a field. A refusal is
// logged, except while the front waits for csid.
func (h *handler) question(ctx context.Context, path string, message []byte, kind protowire.Type) (value []byte,
	is bool, err error) {
	begin := time.Now()
	body, err := h.ask(ctx, path, message)
	if err == nil {
		value, is, err = lastField(body, 1, kind)
	}
	if err != nil && !h.isWaiting.Load() {
		h.log.logRefusal("", path, nil, status.Convert(err), time.Since(begin))
	}
	return value, is, err
}

// isReady asks csid by Probe. If csid is ready and there is a node plugin, it also asks the plugin.
// It returns why one of them is not ready, or nil.
func (h *handler) isReady(ctx context.Context) error {
	if err := h.isCsidReady(ctx); err != nil || h.node == nil {
		return err
	}
	return h.isNodeReady(ctx)
}

// isCsidReady asks csid by Probe. It returns why csid is not ready, or nil. A reply OK without the
// field `ready` also means that csid is ready.
func (h *handler) isCsidReady(ctx context.Context) error {
	wrapped, is, err := h.question(ctx, probe, nil, protowire.BytesType)
	if err != nil || !is {
		return err
	}
	return readyValue(csidName, wrapped)
}

// isNodeReady asks the node plugin by Probe. It returns and logs why the plugin is not ready, or
// returns nil.
func (h *handler) isNodeReady(ctx context.Context) error {
	begin := time.Now()
	body, err := h.node.probe(ctx, nil)
	if err == nil {
		err = readiness(nodePluginName, body)
	}
	if err != nil {
		h.log.logRefusal("", probe, nil, status.Convert(err), time.Since(begin))
	}
	return err
}

// probeBoth answers Probe with the answer of csid. If csid is ready and the node plugin is not, it
// gives the answer of the plugin instead.
func (h *handler) probeBoth(ctx context.Context, message []byte) ([]byte, error) {
	body, err := h.ask(ctx, probe, message)
	if err != nil || readiness(csidName, body) != nil {
		return body, err
	}
	ofNode, err := h.node.probe(ctx, message)
	if err != nil || readiness(nodePluginName, ofNode) != nil {
		return ofNode, err
	}
	return body, nil
}

// readiness returns why csid or the node plugin, which who names, is not ready, or nil. body is the
// body of the reply to Probe. A plugin whose reply does not have the field `ready` is ready (CSI,
// "Probe").
func readiness(who string, body []byte) error {
	wrapped, is, err := lastField(body, 1, protowire.BytesType)
	if err != nil {
		return malformed(who)
	}
	if !is {
		return nil
	}
	return readyValue(who, wrapped)
}

// readyValue returns why csid or the node plugin, which who names, is not ready, or nil. wrapped is
// the field `ready` of the reply to Probe.
func readyValue(who string, wrapped []byte) error {
	ready, _ := protowire.ConsumeBytes(wrapped)
	value, _, err := lastField(ready, 1, protowire.VarintType)
	if err != nil {
		return malformed(who)
	}
	if number, _ := protowire.ConsumeVarint(value); number == 0 {
		return status.Errorf(codes.Unavailable, "%s is not ready", who)
	}
	return nil
}

// capacity returns the free bytes of a topology, from GetCapacity. The result is 0 if the reply has
// no capacity.
func (h *handler) capacity(ctx context.Context, of topology) (int64, error) {
	value, _, err := h.question(ctx, getCapacity, of.message, protowire.VarintType)
	if err != nil {
		return 0, err
	}
	bytes, _ := protowire.ConsumeVarint(value)
	return int64(bytes), nil
}

// lastField returns the value of the last field with this number and wire type, without the tag,
// and whether the message has such a field.
func lastField(message []byte, number protowire.Number, kind protowire.Type) (value []byte, is bool, err error) {
	err = eachField(message, func(gotNumber protowire.Number, gotKind protowire.Type, got []byte) error {
		if gotNumber == number && gotKind == kind {
			value, is = got, true
		}
		return nil
	})
	if err != nil {
		return nil, false, err
	}
	return value, is, nil
}

// eachField calls take for each field of a message, with the field's value without its tag. It
// stops at the first error of take, and at a malformed field with errNoMessage.
func eachField(message []byte, take func(number protowire.Number, kind protowire.Type, value []byte) error) error {
	for len(message) > 0 {
		number, kind, size := protowire.ConsumeTag(message)
		if size < 0 {
			return errNoMessage
		}
		message = message[size:]
		if size = protowire.ConsumeFieldValue(number, kind, message); size < 0 {
			return errNoMessage
		}
		if err := take(number, kind, message[:size]); err != nil {
			return err
		}
		message = message[size:]
	}
	return nil
}
