package main

import (
	"unicode/utf8"

	"google.golang.org/grpc/codes"
	"google.golang.org/protobuf/encoding/protowire"
)

// Paths of the calls of a change store (docs/PROTOCOL.md, "The change store").
const (
	readPath   = "/fomaheti.log.v1.Log/Read"
	makePath   = "/fomaheti.log.v1.Log/Make"
	commitPath = "/fomaheti.log.v1.Log/Commit"
	leadPath   = "/fomaheti.log.v1.Log/Lead"
)

var errMessage = refusal{codes.InvalidArgument, "malformed message"}

// field is one field of a message. varint is set for the wire type VARINT, bytes for LEN.
type field struct {
	number protowire.Number
	kind   protowire.Type
	varint uint64
	bytes  []byte
}

// readFields calls handle for each field of a message, in the order of the message, until handle
// fails. A message with a group is malformed.
func readFields(message []byte, handle func(field) error) error {
	for len(message) > 0 {
		number, kind, size := protowire.ConsumeTag(message)
		if size < 0 || kind == protowire.StartGroupType || kind == protowire.EndGroupType {
			return errMessage
		}
		message = message[size:]
		size = protowire.ConsumeFieldValue(number, kind, message)
		if size < 0 {
			return errMessage
		}
		f := field{number: number, kind: kind}
		switch kind {
		case protowire.VarintType:
			f.varint, _ = protowire.ConsumeVarint(message)
		case protowire.BytesType:
			f.bytes, _ = protowire.ConsumeBytes(message)
		}
		if err := handle(f); err != nil {
			return err
		}
		message = message[size:]
	}
	return nil
}

// target is the destination of a field: a *uint64, *bool, *string or *[]byte.
type target interface{}

// readInto decodes a message into the targets by field number. The last of repeated fields counts.
// Unknown fields and fields of another wire type are skipped. A text that is not UTF-8 makes the
// message malformed.
func readInto(message []byte, targets map[protowire.Number]target) error {
	return readFields(message, func(f field) error {
		switch into := targets[f.number].(type) {
		case *uint64:
			if f.kind == protowire.VarintType {
				*into = f.varint
			}
		case *bool:
			if f.kind == protowire.VarintType {
				*into = f.varint != 0
			}
		case *[]byte:
			if f.kind == protowire.BytesType {
				*into = f.bytes
			}
		case *string:
			if f.kind == protowire.BytesType {
				if !utf8.Valid(f.bytes) {
					return errMessage
				}
				*into = string(f.bytes)
			}
		}
		return nil
	})
}

// readToken returns the token in the message of Read. It is empty for the first page.
func readToken(message []byte) (token []byte, err error) {
	err = readInto(message, map[protowire.Number]target{1: &token})
	return token, err
}

// changeMessages returns, for each field number of Commit, a new change and the targets of its
// fields. Repeated fields are merged, as proto3 wants: each is decoded into the same change.
var changeMessages = map[protowire.Number]func() (change, map[protowire.Number]target){
	1: func() (change, map[protowire.Number]target) {
		c := &addVolume{}
		return c, map[protowire.Number]target{1: &c.number, 2: &c.name, 3: &c.bytes, 4: &c.pool, 5: &c.caps,
			6: &c.params}
	},
	2: func() (change, map[protowire.Number]target) {
		c := &removeVolume{}
		return c, map[protowire.Number]target{1: &c.number}
	},
	3: func() (change, map[protowire.Number]target) {
		c := &attach{}
		return c, map[protowire.Number]target{1: &c.number, 2: &c.node, 3: &c.cap, 4: &c.isReadonly}
	},
	4: func() (change, map[protowire.Number]target) {
		c := &detach{}
		return c, map[protowire.Number]target{1: &c.number, 2: &c.node}
	},
	5: func() (change, map[protowire.Number]target) {
		c := &detachAll{}
		return c, map[protowire.Number]target{1: &c.number}
	},
	6: func() (change, map[protowire.Number]target) {
		c := &setMutable{}
		return c, map[protowire.Number]target{1: &c.number, 2: &c.params}
	},
}

// readChange decodes the message of Commit. It refuses a message without a known change, with
// changes of two kinds, or with a number of a volume that no row can have.
func readChange(message []byte) (change, error) {
	var read change
	var targets map[protowire.Number]target
	var first protowire.Number
	err := readFields(message, func(f field) error {
		newChange := changeMessages[f.number]
		if newChange == nil || f.kind != protowire.BytesType {
			return nil
		}
		if read == nil {
			first = f.number
			read, targets = newChange()
		}
		if f.number != first {
			return refusal{codes.InvalidArgument, "more than one change"}
		}
		return readInto(f.bytes, targets)
	})
	if err != nil {
		return nil, err
	}
	if read == nil {
		return nil, refusal{codes.InvalidArgument, "no change that is known"}
	}
	// Field 1 of each change is the number.
	if number := targets[1].(*uint64); *number > maxNumber {
		return nil, errNumber
	}
	return read, nil
}

// The functions below encode rows as messages. They write the fields in ascending order, even if a
// field is 0 or empty.

func appendNumber(message []byte, number protowire.Number, value uint64) []byte {
	return protowire.AppendVarint(protowire.AppendTag(message, number, protowire.VarintType), value)
}

func appendBytes(message []byte, number protowire.Number, value []byte) []byte {
	return protowire.AppendBytes(protowire.AppendTag(message, number, protowire.BytesType), value)
}

func (m meta) message() []byte {
	return appendNumber(appendNumber(nil, 1, m.format), 2, m.next)
}

func (v volume) message() []byte {
	message := appendNumber(nil, 1, v.number)
	message = appendBytes(message, 2, []byte(v.name))
	message = appendNumber(message, 3, v.bytes)
	message = appendBytes(message, 4, []byte(v.pool))
	message = appendBytes(message, 5, v.caps)
	return appendBytes(message, 6, v.params)
}

func (a attachment) message() []byte {
	message := appendNumber(nil, 1, a.number)
	message = appendBytes(message, 2, []byte(a.node))
	message = appendBytes(message, 3, a.cap)
	return appendNumber(message, 4, protowire.EncodeBool(a.isReadonly))
}
