package main

import (
	"fmt"
	"strconv"
	"strings"

	"google.golang.org/protobuf/encoding/protowire"
)

// The greatest lengths in bytes of a name or volume id, and of a node id. csid refuses longer ones,
// and the log cuts them.
const (
	maxNameBytes = 128
	maxNodeBytes = 256
)

// change has the parts of a call that the log shows if the call changes volumes: the name or the id
// of the volume, and the node. Other fields of the message are not read, since they may hold
// secrets.
type change struct {
	Name   string `json:"name,omitempty"`
	Volume string `json:"volume,omitempty"`
	Node   string `json:"node,omitempty"`
	// The process that called over the control socket; nil for gRPC, or if the system does not name
	// it.
	*sender
}

// sender is the process that made a call: its user id and its process id. The process id is 0 if
// the front's container cannot see the process.
type sender struct {
	UID uint32 `json:"uid"`
	PID int32  `json:"pid"`
}

// changes has the field numbers of the logged fields of each request that changes volumes
// (docs/PROTOCOL.md, "Messages"). The number is 0 if the request has no such field.
var changes = map[string]struct{ name, volume, node protowire.Number }{
	createVolume:                           {name: 1},
	deleteVolume:                           {volume: 1},
	controller + "ControllerPublishVolume": {volume: 1, node: 2},
	unpublishVolume:                        {volume: 1, node: 2},
	controller + "ControllerModifyVolume":  {volume: 1},
}

// changeOf returns the change that a call asks for, or nil if the method changes no volumes. The id
// of a created volume comes from the body of the reply, so it is empty after a refusal.
func changeOf(path string, message, body []byte) *change {
	fields, is := changes[path]
	if !is {
		return nil
	}
	logged := &change{
		Name:   textOf(message, fields.name, maxNameBytes),
		Volume: textOf(message, fields.volume, maxNameBytes),
		Node:   textOf(message, fields.node, maxNodeBytes),
	}
	if path == createVolume {
		// Field 1 is the volume, and field 2 of the volume is its id.
		logged.Volume = textOf(fieldOf(body, 1), 2, maxNameBytes)
	}
	return logged
}

// fieldOf returns the bytes of a field. It returns nil if the number is 0, the field is absent or
// the message is malformed.
func fieldOf(message []byte, number protowire.Number) []byte {
	if number == 0 {
		return nil
	}
	value, is, err := lastField(message, number, protowire.BytesType)
	if err != nil || !is {
		return nil
	}
	bytes, _ := protowire.ConsumeBytes(value)
	return bytes
}

// textOf returns a field as text, cut after `most` bytes. The text is empty if fieldOf returns nil.
func textOf(message []byte, number protowire.Number, most int) string {
	bytes := fieldOf(message, number)
	if len(bytes) > most {
		bytes = bytes[:most]
	}
	return string(bytes)
}

// words returns the end of a text line about a change, such as " volume=vol-1 node=n1". It is empty
// for a nil change.
func (c *change) words() string {
	if c == nil {
		return ""
	}
	var line strings.Builder
	for _, part := range []struct{ key, value string }{{"name", c.Name}, {"volume", c.Volume}, {"node", c.Node}} {
		if part.value != "" {
			line.WriteString(" " + part.key + "=" + shownWord(part.value))
		}
	}
	if c.sender != nil {
		fmt.Fprintf(&line, " uid=%d pid=%d", c.UID, c.PID)
	}
	return line.String()
}

// shownWord returns a text as one word of a line. It quotes a text with spaces, quotes, control
// characters or bytes outside ASCII.
func shownWord(text string) string {
	for i := 0; i < len(text); i++ {
		if text[i] <= ' ' || text[i] >= 0x7f || text[i] == '"' {
			return strconv.QuoteToASCII(text)
		}
	}
	return text
}
