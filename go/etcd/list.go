package main

import (
	"bufio"
	"errors"
	"fmt"
	"io"
	"sort"

	"google.golang.org/protobuf/encoding/protowire"
)

// --list prints the rows of etcd as csid --list-tables prints the rows of a file
// (docs/OPERATING.md, "Look into tables").

var errColumns = errors.New("its caps or params are not those of a volume")

// capability is a use of a volume: as a block device, or as a mounted file system.
type capability struct {
	isMount bool
	fsType  string
	mode    uint64
}

// listedVolume is a volume with its decoded columns and the nodes where it is published.
type listedVolume struct {
	volume
	capabilities        []capability
	parameters, mutable map[string]string
	nodes               []string
}

func (v *listedVolume) id() string { return fmt.Sprintf("vol-%d", v.number) }

// modeNames are the access modes of CSI by number ("CreateVolume",
// VolumeCapability.AccessMode.Mode).
var modeNames = []string{
	"UNKNOWN", "SINGLE_NODE_WRITER", "SINGLE_NODE_READER_ONLY", "MULTI_NODE_READER_ONLY", "MULTI_NODE_SINGLE_WRITER",
	"MULTI_NODE_MULTI_WRITER",
	"SINGLE_NODE_SINGLE_WRITER", "SINGLE_NODE_MULTI_WRITER",
}

func (c capability) modeName() string {
	if c.mode < uint64(len(modeNames)) {
		return modeNames[c.mode]
	}
	return modeNames[0]
}

// readCapability decodes a VolumeCapability: block is field 1, mount is field 2 with fs_type in its
// field 1, access_mode is field 3 with mode in its field 1.
func readCapability(message []byte) (read capability, err error) {
	err = readFields(message, func(f field) error {
		if f.kind != protowire.BytesType {
			return errMessage
		}
		switch f.number {
		case 1:
			read.isMount = false
		case 2:
			read.isMount = true
			return readInto(f.bytes, map[protowire.Number]target{1: &read.fsType})
		case 3:
			return readInto(f.bytes, map[protowire.Number]target{1: &read.mode})
		}
		return nil
	})
	return read, err
}

// readPair decodes an entry of a map, and adds it to the map `into`.
func readPair(message []byte, into map[string]string) error {
	var key, value string
	if err := readInto(message, map[protowire.Number]target{1: &key, 2: &value}); err != nil {
		return err
	}
	into[key] = value
	return nil
}

// readListed decodes the columns caps and params of a volume, and returns errColumns if they are
// malformed. They are fields of a CreateVolumeRequest: capabilities are field 3, parameters field
// 4, and mutable parameters field 8.
func readListed(row volume) (*listedVolume, error) {
	read := &listedVolume{volume: row, parameters: map[string]string{}, mutable: map[string]string{}}
	err := readFields(append(append([]byte{}, row.caps...), row.params...), func(f field) error {
		switch {
		case f.kind != protowire.BytesType:
			return errMessage
		case f.number == 3:
			one, err := readCapability(f.bytes)
			read.capabilities = append(read.capabilities, one)
			return err
		case f.number == 4:
			return readPair(f.bytes, read.parameters)
		case f.number == 8:
			return readPair(f.bytes, read.mutable)
		}
		return errMessage
	})
	if err != nil {
		return nil, errColumns
	}
	return read, nil
}

// volumeFilter selects the volumes that have all given values. An empty text is no condition.
type volumeFilter struct{ id, volume, pool, node string }

func (f volumeFilter) matches(v *listedVolume) bool {
	isPublished := f.node == ""
	for _, node := range v.nodes {
		isPublished = isPublished || node == f.node
	}
	return isPublished && (f.id == "" || v.id() == f.id) && (f.volume == "" || v.name == f.volume) &&
		(f.pool == "" || v.pool == f.pool)
}

// readAll reads all volumes at one revision. Volumes are sorted by number, their nodes by id. An
// attachment without a volume is left out.
func (r *snapshot) readAll(k keys) (volumes []*listedVolume, err error) {
	found := map[uint64]*listedVolume{}
	var at []attachment
	err = r.forEach(k, func(row tableRow) error {
		switch row := row.(type) {
		case volume:
			read, err := readListed(row)
			if err != nil {
				return brokenRow(k, k.volume(row.number), err)
			}
			found[row.number] = read
			volumes = append(volumes, read)
		case attachment:
			at = append(at, row)
		}
		return nil
	})
	for _, row := range at {
		if v := found[row.number]; v != nil {
			v.nodes = append(v.nodes, row.node)
		}
	}
	sort.Slice(volumes, func(i, j int) bool { return volumes[i].number < volumes[j].number })
	return volumes, err
}

// list prints the selected volumes, and their sums by pool and node. It needs no lock.
func list(m *members, to io.Writer) error {
	opts := m.opts
	client, err := m.connect()
	if err != nil {
		return err
	}
	defer client.Close()
	r := &snapshot{client: client, timeout: opts.timeout}
	k := keys{opts.name}
	if _, err := r.readMeta(k); err != nil {
		return err
	}
	all, err := r.readAll(k)
	if err != nil {
		return err
	}
	var volumes []*listedVolume
	for _, v := range all {
		if opts.filter.matches(v) {
			volumes = append(volumes, v)
		}
	}
	out := bufio.NewWriter(to)
	if !opts.isJSON {
		writeTable(out, volumes)
	} else if err := writeJSON(out, volumes); err != nil {
		return err
	}
	return out.Flush()
}
