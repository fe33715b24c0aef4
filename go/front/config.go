package main

import (
	"encoding/json"
	"errors"
	"fmt"
	"os"
	"strings"

	"github.com/BurntSushi/toml"
	"google.golang.org/grpc/codes"

	"fomaheti/frames"
)

// getConfiguration is the path of the call that the front itself answers on its control socket,
// without csid. Its message is not read, and the body of the reply is the configuration in JSON.
const getConfiguration = "/fomaheti.v1.Front/GetConfiguration"

// configuration is the part of the configuration of csid that the front uses (docs/OPERATING.md,
// "Configuration"): the sizes of pools and the limits of nodes. csid itself checks the file. The
// front uses the values only for metrics and for the answer to getConfiguration.
type configuration struct {
	Pools []pool `json:"pools"`
	Nodes []node `json:"nodes"`
}

type pool struct {
	Name     string            `json:"name"`
	Bytes    int64             `json:"bytes"`
	Segments map[string]string `json:"segments,omitempty"`
}

type node struct {
	ID         string `json:"id"`
	MaxVolumes int64  `json:"maxVolumes"`
}

// tomlTable is a table of TOML whose values are not decoded yet. The library would decode a key
// into the field of a struct also if their letters differ in case. For csid they are two keys.
type tomlTable map[string]toml.Primitive

// byteOrderMark may begin a file. csid skips it.
const byteOrderMark = "\ufeff"

// readConfiguration reads the configuration in a file. It fails if the file cannot be read or is
// not TOML, or if check refuses the configuration.
func readConfiguration(path string) (*configuration, error) {
	text, err := os.ReadFile(path)
	if err != nil {
		return nil, err
	}
	var document tomlTable
	meta, err := toml.Decode(strings.TrimPrefix(string(text), byteOrderMark), &document)
	if err != nil {
		return nil, err
	}
	config, err := configurationOf(meta, document)
	if err != nil {
		return nil, err
	}
	return config, config.check()
}

// configurationOf decodes the pools and nodes of a document.
func configurationOf(meta toml.MetaData, document tomlTable) (*configuration, error) {
	// In JSON a missing list must be [], and not null.
	config := &configuration{Pools: []pool{}, Nodes: []node{}}
	var pools, nodes []tomlTable
	err := decodeKeys(meta, document, map[string]interface{}{"pool": &pools, "node": &nodes})
	for _, its := range pools {
		var one pool
		if err == nil {
			err = decodeKeys(meta, its, map[string]interface{}{
				"name": &one.Name, "bytes": &one.Bytes, "segments": &one.Segments})
		}
		config.Pools = append(config.Pools, one)
	}
	for _, its := range nodes {
		var one node
		if err == nil {
			err = decodeKeys(meta, its, map[string]interface{}{"id": &one.ID, "max_volumes": &one.MaxVolumes})
		}
		config.Nodes = append(config.Nodes, one)
	}
	return config, err
}

// decodeKeys decodes keys of a table into the given values. The value of a missing key stays as it
// is.
func decodeKeys(meta toml.MetaData, from tomlTable, values map[string]interface{}) error {
	for key, value := range values {
		if found, isThere := from[key]; isThere {
			if err := meta.PrimitiveDecode(found, value); err != nil {
				return err
			}
		}
	}
	return nil
}

// check returns an error if there is no pool, a name is missing or occurs twice, or a size or limit
// is not positive. The metrics have one series for each name.
func (c *configuration) check() error {
	if len(c.Pools) == 0 {
		return errors.New("there is no pool")
	}
	known := map[string]bool{}
	for _, pool := range c.Pools {
		if pool.Name == "" || known[pool.Name] || pool.Bytes <= 0 {
			return fmt.Errorf("pool %q: its name is missing or there twice, or it has no bytes", pool.Name)
		}
		known[pool.Name] = true
	}
	known = map[string]bool{}
	for _, node := range c.Nodes {
		if node.ID == "" || known[node.ID] || node.MaxVolumes <= 0 {
			return fmt.Errorf("node %q: its id is missing or there twice, or it has no volumes", node.ID)
		}
		known[node.ID] = true
	}
	return nil
}

// reply returns the answer to getConfiguration. Without --config, c is nil and the call is refused
// with UNIMPLEMENTED, as csid refuses an unknown path.
func (c *configuration) reply() frames.Reply {
	if c == nil {
		return frames.Reply{Code: codes.Unimplemented, Text: "the front has no --config"}
	}
	body, err := json.Marshal(c)
	if err != nil {
		return frames.Reply{Code: codes.Internal, Text: frames.Text(err.Error())}
	}
	return frames.Reply{Body: body}
}
