package main

import (
	"bufio"
	"bytes"
	"encoding/json"
	"fmt"
	"sort"
	"strconv"
	"strings"
)

// sum is the number of volumes of a pool or node, and the sum of their bytes. A sum of bytes above
// the greatest uint64 counts as the greatest uint64.
type sum struct{ volumes, bytes uint64 }

type sums map[string]sum

func (s sums) add(name string, bytes uint64) {
	now := s[name]
	now.volumes++
	if now.bytes += bytes; now.bytes < bytes {
		now.bytes = ^uint64(0)
	}
	s[name] = now
}

func (s sums) names() []string {
	names := make([]string, 0, len(s))
	for name := range s {
		names = append(names, name)
	}
	sort.Strings(names)
	return names
}

func count(volumes []*listedVolume) (pools, nodes sums) {
	pools, nodes = sums{}, sums{}
	for _, v := range volumes {
		pools.add(v.pool, v.bytes)
		for _, node := range v.nodes {
			nodes.add(node, v.bytes)
		}
	}
	return pools, nodes
}

// sizeUnits are the binary units of formatSize, largest first.
var sizeUnits = []string{"EiB", "PiB", "TiB", "GiB", "MiB", "KiB"}

// formatSize formats a size in the largest unit in which it is 1, 1.5, 2 or another multiple of one
// half. If there is no such unit, it formats the size in bytes.
func formatSize(bytes uint64) string {
	for i, unit := range sizeUnits {
		half := uint64(1) << (59 - 10*i)
		if halves := bytes / half; halves > 1 && bytes%half == 0 {
			return strconv.FormatUint(halves/2, 10) + []string{" ", ".5 "}[halves%2] + unit
		}
	}
	return strconv.FormatUint(bytes, 10) + " B"
}

// formatWord formats a text as one word, as csictl does: % and the bytes outside 0x21 to 0x7E
// become % and two hexadecimal digits. The empty text becomes a dash.
func formatWord(text string) string {
	if text == "" {
		return "-"
	}
	return escapeWord(text)
}

func escapeWord(text string) string {
	var out strings.Builder
	for i := 0; i < len(text); i++ {
		if character := text[i]; 0x21 <= character && character <= 0x7e && character != '%' {
			out.WriteByte(character)
		} else {
			fmt.Fprintf(&out, "%%%02X", character)
		}
	}
	return out.String()
}

// orDash joins the parts of a cell with commas. Without parts the cell is a dash.
func orDash(parts []string) string {
	if len(parts) == 0 {
		return "-"
	}
	return strings.Join(parts, ",")
}

func formatPairs(pairs map[string]string) string {
	var parts []string
	for _, key := range sortedKeys(pairs) {
		parts = append(parts, escapeWord(key)+"="+escapeWord(pairs[key]))
	}
	return orDash(parts)
}

func sortedKeys(pairs map[string]string) []string {
	keys := make([]string, 0, len(pairs))
	for key := range pairs {
		keys = append(keys, key)
	}
	sort.Strings(keys)
	return keys
}

// String formats the capability for the table: block, mount or the file system, then a colon and
// the mode.
func (c capability) String() string {
	switch {
	case !c.isMount:
		return "block:" + c.modeName()
	case c.fsType == "":
		return "mount:" + c.modeName()
	}
	return formatWord(c.fsType) + ":" + c.modeName()
}

// cells returns the cells of a volume, in the order of the columns of writeTable.
func (v *listedVolume) cells() []string {
	var capabilities, nodes []string
	for _, one := range v.capabilities {
		capabilities = append(capabilities, one.String())
	}
	for _, node := range v.nodes {
		nodes = append(nodes, escapeWord(node))
	}
	return []string{
		v.id(), formatWord(v.name), formatWord(v.pool), formatSize(v.bytes),
		orDash(capabilities), formatPairs(v.parameters), formatPairs(v.mutable),
		orDash(nodes),
	}
}

// maxCellWidth is the width in bytes of the longest cell that widens its column. Without this limit
// one long cell would add spaces to every row.
const maxCellWidth = 80

// writeRows writes rows in columns with two spaces between them. A cell that is longer than its
// column moves the rest of its row to the right.
func writeRows(out *bufio.Writer, rows [][]string) {
	widths := make([]int, len(rows[0]))
	for _, row := range rows {
		for i, cell := range row {
			if len(cell) > widths[i] && len(cell) <= maxCellWidth {
				widths[i] = len(cell)
			}
		}
	}
	for _, row := range rows {
		gap := 0
		for i, cell := range row {
			out.WriteString(strings.Repeat(" ", gap))
			out.WriteString(cell)
			gap = 2
			if len(cell) < widths[i] {
				gap += widths[i] - len(cell)
			}
		}
		out.WriteByte('\n')
	}
}

func (s sums) write(out *bufio.Writer, heading string) {
	rows := [][]string{{heading, "VOLUMES", "SIZE"}}
	for _, name := range s.names() {
		rows = append(rows, []string{formatWord(name), strconv.FormatUint(s[name].volumes, 10),
			formatSize(s[name].bytes)})
	}
	out.WriteByte('\n')
	writeRows(out, rows)
}

func writeTable(out *bufio.Writer, volumes []*listedVolume) {
	rows := [][]string{{"ID", "NAME", "POOL", "SIZE", "CAPABILITIES", "PARAMETERS", "MUTABLE", "NODES"}}
	for _, v := range volumes {
		rows = append(rows, v.cells())
	}
	writeRows(out, rows)
	pools, nodes := count(volumes)
	pools.write(out, "POOL")
	nodes.write(out, "NODE")
}

// MarshalJSON writes the access of the capability and its mode. The access is block, or mount with
// the file system.
func (c capability) MarshalJSON() ([]byte, error) {
	shown := struct {
		Access string  `json:"access"`
		FSType *string `json:"fsType,omitempty"`
		Mode   string  `json:"mode"`
	}{Access: "block", Mode: c.modeName()}
	if c.isMount {
		shown.Access, shown.FSType = "mount", &c.fsType
	}
	return encode(shown)
}

// MarshalJSON writes the volume with all of its lists, even if they are empty.
func (v *listedVolume) MarshalJSON() ([]byte, error) {
	return encode(struct {
		ID           string            `json:"id"`
		Name         string            `json:"name"`
		Pool         string            `json:"pool"`
		Bytes        uint64            `json:"bytes"`
		Capabilities []capability      `json:"capabilities"`
		Parameters   map[string]string `json:"parameters"`
		Mutable      map[string]string `json:"mutableParameters"`
		Nodes        []string          `json:"nodes"`
	}{v.id(), v.name, v.pool, v.bytes, append([]capability{}, v.capabilities...), v.parameters, v.mutable,
		append([]string{}, v.nodes...)})
}

// encode encodes a value as JSON, and does not escape < > &.
func encode(value interface{}) ([]byte, error) {
	var text bytes.Buffer
	encoder := json.NewEncoder(&text)
	encoder.SetEscapeHTML(false)
	err := encoder.Encode(value)
	return bytes.TrimSuffix(text.Bytes(), []byte("\n")), err
}

// entries returns an object for each name: the name under the given key, and its sums under
// "volumes" and "bytes".
func (s sums) entries(key string) []map[string]interface{} {
	entries := make([]map[string]interface{}, 0, len(s))
	for _, name := range s.names() {
		entries = append(entries, map[string]interface{}{key: name, "volumes": s[name].volumes, "bytes": s[name].bytes})
	}
	return entries
}

// writeJSON writes one JSON document: a line for each volume, a line with the sums of all pools,
// and a line with the sums of all nodes.
func writeJSON(out *bufio.Writer, volumes []*listedVolume) error {
	out.WriteString(`{"volumes":[`)
	for i, v := range volumes {
		text, err := encode(v)
		if err != nil {
			return err
		}
		if i > 0 {
			out.WriteByte(',')
		}
		out.WriteByte('\n')
		out.Write(text)
	}
	pools, nodes := count(volumes)
	poolsText, err := encode(pools.entries("name"))
	if err != nil {
		return err
	}
	nodesText, err := encode(nodes.entries("id"))
	if err != nil {
		return err
	}
	_, err = fmt.Fprintf(out, "\n],\n\"pools\":%s,\n\"nodes\":%s}\n", poolsText, nodesText)
	return err
}
