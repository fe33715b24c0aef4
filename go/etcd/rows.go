package main

import (
	"bytes"
	"encoding/hex"
	"encoding/json"
	"errors"
	"fmt"
	"strconv"
	"unicode/utf8"

	"google.golang.org/protobuf/encoding/protowire"
)

// The rows of docs/TABLES.md. The value of a row in etcd is a JSON object. It has the columns that
// are not in the key, in the order of the table.

type meta struct{ format, next uint64 }

type volume struct {
	number       uint64
	name         string
	bytes        uint64
	pool         string
	caps, params []byte
}

type attachment struct {
	number     uint64
	node       string
	cap        []byte
	isReadonly bool
}

// tableRow is a row of one of the tables.
type tableRow interface {
	// encoded returns the value in etcd. message returns the message of the row in a page, and
	// field returns the number of the field that has this message.
	encoded() []byte
	message() []byte
	field() protowire.Number
	// statement returns the SQL statement that puts the row into new tables of csid.
	statement() string
}

func (meta) field() protowire.Number       { return 1 }
func (volume) field() protowire.Number     { return 2 }
func (attachment) field() protowire.Number { return 3 }

func (m meta) encoded() []byte {
	return []byte(fmt.Sprintf(`{"format_no":%d,"next_number":%d}`, m.format, m.next))
}

func (v volume) encoded() []byte {
	value := appendJSONString([]byte(`{"name":`), v.name)
	value = strconv.AppendUint(append(value, `,"bytes":`...), v.bytes, 10)
	value = appendJSONString(append(value, `,"pool":`...), v.pool)
	return append(value, fmt.Sprintf(`,"caps":"%x","params":"%x"}`, v.caps, v.params)...)
}

func (a attachment) encoded() []byte {
	readonly := 0
	if a.isReadonly {
		readonly = 1
	}
	return []byte(fmt.Sprintf(`{"cap":"%x","readonly":%d}`, a.cap, readonly))
}

// appendJSONString appends text as a JSON string with the fewest escapes. encoding/json escapes
// more characters.
func appendJSONString(value []byte, text string) []byte {
	value = append(value, '"')
	for i := 0; i < len(text); i++ {
		switch character := text[i]; {
		case character == '"' || character == '\\':
			value = append(value, '\\', character)
		case character == '\n':
			value = append(value, `\n`...)
		case character == '\r':
			value = append(value, `\r`...)
		case character == '\t':
			value = append(value, `\t`...)
		case character < 0x20:
			value = append(value, fmt.Sprintf(`\u%04x`, character)...)
		default:
			value = append(value, character)
		}
	}
	return append(value, '"')
}

// The reasons why a value is not the value of a row.
var (
	errNotText    = errors.New("its value is not UTF-8")
	errRange      = errors.New("a number of its value is above 9223372036854775807")
	errReadonly   = errors.New("its readonly is not 0 or 1")
	errMetaForm   = errors.New(`its value is not of the form {"format_no":NUMBER,"next_number":NUMBER}`)
	errVolumeForm = errors.New(`its value is not of the form ` +
		`{"name":TEXT,"bytes":NUMBER,"pool":TEXT,"caps":HEX,"params":HEX}`)
	errAttachmentForm = errors.New(`its value is not of the form {"cap":HEX,"readonly":0 or 1}`)
)

// readObject decodes a value. encoding/json also accepts duplicate members, other letter case and
// any order of members. Callers find such values when they encode the row again and compare.
func readObject(value []byte, into interface{}, form error) error {
	if !utf8.Valid(value) {
		return errNotText
	}
	if json.Unmarshal(value, into) != nil {
		return form
	}
	return nil
}

func readMeta(value []byte) (meta, error) {
	var columns struct {
		Format uint64 `json:"format_no"`
		Next   uint64 `json:"next_number"`
	}
	if err := readObject(value, &columns, errMetaForm); err != nil {
		return meta{}, err
	}
	row := meta{columns.Format, columns.Next}
	if !bytes.Equal(row.encoded(), value) {
		return meta{}, errMetaForm
	}
	if row.format > maxNumber || row.next > maxNumber {
		return meta{}, errRange
	}
	return row, nil
}

func readVolume(number uint64, value []byte) (volume, error) {
	var columns struct {
		Name   string `json:"name"`
		Bytes  uint64 `json:"bytes"`
		Pool   string `json:"pool"`
		Caps   string `json:"caps"`
		Params string `json:"params"`
	}
	if err := readObject(value, &columns, errVolumeForm); err != nil {
		return volume{}, err
	}
	caps, capsErr := hex.DecodeString(columns.Caps)
	params, paramsErr := hex.DecodeString(columns.Params)
	row := volume{number, columns.Name, columns.Bytes, columns.Pool, caps, params}
	if capsErr != nil || paramsErr != nil || !bytes.Equal(row.encoded(), value) {
		return volume{}, errVolumeForm
	}
	if row.bytes > maxNumber {
		return volume{}, errRange
	}
	return row, nil
}

func readAttachment(number uint64, node string, value []byte) (attachment, error) {
	var columns struct {
		Cap      string `json:"cap"`
		Readonly uint64 `json:"readonly"`
	}
	if err := readObject(value, &columns, errAttachmentForm); err != nil {
		return attachment{}, err
	}
	if columns.Readonly > 1 {
		return attachment{}, errReadonly
	}
	cap, err := hex.DecodeString(columns.Cap)
	row := attachment{number, node, cap, columns.Readonly == 1}
	if err != nil || !bytes.Equal(row.encoded(), value) {
		return attachment{}, errAttachmentForm
	}
	return row, nil
}

// Tags of the two fields of params: parameters and mutable parameters (docs/PROTOCOL.md,
// "Messages").
const (
	parametersTag = 0x22
	mutableTag    = 0x42
)

// splitParams splits params into its parameters and its mutable parameters. ok is false unless
// params consists of the first kind of field followed by the second.
func splitParams(params []byte) (parameters, mutable []byte, ok bool) {
	rest := params
	for len(rest) > 0 && rest[0] == parametersTag {
		if rest, ok = skipField(rest); !ok {
			return nil, nil, false
		}
	}
	parameters, mutable = params[:len(params)-len(rest)], rest
	for len(rest) > 0 {
		if rest[0] != mutableTag {
			return nil, nil, false
		}
		if rest, ok = skipField(rest); !ok {
			return nil, nil, false
		}
	}
	return parameters, mutable, true
}

// skipField returns the rest after a field with a tag of one byte and a length.
func skipField(fields []byte) (rest []byte, ok bool) {
	size := protowire.ConsumeFieldValue(1, protowire.BytesType, fields[1:])
	if size < 0 {
		return nil, false
	}
	return fields[1+size:], true
}

// replaceMutable returns params with other mutable parameters. ok is false if splitParams refuses
// params.
func replaceMutable(params, mutable []byte) (replaced []byte, ok bool) {
	parameters, _, ok := splitParams(params)
	if !ok {
		return nil, false
	}
	return append(append([]byte{}, parameters...), mutable...), true
}

// isMutable reports whether params has only fields of mutable parameters. Empty params pass.
func isMutable(params []byte) bool {
	parameters, _, ok := splitParams(params)
	return ok && len(parameters) == 0
}
