package main

import (
	"errors"
	"fmt"
	"math"
	"strconv"
	"strings"
	"unicode/utf8"

	"go.etcd.io/etcd/clientv3"

	"fomaheti/frames"
)

// numberDigits is the width of numbers in keys. With a fixed width, keys sort in the order of
// numbers.
const numberDigits = 20

// maxNumber is the greatest number in a row, as in SQLite's tables.
const maxNumber = math.MaxInt64

// keys builds the keys of a plugin in etcd. Each starts with the plugin's name and a slash.
type keys struct{ name string }

func (k keys) all() string         { return k.name + "/" }
func (k keys) meta() string        { return k.name + "/meta" }
func (k keys) locks() string       { return k.name + "/lock/" }
func (k keys) volumes() string     { return k.name + "/volumes/" }
func (k keys) attachments() string { return k.name + "/attachments/" }

// lock returns the key with which a candidate waits for the lock or holds it. The id of its lease
// makes the key unique.
func (k keys) lock(id clientv3.LeaseID) string { return fmt.Sprintf("%s%x", k.locks(), id) }

func (k keys) volume(number uint64) string {
	return fmt.Sprintf("%s%0*d", k.volumes(), numberDigits, number)
}

// attachmentsOf returns the prefix of the keys of a volume's attachments.
func (k keys) attachmentsOf(number uint64) string {
	return fmt.Sprintf("%s%0*d/", k.attachments(), numberDigits, number)
}

// attachment returns the key of an attachment. It ends with the node's id, unescaped.
func (k keys) attachment(number uint64, node string) string {
	return k.attachmentsOf(number) + node
}

// display returns a key for a log line or a reply: without the plugin's name, and with bytes
// escaped as in frames.Text.
func (k keys) display(key string) string { return frames.Text(strings.TrimPrefix(key, k.all())) }

// rangeEnd returns the end of the range of keys with this prefix. The prefix must not end with
// 0xFF.
func rangeEnd(prefix string) string {
	end := []byte(prefix)
	end[len(end)-1]++
	return string(end)
}

// keyAfter returns the lowest key above this one.
func keyAfter(key string) string { return key + "\x00" }

var (
	errKeyNumber  = errors.New("its key has no number of 20 digits")
	errKeyRange   = errors.New("the number of its key is above 9223372036854775807")
	errKeyNode    = errors.New("its key is not UTF-8")
	errRowTooLong = errors.New("the row is too long for a page")
)

// volumeNumber returns the number in the key of a volume, which must have 20 digits.
func (k keys) volumeNumber(key string) (uint64, error) {
	return readNumber(strings.TrimPrefix(key, k.volumes()))
}

// attachmentParts returns the number of the volume and the id of the node in the key of an
// attachment.
func (k keys) attachmentParts(key string) (number uint64, node string, err error) {
	digits, node, ok := strings.Cut(strings.TrimPrefix(key, k.attachments()), "/")
	if !ok {
		return 0, "", errKeyNumber
	}
	if number, err = readNumber(digits); err != nil {
		return 0, "", err
	}
	if !utf8.ValidString(node) {
		return 0, "", errKeyNode
	}
	return number, node, nil
}

var errUnknownKey = errors.New("no row has such a key")

// row decodes the row at a key of the plugin. For any other key, such as a key of the lock, it
// returns errUnknownKey.
func (k keys) row(key string, value []byte) (tableRow, error) {
	switch {
	case key == k.meta():
		row, err := readMeta(value)
		return row, err
	case strings.HasPrefix(key, k.volumes()):
		number, err := k.volumeNumber(key)
		if err != nil {
			return nil, err
		}
		row, err := readVolume(number, value)
		return row, err
	case strings.HasPrefix(key, k.attachments()):
		number, node, err := k.attachmentParts(key)
		if err != nil {
			return nil, err
		}
		row, err := readAttachment(number, node, value)
		return row, err
	}
	return nil, errUnknownKey
}

// pageRow decodes a row, and also returns it encoded as a field of a page. It refuses a row that is
// too long for a page.
func (k keys) pageRow(key string, value []byte) (tableRow, []byte, error) {
	row, err := k.row(key, value)
	if err != nil {
		return nil, nil, err
	}
	field := appendBytes(nil, row.field(), row.message())
	if len(field) > maxPageBytes {
		return nil, nil, errRowTooLong
	}
	return row, field, nil
}

func readNumber(digits string) (uint64, error) {
	if len(digits) != numberDigits || strings.Trim(digits, "0123456789") != "" {
		return 0, errKeyNumber
	}
	number, err := strconv.ParseUint(digits, 10, 64)
	if err != nil || number > maxNumber {
		return 0, errKeyRange
	}
	return number, nil
}
