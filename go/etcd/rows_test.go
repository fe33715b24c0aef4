package main

import (
	"bytes"
	"encoding/hex"
	"fmt"
	"testing"

	"fomaheti/fixtures"
)

var fromHex = fixtures.FromHex

// Rows are encoded as these values, and the values are decoded as these rows.
func TestEncodeMeta(t *testing.T) {
	cases := []struct {
		row   meta
		value string
	}{
		{meta{2, 8}, `{"format_no":2,"next_number":8}`},
		{meta{0, 1<<63 - 1}, `{"format_no":0,"next_number":9223372036854775807}`},
	}
	for _, c := range cases {
		t.Run(c.value, func(t *testing.T) {
			if got := string(c.row.encoded()); got != c.value {
				t.Errorf("got %s, want %s", got, c.value)
			}
			if got, err := readMeta([]byte(c.value)); err != nil || got != c.row {
				t.Errorf("got %v, error %v, want %v", got, err, c.row)
			}
		})
	}
}

func TestEncodeVolume(t *testing.T) {
	block := fromHex(t, "1a060a001a020801")
	cases := []struct {
		name  string
		row   volume
		value string
	}{
		{"volume", volume{7, "pvc-7", 1048576, "ssd", block, nil},
			`{"name":"pvc-7","bytes":1048576,"pool":"ssd","caps":"1a060a001a020801","params":""}`},
		{"empty texts", volume{7, "", 0, "", nil, []byte{0, 255}},
			`{"name":"","bytes":0,"pool":"","caps":"","params":"00ff"}`},
		{"spaces", volume{7, " a ~", 1, "b !", nil, nil},
			`{"name":" a ~","bytes":1,"pool":"b !","caps":"","params":""}`},
		{"escapes, greatest number", volume{1, "a\"\\/<>&é\u2028\x7f𝄞", 1<<63 - 1, "\b\t\n\r\x00\x1f", nil, nil},
			`{"name":"a\"\\/<>&é` + "\u2028\x7f𝄞" + `","bytes":9223372036854775807,` +
				`"pool":"\u0008\t\n\r\u0000\u001f","caps":"","params":""}`},
	}
	for _, c := range cases {
		t.Run(c.name, func(t *testing.T) {
			if got := string(c.row.encoded()); got != c.value {
				t.Errorf("got %s, want %s", got, c.value)
			}
			got, err := readVolume(c.row.number, []byte(c.value))
			if err != nil || !bytes.Equal(got.message(), c.row.message()) {
				t.Errorf("got %v, error %v, want %v", got, err, c.row)
			}
		})
	}
}

func TestEncodeAttachment(t *testing.T) {
	block := fromHex(t, "1a060a001a020801")
	cases := []struct {
		row   attachment
		value string
	}{
		{attachment{7, "n1", block, false}, `{"cap":"1a060a001a020801","readonly":0}`},
		{attachment{7, "n1", nil, true}, `{"cap":"","readonly":1}`},
	}
	for _, c := range cases {
		t.Run(c.value, func(t *testing.T) {
			if got := string(c.row.encoded()); got != c.value {
				t.Errorf("got %s, want %s", got, c.value)
			}
			got, err := readAttachment(c.row.number, c.row.node, []byte(c.value))
			if err != nil || !bytes.Equal(got.message(), c.row.message()) {
				t.Errorf("got %v, error %v, want %v", got, err, c.row)
			}
		})
	}
}

// badValue is a value that csid-etcd never writes, and the error of reading this value.
type badValue struct {
	value string
	want  error
}

func checkBadValues(t *testing.T, cases []badValue, read func(value []byte) error) {
	t.Helper()
	for _, c := range cases {
		t.Run(fmt.Sprintf("%q", c.value), func(t *testing.T) {
			if err := read([]byte(c.value)); err != c.want {
				t.Errorf("got error %v, want %v", err, c.want)
			}
		})
	}
}

func TestReadMetaErrors(t *testing.T) {
	cases := []badValue{
		{``, errMetaForm},
		{`null`, errMetaForm},
		{`[]`, errMetaForm},
		{`{}`, errMetaForm},
		{`{"format_no":2}`, errMetaForm},
		{`{"next_number":8,"format_no":2}`, errMetaForm},
		{`{"format_no":2,"next_number":8,"next_number":8}`, errMetaForm},
		{`{"format_no":2,"format_no":2,"next_number":8}`, errMetaForm},
		{`{"format_no":2,"next_number":8,"more":1}`, errMetaForm},
		{`{"format_no":2,"Next_Number":8}`, errMetaForm},
		{`{"format_no":2,"next_number":8}{}`, errMetaForm},
		{`{"format_no":2,"next_number":8} `, errMetaForm},
		{`{"format_no":2, "next_number":8}`, errMetaForm},
		{`{"format_no":2,"next_number":8}` + "\n", errMetaForm},
		{"\ufeff" + `{"format_no":2,"next_number":8}`, errMetaForm},
		{`{"format_no":2,"next_number":8.0}`, errMetaForm},
		{`{"format_no":2,"next_number":8e0}`, errMetaForm},
		{`{"format_no":2,"next_number":-8}`, errMetaForm},
		{`{"format_no":2,"next_number":-0}`, errMetaForm},
		{`{"format_no":2,"next_number":08}`, errMetaForm},
		{`{"format_no":2,"next_number":"8"}`, errMetaForm},
		{`{"format_no":2,"next_number":null}`, errMetaForm},
		{`{"format_no":2,"next_number":true}`, errMetaForm},
		{`{"format_no":2,"next_number":9223372036854775808}`, errRange},
		{`{"format_no":9223372036854775808,"next_number":8}`, errRange},
		{`{"format_no":2,"next_number":18446744073709551616}`, errMetaForm},
		{`{"format_no":2,"next_number":8` + "\xff" + `}`, errNotText},
		{`{"format\u005fno":2,"next_number":8}`, errMetaForm},
	}
	checkBadValues(t, cases, func(value []byte) error { _, err := readMeta(value); return err })
}

func TestReadVolumeErrors(t *testing.T) {
	cases := []badValue{
		{`{"name":"a","bytes":1,"pool":"p","caps":""}`, errVolumeForm},
		{`{"name":1,"bytes":1,"pool":"p","caps":"","params":""}`, errVolumeForm},
		{`{"name":null,"bytes":1,"pool":"p","caps":"","params":""}`, errVolumeForm},
		{`{"name":"a","bytes":"1","pool":"p","caps":"","params":""}`, errVolumeForm},
		{`{"name":"a","bytes":1,"pool":"p","caps":"0A","params":""}`, errVolumeForm},
		{`{"name":"a","bytes":1,"pool":"p","caps":"0","params":""}`, errVolumeForm},
		{`{"name":"a","bytes":1,"pool":"p","caps":"","params":"0g"}`, errVolumeForm},
		{`{"name":"a","bytes":1,"pool":"p","caps":"","params":[]}`, errVolumeForm},
		{`{"name":"\ud800","bytes":1,"pool":"p","caps":"","params":""}`, errVolumeForm},
		{`{"name":"\u0061","bytes":1,"pool":"p","caps":"","params":""}`, errVolumeForm},
		{`{"name":"\/","bytes":1,"pool":"p","caps":"","params":""}`, errVolumeForm},
		{`{"name":"a` + "\xc3" + `","bytes":1,"pool":"p","caps":"","params":""}`, errNotText},
		{`{"name":"a` + "\n" + `","bytes":1,"pool":"p","caps":"","params":""}`, errVolumeForm},
		{`{"name":"a","bytes":9223372036854775808,"pool":"p","caps":"","params":""}`, errRange},
	}
	checkBadValues(t, cases, func(value []byte) error { _, err := readVolume(7, value); return err })
}

func TestReadAttachmentErrors(t *testing.T) {
	cases := []badValue{
		{`{"cap":""}`, errAttachmentForm},
		{`{"readonly":0,"cap":""}`, errAttachmentForm},
		{`{"cap":"","readonly":false}`, errAttachmentForm},
		{`{"cap":"","readonly":2}`, errReadonly},
		{`{"cap":"","readonly":-1}`, errAttachmentForm},
		{`{"cap":"AB","readonly":0}`, errAttachmentForm},
		{`{"cap":"","readonly":0,"readonly":1}`, errAttachmentForm},
		{`{"cap":"","READONLY":0}`, errAttachmentForm},
	}
	checkBadValues(t, cases, func(value []byte) error { _, err := readAttachment(7, "n", value); return err })
}

// Mutable parameters replace the earlier ones. The parameters stay.
func TestReplaceMutable(t *testing.T) {
	const (
		plain   = "22060a016b120176"
		other   = "22060a016c120177"
		mutable = "42060a016b120176"
		third   = "4200"
	)
	cases := []struct {
		name, params, mutable, want string
		ok                          bool
	}{
		{"nothing over nothing", "", "", "", true},
		{"one over nothing", "", mutable, mutable, true},
		{"nothing over one", mutable, "", "", true},
		{"one over one", mutable, third, third, true},
		{"two after parameters", plain + other, mutable + third, plain + other + mutable + third, true},
		{"one over two after parameters", plain + other + mutable + third, third, plain + other + third, true},
		{"nothing over one after a parameter", plain + mutable, "", plain, true},
		{"parameter after a mutable one", mutable + plain, third, "", false},
		{"number after a parameter", plain + "08", third, "", false},
		{"capability", "1a00", third, "", false},
		{"cut off mutable parameter", plain + "4205", third, "", false},
		{"no length", "22", third, "", false},
		{"cut off parameter", "2203aabb", third, "", false},
		{"length above 2^64-1", "22ffffffffffffffffff7f", third, "", false},
	}
	for _, c := range cases {
		t.Run(c.name, func(t *testing.T) {
			got, ok := replaceMutable(fromHex(t, c.params), fromHex(t, c.mutable))
			if ok != c.ok || hex.EncodeToString(got) != c.want {
				t.Errorf("got %x, ok %v, want %s, ok %v", got, ok, c.want, c.ok)
			}
		})
	}
}

func TestIsMutable(t *testing.T) {
	const (
		plain   = "22060a016b120176"
		mutable = "42060a016b120176"
		third   = "4200"
	)
	cases := []struct {
		name, params string
		want         bool
	}{
		{"nothing", "", true},
		{"one", mutable, true},
		{"two", mutable + third, true},
		{"parameter", plain, false},
		{"parameter before", plain + mutable, false},
		{"parameter after", mutable + plain, false},
		{"no length", "42", false},
		{"cut off", "4201", false},
	}
	for _, c := range cases {
		t.Run(c.name, func(t *testing.T) {
			if got := isMutable(fromHex(t, c.params)); got != c.want {
				t.Errorf("got %v, want %v", got, c.want)
			}
		})
	}
}
