package tests

import (
	"context"
	"fmt"
	"testing"

	"go.etcd.io/etcd/clientv3"
	"google.golang.org/grpc/codes"
)

const (
	metaForm       = `: its value is not of the form {"format_no":NUMBER,"next_number":NUMBER}`
	volumeForm     = `: its value is not of the form {"name":TEXT,"bytes":NUMBER,"pool":TEXT,"caps":HEX,"params":HEX}`
	attachmentForm = `: its value is not of the form {"cap":HEX,"readonly":0 or 1}`
	volume7        = "volumes/00000000000000000007"
	of7            = "attachments/00000000000000000007/"
	good           = `{"name":"a","bytes":1048576,"pool":"p","caps":"","params":""}`
	goodAttachment = `{"cap":"","readonly":0}`
)

// brokenRows are rows that csid-etcd never writes, each with the refusal that names it.
var brokenRows = []struct{ key, value, want string }{
	{"meta", ``, "meta" + metaForm},
	{"meta", `{"format_no":2,"next_number":"1"}`, "meta" + metaForm},
	{"meta", `{"format_no":2,"next_number":1,"next_number":1}`, "meta" + metaForm},
	{"meta", `{"Format_no":2,"next_number":1}`, "meta" + metaForm},
	{"meta", `{"format_no":2,"next_number":1.0}`, "meta" + metaForm},
	{"meta", `{"format_no":2,"next_number":1e0}`, "meta" + metaForm},
	{"meta", `{"format_no":2,"next_number":1}x`, "meta" + metaForm},
	{"meta", `{"format_no":2,"next_number":9223372036854775808}`,
		"meta: a number of its value is above 9223372036854775807"},
	{volume7, good[:40], volume7 + volumeForm},
	{volume7, `{"name":"a","bytes":-1,"pool":"p","caps":"","params":""}`, volume7 + volumeForm},
	{volume7, `{"name":"a","bytes":1048576,"pool":"p","caps":"1A","params":""}`, volume7 + volumeForm},
	{volume7, `{"name":"a","bytes":1048576,"pool":"p","caps":"1","params":""}`, volume7 + volumeForm},
	{volume7, `{"name":"a","bytes":1048576,"pool":"p","caps":""}`, volume7 + volumeForm},
	{volume7, `{"name":"a","name":"a","bytes":1048576,"pool":"p","caps":"","params":""}`, volume7 + volumeForm},
	{volume7, "{\"name\":\"\xff\",\"bytes\":1048576,\"pool\":\"p\",\"caps\":\"\",\"params\":\"\"}", volume7 +
		": its value is not UTF-8"},
	{volume7, `{"name":"a","bytes":9223372036854775808,"pool":"p","caps":"","params":""}`, volume7 +
		": a number of its value is above 9223372036854775807"},
	{"volumes/7", good, "volumes/7: its key has no number of 20 digits"},
	{"volumes/", good, "volumes/: its key has no number of 20 digits"},
	{"volumes/00000000000000000007/x", good, "volumes/00000000000000000007/x: its key has no number of 20 digits"},
	{"volumes/0000000000000000000a", good, "volumes/0000000000000000000a: its key has no number of 20 digits"},
	{"volumes/09223372036854775808", good,
		"volumes/09223372036854775808: the number of its key is above 9223372036854775807"},
	{"volumes/\xff\n", good, `volumes/\xff\x0a: its key has no number of 20 digits`},
	{of7 + "n", `{"cap":""}`, of7 + "n" + attachmentForm},
	{of7 + "n", `{"cap":"","readonly":true}`, of7 + "n" + attachmentForm},
	{of7 + "n", `{"cap":"","readonly":2}`, of7 + "n: its readonly is not 0 or 1"},
	{of7 + "é", `{"cap":"","readonly":00}`, of7 + `\xc3\xa9` + attachmentForm},
	{of7 + "\xff", goodAttachment, of7 + `\xff: its key is not UTF-8`},
	{"attachments/00000000000000000007", goodAttachment,
		"attachments/00000000000000000007: its key has no number of 20 digits"},
	{"attachments/7/n", goodAttachment, "attachments/7/n: its key has no number of 20 digits"},
	{"attachments/99999999999999999999/n", goodAttachment,
		"attachments/99999999999999999999/n: the number of its key is above 9223372036854775807"},
	{"", good, ": no row has such a key"},
	{"a", good, "a: no row has such a key"},
	{"attachments", good, "attachments: no row has such a key"},
	{"b", good, "b: no row has such a key"},
	{"lock", good, "lock: no row has such a key"},
	{"lock0", good, "lock0: no row has such a key"},
	{"meta/", good, "meta/: no row has such a key"},
	{"volume", good, "volume: no row has such a key"},
	{"volumes0", good, "volumes0: no row has such a key"},
	{"\xff", good, `\xff: no row has such a key`},
}

// putRow puts a value at a key of the plugin, which is given without the plugin's name.
func putRow(t *testing.T, client *clientv3.Client, key, value string) {
	t.Helper()
	put(t, client, name+"/"+key, value)
}

// A broken row, anywhere among the rows, makes Read fail with a refusal that names the row. Once
// the row is fixed, rows are read as before.
func TestBrokenRows(t *testing.T) {
	t.Parallel()
	cluster, _, l := startLeading(t)
	l.mustCommit(t, addVolume(1, "a"))
	client, ctx := cluster.Client(t), context.Background()
	for _, c := range brokenRows {
		t.Run(fmt.Sprintf("%q %q", c.key, c.value), func(t *testing.T) {
			key := name + "/" + c.key
			before, err := client.Get(ctx, key)
			if err != nil {
				t.Fatal(err)
			}
			put(t, client, key, c.value)
			l.wantReply(t, readPath, "", codes.FailedPrecondition, c.want)
			if len(before.Kvs) > 0 {
				put(t, client, key, string(before.Kvs[0].Value))
			} else if _, err := client.Delete(ctx, key); err != nil {
				t.Fatal(err)
			}
		})
	}
	// Keys next to the keys of the plugin, and keys below its lock, are not rows.
	for _, key := range []string{name, name + "0", name + ".other/meta", name + "-/volumes/7", name + "/lock/x"} {
		put(t, client, key, "x")
	}
	l.wantReply(t, readPath, "", codes.OK,
		"0a04 0802 1002 121a 0801 1201 61 18808040 2203 737364 2a08 1a060a001a020801 3200 2200")
	// A broken row is not changed either.
	const volume1 = "volumes/00000000000000000001"
	putRow(t, client, volume1, `{"name":"a","bytes":1048576,"pool":"p","caps":"","params":"2200420"}`)
	l.wantRefused(t, setMutable(1, ""), codes.FailedPrecondition, volume1+volumeForm)
	putRow(t, client, volume1, `{"name":"a","bytes":1048576,"pool":"p","caps":"","params":"42002200"}`)
	l.wantRefused(t, setMutable(1, ""), codes.FailedPrecondition,
		volume1+": its params are not fields of parameters and then of mutable ones")
	putRow(t, client, "meta", `{"format_no":1,"next_number":2}`)
	l.wantRefused(t, addVolume(2, "b"), codes.FailedPrecondition,
		`meta is {"format_no":1,"next_number":2}, and not {"format_no":2,"next_number":2}`)
}
