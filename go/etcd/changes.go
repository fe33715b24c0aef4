package main

import (
	"context"

	"go.etcd.io/etcd/clientv3"
	pb "go.etcd.io/etcd/etcdserver/etcdserverpb"
	"google.golang.org/grpc/codes"
)

// change is one change of the rows in etcd: makeMeta for the call Make, or one of the types below
// for the call Commit.
type change interface {
	// plan returns the transaction of the change. It may read rows first.
	plan(ctx context.Context, t *term) (plan, error)
}

type (
	addVolume    struct{ volume }
	removeVolume struct{ number uint64 }
	attach       struct{ attachment }
	detach       struct {
		number uint64
		node   string
	}
	detachAll  struct{ number uint64 }
	setMutable struct {
		number uint64
		params []byte
	}
)

// plan is one transaction. If all compares hold, etcd makes the operations of success. Otherwise it
// makes the operations of failure, which are reads.
type plan struct {
	compares []clientv3.Cmp
	success  []clientv3.Op
	failure  []clientv3.Op
	// explain names the failed comparison from the responses to failure. It returns "" if these
	// show no reason.
	explain func(read []*pb.RangeResponse) string
}

var errNumber = refusal{codes.InvalidArgument, "a number is above 9223372036854775807"}

// firstMeta is the row of meta in new tables (docs/TABLES.md).
var firstMeta = meta{format: 2, next: 1}

func keyExists(key string) clientv3.Cmp {
	return clientv3.Compare(clientv3.CreateRevision(key), ">", 0)
}
func keyMissing(key string) clientv3.Cmp {
	return clientv3.Compare(clientv3.CreateRevision(key), "=", 0)
}

// rangeEmpty compares that the range has no key: each existing key has a create revision above 0.
func rangeEmpty(begin, end string) clientv3.Cmp { return keyMissing(begin).WithRange(end) }

// firstKey reads the key, or the first key of a range, without its value.
func firstKey(key string, opts ...clientv3.OpOption) clientv3.Op {
	return clientv3.OpGet(key, append(opts, clientv3.WithKeysOnly(), clientv3.WithLimit(1))...)
}

func (c *addVolume) plan(_ context.Context, t *term) (plan, error) {
	if c.number >= maxNumber || c.bytes > maxNumber {
		return plan{}, errNumber
	}
	key := t.keys.volume(c.number)
	before, after := meta{firstMeta.format, c.number}, meta{firstMeta.format, c.number + 1}
	return plan{
		compares: []clientv3.Cmp{
			keyMissing(key),
			clientv3.Compare(clientv3.Value(t.keys.meta()), "=", string(before.encoded())),
		},
		success: []clientv3.Op{
			clientv3.OpPut(key, string(c.encoded())),
			clientv3.OpPut(t.keys.meta(), string(after.encoded())),
		},
		failure: []clientv3.Op{firstKey(key), clientv3.OpGet(t.keys.meta())},
		explain: func(read []*pb.RangeResponse) string {
			if len(read[0].Kvs) > 0 {
				return t.keys.display(key) + " is there already"
			}
			if len(read[1].Kvs) == 0 {
				return "meta is not there"
			}
			if value := string(read[1].Kvs[0].Value); value != string(before.encoded()) {
				return "meta is " + value + ", and not " + string(before.encoded())
			}
			return ""
		},
	}, nil
}

func (c *removeVolume) plan(_ context.Context, t *term) (plan, error) {
	key, attachments := t.keys.volume(c.number), t.keys.attachmentsOf(c.number)
	return plan{
		compares: []clientv3.Cmp{rangeEmpty(attachments, rangeEnd(attachments))},
		success:  []clientv3.Op{clientv3.OpDelete(key)},
		failure:  []clientv3.Op{firstKey(attachments, clientv3.WithRange(rangeEnd(attachments)))},
		explain: func(read []*pb.RangeResponse) string {
			if len(read[0].Kvs) > 0 {
				return t.keys.display(string(read[0].Kvs[0].Key)) + " is there"
			}
			return ""
		},
	}, nil
}

func (c *attach) plan(_ context.Context, t *term) (plan, error) {
	volume, key := t.keys.volume(c.number), t.keys.attachment(c.number, c.node)
	return plan{
		compares: []clientv3.Cmp{keyExists(volume), keyMissing(key)},
		success:  []clientv3.Op{clientv3.OpPut(key, string(c.encoded()))},
		failure:  []clientv3.Op{firstKey(volume), firstKey(key)},
		explain: func(read []*pb.RangeResponse) string {
			if len(read[0].Kvs) == 0 {
				return t.keys.display(volume) + " is not there"
			}
			if len(read[1].Kvs) > 0 {
				return t.keys.display(key) + " is there already"
			}
			return ""
		},
	}, nil
}

func (c *detach) plan(_ context.Context, t *term) (plan, error) {
	return plan{success: []clientv3.Op{clientv3.OpDelete(t.keys.attachment(c.number, c.node))}}, nil
}

func (c *detachAll) plan(_ context.Context, t *term) (plan, error) {
	all := t.keys.attachmentsOf(c.number)
	return plan{success: []clientv3.Op{clientv3.OpDelete(all, clientv3.WithRange(rangeEnd(all)))}}, nil
}

// plan reads the row to keep its other columns, and compares that the row is unchanged when it is
// put.
func (c *setMutable) plan(ctx context.Context, t *term) (plan, error) {
	if !isMutable(c.params) {
		return plan{}, refusal{codes.InvalidArgument, "params is not fields of mutable parameters"}
	}
	key := t.keys.volume(c.number)
	read, err := t.get(ctx, key)
	if err != nil {
		return plan{}, err
	}
	if len(read.Kvs) == 0 {
		return plan{}, refuse("%s is not there", t.keys.display(key))
	}
	row, err := readVolume(c.number, read.Kvs[0].Value)
	if err != nil {
		return plan{}, brokenRow(t.keys, key, err)
	}
	params, ok := replaceMutable(row.params, c.params)
	if !ok {
		return plan{}, refuse("%s: its params are not fields of parameters and then of mutable ones",
			t.keys.display(key))
	}
	row.params = params
	revision := read.Kvs[0].ModRevision
	return plan{
		compares: []clientv3.Cmp{clientv3.Compare(clientv3.ModRevision(key), "=", revision)},
		success:  []clientv3.Op{clientv3.OpPut(key, string(row.encoded()))},
		failure:  []clientv3.Op{firstKey(key)},
		explain: func(read []*pb.RangeResponse) string {
			if len(read[0].Kvs) == 0 {
				return t.keys.display(key) + " is not there any more"
			}
			if read[0].Kvs[0].ModRevision != revision {
				return t.keys.display(key) + " was changed in the meantime"
			}
			return ""
		},
	}, nil
}

// makeMeta is the change that makes the first row, the row of meta.
type makeMeta struct{}

func (makeMeta) plan(_ context.Context, t *term) (plan, error) { return t.keys.firstRow(), nil }

// firstRow returns the plan that makes the row of meta. The plan compares that the plugin has no
// key except the keys of the lock.
func (k keys) firstRow() plan {
	all, locks := k.all(), k.locks()
	return plan{
		compares: []clientv3.Cmp{rangeEmpty(all, locks), rangeEmpty(rangeEnd(locks), rangeEnd(all))},
		success:  []clientv3.Op{clientv3.OpPut(k.meta(), string(firstMeta.encoded()))},
		failure: []clientv3.Op{
			firstKey(all, clientv3.WithRange(locks)),
			firstKey(rangeEnd(locks), clientv3.WithRange(rangeEnd(all))),
		},
		explain: func(read []*pb.RangeResponse) string {
			for _, part := range read {
				if len(part.Kvs) > 0 {
					return k.display(string(part.Kvs[0].Key)) + " is there already"
				}
			}
			return ""
		},
	}
}

// brokenRow returns a refusal with the key of a row, without the plugin's name, and the error of
// this row.
func brokenRow(k keys, key string, err error) refusal {
	return refuse("%s: %v", k.display(key), err)
}
