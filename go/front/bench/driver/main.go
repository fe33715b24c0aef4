//go:build cgo

// driver is a CSI controller of the usual kind in Go: grpc-go with generated messages, over a file
// of SQLite by database/sql. It answers the calls that bench/front makes. Like csid, it
// synchronises a change to disk before it answers OK.
//
// usage: driver SOCKET FILE
package main

import (
	"context"
	"database/sql"
	"errors"
	"fmt"
	"log"
	"net"
	"os"
	"strconv"
	"strings"
	"sync"

	_ "github.com/mattn/go-sqlite3"
	"google.golang.org/grpc"
	"google.golang.org/grpc/codes"
	"google.golang.org/grpc/status"

	"./out/csi"
)

// The pool and the node of the configuration that csid has in bench/front.
const (
	pool         = "p1"
	poolBytes    = 1 << 40
	node         = "n1"
	nodeVolumes  = 1000
	defaultBytes = 1 << 20
	mostBytes    = 8 << 20
)

const schema = `
CREATE TABLE IF NOT EXISTS pools (name TEXT PRIMARY KEY, free INTEGER NOT NULL CHECK (free >= 0));
CREATE TABLE IF NOT EXISTS volumes (number INTEGER PRIMARY KEY AUTOINCREMENT, name TEXT NOT NULL UNIQUE, bytes INTEGER NOT NULL, pool TEXT NOT NULL);
CREATE TABLE IF NOT EXISTS attachments (number INTEGER NOT NULL, node TEXT NOT NULL, PRIMARY KEY (number, node));
INSERT OR IGNORE INTO pools VALUES ('p1', 1099511627776);
`

// driver answers calls from the tables of a file. The mutex lets one transaction run at a time.
type driver struct {
	mutex    sync.Mutex
	database *sql.DB

	volumeOfName, volumeOfNumber, addVolume, removeVolume *sql.Stmt
	take, giveBack                                        *sql.Stmt
	nodesOf, countAt, attach, detach                      *sql.Stmt
	page                                                  *sql.Stmt
}

func open(path string) (*driver, error) {
	database, err := sql.Open("sqlite3",
		"file:"+path+"?_journal_mode=WAL&_synchronous=FULL&_locking_mode=EXCLUSIVE&_txlock=immediate")
	if err != nil {
		return nil, err
	}
	// Only one connection can have the exclusive lock.
	database.SetMaxOpenConns(1)
	if _, err := database.Exec(schema); err != nil {
		return nil, err
	}
	d := &driver{database: database}
	for text, statement := range map[string]**sql.Stmt{
		"SELECT number, bytes FROM volumes WHERE name = ?":                     &d.volumeOfName,
		"SELECT bytes FROM volumes WHERE number = ?":                           &d.volumeOfNumber,
		"INSERT INTO volumes (name, bytes, pool) VALUES (?, ?, ?)":             &d.addVolume,
		"DELETE FROM volumes WHERE number = ?":                                 &d.removeVolume,
		"UPDATE pools SET free = free - ?1 WHERE name = ?2 AND free >= ?1":     &d.take,
		"UPDATE pools SET free = free + ? WHERE name = ?":                      &d.giveBack,
		"SELECT node FROM attachments WHERE number = ?":                        &d.nodesOf,
		"SELECT count(*) FROM attachments WHERE node = ?":                      &d.countAt,
		"INSERT INTO attachments VALUES (?, ?)":                                &d.attach,
		"DELETE FROM attachments WHERE number = ?1 AND (?2 = '' OR node = ?2)": &d.detach,
		`SELECT volumes.number, bytes, coalesce(group_concat(node), '') FROM volumes LEFT JOIN attachments USING (number)
			WHERE volumes.number > ? GROUP BY volumes.number ORDER BY volumes.number LIMIT ?`: &d.page,
	} {
		if *statement, err = database.Prepare(text); err != nil {
			return nil, err
		}
	}
	return d, nil
}

// change runs make in a transaction. If make fails, the transaction is rolled back. An error
// without a status becomes INTERNAL.
func (d *driver) change(make func(tx *sql.Tx) error) error {
	d.mutex.Lock()
	defer d.mutex.Unlock()
	tx, err := d.database.Begin()
	if err != nil {
		return status.Error(codes.Internal, err.Error())
	}
	if err := make(tx); err != nil {
		tx.Rollback()
		if _, isStatus := status.FromError(err); isStatus {
			return err
		}
		return status.Error(codes.Internal, err.Error())
	}
	if err := tx.Commit(); err != nil {
		return status.Error(codes.Internal, err.Error())
	}
	return nil
}

func (d *driver) Probe(context.Context, *csi.ProbeRequest) (*csi.ProbeResponse, error) {
	return &csi.ProbeResponse{Ready: &csi.BoolValue{Value: true}}, nil
}

func (d *driver) CreateVolume(_ context.Context, asked *csi.CreateVolumeRequest) (*csi.CreateVolumeResponse, error) {
	if asked.Name == "" || len(asked.VolumeCapabilities) == 0 {
		return nil, status.Error(codes.InvalidArgument, "name or capabilities are missing")
	}
	bytes := int64(defaultBytes)
	if wanted := asked.GetCapacityRange().GetRequiredBytes(); wanted > 0 {
		bytes = wanted
	}
	if limit := asked.GetCapacityRange().GetLimitBytes(); bytes > mostBytes || limit > 0 && bytes > limit {
		return nil, status.Error(codes.OutOfRange, "capacity is out of range")
	}
	var number int64
	err := d.change(func(tx *sql.Tx) (err error) {
		number, err = d.create(tx, asked.Name, bytes)
		return err
	})
	if err != nil {
		return nil, err
	}
	return &csi.CreateVolumeResponse{Volume: volume(number, bytes)}, nil
}

// create makes a volume, or finds the volume with this name, and returns its number. It fails if
// the volume with this name has another size.
func (d *driver) create(tx *sql.Tx, name string, bytes int64) (number int64, err error) {
	var has int64
	err = tx.Stmt(d.volumeOfName).QueryRow(name).Scan(&number, &has)
	if err == nil && has != bytes {
		return 0, status.Error(codes.AlreadyExists, "volume exists and is not compatible")
	}
	if err == nil || !errors.Is(err, sql.ErrNoRows) {
		return number, err
	}
	taken, err := tx.Stmt(d.take).Exec(bytes, pool)
	if err != nil {
		return 0, err
	}
	if rows, err := taken.RowsAffected(); err != nil || rows == 0 {
		return 0, status.Error(codes.ResourceExhausted, "no room")
	}
	added, err := tx.Stmt(d.addVolume).Exec(name, bytes, pool)
	if err != nil {
		return 0, err
	}
	return added.LastInsertId()
}

func volume(number, bytes int64) *csi.Volume {
	return &csi.Volume{CapacityBytes: bytes, VolumeId: fmt.Sprintf("vol-%d", number),
		VolumeContext: map[string]string{"pool": pool}}
}

// numberOf returns the number in a volume's id, with or without its prefix vol-. It returns 0 if
// the rest is not a decimal number.
func numberOf(id string) int64 {
	number, err := strconv.ParseInt(strings.TrimPrefix(id, "vol-"), 10, 64)
	if err != nil {
		return 0
	}
	return number
}

func (d *driver) DeleteVolume(_ context.Context, asked *csi.DeleteVolumeRequest) (*csi.DeleteVolumeResponse, error) {
	err := d.change(func(tx *sql.Tx) error {
		number, bytes := numberOf(asked.VolumeId), int64(0)
		if err := tx.Stmt(d.volumeOfNumber).QueryRow(number).Scan(&bytes); errors.Is(err, sql.ErrNoRows) {
			return nil
		} else if err != nil {
			return err
		}
		if nodes, err := d.nodes(tx, number); err != nil || len(nodes) > 0 {
			return either(err, status.Error(codes.FailedPrecondition, "volume is in use"))
		}
		if _, err := tx.Stmt(d.removeVolume).Exec(number); err != nil {
			return err
		}
		_, err := tx.Stmt(d.giveBack).Exec(bytes, pool)
		return err
	})
	return &csi.DeleteVolumeResponse{}, err
}

func either(err, other error) error {
	if err != nil {
		return err
	}
	return other
}

// nodes returns the nodes at which a volume is published.
func (d *driver) nodes(tx *sql.Tx, number int64) (nodes []string, err error) {
	rows, err := tx.Stmt(d.nodesOf).Query(number)
	if err != nil {
		return nil, err
	}
	defer rows.Close()
	for rows.Next() {
		var node string
		if err := rows.Scan(&node); err != nil {
			return nil, err
		}
		nodes = append(nodes, node)
	}
	return nodes, rows.Err()
}

func (d *driver) ControllerPublishVolume(_ context.Context,
	asked *csi.ControllerPublishVolumeRequest) (*csi.ControllerPublishVolumeResponse, error) {
	err := d.change(func(tx *sql.Tx) error {
		number, bytes := numberOf(asked.VolumeId), int64(0)
		if err := tx.Stmt(d.volumeOfNumber).QueryRow(number).Scan(&bytes); errors.Is(err, sql.ErrNoRows) {
			return status.Error(codes.NotFound, "volume not found")
		} else if err != nil {
			return err
		}
		if asked.NodeId != node {
			return status.Error(codes.NotFound, "node not found")
		}
		if nodes, err := d.nodes(tx, number); err != nil || len(nodes) > 0 {
			return err
		}
		var count int
		if err := tx.Stmt(d.countAt).QueryRow(node).Scan(&count); err != nil || count >= nodeVolumes {
			return either(err, status.Error(codes.ResourceExhausted, "node is full"))
		}
		_, err := tx.Stmt(d.attach).Exec(number, node)
		return err
	})
	return &csi.ControllerPublishVolumeResponse{PublishContext: map[string]string{"readonly": "false"}}, err
}

func (d *driver) ControllerUnpublishVolume(_ context.Context,
	asked *csi.ControllerUnpublishVolumeRequest) (*csi.ControllerUnpublishVolumeResponse, error) {
	err := d.change(func(tx *sql.Tx) error {
		_, err := tx.Stmt(d.detach).Exec(numberOf(asked.VolumeId), asked.NodeId)
		return err
	})
	return &csi.ControllerUnpublishVolumeResponse{}, err
}

func (d *driver) ListVolumes(_ context.Context, asked *csi.ListVolumesRequest) (*csi.ListVolumesResponse, error) {
	most, last := int64(asked.MaxEntries), int64(0)
	if most == 0 {
		most = -1
	}
	if asked.StartingToken != "" {
		var err error
		if last, err = strconv.ParseInt(asked.StartingToken, 10, 64); err != nil {
			return nil, status.Error(codes.Aborted, "bad starting token")
		}
	}
	answer := &csi.ListVolumesResponse{}
	err := d.change(func(tx *sql.Tx) error {
		rows, err := tx.Stmt(d.page).Query(last, most)
		if err != nil {
			return err
		}
		defer rows.Close()
		for rows.Next() {
			var bytes int64
			var nodes string
			if err := rows.Scan(&last, &bytes, &nodes); err != nil {
				return err
			}
			entry := &csi.ListVolumesResponse_Entry{Volume: volume(last, bytes),
				Status: &csi.ListVolumesResponse_Status{}}
			if nodes != "" {
				entry.Status.PublishedNodeIds = strings.Split(nodes, ",")
			}
			answer.Entries = append(answer.Entries, entry)
		}
		return rows.Err()
	})
	if err != nil {
		return nil, err
	}
	if int64(len(answer.Entries)) == most {
		answer.NextToken = strconv.FormatInt(last, 10)
	}
	return answer, nil
}

func serve(socket, file string) error {
	d, err := open(file)
	if err != nil {
		return err
	}
	listener, err := net.Listen("unix", socket)
	if err != nil {
		return err
	}
	server := grpc.NewServer()
	csi.RegisterIdentityServer(server, d)
	csi.RegisterControllerServer(server, d)
	return server.Serve(listener)
}

func main() {
	log.SetFlags(0)
	if len(os.Args) != 3 {
		log.Fatal("usage: driver SOCKET FILE")
	}
	log.Fatal("driver: ", serve(os.Args[1], os.Args[2]))
}
