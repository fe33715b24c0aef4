package main

import (
	"errors"
	"io"
	"strings"
	"sync/atomic"
	"testing"
	"time"

	"google.golang.org/grpc"
	"google.golang.org/grpc/codes"
	"google.golang.org/grpc/status"
)

const (
	metaLine   = "meta\t{\"format_no\":2,\"next_number\":9}\n"
	volumeLine = "volumes/00000000000000000007\t" +
		`{"name":"a","bytes":1048576,"pool":"p","caps":"1a00","params":""}` + "\n"
	attachmentLine = "attachments/00000000000000000007/n 1/\t{\"cap\":\"1a00\",\"readonly\":1}\n"
)

// Lines of rows are accepted in any order, with meta last.
func TestReadLines(t *testing.T) {
	cases := []struct{ name, lines string }{
		{"volume first", volumeLine + attachmentLine + metaLine},
		{"attachment first", attachmentLine + volumeLine + metaLine},
	}
	for _, c := range cases {
		t.Run(c.name, func(t *testing.T) {
			rows, found, err := readLines(strings.NewReader(c.lines), keys{"x"})
			const want = "volumes 1, attachments 1, next number 9, format 2"
			if err != nil || len(rows) != 3 || found.String() != want {
				t.Errorf("got %d rows, %v, error %v, want 3 rows, %s", len(rows), found, err, want)
			}
			written := ""
			for _, row := range rows {
				written += strings.TrimPrefix(row.key, "x/") + "\t" + string(row.value) + "\n"
			}
			if written != c.lines {
				t.Errorf("got %q, want %q", written, c.lines)
			}
		})
	}
}

func TestReadLinesErrors(t *testing.T) {
	const (
		missing    = "the last line is not meta: it is missing, or what comes in was cut off"
		volumeForm = `volumes/00000000000000000007: its value is not of the form ` +
			`{"name":TEXT,"bytes":NUMBER,"pool":TEXT,"caps":HEX,"params":HEX}`
	)
	cases := []struct{ name, lines, want string }{
		{"empty", "", missing},
		{"a volume alone", volumeLine, missing},
		{"empty line", "\n" + metaLine, "line 1: it has no tab"},
		{"space instead of a tab", "meta {}\n", "line 1: it has no tab"},
		{"no newline at the end", volumeLine + strings.TrimSuffix(metaLine, "\n"),
			"line 2: it has no end: what comes in was cut off"},
		{"volume after meta", metaLine + volumeLine, "line 2: meta is not the last line"},
		{"meta twice", metaLine + metaLine, "line 2: meta is not the last line"},
		{"empty line after meta", metaLine + "\n", "line 2: meta is not the last line"},
		{"volume twice", volumeLine + attachmentLine + volumeLine +
			metaLine, "line 3: volumes/00000000000000000007: line 1 has this key too"},
		{"format 1", strings.Replace(metaLine, "2", "1", 1), "meta: its format is 1, and that of rows in etcd 2"},
		{"space in meta", strings.Replace(metaLine, "}", " }", 1),
			`line 1: meta: its value is not of the form {"format_no":NUMBER,"next_number":NUMBER}`},
		{"next number above 2^63-1", strings.Replace(metaLine, "9", "9223372036854775808", 1),
			"line 1: meta: a number of its value is above 9223372036854775807"},
		{"carriage return", strings.Replace(metaLine, "\n", "\r\n", 1),
			`line 1: meta: its value is not of the form {"format_no":NUMBER,"next_number":NUMBER}`},
		{"short number in a key", volumeLine + "volumes/8\t{}\n",
			"line 2: volumes/8: its key has no number of 20 digits"},
		{"number above 2^63-1 in a key", "volumes/09223372036854775808\t{}\n",
			"line 1: volumes/09223372036854775808: the number of its key is above 9223372036854775807"},
		{"escape that etcd does not have", strings.Replace(volumeLine, `"a"`, `"\b"`, 1), "line 1: " + volumeForm},
		{"upper-case hexadecimal", strings.Replace(volumeLine, "1a00", "1A00", 1), "line 1: " + volumeForm},
		{"odd number of digits", strings.Replace(volumeLine, "1a00", "1a0", 1), "line 1: " + volumeForm},
		{"negative number", strings.Replace(volumeLine, "1048576", "-1", 1), "line 1: " + volumeForm},
		{"two tabs", strings.Replace(volumeLine, "\t", "\t\t", 1), "line 1: " + volumeForm},
		{"name that is not UTF-8", strings.Replace(volumeLine, `"a"`, "\"\xff\"", 1),
			"line 1: volumes/00000000000000000007: its value is not UTF-8"},
		{"row too long for a page", strings.Replace(volumeLine, "1a00", strings.Repeat("1a00", 1600000), 1),
			"line 1: volumes/00000000000000000007: the row is too long for a page"},
		{"readonly 2", strings.Replace(attachmentLine, "1}", "2}", 1),
			"line 1: attachments/00000000000000000007/n 1/: its readonly is not 0 or 1"},
		{"node that is not UTF-8", strings.Replace(attachmentLine, " 1/", "\xff", 1),
			`line 1: attachments/00000000000000000007/n\xff: its key is not UTF-8`},
		{"attachment without a node", strings.Replace(attachmentLine, "7/n 1/", "7", 1),
			"line 1: attachments/00000000000000000007: its key has no number of 20 digits"},
		{"key of the lock", "lock/1\tme\n", "line 1: lock/1: no row has such a key"},
		{"key with the name of the plugin", "x/" +
			volumeLine, "line 1: x/volumes/00000000000000000007: no row has such a key"},
	}
	for _, c := range cases {
		t.Run(c.name, func(t *testing.T) {
			rows, _, err := readLines(strings.NewReader(c.lines), keys{"x"})
			if err == nil || err.Error() != c.want {
				t.Errorf("got %d rows, error %v, want %s", len(rows), err, c.want)
			}
		})
	}
}

// A transaction is limited in rows and in bytes. A row that is longer than the limit in bytes has
// its own transaction.
func TestBatchSize(t *testing.T) {
	cases := []struct {
		name  string
		sizes []int
		want  int
	}{
		{"one row", []int{1}, 1},
		{"three rows", []int{1, 2, 3}, 3},
		{"64 rows", make([]int, 64), 64},
		{"65 rows", make([]int, 65), 64},
		{"long row first", []int{2 << 20, 1}, 1},
		{"long row second", []int{1, 2 << 20}, 1},
		{"just above a MiB", []int{1 << 19, 1 << 18, 1 << 18}, 2},
		{"a MiB", []int{1 << 19, 1 << 18, 1<<18 - 9}, 3},
	}
	for _, c := range cases {
		t.Run(c.name, func(t *testing.T) {
			var rows []importLine
			for _, size := range c.sizes {
				rows = append(rows, importLine{"k", make([]byte, size)})
			}
			if got := batchSize(rows); got != c.want {
				t.Errorf("got %d of %d rows, want %d", got, len(rows), c.want)
			}
		})
	}
}

func TestStatements(t *testing.T) {
	cases := []struct {
		name string
		row  tableRow
		want string
	}{
		{"meta", meta{2, 9}, "UPDATE meta SET next_number = 9;"},
		{"volume", volume{7, "pvc-7", 1048576, "ssd", fromHex(t, "1a00"), nil},
			"INSERT INTO volumes VALUES (7,'pvc-7',1048576,'ssd',X'1a00',X'');"},
		{"volume with quotes and escapes", volume{1<<63 - 1, `it's "\é` + "\x7f\u2028", 0, "'", nil, []byte{0, 255}},
			`INSERT INTO volumes VALUES (9223372036854775807,'it''s "\é` + "\x7f\u2028" + `',0,'''',X'',X'00ff');`},
		{"volume with control characters", volume{1, "a\r\n", 0, "a\x00'", nil, nil},
			"INSERT INTO volumes VALUES (1,CAST(X'610d0a' AS TEXT),0,CAST(X'610027' AS TEXT),X'',X'');"},
		{"attachment", attachment{7, "n'1", fromHex(t, "1a00"), true},
			"INSERT INTO attachments VALUES (7,'n''1',X'1a00',1);"},
		{"attachment with a control character", attachment{7, "\t", nil, false},
			"INSERT INTO attachments VALUES (7,CAST(X'09' AS TEXT),X'',0);"},
	}
	for _, c := range cases {
		t.Run(c.name, func(t *testing.T) {
			if got := c.row.statement(); got != c.want {
				t.Errorf("got %s, want %s", got, c.want)
			}
		})
	}
}

// A transaction of an import goes to etcd once. If its outcome is unknown, the error says so.
func TestImportNotKnown(t *testing.T) {
	server := &failingServer{errors: []error{status.Error(codes.Canceled, "any")}}
	rows, _, err := readLines(strings.NewReader(volumeLine+metaLine), sampleKeys)
	if err != nil {
		t.Fatal(err)
	}
	client := server.start(t, grpc.WithChainUnaryInterceptor(sendOnce))
	i := &importer{client: client, keys: sampleKeys, timeout: 5 * time.Second}
	err = i.write(rows)
	if requests := atomic.LoadInt32(&server.requests); requests != 1 || err == nil {
		t.Fatalf("got %d requests, error %v, want 1 request and an error", requests, err)
	}
	if reason := err.Error(); !strings.HasPrefix(reason, "it is not known whether it was made: ") {
		t.Errorf("got error %v, want an unknown outcome", err)
	}
}

func TestExplainStop(t *testing.T) {
	known, unknown := errors.New("a"), unknownOutcome{errors.New("a")}
	const unknownText = "it is not known whether it was made: a"
	cases := []struct {
		name    string
		err     error
		written int
		want    string
	}{
		{"unknown outcome at first", unknown, 0,
			unknownText + "; 0 of 2 rows were written before: remove what is there, and start again"},
		{"unknown outcome later", unknown, 1,
			unknownText + "; 1 of 2 rows were written before: remove what is there, and start again"},
		{"error at first", known, 0, "a; nothing was written"},
		{"error later", known, 1, "a; 1 of 2 rows were written: remove them, and start again"},
	}
	for _, c := range cases {
		t.Run(c.name, func(t *testing.T) {
			i := &importer{written: c.written}
			if got := i.explainStop(c.err, 2); got.Error() != c.want {
				t.Errorf("got %v, want %s", got, c.want)
			}
		})
	}
}

// Each row is exported once, all rows at the revision of the first answer, although etcd's revision
// rises during the export. If that revision is compacted, the export fails.
func TestExportedOnce(t *testing.T) {
	const count = 1000
	server := &rowServer{rows: map[string]string{sampleKeys.meta(): `{"format_no":2,"next_number":1001}`}}
	for n := uint64(1); n <= count; n++ {
		server.rows[sampleKeys.volume(n)] = string(volume{name: "a", pool: "p"}.encoded())
	}
	for _, row := range adjacent() {
		server.rows[sampleKeys.attachment(row.number, row.node)] = string(row.encoded())
	}
	r := &snapshot{client: startServer(t, server, 1), timeout: 5 * time.Second}
	var out strings.Builder
	found, err := r.print(sampleKeys, &out)
	const want = "volumes 1000, attachments 100, next number 1001, format 2"
	if err != nil || r.revision != firstRevision || found.String() != want {
		t.Errorf("got %v at revision %d, error %v, want %s at revision %d", found, r.revision, err, want, firstRevision)
	}
	seen := map[string]bool{}
	for _, line := range strings.Split(out.String(), "\n") {
		if seen[line] {
			t.Fatalf("got %s twice", line)
		}
		seen[line] = true
	}
	server.checkRevisions(t)
	server.isCompacted = true
	if _, err := r.print(sampleKeys, io.Discard); err != errCompacted {
		t.Errorf("compacted: got error %v, want %v", err, errCompacted)
	}
}
