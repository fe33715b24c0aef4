package main

import (
	"fmt"
	"os"
	"path/filepath"
)

// The folders in which csid and the driver keep their files: the folder of temporary files, on a
// disk, and a file system in memory.
var folders = []struct{ name, path string }{{"disk", os.TempDir()}, {"tmpfs", "/dev/shm"}}

// The numbers of callers in the comparison with a driver, in ascending order.
var comparedCallers = []int{1, 8, 64}

// compare measures each of the works through the front and csid, and through a driver in Go. Both
// get the same calls from the same number of callers, in rounds that alternate.
func compare(csid, front, driver string, rounds int) error {
	for i, folder := range folders {
		if err := compareIn(folder.path, folder.name, csid, front, driver, rounds, i == 0); err != nil {
			return err
		}
	}
	return nil
}

// compareIn compares the front and csid with the driver, with their files in a new folder below
// path. Work that changes nothing is measured only if isAll is true.
func compareIn(path, name, csid, front, driver string, rounds int, isAll bool) error {
	folder, err := os.MkdirTemp(path, "front")
	if err != nil {
		return err
	}
	defer os.RemoveAll(folder)
	csidSocket, frontSocket, driverSocket := filepath.Join(folder, "csid.sock"), filepath.Join(folder, "csi.sock"),
		filepath.Join(folder, "driver.sock")
	running, err := startCsid(csid, folder, csidSocket, filepath.Join(folder, "volumes.db"))
	if err != nil {
		return err
	}
	defer running.Wait()
	defer running.Process.Kill()
	var groups [][]caller
	for _, each := range []struct {
		socket string
		words  []string
	}{{frontSocket, []string{front, "--csid", csidSocket, "--listen", frontSocket}},
		{driverSocket, []string{driver, driverSocket, filepath.Join(folder, "driver.db")}}} {
		server, err := start(each.socket, each.words[0], each.words[1:]...)
		if err != nil {
			return err
		}
		defer server.Wait()
		defer server.Process.Kill()
		callers, err := newCallers(each.socket, comparedCallers[len(comparedCallers)-1])
		if err != nil {
			return err
		}
		groups = append(groups, callers)
	}
	for _, w := range works {
		if w.changes || isAll {
			if err := compareWork(w, name, groups, rounds); err != nil {
				return err
			}
		}
	}
	return nil
}

func compareWork(w work, folder string, groups [][]caller, rounds int) error {
	name := w.name
	if w.changes {
		name += " on " + folder
	}
	for _, count := range comparedCallers {
		some := [][]caller{groups[0][:count], groups[1][:count]}
		best, err := bestRounds(w, some, rounds)
		if err != nil {
			return err
		}
		fmt.Printf("%-27s %2d callers: front and csid %7.0f calls/s, driver in Go %7.0f, front by driver %.2f\n", name,
			count, best[0].rate, best[1].rate, best[0].rate/best[1].rate)
	}
	return nil
}
