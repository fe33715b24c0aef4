package main

import (
	"context"
	"flag"
	"io"
	"os"
	"path/filepath"
	"regexp"

	"fomaheti/words"
)

var dataName = regexp.MustCompile(`^(vol-[1-9][0-9]*)\.(img|img\.new|d)$`)

// sweep prints the paths of the data of volumes that the controller does not list. With --remove it
// also removes these data, each before it prints the path.
func sweep(args []string, out io.Writer) error {
	found := pools{}
	flags := flag.NewFlagSet("sweep", flag.ContinueOnError)
	socket := flags.String("controller", "", "the `PATH` of the front's socket")
	remove := flags.Bool("remove", false, "remove them; without it they are only shown")
	flags.Func("pool", "the folder of a pool, as `NAME=FOLDER`; given again for further pools", found.add)
	if err := parseFlags(flags, args, 0, out); err != nil {
		return err
	}
	if err := requireOptions(option{"--controller", *socket}, option{"--pool", found.String()}); err != nil {
		return err
	}
	front, err := dial(*socket)
	if err != nil {
		return err
	}
	defer front.Close()
	unlisted, err := unlistedData(front, found)
	if err != nil {
		return err
	}
	for _, data := range unlisted {
		if *remove {
			if err := os.RemoveAll(data); err != nil {
				return err
			}
		}
		if err := words.Print(out, data+"\n"); err != nil {
			return err
		}
	}
	return nil
}

// unlistedData returns the paths of data of volumes that the controller does not list, also of
// unfinished files. Other files in the folders of pools are left out. It reads the folders before
// it lists the volumes. Otherwise it could find data of a volume that was created after the list
// was made.
func unlistedData(front controller, in pools) ([]string, error) {
	var all []string
	for _, folder := range in {
		entries, err := os.ReadDir(folder)
		if err != nil {
			return nil, err
		}
		for _, entry := range entries {
			all = append(all, filepath.Join(folder, entry.Name()))
		}
	}
	listed, err := front.volumes(context.Background())
	if err != nil {
		return nil, err
	}
	var unlisted []string
	for _, data := range all {
		if parts := dataName.FindStringSubmatch(filepath.Base(data)); parts != nil && !listed[parts[1]] {
			unlisted = append(unlisted, data)
		}
	}
	return unlisted, nil
}
