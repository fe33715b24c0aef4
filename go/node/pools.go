package main

import (
	"errors"
	"fmt"
	"os"
	"path/filepath"
	"sort"
	"strings"
)

// pools maps the name of each pool, as the controller has it, to the absolute path of its folder.
type pools map[string]string

// add parses a NAME=FOLDER of the command line. It refuses a second folder for a name.
func (p pools) add(pair string) error {
	name, folder, isPair := strings.Cut(pair, "=")
	if !isPair || name == "" || folder == "" {
		return fmt.Errorf("%q is not NAME=FOLDER", pair)
	}
	if p[name] != "" {
		return fmt.Errorf("the pool %q is there twice", name)
	}
	folder, err := filepath.Abs(folder)
	if err != nil {
		return err
	}
	p[name] = folder
	return nil
}

// String returns the names of the pools in ascending order, with a space between two names. It is
// empty without pools.
func (p pools) String() string {
	var names []string
	for name := range p {
		names = append(names, name)
	}
	sort.Strings(names)
	return strings.Join(names, " ")
}

// find returns the path of a file or folder with this name in any of the pools, or "" if no pool
// has one.
func (p pools) find(file string) (string, error) {
	for _, folder := range p {
		data := filepath.Join(folder, file)
		if there, err := exists(data); there || err != nil {
			return data, err
		}
	}
	return "", nil
}

func exists(path string) (bool, error) {
	_, err := os.Lstat(path)
	if errors.Is(err, os.ErrNotExist) {
		return false, nil
	}
	return err == nil, err
}
