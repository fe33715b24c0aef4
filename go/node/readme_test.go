package main

import (
	"os"
	"os/exec"
	"path/filepath"
	"regexp"
	"strings"
	"testing"
)

// step is a command of README.md and the output that the page shows.
type step struct{ command, shown string }

// sessionOf returns the commands of a page, in the order of the page.
func sessionOf(t *testing.T, page string) (steps []step) {
	t.Helper()
	text, err := os.ReadFile(page)
	if err != nil {
		t.Fatal(err)
	}
	within := false
	for _, line := range strings.Split(string(text), "\n") {
		command := strings.TrimPrefix(line, "    $ ")
		switch {
		case command != line:
			steps = append(steps, step{command: command})
			within = true
		case within && strings.HasPrefix(line, "    "):
			steps[len(steps)-1].shown += strings.TrimPrefix(line, "    ") + "\n"
		default:
			within = false
		}
	}
	return steps
}

// pattern returns an expression for an output in which two dots match any text.
func pattern(shown string) *regexp.Regexp {
	return regexp.MustCompile(`(?s)^` + strings.ReplaceAll(regexp.QuoteMeta(shown), `\.\.`, `.*`) + `$`)
}

const readme = "README.md"

// The commands of the page have the output that the page shows.
func TestReadme(t *testing.T) {
	t.Parallel()
	needsDevices(t)
	run := folder(t)
	t.Cleanup(func() { release(t, run) })
	runSession(t, run, sessionOf(t, readme))
}

// With --without-devices the commands have the same output. The commands about the device are left
// out.
func TestReadmeWithoutDevices(t *testing.T) {
	t.Parallel()
	var steps []step
	for _, each := range sessionOf(t, readme) {
		if strings.HasPrefix(each.command, "mount ") || strings.HasPrefix(each.command, "stat ") {
			continue
		}
		if strings.HasPrefix(each.command, "node-plugin serve ") {
			each.command = strings.TrimSuffix(each.command, "&") + "--without-devices &"
		}
		each.shown = strings.ReplaceAll(each.shown, ".img", ".d")
		steps = append(steps, each)
	}
	runSession(t, folder(t), steps)
}

// runSession runs commands in one bash, with a folder for temporary files, and compares their
// output.
func runSession(t *testing.T, temporary string, steps []step) {
	t.Helper()
	const mark = "-- next --\n"
	var script strings.Builder
	for _, each := range steps {
		script.WriteString(each.command + "\nprintf %s '" + mark + "'\n")
	}
	bash := exec.Command("bash", "-c", script.String())
	bash.Dir = "../.."
	bash.Env = append(os.Environ(), "TMPDIR="+temporary, "PATH="+programFolders()+":"+os.Getenv("PATH"))
	var said strings.Builder
	bash.Stderr = &said
	shown, err := bash.Output()
	if err != nil {
		t.Error(err)
	}
	t.Cleanup(func() {
		if t.Failed() {
			t.Logf("standard error: %s", said.String())
		}
	})
	parts := strings.Split(string(shown), mark)
	if len(steps) < 18 || len(parts) != len(steps)+1 {
		t.Fatalf("%d commands, %d answers", len(steps), len(parts)-1)
	}
	for i, each := range steps {
		if !pattern(each.shown).MatchString(parts[i]) {
			t.Errorf("%s: %q, wanted %q", each.command, parts[i], each.shown)
		}
	}
}

// programFolders returns the folders of csid, the front and the node plugin, which the environment
// names, as a part of PATH.
func programFolders() string {
	var folders []string
	for _, variable := range []string{"CSID", "FRONT", "NODE_PLUGIN"} {
		folders = append(folders, filepath.Dir(os.Getenv(variable)))
	}
	return strings.Join(folders, ":")
}

// README.md has the usage of the program.
func TestReadmeUsage(t *testing.T) {
	t.Parallel()
	page, err := os.ReadFile(readme)
	if err != nil {
		t.Fatal(err)
	}
	_, commands, _ := strings.Cut(usageText, "usage: ")
	inOneLine := func(text string) string { return strings.Join(strings.Fields(text), " ") }
	if !strings.Contains(inOneLine(string(page)), inOneLine(commands)) {
		t.Errorf("it has other commands than %s", commands)
	}
}
