package main

import (
	"bytes"
	"errors"
	"fmt"
	"io/fs"
	"os"
	"path/filepath"
	"reflect"
	"regexp"
	"sort"
	"strings"
	"testing"
)

const again = "run go/build vendor, and commit what it writes"

// vendored reads vendor/: the files of each module, by their paths below it, and the lines of modules.txt.
func vendored(to string, m mod) (map[string]map[string][]byte, []string, error) {
	files, listed := map[string]map[string][]byte{}, []string(nil)
	top := filepath.Join(to, "vendor")
	err := filepath.WalkDir(top, func(name string, entry fs.DirEntry, err error) error {
		if err != nil || entry.IsDir() {
			return err
		}
		content, err := os.ReadFile(name)
		if err != nil {
			return err
		}
		name, err = filepath.Rel(top, name)
		if name = filepath.ToSlash(name); name == "modules.txt" {
			listed = strings.Split(strings.TrimSuffix(string(content), "\n"), "\n")
			return err
		}
		of, err := m.moduleOf(name)
		if err != nil {
			return fmt.Errorf("vendor/%s is of no module that go.mod requires: %s", name, again)
		}
		if files[of] == nil {
			files[of] = map[string][]byte{}
		}
		files[of][strings.TrimPrefix(name, of+"/")] = content
		return nil
	})
	return files, listed, err
}

// due are the lines of modules.txt without those that say which Go a module needs.
func due(m mod, packages map[string][]string) (lines []string) {
	for _, of := range sorted(packages) {
		sort.Strings(packages[of])
		lines = append(append(lines, fmt.Sprintf("# %s %s", of, m.versions[of])), packages[of]...)
	}
	return lines
}

// faults compares vendor/ with what go.mod, vendor.txt and the imports of the module say, and with the Debian packages that are installed in
// the very editions that vendor.txt names. compared is how many these are.
func faults(to string, from debian) (found []string, compared int) {
	rows, err := tableOf(to)
	if err != nil {
		return []string{err.Error()}, 0
	}
	m, err := modOf(to)
	if err != nil {
		return []string{err.Error()}, 0
	}
	files, listed, err := vendored(to, m)
	if err != nil {
		return []string{err.Error()}, 0
	}
	all, err := packages(to, filepath.Join(to, "vendor"), m)
	if err != nil {
		return []string{fmt.Sprintf("%v: %s", err, again)}, 0
	}
	of, known := map[string][]string{}, map[string]map[string][]byte{}
	for name, content := range all {
		module, _ := m.moduleOf(name)
		of[module] = append(of[module], name)
		if known[module] == nil {
			known[module] = map[string][]byte{}
		}
		for file := range content {
			known[module][strings.TrimPrefix(name+"/"+file, module+"/")] = nil
		}
	}
	var said []string
	for _, line := range listed {
		if !strings.HasPrefix(line, "## ") {
			said = append(said, line)
		}
	}
	if !reflect.DeepEqual(said, due(m, of)) {
		found = append(found, "vendor/modules.txt does not have the modules of go.mod, and the packages that are imported: "+again)
	}
	for _, name := range sorted(rows) {
		if _, ok := m.versions[name]; !ok {
			found = append(found, fmt.Sprintf("vendor.txt has a row for %s, which go.mod does not require: %s", name, again))
		}
	}
	for _, name := range sorted(m.versions) {
		row := rows[name]
		if version, err := versionOf(row.edition); err != nil || version != m.versions[name] || row.version != version {
			found = append(found, fmt.Sprintf("go.mod requires %s %s, and vendor.txt has %s of Debian's %s: %s", name, m.versions[name], row.version, row.edition, again))
		}
		if sumOf(files[name]) != row.sum {
			found = append(found, fmt.Sprintf("vendor/%s has other files than vendor.txt says: %s", name, again))
		}
		for file := range files[name] {
			if _, ok := known[name][file]; !ok && !meta.MatchString(filepath.Base(file)) {
				found = append(found, fmt.Sprintf("vendor/%s/%s is of no package that is imported: %s", name, file, again))
			}
		}
		if files[name]["LICENSE"] == nil {
			found = append(found, fmt.Sprintf("vendor/%s has no LICENSE: %s", name, again))
		}
		if from.installed(row.debian) != row.edition {
			continue // Debian has another version by now, or it is not installed.
		}
		compared++
		if file, err := differs(files[name], row, of[name], m, from); file != "" || err != nil {
			found = append(found, fmt.Sprintf("vendor/%s has other bytes than Debian's %s %s: %s: %s %v", name, row.debian, row.edition, again, file, err))
		}
	}
	return found, compared
}

// differs is the first file of a module that is not as Debian has it. (A small system may leave documents out.)
func differs(files map[string][]byte, row module, packages []string, m mod, from debian) (string, error) {
	theirs, err := licenses(row, from)
	if errors.Is(err, fs.ErrNotExist) {
		theirs = map[string][]byte{}
	} else if err != nil {
		return "", err
	}
	for _, one := range packages {
		content, err := filesOf(filepath.Join(from.sources, filepath.FromSlash(one)), m.minor, false)
		if err != nil {
			return "", err
		}
		for file := range content {
			theirs[strings.TrimPrefix(one+"/"+file, row.path+"/")] = content[file]
		}
	}
	for _, file := range append(sorted(files), sorted(theirs)...) {
		content, ok := theirs[file]
		if isLeftOut := !ok && meta.MatchString(filepath.Base(file)); !isLeftOut && !bytes.Equal(content, files[file]) {
			return file, nil
		}
	}
	return "", nil
}

// vendor/ is what it should be. Where Debian's packages are installed in these editions, it has their bytes.
func TestVendor(t *testing.T) {
	found, compared := faults(filepath.Join("..", ".."), debian{"/usr/share/gocode/src", "/usr/share/doc", commonLicenses, installed})
	for _, fault := range found {
		t.Error("go/" + fault)
	}
	t.Logf("%d modules were compared with Debian's packages", compared)
}

// A tree is files by their paths.
type tree map[string]string

func (files tree) write(t *testing.T) string {
	t.Helper()
	top := t.TempDir()
	for name, content := range files {
		if err := put(filepath.Join(top, filepath.FromSlash(name)), []byte(content)); err != nil {
			t.Fatal(err)
		}
	}
	return top
}

func treeOf(t *testing.T, top string) tree {
	t.Helper()
	files := tree{}
	err := filepath.WalkDir(top, func(name string, entry fs.DirEntry, err error) error {
		if err != nil || entry.IsDir() {
			return err
		}
		content, err := os.ReadFile(name)
		relative, _ := filepath.Rel(top, name)
		files[filepath.ToSlash(relative)] = string(content)
		return err
	})
	if err != nil {
		t.Fatal(err)
	}
	return files
}

// example is a module, and Debian's files of two others.
func example(t *testing.T) (to string, from debian) {
	to = tree{
		"go.mod": "module example.com/own\n\ngo 1.19\n\nrequire example.org/dep v1.0.0\n\nrequire (\n\texample.org/far v0.1.0 // indirect\n)\n",
		table:    "example.org/dep golang-dep-dev\nexample.org/far golang-far-dev\n",
		"own.go": "package own\n\nimport (\n\t_ \"example.com/own/inner\"\n\t_ \"example.org/dep/sub\"\n\t_ \"fmt\"\n)\n",
		// (a test imports it alone)
		"inner/inner_test.go": "package inner\n\nimport _ \"example.org/dep\"\n",
		"wrong/other.go":      "package wrong\n\nimport _ \"example.org/unknown\"\n",
		"vendor/stale/old.go": "package old\n",
	}.write(t)
	from.sources = tree{
		"example.org/dep/go.mod":           "module example.org/dep\n\ngo 1.16\n",
		"example.org/dep/dep.go":           "package dep\n",
		"example.org/dep/dep.s":            "// a file of another language\n",
		"example.org/dep/dep_test.go":      "package dep\n\nimport _ \"example.org/unknown\"\n",
		"example.org/dep/old.go":           "//go:build go1.14 && !go1.16\n\npackage dep\n\nimport _ \"example.org/unknown\"\n",
		"example.org/dep/older.go":         "// +build !go1.14\n\npackage dep\n",
		"example.org/dep/newer.go":         "// A comment\n\n//go:build go1.99\n\npackage dep\n",
		"example.org/dep/not_newer.go":     "//go:build !go1.99\n\npackage dep\n",
		"example.org/dep/tables.go":        "//go:build ignore\n\npackage main\n",
		"example.org/dep/windows.go":       "//go:build windows && !cgo\n\npackage dep\n",
		"example.org/dep/sub/sub.go":       "package sub\n\nimport _ \"example.org/far\"\n",
		"example.org/dep/unused/unused.go": "package unused\n",
		"example.org/far/far.go":           "package far\n",
		"example.org/far/COPYING":          "as its source has it\n",
	}.write(t)
	from.documents = tree{
		"golang-dep-dev/copyright": "Files: *\nLicense: Common\n\nFiles: debian/*\nLicense: GPL-2\n\nLicense: Common\n See " + commonLicenses + "/Common and " + commonLicenses + "/GPL-2.\n",
		"golang-dep-dev/PATENTS":   "none\n",
		"golang-dep-dev/changelog": "news\n",
		"golang-far-dev/copyright": "Files: *\nLicense: Own\n Its words.\n",
	}.write(t)
	from.licenses = tree{"Common": "the whole text\n", "GPL-2": "another\n"}.write(t)
	from.installed = func(name string) string {
		return map[string]string{"golang-dep-dev": "1:1.2.0+dfsg-1", "golang-far-dev": "0.1.0-3"}[name]
	}
	return to, from
}

// The folder has what `go mod vendor` keeps, less what no Go from 1.19 on builds, and the licenses.
func TestWhatIsWritten(t *testing.T) {
	to, from := example(t)
	if err := write(to, from); err != nil {
		t.Fatal(err)
	}
	files := treeOf(t, to)
	var got []string
	for _, name := range sorted(files) {
		if strings.HasPrefix(name, "vendor/") {
			got = append(got, strings.TrimPrefix(name, "vendor/example.org/"))
		}
	}
	want := strings.Fields("dep/LICENSE dep/LICENSE.Common dep/PATENTS dep/dep.go dep/dep.s dep/newer.go dep/not_newer.go dep/sub/sub.go dep/windows.go far/COPYING far/LICENSE far/far.go vendor/modules.txt")
	if !reflect.DeepEqual(got, want) {
		t.Errorf("%s\nwant %s", got, want)
	}
	for name, text := range map[string]string{
		"go.mod":                                "module example.com/own\n\ngo 1.19\n\nrequire example.org/dep v1.2.0\n\nrequire (\n\texample.org/far v0.1.0 // indirect\n)\n",
		"vendor/modules.txt":                    "# example.org/dep v1.2.0\n## explicit; go 1.16\nexample.org/dep\nexample.org/dep/sub\n# example.org/far v0.1.0\n## explicit\nexample.org/far\n",
		"vendor/example.org/dep/LICENSE.Common": "the whole text\n",
	} {
		if files[name] != text {
			t.Errorf("%s: %s", name, files[name])
		}
	}
	rows := regexp.MustCompile(`(?m)^example.*$`).FindAllString(files[table], -1)
	if len(rows) != 2 || !strings.HasPrefix(rows[0], "example.org/dep v1.2.0 golang-dep-dev 1:1.2.0+dfsg-1 sha256:") || !strings.HasPrefix(rows[1], "example.org/far v0.1.0 golang-far-dev 0.1.0-3 sha256:") {
		t.Errorf("%s", files[table])
	}
	if found, compared := faults(to, from); len(found) > 0 || compared != 2 {
		t.Errorf("%d are compared: %s", compared, found)
	}
	// The same packages make the same bytes.
	if err := write(to, from); err != nil || !reflect.DeepEqual(treeOf(t, to), files) {
		t.Errorf("other bytes: %v", err)
	}
}

// What keeps the folder from being written says what to do, and leaves all as it is.
func TestWhatIsNotWritten(t *testing.T) {
	for name, row := range map[string]struct {
		change func(to string, from *debian)
		fault  string
	}{
		"not installed": {func(_ string, from *debian) { from.installed = func(string) string { return "" } }, "apt-get install golang-"},
		"no release":    {func(_ string, from *debian) { from.installed = func(string) string { return "0.0~git2021.e6e6c4f-1" } }, "no release"},
		"no row": {func(to string, _ *debian) {
			_ = put(filepath.Join(to, table), []byte("example.org/dep golang-dep-dev\n"))
		}, "no row for example.org/far"},
		"half a row": {func(to string, _ *debian) {
			_ = put(filepath.Join(to, table), []byte("example.org/dep v1.2.0 golang-dep-dev\n"))
		}, "neither a row"},
		"a module that is not required": {func(to string, _ *debian) {
			_ = put(filepath.Join(to, "own.go"), []byte("package own\n\nimport _ \"example.org/unknown\"\n"))
		}, "go.mod requires no module that has the package example.org/unknown"},
		"a package that is not there": {func(to string, _ *debian) {
			_ = put(filepath.Join(to, "own.go"), []byte("package own\n\nimport _ \"example.org/dep/none\"\n"))
		}, "no such file"},
		"a module that nothing needs": {func(to string, _ *debian) {
			_ = put(filepath.Join(to, "own.go"), []byte("package own\n"))
		}, "nothing of it is imported"},
	} {
		to, from := example(t)
		row.change(to, &from)
		before := treeOf(t, to)
		if err := write(to, from); err == nil || !strings.Contains(err.Error(), row.fault) {
			t.Errorf("%s: %v", name, err)
		}
		if !reflect.DeepEqual(treeOf(t, to), before) {
			t.Errorf("%s: something was written", name)
		}
	}
}

// A folder that was changed is found, and a Debian that has gone on is no fault.
func TestWhatIsFound(t *testing.T) {
	for name, row := range map[string]struct {
		change   func(to string, from *debian) error
		compared int
		fault    string // "" for none
	}{
		"Debian has a newer edition of one": {func(_ string, from *debian) error {
			from.installed = func(name string) string { return map[string]string{"golang-dep-dev": "1:1.2.0+dfsg-1"}[name] }
			return put(filepath.Join(from.sources, "example.org/far/far.go"), []byte("package far // newer\n"))
		}, 1, ""},
		"Debian's packages are not there": {func(_ string, from *debian) error {
			from.installed = func(string) string { return "" }
			return os.RemoveAll(from.sources)
		}, 0, ""},
		"Debian's documents are not there": {func(_ string, from *debian) error {
			return os.RemoveAll(filepath.Join(from.documents, "golang-dep-dev"))
		}, 2, ""},
		"a file that Debian's same edition lacks": {func(_ string, from *debian) error {
			return os.Remove(filepath.Join(from.sources, "example.org/dep/dep.s"))
		}, 2, "vendor/example.org/dep has other bytes than Debian's golang-dep-dev"},
		"other bytes in Debian's same edition": {func(_ string, from *debian) error {
			return put(filepath.Join(from.sources, "example.org/far/far.go"), []byte("package far // changed\n"))
		}, 2, "vendor/example.org/far has other bytes than Debian's golang-far-dev 0.1.0-3: run go/build vendor"},
		"another license in Debian's same edition": {func(_ string, from *debian) error {
			return put(filepath.Join(from.documents, "golang-far-dev/copyright"), []byte("another\n"))
		}, 2, "vendor/example.org/far has other bytes than Debian's"},
		"a changed file": {func(to string, from *debian) error {
			from.installed = func(string) string { return "" }
			return put(filepath.Join(to, "vendor/example.org/far/far.go"), []byte("package far // changed\n"))
		}, 0, "vendor/example.org/far has other files than vendor.txt says"},
		"a file too many": {func(to string, from *debian) error {
			from.installed = func(string) string { return "" }
			return put(filepath.Join(to, "vendor/example.org/far/far_test.go"), []byte("package far\n"))
		}, 0, "vendor/example.org/far/far_test.go is of no package"},
		"a file of no module": {func(to string, _ *debian) error {
			return put(filepath.Join(to, "vendor/example.net/far/far.go"), []byte("package far\n"))
		}, 0, "of no module that go.mod requires"},
		"a license that is gone": {func(to string, _ *debian) error {
			return os.Remove(filepath.Join(to, "vendor/example.org/far/LICENSE"))
		}, 2, "vendor/example.org/far has no LICENSE"},
		"another version in go.mod": {func(to string, _ *debian) error {
			text, err := os.ReadFile(filepath.Join(to, "go.mod"))
			if err != nil {
				return err
			}
			return put(filepath.Join(to, "go.mod"), bytes.ReplaceAll(text, []byte("v0.1.0"), []byte("v0.1.1")))
		}, 2, "go.mod requires example.org/far v0.1.1, and vendor.txt has v0.1.0"},
		"a new import": {func(to string, _ *debian) error {
			return put(filepath.Join(to, "new.go"), []byte("package own\n\nimport _ \"example.org/dep/unused\"\n"))
		}, 0, "run go/build vendor"},
		"an import that is gone": {func(to string, _ *debian) error {
			return os.Remove(filepath.Join(to, "inner/inner_test.go"))
		}, 2, "vendor/modules.txt"},
	} {
		to, from := example(t)
		if err := write(to, from); err != nil {
			t.Fatal(err)
		}
		if err := row.change(to, &from); err != nil {
			t.Fatal(err)
		}
		found, compared := faults(to, from)
		if compared != row.compared || (len(found) > 0) != (row.fault != "") || !strings.Contains(strings.Join(found, "\n"), row.fault) {
			t.Errorf("%s: %d are compared: %s", name, compared, found)
		}
	}
}

// Debian's versions of releases, as Go names them.
func TestVersions(t *testing.T) {
	for edition, version := range map[string]string{
		"1.2.0-2": "v1.2.0", "1:0.4.0-1": "v0.4.0", "1:0.7.0+dfsg-1": "v0.7.0", "1.10.7-2+deb12u1": "v1.10.7", "2.0.0": "v2.0.0",
		"": "", "0.3-1": "", "0.0~git20210314.e6e6c4f-1": "", "1.2.0.3-1": "",
	} {
		if got, err := versionOf(edition); got != version || (err == nil) != (version != "") {
			t.Errorf("%q: %q %v", edition, got, err)
		}
	}
}
