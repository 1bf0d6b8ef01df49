// Command vendored writes the folder vendor/ of this module from the packages by which Debian has its modules: `go/build vendor` runs it.
//
//	vendored GO SOURCES DOCUMENTS
//
// GO is the folder of the module, SOURCES where Debian keeps the sources of Go libraries, and DOCUMENTS where it keeps their licenses. GO has
// the file vendor.txt, which says of each module from which Debian package it comes. The program rewrites:
//
//   - vendor/, with what `go mod vendor` keeps: the packages that this module imports, by tests too, and those that they import. It leaves
//     out files that no Go builds from the version of go.mod on. LICENSE is Debian's copyright file of the module; where that only
//     names a license of /usr/share/common-licenses, the text is beside it.
//   - vendor.txt: the version of each module and of its Debian package, and the sum of its files.
//   - go.mod: the versions of modules.
package main

import (
	"bytes"
	"crypto/sha256"
	"errors"
	"fmt"
	"go/build/constraint"
	"go/parser"
	"go/token"
	"io/fs"
	"os"
	"os/exec"
	"path"
	"path/filepath"
	"regexp"
	"sort"
	"strconv"
	"strings"
)

// commonLicenses is where Debian keeps the texts of licenses that many packages have.
const commonLicenses = "/usr/share/common-licenses"

func main() {
	if len(os.Args) != 4 {
		fmt.Fprintln(os.Stderr, "vendored: write vendored GO SOURCES DOCUMENTS")
		os.Exit(2)
	}
	if err := write(os.Args[1], debian{os.Args[2], os.Args[3], commonLicenses, installed}); err != nil {
		fmt.Fprintln(os.Stderr, "vendored:", err)
		os.Exit(1)
	}
}

// debian is where the files of Debian's packages are.
type debian struct {
	sources, documents, licenses string
	installed                    func(name string) string // the version of a package, and "" where it is not installed
}

// installed asks dpkg.
func installed(name string) string {
	said, err := exec.Command("dpkg-query", "-W", "-f", "${db:Status-Status} ${Version}", name).Output()
	if version := strings.TrimPrefix(string(said), "installed "); err == nil && version != string(said) {
		return version
	}
	return ""
}

// A module is a row of vendor.txt.
type module struct {
	path, version   string // as go.mod has them
	debian, edition string // the Debian package, and its version
	sum             string // of the files below vendor/PATH
}

const table = "vendor.txt"

const head = `# The modules in vendor/. go/build vendor writes this file and that folder from Debian's packages: CONTRIBUTING.md says how to update them.
# A row: module, its version, the Debian package that has it, the version of that, and the sum of the module's files.
# For a new module, write the module and the package.
`

// tableOf reads vendor.txt.
func tableOf(folder string) (map[string]module, error) {
	text, err := os.ReadFile(filepath.Join(folder, table))
	if err != nil {
		return nil, err
	}
	found := map[string]module{}
	for _, line := range strings.Split(string(text), "\n") {
		words := strings.Fields(line)
		switch {
		case len(words) == 0 || words[0] == "#":
		case len(words) == 2: // one that is new
			found[words[0]] = module{path: words[0], debian: words[1]}
		case len(words) == 5:
			found[words[0]] = module{words[0], words[1], words[2], words[3], words[4]}
		default:
			return nil, fmt.Errorf("%s: %q is neither a row, nor a module and its Debian package", table, line)
		}
	}
	return found, nil
}

var (
	required = regexp.MustCompile(`(?m)^(?:require )?\s*([\w.-]+\.[\w.-]+/[\w./-]+) (v[\w.+-]+)(?: //.*)?$`)
	goLine   = regexp.MustCompile(`(?m)^go (1\.(\d+))$`)
	ownLine  = regexp.MustCompile(`(?m)^module (\S+)$`)
	release  = regexp.MustCompile(`^(?:\d+:)?(\d+\.\d+\.\d+)(?:[+~][a-z]+[\w.]*)?(?:-[\w.+~]+)?$`)
)

// versionOf is the version of a module that Debian has in this edition.
func versionOf(edition string) (string, error) {
	if parts := release.FindStringSubmatch(edition); parts != nil {
		return "v" + parts[1], nil
	}
	return "", fmt.Errorf("Debian's version %s is no release of the module: teach versionOf in cmd/vendored how Go names it", edition)
}

// A mod is what go.mod says.
type mod struct {
	text     string
	own      string            // the path of this module
	minor    int               // of the Go that it needs at least
	versions map[string]string // of the modules that it requires
}

func modOf(folder string) (mod, error) {
	text, err := os.ReadFile(filepath.Join(folder, "go.mod"))
	m := mod{text: string(text), versions: map[string]string{}}
	if err != nil {
		return m, err
	}
	own, needed := ownLine.FindStringSubmatch(m.text), goLine.FindStringSubmatch(m.text)
	if own == nil || needed == nil {
		return m, errors.New("go.mod has no line module, or no line go")
	}
	m.own = own[1]
	m.minor, err = strconv.Atoi(needed[2])
	for _, parts := range required.FindAllStringSubmatch(m.text, -1) {
		m.versions[parts[1]] = parts[2]
	}
	return m, err
}

// moduleOf is the module that has a package: the one with the longest path.
func (m mod) moduleOf(name string) (string, error) {
	for at := name; at != "."; at = path.Dir(at) {
		if _, ok := m.versions[at]; ok {
			return at, nil
		}
	}
	return "", fmt.Errorf("go.mod requires no module that has the package %s: add it there, and a row to %s", name, table)
}

// isBuilt says whether some Go from 1.minor on builds a file, on whichever system and with whichever tags. (`go mod vendor` takes files
// for any Go.)
func isBuilt(content []byte, minor int) bool {
	var both []constraint.Expr
	var old []constraint.Expr
	for _, line := range strings.Split(string(content), "\n") {
		line = strings.TrimSpace(line)
		if line != "" && !strings.HasPrefix(line, "//") {
			break
		}
		if one, err := constraint.Parse(line); err == nil && constraint.IsGoBuild(line) {
			both = append(both, one)
		} else if err == nil {
			old = append(old, one)
		}
	}
	if both == nil {
		both = old
	}
	for _, one := range both {
		if !mayHold(one, minor, true) {
			return false
		}
	}
	return true
}

// mayHold says whether an expression may be what is wanted.
func mayHold(e constraint.Expr, minor int, wanted bool) bool {
	switch e := e.(type) {
	case *constraint.NotExpr:
		return mayHold(e.X, minor, !wanted)
	case *constraint.AndExpr:
		if wanted {
			return mayHold(e.X, minor, true) && mayHold(e.Y, minor, true)
		}
		return mayHold(e.X, minor, false) || mayHold(e.Y, minor, false)
	case *constraint.OrExpr:
		if wanted {
			return mayHold(e.X, minor, true) || mayHold(e.Y, minor, true)
		}
		return mayHold(e.X, minor, false) && mayHold(e.Y, minor, false)
	case *constraint.TagExpr:
		if e.Tag == "ignore" {
			return !wanted
		}
		if n, err := strconv.Atoi(strings.TrimPrefix(e.Tag, "go1.")); err == nil && strings.HasPrefix(e.Tag, "go1.") && n <= minor {
			return wanted
		}
	}
	return true
}

// filesOf reads the files of a package that builds have a use for, by their names. A package without Go files is a fault.
func filesOf(folder string, minor int, tests bool) (map[string][]byte, error) {
	entries, err := os.ReadDir(folder)
	if err != nil {
		return nil, err
	}
	files, isPackage := map[string][]byte{}, false
	for _, entry := range entries {
		name := entry.Name()
		info, err := os.Stat(filepath.Join(folder, name)) // (Debian has links to files, too)
		if err != nil {
			return nil, err
		}
		isTest, isMeta := strings.HasSuffix(name, "_test.go"), meta.MatchString(name)
		if !info.Mode().IsRegular() || isTest && !tests || isMeta || name == "go.mod" || name == "go.sum" {
			continue
		}
		content, err := os.ReadFile(filepath.Join(folder, name))
		if err != nil {
			return nil, err
		}
		if strings.HasSuffix(name, ".go") && !isBuilt(content, minor) {
			continue
		}
		isPackage = isPackage || strings.HasSuffix(name, ".go")
		files[name] = content
	}
	if !isPackage {
		return nil, fmt.Errorf("%s has no file of Go", folder)
	}
	return files, nil
}

// imports are the packages outside of the standard library that files of Go import.
func imports(files map[string][]byte) ([]string, error) {
	var found []string
	for name, content := range files {
		if !strings.HasSuffix(name, ".go") {
			continue
		}
		file, err := parser.ParseFile(token.NewFileSet(), name, content, parser.ImportsOnly)
		if err != nil {
			return nil, err
		}
		for _, one := range file.Imports {
			wanted, err := strconv.Unquote(one.Path.Value)
			if err != nil {
				return nil, err
			}
			if strings.Contains(strings.Split(wanted, "/")[0], ".") {
				found = append(found, wanted)
			}
		}
	}
	return found, nil
}

// own are the packages of others that this module imports itself.
func own(folder string, m mod) ([]string, error) {
	var found []string
	err := filepath.WalkDir(folder, func(name string, entry fs.DirEntry, err error) error {
		if err != nil || !entry.IsDir() {
			return err
		}
		if base := entry.Name(); name != folder && (base == "vendor" || base == "wrong" || base == "testdata" || strings.HasPrefix(base, ".") || strings.HasPrefix(base, "_")) {
			return fs.SkipDir
		}
		if sources, err := filepath.Glob(filepath.Join(name, "*.go")); err != nil || len(sources) == 0 {
			return err
		}
		files, err := filesOf(name, m.minor, true)
		if err != nil {
			return err
		}
		named, err := imports(files)
		for _, one := range named {
			if one != m.own && !strings.HasPrefix(one, m.own+"/") {
				found = append(found, one)
			}
		}
		return err
	})
	return found, err
}

// packages reads the packages of others that this module needs, each with its files.
func packages(folder, sources string, m mod) (map[string]map[string][]byte, error) {
	due, err := own(folder, m)
	if err != nil {
		return nil, err
	}
	found := map[string]map[string][]byte{}
	for len(due) > 0 {
		one := due[0]
		due = due[1:]
		if found[one] != nil {
			continue
		}
		if _, err := m.moduleOf(one); err != nil {
			return nil, err
		}
		files, err := filesOf(filepath.Join(sources, filepath.FromSlash(one)), m.minor, false)
		if err != nil {
			return nil, err
		}
		found[one] = files
		more, err := imports(files)
		if err != nil {
			return nil, err
		}
		due = append(due, more...)
	}
	return found, nil
}

// meta are files that say who may do what with a module: `go mod vendor` takes them, too.
var meta = regexp.MustCompile(`^(AUTHORS|CONTRIBUTORS|COPYLEFT|COPYING|COPYRIGHT|LEGAL|LICENSE|NOTICE|PATENTS)`)

// licenses reads these files of a module: those beside its sources, and those that Debian has among the documents of the package.
func licenses(one module, from debian) (map[string][]byte, error) {
	files := map[string][]byte{}
	for _, folder := range []string{filepath.Join(from.documents, one.debian), filepath.Join(from.sources, filepath.FromSlash(one.path))} {
		entries, err := os.ReadDir(folder)
		if err != nil {
			return nil, err
		}
		for _, entry := range entries {
			if !meta.MatchString(entry.Name()) {
				continue
			}
			if files[entry.Name()], err = os.ReadFile(filepath.Join(folder, entry.Name())); err != nil {
				return nil, err
			}
		}
	}
	said, err := os.ReadFile(filepath.Join(from.documents, one.debian, "copyright"))
	if err != nil || files["LICENSE"] != nil {
		return files, err
	}
	files["LICENSE"] = said
	for _, name := range named(said) {
		if !bytes.Contains(said, []byte(commonLicenses+"/"+name)) {
			continue
		}
		if files["LICENSE."+name], err = os.ReadFile(filepath.Join(from.licenses, name)); err != nil {
			return nil, err
		}
	}
	return files, nil
}

// named are the licenses that a copyright file of Debian names for what is not Debian's own.
func named(said []byte) []string {
	var found []string
	for _, paragraph := range strings.Split(string(said), "\n\n") {
		if !strings.HasPrefix(paragraph, "Files:") || strings.HasPrefix(paragraph, "Files: debian/*") {
			continue
		}
		for _, line := range strings.Split(paragraph, "\n") {
			if name := strings.TrimPrefix(line, "License: "); name != line {
				found = append(found, name)
			}
		}
	}
	return found
}

// sumOf is the sum of the files of a module, by their paths below it.
func sumOf(files map[string][]byte) string {
	all := sha256.New()
	for _, name := range sorted(files) {
		fmt.Fprintf(all, "%x  %s\n", sha256.Sum256(files[name]), name)
	}
	return fmt.Sprintf("sha256:%x", all.Sum(nil))
}

// A folder is what vendor/ has: the files of each module, by their paths below it, and its packages.
type folder struct {
	files    map[string]map[string][]byte
	packages map[string][]string
}

// read reads what vendor/ is to have. A module that go.mod requires, but that nothing imports, is a fault.
func read(folderOfGo string, m mod, rows map[string]module, from debian) (folder, error) {
	found := folder{map[string]map[string][]byte{}, map[string][]string{}}
	all, err := packages(folderOfGo, from.sources, m)
	if err != nil {
		return found, err
	}
	for name, files := range all {
		of, _ := m.moduleOf(name)
		found.packages[of] = append(found.packages[of], name)
		if found.files[of] == nil {
			if found.files[of], err = licenses(rows[of], from); err != nil {
				return found, err
			}
		}
		for file, content := range files {
			found.files[of][strings.TrimPrefix(path.Join(name, file), of+"/")] = content
		}
	}
	for of := range m.versions {
		sort.Strings(found.packages[of])
		if found.files[of] == nil {
			return found, fmt.Errorf("go.mod requires %s, and nothing of it is imported: take it out there", of)
		}
	}
	return found, nil
}

// modules writes modules.txt as `go mod vendor` does.
func (f folder) modules(m mod, sources string) (string, error) {
	var text strings.Builder
	for _, of := range sorted(f.packages) {
		said, err := os.ReadFile(filepath.Join(sources, filepath.FromSlash(of), "go.mod"))
		if err != nil && !errors.Is(err, fs.ErrNotExist) {
			return "", err
		}
		fmt.Fprintf(&text, "# %s %s\n## explicit", of, m.versions[of])
		if needed := goLine.FindSubmatch(said); needed != nil {
			fmt.Fprintf(&text, "; go %s", needed[1])
		}
		fmt.Fprintf(&text, "\n%s\n", strings.Join(f.packages[of], "\n"))
	}
	return text.String(), nil
}

func write(to string, from debian) error {
	rows, err := tableOf(to)
	if err != nil {
		return err
	}
	m, err := modOf(to)
	if err != nil {
		return err
	}
	for of, version := range m.versions {
		one, ok := rows[of]
		if !ok {
			return fmt.Errorf("%s has no row for %s: add one, as %q", table, of, of+" golang-..-dev")
		}
		if one.edition = from.installed(one.debian); one.edition == "" {
			return fmt.Errorf("the Debian package %s of %s is not installed: apt-get install %s", one.debian, of, one.debian)
		}
		if one.version, err = versionOf(one.edition); err != nil {
			return fmt.Errorf("%s: %w", of, err)
		}
		m.text = regexp.MustCompile(`(?m)(\s`+regexp.QuoteMeta(of)+` )`+regexp.QuoteMeta(version)+`( |$)`).ReplaceAllString(m.text, "${1}"+one.version+"${2}")
		m.versions[of] = one.version
		rows[of] = one
	}
	found, err := read(to, m, rows, from)
	if err != nil {
		return err
	}
	text, err := found.modules(m, from.sources)
	if err != nil {
		return err
	}
	list := head
	for _, of := range sorted(found.files) {
		one := rows[of]
		list += fmt.Sprintf("%s %s %s %s %s\n", of, one.version, one.debian, one.edition, sumOf(found.files[of]))
	}
	room, err := os.MkdirTemp(to, ".vendor")
	if err != nil {
		return err
	}
	defer os.RemoveAll(room)
	if err := os.Chmod(room, 0o755); err != nil {
		return err
	}
	for of, files := range found.files {
		for name, content := range files {
			if err := put(filepath.Join(room, filepath.FromSlash(of), filepath.FromSlash(name)), content); err != nil {
				return err
			}
		}
	}
	if err := put(filepath.Join(room, "modules.txt"), []byte(text)); err != nil {
		return err
	}
	if err := os.RemoveAll(filepath.Join(to, "vendor")); err != nil {
		return err
	}
	if err := os.Rename(room, filepath.Join(to, "vendor")); err != nil {
		return err
	}
	if err := put(filepath.Join(to, table), []byte(list)); err != nil {
		return err
	}
	return put(filepath.Join(to, "go.mod"), []byte(m.text))
}

func put(name string, content []byte) error {
	if err := os.MkdirAll(filepath.Dir(name), 0o755); err != nil {
		return err
	}
	return os.WriteFile(name, content, 0o644)
}

func sorted[T any](files map[string]T) []string {
	names := make([]string, 0, len(files))
	for name := range files {
		names = append(names, name)
	}
	sort.Strings(names)
	return names
}
