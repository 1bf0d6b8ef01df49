// Command module writes the files by which a Go proxy serves this module: `go/build module OUT` runs it.
//
//	module GO TOP OUT
//
// GO is the folder of the module, and TOP the one of the checkout, whose C library and header the module has in it. OUT gets the
// files @v/list, VERSION.info, VERSION.mod and VERSION.zip below the path of the module. The same sources make the same bytes.
package main

import (
	"archive/zip"
	"bytes"
	"errors"
	"fmt"
	"io/fs"
	"os"
	"path/filepath"
	"regexp"
	"sort"
	"strings"
)

// usual is the version where the checkout has no file VERSION.
const usual = "3.0.0"

// left are the folders of the module that only its own tests and measurements have a use for.
var left = regexp.MustCompile(`^(vendor|wrong|deploy|cmd/(cluster|module|svidbench|vendored)|internal/(agenttest|broker|envoytest|goroutines|natstest|scarce|vectors))(/|$)`)

// taken are the files that are code, or part of it.
var taken = regexp.MustCompile(`^go\.mod$|^README\.md$|\.go$|^internal/dev/page\.(css|html|js)$`)

// The library and its header are beside go/ in the checkout. In the module they are in the folder of the package that links them: `go mod
// vendor` copies no folder without Go files.
var library = []struct{ outside, flag, within string }{
	{"packages/c/include/svid.h", "-I${SRCDIR}/../../packages/c/include", "svid.h"},
	{"dist/x86_64/libsvid.a", "${SRCDIR}/../../dist/x86_64/libsvid.a", "libsvid_amd64.a"},
	{"dist/aarch64/libsvid.a", "${SRCDIR}/../../dist/aarch64/libsvid.a", "libsvid_arm64.a"},
}

const (
	folder = "svid/"
	link   = folder + "link.go" // has these flags

	// checkout has others, for the scripts of the checkout.
	checkout = folder + "link_checkout.go"
)

func main() {
	if len(os.Args) != 4 {
		fmt.Fprintln(os.Stderr, "module: write module GO TOP OUT")
		os.Exit(2)
	}
	if err := write(os.Args[1], os.Args[2], os.Args[3]); err != nil {
		fmt.Fprintln(os.Stderr, "module:", err)
		os.Exit(1)
	}
}

func write(from, top, out string) error {
	mod, err := os.ReadFile(filepath.Join(from, "go.mod"))
	if err != nil {
		return err
	}
	path := strings.TrimPrefix(strings.SplitN(string(mod), "\n", 2)[0], "module ")
	version, err := versionOf(top, path)
	if err != nil {
		return err
	}
	files, err := read(from, top)
	if err != nil {
		return err
	}
	archive, err := pack(path+"@"+version+"/", files)
	if err != nil {
		return err
	}
	to := filepath.Join(out, filepath.FromSlash(path), "@v")
	if err := os.MkdirAll(to, 0o755); err != nil {
		return err
	}
	for name, content := range map[string][]byte{
		version + ".info": []byte(fmt.Sprintf("{\"Version\":%q,\"Time\":\"1980-01-01T00:00:00Z\"}\n", version)), version + ".mod": mod, version + ".zip": archive,
	} {
		if err := os.WriteFile(filepath.Join(to, name), content, 0o644); err != nil {
			return err
		}
	}
	return list(to)
}

// versionOf is the version as Go spells it. Its major number stands at the end of the module's path (https://go.dev/ref/mod).
func versionOf(top, path string) (string, error) {
	text, err := os.ReadFile(filepath.Join(top, "VERSION"))
	if errors.Is(err, fs.ErrNotExist) {
		text, err = []byte(usual), nil
	}
	version := "v" + strings.TrimSpace(string(text))
	if err == nil && !regexp.MustCompile(`^v[0-9]+\.[0-9]+\.[0-9]+$`).MatchString(version) {
		err = fmt.Errorf("VERSION is %q, and not three numbers as in %s", text, usual)
	}
	if major := version[:strings.IndexByte(version+".", '.')]; err == nil && !strings.HasSuffix(path, "/"+major) {
		err = fmt.Errorf("the version is %s, so the path of the module must end in /%s: it is %s in go.mod, and in each import", version, major, path)
	}
	return version, err
}

// read reads the files of the module, by their paths in it.
func read(from, top string) (map[string][]byte, error) {
	files := map[string][]byte{}
	err := filepath.WalkDir(from, func(name string, entry fs.DirEntry, err error) error {
		if err != nil {
			return err
		}
		path, err := filepath.Rel(from, name)
		if err != nil {
			return err
		}
		path = filepath.ToSlash(path)
		switch {
		case entry.IsDir() && left.MatchString(path):
			return fs.SkipDir
		case !entry.Type().IsRegular() || !taken.MatchString(path) || strings.HasSuffix(path, "_test.go") || path == checkout:
			return nil
		}
		files[path], err = os.ReadFile(name)
		return err
	})
	if err != nil {
		return nil, err
	}
	for _, one := range library {
		if files[folder+one.within], err = os.ReadFile(filepath.Join(top, one.outside)); err != nil {
			return nil, err
		}
		text := string(files[link])
		if strings.Count(text, one.flag) != 1 {
			return nil, fmt.Errorf("%s does not have the flag %s once", link, one.flag)
		}
		within := "${SRCDIR}/" + one.within
		if strings.HasPrefix(one.flag, "-I") {
			within = "-I${SRCDIR}"
		}
		files[link] = []byte(strings.Replace(text, one.flag, within, 1))
	}
	return files, nil
}

// pack writes an archive of the files, each below a prefix.
func pack(prefix string, files map[string][]byte) ([]byte, error) {
	var archive bytes.Buffer
	w := zip.NewWriter(&archive)
	for _, path := range sorted(files) {
		entry, err := w.CreateHeader(&zip.FileHeader{Name: prefix + path, Method: zip.Deflate})
		if err == nil {
			_, err = entry.Write(files[path])
		}
		if err != nil {
			return nil, err
		}
	}
	if err := w.Close(); err != nil {
		return nil, err
	}
	return archive.Bytes(), nil
}

// list writes which versions are in the folder.
func list(folder string) error {
	entries, err := os.ReadDir(folder)
	if err != nil {
		return err
	}
	var text strings.Builder
	for _, entry := range entries {
		if version := strings.TrimSuffix(entry.Name(), ".info"); version != entry.Name() {
			fmt.Fprintln(&text, version)
		}
	}
	return os.WriteFile(filepath.Join(folder, "list"), []byte(text.String()), 0o644)
}

func sorted(files map[string][]byte) []string {
	paths := make([]string, 0, len(files))
	for path := range files {
		paths = append(paths, path)
	}
	sort.Strings(paths)
	return paths
}
