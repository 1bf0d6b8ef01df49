package main

import (
	"archive/zip"
	"bytes"
	"os"
	"path/filepath"
	"strings"
	"testing"
)

// The module has the library within it, and what its packages are made of, and nothing else. The same sources make the same bytes.
func TestTheModule(t *testing.T) {
	top := filepath.Join("..", "..", "..")
	files, err := read(filepath.Join(top, "go"), top)
	if err != nil {
		t.Fatal(err)
	}
	for _, path := range append([]string{"go.mod", "README.md", "claims/redis/store.go", "claims/postgres/schema.go", "claims/nats/put.go", "cmd/svidd/main.go", "internal/dev/page.html", "svidtest/svidtest.go"}, "svid/svid.h", "svid/libsvid_amd64.a", "svid/libsvid_arm64.a") {
		if _, ok := files[path]; !ok {
			t.Errorf("%s is not there", path)
		}
	}
	for path := range files {
		if strings.HasSuffix(path, "_test.go") || strings.HasPrefix(path, "vendor/") || strings.HasPrefix(path, "wrong/") || strings.HasPrefix(path, "internal/envoytest/") || path == checkout {
			t.Errorf("%s is there", path)
		}
	}
	if text := string(files[link]); strings.Contains(text, "..") || strings.Count(text, "${SRCDIR}/libsvid_a") != 2 || !strings.Contains(text, "-I${SRCDIR}\n") {
		t.Errorf("%s: %s", link, text)
	}
	one, err := pack("p@v1/", files)
	if err != nil {
		t.Fatal(err)
	}
	again, err := pack("p@v1/", files)
	if err != nil || !bytes.Equal(one, again) {
		t.Errorf("other bytes: %v", err)
	}
	archive, err := zip.NewReader(bytes.NewReader(one), int64(len(one)))
	if err != nil {
		t.Fatal(err)
	}
	if len(archive.File) != len(files) || archive.File[0].Name != "p@v1/"+sorted(files)[0] {
		t.Errorf("%d files of %d, from %s on", len(archive.File), len(files), archive.File[0].Name)
	}
}

// The version is that of the file VERSION, and the module's path ends in its major number.
func TestVersions(t *testing.T) {
	for _, row := range []struct{ text, path, version, fault string }{
		{"", "example.com/m/v3", "v3.0.0", ""}, // no file
		{"3.1.0\n", "example.com/m/v3", "v3.1.0", ""},
		{"4.0.0\n", "example.com/m/v3", "", "must end in /v4"},
		{"3.1\n", "example.com/m/v3", "", "not three numbers"},
		{"3.1.0-rc1\n", "example.com/m/v3", "", "not three numbers"},
	} {
		top := t.TempDir()
		if row.text != "" {
			if err := os.WriteFile(filepath.Join(top, "VERSION"), []byte(row.text), 0o600); err != nil {
				t.Fatal(err)
			}
		}
		version, err := versionOf(top, row.path)
		if row.fault == "" && (err != nil || version != row.version) || row.fault != "" && (err == nil || !strings.Contains(err.Error(), row.fault)) {
			t.Errorf("%q: %s %v", row.text, version, err)
		}
	}
}

// The list has each version of the folder.
func TestTheListHasEachVersion(t *testing.T) {
	folder := t.TempDir()
	for _, name := range []string{"v2.0.0.info", "v2.0.0.mod", "v2.1.0.info", "list"} {
		if err := os.WriteFile(filepath.Join(folder, name), nil, 0o600); err != nil {
			t.Fatal(err)
		}
	}
	if err := list(folder); err != nil {
		t.Fatal(err)
	}
	if text, err := os.ReadFile(filepath.Join(folder, "list")); string(text) != "v2.0.0\nv2.1.0\n" || err != nil {
		t.Errorf("%q %v", text, err)
	}
}
