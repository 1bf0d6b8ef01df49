package main

import (
	"bytes"
	"encoding/json"
	"fmt"
	"os"
	"os/exec"
	"path/filepath"
	"reflect"
	"strings"
	"sync"
	"syscall"
	"testing"
	"time"
)

const (
	// imageContext is the folder that go/build image writes, and that the image is built from.
	imageContext = "../../../out/image"
	// imageUser is the user and the group of the image.
	imageUser = 65532
)

// lockImage lets one test at a time write the folder of the image and build from it. The tests of pods are processes of their own.
func lockImage(t *testing.T) (unlock func()) {
	t.Helper()
	if err := os.MkdirAll(filepath.Dir(imageContext), 0o755); err != nil {
		t.Fatal(err)
	}
	lock, err := os.OpenFile(imageContext+".lock", os.O_CREATE|os.O_RDWR, 0o600)
	if err != nil {
		t.Fatal(err)
	}
	if err := syscall.Flock(int(lock.Fd()), syscall.LOCK_EX); err != nil {
		t.Fatal(err)
	}
	return func() { lock.Close() }
}

// makeImage runs go/build image once for all tests of this process, under an umask that lets nobody else read: go/build says by itself who may.
// Who builds an image from the folder holds lockImage meanwhile. (tests/run release makes it twice, and wants the same bytes.)
func makeImage(t *testing.T) {
	t.Helper()
	imageOnce.Do(func() {
		defer lockImage(t)()
		if said, err := exec.Command("bash", "-c", "umask 077 && SVID_NO_INSTALL=1 exec ../../build image").CombinedOutput(); err != nil {
			t.Fatalf("go/build image: %v\n%s", err, said)
		}
		imageOnce.made = true
	})
	if !imageOnce.made {
		t.Fatal("go/build image failed in another test")
	}
}

var imageOnce struct {
	sync.Once
	made bool
}

// A buildah keeps its images and containers in a folder of the test. They are plain folders (vfs), so nothing is mounted
// that would outlive a test that fails. (Elsewhere it writes one cache, /var/lib/containers/cache.)
type buildah struct {
	t      *testing.T
	folder string
}

func (b buildah) words(args ...string) []string {
	return append([]string{"env", "TMPDIR=" + b.folder, "buildah", "--storage-driver=vfs",
		"--root=" + filepath.Join(b.folder, "store"), "--runroot=" + filepath.Join(b.folder, "run")}, args...)
}

// in is the start of a command line that runs a program in a container. (chroot needs no runtime, such as crun.)
func (b buildah) in(container string, options ...string) []string {
	return b.words(append(append([]string{"run", "--isolation=chroot"}, options...), container, "--")...)
}

// output runs a command line, and returns what it prints.
func (b buildah) output(words []string) string {
	b.t.Helper()
	var said bytes.Buffer
	c := exec.Command(words[0], words[1:]...)
	c.Stderr = &said
	out, err := c.Output()
	if err != nil {
		b.t.Fatalf("%q: %v (it is in Debian's buildah)\n%s", words, err, &said)
	}
	return strings.TrimSpace(string(out))
}

// do runs a command of buildah.
func (b buildah) do(args ...string) string {
	b.t.Helper()
	return b.output(b.words(args...))
}

// An imageConfig is what the image says of itself.
type imageConfig struct {
	User        string
	Entrypoint  []string
	Healthcheck struct{ Test []string }
	Volumes     map[string]struct{}
}

// The image is built by what go/deploy/Dockerfile says. It has the files that are due and no other, and
// svidd works in it.
func TestImage(t *testing.T) {
	t.Parallel()
	if testing.Short() {
		t.Skip("it builds an image")
	}
	if os.Getuid() != 0 {
		// The test mounts, and gives files to others. The root of a user namespace may do that too.
		if said, err := exec.Command("buildah", "unshare", os.Args[0], "-test.run=^TestImage$").CombinedOutput(); err != nil {
			t.Fatalf("buildah unshare: %v (it is in Debian's buildah)\n%s", err, said)
		}
		return
	}
	makeImage(t)
	unlock := lockImage(t)
	b := buildah{t, t.TempDir()}
	b.do("bud", "--isolation=chroot", "--format=docker", "--tag=svidd", imageContext)
	unlock()

	var image struct {
		Docker struct{ Config imageConfig }
	}
	if err := json.Unmarshal([]byte(b.do("inspect", "--type=image", "svidd")), &image); err != nil {
		t.Fatal(err)
	}
	due := imageConfig{
		User: fmt.Sprintf("%d:%[1]d", imageUser), Entrypoint: []string{"/usr/local/bin/svidd"},
		Volumes: map[string]struct{}{"/var/lib/svidd": {}},
	}
	due.Healthcheck.Test = []string{"CMD", "/usr/local/bin/svidd", "ready"}
	config := image.Docker.Config
	if !reflect.DeepEqual(config, due) {
		t.Fatalf("the image is %+v, and due is %+v", config, due)
	}

	b.do("from", "--pull-never", "--name=looked-into", "svidd")
	var files []string
	root := b.do("mount", "looked-into")
	if err := filepath.Walk(root, func(name string, info os.FileInfo, err error) error {
		if err == nil && name != root {
			of := info.Sys().(*syscall.Stat_t)
			files = append(files, fmt.Sprintf("%v %d:%d %s", info.Mode(), of.Uid, of.Gid, strings.TrimPrefix(name, root)))
		}
		return err
	}); err != nil {
		t.Error(err)
	}
	b.do("umount", "looked-into")
	want := `drwxr-xr-x 0:0 /etc
drwxr-xr-x 0:0 /etc/ssl
drwxr-xr-x 0:0 /etc/ssl/certs
-rw-r--r-- 0:0 /etc/ssl/certs/ca-certificates.crt
drwxr-xr-x 0:0 /run
drwx------ 65532:65532 /run/svidd
drwxr-xr-x 0:0 /usr
drwxr-xr-x 0:0 /usr/local
drwxr-xr-x 0:0 /usr/local/bin
-rwxr-xr-x 0:0 /usr/local/bin/svidd
drwxr-xr-x 0:0 /usr/share
drwxr-xr-x 0:0 /usr/share/common-licenses
-rw-r--r-- 0:0 /usr/share/common-licenses/Apache-2.0
drwxr-xr-x 0:0 /usr/share/doc
drwxr-xr-x 0:0 /usr/share/doc/libc6
-rw-r--r-- 0:0 /usr/share/doc/libc6/copyright
drwxr-xr-x 0:0 /usr/share/doc/libssl3
-rw-r--r-- 0:0 /usr/share/doc/libssl3/copyright
drwxr-xr-x 0:0 /usr/share/doc/svidd
-rw-r--r-- 0:0 /usr/share/doc/svidd/copyright
drwxr-xr-x 0:0 /var
drwxr-xr-x 0:0 /var/lib
drwx------ 65532:65532 /var/lib/svidd`
	if got := strings.Join(files, "\n"); got != want {
		t.Errorf("the image has\n%s\nand due is\n%s", got, want)
	}

	bundle, state := bundleFile(t, example), filepath.Join(t.TempDir(), "state")
	if err := os.Chmod(bundle, 0o644); err != nil {
		t.Fatal(err)
	}
	if err := os.Mkdir(state, 0o700); err != nil {
		t.Fatal(err)
	}
	if err := os.Chown(state, imageUser, imageUser); err != nil {
		t.Fatal(err)
	}
	// serve starts the sidecar in a new container, over the one state folder.
	serve := func(container string) *process {
		t.Helper()
		b.do("from", "--pull-never", "--name="+container, "svidd")
		// buildah may mount the image's own volume over the one that is given.
		b.do("config", "--volume=/var/lib/svidd-", container)
		program := append(b.in(container, "--volume="+state+":/var/lib/svidd", "--volume="+bundle+":/etc/svidd/bundle.json:ro"), config.Entrypoint...)
		return startBy(t, program, bundleOption("/etc/svidd/bundle.json"), "--state", "/var/lib/svidd", "--admin", "/run/svidd/admin.sock")
	}
	one := token(t, "image", 50*time.Minute)
	p := serve("first")
	p.want(one, 200, "")
	p.want(one, 401, "Replayed")
	if said := b.output(append(b.in("first", "--env=SVIDD_LISTEN="+p.address), config.Healthcheck.Test[1:]...)); said != "ready" {
		t.Errorf("the health check says %q", said)
	}
	report := append(b.in("first"), append(config.Entrypoint, "report", "--admin", "/run/svidd/admin.sock")...)
	if said := b.output(report); !strings.Contains(said, "\nuses 1\n") {
		t.Errorf("the report is %q", said)
	}
	p.end()
	if len(p.events("end")) != 1 {
		t.Errorf("svidd did not end by itself: %s", p.log)
	}
	kept, err := os.Stat(filepath.Join(state, "place"))
	if err != nil {
		t.Fatal(err)
	}
	if of := kept.Sys().(*syscall.Stat_t); of.Uid != imageUser || of.Gid != imageUser {
		t.Errorf("svidd runs as %d:%d", of.Uid, of.Gid)
	}

	again := serve("second")
	again.want(one, 401, "Replayed")
	again.want(token(t, "image2", 50*time.Minute), 200, "")
	again.end()
}
