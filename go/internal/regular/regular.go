// Package regular opens regular files, and nothing else: to open a pipe, or to read a device, may take for ever.
package regular

import (
	"bytes"
	"errors"
	"fmt"
	"io"
	"io/fs"
	"os"
	"syscall"
)

// ErrNot is what an error wraps where a name stands for something else: a pipe, a device, a socket or a folder.
var ErrNot = errors.New("is no regular file")

// Open is os.OpenFile for a regular file. It waits for nobody.
func Open(name string, flag int, mode fs.FileMode) (*os.File, error) {
	file, err := os.OpenFile(name, flag|syscall.O_NONBLOCK, mode)
	if errors.Is(err, syscall.ENXIO) { // a socket, or a pipe that nobody reads
		return nil, fmt.Errorf("%s %w", name, ErrNot)
	}
	if err != nil {
		return nil, err
	}
	info, err := file.Stat()
	if err == nil && !info.Mode().IsRegular() {
		err = fmt.Errorf("%s %w", name, ErrNot)
	}
	if err != nil {
		file.Close()
		return nil, err
	}
	return file, nil
}

// Read returns the content of a regular file. One that has more than most bytes is an error.
func Read(name string, most int64) ([]byte, error) {
	file, err := Open(name, os.O_RDONLY, 0)
	if err != nil {
		return nil, err
	}
	defer file.Close()
	var text bytes.Buffer
	if info, err := file.Stat(); err == nil && info.Size() <= most {
		text.Grow(int(info.Size()) + bytes.MinRead) // (or a long file would be copied as it is read)
	}
	if _, err := text.ReadFrom(io.LimitReader(file, most+1)); err != nil {
		return nil, err
	}
	if int64(text.Len()) > most {
		return nil, fmt.Errorf("%s has more than %d bytes", name, most)
	}
	return text.Bytes(), nil
}
