//go:build !svid_checkout

package svid

// The C library and its header. (In the module they are beside this file: `go/build module`.)

// #cgo CFLAGS: -I${SRCDIR}/../../packages/c/include
// #cgo linux,amd64 LDFLAGS: ${SRCDIR}/../../dist/x86_64/libsvid.a
// #cgo linux,arm64 LDFLAGS: ${SRCDIR}/../../dist/aarch64/libsvid.a
import "C"
