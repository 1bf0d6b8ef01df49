//go:build svid_checkout

package svid

// As link.go, by paths that are the same in each checkout: so what was compiled in one serves in all. The scripts of the checkout give this tag, and
// build in the folder go/, from where the linker reads these paths.

// #cgo linux,amd64 LDFLAGS: svid/../../dist/x86_64/libsvid.a
// #cgo linux,arm64 LDFLAGS: svid/../../dist/aarch64/libsvid.a
import "C"
