//go:build !cgo

// Without cgo the build ends with one line, which has this name: a folder has one package. (A pattern of go:embed that no file has would
// do, too, but ends `go mod vendor` as well.)
package svid_calls_a_C_library__build_it_with_CGO_ENABLED_1_and_a_C_compiler
