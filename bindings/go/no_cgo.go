//go:build !cgo

package chinesenumber

// Only cgo compiles the C source. Without cgo, the compiler's message says what to do.
const _ = set_CGO_ENABLED_to_1_and_install_a_C_compiler
