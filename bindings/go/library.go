package chinesenumber

// Without debug information, the C source compiles in half the time.

// #cgo CFLAGS: -g0
// #include "library.h"
import "C"

import "sync"

// halves are the low and the high 64 bits of a number, in two's complement.
type halves struct {
	low, high uint64
}

func halvesOf(number C.cn_number) halves {
	return halves{uint64(number.low), uint64(number.high)}
}

func (it halves) number() C.cn_number {
	return C.cn_number{low: C.uint64_t(it.low), high: C.uint64_t(it.high)}
}

// code returns the code of a choice, or of the default if the choice is zero.
func code[T Way | Script | Case | Unit](choice, other T) C.uint32_t {
	if choice == 0 {
		choice = other
	}
	return C.uint32_t(choice - 1)
}

// flag returns a flag if it is set, otherwise 0.
func flag(isSet bool, it C.uint32_t) C.uint32_t {
	if isSet {
		return it
	}
	return 0
}

// buffers are for printed texts. One in the result of a call would be copied three times.
var buffers = sync.Pool{New: func() any { return new(C.printed) }}

func newBuffer() *C.printed {
	return buffers.Get().(*C.printed)
}

// printed returns the text that a call has printed, and takes the buffer back.
func printed(buffer *C.printed) (string, error) {
	defer buffers.Put(buffer)
	if buffer.status != C.CN_DONE {
		return "", refusal(buffer.status)
	}
	return string(buffer.text[:buffer.length]), nil
}
