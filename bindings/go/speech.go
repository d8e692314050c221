package chinesenumber

// #include "library.h"
import "C"

// Voice says how a text is spoken. The zero value and nil mean the simplified script, the method Any,
// and 一 for 1.
type Voice struct {
	// Script is that of the new characters.
	Script Script
	// Method is Low to High, or Any, and says how large numbers are written.
	Method Way
	// Yao says 幺 for 1 in codes, such as telephone numbers.
	Yao bool
}

// TextToSpeech rewrites a text as it is spoken, with its figures, signs and measures in Chinese
// characters: 15:30到，共2.5kg becomes 十五点三十分到，共二点五千克. The rest of the text stays, and so does what
// no rule covers, such as x86, whose 86 FindUnspoken finds. The errors are NotUTF8, TooLong, and
// Unknown for the script or the method.
func TextToSpeech(text string, voice *Voice) (string, error) {
	if voice == nil {
		voice = &Voice{}
	}
	method, script := code(voice.Method, Any), code(voice.Script, Simplified)
	options := flag(voice.Yao, C.CN_YAO)
	meant, room := make([]byte, len(text)+1), make([]byte, 2*len(text)+1)
	for {
		start, length := (*C.uint8_t)(&room[0]), C.size_t(len(room))
		it := C.write_speech(text, method, script, options, (*C.uint8_t)(&meant[0]), start, length)
		if it.status != C.CN_NO_ROOM {
			return string(room[:it.length]), refusal(it.status)
		}
		room = make([]byte, it.length)
	}
}

// FindUnspoken returns the parts with figures that TextToSpeech leaves as they are, in order: 86 of
// x86. Not all of them are quantities. The errors are NotUTF8 and TooLong.
func FindUnspoken(text string) ([]Found, error) {
	var all []Found
	meant, from := make([]byte, len(text)+1), 0
	// Each call goes through the whole text, so each one finds twice as many as the one before.
	for most := 32; ; most *= 2 {
		spans := make([]C.cn_span, most)
		it := C.find_unspoken(text, C.size_t(from), (*C.uint8_t)(&meant[0]), &spans[0], C.size_t(most))
		for _, span := range spans[:it.length] {
			all = append(all, foundAt(text, span))
			from = int(span.end)
		}
		if int(it.length) < most {
			return all, refusal(it.status)
		}
	}
}
