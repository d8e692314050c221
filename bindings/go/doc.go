// Package chinesenumber reads, writes and finds Chinese numerals, amounts of money and dates in
// capitals, as on cheques, and exact quantities, such as 3.5万 and 三分之一. It finds dates, times of
// day, ranges and other phrases in a text, and rewrites the text in figures. It says what may come
// next in a text, and why a text is refused, in English and Chinese. It wraps a library whose
// results are proved. docs/RULES.md in the library's repository documents the result of each call.
//
// Choices are optional: a zero Way, Script, Case or Unit, and nil for a Style, an AmountForm, a
// Wanted or a Replacing, means the default. Each error is an *Error. Texts are in UTF-8, and places
// in them count bytes, as usual in Go. A text of more than 4,293,918,720 bytes is refused with
// TooLong. No call keeps C memory or other state, so any number of goroutines may call at the same
// time.
//
// cgo compiles the C source of the library, so a C compiler must be installed.
package chinesenumber
