package cvss

import "sync"

// Parse parses a vector by the rules of the version in its prefix; without a prefix by those of v2. It rejects a v3 vector
// that lacks base metrics, which FIRST's document makes mandatory. The error is a *ParseError.
func Parse(text string) (Vector, error) { return parse(text, 0) }

// ParseIncomplete is Parse, but accepts a v3 vector that lacks base metrics: they have no weight in its scores. IsComplete
// reports it. The vectors that WithMetrics and WithoutNotDefined return may lack them too.
func ParseIncomplete(text string) (Vector, error) { return parse(text, allowIncomplete) }

func parse(text string, flags uint32) (Vector, error) {
	return vectorOf(len(text), func(own *output, buffer []byte) int {
		return libraryParse(text, flags, &own.vector, &own.failure, buffer)
	})
}

// An output is what a call of the library writes: a vector with its text, or an error with its message.
type output struct {
	vector  vectorStruct
	failure errorStruct
	buffer  [512]byte
}

// outputs are those that no call uses.
var outputs = sync.Pool{New: func() any { return new(output) }}

// scored fills in the vector of a canonical text of this length, if it is in the buffer, and returns the length.
func (own *output) scored(length int, buffer []byte) int {
	if own.failure.kind == accepted && length <= len(buffer) {
		libraryParse(string(buffer[:length]), allowIncomplete, &own.vector, &own.failure, nil)
	}
	return length
}

// longestWords is at least the length of an error's message without the part of the text that it quotes.
const longestWords = 120

// vectorOf is what a call makes of texts of this length: a vector, or a *ParseError.
func vectorOf(length int, call func(own *output, buffer []byte) int) (Vector, error) {
	own := outputs.Get().(*output)
	defer outputs.Put(own)
	buffer := own.buffer[:]
	if length+longestWords > len(buffer) {
		buffer = make([]byte, length+longestWords)
	}
	text := string(written(buffer, func(buffer []byte) int { return call(own, buffer) }))
	if own.failure.kind != accepted {
		return Vector{}, errorFrom(&own.failure, text)
	}
	return vectorFrom(&own.vector, text), nil
}

// written is what a call writes, which returns its length. It is repeated with a longer buffer if this one is too short.
func written(buffer []byte, call func(buffer []byte) int) []byte {
	length := call(buffer)
	for length > len(buffer) {
		buffer = make([]byte, length)
		length = call(buffer)
	}
	return buffer[:length]
}
