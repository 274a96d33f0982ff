package cvss

// A Match is a vector in a text.
type Match struct {
	// Offset is the offset of its first byte in the text.
	Offset int
	// Text is the text of the match.
	Text string
	// Vector is the vector, or the zero Vector if the text of the match is rejected.
	Vector Vector
	// Err is nil; or a *ParseError, if the match is no valid vector but was probably meant as one: it begins with CVSS:
	// and has a slash, its prefix is written in another way (cvss:3.1/AV:N, CVSS3.1/AV:N) or missing (AV:N/AC:L/PR:N), or
	// it is encoded as in a link or in JSON.
	Err error
}

// Find returns the vectors in any text, in order: in a sentence, in parentheses, in a link. The text need not be UTF-8. A
// v3 vector that lacks base metrics is found, and its Err says which is the first missing one.
func Find(text []byte) []Match { return find(text, Parse) }

// FindIncomplete is Find, but accepts v3 vectors that lack base metrics.
func FindIncomplete(text []byte) []Match { return find(text, ParseIncomplete) }

func find(text []byte, parse func(string) (Vector, error)) []Match {
	var matches []Match
	var state matchStruct
	for libraryFind(text, &state) {
		match := string(text[state.offset : state.offset+state.length])
		vector, err := parse(match)
		matches = append(matches, Match{int(state.offset), match, vector, err})
	}
	return matches
}
