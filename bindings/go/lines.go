package cvss

import "bytes"

// ScoreLine is the line that the command `cvss score` prints for a text, without its newline: the canonical text, the score
// and its severity, or "error: " and the message.
func ScoreLine(text string) string { return scoreLine(text, 0) }

// ScoreLineIncomplete is ScoreLine, but a v3 vector may lack base metrics.
func ScoreLineIncomplete(text string) string { return scoreLine(text, allowIncomplete) }

func scoreLine(text string, flags uint32) string {
	return string(written(make([]byte, len(text)+longestWords), func(buffer []byte) int {
		return libraryScoreLine(text, flags, buffer)
	}))
}

// ScoreLines returns the lines that the command `cvss score` prints for the lines of a text: faster than a call of
// ScoreLine for each. Each line ends with a newline, with or without one carriage return before it; a last line without a
// newline is not scored.
func ScoreLines(lines []byte) []byte { return scoreLines(lines, 0) }

// ScoreLinesIncomplete is ScoreLines, but v3 vectors may lack base metrics.
func ScoreLinesIncomplete(lines []byte) []byte { return scoreLines(lines, allowIncomplete) }

func scoreLines(lines []byte, flags uint32) []byte {
	var scored []byte
	buffer := make([]byte, 1<<16)
	for bytes.IndexByte(lines, '\n') >= 0 {
		length, read := libraryScoreLines(lines, flags, buffer)
		scored = append(scored, buffer[:length]...)
		lines = lines[read:]
		if read == 0 {
			buffer = make([]byte, 2*len(buffer))
		}
	}
	return scored
}
