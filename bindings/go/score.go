package cvss

import (
	"bytes"
	"encoding/json"
	"fmt"
	"math"
	"strconv"
)

// A Score is a score from 0.0 to 10.0, in steps of a tenth: the float64 nearest to it. So it is compared, printed and
// stored as a number: 9.8 is the number 9.8 in JSON and in a database. Reading a number that is no score is an
// error, and the Score keeps its value.
type Score float64

// Tenths is the score in tenths, which is exact.
func (s Score) Tenths() int { return int(math.Round(float64(s) * 10)) }

// Value is the float64 nearest to the score.
func (s Score) Value() float64 { return float64(s) }

// String is the score with one decimal.
func (s Score) String() string { return strconv.FormatFloat(float64(s), 'f', 1, 64) }

// Severity is the severity of the score by the bounds of a version, which V30, V31 and V40 share. If the number is no
// score, or the version unknown, ok is false.
func (s Score) Severity(version Version) (severity Severity, ok bool) {
	var own Score
	if own.set(float64(s)) != nil {
		return None, false
	}
	number := librarySeverity(numberOf(version), int32(own.Tenths()))
	if number == nothing {
		return None, false
	}
	return Severity(number), true
}

// scoreOf is the score of a number of tenths.
func scoreOf(tenths int) Score { return Score(float64(tenths) / 10) }

// set sets the score that a number is, which may have been a float32.
func (s *Score) set(number float64) error {
	score := Score(math.Abs(math.Round(number*10)) / 10)
	if !(score <= 10) || float32(score) != float32(number) {
		return fmt.Errorf("%v is no CVSS score: a score is a number from 0 to 10 with at most one decimal", number)
	}
	*s = score
	return nil
}

// UnmarshalJSON reads a number. As for a number of Go, null changes nothing.
func (s *Score) UnmarshalJSON(text []byte) error {
	if bytes.Equal(text, []byte("null")) {
		return nil
	}
	var number float64
	if err := json.Unmarshal(text, &number); err != nil {
		return err
	}
	return s.set(number)
}

// Scan reads what a database has kept: a number, which may be written as a text. A column that may be NULL is scanned
// into a *Score.
func (s *Score) Scan(stored any) error {
	switch stored := stored.(type) {
	case nil:
		return noNull(*s)
	case float64:
		return s.set(stored)
	case int64:
		return s.set(float64(stored))
	case []byte:
		return s.read(string(stored))
	case string:
		return s.read(stored)
	}
	return fmt.Errorf("a score is stored as a number, and this is of the type %T", stored)
}

// read reads a number that a database has written.
func (s *Score) read(text string) error {
	number, err := strconv.ParseFloat(text, 64)
	if err != nil {
		return fmt.Errorf("%q is no CVSS score: %w", text, err)
	}
	return s.set(number)
}
