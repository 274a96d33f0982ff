package cvss_test

import (
	"database/sql"
	"database/sql/driver"
	"encoding/json"
	"fmt"
	"strings"
	"testing"

	"yuntabek.example/cvss/v2"
)

var _ sql.Scanner = new(cvss.Score)

// The score 9.8 is that of the example in section 3.7 of the CVSS v3.1 examples, and 1.6 one that was greater than 7 while
// scores counted tenths.
func TestScoresAreNumbers(t *testing.T) {
	vector := parsed(t, stored)
	text, err := json.Marshal(map[string]any{"score": vector.Score(), "severity": vector.Severity()})
	if expected := `{"score":9.8,"severity":"critical"}`; err != nil || string(text) != expected {
		t.Errorf("%s, and not %s: %v", text, expected, err)
	}
	column, err := driver.DefaultParameterConverter.ConvertValue(vector.Score())
	if err != nil || column != 9.8 {
		t.Errorf("%v is kept as %v: %v", vector.Score(), column, err)
	}
	if score := vector.Score(); score < 7 || score != 9.8 || score.Tenths() != 98 || score.Value() != 9.8 {
		t.Errorf("%v", score)
	}
	if low := parsed(t, "CVSS:3.1/AV:P/AC:H/PR:H/UI:R/S:U/C:L/I:N/A:N").Score(); low >= 7 || low.String() != "1.6" {
		t.Errorf("%v", low)
	}
	score := vector.Score()
	if got := fmt.Sprintf("%v %s %.1f %.0f %6v", score, score, score, score, score); got != "9.8 9.8 9.8 10    9.8" {
		t.Errorf("%q", got)
	}
}

func TestScoresAreReadBack(t *testing.T) {
	for tenths := 0; tenths <= 100; tenths++ {
		written := fmt.Sprintf("%d.%d", tenths/10, tenths%10)
		var score, scanned cvss.Score
		if err := json.Unmarshal([]byte(written), &score); err != nil || score.Tenths() != tenths || score.String() != written {
			t.Errorf("%s is read as %v: %v", written, score, err)
		}
		for _, column := range []any{float64(score), float64(float32(score)), written, []byte(written)} {
			if err := scanned.Scan(column); err != nil || scanned != score {
				t.Errorf("%v is scanned as %v: %v", column, scanned, err)
			}
		}
	}
	score := cvss.Score(9.8)
	if err := json.Unmarshal([]byte("null"), &score); err != nil || score != 9.8 {
		t.Errorf("%v, %v", score, err)
	}
	if err := score.Scan(int64(7)); err != nil || score != 7 {
		t.Errorf("%v, %v", score, err)
	}
	if err := json.Unmarshal([]byte("-0.0"), &score); err != nil || score.String() != "0.0" {
		t.Errorf("%v, %v", score, err)
	}
}

func TestOtherNumbersAreNoScores(t *testing.T) {
	score := cvss.Score(9.8)
	for _, text := range []string{"98", "10.1", "9.85", "-0.1", "-9.8", "1e300", `"9.8"`, "true", "{}"} {
		if err := json.Unmarshal([]byte(text), &score); err == nil || score != 9.8 {
			t.Errorf("%s is read as %v", text, score)
		}
	}
	for _, column := range []any{int64(98), 98.0, "98", []byte("9.85"), "", "NaN", "high", nil, true} {
		if err := score.Scan(column); err == nil || score != 9.8 {
			t.Errorf("%v is scanned as %v", column, score)
		}
	}
	if err := score.Scan(nil); err == nil || !strings.Contains(err.Error(), "into a *cvss.Score") {
		t.Error(err)
	}
}
