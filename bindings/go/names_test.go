package cvss_test

import (
	"database/sql"
	"database/sql/driver"
	"encoding"
	"encoding/json"
	"fmt"
	"strings"
	"testing"

	"yuntabek.example/cvss/v2"
)

// The types whose values are words.
var (
	_ named = new(cvss.Version)
	_ named = new(cvss.Nomenclature)
	_ named = new(cvss.Severity)
	_ named = new(cvss.Kind)
)

type named interface {
	fmt.Stringer
	encoding.TextMarshaler
	encoding.TextUnmarshaler
	driver.Valuer
	sql.Scanner
}

// A value is written as its word by fmt, encoding/json and database/sql, and the word is read back in any case into back.
func testWord[Value comparable](t *testing.T, value Value, word string, back named, got *Value) {
	t.Helper()
	text, err := json.Marshal(map[string]Value{"word": value})
	if expected := `{"word":"` + word + `"}`; err != nil || string(text) != expected {
		t.Errorf("%s, and not %s: %v", text, expected, err)
	}
	if got := fmt.Sprint(value); got != word {
		t.Errorf("%q, and not %q", got, word)
	}
	column, err := driver.DefaultParameterConverter.ConvertValue(value)
	if word == "" && column != nil || word != "" && column != word || err != nil {
		t.Errorf("%v is kept as %v: %v", value, column, err)
	}
	var zero Value
	for _, other := range []string{word, strings.ToUpper(word), strings.ToLower(word)} {
		*got = zero
		if err := json.Unmarshal([]byte(`"`+other+`"`), back); err != nil || *got != value {
			t.Errorf("%q is read as %v: %v", other, *got, err)
		}
		for _, column := range []any{other, []byte(other)} {
			*got = zero
			if err := back.Scan(column); err != nil || *got != value {
				t.Errorf("%v is scanned as %v: %v", column, *got, err)
			}
		}
	}
	for _, wrong := range []string{word + " ", "\u017fevere", "9.9", "9"} {
		if err := back.UnmarshalText([]byte(wrong)); err == nil || *got != value {
			t.Errorf("%q is read as %v: %v", wrong, *got, err)
		}
	}
	if err := back.Scan(9.8); err == nil || *got != value {
		t.Errorf("9.8 is scanned as %v: %v", *got, err)
	}
	if err := back.Scan(nil); word != "" && !hasEmpty(back) && (err == nil || *got != value) {
		t.Errorf("NULL is scanned as %v: %v", *got, err)
	} else if err != nil && !strings.Contains(err.Error(), "scan a column that may be NULL into a *cvss.") {
		t.Error(err)
	}
}

// hasEmpty says whether the type has an empty value, which is NULL in a database.
func hasEmpty(back named) bool { return back.UnmarshalText(nil) == nil }

func TestWordsAreWrittenAndReadBack(t *testing.T) {
	var version cvss.Version
	for _, word := range []string{"2.0", "3.0", "3.1", "4.0", ""} {
		testWord(t, cvss.Version(word), word, &version, &version)
	}
	var nomenclature cvss.Nomenclature
	for _, word := range []string{"CVSS-B", "CVSS-BE", "CVSS-BT", "CVSS-BTE", ""} {
		testWord(t, cvss.Nomenclature(word), word, &nomenclature, &nomenclature)
	}
	var severity cvss.Severity
	for value, word := range map[cvss.Severity]string{
		cvss.None: "none", cvss.Low: "low", cvss.Medium: "medium", cvss.High: "high", cvss.Critical: "critical",
	} {
		testWord(t, value, word, &severity, &severity)
	}
	var kind cvss.Kind
	for value, word := range map[cvss.Kind]string{
		cvss.InvalidComponent: "invalid component", cvss.InvalidPrefix: "invalid prefix",
		cvss.UnsupportedVersion: "unsupported version", cvss.UnknownMetric: "unknown metric",
		cvss.InvalidValue: "invalid value", cvss.DuplicateMetric: "duplicate metric",
		cvss.MissingMetric: "missing metric", cvss.NotUTF8: "not UTF-8",
	} {
		testWord(t, value, word, &kind, &kind)
	}
}

func TestValuesWithoutAWordAreNotWritten(t *testing.T) {
	for _, value := range []encoding.TextMarshaler{cvss.Severity(5), cvss.Severity(-1), cvss.Kind(0), cvss.Version("5.0"),
		cvss.Nomenclature("CVSS")} {
		if text, err := json.Marshal(value); err == nil {
			t.Errorf("%v is written as %s", value, text)
		}
	}
	if got := fmt.Sprint(cvss.Severity(5), cvss.Kind(0)); got != "Severity(5) Kind(0)" {
		t.Errorf("%q", got)
	}
}
