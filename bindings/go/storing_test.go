package cvss_test

import (
	"bytes"
	"database/sql"
	"database/sql/driver"
	"encoding"
	"encoding/gob"
	"encoding/json"
	"errors"
	"flag"
	"io"
	"strings"
	"testing"
	"time"

	"yuntabek.example/cvss/v2"
)

var (
	_ encoding.TextMarshaler   = cvss.Vector{}
	_ encoding.TextUnmarshaler = (*cvss.Vector)(nil)
	_ encoding.BinaryMarshaler = cvss.Vector{}
	_ driver.Valuer            = cvss.Vector{}
	_ sql.Scanner              = (*cvss.Vector)(nil)

	_ encoding.BinaryUnmarshaler = (*cvss.Vector)(nil)
)

const stored = "CVSS:3.1/AV:N/AC:L/PR:N/UI:N/S:U/C:H/I:H/A:H"

func parsed(t *testing.T, text string) cvss.Vector {
	t.Helper()
	vector, err := cvss.Parse(text)
	if err != nil {
		t.Fatal(err)
	}
	return vector
}

// Parse returns the zero Vector with an error.
func TestEveryMethodOfTheZeroVectorCanBeCalled(t *testing.T) {
	var zero cvss.Vector
	if !zero.IsZero() || parsed(t, stored).IsZero() {
		t.Error("IsZero")
	}
	if zero.String() != "" || zero.Version() != "" || zero.Nomenclature() != "" || zero.IsComplete() {
		t.Errorf("%q %q %q", zero.String(), zero.Version(), zero.Nomenclature())
	}
	if got := strings.Join(scoresOf(zero), " "); got != "0.0 none 0.0 none - - - - - - - -" {
		t.Errorf("%q", got)
	}
	if len(zero.Metrics()) != 0 || len(zero.Described()) != 0 {
		t.Errorf("%v %v", zero.Metrics(), zero.Described())
	}
	for _, metrics := range [][]cvss.Metric{nil, {{Name: "E", Value: "A"}}, {{Name: "CR", Value: "H"}}} {
		var rejected *cvss.ParseError
		if own, err := zero.WithMetrics(metrics); !errors.As(err, &rejected) || own != zero {
			t.Errorf("%v: %v, %v", metrics, own, err)
		}
	}
	if len(zero.Record()) != 0 || len(zero.Explain()) != 0 || zero.WithoutNotDefined() != zero {
		t.Errorf("%s %s %v", zero.Explain(), zero.Record(), zero.WithoutNotDefined())
	}
	if text, err := zero.MarshalText(); len(text) != 0 || err != nil {
		t.Errorf("%q, %v", text, err)
	}
	if value, err := zero.Value(); value != nil || err != nil {
		t.Errorf("%v, %v", value, err)
	}
}

type advisory struct {
	ID      string
	Vector  cvss.Vector
	Vectors map[cvss.Vector]int `json:",omitempty"`
	Other   *cvss.Vector        `json:",omitempty"`
}

func TestVectorsAreJSONStrings(t *testing.T) {
	vector := parsed(t, stored)
	other := parsed(t, "AV:N/AC:L/Au:N/C:N/I:N/A:C")
	for _, row := range []struct {
		value advisory
		text  string
	}{
		{advisory{ID: "X-1", Vector: vector}, `{"ID":"X-1","Vector":"` + stored + `"}`},
		{advisory{ID: "X-2"}, `{"ID":"X-2","Vector":""}`},
		{
			advisory{Vector: vector, Vectors: map[cvss.Vector]int{other: 1}, Other: &other},
			`{"ID":"","Vector":"` + stored + `","Vectors":{"` + other.String() + `":1},"Other":"` + other.String() + `"}`,
		},
	} {
		text, err := json.Marshal(row.value)
		if err != nil || string(text) != row.text {
			t.Errorf("%s, and not %s: %v", text, row.text, err)
		}
		var back advisory
		if err := json.Unmarshal([]byte(row.text), &back); err != nil || back.Vector != row.value.Vector {
			t.Errorf("%s: %v, %v", row.text, back, err)
		}
		if len(back.Vectors) != len(row.value.Vectors) || row.value.Other != nil && *back.Other != *row.value.Other {
			t.Errorf("%s: %v", row.text, back)
		}
	}
	var back advisory
	err := json.Unmarshal([]byte(`{"Vector":"`+stored[:8]+strings.ToLower(stored[8:])+`"}`), &back)
	if err != nil || back.Vector.String() != stored {
		t.Errorf("%v, %v", back, err)
	}
	var rejected *cvss.ParseError
	if err := json.Unmarshal([]byte(`{"Vector":"AV:Q"}`), &back); !errors.As(err, &rejected) || back.Vector.IsZero() {
		t.Errorf("%v, %v", back, err)
	}
}

// encoded is what a gob has of a value.
func encoded(t *testing.T, value any) []byte {
	t.Helper()
	var buffer bytes.Buffer
	if err := gob.NewEncoder(&buffer).Encode(value); err != nil {
		t.Fatal(err)
	}
	return buffer.Bytes()
}

func TestVectorsAreGobs(t *testing.T) {
	other := parsed(t, "AV:N/AC:L/Au:N/C:N/I:N/A:C/E:ND")
	for _, value := range []advisory{
		{ID: "X-1", Vector: parsed(t, stored)},
		{ID: "X-2"},
		{Vector: parsed(t, "CVSS:4.0/AV:N/AC:L/AT:N/PR:N/UI:N/VC:H/VI:H/VA:H/SC:N/SI:N/SA:N/E:U"), Vectors: map[cvss.Vector]int{other: 1}, Other: &other},
	} {
		var back advisory
		if err := gob.NewDecoder(bytes.NewReader(encoded(t, value))).Decode(&back); err != nil {
			t.Fatal(err)
		}
		if back.ID != value.ID || back.Vector != value.Vector || back.Vectors[other] != value.Vectors[other] {
			t.Errorf("%v, and not %v", back, value)
		}
		if (back.Other == nil) != (value.Other == nil) || back.Other != nil && *back.Other != other {
			t.Errorf("%v", back.Other)
		}
	}
	back := other
	if err := gob.NewDecoder(bytes.NewReader(encoded(t, cvss.Vector{}))).Decode(&back); err != nil || !back.IsZero() {
		t.Errorf("%v, %v", back, err)
	}
}

// A gob has the text alone, so it brings no score that is not the text's.
func TestAGobIsReadAnew(t *testing.T) {
	vector := parsed(t, stored)
	if code, err := vector.MarshalBinary(); err != nil || string(code) != stored {
		t.Errorf("%q, %v", code, err)
	}
	if code := encoded(t, vector); !bytes.Contains(code, []byte(stored)) || len(code) > len(stored)+40 {
		t.Errorf("%q", code)
	}
	var back cvss.Vector
	err := back.UnmarshalBinary([]byte("CVSS:3.1/A:H/I:H/C:H/S:U/UI:N/PR:N/AC:L/AV:N"))
	if err != nil || back != vector || back.Score() != 9.8 {
		t.Errorf("%v, %v", back, err)
	}
	var rejected *cvss.ParseError
	if err := back.UnmarshalBinary([]byte("AV:\xff")); !errors.As(err, &rejected) || rejected.Kind != cvss.NotUTF8 {
		t.Error(err)
	}
	if back != vector {
		t.Errorf("%v", back)
	}
}

func TestVectorsAreFlags(t *testing.T) {
	flags := flag.NewFlagSet("", flag.ContinueOnError)
	flags.SetOutput(io.Discard)
	var vector cvss.Vector
	flags.TextVar(&vector, "vector", cvss.Vector{}, "")
	if err := flags.Parse([]string{"-vector", stored}); err != nil || vector != parsed(t, stored) {
		t.Errorf("%v, %v", vector, err)
	}
	if err := flags.Parse([]string{"-vector", "AV:N"}); err == nil {
		t.Error("AV:N is accepted")
	}
}

func TestVectorsAreStored(t *testing.T) {
	for _, vector := range []cvss.Vector{{}, parsed(t, stored), parsed(t, "AV:N/AC:L/Au:N/C:N/I:N/A:C")} {
		value, err := vector.Value()
		if err != nil || !driver.IsValue(value) {
			t.Fatalf("%v, %v", value, err)
		}
		columns := []any{value}
		if text, ok := value.(string); ok {
			columns = append(columns, []byte(text))
		}
		for _, column := range columns {
			back := parsed(t, "AV:L/AC:H/Au:M/C:N/I:N/A:P")
			if err := back.Scan(column); err != nil || back != vector {
				t.Errorf("%v: %v, %v", column, back, err)
			}
		}
	}
}

func TestWhatIsNoTextIsNotScanned(t *testing.T) {
	vector := parsed(t, stored)
	for _, column := range []any{int64(5), 1.5, true, time.Time{}, vector, []string{stored}} {
		err := vector.Scan(column)
		if err == nil || !strings.Contains(err.Error(), "scan a column of texts") {
			t.Errorf("%v: %v", column, err)
		}
	}
	var rejected *cvss.ParseError
	if err := vector.Scan("AV:Q"); !errors.As(err, &rejected) {
		t.Errorf("%v", err)
	}
	if vector != parsed(t, stored) {
		t.Errorf("%v", vector)
	}
}

// An incomplete vector is written, but not read back: the text is for ParseIncomplete.
func TestIncompleteVectorsAreNotReadBack(t *testing.T) {
	const text = "CVSS:3.1/AV:N/C:H"
	incomplete, err := cvss.ParseIncomplete(text)
	if err != nil {
		t.Fatal(err)
	}
	code, err := json.Marshal(incomplete)
	if err != nil || string(code) != `"`+text+`"` {
		t.Errorf("%s, %v", code, err)
	}
	column, err := incomplete.Value()
	if err != nil || column != text {
		t.Errorf("%v, %v", column, err)
	}
	back := parsed(t, stored)
	for name, err := range map[string]error{
		"JSON":   json.Unmarshal(code, &back),
		"text":   back.UnmarshalText([]byte(text)),
		"binary": back.UnmarshalBinary([]byte(text)),
		"gob":    gob.NewDecoder(bytes.NewReader(encoded(t, incomplete))).Decode(&back),
		"string": back.Scan(text),
		"bytes":  back.Scan([]byte(text)),
	} {
		var rejected *cvss.ParseError
		if !errors.As(err, &rejected) || rejected.Kind != cvss.MissingMetric || rejected.Metric != "AC" || back != parsed(t, stored) {
			t.Errorf("%s: %v, %v", name, back, err)
		}
	}
	var row struct{ Vector string }
	if err := json.Unmarshal([]byte(`{"Vector":`+string(code)+`}`), &row); err != nil {
		t.Fatal(err)
	}
	if own, err := cvss.ParseIncomplete(row.Vector); err != nil || own != incomplete {
		t.Errorf("%v, %v", own, err)
	}
}
