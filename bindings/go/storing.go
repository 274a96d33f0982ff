package cvss

import (
	"database/sql/driver"
	"fmt"
)

// MarshalText is the canonical text, and empty for the zero Vector: so vectors are strings in JSON and other text
// formats. It writes an incomplete vector too, which UnmarshalText rejects.
func (v Vector) MarshalText() ([]byte, error) { return []byte(v.text), nil }

// UnmarshalText parses a vector as Parse does, so it rejects a v3 vector that lacks base metrics; an empty text is the
// zero Vector. If the text is rejected, by a *ParseError, the vector keeps its value. To accept incomplete vectors,
// unmarshal a string and give it to ParseIncomplete.
func (v *Vector) UnmarshalText(text []byte) error {
	if len(text) == 0 {
		*v = Vector{}
		return nil
	}
	vector, err := Parse(string(text))
	if err != nil {
		return err
	}
	*v = vector
	return nil
}

// MarshalBinary is MarshalText: a gob of a Vector has its canonical text alone.
func (v Vector) MarshalBinary() ([]byte, error) { return v.MarshalText() }

// UnmarshalBinary is UnmarshalText: what a gob has is parsed anew, so the scores are those of the text.
func (v *Vector) UnmarshalBinary(text []byte) error { return v.UnmarshalText(text) }

// Value is what a database keeps of the vector: its canonical text, and NULL for the zero Vector.
func (v Vector) Value() (driver.Value, error) {
	if v.IsZero() {
		return nil, nil
	}
	return v.text, nil
}

// Scan reads what a database has kept: a text as UnmarshalText does, and NULL as the zero Vector. To accept incomplete
// vectors, scan a string and give it to ParseIncomplete.
func (v *Vector) Scan(stored any) error {
	switch stored := stored.(type) {
	case nil:
		*v = Vector{}
		return nil
	case string:
		return v.UnmarshalText([]byte(stored))
	case []byte:
		return v.UnmarshalText(stored)
	}
	return fmt.Errorf("a vector is stored as a text, and this is of the type %T: scan a column of texts", stored)
}
