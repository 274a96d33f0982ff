package cvss

import (
	"database/sql/driver"
	"fmt"
	"strings"
)

// A Version is a version of the standard.
type Version string

// The versions that are parsed.
const (
	V20 Version = "2.0"
	V30 Version = "3.0"
	V31 Version = "3.1"
	V40 Version = "4.0"
)

// A Nomenclature says which groups of metrics a v4.0 score counts, such as CVSS-BTE; it is empty in v2 and v3.
type Nomenclature string

// The nomenclatures: the score counts the base metrics, and environmental (E) or threat metrics (T) if there are any.
const (
	B   Nomenclature = "CVSS-B"
	BE  Nomenclature = "CVSS-BE"
	BT  Nomenclature = "CVSS-BT"
	BTE Nomenclature = "CVSS-BTE"
)

// A Severity is how severe a score is, in one word. The greater is the more severe.
type Severity int

// The severities. A v2 score has only the middle three.
const (
	None Severity = iota
	Low
	Medium
	High
	Critical
)

var severityWords = map[Severity]string{None: "none", Low: "low", Medium: "medium", High: "high", Critical: "critical"}

var kindWords = map[Kind]string{
	InvalidComponent:   "invalid component",
	InvalidPrefix:      "invalid prefix",
	UnsupportedVersion: "unsupported version",
	UnknownMetric:      "unknown metric",
	InvalidValue:       "invalid value",
	DuplicateMetric:    "duplicate metric",
	MissingMetric:      "missing metric",
	NotUTF8:            "not UTF-8",
}

var (
	versions      = []Version{"", V20, V30, V31, V40}
	nomenclatures = []Nomenclature{"", B, BE, BT, BTE}
	severities    = valuesOf(severityWords)
	kinds         = valuesOf(kindWords)
)

func valuesOf[Value comparable](words map[Value]string) []Value {
	var values []Value
	for value := range words {
		values = append(values, value)
	}
	return values
}

// numberOf is the library's number of a version, and 0 of what is none.
func numberOf(version Version) int32 {
	switch version {
	case V20:
		return 20
	case V30:
		return 30
	case V31:
		return 31
	case V40:
		return 40
	}
	return 0
}

// versionOf is the version of one of the library's numbers.
func versionOf(number int32) Version {
	switch number {
	case 20:
		return V20
	case 30:
		return V30
	case 31:
		return V31
	}
	return V40
}

// nomenclatureOf is the nomenclature of one of the library's numbers.
func nomenclatureOf(number int32) Nomenclature { return nomenclatures[1+number] }

// String is the version, such as 3.1.
func (v Version) String() string { return string(v) }

// String is the nomenclature, such as CVSS-BTE.
func (n Nomenclature) String() string { return string(n) }

// String is the severity in lower case.
func (s Severity) String() string { return wordOf(severityWords, s) }

// String is the kind in words, such as invalid value.
func (k Kind) String() string { return wordOf(kindWords, k) }

// wordOf is the word for a value of an enumeration, or its type and number if it has none.
func wordOf[Value ~int](words map[Value]string, value Value) string {
	if word, ok := words[value]; ok {
		return word
	}
	return fmt.Sprintf("%s(%d)", strings.TrimPrefix(fmt.Sprintf("%T", value), "cvss."), int(value))
}

// valueOf sets the value of an enumeration that a word names in any ASCII case.
func valueOf[Value fmt.Stringer](target *Value, values []Value, word string) error {
	for _, value := range values {
		if upper(value.String()) == upper(word) {
			*target = value
			return nil
		}
	}
	return fmt.Errorf("%q is no %T", word, *target)
}

// upper is a text with its ASCII letters in upper case.
func upper(text string) string {
	bytes := []byte(text)
	for i, letter := range bytes {
		if 'a' <= letter && letter <= 'z' {
			bytes[i] = letter - 'a' + 'A'
		}
	}
	return string(bytes)
}

// marshalled is the word for a value of an enumeration, or an error if it has none.
func marshalled[Value fmt.Stringer](value Value, values []Value) ([]byte, error) {
	word := value.String()
	return []byte(word), valueOf(new(Value), values, word)
}

// kept is what a database keeps of a value: its word, and NULL for an empty one.
func kept[Value fmt.Stringer](value Value, values []Value) (driver.Value, error) {
	word, err := marshalled(value, values)
	if err != nil || len(word) == 0 {
		return nil, err
	}
	return string(word), nil
}

// noNull is the error for a NULL that is scanned into a type without a value for it.
func noNull(value any) error {
	return fmt.Errorf("NULL is no %T: scan a column that may be NULL into a *%[1]T", value)
}

// scanned sets the value that a database has kept.
func scanned[Value fmt.Stringer](target *Value, values []Value, stored any) error {
	switch stored := stored.(type) {
	case nil:
		if valueOf(target, values, "") != nil {
			return noNull(*target)
		}
		return nil
	case string:
		return valueOf(target, values, stored)
	case []byte:
		return valueOf(target, values, string(stored))
	}
	return fmt.Errorf("a %T is stored as a word, and this is of the type %T", *target, stored)
}

// MarshalText is what String returns; a value without a word is an error.
func (v Version) MarshalText() ([]byte, error) { return marshalled(v, versions) }

// UnmarshalText reads a word in any ASCII case. Another text is an error, and the value stays what it was.
func (v *Version) UnmarshalText(text []byte) error { return valueOf(v, versions, string(text)) }

// Value is what a database keeps: the word, and NULL for an empty one.
func (v Version) Value() (driver.Value, error) { return kept(v, versions) }

// Scan reads what a database has kept, as UnmarshalText does.
func (v *Version) Scan(stored any) error { return scanned(v, versions, stored) }

// MarshalText is what String returns; a value without a word is an error.
func (n Nomenclature) MarshalText() ([]byte, error) { return marshalled(n, nomenclatures) }

// UnmarshalText reads a word in any ASCII case. Another text is an error, and the value stays what it was.
func (n *Nomenclature) UnmarshalText(text []byte) error {
	return valueOf(n, nomenclatures, string(text))
}

// Value is what a database keeps: the word, and NULL for an empty one.
func (n Nomenclature) Value() (driver.Value, error) { return kept(n, nomenclatures) }

// Scan reads what a database has kept, as UnmarshalText does.
func (n *Nomenclature) Scan(stored any) error { return scanned(n, nomenclatures, stored) }

// MarshalText is what String returns; a value without a word is an error.
func (s Severity) MarshalText() ([]byte, error) { return marshalled(s, severities) }

// UnmarshalText reads a word in any ASCII case. Another text is an error, and the value stays what it was.
func (s *Severity) UnmarshalText(text []byte) error { return valueOf(s, severities, string(text)) }

// Value is what a database keeps: the word.
func (s Severity) Value() (driver.Value, error) { return kept(s, severities) }

// Scan reads what a database has kept, as UnmarshalText does.
func (s *Severity) Scan(stored any) error { return scanned(s, severities, stored) }

// MarshalText is what String returns; a value without a word is an error.
func (k Kind) MarshalText() ([]byte, error) { return marshalled(k, kinds) }

// UnmarshalText reads a word in any ASCII case. Another text is an error, and the value stays what it was.
func (k *Kind) UnmarshalText(text []byte) error { return valueOf(k, kinds, string(text)) }

// Value is what a database keeps: the word.
func (k Kind) Value() (driver.Value, error) { return kept(k, kinds) }

// Scan reads what a database has kept, as UnmarshalText does.
func (k *Kind) Scan(stored any) error { return scanned(k, kinds, stored) }
