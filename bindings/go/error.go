package cvss

// A Kind is the kind of an error.
type Kind int

// The kinds of errors.
const (
	InvalidComponent   Kind = 1 + iota // a segment has no colon, or more than one
	InvalidPrefix                      // there is a version, but not after CVSS
	UnsupportedVersion                 // the version is none of 3.0, 3.1 and 4.0
	UnknownMetric                      // the version has no metric of this name
	InvalidValue                       // the metric has no such value
	DuplicateMetric                    // the metric is there twice
	MissingMetric                      // the metric is mandatory, and missing
	NotUTF8                            // the text is not UTF-8
)

// A ParseError says why a text or a metric is rejected: the first error in it.
type ParseError struct {
	// Kind is the kind of the error.
	Kind Kind
	// Metric is the abbreviation of the metric that has an invalid value, is there twice or is missing.
	Metric string
	// Value is the part of the text that the message quotes: the component, the prefix, the version, the unknown name or
	// the invalid value. For other kinds it is empty.
	Value string
	// Message is the error in words.
	Message string
	// Index is the index of the rejected metric among those that WithMetrics, FromMetrics and NumbersOf are given. It is
	// -1 for any other error.
	Index int
}

// Error is the error in words.
func (e *ParseError) Error() string { return e.Message }

// errorFrom is the error that the library has written, with its message.
func errorFrom(own *errorStruct, message string) *ParseError {
	start := int(own.quotedStart)
	return &ParseError{
		Kind:    Kind(own.kind),
		Metric:  textOf(&own.metric),
		Value:   message[start : start+int(own.quotedLength)],
		Message: message,
		Index:   int(own.index),
	}
}

// unsupported is the error of a version that a function does not take.
func unsupported(version Version) *ParseError {
	name := string(version)
	return &ParseError{UnsupportedVersion, "", name, "unsupported CVSS version: " + name, -1}
}
